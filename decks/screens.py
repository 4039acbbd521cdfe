"""What the pages of the manual show as examples, and what the terminals of decks type and show."""
import itertools
import pathlib
import re

DECKS = pathlib.Path(__file__).resolve().parent
MANUAL = [DECKS.parent / "docs" / it for it in ("LANGUAGE.md", "MONITOR.md", "FORMATS.md")]
LOGIN = re.compile(r">HELLO \S+$", re.I)


def pages(paths):
    """The pages at these paths, or those of the manual."""
    return [pathlib.Path(it) for it in paths] or MANUAL


class Example:
    """Lines that a page shows: those that are typed begin with `>`. One of files has lines of a deck, or of its output."""

    def __init__(self, page, number, lines, in_table):
        self.place = f"docs/{page.name}:{number}"
        self.lines, self.in_table = lines, in_table
        self.of_files = not lines[0].startswith(">")

    def typed(self):
        return [it[1:] for it in self.lines if it.startswith(">")]

    def shown(self):
        return [it for it in self.lines if not it.startswith(">")]

    def taken(self):
        """The lines that are typed, and not refused at once."""
        behind = self.lines[1:] + [""]
        return [it[1:] for it, other in zip(self.lines, behind) if it.startswith(">") and not re.match(r"\?\S", other)]

    def is_session(self, session):
        """Returns whether it is all that the terminal types and shows, between login and BYE if it has no login of its own."""
        lines = session if any(LOGIN.match(it) for it in self.lines) else inside(session)
        if "Ready" not in self.lines:
            lines = [it for it in lines if it != "Ready"]
        return [it.strip() for it in lines] == [it.strip() for it in self.lines] if self.in_table else lines == self.lines


def examples_of(page):
    lines = page.read_text().split("\n")
    yield from blocks(page, lines)
    yield from rows(page, lines)


def blocks(page, lines):
    """Yields each indented block as an example, except for lines of the shell."""
    numbered = enumerate(lines, 1)
    for indented, block in itertools.groupby(numbered, lambda it: it[1].startswith("    ")):
        block = [(number, line[4:].rstrip()) for number, line in block] if indented else []
        block = [it for it in block if not it[1].startswith("./rsts")]
        if block:
            yield Example(page, block[0][0], [line for _, line in block], False)


def rows(page, lines):
    """Yields each row of a table whose last columns are Example, or Program, and Shown, if both are filled in."""
    heads = []
    for number, line in enumerate(lines, 1):
        if not line.startswith("| "):
            heads = heads if line.startswith("|---") else []
            continue
        cells = [it.strip() for it in line.strip("|").split(" | ")]
        heads = heads or cells
        if heads[-2:] not in (["Example", "Shown"], ["Program", "Shown"]) or not cells[-1].endswith("`"):
            continue
        typed = re.findall(r"`([^`]+)`", cells[-2])
        if not typed:
            continue
        if re.match(r"\d", typed[-1]) and heads[-2] == "Program":
            typed.append("RUNNH")
        yield Example(page, number, [f">{it}" for it in typed] + [cells[-1].strip("` ")], True)


def inside(session):
    """Returns what is between the login and BYE."""
    front = 1 + session.index("Ready") if "Ready" in session else len(session)
    return session[front:-2] if session[-2:] == [">BYE", "Bye"] else session[front:]


def keys_of(deck):
    """Returns the key lines of each terminal."""
    terminals = []
    for line in deck.read_text("latin-1").split("\n"):
        if line.startswith("TERMINAL "):
            terminals.append([])
        elif line.startswith(">") and terminals:
            terminals[-1].append(line[1:])
    return terminals


def screens_of(report):
    """Returns the bytes of each screen. The line before a screen gives their number."""
    rest = report
    while rest.startswith("TERMINAL "):
        head, _, rest = rest.partition("\n")
        length = int(head.split()[2])
        yield rest[:length]
        rest = rest[length + 1 :]


def sessions_of(folder):
    """Returns what each terminal of a deck types and shows."""
    report = (folder / "stdout").read_bytes().decode("latin-1")
    return [session(keys, screen) for keys, screen in zip(keys_of(folder / "deck"), screens_of(report))]


def session(keys, screen):
    """Returns the lines of a screen, with `>` before those that are typed, and without spaces at their ends."""
    lines, keys = [], list(keys)
    for line in re.sub("\r\n$", "", screen).split("\r\n"):
        if keys and line == keys[0]:
            lines.append(">" + keys.pop(0).rstrip())
            continue
        if keys and line.endswith("? " + keys[0]):
            keys.pop(0)
        lines.append(line.rstrip())
    return lines
