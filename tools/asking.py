"""Asks the program what it says of the lines of programs: it types them at the terminals of a deck and reads the screens."""
import pathlib
import subprocess

from reports import screens_of

RSTS = pathlib.Path(__file__).resolve().parent.parent / "rsts"
MOST_TERMINALS, BLOCK = 60, 512
HELLO, READY = "HELLO 1,2;LINT", "Ready"


class NoAnswer(Exception):
    """The program did not run, or a screen is not as expected."""


def blocks_of(typed):
    return sum(len(it) + 2 for it in typed) // BLOCK + 1


def deck_of(sessions):
    """Returns a deck in which each terminal types the lines of one session."""
    disk = min(16384, 1 + sum(blocks_of(typed) for typed in sessions))
    lines = ["RSTS-DECK 1", f"DISK {disk}", "ACCOUNT 1,2 LINT 16384"]
    for number, typed in enumerate(sessions):
        lines += [f"TERMINAL T{number}", ">" + HELLO] + [">" + it for it in typed]
    return "\n".join(lines + ["END", ""]).encode("latin-1")


def answers_in(screen, typed):
    """Returns what the screen shows after each typed line, up to the next."""
    at, answers = 0, []
    for number, keys in enumerate([HELLO] + typed):
        echo = keys + "\r\n"
        if not screen.startswith(echo, at):
            raise NoAnswer(f"no echo of {keys!r}")
        at += len(echo)
        following = ([HELLO] + typed + ["Bye"])[number + 1] + "\r\n"
        end = at
        while not screen.startswith(following, end):
            found = screen.find("\r\n", end)
            if found < 0:
                raise NoAnswer(f"no line {following!r} after {keys!r}")
            end = found + 2
        answers.append([it for it in screen[at:end].split("\r\n") if it])
        at = end
    return answers[1:]


def screens(sessions):
    # What ./rsts says on standard error is seen at once: the first run may have to compile.
    told = subprocess.run([str(RSTS), "run"], input=deck_of(sessions), stdout=subprocess.PIPE)
    if told.returncode:
        raise NoAnswer(f"it ended with status {told.returncode}")
    return [screen.decode("latin-1") for _, screen in screens_of(told.stdout)[0]]


def batches_of(sessions):
    """Yields sessions in groups that fit in one deck: by their number, and by the blocks that they need."""
    group, blocks = [], 0
    for typed in sessions:
        needed = blocks_of(typed)
        if group and (len(group) == MOST_TERMINALS or blocks + needed > 16000):
            yield group
            group, blocks = [], 0
        group.append(typed)
        blocks += needed
    if group:
        yield group


def answers_to(sessions):
    """Returns the answers to each line of each session. A session is the lines that are typed after the login."""
    found = []
    for group in batches_of(sessions):
        found += [answers_in(screen, typed) for screen, typed in zip(screens(group), group)]
    return found


def refusal(answer):
    """Returns the text of a rejection without its `?`, or None if the line was taken."""
    return answer[0][1:] if answer and answer[0].startswith("?") else None


class Judgement:
    """What the program says of a file: each rejected line with its cause, and the first cause of the whole program."""

    def __init__(self, refused, whole):
        self.refused, self.whole = refused, whole


def session_for(program, place, skipped=()):
    """Types the program, saves it, and chains to a line that is not there: so it is looked at as a whole and does not run."""
    typed = [f"{it.number} REM" if it in skipped else it.text for it in program.lines if it.is_typed()]
    taken = {it.number for it in program.lines}
    absent = next(it for it in range(32767, 0, -1) if it not in taken)
    return typed + [f"SAVE L{place}", f'CHAIN "L{place}" LINE {absent}'], f"Undefined line at line {absent}"


def judge(programs):
    """Judges each program by the program itself."""
    sessions = [session_for(it, at) for at, it in enumerate(programs)]
    answers = answers_to([typed for typed, _ in sessions])
    refused = [refused_in(program, answer) for program, answer in zip(programs, answers)]
    wholes = [whole_cause(answer[-1], end) for answer, (_, end) in zip(answers, sessions)]
    again = [at for at, it in enumerate(refused) if it]
    sessions = [session_for(programs[at], place, set(refused[at])) for place, at in enumerate(again)]
    for at, answer, (_, end) in zip(again, answers_to([typed for typed, _ in sessions]), sessions):
        whole = whole_cause(answer[-1], end)
        # Without the rejected lines another cause may be no mistake.
        wholes[at] = whole if whole and whole[0].startswith("Undefined line") else None
    return [Judgement(*it) for it in zip(refused, wholes)]


def refused_in(program, answers):
    typed = [it for it in program.lines if it.is_typed()]
    found = {}
    for line, answer in zip(typed, answers):
        cause = refusal(answer)
        if cause:
            found[line] = cause
    return found


def whole_cause(answer, end):
    """Returns the cause and the line of a program that is rejected as a whole, or None."""
    cause = refusal(answer)
    if cause is None or cause == end:
        return None
    text, _, number = cause.partition(" at line ")
    return (text, int(number)) if number.isdigit() else (text, None)
