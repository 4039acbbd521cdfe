"""Rewrites what can be rewritten safely in a program of another BASIC: a rewrite for each mistake that has one meaning."""
import re

from advice import Spot, advice
from programs import MOST_BYTES, Line
from scanner import FLOATING_NAME, capitals

MOST_ROUNDS, MOST_NUMBER = 100, 32767
MARK = "\xef\xbb\xbf"
# Functions of other BASICs that give fractions.
FRACTIONS = re.compile(r"CVT\$F|(?<![A-Z])(?:ATN|COS|EXP|LOG|LOG10|PI|SIN|SQR|SQRT|TAN)(?![A-Z0-9])")
# A decimal point in a format of PRINT USING.
POINT = re.compile(r"USING *(?:\"[^\"]*#\.#|'[^']*#\.#)")


def puts(text, length=0, back=0):
    """Makes a rewrite that puts a text at the place, instead of the bytes there and before it."""
    return lambda spot, fixer: spot.line[:spot.place - back] + text + spot.line[spot.place + length:]


def name_marked(spot, fixer):
    """Rewrites A to A%, or to the name that the fixer gives it."""
    end = spot.place + len(spot.word)
    end += spot.line[end:end + 1] in ("!", "#", "&")
    return renamed(spot, spot.word, end, fixer)


def function_marked(spot, fixer):
    found = re.match(r"FN[A-Z][0-9]?(?![A-Z])", spot.rest)
    return renamed(spot, found[0], spot.place + found.end(), fixer) if found else None


def renamed(spot, name, end, fixer):
    """Puts the new name of a floating one in its place, in small letters if the old one has them."""
    new = fixer.name_for(name)
    if new is None:
        return None
    old = spot.line[spot.place:spot.place + len(name)]
    return spot.line[:spot.place] + (new.lower() if old.islower() else new) + spot.line[end:]


def absolute(spot, fixer):
    if not re.match(r"ABS[ \t]*\(", spot.rest):
        return None
    return puts("ABS%", 3)(spot, fixer)


def whole_number(spot, fixer):
    text = re.match(r"[0-9]*\.?[0-9]*(?:E[+-]?[0-9]+)?", spot.rest)[0]
    value = float(text) if text not in ("", ".") else 0.5
    return puts(str(int(value)), len(text))(spot, fixer) if value == int(value) and value <= 32767 else None


def next_named(spot, fixer):
    variable = fixer.open_loop(spot.line[:spot.place])
    return spot.line[:spot.place].rstrip() + f" {variable}" + (" " if spot.rest else "") + spot.line[spot.place:] if variable else None


def next_parted(spot, fixer):
    return puts(" : NEXT ", re.match(r",[ \t]*", spot.rest).end())(spot, fixer)


def colon_dropped(spot, fixer):
    return re.sub(r"[ \t]*:[ \t]*$", " ", spot.line[:spot.place]) + spot.line[spot.place:]


def typographic(spot, fixer):
    """Rewrites all double quotes of the line at once, since a string has two."""
    line = re.sub("\xe2\x80[\x9c-\x9f]|[\x93\x94]", '"', spot.line)
    return line if line != spot.line else puts('"', 3 if spot.rest.startswith("\xe2") else 1)(spot, fixer)


def hard_space(spot, fixer):
    return puts(" ", 2 if spot.rest.startswith("\xc2") else 1)(spot, fixer)


def dash(spot, fixer):
    return puts("-", 3 if spot.rest.startswith("\xe2") else 1)(spot, fixer)


def one_word(spot, fixer):
    found = re.match(r"GO[ \t]+(TO|SUB)", spot.rest)
    return puts("GO" + found[1], found.end())(spot, fixer)


def line_input(spot, fixer):
    return puts("INPUT LINE", re.match(r"LINE[ \t]*INPUT", spot.rest).end())(spot, fixer)


# The rewrite of each mistake, by the name of its row in the table of mistakes.
REWRITES = {
    "one_letter": name_marked,
    "function_name": function_marked,
    "other_word": absolute,
    "floating": whole_number,
    "question": puts("PRINT", 1),
    "curly": typographic,
    "hard_space": hard_space,
    "dash": dash,
    "else_colon": colon_dropped,
    "no_then": puts("THEN "),
    "next_alone": next_named,
    "next_many": next_parted,
    "using_comma": puts(",", 1),
    "print_items": puts("; "),
    "prompt": puts("; "),
    "one_word": one_word,
    "line_input": line_input,
    "as_file": puts("FILE "),
    "hash": puts("#"),
}


class Fixer:
    """Rewrites the lines of a program in the order of their numbers."""

    def __init__(self, program):
        self.names = program.names() | names_in(program)
        self.fraction = line_with_fraction(program)
        self.loops = []

    def name_for(self, name):
        """Returns A% for A; None, if the program also has A%, which may be another variable, or counts with fractions."""
        return None if name + "%" in self.names or self.fraction else name + "%"

    def open_loop(self, head):
        """Returns the variable of the loop that is open after the head of a line."""
        loops = list(self.loops)
        line = Line(0, re.sub(r"[ \t:]*NEXT[ \t]*$", "", capitals(head)))
        follow(line, loops)
        return loops[-1] if loops else None

    def rewrites(self, line):
        """Yields the spot of each refusal of a line, and the line after its rewrite; None, if it has no safe one."""
        for _ in range(MOST_ROUNDS):
            if not line.refused:
                break
            spot = Spot(line.text, line.refused.place, line.refused.cause, line.refused.wanted, self.names)
            rewrite = REWRITES.get(advice(spot)[0])
            text = rewrite(spot, self) if rewrite else None
            if text is None or len(text) > MOST_BYTES:
                yield spot, None
                break
            line = Line(line.place, text)
            yield spot, line

    def fixed(self, line):
        """Returns the text of a line with all rewrites that apply."""
        for _, after in self.rewrites(line):
            line = after or line
        follow(line, self.loops)
        return line.text


def follow(line, loops):
    """Opens and closes the loops of a line."""
    for statement in line.statements:
        if statement.kind == "FOR":
            loops.append(statement.parts["variable"].word)
        elif statement.kind == "NEXT" and loops:
            loops.pop()


def names_in(program):
    """Returns the names with % in rejected lines."""
    found = set()
    for line in program.lines:
        if line.refused:
            found.update(re.findall(r"(?:FN)?[A-Z][0-9]?%", capitals(re.sub(r"\"[^\"]*\"", "", line.text))))
    return found


def line_with_fraction(program):
    """Returns the first line that counts with fractions or with numbers above 32767; None, if there is none, or no name of a
    number that could hold one."""
    if not any(line.refused and line.refused.cause == FLOATING_NAME for line in program.counted):
        return None
    return next((line for line in program.counted if has_fraction(capitals(line.text[line.begins:]))), None)


def code_of(text):
    """Returns a line without its strings and comments."""
    return re.sub(r"\"[^\"]*\"?|REM.*|!.*", "", text)


def has_odd_number(text):
    """Returns whether a line has a number that is no integer of 16 bits, or a format with a decimal point."""
    numbers = [float(it) for it in re.findall(r"(?:[0-9]+\.?[0-9]*|\.[0-9]+)(?:E[+-]?[0-9]+)?", code_of(text))]
    return POINT.search(text) is not None or any(it != int(it) or it > MOST_NUMBER for it in numbers)


def has_fraction(text):
    """Returns whether a line has such a number, divides outside of INT and not only integers, or has a function that gives a
    fraction."""
    divided = re.sub(r"INT *\([^()]*\)|% */ *[A-Z0-9]+%", "", code_of(text))
    return has_odd_number(text) or "/" in divided or FRACTIONS.search(code_of(text)) is not None


def fixed(program):
    """Returns the bytes of the fixed file, how many lines are other than before, and a line with a fraction, if there is one,
    which keeps the names of numbers as they are. Empty lines are left out."""
    fixer = Fixer(program)
    texts = {line: fixer.fixed(line) for line in program.counted if len(line.text) <= MOST_BYTES}
    rows, count = [], 0
    for line in program.lines:
        text = texts.get(line, line.text)
        if line.place == 1 and text.startswith(MARK):
            text = text[len(MARK):]
        if not text.strip(" \t\0\x1a"):
            count += 1
            continue
        count += text != line.text
        rows.append(text + "\n")
    return "".join(rows).encode("latin-1"), count, fixer.fraction
