"""Says what the program rejects in a listing, line by line and as a whole, and of what is accepted, what surprises."""
import re

from advice import Spot, advice
from programs import MOST_BYTES
from surprises import surprises
from words import commands

MARKS = ("\xef\xbb\xbf", "\xff\xfe", "\xfe\xff")


class Finding:
    """A line of output: where, how bad, and what."""

    def __init__(self, program, line, place, sort, text):
        self.file, self.line, self.place, self.sort, self.text = program.name, line.place, place, sort, text

    def __str__(self):
        text = "".join(it if " " <= it <= "~" else "." for it in self.text)
        return f"{self.file}:{self.line}:{self.place + 1}: {self.sort}: {text}"


# LINES THAT ARE NOT TYPED

def untyped(line):
    """Returns why a line cannot be one of the program, and from which place on; None, if it can be."""
    if len(line.text) > MOST_BYTES:
        return MOST_BYTES, f"the line has {len(line.text)} bytes, and at most {MOST_BYTES} can be typed; cut it into two lines"
    if line.number is not None:
        return None
    text = line.text.strip(" \t\0\x1a")
    if line.place == 1 and text.startswith(MARKS):
        return 0, "the file begins with a byte-order mark; save it as ASCII or UTF-8 without one"
    if not text:
        return 0, "a program has no empty lines; delete this one"
    if re.match(r"[A-Za-z]*", text)[0].upper() in commands():
        return 0, f"{re.match(r'[A-Za-z]*', text)[0].upper()} is a command and not a line of a program; delete it"
    return 0, "a line of a program begins with its number, and cannot go on in the next line"


def is_superfluous(line):
    """Returns whether a line without a number can be left out: it is empty, or a command."""
    text = line.text.strip(" \t\0\x1a")
    return line.number is None and (not text or re.match(r"[A-Za-z]*", text)[0].upper() in commands())


# FINDINGS

def rejected(program, line, cause, names):
    """Says what is wrong in a line that the program rejects."""
    if cause == "Illegal line number":
        return Finding(program, line, 0, "error", f"?{cause}: the number of a line is from 1 to 32767")
    if cause == "Too many lines":
        return Finding(program, line, 0, "error", f"?{cause}: a program has at most 1000 lines")
    place, wanted = line.begins, ""
    if line.refused and line.refused.cause == cause:
        place, wanted = line.refused.place, line.refused.wanted
    spot = Spot(line.text, place, cause, wanted, names)
    return Finding(program, line, spot.word_place, "error", f"?{cause}: {advice(spot)[1]}")


WHOLE = {
    "FOR without NEXT": "no NEXT after this FOR names its variable",
    "NEXT without FOR": "no FOR is open here, or the nearest one has another variable",
    "DEF without FNEND": "no FNEND ends this DEF, or it is inside another",
    "FNEND without DEF": "no DEF is open here",
    "Double definition": "this function has a DEF already",
    "Reference across a body": "no line can jump into a DEF .. FNEND, or out of it; ON ERROR and RESUME cannot be in one",
    "Wrong arguments": "a call has other arguments than the DEF of its function",
    "Double DIM": "an array is dimensioned twice",
    "Result outside body": "a function gets its result only between its DEF and FNEND",
    "Virtual array in MAT": "an array of DIM # cannot be used by MAT",
}


def undefined_lines(program):
    """Finds every line that is named and not there."""
    numbers = {it.number for it in program.counted}
    for line in program.counted:
        for statement in line.all():
            for jump in statement.jumps:
                if jump.line and jump.line not in numbers:
                    yield Finding(program, line, jump.place, "error", f"?Undefined line: there is no line {jump.line}")


def undefined_functions(program):
    """Finds every call of a function that has no DEF."""
    defined = {it.parts["function"].word for line in program.counted for it in line.all() if it.kind == "DEF"}
    for line in program.counted:
        for statement in line.all():
            for token in statement.parts.get("calls", []):
                if token.word not in defined:
                    yield Finding(program, line, token.place, "error", f"?Undefined function: no DEF defines {token.word}")


def of_the_whole(program, whole):
    """Says what is wrong in the program as a whole, though each line is right."""
    cause, number = whole
    if cause == "Undefined line":
        return list(undefined_lines(program))
    if cause == "Undefined function":
        return list(undefined_functions(program))
    line = next((it for it in program.counted if it.number == number), program.counted[0])
    return [Finding(program, line, line.begins, "error", f"?{cause}: {WHOLE.get(cause, 'the program is rejected here')}")]


def findings(program, judgement, entries):
    """Returns all findings of a program, in the order of its lines."""
    found, names = [], program.names()
    for line in program.lines:
        why = untyped(line)
        if why:
            found.append(Finding(program, line, why[0], "error", why[1]))
        elif line in judgement.refused:
            found.append(rejected(program, line, judgement.refused[line], names))
    if judgement.whole:
        found += of_the_whole(program, judgement.whole)
    if not judgement.refused:
        found += [Finding(program, line, place, "warning", text) for line, place, text in surprises(program, entries)]
    return sorted(found, key=lambda it: (it.line, it.place))
