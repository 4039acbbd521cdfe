"""Reads a file of a program: its lines, their numbers, and what the grammar makes of them."""
import re

from grammar import statements_of
from scanner import Refused, capitals

MOST_BYTES = 255


class Line:
    """A line of the file: its place from 1, its text, its number if it has one, and its statements or why it has none."""

    def __init__(self, place, text):
        self.place, self.text = place, text
        found = re.match(r"[ \t]*([0-9]+)", text)
        self.number = int(found[1]) if found else None
        self.begins = found.end() if found else 0
        self.statements, self.separators, self.refused = [], [], None
        if found:
            self.read()

    def read(self):
        try:
            self.statements, self.separators = statements_of(self.text, self.begins)
        except Refused as refused:
            self.refused = refused

    def is_typed(self):
        """Returns whether the line can be typed at a terminal as a line of the program."""
        return self.number is not None and len(self.text) <= MOST_BYTES

    def all(self):
        """Yields all statements, those in clauses too."""
        for statement in self.statements:
            yield from statement.all()


def functions_in(statement):
    """Returns the tokens of the functions that a statement calls and defines, and of their parameters."""
    parts = statement.parts
    return parts.get("calls", []) + parts.get("parameters", []) + ([parts["function"]] if statement.kind == "DEF" else [])


class Program:
    """The lines of a file, in its order, and those that count, in the order of their numbers."""

    def __init__(self, name, data):
        self.name = name
        text = data.decode("latin-1")
        rows = text.split("\n")
        if rows and rows[-1] == "":
            rows.pop()
        self.lines = [Line(place, row[:-1] if row.endswith("\r") else row) for place, row in enumerate(rows, 1)]
        counted = {line.number: line for line in self.lines if line.number is not None}
        self.counted = [counted[number] for number in sorted(counted)]

    def names(self):
        """Returns all names in accepted lines, and in rejected ones those that are no part of a longer word."""
        found = set()
        for line in self.counted:
            for statement in line.all():
                found.update(it.word for it in statement.reads + statement.stores + functions_in(statement))
            if line.refused:
                found.update(re.findall(r"(?<![A-Z0-9])[A-Z][0-9]?[%$]", capitals(re.sub(r"\"[^\"]*\"", "", line.text))))
        return found
