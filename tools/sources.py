"""Decks that are made of other files: each line with its place, and the sources of decks, with comments and included files."""
import os
import pathlib
import typing

from causes import MOST_SAID, Place, forms, printable, why
from disks import BadDeck, ended, read, without_cr

MARK = b"\xef\xbb\xbf"


class Refused(Exception):
    """Why no deck is made: a line for each reason."""

    def __init__(self, *reasons):
        super().__init__("\n".join(reasons))
        self.reasons = reasons


class Line(typing.NamedTuple):
    """A line of a deck, where it is from, as source.deck:12, and perhaps more about it."""

    text: bytes
    place: str
    more: str = ""


def text_of(lines):
    return b"".join(ended(it.text) for it in lines)


def fault_in(lines):
    """Returns the line of the deck that is rejected and why, as a reason to refuse it; None for a good deck."""
    text = text_of(lines)
    try:
        read(text)
    except BadDeck as bad:
        def where(number):
            return lines[min(number, len(lines)) - 1].place
        place = Place(text, bad.number, bad.cause, where)
        reason = why(place)[1] or f"the form is {forms(place)}"
        more = lines[bad.number - 1].more if bad.number <= len(lines) else ""
        return f"{where(bad.number)}: {bad.cause}: {printable(reason, MOST_SAID)}{more}"
    return None


def judged(lines):
    """Returns the lines of a good deck; raises Refused for others."""
    fault = fault_in(lines)
    if fault:
        raise Refused(fault)
    return lines


# SOURCES

def rows_in(data):
    """Returns the rows of a text, each without its LF, or CR and LF."""
    rows = data.split(b"\n")
    return [without_cr(row) for row in (rows if rows[-1] else rows[:-1])]


def kept_rows(data):
    """Yields the rows that are neither empty nor comments, each with its number."""
    for number, row in enumerate(rows_in(data), 1):
        if row.strip() and not row.lstrip().startswith(b"!"):
            yield number, row


def is_inside(path, folder):
    """Returns whether the file is in the folder, also if one of them is a link."""
    real, home = os.path.realpath(path), os.path.realpath(folder)
    return os.path.commonpath([real, home]) == home


def included(source, place, name, given):
    """Returns the lines of a file that a source includes, each as one that is typed."""
    if name in given:
        return typed_rows(given[name], place, name)
    path = source.parent / name
    if not name or os.path.isabs(name) or not is_inside(path, source.parent):
        raise Refused(f"{place}: {name or 'no file is named, and it'} is not in the folder of the source")
    try:
        data = path.read_bytes()
    except FileNotFoundError:
        raise Refused(f"{place}: no such file: {name}") from None
    except OSError as fault:
        raise Refused(f"{place}: {name} cannot be read: {fault.strerror}") from None
    if data.startswith(MARK):
        raise Refused(f"{place}: {name} begins with a byte-order mark; save it without one")
    if b"\0" in data:
        raise Refused(f"{place}: {name} is not a text; it has a byte 0")
    return typed_rows(data, place, name)


def typed_rows(data, place, name):
    return [Line(b">" + row, place, f" (line {number} of {name})") for number, row in enumerate(rows_in(data), 1)]


def deck_of_source(name, given=None):
    """Returns the lines of the deck that a source describes. `given` has the bytes of files by the names that the source uses."""
    source, lines = pathlib.Path(name), []
    for number, row in kept_rows(source.read_bytes()):
        place = f"{name}:{number}"
        if row.startswith(b"@"):
            lines += included(source, place, os.fsdecode(row[1:].strip()), given or {})
        else:
            lines.append(Line(row, place))
    if not lines:
        raise Refused(f"{name}: the source has no lines")
    return judged(lines)
