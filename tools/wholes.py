"""Finds the floating names of a listing that may hold more than whole numbers of 16 bits: a fraction, or a larger number."""
import re

from fixes import code_of, has_fraction, has_odd_number
from scanner import capitals

# A loop from a whole number, by whole steps: its variable is whole, whatever the limit.
WHOLE_LOOP = re.compile(r"FOR *([A-Z][0-9]?%) *= *-?[0-9]+%? *TO(?![^:]*STEP *(?!-?[0-9]+%? *(?:$|:)))")
FLOATING = re.compile(r"(?<![A-Z0-9])(?:FN)?[A-Z][0-9]?(?![A-Z0-9$%])")
LET = re.compile(r" *(?:LET *)?([A-Z][0-9]?)(?:\([^=]*\))? *=")
# Statements that store nothing.
STORES_NOTHING = re.compile(r" *(?:IF((?!ELSE|DEF).)*THEN *)?(?:PRINT((?!FOR|ELSE).)*|GO *TO *[0-9]+|[0-9]+)? *$")
# Statements that store what is typed or read, which may be any number.
TAKES = ("INPUT", "MAT INPUT", "MAT READ", "READ")


class OldNames:
    """The floating names of a listing, by the names that were put in their places."""

    def __init__(self, new_names):
        self.old = {new: old for old, new in new_names.items() if new}

    def of(self, words):
        """Returns the floating names among those that these words replace."""
        return {self.old[it] for it in words if it in self.old}


class Flow:
    """The floating names that a statement stores and reads, the functions that it calls, and whether it may store a fraction
    whatever it reads."""

    def __init__(self, stores, reads, calls=frozenset(), is_doubtful=False, is_def=False):
        self.stores, self.reads, self.calls = stores, reads, calls
        self.is_doubtful, self.is_def = is_doubtful, is_def


def flows_of(line, result, old_names):
    """Yields the flows of a line; the result is the line with names that can be read, or None. A name beside a number that
    is no integer of 16 bits may hold one too."""
    text = capitals(line.text[line.begins:])
    if result is None:
        yield from flows_of_text(code_of(text))
        return
    whole, is_doubtful = set(WHOLE_LOOP.findall(capitals(result.text))), has_fraction(text)
    for statement in result.all():
        parts, is_def = statement.parts, statement.kind == "DEF"
        reads = old_names.of(it.word for it in statement.reads + parts.get("parameters", []))
        calls = old_names.of(it.word for it in parts.get("calls", []))
        stores = old_names.of(it.word for it in statement.stores if it.word not in whole)
        function = parts.get("function")
        stores |= old_names.of([function.word if is_def else function]) | (reads if has_odd_number(text) else set())
        yield Flow(stores, reads, calls, is_doubtful or statement.kind in TAKES, is_def)


def flows_of_text(code):
    """Yields the flows of a line that no rewrite makes readable: a statement may store anything in its names, or in the one
    before its =."""
    for statement in re.split(r"[:\\]", code):
        names, let = set(FLOATING.findall(statement)), LET.match(statement)
        stores = set() if STORES_NOTHING.match(statement) else {let[1]} if let else names
        yield Flow(names if has_odd_number(statement) else stores, names, is_doubtful=True, is_def=statement.lstrip().startswith("DEF"))


def doubtful_names(flows):
    """Returns the names that may hold a fraction or a large number: those that a doubtful statement stores, or one that reads
    such a name. If it calls a function, the names in its DEF are among them."""
    doubtful, before = set(), None
    while doubtful != before:
        before = set(doubtful)
        for flow in flows:
            if flow.is_doubtful or doubtful & (flow.reads | flow.calls):
                doubtful |= flow.stores | names_in_def(flow.calls, flows)
    return doubtful


def names_in_def(calls, flows):
    """Returns the names in the DEFs of functions."""
    return {name for flow in flows if flow.is_def and flow.stores & calls for name in flow.reads | flow.stores}
