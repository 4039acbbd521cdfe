"""The words of the language and of decks, read from the sources, so that no tool has a list of its own."""
import pathlib
import re

TOP = pathlib.Path(__file__).resolve().parent.parent
CRATES = TOP / "crates"


def text_of(path):
    return (CRATES / path).read_text()


def table_of(name):
    """Returns the entries of a table of the scanner: the name of each and its spelling."""
    source = text_of("basic_scanner/src/words.rt")
    rows = re.search(rf"static {name}: .*?= \[\n(.*?)\n\];", source, re.S)[1]
    return [(entry, word.replace("\\\\", "\\")) for entry, word in re.findall(r'\(\w+::(\w+), b"(.+)"\),', rows)]


def keywords():
    """Returns every keyword, the names of functions too."""
    return [word for _, word in table_of("KEYWORDS")]


def signs():
    return [word for _, word in table_of("SIGNS")]


def functions():
    """Returns the spellings of the functions."""
    entries = re.findall(r"Keyword::(\w+) => Some\(Function::", text_of("basic_expr/src/tables.rt"))
    return [word for entry, word in table_of("KEYWORDS") if entry in entries]


def commands():
    """Returns the words of the command level."""
    return sorted(set(re.findall(r'is_word\(word, b"([A-Z]+)"\)', text_of("command_level/src/commands.rt"))))


def deck_words():
    """Returns the words that lines of a deck begin with."""
    return list(dict.fromkeys(re.findall(r'b"([A-Z][A-Z-]+)', text_of("deck_reader/src/forms.rt"))))
