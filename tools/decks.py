"""The forms of a deck's lines, and a deck read up to a line: what was given before it, and what may come there.

Versions 1 and 2 are those of docs/FORMATS.md. In version 3 a file may also have lines of bytes, and more names and codes."""
import re

BLOCK = 512
MOST_BLOCKS, MOST_CALLS, MOST_NUMBER = 16384, 16384, 254
MOST_PASSWORD, MOST_TERMINAL, MOST_KEYS = 6, 8, 255
MOST_ACCOUNTS, MOST_FILES, MOST_TERMINALS = 512, 512, 63
VERSIONS = (1, 2, 3)
HEADING = "RSTS-DECK "

# Why the program rejects a line, in its own words. What it says of a version names those that it takes.
ENDS, VERSION, FORM = "input ends early", "not a version 1, 2 or 3 deck", "wrong form"
RANGE, TWICE, OWNER, ROOM = "number or text out of range", "name given twice", "unknown account", "no room"

NUMBER, NAME = r"0|[1-9][0-9]*", r"[A-Z0-9]+"
NAME_3 = r"[A-Za-z0-9]+"
# Lines of the right form, with numbers and names of any size.
ACCOUNT = re.compile(rf"ACCOUNT ({NUMBER}),({NUMBER}) ([A-Z0-9]*) ({NUMBER})(?: ({NUMBER}))?")
FILE = re.compile(rf"FILE \[({NUMBER}),({NUMBER})\]([A-Z0-9]*(?:\.[A-Z0-9]*)?)<({NUMBER})> ({NUMBER})")
FILE_3 = re.compile(rf"FILE \[({NUMBER}),({NUMBER})\]([A-Za-z0-9]*(?:\.[A-Za-z0-9]*)?)<({NUMBER})> ({NUMBER})")
TERMINAL = re.compile(r"TERMINAL ([A-Z0-9]*)")
DISK = re.compile(rf"DISK ({NUMBER})")
BYTES = re.compile(r"=((?:[0-9a-f]{2})*)")

FORMS = {
    "RSTS-DECK": "RSTS-DECK version",
    "DISK": "DISK blocks, with 1 to 16384 blocks of 512 bytes",
    "ACCOUNT": "ACCOUNT p,n PASSWORD calls",
    "FILE": "FILE [p,n]NAME.EXT<code> blocks",
    "TERMINAL": "TERMINAL NAME",
    ">text": ">one line of the file's text",
    "=bytes": "=up to 512 bytes of the file, in pairs of hexadecimal digits",
    ">keys": ">one line that is typed",
    "END": "END",
}
# The parts of each form: a pattern, and what it is.
OWNED = [(NUMBER, "the project number"), (",", "a comma"), (NUMBER, "the programmer number")]
PARTS = {
    "DISK": [("DISK ", "DISK and a space"), (NUMBER, "the number of blocks")],
    "ACCOUNT": [("ACCOUNT ", "ACCOUNT and a space"), *OWNED, (" ", "a space"), (NAME, "a password of capital letters and digits"),
                (" ", "a space"), (NUMBER, "the limit of calls")],
    "FILE": [(r"FILE \[", "FILE, a space and ["), *OWNED, (r"\]", "]"), (rf"{NAME}(?:\.{NAME})?", "a name of capital letters and digits"),
             ("<", "<"), (NUMBER, "the protection code"), (">", ">"), (" ", "a space"), (NUMBER, "the number of blocks")],
    "TERMINAL": [("TERMINAL ", "TERMINAL and a space"), (NAME, "a name of capital letters and digits")],
}
NAME_PART_3 = (rf"(?:{NAME_3})?(?:\.{NAME_3})?", "a name of letters and digits")
# What may come after each line, by the word of that line.
AFTER = {
    "": ("RSTS-DECK",),
    "RSTS-DECK": ("DISK",),
    "DISK": ("ACCOUNT", "FILE", "TERMINAL", "END"),
    "ACCOUNT": ("ACCOUNT", "FILE", "TERMINAL", "END"),
    "FILE": (">text", "=bytes", "FILE", "TERMINAL", "END"),
    "TERMINAL": (">keys", "TERMINAL", "END"),
    "END": (),
}


def words_after(last, version):
    """Returns the words that may come after a line with this word, in a deck of this version."""
    return tuple(it for it in AFTER[last] if it != "=bytes" or version == 3)


def file_form(version):
    """Returns the pattern of a FILE line."""
    return FILE_3 if version == 3 else FILE


def most_code(version):
    return 255 if version == 3 else 63


def name_ranges(version):
    """Returns the least and the most letters of a stem, and those of an extension after a point."""
    return ((0, 6), (0, 6)) if version == 3 else ((1, 6), (1, 3))


class DeckBefore:
    """What the lines before one line give, and which words may come next. `where` names a line by its number."""

    def __init__(self, lines, where="line {}".format):
        self.version, self.disk, self.last, self.where = 1, 0, "", where
        self.accounts, self.files, self.terminals = {}, {}, {}
        self.file_line, self.file_bytes, self.first_place, self.disk_place = "", 0, "line 1", "line 2"
        for number, line in enumerate(lines, 1):
            self.take(where(number), line)

    def take(self, place, line):
        word = line.partition(" ")[0]
        if line.startswith((">", "=")):
            self.file_bytes += bytes_in(line)
        elif word in FORMS:
            self.last = word
            takes = {"RSTS-DECK": self.take_version, "DISK": self.take_disk, "ACCOUNT": self.take_account,
                     "FILE": self.take_file, "TERMINAL": self.take_terminal}
            if word in takes:
                takes[word](place, line)

    def take_version(self, place, line):
        self.version, self.first_place = int(line[len(HEADING):]), place

    def take_disk(self, place, line):
        self.disk, self.disk_place = int(line.partition(" ")[2]), place

    def take_account(self, place, line):
        found = ACCOUNT.fullmatch(line)
        self.accounts[found[1], found[2]] = (place, int(found[5]) if found[5] else self.disk)

    def take_file(self, place, line):
        found = file_form(self.version).fullmatch(line)
        self.files[found[1], found[2], found[3]] = (place, int(found[5]))
        self.file_line, self.file_bytes = line, 0

    def take_terminal(self, place, line):
        self.terminals[TERMINAL.fullmatch(line)[1]] = place

    def words(self):
        """Returns the words that the next line may begin with."""
        return words_after(self.last, self.version)

    def parts(self, word):
        """Returns the parts of a line of this word, in the version of the deck."""
        parts = PARTS[word] + ([(" ", "a space"), (NUMBER, "the quota of blocks")] if word == "ACCOUNT" and self.version > 1 else [])
        if word == "FILE" and self.version == 3:
            parts[5] = NAME_PART_3
        return parts

    def form(self, word):
        if word == "ACCOUNT" and self.version > 1:
            return FORMS[word] + " quota"
        return FORMS[word]

    def blocks_of(self, account=None):
        """Returns the blocks of all files, or of those of one account."""
        return sum(blocks for key, (_, blocks) in self.files.items() if account in (None, key[:2]))


def bytes_in(line):
    """Returns how many bytes of a file a line gives: its text with CR LF, or a block."""
    return BLOCK if line.startswith("=") else len(line) + 1
