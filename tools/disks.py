"""A disk, read from a deck as the program reads it, and written as one: its accounts, its files with all bytes, its terminals."""
import dataclasses
import re
import typing

from decks import (ACCOUNT, BLOCK, BYTES, DISK, ENDS, FORM, HEADING, MOST_ACCOUNTS, MOST_BLOCKS, MOST_CALLS, MOST_FILES, MOST_KEYS, MOST_NUMBER,
                   MOST_PASSWORD, MOST_TERMINAL, MOST_TERMINALS, OWNER, RANGE, ROOM, TERMINAL, TWICE, VERSION, VERSIONS, file_form, most_code,
                   name_ranges, words_after)

# Bytes that are in no line of a text: control bytes other than TAB.
ODD = re.compile(rb"[\0-\x08\x0a-\x1f\x7f]")


@dataclasses.dataclass
class Account:
    """An account: its two numbers as 100,5, its password, limit of calls and quota of blocks."""

    number: str
    password: str
    calls: int
    quota: int


@dataclasses.dataclass
class File:
    """A file: its owner as 100,5, and its bytes without the zeros that fill its last blocks."""

    owner: str
    name: str
    code: int
    blocks: int
    data: bytes

    def whole(self):
        """Returns all bytes of the blocks."""
        return self.data.ljust(BLOCK * self.blocks, b"\0")


@dataclasses.dataclass
class Terminal:
    name: str
    keys: typing.List[bytes]


@dataclasses.dataclass
class Disk:
    blocks: int = 0
    accounts: typing.List[Account] = dataclasses.field(default_factory=list)
    files: typing.List[File] = dataclasses.field(default_factory=list)
    terminals: typing.List[Terminal] = dataclasses.field(default_factory=list)


# READING

class BadDeck(Exception):
    """The line of a deck that is rejected, and the program's words for it."""

    def __init__(self, number, cause):
        super().__init__(f"deck line {number}: {cause}")
        self.number, self.cause = number, cause


class Rejected(Exception):
    """Why a line is rejected."""


def reject_if(is_so, cause):
    if is_so:
        raise Rejected(cause)


def number_between(least, text, most):
    """Returns the number of these digits."""
    reject_if(len(text) > 9 or not least <= int(text) <= most, RANGE)
    return int(text)


def account_of(found):
    """Returns the account whose numbers are the first two parts of a line."""
    return f"{number_between(1, found[1], MOST_NUMBER)},{number_between(0, found[2], MOST_NUMBER)}"


def is_name(text, lengths):
    return lengths[0] <= len(text) <= lengths[1]


def formed(pattern, line):
    """Returns the parts of a line that has the form."""
    found = pattern.fullmatch(line)
    reject_if(not found, FORM)
    return found


class Reader:
    """A deck whose lines are read one by one, each after those that were taken."""

    def __init__(self):
        self.disk, self.version, self.last, self.words = Disk(), 0, "", ()
        self.accounts, self.names, self.blocks, self.owned = {}, set(), 0, {}
        self.content = bytearray()
        self.takes = {"DISK": self.take_disk, "ACCOUNT": self.take_account, "FILE": self.take_file, "TERMINAL": self.take_terminal, "END": self.take_end}
        self.takes_content = {">text": self.take_text, "=bytes": self.take_bytes, ">keys": self.take_keys}

    def take(self, line):
        """Takes the next line."""
        if not self.last:
            self.take_heading(line.decode("latin-1"))
        elif line.startswith((b">", b"=")):
            word = "=bytes" if line.startswith(b"=") else ">text" if self.last == "FILE" else ">keys"
            reject_if(word not in self.words, FORM)
            self.takes_content[word](line)
        else:
            text = line.decode("latin-1")
            word = text.partition(" ")[0]
            reject_if(word not in self.words, FORM)
            self.takes[word](text)
            self.comes_after(word)

    def comes_after(self, word):
        self.last, self.words = word, words_after(word, self.version)

    def take_heading(self, text):
        reject_if(text not in [f"{HEADING}{it}" for it in VERSIONS], VERSION)
        self.version = int(text[len(HEADING):])
        self.comes_after("RSTS-DECK")

    def take_disk(self, text):
        self.disk.blocks = number_between(1, formed(DISK, text)[1], MOST_BLOCKS)

    def take_account(self, text):
        found = formed(ACCOUNT, text)
        reject_if((found[5] is None) != (self.version == 1), FORM)
        reject_if(not is_name(found[3], (1, MOST_PASSWORD)), RANGE)
        calls = number_between(1, found[4], MOST_CALLS)
        quota = self.disk.blocks if found[5] is None else number_between(0, found[5], MOST_BLOCKS)
        account = Account(account_of(found), found[3], calls, quota)
        reject_if(account.number in self.accounts, TWICE)
        reject_if(len(self.accounts) == MOST_ACCOUNTS, ROOM)
        self.accounts[account.number] = account
        self.disk.accounts.append(account)

    def take_file(self, text):
        self.close_file()
        found = formed(file_form(self.version), text)
        owner = account_of(found)
        stem, point, extension = found[3].partition(".")
        stems, extensions = name_ranges(self.version)
        reject_if(not is_name(stem, stems) or point and not is_name(extension, extensions), RANGE)
        code = number_between(0, found[4], most_code(self.version))
        blocks = number_between(0, found[5], MOST_BLOCKS)
        name = stem + ("." + extension if extension else "")
        reject_if((owner, name) in self.names, TWICE)
        reject_if(owner not in self.accounts, OWNER)
        used, owned = self.blocks + blocks, self.owned.get(owner, 0) + blocks
        reject_if(len(self.names) == MOST_FILES or used > self.disk.blocks or owned > self.accounts[owner].quota, ROOM)
        self.names.add((owner, name))
        self.blocks, self.owned[owner] = used, owned
        self.disk.files.append(File(owner, name, code, blocks, b""))

    def take_text(self, line):
        self.add(line[1:] + b"\r\n")

    def take_bytes(self, line):
        digits = formed(BYTES, line.decode("latin-1"))[1]
        reject_if(len(digits) > 2 * BLOCK, RANGE)
        self.add(bytes.fromhex(digits).ljust(BLOCK, b"\0"))

    def add(self, content):
        """Adds bytes to the last file, which has room for them."""
        reject_if(len(self.content) + len(content) > BLOCK * self.disk.files[-1].blocks, ROOM)
        self.content += content

    def close_file(self):
        """Gives the last file its bytes."""
        if self.last == "FILE":
            self.disk.files[-1].data = bytes(self.content).rstrip(b"\0")
            self.content.clear()

    def take_terminal(self, text):
        self.close_file()
        name = formed(TERMINAL, text)[1]
        reject_if(not is_name(name, (1, MOST_TERMINAL)), RANGE)
        reject_if(any(it.name == name for it in self.disk.terminals), TWICE)
        reject_if(len(self.disk.terminals) == MOST_TERMINALS, ROOM)
        self.disk.terminals.append(Terminal(name, []))

    def take_keys(self, line):
        reject_if(len(line) - 1 > MOST_KEYS, RANGE)
        self.disk.terminals[-1].keys.append(line[1:])

    def take_end(self, text):
        self.close_file()
        reject_if(text != "END", FORM)


def without_cr(row):
    """Returns a row without the CR that may be before its LF."""
    return row[:-1] if row.endswith(b"\r") else row


def read(text):
    """Returns the disk of a deck; raises BadDeck for the first line that cannot continue a deck."""
    reader = Reader()
    rows = text.split(b"\n")
    for number, row in enumerate(rows[:-1], 1):
        try:
            reader.take(without_cr(row))
        except Rejected as fault:
            raise BadDeck(number, str(fault)) from None
    if rows[-1] or reader.last != "END":
        raise BadDeck(len(rows), ENDS)
    return reader.disk


# WRITING

def is_text(data):
    """Returns whether the bytes are lines that end with CR LF, without control bytes other than TAB."""
    return not data or data.endswith(b"\r\n") and not ODD.search(data.replace(b"\r\n", b""))


def content_lines(data, blocks):
    """Returns the lines of a file: those of its text, or one for the bytes of each block."""
    data = data.rstrip(b"\0")
    if is_text(data):
        return [b">" + line for line in data.split(b"\r\n")[:-1]]
    return [b"=" + data[BLOCK * at: BLOCK * (at + 1)].rstrip(b"\0").hex().encode() for at in range(blocks)]


def ended(line):
    """Returns the line with its end. One CR before the LF is no part of a line, so one that ends in a CR gets another."""
    return line + (b"\r\n" if line.endswith(b"\r") else b"\n")


def file_line(file):
    return f"FILE [{file.owner}]{file.name}<{file.code}> {file.blocks}"


def account_line(account):
    return f"ACCOUNT {account.number} {account.password} {account.calls} {account.quota}"


def written(disk, version=3):
    """Returns the deck of the disk, in version 2 or 3."""
    lines = [f"{HEADING}{version}".encode(), f"DISK {disk.blocks}".encode()]
    lines += [account_line(it).encode() for it in disk.accounts]
    for file in disk.files:
        lines += [file_line(file).encode()] + content_lines(file.data, file.blocks)
    for terminal in disk.terminals:
        lines += [f"TERMINAL {terminal.name}".encode()] + [b">" + it for it in terminal.keys]
    return b"".join(map(ended, lines + [b"END"]))
