"""Reads a history, as `run --history` writes it, and finds what its entries do to channels, locks and messages."""
from __future__ import annotations

import dataclasses
import re

BLOCK_DIGITS = 1024

# READING

NUMBER = "(?:0|[1-9][0-9]*)"
FIELDS = {
    "number": NUMBER,
    "number?": f"(?:-|{NUMBER})",
    "account": f"{NUMBER},{NUMBER}",
    "file": rf"\[{NUMBER},{NUMBER}\][A-Z0-9]{{1,6}}(?:\.[A-Z0-9]{{1,3}})?",
    "kind": "(?:INPUT|OUTPUT|EITHER|FRESH)",
    "truth": "[01]",
    "receiver": "(?:-|[A-Z0-9]+)",
    "bytes": "(?:-|(?:[0-9a-f]{2})+)",
}
REPLIES = {
    "DONE": "",
    "EXPIRED": "",
    "OPENED": "number truth truth",
    "BLOCK": "bytes",
    "RECORD": "bytes",
    "NAME": "file number number?",
    "MESSAGE": "number account bytes",
    "STATE": "number account number",
    "FAILED": "number",
}


@dataclasses.dataclass(frozen=True)
class Call:
    """A request of the history: its fields, the reply to it if it is not refused, and the colour of its mark."""

    fields: str
    reply: str
    colour: str


SESSION, FILES, READING, WRITING = "#555555", "#1f5fa8", "#1b7a3d", "#b3540a"
MESSAGES, WAITING, PRINTER, REFUSED = "#7a2ea0", "#8a8f98", "#6b4a2b", "#c5162e"
CALLS = {
    "LOGIN": Call("account bytes", "DONE", SESSION),
    "LOGOUT": Call("", "DONE", SESSION),
    "OPEN": Call("number file kind truth number?", "OPENED", FILES),
    "CLOSE": Call("number", "DONE", FILES),
    "GET": Call("number number", "BLOCK", READING),
    "UNLOCK": Call("number", "DONE", READING),
    "PUT": Call("number number bytes", "DONE", WRITING),
    "GETREC": Call("number number number", "RECORD", READING),
    "PUTREC": Call("number number bytes", "DONE", WRITING),
    "KILL": Call("file", "DONE", FILES),
    "RENAME": Call("file file number?", "DONE", FILES),
    "DIRECTORY": Call("account number", "NAME", FILES),
    "DECLARE": Call("receiver number", "DONE", MESSAGES),
    "REMOVE": Call("", "DONE", MESSAGES),
    "SEND": Call("receiver bytes", "DONE", MESSAGES),
    "RECEIVE": Call("", "MESSAGE", MESSAGES),
    "SLEEP": Call("number", "DONE", WAITING),
    "TICK": Call("", "DONE", WAITING),
    "STATUS": Call("", "STATE", SESSION),
    "ASSIGN": Call("", "DONE", PRINTER),
    "DEASSIGN": Call("", "DONE", PRINTER),
    "LPOPEN": Call("", "DONE", PRINTER),
    "LPPRINT": Call("bytes", "DONE", PRINTER),
    "LPCLOSE": Call("", "DONE", PRINTER),
}
NEVER_REFUSED = ("LOGOUT", "TICK")


class NoHistory(Exception):
    """The number of the first line that no history has there; None, there is no history at all."""


@dataclasses.dataclass(frozen=True)
class Entry:
    """One line of the history: its number from 1, the job, and request and reply with their fields."""

    number: int
    job: int
    word: str
    fields: tuple
    reply: str
    answers: tuple


def fields_fit(words, wanted):
    kinds = wanted.split()
    return len(words) == len(kinds) and all(re.fullmatch(FIELDS[kind], word) for kind, word in zip(kinds, words))


def replies_to(word):
    """Returns the words of the replies that a request may have."""
    found = {CALLS[word].reply}
    if word != "LOGOUT":
        found.add("EXPIRED")
    if word not in NEVER_REFUSED:
        found.add("FAILED")
    return found


def entry_of(number, line):
    """Returns the entry of a line, or None."""
    request, equals, answer = line.partition(" = ")
    job, _, asked = request.partition(" ")
    word, *fields = asked.split(" ")
    reply, *answers = answer.split(" ")
    if not equals or not re.fullmatch(NUMBER, job) or word not in CALLS or reply not in replies_to(word):
        return None
    if not fields_fit(fields, CALLS[word].fields) or not fields_fit(answers, REPLIES[reply]):
        return None
    return Entry(number, int(job), word, tuple(fields), reply, tuple(answers))


def behind_report(data):
    """Returns the names of the terminals in the report at the start, and the place after it."""
    names, at = [], 0
    head = re.compile(rb"TERMINAL ([A-Z0-9]{1,8}) (%s)\n" % NUMBER.encode())
    found = head.match(data)
    while found:
        names.append(found[1].decode())
        at = found.end() + int(found[2]) + 1
        found = head.match(data, at)
    return names, at


def read_history(data):
    """Returns the names of the terminals, if there is a report, and the entries."""
    names, at = behind_report(data)
    first = data[:at].count(b"\n") + 1
    lines = data[at:].decode("latin-1").split("\n")
    if not lines[0].startswith("HISTORY"):
        raise NoHistory(None)
    head = re.fullmatch(f"HISTORY ({NUMBER})", lines[0])
    if not head or len(lines) == 1:
        raise NoHistory(first)
    entries = [entry_of(number, line) for number, line in enumerate(lines[1:-1], 1)]
    if None in entries:
        raise NoHistory(first + 1 + entries.index(None))
    wanted = int(head[1])
    if len(entries) != wanted or lines[-1]:
        raise NoHistory(first + 1 + min(len(entries), wanted))
    return names, entries


# WHAT HAPPENS

@dataclasses.dataclass
class Bar:
    """A stretch in which a channel is open on a file: if blocks are given, it has locked those."""

    job: int
    channel: str
    file: str
    blocks: range | None
    begin: int
    end: int


@dataclasses.dataclass
class Channel:
    """An open channel, with the bar that it is in."""

    file: str
    for_update: bool
    bar: Bar


@dataclasses.dataclass
class Message:
    """A message: the entry and the job that sent it, whom it is for, and the entry that took it out, if one did."""

    sent: int
    sender: int
    receiver: int
    taken: int | None = None


@dataclasses.dataclass
class Mark:
    """A refusal by error 19 or 10, and the bar that refused it, if one did."""

    number: int
    job: int
    error: str
    bar: Bar | None


@dataclasses.dataclass
class Unsafe:
    """A block that was written though its channel had not locked it; and the entry of another job that wrote the block
    after the channel last read it, if there is one: that update is lost."""

    entry: Entry
    file: str
    block: int
    lost: Entry | None


class Scene:
    """What the entries do to channels, locked blocks and messages, as the things that are drawn."""

    def __init__(self, entries):
        self.bars, self.marks, self.messages, self.unsafe = [], [], [], []
        self.accounts, self.channels, self.receivers = {}, {}, {}
        self.reads, self.writes = {}, {}
        self.last = len(entries)
        for entry in entries:
            self.take(entry)

    def take(self, entry):
        acts = {
            "LOGIN": self.log_in, "OPEN": self.open, "CLOSE": self.close, "GET": self.hold, "GETREC": self.hold,
            "PUT": self.let_go, "PUTREC": self.let_go, "UNLOCK": self.let_go, "DECLARE": self.declare,
            "REMOVE": self.remove, "SEND": self.send, "RECEIVE": self.receive,
        }
        if entry.reply == "FAILED":
            self.refuse(entry)
        elif entry.reply == "EXPIRED" or entry.word == "LOGOUT":
            self.end_job(entry)
        elif entry.word in acts:
            acts[entry.word](entry)

    def log_in(self, entry):
        self.accounts[entry.job] = entry.fields[0]

    def begin_bar(self, key, file, blocks, number):
        bar = Bar(*key, file, blocks, number, self.last + 1)
        self.bars.append(bar)
        return bar

    def open(self, entry):
        key, file = (entry.job, entry.fields[0]), entry.fields[1]
        for_update = entry.fields[3] == "1" and entry.answers[1] == "1"
        self.channels[key] = Channel(file, for_update, self.begin_bar(key, file, None, entry.number))

    def close(self, entry):
        channel = self.channels.pop((entry.job, entry.fields[0]), None)
        if channel:
            channel.bar.end = entry.number

    def change(self, entry, blocks):
        """Notes that the channel of the entry has locked these blocks from here on."""
        key = (entry.job, entry.fields[0])
        channel = self.channels.get(key)
        if channel and channel.bar.blocks != blocks:
            channel.bar.end = entry.number
            channel.bar = self.begin_bar(key, channel.file, blocks, entry.number)

    def hold(self, entry):
        key = (entry.job, entry.fields[0])
        channel = self.channels.get(key)
        if channel:
            self.reads.update({(key, channel.file, block): entry.number for block in blocks_of(entry)})
        if channel and channel.for_update:
            self.change(entry, blocks_of(entry))

    def let_go(self, entry):
        channel = self.channels.get((entry.job, entry.fields[0]))
        if channel and entry.word != "UNLOCK":
            for block in blocks_of(entry):
                self.write(entry, channel, block)
        self.change(entry, None)

    def write(self, entry, channel, block):
        """Notes a write of the block, and whether it was no safe update: its channel had not locked the block."""
        last = self.writes.get((channel.file, block))
        if block not in (channel.bar.blocks or ()):
            read = self.reads.get(((entry.job, entry.fields[0]), channel.file, block))
            is_lost = read is not None and last is not None and last.number > read and last.job != entry.job
            self.unsafe.append(Unsafe(entry, channel.file, block, last if is_lost else None))
        self.writes[channel.file, block] = entry

    def declare(self, entry):
        self.receivers[entry.fields[0]] = (entry.job, [])

    def remove(self, entry):
        self.receivers = {name: it for name, it in self.receivers.items() if it[0] != entry.job}

    def send(self, entry):
        job, waiting = self.receivers.get(entry.fields[0], (entry.job, []))
        waiting.append(Message(entry.number, entry.job, job))
        self.messages.append(waiting[-1])

    def receive(self, entry):
        for job, waiting in self.receivers.values():
            if job == entry.job and waiting:
                waiting.pop(0).taken = entry.number

    def end_job(self, entry):
        for key in [key for key in self.channels if key[0] == entry.job]:
            self.channels.pop(key).bar.end = entry.number
        self.remove(entry)

    def refuse(self, entry):
        error, key = entry.answers[0], (entry.job, entry.fields[0] if entry.fields else "")
        if error == "10":
            channel = self.channels.get(key)
            self.marks.append(Mark(entry.number, entry.job, error, channel and channel.bar))
        elif error == "19":
            self.marks += [Mark(entry.number, entry.job, error, bar) for bar in self.holders(entry, key) or [None]]

    def holders(self, entry, key):
        """Returns the bars of other channels that have locked a block which the entry asks for."""
        asking = self.channels.get(key)
        if not asking:
            return []
        wanted = blocks_of(entry)
        others = [it.bar for other, it in self.channels.items() if other != key and it.file == asking.file]
        return [bar for bar in others if bar.blocks and max(bar.blocks[0], wanted[0]) <= min(bar.blocks[-1], wanted[-1])]


def blocks_of(entry):
    """Returns the blocks that a GET, PUT, GETREC or PUTREC reads or writes; of one that is refused, those that it asks for."""
    first, count = int(entry.fields[1]), 1
    if entry.reply == "RECORD":
        count = len(entry.answers[0]) // BLOCK_DIGITS
    elif entry.word == "GETREC":
        count = int(entry.fields[2])
    elif entry.word == "PUTREC":
        count = len(entry.fields[2]) // BLOCK_DIGITS
    return range(first, first + max(count, 1))
