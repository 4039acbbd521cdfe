"""A run of an exercise's deck, as its facts look at it: the screens, the calls, the locks, and the files at the end."""
import re

from decks import BLOCK
from histories import Scene, read_history
from reports import screens_of

YOU = "YOU"
READS, WRITES = ("GET", "GETREC"), ("PUT", "PUTREC")
ON_CHANNELS = READS + WRITES + ("UNLOCK", "CLOSE")
# What the screen shows if a program ends otherwise than by END or its last line.
BAD_END = re.compile(r"\?Job expired|\?.+ at line [0-9]+|\?(?:Maximum memory exceeded|String too long).*|Stop at line [0-9]+")


def stem_of(file):
    """Returns a file's name without its owner."""
    return file.partition("]")[2]


def plain(text):
    """Returns the text with single spaces, and none at its ends."""
    return " ".join(text.split())


class Files:
    """The files of the disk by their names, each with its code and its bytes, as the calls of a history change them."""

    def __init__(self, disk, entries):
        self.codes = {f"[{it.owner}]{it.name}": it.code for it in disk.files}
        self.data = {f"[{it.owner}]{it.name}": bytearray(it.whole()) for it in disk.files}
        self.channels, self.about = {}, {}
        for entry in entries:
            self.take(entry)

    def take(self, entry):
        if entry.word in ON_CHANNELS:
            self.about[entry.number] = self.channels.get((entry.job, entry.fields[0]), "")
        elif entry.word in ("OPEN", "KILL", "RENAME"):
            self.about[entry.number] = entry.fields[1 if entry.word == "OPEN" else 0]
        if entry.reply not in ("FAILED", "EXPIRED"):
            self.change(entry)

    def change(self, entry):
        if entry.word == "OPEN":
            self.open(entry)
        elif entry.word in WRITES:
            self.write(self.about[entry.number], entry)
        elif entry.word == "KILL":
            self.data.pop(entry.fields[0], None)
        elif entry.word == "RENAME":
            old, new, code = entry.fields
            self.data[new] = self.data.pop(old)
            self.codes[new] = self.codes[old] if code == "-" else int(code)

    def open(self, entry):
        channel, file, kind, _, code = entry.fields
        self.channels[entry.job, channel] = file
        if kind in ("OUTPUT", "FRESH") or file not in self.data:
            self.data[file], self.codes[file] = bytearray(), 60 if code == "-" else int(code)

    def write(self, file, entry):
        data, pages = self.data.setdefault(file, bytearray()), bytes.fromhex(entry.fields[2])
        begin = BLOCK * (int(entry.fields[1]) - 1)
        data.extend(bytes(max(0, begin + len(pages) - len(data))))
        data[begin:begin + len(pages)] = pages

    def named(self, stem):
        """Returns the bytes of the file with this name, whoever owns it; None, if there is none."""
        return next((bytes(self.data[it]) for it in self.data if stem_of(it) == stem), None)


class Trial:
    """One run. `rows` are the lines of the pupil's program, which terminals with names such as YOU or YOU2 typed."""

    def __init__(self, disk, rows, output):
        self.output = output
        self.names, self.entries = read_history(output)
        self.screens = {name: screen.decode("latin-1") for name, screen in screens_of(output)[0]}
        self.scene, self.files = Scene(self.entries), Files(disk, self.entries)
        self.echo = "".join(it.decode("latin-1") + "\r\n" for it in rows)
        self.your_jobs = [job for job, name in enumerate(self.names) if name.startswith(YOU)]

    def who(self, job):
        """Returns what a sentence calls the program of this job."""
        if job not in self.your_jobs:
            return self.names[job]
        return "your program" if len(self.your_jobs) == 1 else f"your program at {self.names[job]}"

    def took_program(self, job):
        """Returns whether the terminal took each line of the program without a message."""
        return self.echo in self.screens[self.names[job]]

    def shown(self, job):
        """Returns the lines that the screen shows after the program was typed, with single spaces."""
        after = self.screens[self.names[job]].partition(self.echo)[2]
        return [plain(it) for it in after.split("\r\n")]

    def bad_end(self, job):
        """Returns the line by which the program ended badly, or None."""
        return next((it for it in self.shown(job) if BAD_END.fullmatch(it)), None)

    def calls(self, job):
        """Returns the calls of a job, without those of its session and without Ticks."""
        return [it for it in self.entries if it.job == job and it.word not in ("LOGIN", "LOGOUT", "TICK")]

    def calls_to(self, job, words, file):
        """Returns the calls of a job with one of these words that are about this file."""
        return [it for it in self.calls(job) if it.word in words and self.is_about(it, file)]

    def is_about(self, entry, file):
        return stem_of(self.files.about.get(entry.number, "")) == file

    def locked_by(self, job, number):
        """Returns the stretches in which the job has blocks locked while this entry is answered."""
        return [it for it in self.scene.bars if it.job == job and it.blocks and it.begin < number < it.end]

    def job_of(self, name):
        return self.names.index(name)

    def print_jobs(self, job):
        """Returns the text of each print job of this job."""
        texts = []
        for entry in self.calls(job):
            if entry.reply != "DONE":
                continue
            if entry.word == "LPOPEN":
                texts.append("")
            elif entry.word == "LPPRINT":
                texts[-1] += bytes.fromhex(entry.fields[0].replace("-", "")).decode("latin-1")
        return texts


def succeeded(entry):
    return entry.reply not in ("FAILED", "EXPIRED")


def failed_with(entry, error):
    return entry.reply == "FAILED" and entry.answers[0] == error


def blocks_said(blocks):
    return f"block {blocks[0]}" if len(blocks) == 1 else f"blocks {blocks[0]} to {blocks[-1]}"


def pages_in(entry):
    """Returns the bytes that a read got, or none."""
    return bytes.fromhex(entry.answers[0].replace("-", "")) if entry.reply in ("BLOCK", "RECORD") else b""
