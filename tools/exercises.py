"""The exercises of the course: their decks, the facts by which they are judged, and runs of a pupil's program in them."""
import concurrent.futures
import os
import pathlib
import re
import shlex
import signal
import subprocess
import tempfile
import typing

from disks import read
from facts import FACTS, Fault
from sources import Refused, deck_of_source, kept_rows, rows_in, text_of
from trials import Trial

TOP = pathlib.Path(__file__).resolve().parent.parent
HOME = TOP / "decks/course/exercises"
PROGRAM = "MY.BAS"
MOST_SECONDS, MOST_MEMORY, MOST_OUTPUT = 60, 2 << 30, 64 << 20
MOST_LINES, MOST_BYTES = 1000, 300000
NO_MEMORY = 6


class NoTrial(Exception):
    """Why a run gave nothing that can be judged, in a sentence."""


class Judgement(typing.NamedTuple):
    """The first fact that does not hold in a run, and why; the run's number and its trial, or None if it was ended."""

    number: int
    fact: str
    fault: Fault
    trial: typing.Optional[Trial]


def in_order(name):
    return int(re.match("[0-9]+", name)[0]), name


def names():
    """Returns the names of all exercises, in the order of the lessons."""
    return sorted((it.name for it in HOME.iterdir() if re.fullmatch("[0-9]+[a-z]", it.name)), key=in_order)


# A PROGRAM

def untypable(data):
    """Returns why the bytes of a file cannot be typed as a program, or None."""
    count = data.count(b"\n")
    if len(data) > MOST_BYTES or count > MOST_LINES:
        return f"it has {len(data)} bytes in {count} lines, and a program has at most {MOST_LINES} lines"
    for number, row in enumerate(rows_in(data), 1):
        found = re.search(rb"[\0-\x08\x0a-\x1f\x7f]", row)
        if found:
            return f"line {number} has the byte {found[0][0]}, which no line of a text has"
    return None if rows_in(data) else "it has no lines"


# AN EXERCISE

class Exercise:
    """An exercise: the source of its deck, and its facts, each as its line, its function and its words."""

    def __init__(self, name):
        self.name, self.folder = name, HOME / name
        self.facts = [self.fact_of(row.decode()) for _, row in kept_rows((self.folder / "facts").read_bytes())]

    def fact_of(self, row):
        name, *words = shlex.split(row)
        if name not in FACTS:
            raise Refused(f"{self.folder / 'facts'}: {name} is no fact")
        return row.strip(), FACTS[name], words

    def deck(self, rows):
        """Returns the deck in which these lines are typed as the pupil's program."""
        given = {PROGRAM: b"".join(it + b"\n" for it in rows)}
        return text_of(deck_of_source(str(self.folder / "source.deck"), given))

    def first_fault(self, trial):
        """Returns the first fact that does not hold and its fault, or None."""
        for job in trial.your_jobs:
            if not trial.took_program(job):
                return "the system takes each line", Fault(f"the system did not take all lines of {trial.who(job)}")
        for line, function, words in self.facts:
            fault = next(iter(function(trial, *words)), None)
            if fault:
                return line, fault
        return None


# RUNS

# Runs a deck with limits in KB of memory and seconds of processor time. On a busy machine these take many times as long.
LIMITED = ["bash", "-c", 'ulimit -c 0 -v "$1" -t "$2"; exec "$3" run --history', "bash", str(MOST_MEMORY >> 10)]
BUSY, OUT_OF_TIME = 20, (128 + signal.SIGXCPU, 128 + signal.SIGKILL)


def output_of(deck, seconds):
    """Returns what the deck's run writes with its history; raises NoTrial."""
    with tempfile.TemporaryFile() as source, tempfile.TemporaryFile() as written:
        source.write(deck)
        source.seek(0)
        running = subprocess.Popen(LIMITED + [str(seconds), str(TOP / "rsts")], stdin=source, stdout=written, stderr=subprocess.DEVNULL,
                                   start_new_session=True)
        try:
            status = running.wait(seconds * BUSY)
        except subprocess.TimeoutExpired:
            end_group(running)
            status = OUT_OF_TIME[0]
        if status in OUT_OF_TIME:
            raise NoTrial(f"your program did not end; the run was ended after {seconds} s")
        if status == NO_MEMORY or written.tell() > MOST_OUTPUT:
            raise NoTrial("your program showed or kept too much, and the run had no memory left")
        if status:
            raise NoTrial(f"the run ended with status {status}")
        written.seek(0)
        return written.read()


def end_group(running):
    """Ends a run and all that it began; what does not end when asked is killed."""
    for sign in (signal.SIGTERM, signal.SIGKILL):
        os.killpg(running.pid, sign)
        try:
            running.wait(5)
            return
        except subprocess.TimeoutExpired:
            pass


class Runs:
    """The runs of a program in an exercise, several at once. After the first fault no more begin, unless all are wanted."""

    def __init__(self, exercise, data, wants_all=False, seconds=MOST_SECONDS):
        self.exercise, self.rows, self.seconds = exercise, rows_in(data), seconds
        self.deck = exercise.deck(self.rows)
        self.disk, self.wants_all, self.failed = read(self.deck), wants_all, False

    def judge(self, number):
        """Returns the judgement of one run that has a fault; None if it has none, or was not begun."""
        if self.failed and not self.wants_all:
            return None
        try:
            trial = Trial(self.disk, self.rows, output_of(self.deck, self.seconds))
        except NoTrial as fault:
            self.failed = True
            return Judgement(number, "the run ends", Fault(str(fault)), None)
        found = self.exercise.first_fault(trial)
        self.failed = self.failed or found is not None
        return Judgement(number, *found, trial) if found else None

    def judgements(self, count):
        """Returns the judgements of the runs that have a fault."""
        with concurrent.futures.ThreadPoolExecutor(os.cpu_count()) as pool:
            try:
                return [it for it in pool.map(self.judge, range(1, count + 1)) if it]
            except KeyboardInterrupt:
                self.failed, self.wants_all = True, False
                raise
