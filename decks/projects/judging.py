"""Runs the system of a project with a pupil's programs, many times, and judges each run by facts of its history, its screens
and its print jobs. Each project has a script `check` with its own facts."""
import argparse
import concurrent.futures
import importlib.machinery
import importlib.util
import os
import pathlib
import re
import shutil
import subprocess
import sys
import tempfile

sys.dont_write_bytecode = True
HOME = pathlib.Path(__file__).resolve().parent
TOP = HOME.parent.parent
sys.path.insert(0, str(TOP / "tools"))
import histories
from asking import NoAnswer, judge
from programs import Program
from reports import LISTING, PRINTED, history_in, screens_of
from sources import Refused, deck_of_source, text_of

RUNS, AT_ONCE = 20, 4
# How many entries before and after the one that shows a fault are drawn.
BEFORE, AFTER = 60, 15
FAILS, WRONG_WORDS, NO_ANSWER = 1, 2, 70
ACCOUNT = "[100,5]"


def script(name):
    """Loads a script of the repository as a module."""
    loader = importlib.machinery.SourceFileLoader(name.replace("-", "_"), str(TOP / name))
    module = importlib.util.module_from_spec(importlib.util.spec_from_loader(loader.name, loader))
    sys.modules[loader.name] = module
    loader.exec_module(module)
    return module


lanes = script("rsts-lanes")


class Failed(Exception):
    """A fact that does not hold: a sentence, and the number of the entry that shows it, if there is one."""

    def __init__(self, sentence, entry=None):
        super().__init__(sentence)
        self.sentence, self.entry = sentence, entry


class Page:
    """A block that a job read or wrote: the entry, the file's name, the block's number and its bytes."""

    def __init__(self, entry, file, block, data):
        self.entry, self.file, self.block, self.data = entry, file, block, data


class Scene(histories.Scene):
    """What the entries of a history do, and each block that they read or wrote."""

    def __init__(self, entries):
        self.read_pages, self.written = [], []
        super().__init__(entries)

    def hold(self, entry):
        super().hold(entry)
        channel = self.channels.get((entry.job, entry.fields[0]))
        if channel:
            self.read_pages += [page_of(entry, channel, block, entry.answers[0]) for block in histories.blocks_of(entry)]

    def write(self, entry, channel, block):
        super().write(entry, channel, block)
        self.written.append(page_of(entry, channel, block, entry.fields[2]))


def page_of(entry, channel, block, digits):
    start = (block - int(entry.fields[1])) * histories.BLOCK_DIGITS
    return Page(entry, channel.file, block, bytes.fromhex(digits[start:start + histories.BLOCK_DIGITS]))


class Run:
    """What one run wrote: the screens by terminal, the history and what it did, and the print jobs."""

    def __init__(self, output):
        self.output = output
        self.screens = {name: screen.decode("latin-1").replace("\r\n", "\n") for name, screen in screens_of(output)[0]}
        begin, end = history_in(output)
        self.names, self.entries = histories.read_history(output[:end])
        self.scene = Scene(self.entries)
        self.printed = list(print_jobs_in(output, end))

    def terminal(self, entry):
        return self.names[entry.job]

    def unsafe(self, file):
        """Returns the writes of a file's blocks that their channel had not locked."""
        return [it for it in self.scene.unsafe if it.file == ACCOUNT + file]

    def written(self, file):
        return [it for it in self.scene.written if it.file == ACCOUNT + file]

    def read(self, file):
        return [it for it in self.scene.read_pages if it.file == ACCOUNT + file]


def print_jobs_in(output, at):
    """Yields the terminal and the text of each print job after the history."""
    head = PRINTED.match(output, at)
    at = head.end() if head else len(output)
    job = LISTING.match(output, at)
    while job:
        at = job.end() + int(job[2]) + 1
        yield job[1].decode(), output[job.end():at - 1].decode("latin-1").replace("\r\n", "\n")
        job = LISTING.match(output, at)


# FACTS OF EVERY PROJECT

def shows_no_error(run):
    """No program ends with an error."""
    for name, screen in run.screens.items():
        report = re.search(r"^\?(?!Job expired)[A-Z].*", screen, re.M)
        if report:
            raise Failed(f"{name} shows {report[0]}", last_of(run, name))


def comes_to_bye(run):
    """Each terminal goes on to its BYE."""
    for name, screen in run.screens.items():
        if screen.endswith("?Job expired\n"):
            raise Failed(f"{name} uses up its calls: it waits for what does not come", last_of(run, name))
        if not screen.endswith("\nBye\n"):
            raise Failed(f"{name} does not come to its BYE", last_of(run, name))


def last_of(run, name):
    return max((it.number for it in run.entries if run.terminal(it) == name), default=None)


def writes_safely(run, file, what, terminals):
    """Each write of the file at these terminals is of a block that its channel had locked."""
    for it in run.unsafe(file):
        name = run.terminal(it.entry)
        if name in terminals:
            lost = f", and what {run.terminal(it.lost)} wrote at entry {it.lost.number} is lost" if it.lost else ""
            raise Failed(f"{name} writes {what(it.block)} at entry {it.entry.number} without having locked it{lost}", it.entry.number)


# RUNS

class Project:
    """A project: its folder, the programs that a pupil writes, and its facts, each a function of a run."""

    def __init__(self, folder, programs, facts):
        self.folder, self.programs, self.facts = pathlib.Path(folder), programs, facts

    def files_in(self, folders):
        """Returns the path of each program: that of the first folder which has it."""
        found = {}
        for name in self.programs:
            paths = [pathlib.Path(it, name) for it in folders]
            found[name] = next((it for it in paths if it.is_file()), None)
        return found

    def deck(self, files):
        """Makes the deck of the source and the programs."""
        with tempfile.TemporaryDirectory() as scratch:
            shutil.copytree(self.folder / "data", pathlib.Path(scratch, "data"))
            for it in [self.folder / "source.deck", HOME / "WAIT.BAS", *files.values()]:
                shutil.copyfile(it, pathlib.Path(scratch, it.name))
            try:
                return text_of(deck_of_source(os.path.join(scratch, "source.deck")))
            except Refused as refused:
                raise Refused(*(it.replace(scratch + os.sep, "") for it in refused.reasons)) from None

    def fault_of(self, run):
        """Returns the first fact that does not hold, or None."""
        try:
            for fact in self.facts:
                fact(run)
        except Failed as fault:
            return fault
        return None


def rejected(files):
    """Returns a sentence about the first line that the language does not have, or None."""
    programs = [Program(name, path.read_bytes()) for name, path in files.items()]
    for program, judgement in zip(programs, judge(programs)):
        for line, cause in judgement.refused.items():
            return f"line {line.number} of {program.name} is rejected: ?{cause}; ./rsts-lint says more"
        if judgement.whole:
            cause, number = judgement.whole
            return f"{program.name} is rejected: ?{cause}" + (f" at line {number}" if number else "") + "; ./rsts-lint says more"
    return None


def run_of(deck):
    told = subprocess.run([str(TOP / "rsts"), "run", "--history", "--printer"], input=deck, stdout=subprocess.PIPE, stderr=subprocess.PIPE)
    if told.returncode:
        raise NoAnswer(f"./rsts ended with status {told.returncode}: {told.stderr.decode('latin-1').strip()}")
    return Run(told.stdout)


def keep(folder, deck, run, fault):
    """Writes the deck, what the run wrote, and a picture of what shows the fault."""
    folder.mkdir(parents=True, exist_ok=True)
    (folder / "deck").write_bytes(deck)
    (folder / "run").write_bytes(run.output)
    entry = fault.entry or len(run.entries)
    drawn = run.entries[max(0, entry - BEFORE):entry + AFTER]
    picture = lanes.picture(run.names, run.scene, drawn, fault.sentence, True)
    (folder / "lanes.svg").write_text(picture)


def faults_of(project, deck, runs, kept):
    """Runs the deck this many times, and yields the fault of each run that has one, with the run's number."""
    wanted = kept
    with concurrent.futures.ThreadPoolExecutor(min(AT_ONCE, os.cpu_count() or 1)) as pool:
        for number, run in enumerate(pool.map(run_of, [deck] * runs), 1):
            fault = project.fault_of(run)
            if fault:
                if wanted:
                    keep(pathlib.Path(wanted), deck, run, fault)
                    wanted = None
                yield number, fault


def asked(project):
    name = project.folder.name
    parser = argparse.ArgumentParser(prog="check", description=f"Runs the project {name} with the programs {', '.join(project.programs)}, and judges the runs.",
                                     epilog=f"example: decks/projects/{name}/check MYFOLDER")
    parser.add_argument("--runs", type=int, default=RUNS, metavar="N", help=f"how many runs; else {RUNS}")
    parser.add_argument("--keep", metavar="FOLDER", help="keeps the first run that fails there: its deck, what it wrote, and a picture")
    parser.add_argument("folders", nargs="+", metavar="FOLDER", help="where the programs are; a program is taken from the first folder that has it")
    wanted = parser.parse_args()
    if wanted.runs < 1:
        parser.error("at least one run is needed")
    return wanted


def says(text, status):
    print(text)
    return status


def check(project):
    """Judges the programs in the folders that are named, and returns the status of the script."""
    wanted, name = asked(project), project.folder.name
    files = project.files_in(wanted.folders)
    missing = [it for it, path in files.items() if path is None]
    if missing:
        return says(f"{name}: no folder has {missing[0]}", WRONG_WORDS)
    try:
        fault = rejected(files)
        if fault:
            return says(f"{name}: {fault}", FAILS)
        found = list(faults_of(project, project.deck(files), wanted.runs, wanted.keep))
    except Refused as refused:
        return says(f"{name}: {refused.reasons[0]}", FAILS)
    except NoAnswer as fault:
        return says(f"{name}: {fault}", NO_ANSWER)
    if not found:
        return says(f"{name}: {wanted.runs} runs, and every fact holds in each", 0)
    number, fault = found[0]
    return says(f"{name}: {len(found)} of {wanted.runs} runs fail; in run {number} {fault.sentence}", FAILS)
