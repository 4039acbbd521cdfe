"""The facts by which exercises are judged. Each is a function of a run; it yields a fault for each place where it does not hold.

A file of facts has one on each line: its name, as sleeps-unlocked for sleeps_unlocked, and its words. A sentence speaks to the
pupil, and names the entry of the history that shows it."""
import typing

from trials import READS, WRITES, blocks_said, failed_with, pages_in, plain, stem_of, succeeded
from histories import blocks_of


class Fault(typing.NamedTuple):
    """Why a fact does not hold: a sentence, and the entry that shows it, or None if a screen does."""

    sentence: str
    entry: typing.Optional[int] = None


FACTS = {}


def fact(function):
    """Makes a function a fact, under its name with hyphens."""
    FACTS[function.__name__.replace("_", "-")] = function
    return function


def counted(count, noun):
    return f"1 {noun}" if str(count) == "1" else f"{count} {noun}s"


# THE END AND THE SCREENS

@fact
def ends_well(trial):
    """The program ends by itself: without an error, and within its calls."""
    for job in trial.your_jobs:
        end = trial.bad_end(job)
        if end == "?Job expired":
            yield Fault(f"{trial.who(job)} did not end; it used up all its calls")
        elif end:
            yield Fault(f'{trial.who(job)} ended with "{end}"')


@fact
def shows(trial, *texts):
    """The screen shows these lines, in this order."""
    for job in trial.your_jobs:
        lines, at = trial.shown(job), 0
        for text in texts:
            if text not in lines[at:]:
                place = " after the lines before it" if text in lines else ""
                yield Fault(f'{trial.who(job)} did not show the line "{text}"{place}')
                return
            at = lines.index(text, at) + 1


@fact
def shows_not(trial, text):
    """No line of the screen has this text."""
    for job in trial.your_jobs:
        if any(text in it for it in trial.shown(job)):
            yield Fault(f'{trial.who(job)} showed "{text}"')


@fact
def ends_with(trial, text):
    """The program ends with this error report."""
    for job in trial.your_jobs:
        end = trial.bad_end(job)
        if end != text:
            yield Fault(f'{trial.who(job)} should end with "{text}", and ' + (f'ended with "{end}"' if end else "ended without an error"))


# FILES

@fact
def reads(trial, file):
    """The program reads the file."""
    for job in trial.your_jobs:
        if not any(map(succeeded, trial.calls_to(job, READS, file))):
            yield Fault(f"{trial.who(job)} never read {file}")


@fact
def writes(trial, file):
    """The program writes the file."""
    for job in trial.your_jobs:
        if not any(map(succeeded, trial.calls_to(job, WRITES, file))):
            yield Fault(f"{trial.who(job)} never wrote {file}")


@fact
def never_writes(trial, file):
    """The program does not write the file."""
    for job in trial.your_jobs:
        for entry in trial.calls_to(job, WRITES, file):
            yield Fault(f"{trial.who(job)} wrote {file} at entry {entry.number}", entry.number)


@fact
def reads_before_writing(trial, file):
    """The program reads each block of the file before it writes it."""
    for job in trial.your_jobs:
        known = set()
        for entry in filter(succeeded, trial.calls_to(job, READS + WRITES, file)):
            if entry.word in WRITES and not known >= set(blocks_of(entry)):
                yield Fault(f"{trial.who(job)} wrote {blocks_said(blocks_of(entry))} of {file} at entry {entry.number} and had not read it", entry.number)
            known |= set(blocks_of(entry))


def first_line(data):
    return plain(data.replace(b"\0", b"").partition(b"\n")[0].decode("latin-1"))


@fact
def holds(trial, file, block, text):
    """At the end the block of the file begins with this line."""
    data = trial.files.named(file)
    if data is None:
        yield Fault(f"there is no file {file} at the end")
        return
    begin = 512 * (int(block) - 1)
    found = first_line(data[begin:begin + 512])
    if found != text:
        yield Fault(f'at the end block {block} of {file} has "{found}" and should have "{text}"')


@fact
def has_lines(trial, file, *texts):
    """At the end the file has these lines, and no others."""
    data = trial.files.named(file)
    if data is None:
        yield Fault(f"there is no file {file} at the end")
        return
    lines = [plain(it) for it in data.replace(b"\0", b"").decode("latin-1").split("\n")][:-1]
    yield from unlike_lines(f"{file}", lines, texts)


def unlike_lines(where, lines, wanted):
    """Yields a fault for the first line that differs."""
    for number, (found, text) in enumerate(zip(lines, wanted), 1):
        if found != text:
            yield Fault(f'line {number} of {where} is "{found}" and should be "{text}"')
            return
    if len(lines) != len(wanted):
        yield Fault(f"{where} has {counted(len(lines), 'line')} and should have {len(wanted)}")


@fact
def text_at(trial, file, offset, text):
    """At the end the bytes of the file from this offset on are this text."""
    found = (trial.files.named(file) or b"")[int(offset):int(offset) + len(text)].decode("latin-1")
    if found != text:
        yield Fault(f'at the end {file} has "{found}" from byte {offset} on and should have "{text}"')


@fact
def same(trial, file, other):
    """At the end both files have the same blocks."""
    one, two = trial.files.named(file), trial.files.named(other)
    if one is None or two is None:
        yield Fault(f"there is no file {file if one is None else other} at the end")
    elif len(one) != len(two):
        yield Fault(f"{other} has {counted(len(two) // 512, 'block')} and {file} has {len(one) // 512}")
    elif one != two:
        block = next(it for it in range(len(one) // 512) if one[512 * it:512 * it + 512] != two[512 * it:512 * it + 512]) + 1
        yield Fault(f"block {block} of {other} is not that of {file}")


# UPDATES AND LOCKS

@fact
def no_update_lost(trial, file):
    """Nobody overwrites what another wrote since the read: no update of the file is lost."""
    for it in trial.scene.unsafe:
        if it.lost and stem_of(it.file) == file:
            yield Fault(f"an update of {file} is lost: {trial.who(it.entry.job)} overwrote at entry {it.entry.number} what "
                        f"{trial.who(it.lost.job)} wrote at entry {it.lost.number}", it.entry.number)


@fact
def writes_only_locked(trial, file):
    """The program has each block locked that it writes."""
    for it in trial.scene.unsafe:
        if it.entry.job in trial.your_jobs and stem_of(it.file) == file:
            yield Fault(f"{trial.who(it.entry.job)} wrote block {it.block} of {file} at entry {it.entry.number} and had not locked it", it.entry.number)


@fact
def locks(trial, file):
    """The program reads the file by a channel for update, and so locks a block of it."""
    for job in trial.your_jobs:
        if not any(it.job == job and it.blocks and stem_of(it.file) == file for it in trial.scene.bars):
            yield Fault(f"{trial.who(job)} never locked a block of {file}")


@fact
def sleeps_unlocked(trial):
    """The program has no block locked while it sleeps."""
    for job in trial.your_jobs:
        for entry in trial.calls(job):
            held = trial.locked_by(job, entry.number) if entry.word == "SLEEP" else []
            if held:
                what = f"{blocks_said(held[0].blocks)} of {stem_of(held[0].file)}"
                yield Fault(f"{trial.who(job)} slept at entry {entry.number} while it had {what} locked", entry.number)


@fact
def locks_in_order(trial, file):
    """The program asks for no block while it has a later one locked."""
    for job in trial.your_jobs:
        for entry in trial.calls_to(job, READS, file):
            held = [it for it in trial.locked_by(job, entry.number) if it.channel != entry.fields[0] and stem_of(it.file) == file]
            later = [it for it in held if it.blocks[-1] > blocks_of(entry)[0]]
            if later:
                yield Fault(f"{trial.who(job)} asked at entry {entry.number} for {blocks_said(blocks_of(entry))} of {file} "
                            f"while it had {blocks_said(later[0].blocks)} locked", entry.number)


# ERRORS

@fact
def traps(trial, error):
    """The program gets this error from the monitor, and goes on."""
    for job in trial.your_jobs:
        calls = trial.calls(job)
        met = next((at for at, it in enumerate(calls) if failed_with(it, error)), None)
        if met is None:
            yield Fault(f"{trial.who(job)} never got error {error}")
        elif trial.bad_end(job):
            yield Fault(f'{trial.who(job)} did not go on after error {error} at entry {calls[met].number}: it ended with "{trial.bad_end(job)}"', calls[met].number)


@fact
def sleeps_between_tries(trial, error):
    """After this error the program sleeps before it asks for the same again."""
    for job in trial.your_jobs:
        calls = trial.calls(job)
        for before, entry in zip(calls, calls[1:]):
            if failed_with(before, error) and (before.word, before.fields) == (entry.word, entry.fields):
                yield Fault(f"{trial.who(job)} tried again at entry {entry.number} without a SLEEP after error {error} at entry {before.number}", entry.number)


# CALLS

@fact
def asks(trial, word, file, least, most):
    """The program makes from `least` to `most` calls of this word to the file."""
    for job in trial.your_jobs:
        calls = trial.calls_to(job, (word,), file)
        wanted = counted(least, "time") if least == most else f"{least} to {most} times"
        if not int(least) <= len(calls) <= int(most):
            number = calls[-1].number if calls else None
            yield Fault(f"{trial.who(job)} called {word} for {file} {counted(len(calls), 'time')} and should do so {wanted}", number)


def told(entry):
    """Returns a call as one line: its word and its fields, without pages and owners of files."""
    fields = entry.fields[:2] if entry.word in WRITES else entry.fields
    return " ".join([entry.word] + [stem_of(it) if it.startswith("[") else it for it in fields])


@fact
def calls(trial, *lines):
    """The program makes these calls and no others."""
    for job in trial.your_jobs:
        made = trial.calls(job)
        for number, (entry, line) in enumerate(zip(made, lines), 1):
            if told(entry) != line:
                yield Fault(f'call {number} of {trial.who(job)} is "{told(entry)}" and should be "{line}"', entry.number)
                return
        if len(made) < len(lines):
            yield Fault(f'{trial.who(job)} did not make the call "{lines[len(made)]}"')
        elif len(made) > len(lines):
            yield Fault(f'{trial.who(job)} made the call "{told(made[len(lines)])}", which is one too many', made[len(lines)].number)


@fact
def makes_at_most(trial, most):
    """The program makes no more calls than this."""
    for job in trial.your_jobs:
        made = trial.calls(job)
        if len(made) > int(most):
            yield Fault(f"{trial.who(job)} made {counted(len(made), 'call')} and should make at most {most}", made[-1].number)


@fact
def chains(trial, file):
    """The program chains to the program in this file."""
    for job in trial.your_jobs:
        if not any(succeeded(it) and it.fields[0] == "0" for it in trial.calls_to(job, ("OPEN",), file)):
            yield Fault(f"{trial.who(job)} never loaded {file}")


# WHAT OTHERS MAY

def tries_of(trial, name, what, file):
    """Returns the calls by which a terminal tries to read or write the file, OPEN too."""
    words = ("OPEN",) + (READS if what == "read" else WRITES)
    return trial.calls_to(trial.job_of(name), words, file)


@fact
def may(trial, name, what, file):
    """The terminal reads or writes the file."""
    tries = tries_of(trial, name, what, file)
    if not any(succeeded(it) and it.word != "OPEN" for it in tries):
        refused = next((it for it in tries if not succeeded(it)), None)
        why = f": error {refused.answers[0]} at entry {refused.number}" if refused and refused.answers else ""
        yield Fault(f"{name} could not {what} {file}{why}", refused.number if refused else None)


@fact
def may_not(trial, name, what, file):
    """The terminal tries to read or write the file, and is refused."""
    tries = tries_of(trial, name, what, file)
    if not tries:
        yield Fault(f"{name} did not find out whether it could {what} {file}")
    for entry in tries:
        if succeeded(entry) and entry.word != "OPEN":
            yield Fault(f"{name} could {what} {file} at entry {entry.number}", entry.number)


@fact
def learns_nothing(trial, name, file):
    """The terminal learns nothing of the file but its name."""
    for entry in trial.calls(trial.job_of(name)):
        if entry.word in ("OPEN", "KILL", "RENAME") and trial.is_about(entry, file) and succeeded(entry):
            yield Fault(f"{name} could {entry.word} {file} at entry {entry.number}", entry.number)
        elif entry.reply == "NAME" and stem_of(entry.answers[0]) == file and entry.answers[2] != "-":
            yield Fault(f"{name} saw at entry {entry.number} how many blocks {file} has", entry.number)


@fact
def never_reads(trial, name, text):
    """No block that the terminal reads has this text."""
    for entry in trial.calls(trial.job_of(name)):
        if text.encode("latin-1") in pages_in(entry):
            file = stem_of(trial.files.about.get(entry.number, ""))
            yield Fault(f'{name} read "{text}" in {file} at entry {entry.number}', entry.number)


# MESSAGES AND THE PRINTER

def text_of(digits):
    return bytes.fromhex(digits.replace("-", "")).decode("latin-1")


@fact
def takes_all(trial):
    """The program takes each message out of its receiver."""
    for it in trial.scene.messages:
        if it.receiver in trial.your_jobs and it.taken is None:
            sent = trial.entries[it.sent - 1]
            yield Fault(f'{trial.who(it.receiver)} never took the message "{text_of(sent.fields[1])}" of entry {it.sent}', it.sent)


@fact
def sends(trial, receiver, *texts):
    """The program sends these messages to the receiver, in this order, and no others."""
    for job in trial.your_jobs:
        sent = [text_of(it.fields[1]) for it in trial.calls(job) if it.word == "SEND" and succeeded(it) and it.fields[0] == receiver]
        yield from unlike_messages(trial.who(job), receiver, sent, texts)


def unlike_messages(who, receiver, sent, wanted):
    for number, (found, text) in enumerate(zip(sent, wanted), 1):
        if plain(found) != text:
            yield Fault(f'message {number} of {who} to {receiver} is "{found}" and should be "{text}"')
            return
    if len(sent) != len(wanted):
        yield Fault(f"{who} sent {counted(len(sent), 'message')} to {receiver} and should send {len(wanted)}")


@fact
def prints(trial, *texts):
    """The terminal's print jobs, one after the other, have these lines and no others."""
    for job in trial.your_jobs:
        texts_printed = "".join(trial.print_jobs(job)).split("\n")
        yield from unlike_lines("what was printed", [plain(it) for it in texts_printed][:-1], texts)


@fact
def print_jobs(trial, count):
    """The terminal has this many print jobs."""
    for job in trial.your_jobs:
        found = len(trial.print_jobs(job))
        if found != int(count):
            yield Fault(f"there were {found} print jobs and there should be {count}")
