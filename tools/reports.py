"""Reads what the program writes: the screens of terminals, and after them the history, the print jobs, and the disk."""
import re

NUMBER = rb"(?:0|[1-9][0-9]*)"
SCREEN = re.compile(rb"TERMINAL ([A-Z0-9]{1,8}) (%s)\n" % NUMBER)
HISTORY = re.compile(rb"HISTORY (%s)\n" % NUMBER)
PRINTED = re.compile(rb"PRINTED (%s)\n" % NUMBER)
LISTING = re.compile(rb"LISTING ([A-Z0-9]{1,8}) (%s)\n" % NUMBER)
DISK = re.compile(rb"DISK (%s)\n" % NUMBER)


def screens_of(report):
    """Returns the name and the bytes of each screen at the start, and the place after them."""
    screens, at = [], 0
    head = SCREEN.match(report)
    while head:
        end = head.end() + int(head[2])
        screens.append((head[1].decode(), report[head.end():end]))
        at = end + 1
        head = SCREEN.match(report, at)
    return screens, min(at, len(report))


def history_in(run):
    """Returns where the history begins and where it ends, or None if there is none.

    It comes after the screens, or at the start. If it has fewer lines than it says, it goes on to the end."""
    at = screens_of(run)[1]
    head = HISTORY.match(run, at)
    if not head:
        return None
    end = head.end()
    for _ in range(int(head[1])):
        end = run.find(b"\n", end) + 1
        if end == 0:
            return at, len(run)
    return at, end


def after_print_jobs(run, at):
    """Returns the place after the print jobs that begin at a place; the place itself, if none are there."""
    head = PRINTED.match(run, at)
    if not head:
        return at
    at = head.end()
    for _ in range(int(head[1])):
        job = LISTING.match(run, at)
        if not job:
            break
        at = job.end() + int(job[2]) + 1
    return at


def disk_in(run):
    """Returns the deck of the disk at the end of a run, or None if there is none.

    A screen or a print job may have lines that look like its head, so it is found by the numbers of bytes before it."""
    place = history_in(run)
    at = after_print_jobs(run, place[1] if place else screens_of(run)[1])
    head = DISK.match(run, at)
    if not head:
        return None
    end = head.end() + int(head[1])
    return run[head.end():end] if run[end:] in (b"", b"\n") and end <= len(run) else None
