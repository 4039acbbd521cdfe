"""Why a deck is rejected: one table of causes, CAUSES, of which the first entry that fits the line is the explanation."""
import re

from decks import (ACCOUNT, BLOCK, DISK, ENDS, FORM, FORMS, HEADING, MOST_BLOCKS, MOST_CALLS, MOST_KEYS, MOST_NUMBER, OWNER, RANGE, ROOM, TWICE,
                   VERSION, DeckBefore, bytes_in, file_form, most_code)
from spelling import distance

MOST_SHOWN, MOST_SAID = 100, 300


class Place:
    """The line that was rejected, and what is before and after it. `where` names a line by its number."""

    def __init__(self, text, number, said, where="line {}".format):
        self.number, self.where = number, where
        # The program's words name the versions that it takes.
        self.cause = VERSION if said.startswith("not a version") else said
        self.versions = re.findall("[0-9]+", said if self.cause == VERSION else VERSION)
        lines = text.decode("latin-1").split("\n")
        self.is_cut = number == len(lines)
        self.lines = [line[:-1] if line.endswith("\r") else line for line in lines]
        self.line = self.lines[number - 1] if number <= len(lines) else ""
        self.before = DeckBefore(self.lines[: number - 1], where)

    def may(self, word):
        return word in self.before.words()

    def word(self):
        """Returns the word of a deck that the line begins with, in capitals or not."""
        found = re.match(r"[ \t]*(rsts-deck|disk|account|file|terminal|end)(?![A-Za-z])", self.line, re.I)
        return found[1].upper() if found else self.line[:1] if self.line.startswith((">", "=")) else ""

    def headings(self):
        """Returns the first lines that a deck may have, by the program's words."""
        *front, last = [HEADING + it for it in self.versions]
        return f"{', '.join(front)} or {last}"


# ENTRIES THAT COUNT

def is_within(text, least, most):
    return len(text) < 10 and least <= int(text) <= most


def numbers_in(place):
    """Returns the numbers of the line: what each is, its digits, and its range."""
    disk, account, file = DISK.fullmatch(place.line), ACCOUNT.fullmatch(place.line), file_form(place.before.version).fullmatch(place.line)
    if disk:
        return [("number of blocks", disk[1], 1, MOST_BLOCKS)]
    found = account or file
    owner = [("project number", found[1], 1, MOST_NUMBER), ("programmer number", found[2], 0, MOST_NUMBER)] if found else []
    if account:
        return owner + [("limit of calls", account[4], 1, MOST_CALLS), ("quota", account[5] or "0", 0, MOST_BLOCKS)]
    if file:
        return owner + [("protection code", file[4], 0, most_code(place.before.version)), ("number of blocks", file[5], 0, MOST_BLOCKS)]
    return []


def out_of_range(place):
    """Says which number of the line is out of its range."""
    for name, text, least, most in numbers_in(place):
        if not is_within(text, least, most):
            return f"the {name} {text} is not from {least} to {most}"
    return None


def blocks_for_lines(place):
    """Says how many blocks all lines of the file need."""
    size, at = place.before.file_bytes, place.number - 1
    while at < len(place.lines) and place.lines[at].startswith((">", "=")):
        size += bytes_in(place.lines[at])
        at += 1
    needed = -(-size // BLOCK)
    had = place.before.file_line.rpartition(" ")[2]
    better = re.sub(r"\d+$", str(needed), place.before.file_line)
    what = "text" if place.before.version < 3 else "content"
    return f"the {what} of this file needs {needed} block{'s' if needed > 1 else ''} of {BLOCK} bytes, and it has {had}; write {better}"


def no_room_on_disk(place):
    found = file_form(place.before.version).fullmatch(place.line)
    wanted = place.before.blocks_of() + int(found[5])
    if wanted <= place.before.disk:
        return None
    return f"the files up to here need {wanted} blocks, and the disk has {place.before.disk}; write DISK {wanted} in {place.before.disk_place}"


def no_room_in_quota(place):
    found = file_form(place.before.version).fullmatch(place.line)
    account, quota = place.before.accounts.get((found[1], found[2]), ("", None))
    wanted = place.before.blocks_of((found[1], found[2])) + int(found[5])
    if quota is None or wanted <= quota:
        return None
    return f"the files of account {found[1]},{found[2]} need {wanted} blocks, and its quota is {quota}; write {wanted} at the end of {account}, or fewer blocks here"


def account_comes_later(place):
    found = re.match(r"FILE \[(\d+),(\d+)\]", place.line)
    later = re.compile(rf"ACCOUNT {found[1]},{found[2]} ")
    for number, line in enumerate(place.lines, 1):
        if later.match(line):
            return f"account {found[1]},{found[2]} comes only in {place.where(number)}; all ACCOUNT lines come before the FILE lines"
    return f"no ACCOUNT line gives account {found[1]},{found[2]}; write ACCOUNT {found[1]},{found[2]} DEMO {limits(place)} before the FILE lines (DEMO is the password)"


def was_given(place):
    before, line = place.before, place.line
    account, file = re.match(r"ACCOUNT (\d+),(\d+) ", line), file_form(before.version).match(line)
    if account:
        return f"account {account[1]},{account[2]} was given in {before.accounts[account[1], account[2]][0]}"
    if file:
        return f"the file [{file[1]},{file[2]}]{file[3]} was given in {before.files[file[1], file[2], file[3]][0]}"
    name = line.partition(" ")[2]
    return f"the terminal {name} was given in {before.terminals[name]}"


def long_keys(place):
    return f"a line that is typed has at most {MOST_KEYS} bytes, and this one has {len(place.line) - 1}; cut it into two lines"


def many_bytes(place):
    return f"a line of bytes has at most {BLOCK} bytes, and this one has {(len(place.line) - 1) // 2}; begin another line with ="


def odd_digits(place):
    return f"each byte is two digits, and this line has {len(place.line) - 1} digits; add one, or delete one"


def limits(place):
    """Returns what may come after the password: a limit of calls, and a quota if the version has one."""
    return "1000" if place.before.version == 1 else "1000 100"


def no_calls(place):
    missing = "the limit of calls is missing" if place.before.version == 1 else "the limit of calls and the quota are missing"
    return f"{missing}; write {place.line} {limits(place)}"


def no_password(place):
    missing = "the password and the limit of calls" if place.before.version == 1 else "the password, the limit of calls and the quota"
    return f"{missing} are missing; write {place.line} DEMO {limits(place)} (DEMO is the password)"


def odd_byte(place):
    sign = re.match("=[0-9a-f]*(.)", place.line)[1]
    return f"{'a space' if sign == ' ' else sign} is not a hexadecimal digit; after = come only 0 to 9 and a to f"


def comes_too_late(place):
    word, last = place.word(), place.before.last
    return f"{word} lines come before the first {last} line; the order is DISK, ACCOUNT, FILE, TERMINAL, END"


def misspelled(place):
    """Explains a word that is nearly one of a deck."""
    word = re.match(r"[A-Za-z-]+", place.line)[0].upper()
    near = [it for it in FORMS if it[0] not in ">=" and len(word) > 2 and 0 < distance(word, it) <= (1 if len(it) < 5 else 2)]
    return f"{word} is not a word of a deck; is {near[0]} meant?" if near else None


def departs(place):
    """Says where the line departs from the form of its word."""
    at, wanted = 0, "the end of the line"
    for pattern, part in place.before.parts(place.word()):
        found = re.compile(pattern).match(place.line, at)
        if not found:
            wanted = part
            break
        at = found.end()
    rest = f'"{place.line[at:]}"' if place.line[at:] else "the end of the line"
    return f"in column {at + 1} {wanted} is expected, and {rest} is there"


def no_version(place):
    return f"there is no version {place.line[len(HEADING):]}; write {place.headings()}"


def no_heading(place):
    return f"the first line of a deck must be {place.headings()}"


# THE TABLE

class Row:
    """A cause: which answer of the program, a pattern of the line, a test of its place, and what is said.

    In a text `{0}` is the line, `{1}` the first group of the pattern."""

    def __init__(self, name, cause, pattern, text, where=None):
        self.name, self.cause, self.pattern, self.text, self.where = name, cause, re.compile(pattern, re.S), text, where

    def says(self, place):
        """Returns what this entry says of the place, or None if it does not fit."""
        found = self.pattern.match(place.line)
        if place.cause not in self.cause or not found or self.where and not self.where(place):
            return None
        if callable(self.text):
            return self.text(place)
        return self.text.format(place.line, *(it or "" for it in found.groups()))


def after(*words):
    return lambda place: place.before.last in words


def is_cut(place):
    return place.is_cut


def version_is(*numbers):
    return lambda place: place.before.version in numbers


def is_file(place):
    return file_form(place.before.version).fullmatch(place.line)


ANY = (ENDS, VERSION, FORM, RANGE, TWICE, OWNER, ROOM)
WORD = r"(?:RSTS-DECK|DISK|ACCOUNT|FILE|TERMINAL|END)"
NAMED = r"FILE \[\d+,\d+\][A-Za-z0-9.]+"
CAUSES = [
    # The file as a whole.
    Row("utf16", ANY, r"(?:\xff\xfe|\xfe\xff)", "the file is UTF-16 text; save it as ASCII or UTF-8 without a byte-order mark"),
    Row("mark", (VERSION,), r"\xef\xbb\xbf", "the file begins with a byte-order mark (EF BB BF); save it as UTF-8 without one"),
    Row("empty", (ENDS,), r"$", "the file is empty", lambda place: place.number == 1),
    Row("cr_alone", ANY, r"[^\n]*\r[^\n]*", "there is a CR (\\r) inside this line; save the file with Unix line ends (LF), or with those of Windows (one CR and LF)"),
    Row("no_last_lf", (ENDS,), r"END$", "the last line END has no line feed after it; press RETURN after END", is_cut),
    Row("no_lf", (ENDS,), r".+$", "the file ends here without a line feed, and END is missing; press RETURN after this line, and add END as the last line", is_cut),
    Row("no_end", (ENDS,), r"$", "the line END is missing; add END as the last line, and press RETURN after it"),
    # Line 1.
    Row("program", (VERSION,), r"\d+ *[A-Za-z?!]", "this is a BASIC program, not a deck; type it at ./rsts-terminal, or check it with ./rsts-lint"),
    Row("report", (VERSION,), r"TERMINAL |HISTORY ", "this is what a run wrote, not a deck; name the deck that was run (./rsts replay DECK RUN takes both, if RUN was written with --history)"),
    Row("version", (VERSION,), r"RSTS-DECK \d+$", no_version),
    Row("version_blanks", (VERSION,), r"[ \t]*(RSTS-DECK \d+)[ \t]*$", "delete the blanks before and after {1}"),
    Row("small_version", (VERSION,), r"[ \t]*[Rr][Ss][Tt][Ss][-_ ]*[Dd][Ee][Cc][Kk]", "spell the first line RSTS-DECK 1: capital letters, one space, nothing before or after"),
    Row("no_version", (VERSION,), WORD, "the first line is missing; write RSTS-DECK 1 above this line"),
    Row("first_line", (VERSION,), r"", no_heading),
    # What is no line of a deck.
    Row("blank_after_end", (FORM,), r"[ \t]*$", "END is the last line of a deck; delete this empty line", after("END")),
    Row("after_end", (FORM,), r"", "END is the last line of a deck; put it below this line, or delete the line", after("END")),
    Row("blank", (FORM,), r"[ \t]*$", "a deck has no empty lines; delete this one (to type an empty line, write > alone; ./rsts-pack makes a deck of a file with empty lines)"),
    Row("comment", (FORM,), r"[ \t]*(?:[!#;*]|//|--|REM\b)", "a deck has no comments; delete this line (./rsts-pack makes a deck of a file with comment lines, which begin with !)"),
    Row("include", (FORM,), r"@", "a deck includes no files; write the lines of the file here, each after > (./rsts-pack makes a deck of a file with @ lines)"),
    Row("blanks_first", (FORM,), r"[ \t]+(?:%s|>)" % WORD, "delete the blanks at the beginning of the line"),
    Row("blanks_last", (FORM,), r"%s\b.*[ \t]$" % WORD, "the line ends in blanks; delete them"),
    Row("tab", (FORM,), r"%s\b.*\t" % WORD, "put one space between the parts of a line, not a tab (\\t)"),
    Row("spaces", (FORM,), r"%s\b.*  " % WORD, "put one space between the parts of a line, not several"),
    Row("no_text", (FORM,), r">", "a > line follows a TERMINAL line (what is typed there) or a FILE line (the text of the file)"),
    # The order.
    Row("no_disk", (FORM,), r"(?!DISK|disk)(?:%s|>)" % WORD, "the second line of a deck is DISK and the number of blocks; write it before this line, as DISK 100", after("RSTS-DECK")),
    Row("account_late", (FORM,), r"ACCOUNT ", comes_too_late, after("FILE", "TERMINAL")),
    Row("file_late", (FORM,), r"FILE ", comes_too_late, after("TERMINAL")),
    Row("second_disk", (FORM,), r"(RSTS-DECK|DISK)\b", "a deck has one {1} line, and it is above", after("DISK", "ACCOUNT", "FILE", "TERMINAL")),
    # Words.
    Row("small_word", (FORM,), r"(?=[a-zA-Z]*[a-z])(?i:disk|account|file|terminal|end)\b", "the words of a deck are in capital letters: DISK, ACCOUNT, FILE, TERMINAL, END"),
    Row("end_more", (FORM,), r"END.", "END must be alone in its line"),
    Row("glued", (FORM,), r"(DISK|ACCOUNT|FILE|TERMINAL)(?=[\d\[(])", "put a space after {1}"),
    Row("misspelled", (FORM,), r"[A-Za-z]+(?=[ .]|$)", misspelled),
    # ACCOUNT.
    Row("small_password", (FORM,), r"ACCOUNT \d+,\d+ (?=\S*[a-z])(\S+)", "the password {1} has small letters; it is 1 to 6 capital letters and digits (at HELLO either may be typed)"),
    Row("one_number", (FORM,), r"ACCOUNT (\d+) |FILE \[\d+\]", "an account has two numbers with a comma between them, as 100,5"),
    Row("slash", (FORM,), r"ACCOUNT (\d+)[/.;: ](\d+)\b", "put a comma between project and programmer number: {1},{2}"),
    Row("brackets", (FORM,), r"ACCOUNT [\[(](\d+),(\d+)[\])]", "an ACCOUNT line has no brackets; write ACCOUNT {1},{2}"),
    Row("semicolon", (FORM,), r"ACCOUNT \d+,\d+[;/:](\S+)", "put a space between account and password (the ; is for HELLO)"),
    Row("no_calls", (FORM,), r"ACCOUNT \d+,\d+ [A-Z0-9]+$", no_calls),
    Row("no_password", (FORM,), r"ACCOUNT \d+,\d+$", no_password),
    Row("no_quota", (FORM,), r"ACCOUNT \d+,\d+ [A-Z0-9]+ \d+$", "in version 2 a quota of blocks comes after the calls; write {0} 100, or RSTS-DECK 1 in the first line", version_is(2)),
    Row("no_quota_3", (FORM,), r"ACCOUNT \d+,\d+ [A-Z0-9]+ \d+$", "in version 3 a quota of blocks comes after the calls; write {0} 100", version_is(3)),
    Row("quota", (FORM,), r"(ACCOUNT \d+,\d+ [A-Z0-9]+ \d+) \d+$", "version 1 has no quota; write {1}, or RSTS-DECK 2 in the first line", version_is(1)),
    Row("long_password", (RANGE,), r"ACCOUNT \d+,\d+ ([A-Z0-9]{7,})", "the password {1} has more than 6 letters and digits"),
    # FILE.
    Row("small_name", (FORM,), r"FILE \[\d+,\d+\](?=[^<]*[a-z])([^< ]+)", "the name {1} has small letters; use capital letters and digits", version_is(1, 2)),
    Row("no_code", (FORM,), r"(%s) (\d+)$" % NAMED, "the protection code is missing; write {1}<60> {2}"),
    Row("no_blocks", (FORM,), r"%s<\d+>$" % NAMED, "the number of blocks is missing; write {0} 1"),
    Row("only_name", (FORM,), r"%s$" % NAMED, "protection code and blocks are missing; write {0}<60> 1"),
    Row("no_owner", (FORM,), r"FILE ([A-Za-z][\w.]*)", "the account of the file is missing; write it in brackets before the name, as FILE [100,5]{1}<60> 1"),
    Row("parentheses", (FORM,), r"FILE [(](\d+,\d+)[)]", "put the account of a file in square brackets: [{1}]"),
    Row("name_space", (FORM,), r"FILE \[\d+,\d+\] ", "delete the space between the account and the name"),
    Row("code_space", (FORM,), r"%s <" % NAMED, "delete the space between the name and its code"),
    Row("inner_space", (FORM,), r"%s [^<]*<" % NAMED, "a file name has no spaces; it is capital letters and digits"),
    Row("file_sign", (FORM,), r"FILE \[\d+,\d+\][A-Za-z0-9.]*([^A-Za-z0-9.<> ])", "a file name cannot have the sign {1}; it is capital letters and digits"),
    Row("no_stem", (RANGE,), r"FILE \[\d+,\d+\][.<]", "the name of the file is missing; it is 1 to 6 capital letters and digits"),
    Row("long_name", (RANGE,), r"FILE \[\d+,\d+\]([A-Za-z0-9]{7,})", "the name {1} has more than 6 letters and digits"),
    Row("long_extension", (RANGE,), r"FILE \[\d+,\d+\]\w*\.([A-Z0-9]{4,})", "the extension {1} has more than 3 letters and digits", version_is(1, 2)),
    Row("no_extension", (RANGE,), r"FILE \[\d+,\d+\]\w*\.<", "the extension after the point is missing; write 1 to 3 letters or digits, or delete the point", version_is(1, 2)),
    Row("owner", (OWNER,), r"FILE \[\d+,\d+\]", account_comes_later),
    Row("disk_room", (ROOM,), r"FILE ", no_room_on_disk, lambda place: is_file(place) and no_room_on_disk(place)),
    Row("quota_room", (ROOM,), r"FILE ", no_room_in_quota, lambda place: is_file(place) and no_room_in_quota(place)),
    Row("text_room", (ROOM,), r">", blocks_for_lines),
    Row("most_files", (ROOM,), r"FILE ", "a deck has at most 512 files"),
    Row("most_accounts", (ROOM,), r"ACCOUNT ", "a deck has at most 512 accounts"),
    # Version 3.
    Row("bytes_version", (FORM,), r"=", "lines of bytes (=) need version 3; write RSTS-DECK 3 in the first line, and a quota at the end of each ACCOUNT line", lambda place: after("FILE")(place) and place.before.version == 1),
    Row("bytes_version_2", (FORM,), r"=", "lines of bytes (=) need version 3; write RSTS-DECK 3 in the first line", lambda place: after("FILE")(place) and place.before.version == 2),
    Row("bytes_alone", (FORM,), r"=", "a line of bytes (=) follows a FILE line, or another line of the file", after("RSTS-DECK", "DISK", "ACCOUNT", "TERMINAL")),
    Row("capital_digits", (FORM,), r"=[0-9a-fA-F]*[A-F]", "hexadecimal digits are 0 to 9 and small letters a to f; this line has capital ones"),
    Row("bytes_sign", (FORM,), r"=[0-9a-f]*[^0-9a-f]", odd_byte),
    Row("odd_digits", (FORM,), r"=[0-9a-f]*$", odd_digits),
    Row("many_bytes", (RANGE,), r"=", many_bytes),
    Row("bytes_room", (ROOM,), r"=", blocks_for_lines),
    Row("long_extension_3", (RANGE,), r"FILE \[\d+,\d+\]\w*\.([A-Za-z0-9]{7,})", "the extension {1} has more than 6 letters and digits", version_is(3)),
    # TERMINAL and what is typed.
    Row("most_terminals", (ROOM,), r"TERMINAL ", "a deck has at most 63 terminals"),
    Row("colon", (FORM,), r"TERMINAL ([A-Z0-9]*):", "a terminal's name has no colon: TERMINAL {1}"),
    Row("no_name", (FORM, RANGE), r"TERMINAL ?$", "the name is missing; write TERMINAL T1"),
    Row("small_terminal", (FORM,), r"TERMINAL (?=\S*[a-z])(\S+)", "the name {1} has small letters; it is 1 to 8 capital letters and digits"),
    Row("keys_beside", (FORM,), r"TERMINAL (\S+) (\S.*)", "what is typed comes in lines of its own: TERMINAL {1}, and >{2} in the next line"),
    Row("terminal_sign", (FORM,), r"TERMINAL [A-Z0-9]*([^A-Z0-9 ])", "a terminal's name cannot have the sign {1}; it is capital letters and digits"),
    Row("long_terminal", (RANGE,), r"TERMINAL (\w{9,})", "the name {1} has more than 8 letters and digits"),
    Row("long_keys", (RANGE,), r">", long_keys),
    Row("twice", (TWICE,), r"", was_given),
    Row("no_mark", (FORM,), r"(?!%s\b)(.+)" % WORD, "a line that is typed begins with >: write >{1}", after("TERMINAL")),
    Row("no_text_mark", (FORM,), r"(?!%s\b)(.+)" % WORD, "a line of a file's text begins with >: write >{1}", after("FILE")),
    # Numbers.
    Row("zero", (FORM,), r"%s\b.*?(?<!\d)(0\d+)" % WORD, "the number {1} begins with a zero; write it without"),
    Row("words_after", (FORM,), r"DISK \d+(\D.*)", "delete what comes after the number of blocks:{1}"),
    Row("number", (RANGE,), r"", out_of_range),
    Row("departs", (FORM,), r"(?:DISK|ACCOUNT|FILE|TERMINAL)\b", departs),
    Row("no_line", (FORM,), r"(\S+)", "{1} is not a word of a deck; these are DISK, ACCOUNT, FILE, TERMINAL and END", lambda place: not place.word()),
]


def why(place):
    """Returns the first explanation that fits, with the name of its entry."""
    for row in CAUSES:
        text = row.says(place)
        if text:
            return row.name, text
    return None, None


# WHAT IS SHOWN

def printable(line, most=MOST_SHOWN):
    """Returns the text with control bytes and others that are not ASCII as \\r, \\t or \\x07, cut if it is long."""
    text = "".join(it if " " <= it <= "~" else it.encode("unicode_escape").decode() for it in line[:most + 1])
    return text if len(line) <= most else text[:most] + " .."


def forms(place):
    """Returns the form of the line's own word, or else all that may come there."""
    before, word = place.before, place.word()
    if before.last == "":
        return place.headings()
    word = {("FILE", ">"): ">text", ("TERMINAL", ">"): ">keys", ("FILE", "="): "=bytes"}.get((before.last, word), word)
    if word in before.words():
        return before.form(word)
    return " | ".join(before.form(it) for it in before.words()) or "nothing: the deck ends with END"
