"""Folders of files that are packed into a deck, and unpacked from a disk. The file pack.txt of a folder is its table."""
import os
import pathlib
import re
import typing

from decks import ACCOUNT, BLOCK, HEADING, MOST_BLOCKS, most_code
from disks import ODD, account_line, content_lines, ended, file_line, is_text
from sources import Line, Refused, fault_in, is_inside, judged, kept_rows, rows_in

TABLE, KEYS = "pack.txt", ".keys"
USUAL_ACCOUNT, USUAL_PASSWORD, USUAL_CALLS = "100,5", "DEMO", 16384
LEAST_DISK = 64
FOLDER_OF_ACCOUNT = re.compile(r"[0-9]+,[0-9]+")
# A row of the table: the line of a deck; = if the bytes are kept as they are; the file's path, if its name is another one.
FILE_ROW = re.compile(r"FILE \[([0-9]+,[0-9]+)\]([^<\s]*)<([0-9]+)> ([0-9]+)(?: (=)(?= |$))?(?: (.+))?")


def raised(name):
    """Returns a host's name with its small letters raised, those of ASCII alone, as the text of a deck's line."""
    return os.fsencode(name).upper().decode("latin-1")


def blocks_for(size):
    return -(-size // BLOCK)


def as_on_disk(data, is_exact):
    """Returns the bytes that a host's file has on the disk: each line of a text ends with CR LF, all else is kept."""
    if is_exact or is_text(data.rstrip(b"\0")) or ODD.search(data.replace(b"\r\n", b"\n").replace(b"\n", b"")):
        return data
    return b"".join(row + b"\r\n" for row in rows_in(data))


class Entry(typing.NamedTuple):
    """A file that is packed: its row or its path, for messages; its path in the folder; and what it becomes on the disk."""

    place: str
    path: str
    owner: str
    name: str
    code: int
    least: int = 0
    is_exact: bool = False


# THE FOLDER

def scan(folder):
    """Returns the paths of all files below the folder, and why some cannot be packed."""
    paths, faults = [], []
    for base, folders, names in os.walk(folder, onerror=lambda fault: faults.append(f"{fault.filename}: {fault.strerror}")):
        folders.sort()
        for name in list(folders):
            if os.path.islink(os.path.join(base, name)):
                faults.append(f"{os.path.join(base, name)}: this is a link to a folder, which is not followed")
        for name in sorted(names):
            path = os.path.join(base, name)
            if not os.path.isfile(path):
                faults.append(f"{path}: this is not a file")
            elif not is_inside(path, folder):
                faults.append(f"{path}: this is a link to a file outside of the folder")
            elif os.path.getsize(path) > MOST_BLOCKS * BLOCK:
                faults.append(f"{path}: the file has more than {MOST_BLOCKS} blocks of {BLOCK} bytes")
            else:
                paths.append(os.path.relpath(path, folder))
    return paths, faults


def is_keys(path):
    return os.path.dirname(path) == "" and path.lower().endswith(KEYS)


def in_order(path):
    """Sorts T2 before T10."""
    return [int(it) if it.isdigit() else it for it in re.split("([0-9]+)", raised(path))]


class Table:
    """The rows of a folder's table, by their words."""

    def __init__(self, folder):
        self.disk, self.accounts, self.files, self.terminals, self.faults = None, [], [], [], []
        path = os.path.join(folder, TABLE)
        if os.path.isfile(path):
            for number, row in kept_rows(pathlib.Path(path).read_bytes()):
                self.take(Line(row, f"{path}:{number}"))

    def take(self, line):
        word = line.text.partition(b" ")[0]
        rows = {b"ACCOUNT": self.accounts, b"FILE": self.files, b"TERMINAL": self.terminals}
        if word == b"DISK" and self.disk is None:
            self.disk = line
        elif word in rows:
            rows[word].append(line)
        elif word == b"DISK":
            self.faults.append(f"{line.place}: a disk has one DISK line, and it is {self.disk.place}")
        else:
            self.faults.append(f"{line.place}: the rows of this table are DISK, ACCOUNT, FILE and TERMINAL lines")

    def first_account(self):
        """Returns the account of the first ACCOUNT row, as 100,5."""
        found = re.match(rb"ACCOUNT ([0-9]+,[0-9]+) ", self.accounts[0].text) if self.accounts else None
        return found[1].decode() if found else None


# PACKING

def line_fault(text, place, version):
    """Returns why no deck of the version has a FILE or TERMINAL line with this text; None if one has it."""
    found = re.match(rb"FILE \[([0-9]+,[0-9]+)\]", text)
    account = [b"ACCOUNT " + found[1] + b" A 1 16384"] if found else []
    lines = [f"{HEADING}{version}".encode(), b"DISK 16384", *account, text, b"END"]
    return fault_in([Line(it, place) for it in lines])


class Packer:
    """Makes a deck of a folder: its entries, and why some cannot be packed."""

    def __init__(self, folder, account=None, code=60):
        self.folder, self.code = folder, code
        self.paths, self.faults = scan(folder)
        self.table = Table(folder)
        self.faults += self.table.faults
        self.account = account or self.table.first_account() or USUAL_ACCOUNT
        self.packed = [it for it in self.paths if it != TABLE and not is_keys(it)]
        self.entries, self.used = [], set()
        self.take_rows()
        self.take_others()
        self.refuse_twins()

    def refuse(self, place, reason):
        self.faults.append(f"{place}: {reason}")

    def place_of(self, path):
        return os.path.join(self.folder, path)

    def take_rows(self):
        """Takes the files that the table names, in its order."""
        for line in self.table.files:
            text = line.text.decode("latin-1")
            found = FILE_ROW.fullmatch(text)
            fault = line_fault(line.text if not found else text[:found.end(4)].encode("latin-1"), line.place, 3)
            if fault:
                self.faults.append(fault)
                continue
            owner, name, code, least, is_exact, host = found.groups()
            name = name.rstrip(".")
            path = self.path_for(owner, name, host and os.fsdecode(host.encode("latin-1")))
            if path is None:
                self.refuse(line.place, f"the folder has no file {host or name}")
                continue
            self.used.add(path)
            self.entries.append(Entry(line.place, path, owner, name, int(code), int(least), bool(is_exact)))

    def path_for(self, owner, name, host):
        """Returns the path of a row's file: the one that it names, or one with this name in the account's folder or outside of it."""
        if host:
            return host if host in self.packed else None
        found = [it for it in self.packed if raised(it) == f"{owner}/{name}"]
        found += [it for it in self.packed if raised(it) == name and it not in self.used]
        return found[0] if found else None

    def take_others(self):
        """Takes the files that no row names: their folder is the account, their own name with raised letters the name."""
        for path in self.packed:
            if path in self.used:
                continue
            place, base = self.place_of(path), os.path.dirname(path)
            if base and not FOLDER_OF_ACCOUNT.fullmatch(base):
                self.refuse(place, f"the name of its folder is not an account, as {USUAL_ACCOUNT}; name the file in {TABLE}, or move it")
                continue
            owner, name = base or self.account, raised(os.path.basename(path))
            fault = line_fault(f"FILE [{owner}]{name}<0> 0".encode("latin-1"), place, 2)
            if fault:
                self.faults.append(fault)
            else:
                self.entries.append(Entry(place, path, owner, name, self.code))

    def refuse_twins(self):
        seen = {}
        for it in self.entries:
            first = seen.setdefault((it.owner, it.name), it)
            if first is not it:
                self.refuse(it.place, f"this would be [{it.owner}]{it.name} on the disk, as {first.place} is")

    def terminals(self):
        """Returns the lines of all terminals: first those of the table, then those of other files with keys."""
        keys, lines = {}, []
        for path in sorted(filter(is_keys, self.paths), key=in_order):
            name = raised(path[:-len(KEYS)])
            fault = line_fault(f"TERMINAL {name}".encode("latin-1"), self.place_of(path), 2)
            if fault:
                self.faults.append(fault)
            elif name in keys:
                self.refuse(self.place_of(path), f"this would be the terminal {name}, as {self.place_of(keys[name])} is")
            else:
                keys[name] = path
        for line in self.table.terminals:
            lines += [line] + self.keys_in(keys.pop(line.text.decode("latin-1").partition(" ")[2], None))
        for name, path in keys.items():
            lines += [Line(f"TERMINAL {name}".encode(), self.place_of(path))] + self.keys_in(path)
        return lines

    def keys_in(self, path):
        if path is None:
            return []
        place = self.place_of(path)
        return [Line(b">" + row, f"{place}:{number}") for number, row in enumerate(rows_in(pathlib.Path(place).read_bytes()), 1)]

    def files(self, version):
        """Returns the lines of all files, the blocks that they need, and the version, if it is not given."""
        lines, blocks, needs = [], 0, 2
        for it in self.entries:
            data = as_on_disk(pathlib.Path(self.place_of(it.path)).read_bytes(), it.is_exact)
            count = max(it.least, blocks_for(len(data)))
            head = f"FILE [{it.owner}]{it.name}<{it.code}> {count}".encode("latin-1")
            content = content_lines(data, count)
            reason = why_version_3(it, content)
            if reason and version == 2:
                self.refuse(it.place, f"{reason}, which is possible only in version 3")
            needs, blocks = 3 if reason else needs, blocks + count
            lines += [Line(text, it.place) for text in [head] + content]
        return lines, blocks, version or needs

    def accounts(self, blocks):
        """Returns the lines of all accounts: first those of the table, then others that own files."""
        lines, known = [], set()
        for line in self.table.accounts:
            found = ACCOUNT.fullmatch(line.text.decode("latin-1"))
            quota = f" {blocks}" if found and found[5] is None else ""
            lines.append(line._replace(text=line.text + quota.encode()))
            known.add(f"{found[1]},{found[2]}" if found else "")
        for owner in [self.account] + sorted({it.owner for it in self.entries}):
            if owner not in known:
                known.add(owner)
                lines.append(Line(f"ACCOUNT {owner} {USUAL_PASSWORD} {USUAL_CALLS} {blocks}".encode(), self.folder))
        return lines

    def deck(self, version=None):
        """Returns the lines of the deck; raises Refused if there is none."""
        files, blocks, version = self.files(version)
        terminals = self.terminals()
        if blocks > MOST_BLOCKS:
            self.refuse(self.folder, f"the files need {blocks} blocks, and a disk has at most {MOST_BLOCKS}")
        if self.faults:
            raise Refused(*self.faults)
        disk = self.table.disk or Line(f"DISK {min(MOST_BLOCKS, max(LEAST_DISK, 2 * blocks))}".encode(), self.folder)
        size = disk.text.decode("latin-1").partition(" ")[2]
        heading = Line(f"{HEADING}{version}".encode(), self.folder)
        return judged([heading, disk] + self.accounts(size) + files + terminals + [Line(b"END", self.folder)])


def why_version_3(entry, content):
    """Returns why a file needs version 3; None, if version 2 can describe it."""
    if any(it.startswith(b"=") for it in content):
        return "the file is not a text"
    if entry.code > most_code(2):
        return f"the protection code is {entry.code}"
    if line_fault(f"FILE [{entry.owner}]{entry.name}<0> 0".encode("latin-1"), entry.place, 2):
        return f"the name is {entry.name or 'empty'}"
    return None


# UNPACKING

def host_name(name, taken):
    """Returns the name that a file of the disk gets: its own one, or one like it, if that is taken or means something else."""
    is_own = re.fullmatch(r"[A-Za-z0-9]+(\.[A-Za-z0-9]+)?", name) and name.lower() != TABLE and not name.lower().endswith(KEYS)
    found, count = name if is_own else "", 0
    while not found or found.lower() in taken:
        count += 1
        found = f"{name.replace('.', '_')}_{count}"
    taken.add(found.lower())
    return found


def is_written_as_text(file):
    """Returns whether a file is unpacked as a text. Blocks of zeros alone are kept as they are."""
    return is_text(file.data) and (bool(file.data) or not file.blocks)


def with_ends(data, ends):
    return data.replace(b"\r\n", b"\n") if ends == "lf" else data


def unpacked(disk, ends=None):
    """Returns the files of the host that a disk becomes: the bytes of each by its path. `ends` is None, lf or crlf."""
    files, taken = {}, {}
    table = ["! The table of this disk, for rsts-pack.", f"DISK {disk.blocks}"] + [account_line(it) for it in disk.accounts]
    for it in disk.files:
        base = f"{it.owner}/" if len(disk.accounts) > 1 else ""
        name = host_name(it.name, taken.setdefault(base, set()))
        files[base + name] = with_ends(it.data, ends) if is_written_as_text(it) else it.whole()
        table.append(file_line(it) + ("" if is_written_as_text(it) else " =") + ("" if raised(name) == it.name else f" {base}{name}"))
    for it in disk.terminals:
        table.append(f"TERMINAL {it.name}")
        files[it.name + KEYS] = b"".join(keys + b"\r\n" if ends == "crlf" else ended(keys) for keys in it.keys)
    files[TABLE] = "".join(it + ("\r\n" if ends == "crlf" else "\n") for it in table).encode()
    return files


def why_not_written(folder, paths, force):
    """Yields each reason why the paths cannot be written into the folder."""
    if os.path.lexists(folder) and not os.path.isdir(folder):
        yield f"{folder}: this is not a folder"
        return
    for base in sorted({os.path.dirname(it) for it in paths} - {""}):
        path = os.path.join(folder, base)
        if os.path.islink(path) or os.path.lexists(path) and not os.path.isdir(path):
            yield f"{path}: this is not a folder, and the account {base} needs one"
    for it in paths:
        path = os.path.join(folder, it)
        if os.path.isdir(path) and not os.path.islink(path):
            yield f"{path}: this is a folder"
        elif os.path.lexists(path) and not force:
            yield f"{path}: this file exists; --force replaces it"


def write(folder, files, force=False):
    """Writes the files into the folder, which is made if it is not there. Raises Refused before anything is written."""
    reasons = list(why_not_written(folder, files, force))
    if reasons:
        raise Refused(*reasons)
    for path, data in files.items():
        target = os.path.join(folder, path)
        os.makedirs(os.path.dirname(target), exist_ok=True)
        # A file is replaced as a whole, and a link that has its name is replaced and not followed.
        new = f"{target}_new" if force else target
        with open(new, "xb") as file:
            file.write(data)
        if force:
            os.replace(new, target)


def others_in(folder, files):
    """Returns the files in the folder that are not of the disk, but would be packed with it."""
    return sorted(it for it in scan(folder)[0] if it not in files)
