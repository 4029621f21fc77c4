#!/usr/bin/env python3
"""Measures what it takes to keep contents so that they outlast a crash, against files and SQLite:

    bench/lasting.py PROGRAM FOLDER

PROGRAM is the built program, as crates/blob_shell/out/blob_shell. All files, some 300 MB at a time, stand in a new folder
below FOLDER, which is removed at the end: FOLDER's disk is the one that is measured. It takes some minutes.

Four loads are kept by each of four stores, with the SHA-256 of each content:
- this program: a whole run of `fresh`, from a script. Each transaction puts one content; a lead commits one, or sixteen.
- plain files: one for each content, written and synced, then their folder, then a line in an index that has the digest.
  Sixteen at once: all files are written, then each is synced, then the folder once and the index once.
- SQLite with a write-ahead log, and SQLite with a rollback journal: `synchronous=FULL` and all else as it comes, a table
  of key, content and digest, one insert a transaction or sixteen.

What is measured is the time by the clock of a whole run, from no file to closed files; the least of three. Each run begins
on a disk that has been synced, and the stores take turns.

Making the contents is inside the time of all, since a script has no other way to give the program 4 MiB: it names a
content, and the program makes it byte by byte. The others make each in their own loop, in the cheapest way, as copies of a
block of 64 KiB. Hashing is inside too: by the program's own SHA-256, and by that of hashlib for the others, which may use
instructions of the processor. So that nobody has to guess what those two take, they are measured apart, over the same
contents and with nothing kept: the program begins, puts and aborts. `rest` is what is left of the time without them: what
the keeping takes. Starting the program's process is in both of its times, starting Python in nobody's.

Before anything is measured each store keeps each load once, and what it kept is read back and compared.
"""
import hashlib
import os
import shutil
import signal
import sqlite3
import subprocess
import sys
import tempfile
import time

ROUNDS = 3
PAGE, UNIT, BLOCK = 4096, 1024, 65536
SESSIONS = 16


class Load:
    """So many contents of one size, so many of them at once."""

    def __init__(self, title, count, size, at_once):
        self.title, self.count, self.size, self.at_once = title, count, size, at_once

    def groups(self):
        """The numbers of the contents, in the groups that are kept together."""
        return [range(n, min(n + self.at_once, self.count)) for n in range(0, self.count, self.at_once)]


LOADS = [
    Load("64 contents of 4 MiB, one a transaction", 64, 4 * 2**20, 1),
    Load("1000 contents of 100 kB, one a transaction", 1000, 100_000, 1),
    Load("2000 contents of 8 KiB, one a transaction", 2000, 8192, 1),
    Load(f"1024 contents of 100 kB, {SESSIONS} a group", 1024, 100_000, SESSIONS),
]


def stop(why):
    """Ends the measurement with its reason."""
    sys.exit(f"lasting.py: {why}")


# The contents. Byte i of the content g:LEN:FIRST is (FIRST + 7 i + i / 256) mod 256, which comes again after BLOCK bytes.

def blocks_of_all():
    """The first BLOCK bytes of the contents, for each first byte."""
    zero = bytes((7 * i + i // 256) % 256 for i in range(BLOCK))
    return [zero.translate(bytes((byte + first) % 256 for byte in range(256))) for first in range(256)]


BLOCKS = blocks_of_all()


def key_of(n):
    return f"bench/k{n:06}"


def first_of(n):
    return n % 256


def content_of(n, size):
    """Makes content number n."""
    block = BLOCKS[first_of(n)]
    if size <= BLOCK:
        return block[:size]
    whole, left = divmod(size, BLOCK)
    return block * whole if left == 0 else (block * (whole + 1))[:size]


def digests_of(load):
    """The digest of each content by its key."""
    of_first = {}
    for first in range(min(256, load.count)):
        of_first[first] = hashlib.sha256(content_of(first, load.size)).digest()
    return {key_of(n): of_first[first_of(n)] for n in range(load.count)}


# This program: a store of enough units and enough room, a script, and what it answers.

def pages_and_extents(size):
    """How many pages a content owns, and in how many extents its full pages lie (docs/FORMATS.md)."""
    full, tail = divmod(size, PAGE)
    owned, extents = 0, 0
    while owned < full:
        owned += 2 ** min(extents // 4, 10)
        extents += 1
    return owned + (tail > 0), extents


def layout_of(load):
    """Twice the units that the contents own, since blocks stand at multiples of their pages; and the pages of their states."""
    pages, extents = pages_and_extents(load.size)
    state = 77 + len(key_of(0)) + 36 * extents + 4
    units = 2 * -(-load.count * pages // UNIT)
    room = -(-load.count * state // PAGE)
    return str(units), str(room)


def put_of(load, session, n):
    return f"{session} put {key_of(n)} g:{load.size}:{first_of(n)}"


def committing(load):
    """The script that keeps a load, and its answers."""
    script, wanted = [], []
    for group in load.groups():
        for session, n in enumerate(group):
            script += [f"{session} begin", put_of(load, session, n), f"{session} commit"]
            wanted += [f"{session} begun", f"{session} put", f"{session} queued"]
        script.append("lead")
        wanted += [f"{session} committed {n + 1}" for session, n in enumerate(group)]
    return script, wanted


def aborting(load):
    """The script that puts the same contents and keeps none, and its answers."""
    script, wanted = [], []
    for n in range(load.count):
        script += ["0 begin", put_of(load, 0, n), "0 abort"]
        wanted += ["0 begun", "0 put", "0 aborted"]
    return script, wanted


def text_of(lines):
    return "".join(f"{line}\n" for line in lines).encode()


class ThisProgram:
    title = "this program"

    def __init__(self, program):
        self.program = program

    def ran(self, words, script):
        """What the program writes, and the seconds that it takes from a script in a file to answers in one."""
        with open("script", "wb") as file:
            file.write(script)
        os.sync()
        with open("script", "rb") as source, open("told", "w+b") as sink:
            begun = time.monotonic()
            status = subprocess.run([self.program, *words], stdin=source, stdout=sink, check=False).returncode
            seconds = time.monotonic() - begun
            sink.seek(0)
            told = sink.read()
        if status:
            stop(f"the program ended with status {status}: {told.splitlines()[-1:]}")
        return told, seconds

    def answered(self, load, script, wanted):
        """The seconds that a script takes over a new store."""
        told, seconds = self.ran(["fresh", "store", *layout_of(load)], text_of(script))
        if told != text_of(wanted):
            stop(f"the program doesn't answer what is wanted: {told.splitlines()[-1:]}")
        return seconds

    def keep(self, load):
        return self.answered(load, *committing(load))

    def made(self, load):
        return self.answered(load, *aborting(load))

    def kept(self, load):
        """What it has kept, by its own `show`, and that each content verifies, by its own `check`."""
        shown = self.ran(["show", "store"], b"")[0].decode().splitlines()
        if shown[-1:] != [f"last {load.count}"]:
            stop(f"the program's store ends with {shown[-1:]}")
        checked = self.ran(["check", "store"], b"")[0]
        if checked != f"checked {load.count} damaged 0\n".encode():
            stop(f"the program's contents don't verify: {checked!r}")
        lines = [line.split() for line in shown[:-1]]
        return {key: bytes.fromhex(digest) for key, _, digest, _ in lines}


# The others, which make and hash the contents in Python.

def seconds_of(call, *given):
    begun = time.monotonic()
    call(*given)
    return time.monotonic() - begun


def hash_all(load):
    """Makes each content of a load, and hashes it."""
    for n in range(load.count):
        hashlib.sha256(content_of(n, load.size)).digest()


def made_in_python(load):
    return seconds_of(hash_all, load)


def sync_folder(folder):
    handle = os.open(folder, os.O_RDONLY | os.O_DIRECTORY)
    os.fsync(handle)
    os.close(handle)


def sync_file(file):
    file.flush()
    os.fsync(file.fileno())


class PlainFiles:
    title = "plain files"
    made = staticmethod(made_in_python)

    def keep(self, load):
        return seconds_of(self.run, load)

    def run(self, load):
        os.makedirs("files/bench")
        sync_folder("files")
        with open("files/index", "ab") as index:
            for group in load.groups():
                lines = self.written(load, group)
                sync_folder("files/bench")
                index.write(b"".join(lines))
                sync_file(index)
        sync_folder("files")

    def written(self, load, group):
        """Writes the files of a group, and gives their lines of the index."""
        files, lines = [], []
        for n in group:
            content = content_of(n, load.size)
            file = open(f"files/{key_of(n)}", "xb", buffering=0)
            if file.write(content) != load.size:
                stop("a file isn't written whole")
            files.append(file)
            lines.append(f"{key_of(n)} {hashlib.sha256(content).hexdigest()}\n".encode())
        for file in files:
            os.fsync(file.fileno())
            file.close()
        return lines

    def kept(self, load):
        kept = {}
        with open("files/index", encoding="ascii") as index:
            for line in index:
                key, digest = line.split()
                with open(f"files/{key}", "rb") as file:
                    if hashlib.sha256(file.read()).hexdigest() == digest:
                        kept[key] = bytes.fromhex(digest)
        return kept


class SQLite:
    made = staticmethod(made_in_python)

    def __init__(self, title, journal):
        self.title, self.journal = title, journal

    def keep(self, load):
        return seconds_of(self.run, load)

    def opened(self):
        base = sqlite3.connect("base", isolation_level=None)
        if base.execute(f"PRAGMA journal_mode={self.journal}").fetchone()[0] != self.journal:
            stop(f"SQLite doesn't take {self.journal}")
        base.execute("PRAGMA synchronous=FULL")
        return base

    def run(self, load):
        base = self.opened()
        base.execute("CREATE TABLE objects (key TEXT PRIMARY KEY, content BLOB NOT NULL, sha256 BLOB NOT NULL)")
        for group in load.groups():
            base.execute("BEGIN IMMEDIATE")
            for n in group:
                content = content_of(n, load.size)
                base.execute("INSERT INTO objects VALUES (?, ?, ?)", (key_of(n), content, hashlib.sha256(content).digest()))
            base.execute("COMMIT")
        base.close()

    def kept(self, load):
        base = self.opened()
        rows = base.execute("SELECT key, content, sha256 FROM objects")
        kept = {key: digest for key, content, digest in rows if hashlib.sha256(content).digest() == digest}
        base.close()
        return kept


# The measurement.

def emptied():
    """Removes what a store left, and waits until the disk has nothing more to write."""
    for name in os.listdir("."):
        shutil.rmtree(name) if os.path.isdir(name) else os.remove(name)
    os.sync()


def tried(stores, load):
    """Has each store keep a load once, and compares what it kept."""
    wanted = digests_of(load)
    for store in stores:
        emptied()
        store.keep(load)
        if store.kept(load) != wanted:
            stop(f"{store.title} hasn't kept {load.title}")
    emptied()


def least_of(stores, load):
    """For each store the least time of keeping a load, and of making and hashing it alone: that one is the same for all in Python."""
    keeping = {store.title: [] for store in stores}
    making = {store.made: [] for store in stores}
    for turn in range(ROUNDS):
        for store in stores[turn:] + stores[:turn]:
            emptied()
            keeping[store.title].append(store.keep(load))
        for made, times in making.items():
            emptied()
            times.append(made(load))
    emptied()
    return [(min(keeping[store.title]), min(making[store.made])) for store in stores]


def times_as(one, other):
    """How many times the other this is."""
    return f"{one / other:8.2f}" if one > 0 and other > 0 else "       -"


def tell(stores, load, least):
    """Prints what was measured of a load."""
    print(f"\n{load.title}")
    print(f"  {'':26} {'seconds':>8} {'ratio':>8} {'MB/s':>8}   {'make+hash':>9} {'rest':>8} {'ratio':>8}")
    mine, rest_of_mine = least[0][0], least[0][0] - least[0][1]
    for store, (kept, made) in zip(stores, least):
        rate = load.count * load.size / kept / 1e6
        rest = kept - made
        print(f"  {store.title:26} {kept:8.3f} {times_as(kept, mine)} {rate:8.1f}   {made:9.3f} {rest:8.3f} {times_as(rest, rest_of_mine)}")
    sys.stdout.flush()


def processor():
    """The name of the processor, and whether it has SHA instructions."""
    name, sha = "unknown", ""
    with open("/proc/cpuinfo", encoding="ascii", errors="replace") as told:
        for line in told:
            word, _, value = line.partition(":")
            if word.strip() in ("model name", "Model", "Hardware"):
                name = value.strip()
            if word.strip() in ("flags", "Features") and ("sha_ni" in value.split() or "sha2" in value.split()):
                sha = ", with SHA instructions"
    return name + sha


def file_system():
    """The file system of this folder, with its options."""
    here, found = os.path.realpath("."), ("", "unknown", "")
    with open("/proc/self/mounts", encoding="utf-8", errors="replace") as mounts:
        for line in mounts:
            _, at, kind, options = line.split()[:4]
            inside = here == at or here.startswith(at.rstrip("/") + "/")
            if inside and len(at) >= len(found[0]):
                found = (at, kind, options)
    return f"{found[1]} at {found[0]} ({found[2]})"


def sync_seconds():
    """The median of the seconds that it takes to write a page that is there and to sync it."""
    times = []
    with open("page", "w+b", buffering=0) as file:
        file.write(bytes(PAGE))
        os.fsync(file.fileno())
        for n in range(101):
            file.seek(0)
            begun = time.monotonic()
            file.write(bytes([n]) * PAGE)
            os.fsync(file.fileno())
            times.append(time.monotonic() - begun)
    os.remove("page")
    return sorted(times)[len(times) // 2]


def hash_rate():
    """How many MB a second hashlib's SHA-256 hashes."""
    content = content_of(0, 2**24)
    return len(content) / 1e6 / min(seconds_of(hashlib.sha256, content) for _ in range(ROUNDS))


def head():
    """Prints what the times hang on."""
    print(f"machine      {os.uname().sysname} {os.uname().release}, {os.cpu_count()} processors \"{processor()}\"")
    print(f"file system  {file_system()}")
    print(f"sync         {1000 * sync_seconds():.2f} ms for a page that is there")
    print(f"SQLite       {sqlite3.sqlite_version}; Python {sys.version.split()[0]}, whose SHA-256 hashes {hash_rate():.0f} MB a second")
    print(f"measured     by the clock, the least of {ROUNDS} whole runs; seconds = make+hash (making and hashing the contents, measured apart) + rest")
    print("ratio        the time of each / that of this program: above 1 it takes longer than this program")
    sys.stdout.flush()


def measure(program):
    stores = [ThisProgram(program), PlainFiles(), SQLite("SQLite, write-ahead log", "wal"), SQLite("SQLite, rollback journal", "delete")]
    head()
    for load in LOADS:
        tried(stores, load)
        tell(stores, load, least_of(stores, load))


def main():
    words = sys.argv[1:]
    if len(words) != 2 or not os.path.isfile(words[0]) or not os.access(words[0], os.X_OK) or not os.path.isdir(words[1]):
        print("usage: bench/lasting.py PROGRAM FOLDER", file=sys.stderr)
        sys.exit(2)
    program = os.path.realpath(words[0])
    for number in (signal.SIGHUP, signal.SIGTERM):
        signal.signal(number, lambda *_: sys.exit(1))
    room = os.path.realpath(tempfile.mkdtemp(prefix="lasting-", dir=words[1]))
    try:
        os.chdir(room)
        measure(program)
    finally:
        os.chdir("/")
        shutil.rmtree(room)


if __name__ == "__main__":
    main()
