"""Compares the calls by which the program writes and syncs its file, in their order.

    python3 outside/calls.py PROGRAM N [SEED | --random]
    python3 outside/calls.py PROGRAM --disks N [SEED | --random]
    python3 outside/calls.py PROGRAM --faults N [SEED | --random]

Each run goes under `strace`, which must be there. The first form takes the cases of a store that
lasts, the second those of disks. With `--faults` one call of each run fails, mostly in a lead; what
the program says then, and what is left of its file, is compared.
"""

import os
import random
import re
import shutil
import sys
from pathlib import Path

sys.dont_write_bytecode = True  # nothing is left beside this file

import disk_cases
import disk_worked
import lasting
import lasting_cases
import lasting_run
from disk_run import FILE, write_image
from lasting import SYNC, Lead, Write
from model import PAGE
from run import read_arguments

WATCHED = "open,openat,creat,lseek,read,readv,pread64,write,writev,pwrite64,fsync,fdatasync,ftruncate"
SYNCS = ("fsync", "fdatasync")
WRITES = ("write", "pwrite64")


def command(program: bytes, folder: Path, fault: str = "") -> list:
    """The words before a run's own. Only calls on the file are told."""
    file, trace = folder / FILE, folder.parent / "trace"
    words = ["strace", "-f", "-qq", "-xx", "-s", str(PAGE), "-P", str(file), "-e", f"trace={WATCHED}"]
    words += ["-e", fault] if fault else []
    return [word.encode() for word in [*words, "-o", str(trace)]] + [program]


def calls_of(trace: str) -> list:
    """The writes and syncs that a trace tells. A write that isn't of one whole page is told as its
    place and its length. A call that failed is told too."""
    found = []
    at = None  # the file's place, where it is known
    for line in trace.splitlines():
        call = re.match(r"(?:\d+ +)?(\w+)\((.*)\) += (-?\d+)", line)
        if call is None:
            continue
        name, given, result = call[1], call[2], int(call[3])
        if name in SYNCS:
            found.append(SYNC)
        elif name in WRITES:
            place = int(given.rsplit(", ", 1)[1]) if name == "pwrite64" else at
            found.append(written(place, given))
            at = at + result if name == "write" and at is not None and result >= 0 else at
        elif name == "writev":
            found.append(line)
        elif name == "lseek":
            at = result
        elif name in ("read", "readv"):
            at = None if at is None or result < 0 else at + result
        elif name.startswith(("open", "creat")):
            at = 0
    return found


def written(place, given: str):
    """A write of these words at this place."""
    held = bytes.fromhex(re.search(r'"((?:\\x[0-9a-f]{2})*)"', given)[1].replace("\\x", ""))
    if place is None or place % PAGE or len(held) != PAGE:
        return f"a write of {len(held)} bytes at {place}"
    return Write(place // PAGE, held)


def told(call) -> str:
    if call is SYNC:
        return "sync"
    return call if isinstance(call, str) else f"page {call.page} ({call.held[:16].hex()}..)"


def calls_difference(found: list, wanted: list) -> str:
    """The first call that differs, or nothing."""
    for at in range(max(len(found), len(wanted))):
        pair = [calls[at : at + 1] for calls in (found, wanted)]
        if pair[0] != pair[1]:
            lines = [told(one[0]) if one else "none" for one in pair]
            return f"call {at + 1}\n    found:  {lines[0]}\n    wanted: {lines[1]}"
    return ""


class Traced(lasting_run.Run):
    """Cases whose runs go under `strace`."""

    def differences(self, run: lasting_cases.Run, wanted: lasting.Ran, before) -> list:
        (self.folder.parent / "trace").write_text("")
        found = lasting_run.differences(command(self.program.encode(), self.folder), run, wanted, self.folder)
        trace = calls_of((self.folder.parent / "trace").read_text())
        # How often a file is synced that turns out to be no store isn't said.
        calls = [call for call in trace if call is not SYNC] if wanted.status == 6 else trace
        difference = calls_difference(calls, [] if wanted.status == 6 else wanted.calls)
        return found + (["calls, " + difference] if difference else [])


class Failing(lasting_run.Run):
    """Cases of which each run is also done over a copy of its file, of which one call fails; each run of
    few calls of the worked cases is done with each of them failing."""

    def case(self, name: str, case: lasting_cases.Case, faults: tuple = (), counted: bool = False) -> None:
        self.most = 1 if counted else 20
        super().case(name, case, faults, counted)

    def differences(self, run: lasting_cases.Run, wanted: lasting.Ran, before) -> list:
        for number in self.choose(run, wanted) if wanted.status not in (6, 8, 11) else []:
            found = self.with_a_fault(run, before, number)
            if found:
                return found
        return super().differences(run, wanted, before)

    def with_a_fault(self, run: lasting_cases.Run, before, number: int) -> list:
        """The same run over a copy of the file, whose call of this number fails; and what `show` tells
        of that file then."""
        failed = lasting.run(run.words, run.script, before, fails=number)
        kind = [call is SYNC for call in failed.calls]
        names = ",".join(SYNCS if kind[-1] else WRITES)
        fault = f"inject={names}:error=EIO:when={kind.count(kind[-1])}"
        copy = self.folder.parent / "copy"
        copy.mkdir()
        if before is not None:
            write_image(copy / FILE, before)  # with its holes
        try:
            words = command(self.program.encode(), copy, fault)
            found = lasting_run.differences(words, run, failed, copy)
            after = lasting.run(lasting_cases.SHOW, b"", failed.image)
            show = lasting_cases.Run(lasting_cases.SHOW)
            found += lasting_run.differences([self.program.encode()], show, after, copy)
        finally:
            shutil.rmtree(copy)
        return [f"with call {number} failing: {one}" for one in found]

    def choose(self, run: lasting_cases.Run, wanted: lasting.Ran) -> list:
        """All calls where they are few; else any one, mostly of a lead."""
        if len(wanted.calls) <= self.most:
            return list(range(1, len(wanted.calls) + 1))
        r = random.Random(len(run.script) + len(wanted.calls))
        leads = [one.begins for one in wanted.happened if isinstance(one, Lead)]
        first = r.choice(leads) if leads and r.random() < 0.7 else 0
        return [r.randint(first + 1, min(len(wanted.calls), first + 8 if first else len(wanted.calls)))]


def disk_runs(case: disk_cases.DiskCase) -> list:
    """A case of disks as cases of runs."""
    sequences = [[lasting_cases.Run(words, opens=case.opens) for words in runs] for runs in case.sequences]
    return [lasting_cases.Case(case.kind, case.image, runs) for runs in sequences]


def compare_disks(program: str, count: int, first: int, folder: Path) -> int:
    """The calls over disks. The exit status."""
    run = Traced(program, folder)
    cases = [(f"worked-{at}", disk_worked.case_of(one)) for at, one in enumerate(disk_worked.WORKED, start=1)]
    cases += [(f"seed-{seed}", disk_cases.make(seed)) for seed in range(first, first + count)]
    for name, case in cases:
        for one in disk_runs(case):
            run.case(name, one)
    print(f"{run.passed} passed, {run.failed} failed")
    return 1 if run.failed else 0


def main(arguments: list) -> int:
    kind = arguments[1] if arguments[1:2] in (["--disks"], ["--faults"]) else ""
    read = read_arguments(arguments[:1] + arguments[2:] if kind else arguments)
    if read is None or not os.access(read[0], os.X_OK) or shutil.which("strace") is None:
        print("python3 calls.py PROGRAM [--disks | --faults] N [SEED | --random], with strace", file=sys.stderr)
        return 2
    if kind == "--disks":
        return lasting_run.in_folder(lambda folder: compare_disks(*read, folder))
    return lasting_run.compare(*read, Failing if kind else Traced)


if __name__ == "__main__":
    sys.exit(main(sys.argv[1:]))
