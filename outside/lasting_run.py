"""Compares the program with the model over stores that last: the worked cases and random ones.

Each case is a list of runs over one file. After each run the answers, the exit status and the whole
file are compared. The calls by which the program writes and syncs its file are compared by calls.py.
"""

import os
import shutil
import subprocess
import tempfile
from collections import Counter
from pathlib import Path

import lasting
import lasting_cases
import lasting_counts
import lasting_worked
from compare import first_difference
from disk_run import FILE, image_difference, write_image
from model import PAGE

LONGEST_RUN = 300  # seconds
MANY = 500  # random cases, which must show every kind


def write_pages(path: Path, pages: dict) -> None:
    """What another hand writes to a file."""
    with open(path, "r+b") as file:
        for page, held in pages.items():
            os.pwrite(file.fileno(), held, PAGE * page)


def run_program(program: list, run: lasting_cases.Run, folder: Path):
    """One run of the program, in front of which other words may stand. None where it doesn't end in
    time."""
    script = folder.parent / "script"
    script.write_bytes(run.script)
    with open(script, "rb") as source:
        given = {"input": run.script} if run.piped else {"stdin": source}
        given |= {"cwd": folder, "capture_output": True, "timeout": LONGEST_RUN}
        try:
            return subprocess.run([*program, *run.words], **given)
        except subprocess.TimeoutExpired:
            return None


def differences(program: list, run: lasting_cases.Run, wanted: lasting.Ran, folder: Path) -> list:
    """Runs the program once, and gives what differs from what is wanted."""
    done = run_program(program, run, folder)
    if done is None:
        return [f"it doesn't end in {LONGEST_RUN} seconds"]
    found = []
    if done.returncode != wanted.status:
        found.append(f"exit status\n    found:  {done.returncode}\n    wanted: {wanted.status}")
    if done.stdout != wanted.text:
        found.append("standard output, " + first_difference(done.stdout, wanted.text))
    if wanted.errors is not None and done.stderr != wanted.errors:
        found.append("standard error, " + first_difference(done.stderr, wanted.errors))
    difference = image_difference(folder, wanted.image)
    return found + (["file, " + difference] if difference else [])


class Run:
    """Cases one by one, with the counts of what came of them."""

    def __init__(self, program: str, folder: Path):
        self.program = program
        self.folder = folder
        self.kept = None  # the directory of what failed cases had
        self.passed = 0
        self.failed = 0
        self.shown = Counter()  # by what is wanted of the random cases

    def case(self, name: str, case: lasting_cases.Case, faults: tuple = (), counted: bool = False) -> None:
        """Runs a case; `faults` are those that were found before."""
        for fault in faults:
            print(f"{name} ({case.kind}): {fault}")
        wanted = lasting_cases.outcomes(case)
        if counted:
            for run, ran in zip(case.runs, wanted):
                self.shown.update(lasting_counts.kinds(run.words, ran))
        failed = not self.runs(name, case, wanted) or bool(faults)
        self.failed += failed
        self.passed += not failed

    def runs(self, name: str, case: lasting_cases.Case, wanted: list) -> bool:
        """Runs a case in a folder of its own, up to the first run that differs. Whether none does."""
        self.folder.mkdir()
        try:
            if case.image is not None:
                write_image(self.folder / FILE, case.image)
            before = case.image
            for at, (run, ran) in enumerate(zip(case.runs, wanted)):
                if before is not None and run.hand:
                    write_pages(self.folder / FILE, run.hand)
                    before = before.having(run.hand)
                found = self.differences(run, ran, before)
                if found:
                    self.report(name, case, at, before, found)
                    return False
                before = ran.image
            return True
        finally:
            shutil.rmtree(self.folder)

    def differences(self, run: lasting_cases.Run, wanted: lasting.Ran, before) -> list:
        return differences([self.program.encode()], run, wanted, self.folder)

    def report(self, name: str, case: lasting_cases.Case, at: int, before, found: list) -> None:
        """Prints a run that differs, and keeps its script and the file that it began with."""
        self.kept = self.kept or Path(tempfile.mkdtemp(prefix="outside-failed-"))
        script, file = self.kept / f"{name}.{at + 1}.script", self.kept / f"{name}.{at + 1}.file"
        script.write_bytes(case.runs[at].script)
        if before is not None:
            write_image(file, before)
        said = "; ".join(" ".join(repr(os.fsdecode(word)) for word in run.words) for run in case.runs[: at + 1])
        print(f"{name} ({case.kind}) differs in run {at + 1}\n  runs: {said}\n  script: {script}")
        print(f"  file before it: {file if before is not None else 'none'}")
        for difference in found:
            print(f"  {difference}")


def in_folder(work) -> int:
    """Does some work whose files lie in a directory that is deleted at the end."""
    with tempfile.TemporaryDirectory(prefix="outside-") as made:
        return work(Path(made).resolve() / "run")


def compare(program: str, count: int, first: int, of_run=Run) -> int:
    """Compares over all worked cases and so many random ones. The exit status."""
    crashes = len(lasting_cases.every_crash())
    print(f"{len(lasting_worked.WORKED)} worked cases, {crashes} crashes, then {count} from seed {first}")
    return in_folder(lambda folder: compare_in(of_run(program, folder), count, first))


def compare_in(run: Run, count: int, first: int) -> int:
    for number, one in enumerate(lasting_worked.WORKED, start=1):
        case = lasting_worked.case_of(one)
        faults = () if lasting_worked.fits(one) else ("the model isn't as it was worked out",)
        run.case(f"worked-{number}", case, faults)
    for number, case in enumerate(lasting_cases.every_crash(), start=1):
        run.case(f"crash-{number}", case)
    for seed in range(first, first + count):
        run.case(f"seed-{seed}", lasting_cases.make(seed), counted=True)
    print("the random cases showed:", *lasting_counts.table(run.shown), sep="\n")
    missing = [kind for kind in lasting_counts.REQUIRED if not run.shown[kind]] if count >= MANY else []
    for kind in missing:
        print(f"never shown: {kind}")
    print(f"{run.passed} passed, {run.failed} failed")
    return 1 if run.failed or missing else 0
