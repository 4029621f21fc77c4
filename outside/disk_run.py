"""Compares the program with the model over disks: the worked ones and random ones.

Each case is a file and some sequences of runs over it, each of which begins with the same file.
After each run the answers, the exit status and the whole file are compared.
"""

import os
import shutil
import subprocess
import tempfile
from collections import Counter
from pathlib import Path
from typing import Optional

import disk
import disk_cases
import disk_counts
import disk_forms
import disk_worked
from compare import file_difference, first_difference
from model import PAGE

LONGEST_RUN = 300  # seconds
MANY = 500  # random cases, which must show every kind
FILE = "s"


def write_image(path: Path, image: disk.Image) -> None:
    """Makes a file, with holes where it is zeros."""
    with open(path, "wb") as file:
        file.truncate(PAGE * image.count + len(image.rest))
        for page, held in image.pages.items():
            os.pwrite(file.fileno(), held, PAGE * page)
        os.pwrite(file.fileno(), image.rest, PAGE * image.count)


def image_difference(folder: Path, image: Optional[disk.Image]) -> str:
    """What the folder has that isn't the wanted file, or nothing."""
    names = sorted(os.listdir(folder))
    wanted = [] if image is None else [FILE]
    if names != wanted:
        return f"the folder\n    found:  {names}\n    wanted: {wanted}"
    if image is None:
        return ""
    pages = image.pages | {image.count: image.rest} if image.rest else image.pages
    return file_difference(folder / FILE, PAGE * image.count + len(image.rest), pages)


def run_program(program: str, words: list, folder: Path):
    """One run of the program. None where it doesn't end in time."""
    given = {"input": b"", "cwd": folder, "capture_output": True, "timeout": LONGEST_RUN}
    try:
        return subprocess.run([program.encode(), *words], **given)
    except subprocess.TimeoutExpired:
        return None


def differences(program: str, words: list, wanted: disk_forms.Ran, folder: Path) -> list:
    """Runs the program once, and gives what differs from what is wanted."""
    done = run_program(program, words, folder)
    if done is None:
        return [f"it doesn't end in {LONGEST_RUN} seconds"]
    found = []
    if done.returncode != wanted.status:
        found.append(f"exit status\n    found:  {done.returncode}\n    wanted: {wanted.status}")
    if done.stdout != wanted.text:
        found.append("standard output, " + first_difference(done.stdout, wanted.text))
    if wanted.errors is not None and done.stderr != wanted.errors:
        found.append("standard error, " + first_difference(done.stderr, wanted.errors))
    difference = image_difference(folder, wanted.image)
    return found + (["file, " + difference] if difference else [])


class Run:
    """Cases one by one, with the counts of what came of them."""

    def __init__(self, program: str, folder: Path):
        self.program = program
        self.folder = folder
        self.kept = None  # the directory of the files of failed cases
        self.passed = 0
        self.failed = 0
        self.shown = Counter()  # by what is wanted of the random cases

    def case(self, name: str, case: disk_cases.DiskCase, faults: tuple = (), counted: bool = False) -> None:
        """Runs all sequences of a case; `faults` are those that were found before."""
        failed = bool(faults)
        for fault in faults:
            print(f"{name} ({case.kind}): {fault}")
        for runs in case.sequences:
            wanted = outcomes(case, runs)
            if counted:
                self.shown.update(kind for ran in wanted for kind in disk_counts.kinds(ran))
            failed |= not self.sequence(name, case, runs, wanted)
        self.failed += failed
        self.passed += not failed

    def sequence(self, name: str, case: disk_cases.DiskCase, runs: list, wanted: list) -> bool:
        """Runs one sequence in a folder of its own, up to the first run that differs. Whether
        none does."""
        self.folder.mkdir()
        try:
            if case.image is not None:
                write_image(self.folder / FILE, case.image)
            for at, (words, ran) in enumerate(zip(runs, wanted)):
                found = differences(self.program, words, ran, self.folder)
                if found:
                    before = wanted[at - 1].image if at else case.image
                    self.report(name, case, runs[: at + 1], before, found)
                    return False
            return True
        finally:
            shutil.rmtree(self.folder)

    def report(self, name: str, case, runs: list, before: Optional[disk.Image], found: list) -> None:
        """Prints a run that differs, and keeps the file that it began with."""
        self.kept = self.kept or Path(tempfile.mkdtemp(prefix="outside-failed-"))
        file = self.kept / f"{name}.{'.'.join(os.fsdecode(words[0])[:6] for words in runs if words).replace('/', '')}"
        if before is not None:
            write_image(file, before)
        said = "; ".join(" ".join(repr(os.fsdecode(word)) for word in words) for words in runs)
        print(f"{name} ({case.kind}) differs\n  runs: {said}\n  file: {file if before is not None else 'none'}")
        for difference in found:
            print(f"  {difference}")


def outcomes(case: disk_cases.DiskCase, runs: list) -> list:
    """What the model says of a sequence of runs."""
    image = case.image
    found = []
    for words in runs:
        found.append(disk_forms.run(words, image, case.opens))
        image = found[-1].image
    return found


def compare(program: str, count: int, first: int) -> int:
    """Compares over all worked disks and so many random ones. The exit status."""
    print(f"{len(disk_worked.WORKED)} worked disks, then {count} from seed {first}")
    with tempfile.TemporaryDirectory(prefix="outside-") as made:
        run = Run(program, Path(made) / "run")
        for number, one in enumerate(disk_worked.WORKED, start=1):
            faults = () if disk_worked.fits(one) else ("the model isn't as it was worked out",)
            run.case(f"worked-{number}", disk_worked.case_of(one), faults)
        for seed in range(first, first + count):
            run.case(f"seed-{seed}", disk_cases.make(seed), counted=True)
    print("the random disks showed:", *disk_counts.table(run.shown), sep="\n")
    missing = [kind for kind in disk_counts.REQUIRED if not run.shown[kind]] if count >= MANY else []
    for kind in missing:
        print(f"never shown: {kind}")
    print(f"{run.passed} passed, {run.failed} failed")
    return 1 if run.failed or missing else 0
