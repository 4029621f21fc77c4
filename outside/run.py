"""Compares the program with the model over the worked cases and over random ones.

    python3 outside/run.py PROGRAM N [SEED]
    python3 outside/run.py PROGRAM N --random
    python3 outside/run.py PROGRAM --disks N [SEED | --random]
    python3 outside/run.py PROGRAM --lasting N [SEED | --random]

Runs the N random cases of the seeds SEED, SEED + 1, and so on. At the end it counts what the
random cases showed; a run of many must show all that there is. `--disks`: cases of the forms that
format, show and check a disk, by disk_run.py; `--lasting`: cases of several runs over a store that
lasts, by lasting_run.py; else cases of one script.
"""

import os
import secrets
import shutil
import subprocess
import sys
import tempfile
from collections import Counter
from pathlib import Path

sys.dont_write_bytecode = True  # nothing is left beside this file

import cases
import counts
import disk_run
import lasting_run
import model
import play_forms
import worked
from compare import file_difference, first_difference

FIRST_SEED = 1_000_000
LONGEST_RUN = 300  # seconds
MANY = 500  # random cases, which must show every kind of answer


def run_program(program: str, case: cases.Case, folder: Path):
    """One run of the program in an empty folder. None where it doesn't end in time."""
    script = folder.parent / "script"
    script.write_bytes(case.script)
    with open(script, "rb") as source:
        given = {"input": case.script} if case.piped else {"stdin": source}
        given |= {"cwd": folder, "capture_output": True, "timeout": LONGEST_RUN}
        try:
            return subprocess.run([program.encode(), *case.words], **given)
        except subprocess.TimeoutExpired:
            return None


def differences(program: str, case: cases.Case, wanted: model.Outcome, folder: Path) -> list:
    """Runs a case and gives what differs from the wanted outcome, each with its first
    difference."""
    file = folder / os.fsdecode(case.words[1]) if len(case.words) > 1 else None
    if case.before is not None:
        file.write_bytes(case.before)
    done = run_program(program, case, folder)
    if done is None:
        return [f"it doesn't end in {LONGEST_RUN} seconds"]
    found = []
    if done.returncode != wanted.status:
        found.append(f"exit status\n    found:  {done.returncode}\n    wanted: {wanted.status}")
    if done.stdout != wanted.text:
        found.append("standard output, " + first_difference(done.stdout, wanted.text))
    if wanted.errors is not None and done.stderr != wanted.errors:
        found.append("standard error, " + first_difference(done.stderr, wanted.errors))
    if wanted.length is not None:
        difference = file_difference(file, wanted.length, wanted.pages)
    else:
        difference = untouched_difference(folder, file, case.before)
    return found + (["file, " + difference] if difference else [])


def untouched_difference(folder: Path, file: Path, before) -> str:
    """What a run that leaves the file alone changed in its folder, or nothing."""
    names = sorted(os.listdir(folder))
    wanted = [] if before is None else [file.name]
    if names != wanted:
        return f"the folder of a refused run\n    found:  {names}\n    wanted: {wanted}"
    return "changed by a refused run" if before is not None and file.read_bytes() != before else ""


def report(name: str, case: cases.Case, found: list, kept: Path) -> None:
    """Prints a failed case, and keeps its script."""
    script = kept / f"{name}.script"
    script.write_bytes(case.script)
    words = " ".join(repr(os.fsdecode(word)) for word in case.words)
    print(f"{name} ({case.kind}) differs\n  words: {words}\n  script: {script}")
    for difference in found:
        print(f"  {difference}")


def read_arguments(arguments: list):
    """The program, the number of cases and the first seed, or None where they are faulty."""
    at_random = "--random" in arguments
    plain = [one for one in arguments if one != "--random"]
    if len(plain) not in ((2,) if at_random else (2, 3)) or not all(one.isdecimal() for one in plain[1:]):
        return None
    seed = secrets.randbelow(10**9) if at_random else int(plain[2]) if len(plain) == 3 else FIRST_SEED
    return os.path.abspath(plain[0]), int(plain[1]), seed


class Run:
    """Cases one by one, with the counts of what came of them."""

    def __init__(self, program: str, made: Path):
        self.program = program
        self.folder = made / "run"
        self.kept = None  # the directory of the scripts of failed cases
        self.passed = 0
        self.failed = 0
        self.shown = Counter()  # by the wanted outcomes of the random cases

    def case(self, name: str, case: cases.Case, wanted: model.Outcome, faults: list) -> None:
        """Runs a case; `faults` are those that were found before."""
        self.folder.mkdir()
        found = faults + differences(self.program, case, wanted, self.folder)
        shutil.rmtree(self.folder)
        self.failed += 1 if found else 0
        self.passed += 0 if found else 1
        if found:
            self.kept = self.kept or Path(tempfile.mkdtemp(prefix="outside-failed-"))
            report(name, case, found, self.kept)

    def worked(self, number: int, one: worked.Worked) -> None:
        case = worked.case_of(one)
        wanted = play_forms.outcome(case.words, case.script)
        faults = [] if worked.fits(one, wanted) else ["the model isn't as it was worked out"]
        self.case(f"worked-{number}", case, wanted, faults)

    def random(self, seed: int) -> None:
        case = cases.make(seed)
        wanted = play_forms.outcome(case.words, case.script, case.before, case.opens)
        self.shown.update(counts.kinds(wanted))
        self.case(f"seed-{seed}", case, wanted, [])


def main(arguments: list) -> int:
    compares = {"--disks": disk_run.compare, "--lasting": lasting_run.compare}
    other = compares.get(arguments[1]) if len(arguments) > 1 else None
    read = read_arguments(arguments[:1] + arguments[2:] if other else arguments)
    if read is None or not os.access(read[0], os.X_OK):
        print("python3 run.py PROGRAM [--disks | --lasting] N [SEED | --random]", file=sys.stderr)
        return 2
    return (other or compare)(*read)


def compare(program: str, count: int, first: int) -> int:
    """Compares over all worked cases and so many random ones. The exit status."""
    print(f"{len(worked.WORKED)} worked cases, then {count} from seed {first}")
    with tempfile.TemporaryDirectory(prefix="outside-") as made:
        run = Run(program, Path(made))
        for number, one in enumerate(worked.WORKED, start=1):
            run.worked(number, one)
        for seed in range(first, first + count):
            run.random(seed)
    print("the random cases showed:", *counts.table(run.shown), sep="\n")
    missing = [kind for kind in counts.REQUIRED if not run.shown[kind]] if count >= MANY else []
    for kind in missing:
        print(f"never shown: {kind}")
    print(f"{run.passed} passed, {run.failed} failed")
    return 1 if run.failed or missing else 0


if __name__ == "__main__":
    sys.exit(main(sys.argv[1:]))
