"""The faults planted in the calls of the program: by which of so many scripts each is found.

    python3 outside/crashes_faults.py PROGRAM [N [SEED]]
"""

import contextlib
import io
import os
import shutil
import sys

sys.dont_write_bytecode = True  # nothing is left beside this file

import crashes
from run import FIRST_SEED


def found(program: str, plant: str, count: int, first: int) -> tuple:
    """How many images find a planted fault, and how many there are. The files aren't kept."""
    run = crashes.in_folder(program, plant, lambda run: [run.script(seed) for seed in range(first, first + count)])
    if run.kept is not None:
        shutil.rmtree(run.kept)
    return run.failed, run.passed + run.failed


def main(arguments: list) -> int:
    if not arguments or not os.access(arguments[0], os.X_OK) or not all(one.isdecimal() for one in arguments[1:]):
        print("python3 crashes_faults.py PROGRAM [N [SEED]]", file=sys.stderr)
        return 2
    count, first = (list(map(int, arguments[1:3])) + [5, FIRST_SEED][len(arguments) - 1 :])[:2]
    missed = 0
    for plant in [None, *crashes.PLANTS]:
        with contextlib.redirect_stdout(io.StringIO()):
            failed, images = found(os.path.abspath(arguments[0]), plant, count, first)
        print(f"{plant or 'nothing planted'}: {failed} of {images} images fail", flush=True)
        missed += (failed == 0) == (plant is not None)
    print("each planted fault is found" if not missed else f"{missed} not as they should be")
    return 1 if missed else 0


if __name__ == "__main__":
    sys.exit(main(sys.argv[1:]))
