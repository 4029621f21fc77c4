"""Shows that the random disks find faults: each is planted into a copy of the model of disks, and
the cases are counted by which the copy and the model part.

    python3 outside/disk_faults.py [N [SEED]]

Without N it takes 500 cases, without SEED those that the comparison begins with. The exit status
is 1 where no case tells a fault.
"""

import sys
import types
from pathlib import Path

sys.dont_write_bytecode = True  # nothing is left beside this file

import disk_cases
import disk_forms
from half_faults import HALF_FAULTS
from log_faults import LOG_FAULTS
from run import FIRST_SEED

PARTS = ("stored", "disk", "disk_forms")  # of the model, each behind those on which it stands
FAULTS = HALF_FAULTS + LOG_FAULTS
SLOW = ("great",)  # kinds of cases that are left out: a fault may have many pages hashed


def planted(name: str, pieces: list, parts: tuple = PARTS) -> types.ModuleType:
    """A copy of the model with this fault. Each piece stands there once, and is followed by what
    takes its place."""
    sources = {part: (Path(__file__).parent / f"{part}.py").read_text() for part in parts}
    for old, new in zip(pieces[::2], pieces[1::2]):
        places = {part: source.count(old) for part, source in sources.items()}
        if sum(places.values()) != 1:
            raise SystemExit(f"{name}: its piece stands {sum(places.values())} times in the model")
        part = max(places, key=places.get)
        sources[part] = sources[part].replace(old, new)
    return loaded(name, sources)


def loaded(name: str, sources: dict) -> types.ModuleType:
    """The last part of a model of these sources, each of which meets the copies before it."""
    before = {part: sys.modules[part] for part in sources}
    try:
        for part, source in sources.items():
            copy = types.ModuleType(part)
            sys.modules[part] = copy
            exec(compile(source, f"{name}: {part}", "exec"), copy.__dict__)
        return copy
    finally:
        sys.modules.update(before)


def outcome(of_forms, case: disk_cases.DiskCase) -> list:
    """What all runs of a case show. A fault may also make one fail."""
    found = []
    for runs in case.sequences:
        image = case.image
        for words in runs:
            try:
                ran = of_forms.run(words, image, case.opens)
            except Exception as failed:
                found.append(type(failed).__name__)
                break
            image = ran.image
            held = image and (image.count, image.pages, image.rest)
            found.append((ran.text, ran.status, ran.errors, held))
    return found


def main(arguments: list) -> int:
    count, first = [*map(int, arguments), *(500, FIRST_SEED)[len(arguments) :]]
    made = [disk_cases.make(seed) for seed in range(first, first + count)]
    made = [case for case in made if case.kind not in SLOW]
    wanted = [outcome(disk_forms, case) for case in made]
    missed = 0
    for name, *pieces in FAULTS:
        copy = planted(name, pieces)
        parted = sum(outcome(copy, case) != right for case, right in zip(made, wanted))
        missed += parted == 0
        print(f"{parted:5} of {len(made)}  {name}", flush=True)
    print(f"{len(FAULTS) - missed} of {len(FAULTS)} faults told")
    return 1 if missed else 0


if __name__ == "__main__":
    sys.exit(main(sys.argv[1:]))
