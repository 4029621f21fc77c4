"""Shows that the cases of a store that lasts find faults: each is planted into a copy of the model, and
cases are tried until some tell it.

    python3 outside/lasting_faults.py [N [SEED]]

Without N at most 500 cases are tried for each, without SEED those that the comparison begins with. A
case tells a fault by its answers, its statuses or its files; or by its calls, which calls.py compares.
The exit status is 1 where no case tells a fault.
"""

import sys

sys.dont_write_bytecode = True  # nothing is left beside this file

import lasting
import lasting_cases
from disk_faults import planted
from lasting_pieces import LASTING_FAULTS
from run import FIRST_SEED

PARTS = ("model", "stored", "disk", "disk_forms", "lasting")  # of the model, each behind those on which it stands
ENOUGH = 3  # cases that tell a fault


def outcome(of_lasting, case: lasting_cases.Case) -> tuple:
    """What all runs of a case show: without their calls, and these. A fault may also make one fail."""
    image = case.image
    shown, calls = [], []
    for run in case.runs:
        image = image if image is None or not run.hand else image.having(run.hand)
        try:
            ran = of_lasting.run(run.words, run.script, image, run.opens)
        except Exception as failed:
            return shown + [type(failed).__name__], calls
        image = ran.image
        shown.append((ran.text, ran.status, ran.errors, image and (image.count, image.pages, image.rest)))
        calls.append([call and tuple(call) for call in ran.calls])
    return shown, calls


class Cases:
    """The cases with what is wanted of them, each made once it is needed."""

    def __init__(self, first: int, count: int):
        self.first, self.count = first, count
        self.made = []

    def at(self, number: int) -> tuple:
        while len(self.made) <= number:
            case = lasting_cases.make(self.first + len(self.made))
            self.made.append((case, outcome(lasting, case)))
        return self.made[number]

    def tell(self, copy) -> tuple:
        """How many cases were tried until enough of them told a fault, how many told it by what is
        shown, and how many by the calls alone."""
        by_what, by_calls = 0, 0
        for number in range(self.count):
            case, right = self.at(number)
            wrong = outcome(copy, case)
            by_what += wrong[0] != right[0]
            by_calls += wrong[0] == right[0] and wrong[1] != right[1]
            if by_what + by_calls == ENOUGH:
                return number + 1, by_what, by_calls
        return self.count, by_what, by_calls


def main(arguments: list) -> int:
    count, first = [*map(int, arguments), *(500, FIRST_SEED)[len(arguments) :]]
    cases = Cases(first, count)
    missed = 0
    for name, *pieces in LASTING_FAULTS:
        copy = planted(name, pieces, PARTS)
        tried, by_what, by_calls = cases.tell(copy)
        missed += by_what + by_calls == 0
        told = f"{by_what} by answers and files, {by_calls} by calls alone"
        print(f"{tried:4} tried, {told}: {name}", flush=True)
    print(f"{len(LASTING_FAULTS) - missed} of {len(LASTING_FAULTS)} faults told")
    return 1 if missed else 0


if __name__ == "__main__":
    sys.exit(main(sys.argv[1:]))
