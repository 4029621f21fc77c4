"""Random cases: words, a script and what lies in the file before the run, all from one seed.

`make(seed)` gives the same case for the same seed. New kinds of cases go into KINDS.
"""

import random

import odd
import scripts
from parts import Case

# Each kind with its weight.
KINDS = {
    "walk": (16, scripts.walk),
    "conflicts": (17, scripts.conflicts),
    "groups": (12, scripts.groups),
    "many keys": (7, scripts.many_keys),
    "lasting": (1.5, scripts.lasting),
    "borders": (6, scripts.borders),
    "reuse": (8, scripts.reuse),
    "fill": (5, scripts.fill),
    "crowded space": (7, scripts.crowded_space),
    "room": (6, scripts.room),
    "crowded room": (12, scripts.crowded_room),
    "large": (0.8, scripts.large),
    "greatest": (0.1, scripts.greatest),
    "million": (0.6, scripts.million),
    "odd": (15, odd.odd),
    "not built": (24, odd.not_built),
    "text": (8, odd.text),
    "faulty words": (3, odd.faulty_words),
    "no file": (2, odd.no_file),
}


def make(seed: int) -> Case:
    """The case of this seed."""
    r = random.Random(seed)
    kind = r.choices(list(KINDS), [weight for weight, _ in KINDS.values()])[0]
    case = KINDS[kind][1](r)
    return case._replace(kind=kind, piped=r.random() < 0.5)
