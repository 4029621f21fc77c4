"""Random cases of disks: a file, and runs of the stored forms over it, all from one seed.

`make(seed)` gives the same case for the same seed. Every second one is aimed at a rule, one rule
after the other. New kinds of other cases go into KINDS.
"""

import random

import aimed
import build
import disk
import disk_counts
import hostile
from build import Forms
from good_disks import (
    CHECK, SHOW, DiskCase, damaged, full_log, full_room, good, great, larger, most, of, random_forms, torn,
    wrong_hashes, wrong_prefixes,
)
from model import PAGE

# Hostile disks --------------------------------------------------------------------------------


def one_field(r) -> DiskCase:
    forms = random_forms(r, most_pages=5)
    part = r.choice([forms.header, forms.tuples, forms.tuples, forms.bodies, forms.bodies])
    hostile.change_field(r, forms, part or forms.header)
    return of(build.image_of(forms))


def odd_key(r) -> DiskCase:
    forms = random_forms(r, most_pages=1)
    hostile.change_field(r, forms, r.choice([forms.tuples, forms.tuples, forms.bodies]), "key")
    return of(build.image_of(forms))


def tuple_faults(r) -> DiskCase:
    """A tuple with two faults, of which the first is told."""
    forms = random_forms(r, 0, most_pages=5)
    hostile.change_tuple(r, forms)
    return of(build.image_of(forms))


def two_fields(r) -> DiskCase:
    """Of two faults the one that comes first is told."""
    forms = random_forms(r, most_pages=5)
    for _ in range(r.choice([2, 2, 3])):
        hostile.change_field(r, forms)
    if r.random() < 0.3:
        hostile.cut(r, forms)
    return of(build.image_of(forms))


def cut(r) -> DiskCase:
    forms = random_forms(r, most_pages=5)
    hostile.cut(r, forms)
    return of(build.image_of(forms))


def odd_key_cut(r) -> DiskCase:
    forms = random_forms(r, most_pages=1)
    hostile.cut_odd_key(r, forms)
    return of(build.image_of(forms))


def header(r) -> DiskCase:
    """A header with several faults, of which the first is told."""
    forms = random_forms(r, most_pages=1)
    hostile.change_header(r, forms)
    return of(build.image_of(forms))


def unsorted(r) -> DiskCase:
    forms = random_forms(r, r.choice([0, 1, 1, 2]), 1)
    hostile.unsort(r, forms)
    return of(build.image_of(forms))


def rearranged(r) -> DiskCase:
    forms = random_forms(r)
    for _ in range(r.choice([1, 1, 2])):
        hostile.rearrange(r, forms)
    return of(build.image_of(forms))


def met_again(r) -> DiskCase:
    forms = random_forms(r, r.choice([1, 2]), 1)
    hostile.meet_again(r, forms)
    return of(build.image_of(forms))


def overlapping(r) -> DiskCase:
    forms = random_forms(r, most_pages=r.choice([1, 12, 28, 28]))
    r.choice([hostile.overlap, hostile.overlap, hostile.stand_twice])(r, forms)
    return of(build.image_of(forms))


def gates(r) -> DiskCase:
    forms = random_forms(r, r.choice([0, 1, 1, 2, 3]))
    if forms.bodies and r.random() < 0.5:
        hostile.hide_bodies(r, forms)
    image = build.image_of(forms)
    for _ in range(r.choice([1, 1, 2])):
        image = hostile.change_gate(r, forms, image)
    return of(image)


def moved(r) -> DiskCase:
    forms = random_forms(r)
    return of(hostile.move_pages(r, forms, build.image_of(forms)))


def scattered(r) -> DiskCase:
    forms = random_forms(r)
    return of(hostile.scatter(r, forms, build.image_of(forms)))


def resized(r) -> DiskCase:
    forms = random_forms(r, r.choice([0, 1]), 1)
    if r.random() < 0.4:
        hostile.change_field(r, forms)
    return of(hostile.resize(r, build.image_of(forms), forms.layout.total()))


def other_layout(r) -> DiskCase:
    forms = random_forms(r, r.choice([0, 1]), 1)
    hostile.change_room(r, forms)
    return of(build.image_of(forms))


def past_the_log(r) -> DiskCase:
    """A body that ends past the log area, by its length or by its place."""
    if r.random() < 0.5:
        return full_log(r)
    return of(aimed.aim(r, "bad-frame: length past the log area", to_be_changed))


# Words and files ------------------------------------------------------------------------------


def formats(r) -> DiskCase:
    """A file that is formatted, and then read. It may be there before."""
    units, room = r.choice([(1, 1), (1, 1), (2, 3), (16_384, 1024), (1, 1024), (10, 1)])
    words = [b"format", b"s", b"%d" % units, b"%d" % room]
    older = [None, disk.Image(0, {}), disk.Image(1029, dict.fromkeys(range(1029), b"\xff" * PAGE), b"abc")]
    older += [disk.Image(3000, dict.fromkeys([*range(6), *range(2040, 2990)], b"a" * PAGE)), None]
    image = r.choice(older + [build.image_of(random_forms(r))] * 3)
    return DiskCase("", image, [[words, SHOW, CHECK, SHOW], [words, r.choice([CHECK, words])]])


def no_file(r) -> DiskCase:
    """A file that isn't there, or that the system doesn't open."""
    file = r.choice([b"s", b"s", b"missing/s", b".", b"..", b"/", b"s/", b"s" * 256, "\u00e9/\u4e2d".encode()])
    words = r.choice([[b"show", file], [b"check", file]])
    if file != b"s" and r.random() < 0.2:
        words = [b"format", file, b"1", b"1"]
    return DiskCase("", None, [[words]], file == b"s")


FAULTY = [
    [b"show"], [b"check"], [b"show", b""], [b"check", b""], [b"show", b"s", b"1"], [b"check", b"s", b""],
    [b"Show", b"s"], [b"CHECK", b"s"], [b"show ", b"s"], [b"sho", b"s"], [b"checks", b"s"], [b"s", b"show"],
    [b"format"], [b"format", b"s"], [b"format", b"s", b"1"], [b"format", b"s", b"0", b"1"],
    [b"format", b"", b"1", b"1"], [b"format", b"s", b"1", b"0"], [b"format", b"s", b"16385", b"1"],
    [b"format", b"s", b"1", b"1025"],
    [b"format", b"s", b"01", b"1"], [b"format", b"s", b"1", b"1 "], [b"format", b"s", b"1", b"1", b"1"],
    [b"format", b"s", b"-1", b"1"], [b"format", b"s", b"+1", b"1"], [b"format", b"s", b"1", b"0x1"],
    [b"format", b"1", b"1", b"s"], [b"show", b"s\xff"], [b"check\xff", b"s"], [b"--", b"show", b"s"],
]


def faulty_words(r) -> DiskCase:
    """Words that are almost one of the forms. The file stays as it is."""
    image = build.image_of(random_forms(r, 1, 1)) if r.random() < 0.5 else None
    return DiskCase("", image, [[r.choice(FAULTY)]])


# Each kind with its weight.
KINDS = {
    "good": (8, good),
    "torn": (10, torn),
    "damaged": (10, damaged),
    "wrong hashes": (16, wrong_hashes),
    "wrong prefixes": (4, wrong_prefixes),
    "larger": (1, larger),
    "great": (4, great),
    "full room": (8, full_room),
    "full log": (5, full_log),
    "most": (6, most),
    "one field": (12, one_field),
    "odd key": (12, odd_key),
    "tuple faults": (14, tuple_faults),
    "two fields": (10, two_fields),
    "cut": (4, cut),
    "odd key cut": (8, odd_key_cut),
    "header": (7, header),
    "unsorted": (12, unsorted),
    "rearranged": (8, rearranged),
    "met again": (2, met_again),
    "overlapping": (10, overlapping),
    "gates": (8, gates),
    "moved": (6, moved),
    "scattered": (8, scattered),
    "resized": (4, resized),
    "other layout": (4, other_layout),
    "formats": (4, formats),
    "no file": (5, no_file),
    "faulty words": (4, faulty_words),
}

# The cases among which a disk is looked for that breaks one of these rules.
AIMS = {
    "too-small: no store is that small": resized,
    "too-small: the layout is larger": other_layout,
    "bad-frame: no page behind the gate": full_log,
    "bad-frame: length past the log area": past_the_log,
    "bad-frame: no room for the states": full_room,
    "bad-frame: key in two entries": met_again,
    "owned-twice: by one": overlapping,
    "owned-twice: by two": overlapping,
}


def aim(r, rule: str) -> DiskCase:
    """A disk that breaks this rule first."""
    if rule not in AIMS:
        return of(aimed.aim(r, rule, to_be_changed))
    for _ in range(aimed.TRIES):
        case = AIMS[rule](r)
        if aimed.breaks(case.image, rule):
            break
    return case


def to_be_changed(r) -> Forms:
    """A good disk with something of everything."""
    return random_forms(r, r.choice([1, 1, 2]), r.choice([1, 5, 12]))


def make(seed: int) -> DiskCase:
    """The case of this seed."""
    r = random.Random(seed)
    if seed % 2:
        rule = disk_counts.RULES[seed // 2 % len(disk_counts.RULES)]
        return aim(r, rule)._replace(kind=f"aimed at {rule}")
    kind = r.choices(list(KINDS), [weight for weight, _ in KINDS.values()])[0]
    return KINDS[kind][1](r)._replace(kind=kind)
