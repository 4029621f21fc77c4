"""Random cases of disks that no hostile hand met: good ones, ones whose last frame was torn or whose
contents were damaged, and ones at the ends of what there may be.
"""

from typing import NamedTuple, Optional

import build
import disk
import hostile
import parts
from build import Forms, Maker, content
from model import GREATEST_NUMBER, PAGE, NoSpace, extents_of
from stored import State

SHOW = [b"show", b"s"]
CHECK = [b"check", b"s"]
BOTH = [[SHOW, CHECK], [CHECK, SHOW]]


class DiskCase(NamedTuple):
    kind: str
    image: Optional[disk.Image]  # the file `s`, or None for none
    sequences: list  # of runs, each of words; each sequence begins with the same file
    opens: bool = True  # whether the system lets the file be opened


def of(image: disk.Image) -> DiskCase:
    """Both forms over this file, in either order."""
    return DiskCase("", image, BOTH)


# Good disks ---------------------------------------------------------------------------------


def random_maker(r, most_pages: int = 5, most_states: int = 8) -> Maker:
    """A disk with some states in a half."""
    layout = disk.Layout(r.choice([1, 1, 1, 2]), r.choice([1, 1, 2, 3]))
    greatest = GREATEST_NUMBER - r.choice([0, 1, 2, 20])
    last = greatest if r.random() < 0.08 else r.choice([0, 1, 2, 7, 7, 1000, 1000, 2**32])
    maker = Maker(r, layout, r.randrange(2), last)
    some = r.randint(2, most_states)
    many = r.randint(40, 60) if layout.room > 1 else some  # on several pages
    count = r.choice([0, 1, 2, some, some, some, some, many]) if last else 0
    maker.half(fitting(maker, [(key, content(r, most_pages)) for key in parts.some_keys(r, count)]))
    return maker


def fitting(maker: Maker, changes: list) -> list:
    """Those of the changes for which there is room all together, even where no state goes."""
    left = maker.room_left()
    kept = []
    for key, held in changes:
        length = 0 if held is None else 81 + len(key) + 36 * extents_of(len(held))
        if length <= left:
            kept.append((key, held))
            left -= length
    return kept


def add_frames(maker: Maker, count: int, most_pages: int = 5) -> None:
    """Frames of random entries."""
    r = maker.r
    keys = sorted(set(maker.states) | set(parts.some_keys(r, 10)))
    for _ in range(count):
        r.shuffle(keys)
        changes = [(key, None if r.random() < 0.25 else content(r, most_pages)) for key in keys]
        changes = fitting(maker, changes)
        entries = []
        for _ in range(r.choice([1, 1, 2, 3, 16])):
            width = r.choice([0, 1, 1, 2, 3])
            entries.append(changes[:width])
            changes = changes[width:]
        maker.frame(entries)


def random_forms(r, frames: Optional[int] = None, most_pages: Optional[int] = None) -> Forms:
    """A good disk with some frames."""
    most_pages = most_pages or r.choice([1, 1, 5, 5, 5, 12, 12, 28 if r.random() < 0.2 else 5])
    maker = random_maker(r, most_pages)
    try:
        add_frames(maker, r.choice([0, 1, 1, 2, 3]) if frames is None else frames, most_pages)
    except NoSpace:
        pass  # the frames so far
    if r.random() < 0.4:
        soil(r, maker.forms)
    if r.random() < 0.15:
        maker.forms.count += r.choice([0, 1, 5, 300])
        maker.forms.rest = r.choice([b"", b"\0", b"GATEOPEN", b"x" * 4095])
    return maker.forms


def soil(r, forms: Forms) -> None:
    """Bytes wherever none are looked at: behind the ends of forms, behind a gate's text, on pages
    that hold nothing, and on the other half."""
    layout = forms.layout
    first = layout.data()
    pages = [*range(1, 6), *range(515, 519), *range(layout.states(0), first + 3), *range(first, layout.total())]
    other = 1 - forms.half
    others = [layout.header(other), layout.log(other), layout.states(other), layout.states(other) + layout.room - 1]
    for page in r.sample(pages, 12) + r.sample(others, 3):
        forms.under[page] = r.choice([b"\xff" * PAGE, r.randbytes(PAGE), disk.OPEN_GATE])
    forms.behind = r.choice([b"", b"\xff" * PAGE, r.randbytes(PAGE)])
    forms.gate = r.choice([disk.OPEN_GATE, b"GATEOPEN".ljust(PAGE, b"\xff")])
    closed = [disk.ZEROS, b"\0GATEOPEN".ljust(PAGE, b"\0"), b"\xff" * PAGE, b"GATEOPE".ljust(PAGE, b"n")]
    forms.last_gate = r.choice(closed)
    forms.selector = b"HALFONE1".ljust(PAGE, b"\xff") if forms.half else r.choice([b"", b"halfone1", b"\xff" * PAGE])


def good(r) -> DiskCase:
    return of(build.image_of(random_forms(r)))


def torn(r) -> DiskCase:
    """A last frame of which some pages didn't arrive, or arrived otherwise."""
    maker = random_maker(r)
    add_frames(maker, r.choice([0, 0, 1]))
    before = dict(maker.forms.data)
    add_frames(maker, 1)
    forms = maker.forms
    for page in r.sample(sorted(maker.pages), min(len(maker.pages), r.choice([1, 1, 2, 20]))):
        forms.data[page] = r.choice([before.get(page, disk.ZEROS), disk.ZEROS, b"\xff" * PAGE, r.randbytes(PAGE)])
    if r.random() < 0.2:  # the frame behind it makes it an earlier one
        add_frames(maker, 1)
    return of(build.image_of(forms))


def damaged(r) -> DiskCase:
    """A disk whose contents were changed afterwards."""
    forms = random_forms(r)
    return of(hostile.damage(r, forms, build.image_of(forms)))


def wrong_hashes(r) -> DiskCase:
    """Marks, digests and prefixes that aren't those of the content. The prefix is no link."""
    forms = random_forms(r, most_pages=r.choice([1, 5, 12]))
    part = r.choice([forms.tuples, forms.bodies])
    for _ in range(r.choice([1, 1, 2, 5])):
        hostile.change_field(r, forms, part, r.choice(["mark", "digest", "digest", "prefix", "prefix"]))
    return of(build.image_of(forms))


def wrong_prefixes(r) -> DiskCase:
    """States of the last frame with another prefix than their contents: they verify all the same."""
    forms = random_forms(r, r.choice([1, 2]), 1)
    hostile.change_prefixes(forms.bodies[-1])
    return of(build.image_of(forms))


def larger(r) -> DiskCase:
    """Contents up to the fourth tier of extents."""
    forms = random_forms(r, r.choice([0, 1]), 60)
    image = build.image_of(forms)
    return of(hostile.damage(r, forms, image) if r.random() < 0.5 else image)


def great(r) -> DiskCase:
    """States of all tiers, whose marks and digests are those of no content, in a file of many
    holes. They stand in a half, so that opening doesn't look at their contents."""
    layout = disk.Layout(r.choice([16_384, 2000, 100, 91, 90, 8]), r.choice([1024, 8, 4]))
    forms = Forms(layout, r.randrange(2), r.choice([9, GREATEST_NUMBER]))
    states = {}
    at = 0
    for key in parts.some_keys(r, r.choice([1, 2, 3, 6])):
        size = min(parts.GREATEST_SIZE, parts.border_size(r, r.choice([4, 124, 4092, 93_180])))
        state, at = great_state(r, layout, size, at)
        if at <= layout.data_pages() and len(states) < 3 * layout.room // 4:
            states[key] = state
    forms.tuples = [build.tuple_form(key, states[key]) for key in sorted(states)]
    forms.fit()
    if r.random() < 0.4:
        hostile.change_field(r, forms)
    return of(build.image_of(forms))


def great_state(r, layout: disk.Layout, size: int, at: int) -> tuple:
    """A state whose blocks stand one behind the other from page `at` on, and the page behind the
    last one."""
    heads = []
    for i in range(extents_of(size)):
        width = 2 ** build.tier(i)
        heads.append(-(-at // width) * width)
        at = heads[-1] + width
    tail = at if size % PAGE else None
    marks = tuple(r.randbytes(32) for _ in heads)
    prefix = r.randbytes(min(size, 32)).ljust(32, b"\0")
    born = r.randint(1, 9)
    return State(size, born, r.randbytes(32), prefix, tuple(heads), marks, tail), at + 1


# Ends of what there may be --------------------------------------------------------------------


def full_room(r) -> DiskCase:
    """States that fill the room up to its last byte, or one beyond, in a half or with a frame."""
    layout = disk.Layout(r.choice([1, 2]), r.choice([1, 1, 2]))
    maker = Maker(r, layout, r.randrange(2), 3)
    keys = keys_of(r, PAGE * layout.room + r.choice([-1, 0, 0, 0, 1, 1, 2]))
    in_half = r.choice([len(keys)] * 4 + [len(keys) - 1, len(keys) - 2, len(keys) // 2])
    maker.half([(key, b"") for key in keys[:in_half]])
    more = [(key, b"") for key in keys[in_half:]]
    if more and r.random() < 0.4:  # one goes, so that the room is enough again
        more.append((keys[0], None))
    if more:
        maker.frame([[one] for one in more[:15]] + [more[15:30]])
    if more and r.random() < 0.4:  # the frame that made it too full isn't the last one
        maker.frame([[(keys[0], None)]])
    return of(build.image_of(maker.forms))


def keys_of(r, length: int) -> list:
    """Keys whose tuples have this length together, where their contents have no byte."""
    keys = set()
    while length > 301:
        keys.add(parts.new_key(r, keys, 64))
        length -= 77 + 64
    for left in (2, 1) if length < 283 else (3, 2, 1):
        key = parts.new_key(r, keys, length // left - 77)
        keys.add(key)
        length -= 77 + len(key)
    return sorted(keys)


def full_log(r) -> DiskCase:
    """Frames up to the last pages of the log area, the last gate on one of its last four pages."""
    maker = Maker(r, disk.Layout(1, 1), r.randrange(2), r.choice([0, 7]))
    count = r.choice([254, 255, 255, 255])
    wide = r.randrange(count) if r.random() < 0.5 else None
    for at in range(count):
        maker.frame(padding(r) if at == wide else [[]])
    forms = maker.forms
    image = build.image_of(forms)
    last = hostile.gates_of(forms)[-1]
    if r.random() < 0.75:
        image = image.having({last: disk.OPEN_GATE})
        if last + 1 < forms.layout.log(forms.half) + disk.LOG_PAGES and r.random() < 0.8:
            image = image.having({last + 1: build.spell(next_body(maker)).ljust(PAGE, b"\0")})
    return of(image)


def padding(r) -> list:
    """Entries that make a body of two pages."""
    return [[(parts.key(r, 64), None) for _ in range(16)] for _ in range(4)]


def next_body(maker: Maker) -> list:
    """A body without writes that would come next."""
    return build.body_form([build.entry_form(maker.last + 1, 0, 1, [])])


def most(r) -> DiskCase:
    """Frames of sixteen entries, some of sixteen writes, and of one more."""
    maker = Maker(r, disk.Layout(1, 8), r.randrange(2), 1)
    keys = parts.some_keys(r, 17 * 17)
    entries = []
    widths = r.choice([[0, 1, 15, 16, 16], [16], [16, 16, 16, 17]])
    for at in range(r.choice([15, 16, 16, 16, 17])):
        own = keys[17 * at : 17 * at + r.choice(widths)]
        entries.append([(key, r.choice([b"", key[:1], None])) for key in own])
    maker.frame(entries)
    if r.random() < 0.3:
        hostile.rearrange(r, maker.forms)
    return of(build.image_of(maker.forms))
