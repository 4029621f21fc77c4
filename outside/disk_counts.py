"""Counts of what runs over disks show: each rule that a refused disk breaks, and what a good one
has.

`kinds` names what one run shows; REQUIRED lists what some hundred random cases must show.
"""

import disk
from disk_forms import Ran

KEY_RULES = [
    "key length cut short", "key length too small", "key length too great", "key cut short", "key malformed",
    "key doesn't rise",
]

TUPLE_RULES = KEY_RULES + [
    "size cut short", "size too great", "born cut short", "born too small", "born too great", "digest cut short",
    "prefix cut short", "prefix longer than the content", "head cut short", "head too great", "head not aligned",
    "mark cut short", "tail cut short", "tail too great",
]

FRAME_RULES = [
    "no page behind the gate", "text", "length too small", "length past the log area", "count of entries too small",
    "count of entries too great", "number cut short", "number too small", "number too great", "number not the next",
    "session cut short", "session too great", "nth cut short", "nth too small", "count of writes cut short",
    "count of writes too great", "kind of a write cut short", "kind of a write too small",
    "kind of a write too great", "key in two entries", "born not the entry's number", "bytes past the last entry",
    "no room for the states",
]

HALF_RULES = [
    "0 text", "8 version too small", "8 version too great", "12 units too small", "12 units too great",
    "16 room too small", "16 room too great", "20 last number too great", "28 fewer tuples than bytes",
    "32 length too great",
]

# Each rule whose breach refuses a disk, with the refusal in front.
RULES = ["too-small: no store is that small", "too-small: the layout is larger"]
RULES += [f"bad-half: {rule}" for rule in HALF_RULES]
RULES += [f"bad-tuple: {rule}" for rule in TUPLE_RULES + ["born above the last number"]]
RULES += [f"bad-frame: {rule}" for rule in FRAME_RULES + TUPLE_RULES]
RULES += ["owned-twice: by one", "owned-twice: by two"]

REQUIRED = RULES + [
    "refused: half 0", "refused: half 1", "found: half 0", "found: half 1", "found: no state", "found: one state",
    "found: several states", "found: states on several pages", "log: no frame", "log: one frame",
    "log: several frames", "last frame: all kept", "last frame: some dropped", "last frame: all dropped",
    "damaged: first extent", "damaged: later extent", "damaged: digest after extents", "damaged: digest alone",
    "check: none damaged", "check: one damaged", "check: several damaged", "show", "formatted", "usage",
    "cannot open",
]


def kinds(ran: Ran) -> list:
    """The names of all that one run shows."""
    if isinstance(ran.found, disk.Refusal):
        line = ran.found.line.split(" ")
        half = [f"refused: half {line[1]}"] if line[0].startswith("bad") else []
        return [ran.found.rule] + half
    if isinstance(ran.found, disk.Store):
        return store_kinds(ran.found) + answer_kinds(ran)
    return [{0: "formatted", 8: "usage", 11: "cannot open"}[ran.status]]


def how_many(count: int) -> str:
    return {0: "no", 1: "one"}.get(count, "several")


def store_kinds(store: disk.Store) -> list:
    """What opening finds."""
    count = len(store.states)
    found = [f"found: half {store.half}", f"found: {how_many(count)} state" + ("s" if count > 1 else "")]
    found.append(f"log: {how_many(store.frames)} frame" + ("s" if store.frames > 1 else ""))
    if store.length() > disk.PAGE:
        found.append("found: states on several pages")
    if store.frames:
        dropped = "some dropped" if store.kept else "all dropped"
        found.append("last frame: " + (dropped if store.dropped else "all kept"))
    return found


def answer_kinds(ran: Ran) -> list:
    """What is told of it."""
    if ran.text.rsplit(b"\n", 2)[-2].startswith(b"last "):
        return ["show"]
    count = len(ran.links)
    return [f"check: {'none' if not count else how_many(count)} damaged"] + [link_kind(link) for link in ran.links]


def link_kind(link: disk.Link) -> str:
    if link.is_digest:
        return "damaged: digest " + ("after extents" if link.number else "alone")
    return "damaged: " + ("later extent" if link.number else "first extent")


def table(counted) -> list:
    """Lines that tell how often each kind was shown, those that must be first."""
    names = REQUIRED + sorted(name for name in counted if name not in REQUIRED)
    return [f"{counted[name]:9} {name}" for name in names]
