"""Worked runs over a store that lasts: fixed cases whose answers, calls and pages were written by hand
from the rules.

Lines are joined here by `; `, and so are the lines of the wanted text. Calls are page numbers and
`sync`, in their order; marks in between are for the eye alone.
"""

from hashlib import sha256
from typing import NamedTuple, Optional

import disk
import lasting
import lasting_cases
from disk_worked import (
    A, ABC, ABC_TUPLE, B, BODY, MADE, NONE, OPEN, THREE_ZEROS, body, entry, header, large, small,
)
from model import GREATEST_NUMBER, PAGE, Made
from worked import FULL_UNIT, lines_of, put, put_text


class Visit(NamedTuple):
    """One run."""

    words: str
    script: str
    text: str
    status: int = 0
    calls: Optional[str] = None  # where they are said
    pages: dict = {}  # of the file afterwards, with their first bytes; an empty one is zeros
    hand: dict = {}  # pages that another hand writes before, with their first bytes


class Worked(NamedTuple):
    name: str
    visits: list
    before: Optional[dict] = None  # pages of the file before the first run, or None for no file
    count: int = 2053  # how many it has


FRESH = "fresh s 1 1"
STEPS = "steps s"
SHOW = "show s"
FORMATTED = "1 3 sync 0 sync"
OPENED = FORMATTED + " / sync 2 515 sync 0 sync / "  # a new store, which is then open in half 1
ONE = "demo/a 3 " + ABC + " 1; last 1"
READ = "0 begin; 0 get demo/a; 0 stat demo/a"
READ_TEXT = f"0 begun; 0 value 3 616263; 0 stat 3 {ABC}"
LOST = f"damaged demo/a 0 {ABC} {THREE_ZEROS}"
ABC_RUN = Visit(FRESH, put(0, "demo/a", "x:616263"), put_text(0, 1))
LAST = GREATEST_NUMBER
SET = b"\1"
FULL_PAGE = Made(PAGE, 0).bytes()
PAGE_TUPLE = large("demo/a", PAGE, 1, sha256(FULL_PAGE).hexdigest(), FULL_PAGE[:32].hex(), [(0, MADE[0])])


def shown(*keys: str, last: int) -> str:
    """What `show` answers: keys with their contents of one byte, and the last number."""
    return "; ".join([f"{key} 1 {A} {number}" for key, number in keys] + [f"last {last}"])


def span(first: int, end: int) -> str:
    return " ".join(str(page) for page in range(first, end))


FIRST = [
    Worked(
        "one put, read back, and shown",
        [
            Visit(
                FRESH,
                put(0, "demo/a", "x:616263") + READ,
                put_text(0, 1) + READ_TEXT,
                calls=OPENED + "516 517 sync 1029 515 sync",
                pages={
                    0: b"HALFONE1\0", 1: header(), 2: header(), 3: b"", 515: OPEN + b"\0", 516: BODY + b"\0",
                    517: b"", 1029: b"abc\0",
                },
            ),
            Visit(
                SHOW, "", ONE, calls="sync 1027 1 3 sync 0 sync",
                pages={0: b"", 1: header(1, 1, 87), 3: b"", 1027: ABC_TUPLE + b"\0", 516: BODY},
            ),
            Visit(SHOW, "", ONE, calls="sync 1028 2 515 sync 0 sync", pages={0: b"HALFONE1", 515: b"", 516: BODY}),
        ],
    ),
    Worked(
        "a script goes on where another ended",
        [
            Visit("format s 1 1", "", "formatted 2053", calls=FORMATTED, pages={0: b"", 1: header(), 2: b""}),
            Visit(
                STEPS, put(0, "demo/a", "x:616263") + "1 begin; 1 put demo/b x:62", put_text(0, 1) + "1 begun; 1 put",
                calls="sync 2 515 sync 0 sync / 516 517 sync 1029 515 sync",
            ),
            Visit(
                STEPS,
                READ + "; 1 put demo/b x:62; 0 put demo/b x:62; 0 commit; lead",
                READ_TEXT + "; 1 no-transaction; 0 put; 0 queued; 0 committed 2",
                calls="sync 1027 1 3 sync 0 sync / 4 5 sync 1030 3 sync",
                pages={3: OPEN, 4: body(entry(2, SET + small("demo/b", b"b", 2, B, 1))) + b"\0", 1030: b"b\0"},
            ),
            Visit(SHOW, "", f"demo/a 3 {ABC} 1; demo/b 1 {B} 2; last 2"),
        ],
    ),
    Worked(
        "an empty content",
        [
            Visit(
                FRESH, put(0, "demo/a", "x:") + READ,
                put_text(0, 1) + f"0 begun; 0 value 0 -; 0 stat 0 {NONE}",
                calls=OPENED + "516 517 sync 515 sync",
                pages={516: body(entry(1, SET + small("demo/a", b"", 1, NONE, None))) + b"\0"},
            ),
            Visit(STEPS, READ, f"0 begun; 0 value 0 -; 0 stat 0 {NONE}"),
        ],
    ),
    Worked(
        "a tail alone",
        [Visit(FRESH, put(0, "demo/a", "g:4095:0"), put_text(0, 1), calls=OPENED + "516 517 sync 1029 515 sync")],
    ),
    Worked(
        "a full page",
        [
            Visit(
                FRESH, put(0, "demo/a", "g:4096:0"), put_text(0, 1), calls=OPENED + "516 517 sync 1029 515 sync",
                pages={516: body(entry(1, b"\1" + PAGE_TUPLE)), 1029: FULL_PAGE},
            ),
        ],
    ),
    Worked(
        "a full page and a tail",
        [
            Visit(
                FRESH, put(0, "demo/a", "g:4097:0"), put_text(0, 1), calls=OPENED + "516 517 sync 1029 1030 515 sync",
                pages={1029: FULL_PAGE, 1030: b"\x10\0"},
            ),
        ],
    ),
    Worked(
        "a group of three",
        [
            Visit(
                FRESH,
                "0 begin; 1 begin; 2 begin; 0 put demo/a x:61; 1 put demo/b x:62; 2 put demo/c x:63; 0 commit; "
                "1 commit; 2 commit; lead",
                "0 begun; 1 begun; 2 begun; 0 put; 1 put; 2 put; 0 queued; 1 queued; 2 queued; 0 committed 1; "
                "1 committed 2; 2 committed 3",
                calls=OPENED + "516 517 sync 1029 1030 1031 515 sync",
            ),
        ],
    ),
    Worked(
        "members in the order of the queue, contents in that of their keys",
        [
            Visit(
                FRESH,
                "5 begin; 2 begin; 5 put demo/d x:61; 5 put demo/c x:62; 2 put demo/b x:61; 5 commit; 2 commit; lead",
                "5 begun; 2 begun; 5 put; 5 put; 2 put; 5 queued; 2 queued; 5 committed 1; 2 committed 2",
                calls=OPENED + "516 517 sync 1029 1030 1031 515 sync",
                pages={
                    516: body(
                        entry(
                            1, SET + small("demo/c", b"b", 1, B, 0), SET + small("demo/d", b"a", 1, A, 1), session=5
                        ),
                        entry(2, SET + small("demo/b", b"a", 2, A, 2), session=2),
                    ) + b"\0",
                    1029: b"b\0", 1030: b"a\0", 1031: b"a\0",
                },
            ),
        ],
    ),
    Worked(
        "a place given back by a delete",
        [
            Visit(
                FRESH,
                put(0, "demo/a", "x:61") + "0 begin; 0 del demo/a; 0 commit; lead; " + put(0, "demo/b", "x:62"),
                put_text(0, 1) + "0 begun; 0 deleted; 0 queued; 0 committed 2; " + put_text(0, 3),
                calls=OPENED + "516 517 sync 1029 515 sync / 518 519 sync 517 sync / 520 521 sync 1029 519 sync",
                pages={518: body(entry(2, b"\2\x06demo/a", nth=2)) + b"\0", 1029: b"b\0", 1030: b""},
            ),
            Visit(SHOW, "", f"demo/b 1 {B} 3; last 3"),
        ],
    ),
    Worked(
        "a transaction without changes, the second of its session",
        [
            Visit(
                FRESH, "3 begin; 3 abort; 3 begin; 3 begin; 3 commit; lead",
                "3 begun; 3 aborted; 3 begun; 3 already; 3 queued; 3 committed 1",
                calls=OPENED + "516 517 sync 515 sync", pages={516: body(entry(1, session=3, nth=2)) + b"\0"},
            ),
            Visit(
                STEPS, "3 begin; 3 commit; lead", "3 begun; 3 queued; 3 committed 2",
                calls="sync 1 3 sync 0 sync / 4 5 sync 3 sync", pages={4: body(entry(2, session=3)) + b"\0"},
            ),
        ],
    ),
    Worked(
        "no space for one of two members, and then for all",
        [
            Visit(
                FRESH,
                FULL_UNIT + "0 begin; 0 put demo/c x:61; 1 begin; 1 put demo/d x:; 0 commit; 1 commit; lead; "
                + put(0, "demo/c", "x:61") + "lead",
                put_text(0, 1) + put_text(0, 2) + "0 begun; 0 put; 1 begun; 1 put; 0 queued; 1 queued; "
                "0 no-space demo/c 0; 1 committed 3; 0 begun; 0 put; 0 queued; 0 no-space demo/c 0; idle",
                calls=OPENED + f"516 517 sync {span(1029, 1057)} {span(1061, 2053)} 515 sync / "
                "518 519 sync 1057 1058 1059 1060 517 sync / 520 521 sync 519 sync",
            ),
        ],
    ),
]


# Crashes and damage ---------------------------------------------------------------------------

TWO_PUTS = Visit(
    FRESH,
    "0 begin; 1 begin; 0 put demo/a x:61; 1 put demo/b x:62; 0 commit; 1 commit; lead",
    "0 begun; 1 begun; 0 put; 1 put; 0 queued; 1 queued; 0 committed 1; 1 committed 2",
    calls=OPENED + "516 517 sync 1029 1030 515 sync",
)
FIRST_KEPT = shown(("demo/a", 1), last=2)


def after_checkpoint(name: str, selector: bytes, half: int) -> Worked:
    """Another selector after a checkpoint from half 1 to half 0. Which half is picked then."""
    turned = "sync 1028 2 515 sync 0 sync" if half == 0 else "sync 1027 1 3 sync 0 sync"
    checkpoint = Visit(
        FRESH, put(0, "demo/a", "x:616263") + "checkpoint", put_text(0, 1) + "checkpointed",
        calls=OPENED + "516 517 sync 1029 515 sync / 1027 1 3 sync 0 sync",
        pages={0: b"", 1: header(1, 1, 87), 1027: ABC_TUPLE, 3: b""},
    )
    return Worked(name, [checkpoint, Visit(SHOW, "", ONE, calls=turned, hand={0: selector})])


def leads(count: int) -> str:
    """The calls of so many leads of one small content in half 1, whose place changes each time."""
    calls = [f"{516 + 2 * at} {517 + 2 * at} sync {1029 + at % 2} {515 + 2 * at} sync" for at in range(count)]
    return " / ".join(calls)


TORN = [
    Worked(
        "a lead of which one content didn't arrive",
        [
            TWO_PUTS,
            Visit(SHOW, "", FIRST_KEPT, hand={1030: b""}),
            Visit(STEPS, put(0, "demo/c", "x:61"), put_text(0, 3)),
            Visit(SHOW, "", shown(("demo/a", 1), ("demo/c", 3), last=3)),
        ],
    ),
    Worked(
        "the same, and a script goes on at once",
        [
            TWO_PUTS,
            Visit(
                STEPS, "0 begin; 0 get demo/b; 0 get demo/a; " + put(1, "demo/b", "x:61"),
                "0 begun; 0 absent; 0 value 1 61; " + put_text(1, 3), hand={1030: b""},
                calls="sync 1027 1 3 sync 0 sync / 4 5 sync 1030 3 sync",
            ),
        ],
    ),
    Worked(
        "a lead whose gate didn't arrive",
        [
            ABC_RUN, Visit(SHOW, "", "last 0", hand={515: b""}, calls="sync 1 3 sync 0 sync"),
            Visit(STEPS, put(0, "demo/a", "x:61"), put_text(0, 1)),
        ],
    ),
    Worked("a lead whose gate arrived alone", [ABC_RUN, Visit(SHOW, "", "last 1", hand={1029: b""})]),
    Worked("a lead of which all arrived", [ABC_RUN, Visit(SHOW, "", ONE)]),
    after_checkpoint("a checkpoint whose selector didn't arrive", b"HALFONE1", 1),
    after_checkpoint("a checkpoint whose selector arrived", b"", 0),
    after_checkpoint("a checkpoint whose selector is no text", b"\xff" * PAGE, 0),
    Worked(
        "a log that is full",
        [
            Visit(
                FRESH, put(0, "demo/a", "x:61") * 256, "".join(put_text(0, at) for at in range(1, 257)),
                calls=OPENED + leads(255) + " / 1027 1 3 sync 0 sync / 4 5 sync 1030 3 sync",
                pages={
                    1: header(255, 1, 87), 2: header(), 1023: OPEN, 1025: b"", 3: OPEN,
                    4: body(entry(256, SET + small("demo/a", b"a", 256, A, 1), nth=256)) + b"\0",
                },
            ),
            Visit(SHOW, "", shown(("demo/a", 256), last=256)),
        ],
    ),
    Worked(
        "a content that was changed",
        [
            ABC_RUN,
            Visit(SHOW, "", ONE),
            Visit("check s", "", LOST + "; checked 1 damaged 1", 9, hand={1029: b""}),
            Visit(
                STEPS, "0 begin; 0 stat demo/a; 0 get demo/b; 0 get demo/a; 0 abort",
                f"0 begun; 0 stat 3 {ABC}; 0 absent; {LOST}", 9,
            ),
            Visit(STEPS, READ.replace("; 0 stat demo/a", ""), "0 begun; " + LOST, 9),
            Visit(
                STEPS, "0 begin; 0 put demo/a x:61; 0 get demo/a; 0 commit; lead; 0 begin; 0 get demo/a",
                "0 begun; 0 put; 0 value 1 61; 0 queued; 0 committed 2; 0 begun; 0 value 1 61",
            ),
            Visit("check s", "", "checked 1 damaged 0"),
        ],
    ),
    Worked(
        "a damage ends a run behind a lead",
        [
            ABC_RUN,
            Visit(SHOW, "", ONE),
            Visit(
                STEPS,
                put(0, "demo/b", "x:61") + "0 begin; 0 get demo/a; lead",
                put_text(0, 2) + "0 begun; " + LOST,
                9,
                calls="sync 1028 2 515 sync 0 sync / 516 517 sync 1030 515 sync", hand={1029: b""},
            ),
        ],
    ),
]


# Refused stores and words ---------------------------------------------------------------------

ODD = [
    Worked("a file of zeros", [Visit(STEPS, READ, "store refused: bad-half 0 0", 6)], {}),
    Worked(
        "a file that is too small", [Visit(STEPS, READ, "store refused: too-small 2053 2052", 6)], {1: header()}, 2052
    ),
    Worked("words without a file", [Visit("steps", READ, "usage", 8)], {}),
    Worked("a store of no unit", [Visit("format s 0 1", "", "usage", 8)]),
    Worked("a word too many", [Visit("steps s 1", READ, "usage", 8)]),
    Worked("no file", [Visit(STEPS, READ, "", 11)]),
    Worked(
        "a script that ends early",
        [
            Visit(FRESH, put(0, "demo/a", "x:616263") + "0 jump", put_text(0, 1) + "malformed line 5", 2),
            Visit(STEPS, "lead; 0 begin; 0 append demo/a x:61", "idle; 0 begun; not built line 3", 10,
                  calls="sync 1027 1 3 sync 0 sync"),
            Visit(SHOW, "", ONE),
        ],
    ),
    Worked(
        "a store that is made anew",
        [
            ABC_RUN,
            Visit(
                FRESH, "0 begin; 0 get demo/a", "0 begun; 0 absent", calls=OPENED, pages={1029: b"", 516: b""}
            ),
        ],
    ),
    Worked(
        "the last numbers",
        [
            Visit(
                STEPS,
                "0 begin; 1 begin; 2 begin; 2 get demo/c; 0 put demo/a x:61; 1 put demo/b x:61; 0 commit; 1 commit; "
                "2 put demo/c g:4294967295:0; 2 commit; lead; 1 begin; 1 commit; lead",
                f"0 begun; 1 begun; 2 begun; 2 absent; 0 put; 1 put; 0 queued; 1 queued; 2 too-long 4294967295; "
                f"2 queued; 0 committed {LAST}; 1 no-number {LAST}; 2 no-number {LAST}; 1 begun; 1 queued; "
                f"1 no-number {LAST}",
                calls="sync 2 515 sync 0 sync / 516 517 sync 1029 515 sync",
            ),
            Visit(SHOW, "", shown(("demo/a", LAST), last=LAST)),
        ],
        {1: header(LAST - 1)},
    ),
]

WORKED = FIRST + TORN + ODD


# As cases -------------------------------------------------------------------------------------


def whole(pages: dict) -> dict:
    return {page: held.ljust(PAGE, b"\0") for page, held in pages.items()}


def case_of(one: Worked) -> lasting_cases.Case:
    runs = []
    for visit in one.visits:
        words = [word.encode() for word in visit.words.split(" ")]
        runs.append(lasting_cases.Run(words, lines_of(visit.script), True, whole(visit.hand)))
    image = None if one.before is None else disk.Image(one.count, whole(one.before))
    return lasting_cases.Case(one.name, image, runs)


def spelled(calls: list) -> str:
    """Calls as they are worked out here."""
    return " ".join("sync" if call is lasting.SYNC else str(call.page) for call in calls)


def fits(one: Worked) -> bool:
    """Whether the model says what was worked out."""
    return all(fits_visit(visit, ran) for visit, ran in zip(one.visits, lasting_cases.outcomes(case_of(one))))


def fits_visit(visit: Visit, ran: lasting.Ran) -> bool:
    if (ran.text, ran.status) != (lines_of(visit.text), visit.status):
        return False
    if visit.calls is not None and spelled(ran.calls).split() != visit.calls.replace("/", " ").split():
        return False
    pages = {page: ran.image.page(page) for page in visit.pages}
    return all(pages[page].startswith(held or disk.ZEROS) for page, held in visit.pages.items())
