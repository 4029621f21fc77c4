"""Worked scripts: fixed cases whose answers were written by hand from the rules.

Lines are joined here by `; `, and so are the lines of the wanted text.
"""

from typing import NamedTuple, Optional

from parts import Case


class Worked(NamedTuple):
    name: str
    script: str
    text: str
    status: int = 0
    units: int = 1
    room: int = 1
    pages: Optional[dict] = None  # from each written data page to its first bytes, where it is said


def put(session: int, key: str, content: str) -> str:
    """A transaction with one put, and its lead."""
    return f"{session} begin; {session} put {key} {content}; {session} commit; lead; "


def put_text(session: int, number: int) -> str:
    """What it answers where it is committed."""
    return f"{session} begun; {session} put; {session} queued; {session} committed {number}; "


ABC = "ba7816bf8f01cfea414140de5dae2223b00361a396177a9cb410ff61f20015ad"
NONE = "e3b0c44298fc1c149afbf4c8996fb92427ae41e4649b934ca495991b7852b855"
FULL_UNIT = put(0, "demo/a", "g:4177920:0") + put(0, "demo/b", "g:12289:0")  # no page is left
SIXTEEN = "; ".join(f"0 put demo/k{at:02} x:" for at in range(16))

WORKED = [
    Worked("no line", "", "", pages={}),
    Worked(
        "one put, read back",
        put(0, "demo/a", "x:616263") + "0 begin; 0 get demo/a; 0 stat demo/a",
        f"0 begun; 0 put; 0 queued; 0 committed 1; 0 begun; 0 value 3 616263; 0 stat 3 {ABC}",
        pages={0: b"abc\0"},
    ),
    Worked(
        "an empty content",
        put(0, "demo/a", "x:") + "0 begin; 0 get demo/a; 0 stat demo/a",
        put_text(0, 1) + f"0 begun; 0 value 0 -; 0 stat 0 {NONE}",
        pages={},
    ),
    Worked("a tail alone", put(0, "demo/a", "g:4095:0"), put_text(0, 1), pages={0: b"\0\7"}),
    Worked("a full page", put(0, "demo/a", "g:4096:0"), put_text(0, 1), pages={0: b"\0\7"}),
    Worked("a full page and a tail", put(0, "demo/a", "g:4097:0"), put_text(0, 1), pages={0: b"\0\7", 1: b"\x10\0"}),
    Worked(
        "a content too long",
        "0 begin; 0 put demo/a g:381669376:0; 0 get demo/a; 0 put demo/a x:; 0 get demo/a",
        "0 begun; 0 too-long 381669376; 0 absent; 0 put; 0 value 0 -",
        pages={},
    ),
    Worked(
        "a conflict",
        put(0, "demo/a", "x:61") + "0 begin; 1 begin; 0 get demo/a; 1 get demo/a; 0 put demo/a x:62; "
        "1 put demo/a x:63; 0 commit; 1 commit; lead; lead",
        put_text(0, 1) + "0 begun; 1 begun; 0 value 1 61; 1 value 1 61; 0 put; 1 put; 0 queued; 1 queued; "
        "0 committed 2; 1 conflict demo/a 1 2",
        pages={0: b"a\0", 1: b"b\0"},
    ),
    Worked(
        "a group of three",
        "0 begin; 1 begin; 2 begin; 0 put demo/a x:61; 1 put demo/b x:62; 2 put demo/c x:63; 0 commit; "
        "1 commit; 2 commit; lead",
        "0 begun; 1 begun; 2 begun; 0 put; 1 put; 2 put; 0 queued; 1 queued; 2 queued; 0 committed 1; "
        "1 committed 2; 2 committed 3",
        pages={0: b"a\0", 1: b"b\0", 2: b"c\0"},
    ),
    Worked(
        "a group that ends at a changed key",
        "0 begin; 1 begin; 2 begin; 0 put demo/a x:61; 1 put demo/a x:62; 2 put demo/b x:63; 0 commit; "
        "1 commit; 2 commit; lead; lead; lead",
        "0 begun; 1 begun; 2 begun; 0 put; 1 put; 2 put; 0 queued; 1 queued; 2 queued; 0 committed 1; "
        "1 committed 2; 2 committed 3; idle",
        pages={0: b"a\0", 1: b"b\0", 2: b"c\0"},
    ),
    Worked(
        "a place given back by a delete",
        put(0, "demo/a", "x:61") + "0 begin; 0 del demo/a; 0 commit; lead; " + put(0, "demo/b", "x:62"),
        put_text(0, 1) + "0 begun; 0 deleted; 0 queued; 0 committed 2; " + put_text(0, 3),
        pages={0: b"b\0"},
    ),
    Worked(
        "no space for one of two members",
        FULL_UNIT + "0 begin; 0 put demo/c x:61; 1 begin; 1 put demo/d x:; 0 commit; 1 commit; lead",
        put_text(0, 1) + put_text(0, 2) + "0 begun; 0 put; 1 begun; 1 put; 0 queued; 1 queued; "
        "0 no-space demo/c 0; 1 committed 3",
    ),
    Worked(
        "a conflict comes before a want of space",
        "2 begin; 2 get demo/c; " + FULL_UNIT + put(0, "demo/c", "x:") + "2 put demo/d x:61; 2 commit; lead",
        "2 begun; 2 absent; " + put_text(0, 1) + put_text(0, 2) + put_text(0, 3)
        + "2 put; 2 queued; 2 conflict demo/c none 3",
    ),
    Worked(
        "a want of space comes before a want of room",
        FULL_UNIT + "0 begin; 0 put demo/c g:4177920:0; 0 put demo/d g:4177920:0; "
        "0 put demo/e g:4177920:0; 0 commit; lead",
        put_text(0, 1) + put_text(0, 2) + "0 begun; 0 put; 0 put; 0 put; 0 queued; 0 no-space demo/c 0",
    ),
    Worked("a word that is no verb", "0 begin; 0 abort; 0 jump", "0 begun; 0 aborted; malformed line 3", 2, pages={}),
    Worked(
        "no room for a fourth state",
        "".join(put(0, f"demo/{letter}", "g:4177920:0") for letter in "abcd"),
        put_text(0, 1) + put_text(0, 2) + put_text(0, 3) + "0 begun; 0 put; 0 queued; 0 no-room 4940 4096",
        units=8,
    ),
    Worked(
        "the states of a session",
        "0 get demo/a; 0 begin; 0 begin; 0 commit; 0 begin; 0 abort; lead; 0 abort",
        "0 no-transaction; 0 begun; 0 already; 0 queued; 0 busy; 0 busy; 0 committed 1; 0 no-transaction",
        pages={},
    ),
    Worked(
        "a seventeenth key",
        f"0 begin; {SIXTEEN}; 0 put demo/k16 x:; 0 put demo/k15 x:; 0 get demo/k16; 0 del demo/k00",
        "0 begun; " + "0 put; " * 16 + "0 too-many 17; 0 put; 0 too-many 17; 0 deleted",
        pages={},
    ),
    Worked(
        "a stale read",
        put(0, "demo/a", "x:61") + "0 begin; 0 get demo/a; " + put(1, "demo/a", "x:62")
        + "0 get demo/a; 0 commit; lead",
        put_text(0, 1) + "0 begun; 0 value 1 61; " + put_text(1, 2)
        + "0 stale 2; 0 queued; 0 conflict demo/a 1 2",
        pages={0: b"a\0", 1: b"b\0"},
    ),
    Worked("a delete of nothing", "0 begin; 0 del demo/z", "0 begun; 0 absent", pages={}),
    Worked(
        "a put, a delete and a read of one key",
        "0 begin; 0 put demo/a x:61; 0 del demo/a; 0 get demo/a",
        "0 begun; 0 put; 0 deleted; 0 absent",
        pages={},
    ),
    Worked(
        "an absent key is read too",
        "3 begin; 3 get demo/a; " + put(15, "demo/a", "x:61") + "3 stat demo/a; 3 put demo/a x:62; 3 commit; lead",
        "3 begun; 3 absent; " + put_text(15, 1) + "3 stale 1; 3 put; 3 queued; 3 conflict demo/a none 1",
        pages={0: b"a\0"},
    ),
    Worked("a verb that is not built", "0 begin; 0 append demo/a x:61; 0 jump", "0 begun; not built line 2", 10),
    Worked("a malformed line of such a verb", "0 begin; 0 append demo/a; 0 find x:", "0 begun; malformed line 2", 2),
    Worked("skipped lines are counted", "# one; ; #lead; 15 begin; 16 begin", "15 begun; malformed line 5", 2),
    Worked("a session past the last", "16 begin", "malformed line 1", 2),
    Worked("the longest line", "#" * 65_536 + "; 0 begin", "0 begun"),
    Worked("a comment too long", "0 begin; " + "#" * 65_537, "0 begun; malformed line 2", 2),
    Worked("as many lines as there may be", "; ".join(["#"] * 999_999) + "; 0 begin", "0 begun"),
    Worked("one line too many", "; ".join(["0 begin"] + ["#"] * 1_000_000), "0 begun; malformed line 1000001", 2),
]


def case_of(one: Worked) -> Case:
    words = [b"fresh", b"s", b"%d" % one.units, b"%d" % one.room]
    return Case(one.name, words, lines_of(one.script), None, True, True)


def lines_of(joined: str) -> bytes:
    """The lines of a joined text, each with its end."""
    joined = joined.removesuffix("; ")
    return joined.replace("; ", "\n").encode() + (b"\n" if joined else b"")


def fits(one: Worked, outcome) -> bool:
    """Whether an outcome of the model is as it was worked out."""
    if (outcome.text, outcome.status) != (lines_of(one.text), one.status):
        return False
    if one.pages is None:
        return True
    first = 1027 + 2 * one.room
    data = {page for page in outcome.pages if page >= first}
    same_pages = data == {first + page for page in one.pages}
    return same_pages and all(outcome.pages[first + page].startswith(start) for page, start in one.pages.items())
