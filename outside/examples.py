"""Checks the model alone: by the worked cases, which the program is also run on, and by further
examples whose answers, places and pages were found by hand.

`python3 outside/examples.py` checks them all, also those of disks, which are in disk_examples.py, and
those of a store that lasts, in lasting_examples.py.
Lines are joined here by `; `.
"""

import sys

sys.dont_write_bytecode = True  # nothing is left beside this file

import disk_examples
import lasting_examples
import model
import worked


def outcome(script: str, units: int = 1, room: int = 1) -> model.Outcome:
    words = [b"fresh", b"s", b"%d" % units, b"%d" % room]
    return model.run(words, script.replace("; ", "\n").encode())


def answers(script: str, units: int = 1, room: int = 1) -> str:
    return outcome(script, units, room).text.decode().rstrip("\n").replace("\n", "; ")


def last(script: str, units: int = 1, room: int = 1) -> str:
    return answers(script, units, room).split("; ")[-1]


def same(found, wanted) -> None:
    if found != wanted:
        raise SystemExit(f"an example differs\nfound:  {found!r}\nwanted: {wanted!r}")


def put(key: str, content: str) -> str:
    """One transaction with one put, and its lead."""
    return f"0 begin; 0 put {key} {content}; 0 commit; lead"


def placed(size: int, units: int = 1) -> tuple:
    """Heads and tail of a content of this size in an empty store."""
    group = model.Group(model.Store(units, 1))
    blob = group.place(model.Space([], 1024 * units), bytes(size))
    return blob.heads, blob.tail


def data(script: str) -> dict:
    """The data pages written in a store of one unit and one page of room, whose data area
    begins at page 1029."""
    return {page - 1029: held for page, held in outcome(script).pages.items()}


def worked_cases() -> None:
    for one in worked.WORKED:
        case = worked.case_of(one)
        same((one.name, worked.fits(one, model.run(case.words, case.script))), (one.name, True))


def first_path() -> None:
    same(outcome("").text, b"")
    same(outcome("").status, 0)
    same(outcome("").length, 2053 * 4096)
    abc = "ba7816bf8f01cfea414140de5dae2223b00361a396177a9cb410ff61f20015ad"
    script = put("demo/a", "x:616263") + "; 0 begin; 0 get demo/a; 0 stat demo/a"
    wanted = "0 begun; 0 put; 0 queued; 0 committed 1; 0 begun; 0 value 3 616263; 0 stat 3 " + abc
    same(answers(script), wanted)
    same(outcome(script).pages, {1029: b"abc" + bytes(4093)})
    none = "e3b0c44298fc1c149afbf4c8996fb92427ae41e4649b934ca495991b7852b855"
    script = put("demo/a", "x:") + "; 0 begin; 0 get demo/a; 0 stat demo/a"
    same(answers(script).split("; ")[5:], ["0 value 0 -", "0 stat 0 " + none])
    same(data(script), {})
    same(answers("0 begin; 0 find x:"), "0 begun; not built line 2")
    same(outcome("0 begin; 0 find x:").status, 10)


def places() -> None:
    same(placed(4095), ((), 0))
    same(placed(4096), ((0,), None))
    same(placed(4097), ((0,), 1))
    same(placed(20480), ((0, 1, 2, 3, 4), None))
    same(sorted(data(put("demo/a", "g:4095:0"))), [0])
    same(sorted(data(put("demo/a", "g:4096:0"))), [0])
    same(sorted(data(put("demo/a", "g:4097:0"))), [0, 1])
    same(sorted(data(put("demo/a", "g:20480:0"))), [0, 1, 2, 3, 4])
    same((381_669_375 // 4096, model.extents_of(381_669_375), 381_669_375 % 4096), (93_180, 127, 4095))
    same(last("0 begin; 0 put demo/a g:381669376:0"), "0 too-long 381669376")
    heads, tail = placed(3_000_000)
    same((len(heads), heads[-1], tail), (30, 640, 28))
    # The first 4, 12, 28, .. full pages fill the extents of the first 1, 2, 3, .. tiers.
    ends = [4, 12, 28, 60, 124, 252, 508, 1020, 2044, 4092]
    same([model.extents_of(4096 * end) for end in ends], [4 * (i + 1) for i in range(10)])
    same([model.extents_of(4096 * end + 4096) for end in ends], [4 * i + 5 for i in range(10)])


def contents() -> None:
    same(model.read_content(b"g:3:250").bytes(), bytes([250, 1, 8]))
    long = model.read_content(b"g:200000:9").bytes()
    same(long, bytes((9 + 7 * i + i // 256) % 256 for i in range(200_000)))
    same(model.read_content(b"x:aBCd").bytes(), bytes([0xAB, 0xCD]))
    for word in (b"x:a", b"x:ag", b"X:00", b"g:01:0", b"g:1:256", b"g:4294967296:0", b"g:1", b"x"):
        same(model.read_content(word), None)
    for word in (b"demo", b"demo/", b"Demo/a", b"abcdefghijklmnopq/a", b"demo/a/b", b"/a", b"a/" + b"a" * 48):
        same(model.read_key(word), None)
    same(model.read_key(b"abcdefghijklmnop/" + b"a" * 47) is None, False)


def full_stores() -> None:
    script = put("demo/a", "g:4177920:0") + "; " + put("demo/b", "g:12289:0")
    one = script + "; " + put("demo/c", "x:61") + "; " + put("demo/d", "x:")
    same([line for line in answers(one).split("; ") if "no-space" in line or "committed" in line],
         ["0 committed 1", "0 committed 2", "0 no-space demo/c 0", "0 committed 3"])
    same(sorted(set(range(1024)) - set(data(put("demo/a", "g:4177920:0")))), [28, 29, 30, 31])
    same(sorted(data(script)), list(range(1024)))
    # Two of one group: the refused one takes no place and no number.
    two = "0 begin; 0 put demo/c x:61; 1 begin; 1 put demo/d x:; 0 commit; 1 commit; lead"
    same(answers(script + "; " + two).split("; ")[-2:], ["0 no-space demo/c 0", "1 committed 3"])
    script = "; ".join(put(f"demo/{name}", "g:4177920:0") for name in "abcd")
    same(last(script, units=8), "0 no-room 4940 4096")
    # What is replaced is owned until after its lead, then used again.
    script = put("demo/a", "x:61") + "; " + put("demo/a", "x:62") + "; " + put("demo/b", "x:63")
    same({page: held[:1] for page, held in data(script).items()}, {0: b"c", 1: b"b"})


def sessions() -> None:
    same(answers("0 get demo/a; 0 begin; 0 begin; 0 commit; 0 begin; 0 commit; lead; lead; 0 commit"),
         "0 no-transaction; 0 begun; 0 already; 0 queued; 0 busy; 0 busy; 0 committed 1; idle; "
         "0 no-transaction")
    many = "0 begin; " + "; ".join(f"0 put demo/k{i:02} x:" for i in range(17))
    same(last(many), "0 too-many 17")
    one = put("demo/a", "x:61") + "; "
    same(answers(one + "0 begin; 1 begin; 0 get demo/a; 1 get demo/a; 0 put demo/a x:62; "
                 "1 put demo/a x:63; 0 commit; 1 commit; lead; lead").split("; ")[-2:],
         ["0 committed 2", "1 conflict demo/a 1 2"])
    begun = "; ".join(f"{i} begin" for i in range(3)) + "; "
    commits = "; ".join(f"{i} commit" for i in range(3)) + "; "
    puts = "0 put demo/a x:; 1 put demo/b x:; 2 put demo/c x:; "
    same(answers(begun + puts + commits + "lead").split("; ")[-3:],
         ["0 committed 1", "1 committed 2", "2 committed 3"])
    puts = "0 put demo/a x:; 1 put demo/a x:; 2 put demo/b x:; "
    same(answers(begun + puts + commits + "lead; lead; lead").split("; ")[-4:],
         ["0 committed 1", "1 committed 2", "2 committed 3", "idle"])
    same(answers(one + "0 begin; 0 get demo/a; 1 begin; 1 put demo/a x:62; 1 commit; lead; "
                 "0 get demo/a; 0 commit; lead").split("; ")[-4:],
         ["1 committed 2", "0 stale 2", "0 queued", "0 conflict demo/a 1 2"])
    same(answers("0 begin; 0 del demo/z; 0 put demo/a x:; 0 del demo/a; 0 get demo/a"),
         "0 begun; 0 absent; 0 put; 0 deleted; 0 absent")
    gone = one + "0 begin; 0 del demo/a; 0 commit; lead; " + put("demo/b", "x:62")
    same(outcome(gone).pages[1029][:1], b"b")
    skipped = "0 begin; # a comment; ; 0 abort; 0 jump"
    same(answers(skipped), "0 begun; 0 aborted; malformed line 5")
    same(outcome("0 jump").status, 2)


def words() -> None:
    for faulty in ([], [b"steps"], [b"fresh", b"s", b"0", b"1"], [b"fresh", b"", b"1", b"1"],
                   [b"fresh", b"s", b"16385", b"1"], [b"fresh", b"s", b"1", b"1025"],
                   [b"fresh", b"s", b"01", b"1"], [b"fresh", b"s", b"1", b"1", b"1"],
                   [b"format", b"s", b"1"], [b"show"], [b"check", b"s", b"1"]):
        same(model.run(faulty, b"0 begin\n")[:2], (b"usage\n", 8))
    same(model.run([b"fresh", b"s", b"16384", b"1024"], b"").length, 4096 * (1027 + 2048 + 1024 * 16384))
    same(model.run([b"fresh", b"no/s", b"1", b"1"], b"", opens=False)[1:3], (11, b"cannot open no/s\n"))


if __name__ == "__main__":
    for check in (worked_cases, first_path, places, contents, full_stores, sessions, words):
        check()
    disk_examples.check_all()
    lasting_examples.check_all()
    print("all examples hold")
