"""Random cases that are out of the common run: lines that are almost right, lines of verbs that
are not built, odd scripts, faulty words, files that can't be made."""

from model import BUILT
from parts import Case, case_of, content, digits, key, name, older_file, small, some_keys, with_skipped, words
from talk import Talk

# Lines ----------------------------------------------------------------------------------------

ODD_LINES = [
    b"", b" ", b"#", b"# a comment", b"#lead", b" # a comment", b"\t", b"\r", b"\0", b"lead 1",
    b" lead", b"lead ", b"Lead", b"LEAD", b"leads", b"lea", b"0 lead", b"1 lead", b"lead\r",
    b"checkpoint", b"0", b"0 ", b" 0", b"begin", b"0 begin ", b" 0 begin", b"0  begin", b"0\tbegin",
    b"0 Begin", b"0 begin 0", b"0 begin\r", b"00 begin", b"1 begin", b"9 begin", b"15 begin",
    b"16 begin", b"01 begin", b"-0 begin", b"+0 begin", b"a begin", b"0 begins", b"0 begi", b"0begin",
    b"0 jump", b"0 BEGIN", b"\xef\xbb\xbf0 begin", b"0 commit 1", b"0 commit ", b"0 Commit",
    b"1 commit", b"0  commit", b"0 abort", b"0 del demo/a", b"0 append demo/a x:61", b"0 find x:",
    b"0 order x: 10", b"0 open /demo/a", b"0 ls /", b"0 pread 0 0 1", b"0 close 0", b"0 pin /demo/a",
    b"0 write demo/a 0 x:61", b"1 get demo/a", b"2 put demo/a x:61", b"0 get", b"0 get ",
    b"0 get demo/a ", b"0 get demo/a demo/b", b"0  get demo/a", b"0 get  demo/a", b"0 gets demo/a",
    b"0 stat", b"0 stat demo/a x:", b"0 stat  demo/a", b"0 stats demo/a", b"0 put", b"0 put demo/a",
    b"0 put x:61", b"0 put demo/a x:61 ", b"0 put  demo/a x:61", b"0 put demo/a  x:61",
    b"0 put demo/a x:61 x:62", b"0 puts demo/a x:61", b"0 put demo/a x:61\r", b"0 put demo/a x:61#",
    b"0 put x:61 demo/a", b"0 put demo/a demo/a", b"0 put demo/a x: 61",
]

ODD_KEYS = [
    b"demo", b"demo/", b"/a", b"/", b"Demo/a", b"demo/A", b"demo/a/b", b"demo//a", b"/demo/a",
    b"demo/a/", b"demo\\a", b"demo/a\xff", b"d\xc3\xa9mo/a", b"abcdefghijklmnopq/a",
    b"abcdefghijklmnop/" + b"a" * 48, b"a/" + b"a" * 48, b"demo/a:b", b"demo/a+b", b"demo/a~",
    b"de,mo/a", b"demo/`", b"demo/{", b"de@mo/a", b"demo/[", b"demo/a\0", b"demo/\x7f",
]

# Keys at the ends of what a key may be.
EDGE_KEYS = [
    b"a/a", b"./.", b"../..", b"-/_", b"0/9", b"z/z", b"abcdefghijklmnop/a",
    b"abcdefghijklmnop/" + b"z" * 47, b"a/" + b"-" * 47, b"_.-09az/_.-09az",
]

ODD_CONTENTS = [
    b"x", b"x:6", b"x:616", b"x:6g", b"x:g6", b"x:/0", b"x:0:", b"x:@0", b"x:G0", b"x:`0", b"x:61\xff",
    b"X:61", b"x;61", b":61", b"61", b"x::61", b"x:0x61", b"x:-1", b"x:6 1", b"y:61", b"xx:61",
    b"x:61:0", b"g", b"g:", b"g::", b"g:4", b"g:4:", b"g::0", b"g:4:256", b"g:4:1000", b"g:04:1",
    b"g:4:01", b"g:00:0", b"g:0:00", b"g:4:0:0", b"g:4:0:", b"g:4:-1", b"g:-4:1", b"g:+4:1", b"g:4:+1",
    b"g:4294967296:0", b"g:4294967295:256", b"g:9999999999:0", b"g:18446744073709551616:0",
    b"g:18446744073709551620:0", b"g:340282366920938463463374607431768211460:0",
    b"g:4:18446744073709551616", b"G:4:0", b"g:4,0", b"g:0x4:0", b"g:4:0x1", b"g:a:0", b"g:4:a",
    b"g;4:0", b"g:4;0", b"g4:0", b"g:1e3:0", b"g:4.0:0", b"g: 4:0", b"g:/:0", b"g:4:/", b"g:::",
    b"g:4::0", b"",
]

ODD_SESSIONS = [
    b"", b"0" * 20, b"1" * 30, b"18446744073709551616", b"256", b"4294967296", b"0.0", b"\xff", b"16", b"17",
    b"20", b"99", b"100", b"00", b"01", b"015", b"15 ", b" 15", b"1 5", b"-1", b"+1", b"f", b"1e1", b"0x1",
    b"18446744073709551631", b"340282366920938463463374607431768211456",
]


# Lines of verbs that are not built, and beside each the ways in which they go wrong.
OTHER_VERBS = [
    b"append demo/a x:61", b"append demo/a g:4:1", b"append demo/a", b"append x:61", b"append demo/a x:6",
    b"append demo x:61", b"append demo/a x:61 x:61", b"find x:", b"find g:4294967295:0", b"find", b"find demo/a",
    b"find x:6", b"find x: 1", b"order x: 0", b"order g:1:1 65536", b"order x: 65537", b"order x: 01",
    b"order x:", b"order 1 x:", b"order x: 1 1", b"order x: -1", b"open /demo/a", b"open demo", b"open \xff",
    b"open /", b"open", b"open ", b"open / /", b"ls /", b"ls x", b"ls", b"ls /demo /demo", b"ls  /",
    b"pread 0 0 0", b"pread 255 4294967295 65536", b"pread 256 0 1", b"pread 0 4294967296 1",
    b"pread 0 0 65537", b"pread 00 0 1", b"pread 0 00 1", b"pread 0 0 01", b"pread 0 0", b"pread 0 0 1 1",
    b"pread a 0 1", b"close 0", b"close 255", b"close 256", b"close 00", b"close", b"close 0 0", b"close a",
]

ODD_COMMENTS = [
    b" #", b" # a comment", b"\t# a comment", b"0 #", b"0 begin #", b"0 begin# a", b"lead # a comment",
    b"\xef\xbb\xbf#", b";", b"//",
]


def odd_line(r) -> bytes:
    """A line that is almost right, or well formed but rare."""
    kind = r.random()
    if kind < 0.18:
        return r.choice(ODD_LINES)
    if kind < 0.25:
        return r.choice(ODD_COMMENTS)
    session = b"%d " % r.choice([0, 0, 1, 9, 10, 15])
    if kind < 0.5:
        return session + r.choice(OTHER_VERBS)
    if kind < 0.62:
        return session + r.choice(KEY_LINES) % r.choice(ODD_KEYS)
    if kind < 0.66:
        return session + r.choice(KEY_LINES) % r.choice(EDGE_KEYS)
    if kind < 0.78:
        return session + r.choice([b"put demo/a ", b"append demo/a ", b"find "]) + r.choice(ODD_CONTENTS)
    if kind < 0.88:
        odd_session = b"16" if r.random() < 0.4 else r.choice(ODD_SESSIONS)
        return odd_session + b" " + r.choice([b"begin", b"commit", b"get demo/a", b"ls /"])
    plain = [b"begin", b"commit", b"abort", b"get demo/a", b"stat demo/a", b"del demo/a", b"put demo/a x:6162"]
    return edited(r, r.choice([session + r.choice(plain), session + b"put demo/a g:40:7", b"lead", b"# a"]))


KEY_LINES = [b"get %s", b"stat %s", b"del %s", b"put %s x:61", b"append %s x:61"]


def edited(r, line: bytes) -> bytes:
    """The line with one byte more, less or changed."""
    at = r.randint(0, len(line))
    byte = r.choice([*b" 01a/:\0\t\r\n\x80\xff", r.randrange(256)])
    more = line[:at] + bytes([byte]) + line[at:]
    other = line[:at] + bytes([byte]) + line[at + 1 :]
    less = line[: max(0, at - 1)] + line[at:]
    return r.choice([more, other, less])


def common_lines(r, steps: int) -> list:
    """Lines of some sessions that go well together."""
    talk = Talk(r)
    talk.wander(steps, r.sample(range(16), r.choice([1, 2, 5])), some_keys(r, r.randint(1, 4)), 2)
    return talk.lines


def odd(r) -> Case:
    """Lines that go well, with an odd one among them, mostly behind most of them."""
    lines = common_lines(r, r.choice([3, 8, 20, 60]))
    at = r.choice([0, len(lines), r.randint(0, len(lines)), r.randint(len(lines) // 2, len(lines))])
    lines.insert(at, odd_line(r))
    if r.random() < 0.2:
        lines.insert(r.randint(0, len(lines)), odd_line(r))
    return case_of(r, lines)


def not_built(r) -> Case:
    """Lines that go well, with one of a verb that is not built among them."""
    lines = common_lines(r, r.choice([3, 8, 20, 60]))
    count = r.randint(0, 65_536)
    others = [
        b"append %s %s" % (key(r), small(r)),
        b"find " + content(r),
        b"order %s %d" % (small(r), count),
        b"open /demo/a",
        b"ls /",
        b"pread %d %d %d" % (r.randint(0, 255), r.randint(0, 2**32 - 1), count),
        b"close %d" % r.randint(0, 255),
        b"checkpoint",
    ]
    line = r.choice([other for other in others if other.split(b" ")[0].decode() not in BUILT.verbs])
    session = b"" if line == b"checkpoint" else b"%d " % r.randint(0, 15)
    lines.insert(r.randint(0, len(lines)), session + line)
    return case_of(r, lines)


LONGEST = 65_536


def long_line(r) -> bytes:
    """A line round the greatest length, or far past it; its beginning is mostly well formed."""
    length = LONGEST + r.choice([-1, 0, 0, 0, 1, 1, 1, 1, 2, 3, LONGEST, 200_000, 1_000_000])
    kind = r.random()
    if kind < 0.3:
        return b"#" + r.choice([b" ", b"a", b"#", b"\xff"]) * (length - 1)
    if kind < 0.75:
        start = b"0 put demo/%s x:" % name(r, 2 if length % 2 == 0 else 1)
        return start + digits(r, bytes([r.randrange(256)]) * ((length - len(start)) // 2))
    puts = [b"0 put demo/a x:61", b"0 put demo/a g:4:1", b"0 put demo/a g:1"]
    start = r.choice([b"0 begin", b"lead", b"0 get demo/a", b"0 open /", b"", *puts])
    return start + r.choice([b" ", b"0", b"a", b"\0", b"\xff"]) * (length - len(start))


def text(r) -> Case:
    """Scripts whose bytes as a whole are out of the common run."""
    kind = r.choice(["empty", "ends", "random", "carriage", "blank end", "skipped", *["long"] * 6])
    case = case_of(r, [])
    lines = common_lines(r, 12)
    end = r.choice([b"", b"\n"])
    if kind == "empty":
        return case._replace(script=r.choice([b"", b"\n", b"\n\n", b"\0", b" ", b"\xff", b"#"]))
    if kind == "blank end":
        end = r.choice([b"\n\n", b"\n ", b"\n\0", b"\n\n\n", b"\n0", b"\nlea", b"\n#", b"\n\n#"])
    if kind == "carriage":
        return case._replace(script=b"\r\n".join(lines + [b""]))
    if kind == "random":
        letters = b"0 beginput lead\n\n\0\xff#"
        return case._replace(script=bytes(r.choice(letters) for _ in range(r.randint(0, 60))))
    if kind == "long":
        lines.insert(r.randint(0, len(lines)), long_line(r))
    if kind == "skipped":
        lines = with_skipped(r, lines, 0.8)
    return case._replace(script=b"\n".join(lines) + end)


ODD_NUMBERS = [
    b"0", b"00", b"01", b"", b"-1", b"+1", b"1 ", b" 1", b"1.", b"1e1", b"0x1", b"a", b"1a", b"16385",
    b"16386", b"99999", b"4294967297", b"18446744073709551617", b"9" * 100, b"1\n", b"-0", b"1_0", b"'1'",
    b"340282366920938463463374607431768211457", "\uff11".encode(), "\u0661".encode(),
]

# UNITS and ROOM at the ends of what they may be.
EDGE_NUMBERS = [
    (b"16384", b"1024"), (b"16384", b"1"), (b"1", b"1024"), (b"1", b"1025"), (b"16385", b"1"), (b"10", b"10"),
    (b"0", b"1"), (b"1", b"0"), (b"999", b"99"),
]

ODD_FORMS = [
    [b"format", b"s", b"1"], [b"steps", b"s"], [b"drill", b"s", b"1", b"1"], [b"check", b"s", b"1"],
    [b"show"], [b"many", b"s"], [b"Fresh", b"s", b"1", b"1"], [b"fres", b"s", b"1", b"1"],
    [b"freshs", b"s", b"1", b"1"], [b"", b"s", b"1", b"1"], [b"--help"], [b"-h"], [b"help"], [b"--version"],
    [b"s", b"fresh", b"1", b"1"], [b"fresh", b"1", b"1", b"s"], [b"--", b"fresh", b"s", b"1", b"1"],
    [b" fresh", b"s", b"1", b"1"], [b"fresh ", b"s", b"1", b"1"], [b"fresh", b"s", b"1", b"1", b"--help"],
]

NOT_TEXT = [b"\xff", b"s\xff", b"\xc3", b"1\xff", b"fresh\xff", b"\xed\xa0\x80"]


def faulty_words(r) -> Case:
    """Words that are no form, or almost none."""
    given = [b"fresh", b"s", b"1", b"1"]
    kind = r.choice(["count", "number", "number", "edge", "form", "file", "not text", "edit"])
    if kind == "count":
        fewer, more = given[: r.randrange(4)], given + [r.choice([b"1", b"", b"s"])]
        given = r.choice([fewer, fewer, more, more, [b""], given[1:], given * 2])
    elif kind == "number":
        given[r.choice([2, 3])] = r.choice(ODD_NUMBERS)
    elif kind == "edge":
        given[2:] = r.choice(EDGE_NUMBERS)
    elif kind == "form":
        given = r.choice(ODD_FORMS)
    elif kind == "file":
        given[1] = b""
    elif kind == "not text":
        given[r.randrange(4)] = r.choice(NOT_TEXT)
    else:
        at = r.choice([0, 2, 3])
        given[at] = edited(r, given[at]).replace(b"\0", b"")
    before = older_file(r) if given[1:2] == [b"s"] else None
    return Case("", given, b"\n".join(common_lines(r, 12)) + b"\n", before, True, False)


def no_file(r) -> Case:
    """A file that the system can't make."""
    missing = [b"missing/s", b"missing/folder/s", b"./missing/s", b"missing/\xc3\xa9", b"-/s", b"s" * 256]
    file = r.choice([*missing, b".", b"..", b"/", b"s/"])
    given = words(r, r.choice([1, 2]), 1, file)
    return Case("", given, b"\n".join(common_lines(r, 12)) + b"\n", None, False, False)
