"""Parts of random cases: words, keys, sizes and contents."""

from typing import NamedTuple, Optional

from model import BUILT

PAGE = 4096
GREATEST_SIZE = 381_669_375

# How many full pages the first extents hold, for each number of extents.
FULL = [0]
while len(FULL) < 128:
    FULL.append(FULL[-1] + 2 ** min((len(FULL) - 1) // 4, 10))


class Case(NamedTuple):
    kind: str
    words: list  # of bytes
    script: bytes
    before: Optional[bytes]  # what the file holds before the run, or None for no file
    opens: bool  # whether the system lets the file be made
    piped: bool  # the script comes through a pipe, else from a file


# The whole case -----------------------------------------------------------------------------


def words(r, units: int = 1, room: int = 1, file: Optional[bytes] = None) -> list:
    return [b"fresh", file or file_name(r), b"%d" % units, b"%d" % room]


def file_name(r) -> bytes:
    """Mostly plain, sometimes a name that a careless reader of words takes for something else."""
    odd = [b"--help", b"-", b"--", b"a b", b" ", b"*", b"1", b"fresh", b"a\nb", b"./s", b"%s{}", b"#"]
    odd += ["\u00e9\u4e2d".encode(), b"s" * 255]
    return b"s" if r.random() < 0.9 else r.choice(odd)


def older_file(r) -> Optional[bytes]:
    """Mostly no file; sometimes an older one, which a run must empty."""
    if r.random() < 0.9:
        return None
    pages = r.choice([0, 1, 1029, 1030, 1031, 2053, 3072])
    return r.choice([b"\xff", b"a"]) * (PAGE * pages + r.choice([0, 0, 1, 5]))


def case_of(r, lines: list, units: int = 1, room: int = 1) -> Case:
    """A case of these lines, mostly with some that are skipped among them. The last line's end
    may be missing."""
    if "checkpoint" in BUILT.verbs:
        lines = with_checkpoints(r, lines, r.choice([0, 0, 0.02, 0.1]))
    lines = with_skipped(r, lines, r.choice([0, 0, 0.05, 0.3]))
    script = b"\n".join(lines) + (b"\n" if lines and r.random() < 0.8 else b"")
    return Case("", words(r, units, room), script, older_file(r), True, False)


SKIPPED = [b"", b"", b"#", b"# a comment", b"#lead", b"##", b"#\t\r", b"# \xff\0", b"#0 begin"]


def with_skipped(r, lines: list, how_often: float) -> list:
    """The lines, with blank lines and comments among them."""
    found = []
    for line in lines:
        while r.random() < how_often:
            found.append(r.choice(SKIPPED))
        found.append(line)
    return found


def with_checkpoints(r, lines: list, how_often: float) -> list:
    """The lines, with checkpoints among them."""
    found = []
    for line in lines:
        found += [b"checkpoint", line] if r.random() < how_often else [line]
    return found


# Keys ---------------------------------------------------------------------------------------

CHARACTERS = b"abcdefghijklmnopqrstuvwxyz0123456789._-"


def name(r, length: int) -> bytes:
    return bytes(r.choice(CHARACTERS) for _ in range(length))


def key(r, length: Optional[int] = None) -> bytes:
    """A key, of 3 to 64 bytes."""
    length = length or r.choice([3, 6, 6, 6, 7, 20, 63, 64])
    relation = r.randint(max(1, length - 48), min(16, length - 2))
    return name(r, relation) + b"/" + name(r, length - 1 - relation)


def new_key(r, used, length: Optional[int] = None) -> bytes:
    """A key that isn't among the used ones."""
    while True:
        found = key(r, length)
        if found not in used:
            return found


def some_keys(r, count: int) -> list:
    """Different keys, some of which share a beginning so that their order is by later bytes."""
    found = set()
    while len(found) < count:
        found.add(b"demo/" + name(r, r.randint(1, 3)) if r.random() < 0.6 else key(r))
    return r.sample(sorted(found), count)


# Sizes --------------------------------------------------------------------------------------


def border_size(r, most_pages: int) -> int:
    """A size at or beside the end of a page, an extent or a tier."""
    full = r.choice([pages for pages in FULL if pages <= most_pages] + [min(most_pages, 5)])
    beside = r.choice([-PAGE, -1, 0, 0, 1, 2, PAGE - 1, PAGE, PAGE + 1, r.randint(0, PAGE)])
    return max(0, PAGE * full + beside)


def state_length(length: int, extents: int, tail: int) -> int:
    """The bytes that a state takes, by its key's length, its extents and whether it has a tail."""
    return 77 + length + 36 * extents + 4 * tail


def size_of(r, extents: int, tail: int) -> int:
    """A size with so many extents, and with a tail or without."""
    full = r.choice([FULL[extents], r.randint(FULL[extents - 1] + 1, FULL[extents])]) if extents else 0
    return PAGE * full + (r.choice([1, PAGE - 1, r.randint(1, PAGE - 1)]) if tail else 0)


# Contents -----------------------------------------------------------------------------------


def digits(r, content: bytes) -> bytes:
    """A content's hexadecimal digits, each of either case."""
    case = r.choice([str.lower, str.upper, None])
    spelled = [case(digit) if case else r.choice([digit, digit.upper()]) for digit in content.hex()]
    return "".join(spelled).encode()


def spelled(r, size: int) -> bytes:
    """A content that is spelled byte by byte, with zeros at its ends now and then."""
    content = bytes(r.choice([0, 0xFF, 0x0A, 0x61, r.randrange(256)]) for _ in range(size))
    return b"x:" + digits(r, content)


def made(r, size: int) -> bytes:
    return b"g:%d:%d" % (size, r.choice([0, 255, r.randrange(256)]))


def too_long(r) -> bytes:
    """A content past the greatest size."""
    more = [GREATEST_SIZE + 1, GREATEST_SIZE + 2, GREATEST_SIZE + PAGE, 2**31, 2**32 - 1]
    return made(r, r.choice(more))


def content(r, most_pages: int = 30) -> bytes:
    """A content of a random form: mostly small, often at a border."""
    kind = r.random()
    if kind < 0.3:
        return spelled(r, r.choice([0, 1, 2, 3, 31, 32, 33, 55, 56, 63, 64, 65, r.randint(0, 200)]))
    if kind < 0.34:
        return spelled(r, r.choice([4095, 4096, 4097, 8191, 8192, 8193]))
    if kind < 0.5:
        return made(r, r.randint(0, 5000))
    return too_long(r) if kind < 0.53 else made(r, border_size(r, most_pages))


def small(r) -> bytes:
    """A content of at most two pages."""
    return r.choice([spelled(r, r.randint(0, 3)), made(r, r.choice([1, 4095, 4096, 4097, 5000, 8192]))])
