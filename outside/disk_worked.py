"""Worked disks: fixed files whose answers were written by hand from the rules.

Their pages are spelled here once more, byte by byte. Lines of an answer are joined by `; `.
Hash states in the middle of a content were found with another implementation of SHA-256.
"""

from typing import NamedTuple

import disk
import disk_forms
from good_disks import BOTH, CHECK, SHOW, DiskCase
from model import PAGE


class Worked(NamedTuple):
    name: str
    pages: dict  # from page to its first bytes
    shown: str  # what `show` answers
    checked: str = ""  # what `check` answers; empty where a refused disk has the same for both
    count: int = 2053  # pages of the file
    rest: bytes = b""  # behind the last page


ABC = "ba7816bf8f01cfea414140de5dae2223b00361a396177a9cb410ff61f20015ad"
THREE_ZEROS = "709e80c88487a2411e1ee4dfb9f22a861492d20c4765150c0c794abd70f8147c"
A = "ca978112ca1bbdcafac231b39a23dc4da786eff8147c4e72b9807785afee48bb"
B = "3e23e8160039594a33894f6564e1b1348bbd7a0088d42c4acb73eeaed59c009d"
NONE = "e3b0c44298fc1c149afbf4c8996fb92427ae41e4649b934ca495991b7852b855"

# Of a content of two pages of the letter a: both marks, its digest, and what the second link gives
# over a page of zeros.
PAGES_A = [
    "a21ab5655cfabe81fe4361f228e004afdd24d4b82cb66f35a61413bd7e73a8bd",
    "d30d9099bc6c68b779f80ad2bfaf528f2a9e49b6e7ea071698a55846d72e7c58",
    "dd4e6730520932767ec0a9e33fe19c4ce24399d6eba4ff62f13013c9ed30ef87",
    "b4564707418ceda8d425e1b18962dfc16af86adde8dd87e7775f8ff0425f7bbc",
]

# The marks of the made content of 65,536 bytes that begins with 0, its digest, and what the third
# link gives over a page of zeros, and the ninth over one in its second place.
MADE = [
    "29fc1c02216325d1879226d3779f3a40cb98bb73f339f57014758b77df5b8ed9",
    "2f7137cadb2154e606bff70384da060aa73d19284d5edf3f8fa9bfd3bc18ce3d",
    "1f6e45b21da448a26ff7a6de5fb58e1ffbc8409a057f1afea6ef3eb51f45bbb6",
    "947a6a4194d86eebcbc063aeb47c0d83608412eeb66ba731913ec92a8eaa0538",
    "b927374b37c0068647c5f5759f4ed097209085372b592cfddf4823f31bf70608",
    "491cbbf7c15b02a5234f0abf524745db0cab2cf08052034ec4d194af316d0240",
    "8e6438cd3c0bf4e40ca4658de272eb2029004a842f688471016bc2e66c0b7288",
    "7b535ba7ff7b70b54673c45fd209e9985518639513014797b7b25d42608a3768",
    "5be6841b9b79b1f308cf8e051d77118b5ee332da8a1b8b02d66863da3cba6afa",
]
MADE_DIGEST = "5fce37f3129150ce7ec3939b54016d9c1fd01364e27b0a788dc634064aec76b1"
MADE_2 = "4d8d548f41e80dc1366ddc34581e2dae0e571993c749f3bd452de445970eae81"
MADE_8 = "f6a49b7143543b50859f8c60874337a5171e4659112eebf11e36d458f6d9c8a7"
MADE_PAGES = {1029 + i: bytes((7 * j + j // 256) % 256 for j in range(PAGE * i, PAGE * (i + 1))) for i in range(16)}


# Pages --------------------------------------------------------------------------------------


def digits(*numbers) -> str:
    """Numbers with their lengths in bytes, each a pair."""
    return "".join(f"{number:0{2 * length}x}" for number, length in numbers)


def header(last: int = 0, count: int = 0, length: int = 0, version: int = 1, units: int = 1, room: int = 1) -> bytes:
    numbers = digits((version, 4), (units, 4), (room, 4), (last, 8), (count, 4), (length, 4))
    return bytes.fromhex("424c4f4248414c46" + numbers)


def small(key: str, content: bytes, born: int, digest: str, tail) -> bytes:
    """The tuple of a content that has a tail alone, or no byte."""
    head = digits((len(key), 1)) + key.encode().hex() + digits((len(content), 4), (born, 8)) + digest
    prefix = content[:32].hex().ljust(64, "0")
    return bytes.fromhex(head + prefix + ("" if tail is None else digits((tail, 4))))


def large(key: str, size: int, born: int, digest: str, prefix: str, extents: list) -> bytes:
    """The tuple of a content that has no tail. Each extent is a head and a mark."""
    head = digits((len(key), 1)) + key.encode().hex() + digits((size, 4), (born, 8)) + digest + prefix
    return bytes.fromhex(head + "".join(digits((at, 4)) + mark for at, mark in extents))


def entry(number: int, *writes: bytes, session: int = 0, nth: int = 1) -> bytes:
    return bytes.fromhex(digits((number, 8), (session, 1), (nth, 8), (len(writes), 1))) + b"".join(writes)


def body(*entries: bytes) -> bytes:
    held = b"".join(entries)
    return b"BLOBFRM1" + bytes.fromhex(digits((13 + len(held), 4), (len(entries), 1))) + held


OPEN = b"GATEOPEN"
SET_ABC = b"\1" + small("demo/a", b"abc", 1, ABC, 0)

# The body of one entry of session 0, its first transaction, that sets demo/a to abc on page 0.
BODY = bytes.fromhex(
    "424c4f4246524d31" "00000077" "01"
    "0000000000000001" "00" "0000000000000001" "01"
    "01" "0664656d6f2f61" "00000003" "0000000000000001"
    "ba7816bf8f01cfea414140de5dae2223b00361a396177a9cb410ff61f20015ad"
    "6162630000000000000000000000000000000000000000000000000000000000"
    "00000000"
)


def in_log(*bodies: bytes, last: int = 0) -> dict:
    """The pages of frames of one page each, in the log of half 0."""
    pages = {1: header(last)}
    for at, held in enumerate(bodies):
        pages |= {3 + 2 * at: OPEN, 4 + 2 * at: held}
    return pages


def in_half(*tuples: bytes, last: int = 1, half: int = 0, units: int = 1, room: int = 1) -> dict:
    """The pages of tuples in a half."""
    held = b"".join(tuples)
    pages = {1 + half: header(last, len(tuples), len(held), units=units, room=room)}
    first = 1027 + room * half
    pages |= {first + i: held[PAGE * i : PAGE * (i + 1)] for i in range(-(-len(held) // PAGE))}
    return pages | ({0: b"HALFONE1"} if half else {})


ABC_TUPLE = small("demo/a", b"abc", 1, ABC, 0)  # 87 bytes
A_TUPLE = small("demo/a", b"a", 1, A, 0)
TWO = in_half(small("a/a", b"a", 1, A, 0), small("a/b", b"a", 1, A, 0))
TWO_PAGES = large("demo/a", 8192, 1, PAGES_A[2], "61" * 32, [(0, PAGES_A[0]), (1, PAGES_A[1])])
SIXTEEN_PAGES = large(
    "demo/a", 65_536, 1, MADE_DIGEST, MADE_PAGES[1029][:32].hex(), list(zip([0, 1, 2, 3, 4, 6, 8, 10, 12], MADE))
)


def with_byte(held: bytes, at: int, value: int) -> bytes:
    return held[:at] + bytes([value]) + held[at + 1 :]


def refused(name: str, pages: dict, refusal: str, **more) -> Worked:
    return Worked(name, pages, f"store refused: {refusal}", **more)


def bad_tuple(name: str, at: int, value: int, offset: int) -> Worked:
    """A half with one tuple of which one byte is another."""
    return refused(name, in_half(with_byte(ABC_TUPLE, at, value)), f"bad-tuple 0 {offset}")


def bad_body(name: str, at: int, value: int) -> Worked:
    """A frame of which one byte is another."""
    return refused(name, in_log(with_byte(BODY, at, value)) | {1029: b"abc"}, "bad-frame 0 0")


# The disks ----------------------------------------------------------------------------------

GOOD = [
    Worked("an empty store", {1: header()}, "last 0", "checked 0 damaged 0"),
    Worked("a file of more pages", {1: header(), 2060: b"x"}, "last 0", "checked 0 damaged 0", 2061, b"behind"),
    Worked("one frame", in_log(BODY) | {1029: b"abc"}, f"demo/a 3 {ABC} 1; last 1", "checked 1 damaged 0"),
    Worked("one frame without its page", in_log(BODY), "last 1", "checked 0 damaged 0"),
    Worked("an old body behind a closed gate", {1: header(), 4: BODY, 1029: b"abc"}, "last 0", "checked 0 damaged 0"),
    Worked(
        "two entries of which the first doesn't verify",
        in_log(body(entry(1, b"\1" + A_TUPLE), entry(2, b"\1" + small("demo/b", b"b", 2, B, 1)))) | {1030: b"b"},
        f"demo/b 1 {B} 2; last 2",
        "checked 1 damaged 0",
    ),
    Worked(
        "an earlier frame without its page",
        in_log(BODY, body(entry(2))),
        f"demo/a 3 {ABC} 1; last 2",
        f"damaged demo/a 0 {ABC} {THREE_ZEROS}; checked 1 damaged 1",
    ),
    Worked(
        "a key that is set and then deleted",
        in_log(BODY, body(entry(2, b"\2\x06demo/a"))) | {1029: b"abc"},
        "last 2",
        "checked 0 damaged 0",
    ),
    Worked(
        "a page that is zeros",
        in_half(ABC_TUPLE),
        f"demo/a 3 {ABC} 1; last 1",
        f"damaged demo/a 0 {ABC} {THREE_ZEROS}; checked 1 damaged 1",
    ),
    Worked(
        "two halves, the second one picked",
        in_half(small("demo/a", b"", 1, NONE, None)) | in_half(small("demo/b", b"", 2, NONE, None), half=1, last=3),
        f"demo/b 0 {NONE} 2; last 3",
        "checked 1 damaged 0",
    ),
    Worked(
        "two halves, the first one picked",
        in_half(small("demo/b", b"", 2, NONE, None), half=1, last=3)
        | in_half(small("demo/a", b"", 1, NONE, None))
        | {0: b"HALFONE0"},
        f"demo/a 0 {NONE} 1; last 1",
        "checked 1 damaged 0",
    ),
    Worked(
        "a frame of the second half",
        {0: b"HALFONE1\xff", 2: header(), 515: OPEN, 516: BODY, 1029: b"abc\xff"},
        f"demo/a 3 {ABC} 1; last 1",
        "checked 1 damaged 0",
    ),
    Worked(
        "two extents",
        in_half(TWO_PAGES) | {1029: b"a" * PAGE, 1030: b"a" * PAGE},
        f"demo/a 8192 {PAGES_A[2]} 1; last 1",
        "checked 1 damaged 0",
    ),
    Worked(
        "two extents, the second one zeros",
        in_half(TWO_PAGES) | {1029: b"a" * PAGE},
        f"demo/a 8192 {PAGES_A[2]} 1; last 1",
        f"damaged demo/a 1 {PAGES_A[1]} {PAGES_A[3]}; checked 1 damaged 1",
    ),
    Worked(
        "two extents and another digest",
        in_half(TWO_PAGES.replace(bytes.fromhex(PAGES_A[2]), bytes(32))) | {1029: b"a" * PAGE, 1030: b"a" * PAGE},
        f"demo/a 8192 {'00' * 32} 1; last 1",
        f"damaged demo/a 2 {'00' * 32} {PAGES_A[2]}; checked 1 damaged 1",
    ),
    Worked(
        "nine extents with zeros in the third and the ninth",
        in_half(SIXTEEN_PAGES) | MADE_PAGES | {1031: b"", 1042: b""},
        f"demo/a 65536 {MADE_DIGEST} 1; last 1",
        f"damaged demo/a 2 {MADE[2]} {MADE_2}; checked 1 damaged 1",
    ),
    Worked(
        "nine extents with zeros in the ninth",
        in_half(SIXTEEN_PAGES) | MADE_PAGES | {1042: b""},
        f"demo/a 65536 {MADE_DIGEST} 1; last 1",
        f"damaged demo/a 8 {MADE[8]} {MADE_8}; checked 1 damaged 1",
    ),
    Worked(
        "300 states, on seven pages",
        in_half(*(small(f"demo/k{at:03}", b"", at + 1, NONE, None) for at in range(300)), last=300, room=7),
        "".join(f"demo/k{at:03} 0 {NONE} {at + 1}; " for at in range(300)) + "last 300",
        "checked 300 damaged 0",
        count=2065,
    ),
]

REFUSED = [
    refused("no file's byte", {}, "too-small 2053 0", count=0),
    refused("a page too few, and bytes behind", {1: header()}, "too-small 2053 2052", count=2052, rest=bytes(4095)),
    refused("zeros", {}, "bad-half 0 0"),
    refused("another version", {1: header(version=2)}, "bad-half 0 8"),
    refused("no units", {1: header(units=0)}, "bad-half 0 12"),
    refused("a layout that is larger", {1: header(units=2)}, "too-small 3077 2053"),
    refused("too much room", {1: header(room=1025)}, "bad-half 0 16"),
    refused("a last number too great", {1: header(last=2**62 + 1)}, "bad-half 0 20"),
    refused("a length too great", {1: header(length=4097)}, "bad-half 0 32"),
    refused("a tuple that isn't there", {1: header(count=1)}, "bad-tuple 0 0"),
    refused("a byte behind the tuples", {1: header(length=1)}, "bad-half 0 28"),
    refused("the other half, which is zeros", {0: b"HALFONE1", 1: header()}, "bad-half 1 0"),
    refused("a gate without a body", {1: header(), 3: OPEN}, "bad-frame 0 0"),
    refused("one page of two keys", TWO, "owned-twice 0"),
    bad_tuple("a key's length", 0, 2, 0),
    bad_tuple("a byte of a key", 3, 0x4D, 3),
    bad_tuple("a key without a slash", 5, 0x6F, 7),
    bad_tuple("a size too great", 7, 0xFF, 7),
    bad_tuple("a number 0", 18, 0, 11),
    bad_tuple("a number above the last", 18, 2, 11),
    bad_tuple("a prefix past the size", 54, 1, 51),
    bad_tuple("a tail past the data area", 85, 4, 83),
    refused("a key that doesn't rise", in_half(ABC_TUPLE, ABC_TUPLE), "bad-tuple 0 87"),
    refused("a tuple cut short", in_half(ABC_TUPLE) | {1: header(1, 1, 86)}, "bad-tuple 0 83"),
    bad_body("another text", 7, 0x32),
    bad_body("a body that is longer", 11, 0x78),
    bad_body("a body that is shorter", 11, 0x76),
    bad_body("no entry", 12, 0),
    bad_body("a number that isn't the next", 20, 2),
    bad_body("a session too great", 21, 16),
    bad_body("no transaction's count", 29, 0),
    bad_body("seventeen writes", 30, 17),
    bad_body("a kind of no write", 31, 3),
    bad_body("a number that isn't the entry's", 50, 2),
    refused("a frame that comes again", in_log(BODY, BODY) | {1029: b"abc"}, "bad-frame 0 2"),
    refused(
        "a key in two entries", in_log(body(entry(1, b"\2\x03a/a"), entry(2, b"\2\x03a/a"))), "bad-frame 0 0"
    ),
    refused("keys that don't rise", in_log(body(entry(1, b"\2\x03a/b", b"\2\x03a/a"))), "bad-frame 0 0"),
    refused("a body past the log's end", in_log(with_byte(with_byte(BODY, 9, 0x1F), 10, 0xF0)), "bad-frame 0 0"),
]

WORKED = GOOD + REFUSED


def image_of(one: Worked) -> disk.Image:
    return disk.Image(one.count, {page: held.ljust(PAGE, b"\0") for page, held in one.pages.items()}, one.rest)


def case_of(one: Worked) -> DiskCase:
    return DiskCase(one.name, image_of(one), BOTH)


def fits(one: Worked) -> bool:
    """Whether the model says what was worked out."""
    image = image_of(one)
    for words, answer in ((SHOW, one.shown), (CHECK, one.checked or one.shown)):
        ran = disk_forms.run(words, image)
        if ran.text != answer.replace("; ", "\n").encode() + b"\n" or ran.status != status_of(answer):
            return False
    return True


def status_of(answer: str) -> int:
    """The exit status that goes with an answer."""
    return 6 if answer.startswith("store refused") else 9 if answer.startswith("damaged") else 0
