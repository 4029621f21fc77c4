"""Examples of the model of disks, whose bytes, pages and offsets were found by hand."""

import random
from hashlib import sha256

import build
import disk
import disk_forms
import disk_worked
import sha
import stored
from disk_worked import ABC, ABC_TUPLE, BODY, NONE, OPEN, header, in_half, in_log
from good_disks import CHECK, SHOW, add_frames, random_maker
from model import GREATEST_NUMBER, PAGE, Made


def same(found, wanted) -> None:
    if found != wanted:
        raise SystemExit(f"an example of a disk differs\nfound:  {found!r}\nwanted: {wanted!r}")


def image(pages: dict, count: int = 2053) -> disk.Image:
    return disk.Image(count, {page: held.ljust(PAGE, b"\0") for page, held in pages.items()})


def after(words: list, pages: dict) -> dict:
    """What a run leaves of a file of 2053 pages: each page that isn't zeros, without the zeros at
    its end."""
    left = disk_forms.run(words, image(pages)).image
    return {page: held.rstrip(b"\0") for page, held in left.pages.items()}


def trimmed(pages: dict) -> dict:
    return {page: held.rstrip(b"\0") for page, held in pages.items() if held.strip(b"\0")}


def hashes() -> None:
    same(sha.close(sha.START, 0, b"").hex(), NONE)
    same(sha.close(sha.START, 0, b"abc").hex(), ABC)
    for length in (1, 55, 56, 63, 64, 65, 119, 120, 4095, 4096, 4097, 12_288, 12_345):
        content = Made(length, 7).bytes()
        state = disk.state_of(content, (), None, 1)
        mark = state.marks[-1] if state.marks else sha.START
        rest = content[length // PAGE * PAGE :]
        same(sha.close(mark, length // PAGE, rest), sha256(content).digest())
    made = disk.state_of(Made(65_536, 0).bytes(), (), None, 1)
    same([mark.hex() for mark in made.marks], disk_worked.MADE)


def worked_disks() -> None:
    for one in disk_worked.WORKED:
        same((one.name, disk_worked.fits(one)), (one.name, True))


def layouts() -> None:
    same(disk.Layout(1, 1).total(), 2053)
    same(disk.Layout(16_384, 1024).total(), 16_780_291)
    layout = disk.Layout(2, 5)
    places = [layout.header(0), layout.header(1), layout.log(0), layout.log(1)]
    same(places + [layout.states(0), layout.states(1), layout.data()], [1, 2, 3, 515, 1027, 1032, 1037])


def files() -> None:
    """A file's bytes as pages, and what they are."""
    same(disk.Image.of(b"a" * PAGE + bytes(PAGE) + b"abc"), disk.Image(2, {0: b"a" * PAGE}, b"abc"))
    held = bytes(PAGE) + header(7).ljust(PAGE, b"\0") + bytes(2051 * PAGE)
    store = disk.read(disk.Image.of(held))
    same((store.layout, store.half, store.last, store.states), (disk.Layout(1, 1), 0, 7, {}))
    same(disk.read(disk.Image.of(held[:-1])).line, "too-small 2053 2052")
    same(disk.read(disk.Image.of(held + b"abc")).states, {})


def turns() -> None:
    """Opening writes the other half, and leaves all pages that it doesn't name."""
    empty = {1: header()}
    half_one = {0: b"HALFONE1", 2: header()}
    same(after(SHOW, empty), trimmed(empty | half_one))
    same(after(SHOW, empty | half_one), trimmed(empty | {2: header()}))
    framed = in_log(BODY) | {1029: b"abc"}
    told = {0: b"HALFONE1", 2: header(1, 1, 87), 1028: ABC_TUPLE}
    same(after(SHOW, framed), trimmed(framed | told))
    same(after(CHECK, framed), trimmed(framed | told))
    # Of the other half the header, the first gate and the pages of states that are needed change.
    older = {2: b"\xff" * PAGE, 515: OPEN, 516: b"old", 1028: b"\xff" * PAGE}
    same(after(SHOW, empty | older), trimmed(empty | half_one | {516: b"old", 1028: b"\xff" * PAGE}))
    same(after(SHOW, framed | older), trimmed(framed | told | {516: b"old"}))
    # Back in half 0: the old frame's body stays behind the gate that is closed.
    back = after(SHOW, framed | told)
    same(back, trimmed(framed | told | {0: b"", 1: header(1, 1, 87), 3: b"", 1027: ABC_TUPLE}))
    # A damaged store is turned too; a refused disk isn't.
    lost = in_half(ABC_TUPLE)
    same(after(CHECK, lost), trimmed(lost | told))
    same(after(CHECK, lost | {3: OPEN}), trimmed(lost | {3: OPEN}))


def formats() -> None:
    ran = disk_forms.run([b"format", b"s", b"1", b"1"], None)
    same((ran.text, ran.status), (b"formatted 2053\n", 0))
    same(ran.image, image({1: header()}))
    same(header().hex(), "424c4f4248414c46" + "00000001" * 3 + "0000000000000000" + "00000000" * 2)
    older = image(dict.fromkeys(range(9), b"\xff" * PAGE), 9)
    same(disk_forms.run([b"format", b"s", b"1", b"1"], older).image, ran.image)
    same(disk_forms.run(SHOW, None)[1:3], (11, b"cannot open s\n"))
    same(disk_forms.run([b"show"], None)[:2], (b"usage\n", 8))


def bodies() -> None:
    """The body of one entry, and where it is broken by one byte."""
    entries = stored.read_body(BODY, 1024, 0)
    state = stored.State(3, 1, bytes.fromhex(ABC), b"abc".ljust(32, b"\0"), (), (), 0)
    same(entries, [stored.Entry(1, 0, 1, [(b"demo/a", state)])])
    same(build.spell(build.body_form([build.entry_form(1, 0, 1, [(b"demo/a", state)])])), BODY)
    same(stored.spell_tuple(b"demo/a", state), ABC_TUPLE)
    places = [(12, 0, 12), (12, 17, 12), (20, 2, 13), (21, 16, 21), (29, 0, 22), (30, 17, 30), (31, 0, 31)]
    places += [(31, 3, 31), (32, 65, 32), (33, 0x41, 33), (37, 0x61, 39), (39, 0xFF, 39), (50, 0, 43), (50, 2, 43)]
    places += [(86, 1, 83), (117, 4, 115), (30, 0, 31), (30, 2, 119), (12, 2, 119), (42, 2, 83), (42, 0, 83)]
    for at, value, offset in places:
        same((at, value, offset_of(BODY[:at] + bytes([value]) + BODY[at + 1 :])), (at, value, offset))
    for length, offset in ((13, 13), (22, 22), (38, 33), (39, 39), (82, 51), (118, 115)):
        same((length, offset_of(BODY[:length])), (length, offset))
    same(offset_of(BODY + b"\0"), 119)


def offset_of(body: bytes):
    """Where a body is broken, with 1024 data pages and as the first after number 0."""
    try:
        stored.read_body(body, 1024, 0)
    except stored.Broken as broken:
        return broken.at
    return None


def keys() -> None:
    for text, place in (
        (b"demo/a", None), (b"demo", 4), (b"demo/", 5), (b"Demo/a", 0), (b"abcdefghijklmnopq/a", 16), (b"", 0),
        (b"/a", 0), (b"a/b/", 3), (b"a/" + b"b" * 48, 49), (b"abcdefghijklmnop/" + b"b" * 47, None), (b"a/B", 2),
    ):
        same((text, stored.bad_place(text)), (text, place))


def good_disks() -> None:
    """A random good disk reads as what it was made of."""
    for seed in range(20):
        maker = random_maker(random.Random(seed))
        add_frames(maker, seed % 3)
        store = disk.read(build.image_of(maker.forms))
        if maker.last <= GREATEST_NUMBER:
            same((store.states, store.last), (maker.states, maker.last))


def check_all() -> None:
    for check in (hashes, worked_disks, layouts, files, turns, formats, bodies, keys, good_disks):
        check()
