"""Good disks, made at random: states in a half, frames in its log, and contents on data pages.

A disk is kept as forms, field by field, until `image_of` spells it. So a hostile hand can change
any of them before.
"""

from typing import Optional

import disk
import parts
from disk import pages_held, state_of
from model import PAGE, Made, Space, extents_of, tier
from stored import State


class Field:
    """One field of a form. Its name tells what may stand there; `width` is that of its extent."""

    def __init__(self, name: str, held: bytes, width: int = 1):
        self.name = name
        self.held = held
        self.width = width

    def copy(self) -> "Field":
        return Field(self.name, self.held, self.width)


def number(name: str, value: int, length: int, width: int = 1) -> Field:
    return Field(name, value.to_bytes(length, "big"), width)


def flat(tree) -> list:
    """The fields of a form, which is a field or a list of forms."""
    return [tree] if isinstance(tree, Field) else [field for one in tree for field in flat(one)]


def copy(tree):
    return tree.copy() if isinstance(tree, Field) else [copy(one) for one in tree]


def spell(tree) -> bytes:
    return b"".join(field.held for field in flat(tree))


# Forms --------------------------------------------------------------------------------------


def tuple_form(key: bytes, state: State) -> list:
    fields = [number("key length", len(key), 1), Field("key", key), number("size", state.size, 4)]
    fields += [number("born", state.born, 8), Field("digest", state.digest), Field("prefix", state.prefix)]
    for i, (head, mark) in enumerate(zip(state.heads, state.marks)):
        fields += [number("head", head, 4, 2 ** tier(i)), Field("mark", mark)]
    return fields + ([] if state.tail is None else [number("tail", state.tail, 4)])


def write_form(key: bytes, state: Optional[State]) -> list:
    if state is None:
        return [number("kind of a write", 2, 1), number("key length", len(key), 1), Field("key", key)]
    return [number("kind of a write", 1, 1)] + tuple_form(key, state)


def entry_form(entry_number: int, session: int, nth: int, writes: list) -> list:
    """An entry of these writes, each a key and a state or None, in the order of their keys."""
    head = [number("number", entry_number, 8), number("session", session, 1), number("nth", nth, 8)]
    head.append(number("count of writes", len(writes), 1))
    return head + [write_form(key, state) for key, state in sorted(writes, key=lambda write: write[0])]


def body_form(entries: list) -> list:
    """A body of these entries."""
    return fitted([Field("text", b"BLOBFRM1"), number("length", 0, 4), number("count of entries", 0, 1)] + entries)


def header_form(layout: disk.Layout, last: int, tuples: list) -> list:
    fields = [Field("text", b"BLOBHALF"), number("version", 1, 4), number("units", layout.units, 4)]
    fields += [number("room", layout.room, 4), number("last number", last, 8)]
    return fields + [number("count", len(tuples), 4), number("length", len(spell(tuples)), 4)]


def named(form: list, name: str) -> Optional[Field]:
    """The first field of this name in a form itself, or None where a hostile hand took it away."""
    return next((one for one in form if isinstance(one, Field) and one.name == name), None)


def fitted(body: list) -> list:
    """A body whose counts and length are those of what it has."""
    counted = [(named(body, "count of entries"), body)]
    counted += [(named(entry, "count of writes"), entry) for entry in body if isinstance(entry, list)]
    for field, form in counted:
        if field is not None:
            lists = sum(isinstance(one, list) for one in form)
            field.held = (lists % 256).to_bytes(1, "big")
    if named(body, "length") is not None:
        named(body, "length").held = len(spell(body)).to_bytes(4, "big")
    return body


class Forms:
    """A disk before it is spelled."""

    def __init__(self, layout: disk.Layout, half: int, last: int):
        self.layout = layout
        self.half = half
        self.selector = b"HALFONE1" if half else b""
        self.tuples = []
        self.header = header_form(layout, last, [])
        self.bodies = []
        self.gate = disk.OPEN_GATE  # an open one as it is spelled
        self.last_gate = disk.ZEROS  # behind the last body
        self.data = {}  # from data page to its bytes
        self.under = {}  # from page to what stands where nothing else is written
        self.behind = b""  # what stands behind the last byte of a body, a half or a header
        self.count = layout.total()  # pages of the file
        self.rest = b""  # behind the last page

    def fit(self) -> None:
        """Lets the header tell how many tuples there are and how long they are."""
        for name, value in (("count", len(self.tuples)), ("length", len(spell(self.tuples)))):
            if named(self.header, name) is not None:
                named(self.header, name).held = value.to_bytes(4, "big")


def image_of(forms: Forms) -> disk.Image:
    """The file of these forms. What is past its parts' ends is left out."""
    layout, half = forms.layout, forms.half
    pages = dict(forms.under)
    pages[0] = forms.selector.ljust(PAGE, b"\0")
    pages |= numbered(layout.header(half), spell(forms.header), forms.behind)
    pages |= numbered(layout.states(half), spell(forms.tuples), forms.behind, layout.room)
    pages |= log_pages(forms)
    pages |= {layout.data() + page: held for page, held in forms.data.items()}
    return disk.Image(forms.count, {page: held for page, held in pages.items() if page < forms.count}, forms.rest)


def numbered(first: int, held: bytes, behind: bytes, most: int = disk.LOG_PAGES) -> dict:
    """Pages from the first one on that have these bytes, with others behind them on the last."""
    held += behind[: -len(held) % PAGE]
    return {first + i: page for i, page in enumerate(disk.split(held)[:most])}


def log_pages(forms: Forms) -> dict:
    """The pages of the log: an open gate before each body, and the last gate."""
    log = forms.layout.log(forms.half)
    pages = {}
    gate = 0
    for body in forms.bodies:
        pages |= {log + gate: forms.gate} | numbered(log + gate + 1, spell(body), forms.behind)
        gate += 1 + disk.pages_of(len(spell(body)))
    pages[log + gate] = forms.last_gate
    return {page: held for page, held in pages.items() if page < log + disk.LOG_PAGES}


# Contents and their states ------------------------------------------------------------------


def content(r, most_pages: int) -> bytes:
    """A content of a random kind: made ones and ones of equal pages are of few kinds, so that the
    slow hash of the model meets the same pages again."""
    kind = r.random()
    if kind < 0.35:
        return r.randbytes(r.choice([0, 1, 2, 3, 31, 32, 33, 55, 56, 63, 64, 65, r.randint(0, 200)]))
    size = parts.border_size(r, most_pages)
    if kind < 0.5:
        return bytes(size)
    if kind < 0.75:
        page = bytes([r.choice([0x61, 0xFF])]) * PAGE
        return (page * (size // PAGE + 1))[:size]
    return Made(size, r.choice([0, 97])).bytes()


class Maker:
    """Makes a good disk: first the states of a half, then one frame after the other."""

    def __init__(self, r, layout: disk.Layout, half: int, last: int):
        self.r = r
        self.forms = Forms(layout, half, last)
        self.states = {}
        self.last = last
        self.pages = {}  # those that the last frame wrote
        self.loose = 0.2 if r.random() < 0.3 else 0  # how often a place isn't the least one
        self.begin_frame()

    def begin_frame(self) -> None:
        """What was replaced before is free from here on."""
        owned = [block for state in self.states.values() for block in state.owned()]
        self.space = Space(owned, self.forms.layout.data_pages())
        self.pages = {}

    def place(self, of_tier: int) -> int:
        """Mostly the least free place; now and then any one, or the last one."""
        width = 2**of_tier
        places = self.forms.layout.data_pages() // width
        head = self.r.choice([self.r.randrange(places), places - 1]) * width
        free = self.space.taken[head : head + width] == bytes(width)
        if self.r.random() < self.loose and free:
            self.space.taken[head : head + width] = b"\1" * width
            return head
        return self.space.take(of_tier)

    def put(self, key: bytes, content: bytes, born: int) -> State:
        """A state of this content, which is written to its pages."""
        heads = tuple(self.place(tier(i)) for i in range(extents_of(len(content))))
        tail = self.place(0) if len(content) % PAGE else None
        state = state_of(content, heads, tail, born)
        self.pages |= pages_held(state, content)
        self.states[key] = state
        return state

    def half(self, changes: list) -> None:
        """Puts these contents, each with its key, and tells them in the half."""
        for key, content in changes:
            self.put(key, content, self.r.choice([1, self.last, self.r.randint(1, self.last)]))
        self.forms.tuples = [tuple_form(key, self.states[key]) for key in sorted(self.states)]
        self.forms.fit()
        self.forms.data |= self.pages

    def frame(self, entries: list) -> None:
        """A frame of these entries, each a list of keys with contents, or with None for a delete."""
        self.begin_frame()
        spelled = []
        for changes in entries:
            self.last += 1
            writes = [(key, self.change(key, content)) for key, content in changes]
            nth = self.r.choice([1, self.r.randint(1, 1000), 2**64 - 1])
            spelled.append(entry_form(self.last, self.r.randrange(16), nth, writes))
        self.forms.bodies.append(body_form(spelled))
        self.forms.data |= self.pages

    def change(self, key: bytes, content: Optional[bytes]) -> Optional[State]:
        if content is None:
            self.states.pop(key, None)
            return None
        return self.put(key, content, self.last)

    def room_left(self) -> int:
        length = sum(len(spell(tuple_form(key, state))) for key, state in self.states.items())
        return PAGE * self.forms.layout.room - length
