"""A plain model of a store's file: what opening it finds, and what it writes.

`read` gives the store that a file's bytes are, or the first refusal. `turned` gives the file after
opening, which writes all that it found into the other half. Pages are numbered from the file's
first one, gates from the first page of their half's log area, heads and tails from the first page
of the data area.
"""

from hashlib import sha256
from typing import NamedTuple, Optional

import sha
from model import GREATEST_NUMBER, PAGE, UNIT, extents_of, tier
from stored import BODY, BODY_HEAD, PREFIX, Broken, Fields, State, read_body, read_tuple, spell_tuple

ZEROS = bytes(PAGE)
HALF_ONE = b"HALFONE1"
HEADER = b"BLOBHALF"
GATE = b"GATEOPEN"
LOG_PAGES = 512
LEAST_PAGES = 2053  # of the smallest store
OPEN_GATE = GATE.ljust(PAGE, b"\0")


# The file -----------------------------------------------------------------------------------


class Image:
    """A file: its whole pages, of which those that aren't kept are zeros, and the bytes behind
    the last whole page, which are no page and never touched."""

    def __init__(self, count: int, pages: dict, rest: bytes = b""):
        self.count = count
        self.pages = {page: held for page, held in pages.items() if held != ZEROS}
        self.rest = rest

    @staticmethod
    def of(held: bytes) -> "Image":
        """The file of these bytes."""
        count = len(held) // PAGE
        pages = {page: held[PAGE * page : PAGE * (page + 1)] for page in range(count)}
        return Image(count, pages, held[PAGE * count :])

    def page(self, page: int) -> bytes:
        return self.pages.get(page, ZEROS)

    def bytes(self, first: int, length: int) -> bytes:
        """So many bytes from the beginning of a page on."""
        return b"".join(self.page(first + i) for i in range(pages_of(length)))[:length]

    def having(self, pages: dict) -> "Image":
        """The file with other bytes on these pages."""
        return Image(self.count, self.pages | pages, self.rest)

    def __eq__(self, other) -> bool:
        return (self.count, self.pages, self.rest) == (other.count, other.pages, other.rest)


def pages_of(length: int) -> int:
    """How many pages so many bytes take."""
    return -(-length // PAGE)


def split(held: bytes) -> list:
    """The pages that some bytes fill, zeros behind the last byte."""
    return [held[at : at + PAGE].ljust(PAGE, b"\0") for at in range(0, len(held), PAGE)]


class Layout(NamedTuple):
    """Where the parts of a store begin."""

    units: int
    room: int

    def total(self) -> int:
        return self.data() + self.data_pages()

    def data_pages(self) -> int:
        return UNIT * self.units

    def header(self, half: int) -> int:
        return 1 + half

    def log(self, half: int) -> int:
        return 3 + LOG_PAGES * half

    def states(self, half: int) -> int:
        return 3 + 2 * LOG_PAGES + self.room * half

    def data(self) -> int:
        return 3 + 2 * LOG_PAGES + 2 * self.room


# Refusals and stores ------------------------------------------------------------------------


class Refusal(NamedTuple):
    """Why a file is no store."""

    line: str  # as the closing line has it
    rule: str  # the rule that is broken


class Refused(Exception):
    def __init__(self, line: str, rule: str):
        super().__init__(line)
        self.refusal = Refusal(line, rule)


class Store:
    """What opening finds."""

    def __init__(self, layout: Layout, half: int, last: int, states: dict):
        self.layout = layout
        self.half = half  # the one that was read
        self.last = last  # the last number
        self.states = states  # from key to State
        self.frames = 0  # how many were read
        self.kept = 0  # entries of the last frame
        self.dropped = 0

    def length(self) -> int:
        """The length of all tuples."""
        return sum(len(spell_tuple(key, state)) for key, state in self.states.items())


def read(image: Image):
    """The store that a file is, or its refusal."""
    try:
        return find(image)
    except Refused as refused:
        return refused.refusal


def find(image: Image) -> Store:
    refuse_small(LEAST_PAGES, image, "no store is that small")
    half = 1 if image.page(0).startswith(HALF_ONE) else 0
    store = read_half(image, half)
    read_log(image, store)
    refuse_owned_twice(store)
    return store


def refuse_small(need: int, image: Image, rule: str) -> None:
    if image.count < need:
        raise Refused(f"too-small {need} {image.count}", f"too-small: {rule}")


# A half -------------------------------------------------------------------------------------


def read_half(image: Image, half: int) -> Store:
    """The store that a half tells by itself."""
    header = Fields(image.page(1 + half))
    try:
        if header.take("text", 8) != HEADER:
            raise Broken("text", 0)
        header.number("version", 4, 1, 1)
        layout = Layout(header.number("units", 4, 1, 16_384), header.number("room", 4, 1, 1024))
        refuse_small(layout.total(), image, "the layout is larger")
        last = header.number("last number", 8, 0, GREATEST_NUMBER)
        count = header.number("count", 4, 0, 2**32)
        length = header.number("length", 4, 0, PAGE * layout.room)
    except Broken as broken:
        raise Refused(f"bad-half {half} {broken.at}", f"bad-half: {broken.at} {broken.rule}")
    tuples = Fields(image.bytes(layout.states(half), length))
    store = Store(layout, half, last, read_tuples(tuples, count, half, last, layout.data_pages()))
    if tuples.at < length:
        raise Refused(f"bad-half {half} 28", "bad-half: 28 fewer tuples than bytes")
    return store


def read_tuples(tuples: Fields, count: int, half: int, last: int, data_pages: int) -> dict:
    """So many tuples, up to the first bad one."""
    states = {}
    key = b""
    for _ in range(count):
        judge_key = lambda new, before=key: None if new > before else "key doesn't rise"
        judge_born = lambda born: None if born <= last else "born above the last number"
        try:
            key, state = read_tuple(tuples, data_pages, judge_key, judge_born)
        except Broken as broken:
            raise Refused(f"bad-tuple {half} {broken.at}", f"bad-tuple: {broken.rule}")
        states[key] = state
    return states


# The log ------------------------------------------------------------------------------------


def is_open(image: Image, page: int) -> bool:
    return image.page(page).startswith(GATE)


def read_log(image: Image, store: Store) -> None:
    """Changes a half's store by the frames behind its open gates, in their order."""
    gate = 0
    log = store.layout.log(store.half)
    while is_open(image, log + gate):
        try:
            gate = read_frame(image, store, gate)
        except Broken as broken:
            line = f"bad-frame {store.half} {gate}"
            raise Refused(line, f"bad-frame: {broken.rule}")


def read_frame(image: Image, store: Store, gate: int) -> int:
    """Changes the store by the frame behind this gate. The next gate."""
    log = store.layout.log(store.half)
    body = body_behind(image, log, gate)
    following = gate + 1 + pages_of(len(body))
    entries = read_body(body, store.layout.data_pages(), store.last)
    is_last = not is_open(image, log + following)
    kept = [entry for entry in entries if not is_last or entry_verifies(image, store.layout, entry)]
    for entry in kept:
        apply(store.states, entry)
    store.last = entries[-1].number
    store.frames += 1
    store.kept, store.dropped = len(kept), len(entries) - len(kept)
    if store.length() > PAGE * store.layout.room:
        raise Broken("no room for the states", 0)
    return following


def body_behind(image: Image, log: int, gate: int) -> bytes:
    """The body behind an open gate. It and the next gate end within the log area."""
    if gate + 1 == LOG_PAGES:
        raise Broken("no page behind the gate", 0)
    head = Fields(image.page(log + gate + 1))
    if head.take("text", 8) != BODY:
        raise Broken("text", 0)
    length = head.number("length", 4, BODY_HEAD + 1, 2**32)
    if gate + pages_of(length) + 1 > LOG_PAGES - 1:
        raise Broken("length past the log area", 8)
    return image.bytes(log + gate + 1, length)


def apply(states: dict, entry) -> None:
    """Makes an entry's changes. What isn't there can be deleted."""
    for key, state in entry.writes:
        states.pop(key, None)
        if state is not None:
            states[key] = state


def refuse_owned_twice(store: Store) -> None:
    """The least page of two blocks, which is the first head before the end of a block that begins
    no later."""
    blocks = [(head, of_tier, key) for key, state in store.states.items() for head, of_tier in state.owned()]
    end, owner = 0, None
    for head, of_tier, key in sorted(blocks):
        if head < end:
            raise Refused(f"owned-twice {head}", f"owned-twice: by {'one' if key == owner else 'two'}")
        end, owner = head + 2**of_tier, key


# A content and its state --------------------------------------------------------------------


def state_of(content: bytes, heads: tuple, tail: Optional[int], born: int) -> State:
    """The state of a content at these places."""
    mark = sha.START
    marks = []
    at = 0
    for used in pages_used(len(content)):
        for _ in range(used):
            mark = sha.after_page(mark, content[at : at + PAGE])
            at += PAGE
        marks.append(mark)
    prefix = content[:PREFIX].ljust(PREFIX, b"\0")
    return State(len(content), born, sha256(content).digest(), prefix, heads, tuple(marks), tail)


def places(state: State) -> list:
    """The data pages that hold a content, in the order of its bytes."""
    extents = zip(state.heads, pages_used(state.size))
    pages = [head + j for head, used in extents for j in range(used)]
    return pages + ([] if state.tail is None else [state.tail])


def pages_held(state: State, content: bytes) -> dict:
    """The data pages that a content is written to."""
    return dict(zip(places(state), split(content)))


# The links of a content ---------------------------------------------------------------------


class Link(NamedTuple):
    """A link that fails: its number, what is kept for it and what its pages give."""

    number: int
    want: bytes
    got: bytes
    is_digest: bool = False


def pages_used(size: int) -> list:
    """How many pages of each extent a content of this size uses."""
    left = size // PAGE
    used = []
    for i in range(extents_of(size)):
        used.append(min(left, 2 ** tier(i)))
        left -= used[-1]
    return used


def failing_link(image: Image, layout: Layout, state: State) -> Optional[Link]:
    """The first link whose pages don't lead from the mark before it to the one kept, or to the
    digest; None where the state verifies. The first one begins at the hash's initial state."""
    mark = sha.START
    for i, used in enumerate(pages_used(state.size)):
        for j in range(used):
            mark = sha.after_page(mark, image.page(layout.data() + state.heads[i] + j))
        if mark != state.marks[i]:
            return Link(i, state.marks[i], mark)
    rest = b"" if state.tail is None else image.page(layout.data() + state.tail)[: state.size % PAGE]
    digest = sha.close(mark, state.size // PAGE, rest)
    return None if digest == state.digest else Link(len(state.heads), state.digest, digest, True)


def entry_verifies(image: Image, layout: Layout, entry) -> bool:
    """Whether all states that an entry sets verify."""
    states = [state for _, state in entry.writes if state is not None]
    return all(failing_link(image, layout, state) is None for state in states)


# The turn -----------------------------------------------------------------------------------


def spell_header(layout: Layout, last: int, count: int, length: int) -> bytes:
    """A header's page."""
    fields = [(1, 4), (layout.units, 4), (layout.room, 4), (last, 8), (count, 4), (length, 4)]
    return (HEADER + b"".join(number.to_bytes(size, "big") for number, size in fields)).ljust(PAGE, b"\0")


def turned(image: Image, store: Store) -> Image:
    """The file after a store that was found in it was written into the other half."""
    layout, half = store.layout, 1 - store.half
    tuples = b"".join(spell_tuple(key, store.states[key]) for key in sorted(store.states))
    pages = {layout.states(half) + i: page for i, page in enumerate(split(tuples))}
    pages[layout.header(half)] = spell_header(layout, store.last, len(store.states), len(tuples))
    pages[layout.log(half)] = ZEROS
    pages[0] = HALF_ONE.ljust(PAGE, b"\0") if half else ZEROS
    return image.having(pages)


def formatted(layout: Layout) -> Image:
    """A new file of a store without states. The selector and the first gate are zeros."""
    return Image(layout.total(), {layout.header(0): spell_header(layout, 0, 0, 0)})
