"""A plain model of the stored forms, read field by field: keys, tuples, and the bodies of frames.

Each number has its high byte first. A form that breaks a rule is named by one offset: that of the
first field that breaks one, and a field that is cut short by its own first byte.
"""

import re
from typing import NamedTuple, Optional

from model import GREATEST_NUMBER, GREATEST_SIZE, PAGE, extents_of, tier

PREFIX = 32  # bytes of a content that its state repeats
BODY = b"BLOBFRM1"
BODY_HEAD = 12  # bytes of a body's text and length
ENTRIES = 16  # most of a body
WRITES = 16  # most of an entry
SET, DELETE = 1, 2


class Broken(Exception):
    """A form breaks a rule, and is named by the offset `at`."""

    def __init__(self, rule: str, at: int):
        super().__init__(rule, at)
        self.rule = rule
        self.at = at


class Fields:
    """Some bytes, of which one field after the other is taken."""

    def __init__(self, held: bytes, at: int = 0):
        self.held = held
        self.at = at

    def take(self, name: str, length: int) -> bytes:
        if self.at + length > len(self.held):
            raise Broken(f"{name} cut short", self.at)
        self.at += length
        return self.held[self.at - length : self.at]

    def number(self, name: str, length: int, least: int, most: int) -> int:
        at = self.at
        found = int.from_bytes(self.take(name, length), "big")
        if found < least:
            raise Broken(f"{name} too small", at)
        if found > most:
            raise Broken(f"{name} too great", at)
        return found


# Keys and tuples ----------------------------------------------------------------------------


class State(NamedTuple):
    """What is kept of a content."""

    size: int
    born: int  # the number of the entry that wrote it
    digest: bytes
    prefix: bytes
    heads: tuple  # of its extents
    marks: tuple  # of its extents: the hash state at the end of the used pages of each
    tail: Optional[int]

    def owned(self) -> list:
        """The (head, tier) of every extent and of the tail page, which counts as tier 0."""
        extents = [(head, tier(i)) for i, head in enumerate(self.heads)]
        return extents + ([] if self.tail is None else [(self.tail, 0)])


def bad_place(text: bytes) -> Optional[int]:
    """Where a text stops being a key: the least n for which its first n + 1 bytes begin none, or
    its length where all of it begins one. None where it is a key."""
    for n in range(len(text)):
        if not re.fullmatch(rb"[a-z0-9._-]{1,16}(?:/[a-z0-9._-]{0,47})?", text[: n + 1]):
            return n
    is_whole = re.fullmatch(rb"[a-z0-9._-]+/[a-z0-9._-]+", text)
    return None if is_whole else len(text)


def read_key(fields: Fields, judge) -> bytes:
    """A key with its length. `judge` tells which rule the key breaks among its neighbours, which
    is named by the length's byte."""
    start = fields.at
    length = fields.number("key length", 1, 3, 64)
    at = fields.at
    key = fields.take("key", length)
    place = bad_place(key)
    if place is not None:
        raise Broken("key malformed", at + place)
    rule = judge(key)
    if rule:
        raise Broken(rule, start)
    return key


def read_tuple(fields: Fields, data_pages: int, judge_key, judge_born) -> tuple:
    """A key and its state. `judge_born` tells which rule the field born breaks besides its own."""
    key = read_key(fields, judge_key)
    size = fields.number("size", 4, 0, GREATEST_SIZE)
    at = fields.at
    born = fields.number("born", 8, 1, GREATEST_NUMBER)
    rule = judge_born(born)
    if rule:
        raise Broken(rule, at)
    digest = fields.take("digest", 32)
    prefix = read_prefix(fields, size)
    extents = [read_extent(fields, tier(i), data_pages) for i in range(extents_of(size))]
    tail = fields.number("tail", 4, 0, data_pages - 1) if size % PAGE else None
    heads = tuple(head for head, _ in extents)
    marks = tuple(mark for _, mark in extents)
    return key, State(size, born, digest, prefix, heads, marks, tail)


def read_prefix(fields: Fields, size: int) -> bytes:
    at = fields.at
    prefix = fields.take("prefix", PREFIX)
    if any(prefix[size:]):
        raise Broken("prefix longer than the content", at)
    return prefix


def read_extent(fields: Fields, of_tier: int, data_pages: int) -> tuple:
    """The head and the mark of an extent."""
    width = 2**of_tier
    at = fields.at
    head = fields.number("head", 4, 0, max(0, data_pages - width))
    if head % width:
        raise Broken("head not aligned", at)
    return head, fields.take("mark", 32)


def spell_tuple(key: bytes, state: State) -> bytes:
    """The bytes of a key and its state."""
    spelled = bytes([len(key)]) + key + state.size.to_bytes(4, "big") + state.born.to_bytes(8, "big")
    spelled += state.digest + state.prefix
    for head, mark in zip(state.heads, state.marks):
        spelled += head.to_bytes(4, "big") + mark
    return spelled + (b"" if state.tail is None else state.tail.to_bytes(4, "big"))


# The body of a frame ------------------------------------------------------------------------


class Entry(NamedTuple):
    """What one committed transaction wrote."""

    number: int
    session: int
    nth: int
    writes: list  # of (key, State), the state None where the key was deleted


def spell_body(entries: list) -> bytes:
    """The bytes of a body of these entries."""
    held = b"".join(spell_entry(entry) for entry in entries)
    length = BODY_HEAD + 1 + len(held)
    return BODY + length.to_bytes(4, "big") + bytes([len(entries)]) + held


def spell_entry(entry: Entry) -> bytes:
    head = entry.number.to_bytes(8, "big") + bytes([entry.session]) + entry.nth.to_bytes(8, "big")
    return head + bytes([len(entry.writes)]) + b"".join(spell_write(*write) for write in entry.writes)


def spell_write(key: bytes, state: Optional[State]) -> bytes:
    if state is None:
        return bytes([DELETE, len(key)]) + key
    return bytes([SET]) + spell_tuple(key, state)


def read_body(body: bytes, data_pages: int, number: int) -> list:
    """The entries of a body whose text and length are right. `number` is that of the entry
    before them."""
    fields = Fields(body, BODY_HEAD)
    count = fields.number("count of entries", 1, 1, ENTRIES)
    keys = set()
    entries = []
    for _ in range(count):
        number += 1
        entries.append(read_entry(fields, data_pages, number, keys))
        keys |= {key for key, _ in entries[-1].writes}
    if fields.at < len(body):
        raise Broken("bytes past the last entry", fields.at)
    return entries


def read_entry(fields: Fields, data_pages: int, number: int, earlier: set) -> Entry:
    """An entry, which must have this number. `earlier` has the keys of the entries before."""
    at = fields.at
    found = fields.number("number", 8, 1, GREATEST_NUMBER)
    if found != number:
        raise Broken("number not the next", at)
    session = fields.number("session", 1, 0, 15)
    nth = fields.number("nth", 8, 1, 2**64)
    count = fields.number("count of writes", 1, 0, WRITES)
    writes = []
    for _ in range(count):
        last_key = writes[-1][0] if writes else b""
        writes.append(read_write(fields, data_pages, number, judge_in_frame(last_key, earlier)))
    return Entry(number, session, nth, writes)


def judge_in_frame(last_key: bytes, earlier: set):
    """Which rule a key breaks in a frame: it rises within its entry, and stands in one alone."""

    def judge(key: bytes) -> Optional[str]:
        if key <= last_key:
            return "key doesn't rise"
        return "key in two entries" if key in earlier else None

    return judge


def read_write(fields: Fields, data_pages: int, number: int, judge_key) -> tuple:
    kind = fields.number("kind of a write", 1, SET, DELETE)
    if kind == DELETE:
        return read_key(fields, judge_key), None
    return read_tuple(
        fields, data_pages, judge_key, lambda born: None if born == number else "born not the entry's number"
    )
