"""A plain model of a store that lasts: what one run of the program does with its file.

`run` says what the program writes on standard output and standard error, its exit status, every
call by which it changes or syncs its file, in their order, and the file afterwards. Lines,
transactions and the judgement of a group are those of model.py; what opening finds is in disk.py.
Reads of the file aren't told.
"""

from typing import NamedTuple, Optional

import disk
import disk_forms
import model
from model import LASTING, LIST_OF_FORMS, PAGE, Built, Ended, Said, play, read_form, text_of
from stored import Entry, spell_body, spell_tuple

# The device calls ---------------------------------------------------------------------------


class Write(NamedTuple):
    page: int
    held: bytes


SYNC = None  # what was written before is on the disk from here on
FAULT = (5, "disk fault")


class Device(disk.Image):
    """A file while a run works on it: its pages as they read, and the calls so far. `fails` is the
    number of a call that fails, counted from 1; it changes nothing, and the run ends there."""

    def __init__(self, image: disk.Image, fails: Optional[int] = None):
        super().__init__(image.count, image.pages, image.rest)
        self.calls = []
        self.fails = fails

    def call(self, one: Optional[Write]) -> None:
        self.calls.append(one)
        if len(self.calls) == self.fails:
            raise Ended(FAULT, "disk fault")

    def write(self, page: int, held: bytes) -> None:
        """Writes a page that has these bytes and zeros behind them."""
        held = held.ljust(PAGE, b"\0")
        self.call(Write(page, held))
        self.pages[page] = held

    def write_all(self, first: int, held: bytes) -> int:
        """Writes the pages that some bytes fill, one behind the other. How many there are."""
        pages = disk.split(held)
        for i, page in enumerate(pages):
            self.write(first + i, page)
        return len(pages)

    def sync(self) -> None:
        self.call(SYNC)

    def image(self) -> disk.Image:
        return disk.Image(self.count, self.pages, self.rest)


def format_file(device: Device, layout: disk.Layout) -> None:
    """Writes the first half's header and its closed first gate, then the selector."""
    device.write(layout.header(0), disk.spell_header(layout, 0, 0, 0))
    device.write(layout.log(0), b"")
    device.sync()
    device.write(0, b"")
    device.sync()


# The store ----------------------------------------------------------------------------------


class Turn(NamedTuple):
    """Halves were turned, as opening or a line wanted."""

    length: int  # of all states


class Lead(NamedTuple):
    """A group was led that has a committing member."""

    length: int  # of all states before
    entries: list  # of its committing members, as the frame spells them
    gate: int  # where the next frame's gate stood before
    begins: int  # how many calls were made before


class Store(model.Store):
    """The committed objects, each as its state. Their contents are in the file."""

    def __init__(self, device: Device, found: disk.Store):
        super().__init__(*found.layout)
        self.device = device
        self.layout = found.layout
        self.blobs = dict(found.states)
        self.last = found.last
        self.half = found.half
        self.gate = 0  # the page of the log area where the next frame's gate stands
        self.happened = []  # turns and leads

    def number(self, key: bytes) -> Optional[int]:
        return self.blobs[key].born if key in self.blobs else None

    def content(self, key: bytes) -> bytes:
        """The content as the file has it. Where a link of it fails, the run ends."""
        state = self.blobs[key]
        link = disk.failing_link(self.device, self.layout, state)
        if link is not None:
            raise Ended((9, disk_forms.damaged(key, link)), "get")
        pages = disk.places(state)
        return b"".join(self.device.page(self.layout.data() + page) for page in pages)[: state.size]

    def size_and_digest(self, key: bytes) -> tuple:
        return self.blobs[key].size, self.blobs[key].digest.hex()

    def turn(self) -> None:
        """Turns halves because opening or a line wants it."""
        self.happened.append(Turn(self.states_length()))
        self.turn_halves()

    def turn_halves(self) -> None:
        """Writes all states into the other half, which is picked from then on. Its log is empty."""
        half = 1 - self.half
        tuples = b"".join(spell_tuple(key, self.blobs[key]) for key in sorted(self.blobs))
        header = disk.spell_header(self.layout, self.last, len(self.blobs), len(tuples))
        self.device.write_all(self.layout.states(half), tuples)
        self.device.write(self.layout.header(half), header)
        self.device.write(self.layout.log(half), b"")
        self.device.sync()
        self.device.write(0, disk.HALF_ONE if half else b"")
        self.device.sync()
        self.half, self.gate = half, 0

    def commit(self, group: model.Group) -> None:
        """Writes the frame of a group's committing members, then their contents, then opens the
        gate in front of the frame. Nothing is written where no member commits."""
        if not group.entries:
            return
        entries = [entry_of(entry) for entry in group.entries]
        self.happened.append(Lead(self.states_length(), entries, self.gate, len(self.device.calls)))
        gate = self.lay(spell_body(entries))
        self.device.sync()
        for entry in group.entries:
            self.pour_all(entry)
        self.device.write(gate, disk.GATE)
        self.device.sync()
        for entry in entries:
            disk.apply(self.blobs, entry)
        self.last = group.last

    def lay(self, body: bytes) -> int:
        """Writes a body and the closed gate behind it. Where the log has no room for both, halves
        are turned before. The page of the gate in front of the body."""
        if self.gate + disk.pages_of(len(body)) + 1 > disk.LOG_PAGES - 1:
            self.turn_halves()
        gate = self.layout.log(self.half) + self.gate
        count = self.device.write_all(gate + 1, body)
        self.device.write(gate + 1 + count, b"")
        self.gate += 1 + count
        return gate

    def pour_all(self, entry: model.Entry) -> None:
        """Writes an entry's contents in the order of their keys, each page once."""
        for blob in entry.changes.values():
            if blob is not None:
                for page, held in zip(blob.pages(), disk.split(blob.content)):
                    self.device.write(self.layout.data() + page, held)


def entry_of(entry: model.Entry) -> Entry:
    """An entry as a frame spells it, with the states of its contents."""
    writes = []
    for key, blob in entry.changes.items():
        state = blob and disk.state_of(blob.content, blob.heads, blob.tail, entry.number)
        writes.append((key, state))
    return Entry(entry.number, entry.session, entry.nth, writes)


# The whole run ------------------------------------------------------------------------------


class Ran(NamedTuple):
    """What one run leaves behind."""

    text: bytes  # standard output
    status: int  # exit status
    errors: Optional[bytes]  # standard error, or None where nothing is said of it
    image: Optional[disk.Image]  # the file, or None where there is none
    calls: list = []  # those that write or sync the file, in their order
    found: object = None  # the store or the refusal that opening found, or None where nothing was opened
    links: tuple = ()  # the failing links that `check` told
    said: list = []  # what came of each line of the script, and of the run's end
    happened: list = []  # turns and leads


def run(
    words: list,
    script: bytes,
    image: Optional[disk.Image],
    opens: bool = True,
    built: Built = LASTING,
    fails: Optional[int] = None,
) -> Ran:
    """One run over a file. `opens`: the system lets the file be opened, or be made. `fails`: the
    number of the device call that fails."""
    form = read_form(words, built)
    if form is None:
        return Ran(b"usage\n", 8, LIST_OF_FORMS, image, said=[Said("faulty words", ("usage",))])
    makes = form["form"] in ("format", "fresh")
    if not opens or (image is None and not makes):
        errors = b"cannot open " + form["FILE"] + b"\n"
        return Ran(b"", 11, errors, image, said=[Said("no file", ())])
    layout = disk.Layout(form["UNITS"], form["ROOM"]) if makes else None
    device = Device(disk.Image(layout.total(), {}) if makes else image, fails)
    try:
        return run_over(device, form["form"], layout, script, built)
    except Ended as end:
        said = [Said(end.cause, (end.closing,))]
        return Ran(text_of(said), end.status, None, device.image(), device.calls, said=said)


def run_over(device: Device, form: str, layout: Optional[disk.Layout], script: bytes, built: Built) -> Ran:
    """One run of a form, which has a layout where it makes its file."""
    if layout is not None:
        format_file(device, layout)
    if form == "format":
        return Ran(f"formatted {device.count}\n".encode(), 0, None, device.image(), device.calls)
    device.sync()
    found = disk.read(device)
    if isinstance(found, disk.Refusal):
        said = [Said("opening", (f"store refused: {found.line}",))]
        return Ran(text_of(said), 6, None, device.image(), device.calls, found, said=said)
    store = Store(device, found)
    store.turn()
    if form in ("show", "check"):
        text, status, links = disk_forms.report(form, device, found)
        said = []
    else:
        said, status = play(store, script, built)
        text, links = text_of(said), ()
    return Ran(text, status, None, device.image(), device.calls, found, links, said, store.happened)
