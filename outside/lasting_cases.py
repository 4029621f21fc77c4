"""Random cases of a store that lasts: several runs over one file, all from one seed.

`make(seed)` gives the same case for the same seed. Between two runs another hand may write to the
file: what a crash would have left, or damage. New kinds of cases go into KINDS.
"""

import random
from typing import NamedTuple, Optional

import crash
import disk
import disk_cases
import good_disks
import lasting
import odd
import parts
import scripts
from model import GREATEST_NUMBER, PAGE, split_lines
from talk import Talk

FILE = b"s"
STEPS = [b"steps", FILE]
SHOW = [b"show", FILE]
CHECK = [b"check", FILE]


class Run(NamedTuple):
    words: list  # of bytes
    script: bytes = b""
    piped: bool = True  # the script comes through a pipe, else from a file
    hand: dict = {}  # pages that another hand writes to the file before, with their bytes
    opens: bool = True  # whether the system lets the file be opened, or be made


class Case(NamedTuple):
    kind: str
    image: Optional[disk.Image]  # the file `s` before the first run, or None for none
    runs: list


def outcomes(case: Case, of_lasting=lasting) -> list:
    """What the model says of each run of a case."""
    image = case.image
    found = []
    for run in case.runs:
        image = image if image is None or not run.hand else image.having(run.hand)
        found.append(of_lasting.run(run.words, run.script, image, run.opens))
        image = found[-1].image
    return found


class Maker:
    """A case while it is made, one run after the other."""

    def __init__(self, r, image: Optional[disk.Image] = None):
        self.r = r
        self.case = Case("", image, [])
        self.image = image
        self.hand = {}
        self.before = None  # the file before the last run
        self.ran = None  # what came of it

    def run(self, words: list, lines=(), opens: bool = True) -> None:
        """One more run. Some lines are skipped ones, and the last one's end may be missing."""
        lines = parts.with_skipped(self.r, list(lines), self.r.choice([0, 0, 0.05, 0.3]))
        script = b"\n".join(lines) + (b"\n" if lines and self.r.random() < 0.8 else b"")
        self.case.runs.append(Run(words, script, self.r.random() < 0.5, self.hand, opens))
        self.before = self.image if self.image is None or not self.hand else self.image.having(self.hand)
        self.ran = lasting.run(words, script, self.before, opens)
        self.image = self.ran.image
        self.hand = {}

    def fresh(self, lines=(), units: int = 1, room: int = 1) -> None:
        self.run([b"fresh", FILE, b"%d" % units, b"%d" % room], lines)

    def look(self, how_often: float = 0.5) -> None:
        """Mostly shows or checks the store, now and then several times."""
        while self.r.random() < how_often:
            self.run(self.r.choice([SHOW, CHECK]))
            how_often /= 2

    def crash(self) -> None:
        """What a crash would have left, somewhere in the last run, is the file from here on."""
        created = self.ran.found is not None and self.case.runs[-1].words[0] == b"fresh"
        before = disk.Image(self.image.count, {}) if created else self.before
        moment = crash_moment(self.r, self.ran, created)
        picks = crash.random_picks(self.r, before, self.ran.calls, moment)
        self.write(crash.image_at(before, self.ran.calls, moment, picks))

    def write(self, image: disk.Image) -> None:
        """Another hand makes the file this one before the next run."""
        pages = self.image.pages.keys() | image.pages.keys()
        self.hand = {page: image.page(page) for page in pages if image.page(page) != self.image.page(page)}


def crash_moment(r, ran, created: bool) -> int:
    """Mostly within a lead, often just before its last sync; now and then anywhere once the store is
    open."""
    leads = [one for one in ran.happened if isinstance(one, lasting.Lead)]
    first = crash.last_moment_of_opening(ran.calls, created)
    if leads and r.random() < 0.9:
        lead = r.choice([leads[-1], r.choice(leads)])
        end = crash.end_of(ran.calls, lead)
        return end - 1 if r.random() < 0.5 else r.randint(lead.begins, end)
    return r.randint(first, len(ran.calls))


def every_crash() -> list:
    """Two leads and a checkpoint, stopped at each of their moments: a case for each choice of the pages
    that arrived, of those that were written since the last sync."""
    lines = [b"0 begin", b"1 begin", b"0 put demo/a x:61", b"1 put demo/b x:62", b"0 commit", b"1 commit", b"lead"]
    lines += [b"0 begin", b"0 del demo/a", b"0 put demo/c g:4097:0", b"0 commit", b"lead", b"checkpoint"]
    ran = lasting.run([b"fresh", FILE, b"1", b"1"], b"\n".join(lines), None)
    before = disk.Image(ran.image.count, {})
    cases = []
    for moment in range(crash.last_moment_of_opening(ran.calls, True), len(ran.calls) + 1):
        _, pending = crash.pages_at(before, ran.calls, moment)
        for chosen in range(2 ** len(pending)):
            picks = {page: held for at, (page, held) in enumerate(pending.items()) if chosen >> at & 1}
            image = crash.image_at(before, ran.calls, moment, picks)
            cases.append(Case(f"a crash at moment {moment}, choice {chosen}", image, [Run(SHOW), Run(CHECK)]))
    return cases


# Scripts over several runs --------------------------------------------------------------------


def cut(r, lines: list, count: int) -> list:
    """The lines in so many pieces."""
    places = sorted(r.randint(0, len(lines)) for _ in range(count - 1))
    return [lines[start:end] for start, end in zip([0, *places], [*places, len(lines)])]


def cut_up(r) -> Case:
    """A script of one run that is cut into several. Open transactions are dropped at its cuts."""
    kinds = [scripts.walk, scripts.borders, scripts.reuse, scripts.room, scripts.crowded_room]
    kinds += [scripts.conflicts, scripts.crowded_space] * 3 + [scripts.groups, scripts.many_keys] * 2
    return pieces_of(r, r.choice(kinds)(r))


def large_cut_up(r) -> Case:
    return pieces_of(r, r.choice([scripts.fill, scripts.fill, scripts.large])(r))


def pieces_of(r, one: parts.Case) -> Case:
    maker = Maker(r)
    units, room = map(int, one.words[2:])
    for at, lines in enumerate(cut(r, split_lines(one.script), r.choice([1, 1, 2, 2, 3]))):
        lines = parts.with_checkpoints(r, lines, r.choice([0, 0, 0.02, 0.1]))
        maker.run(STEPS, lines) if at else maker.fresh(lines, units, room)
        maker.look(0.3)
    maker.look(0.8)
    return maker.case


def visit(r, keys: list, steps: int = 30, most_pages: int = 5) -> list:
    """The lines of one run over these keys, mostly with reads first."""
    talk = Talk(r)
    if r.random() < 0.6:
        talk.read_back(keys)
    talk.wander(steps, r.sample(range(16), r.choice([1, 2, 3, 6])), keys, most_pages)
    if r.random() < 0.5:
        talk.drain()
        talk.read_back(keys)
    return parts.with_checkpoints(r, talk.lines, r.choice([0, 0.02, 0.1]))


def visits(r) -> Case:
    """Runs over the same keys, each with sessions of its own."""
    maker = Maker(r)
    keys = parts.some_keys(r, r.choice([2, 3, 6, 12]))
    if r.random() < 0.3:
        maker.run([b"format", FILE, b"1", b"1"])
    else:
        maker.fresh(visit(r, keys), r.choice([1, 1, 2]), r.choice([1, 1, 2]))
    for _ in range(r.choice([1, 2, 3, 5])):
        maker.look(0.2)
        maker.run(STEPS, visit(r, keys, r.choice([0, 5, 30, 60])))
    maker.look(0.8)
    return maker.case


def changes_of(r, keys: list, most_pages: int) -> list:
    """Transactions over these keys, most of which commit."""
    found = []
    for _ in range(r.randint(1, 6)):
        chosen = r.sample(keys, r.randint(0, min(4, len(keys))))
        put = lambda key: ("put", key, parts.content(r, most_pages))
        found.append([("del", key) if r.random() < 0.2 else put(key) for key in chosen])
    return found


def played(r, keys: list, most_pages: int = 5) -> list:
    talk = Talk(r)
    talk.play_out(changes_of(r, keys, most_pages))
    return parts.with_checkpoints(r, talk.lines, r.choice([0, 0, 0.05]))


# Crashes and damage ---------------------------------------------------------------------------


def crashed(r) -> Case:
    """Runs of which some end in a crash. What is left is looked at, and used again."""
    maker = Maker(r)
    keys = parts.some_keys(r, r.choice([2, 4, 8]))
    maker.fresh(played(r, keys, r.choice([1, 5, 12])), 1, r.choice([1, 2]))
    for _ in range(r.choice([1, 1, 2, 3])):
        maker.crash()
        maker.look(0.5)
        maker.run(STEPS, r.choice([played, visit])(r, keys))
        if not maker.ran.calls or maker.ran.status == 6:
            break
    maker.look(0.8)
    return maker.case


def crashed_turn(r) -> Case:
    """Crashes while halves are turned, by opening or by a checkpoint."""
    maker = Maker(r)
    keys = parts.some_keys(r, 5)
    maker.fresh(played(r, keys, 1))
    lines = r.choice([[], [b"checkpoint"], played(r, keys, 1) + [b"checkpoint"]])
    maker.run(r.choice([SHOW, STEPS, STEPS]), lines)
    calls = maker.ran.calls
    moment = r.randint(1, len(calls))
    picks = crash.random_picks(r, maker.before, calls, moment)
    maker.write(crash.image_at(maker.before, calls, moment, picks))
    maker.look(0.7)
    maker.run(STEPS, visit(r, keys))
    maker.look(0.5)
    return maker.case


def damaged(r) -> Case:
    """Contents that another hand changes between the runs. A `get` of one ends its run."""
    maker = Maker(r)
    keys = parts.some_keys(r, r.choice([2, 4, 8]))
    maker.fresh(played(r, keys, r.choice([1, 5, 12])), 1, r.choice([1, 2]))
    maker.look(0.6)
    store = disk.read(maker.image)
    for state in r.sample(list(store.states.values()), min(len(store.states), r.choice([1, 1, 2]))):
        for page in r.sample(disk.places(state), min(1, state.size)):
            maker.hand[store.layout.data() + page] = other_bytes(r, maker.image.page(store.layout.data() + page))
    maker.run(STEPS, visit(r, keys))
    for _ in range(r.choice([0, 1, 2])):
        maker.run(STEPS, visit(r, keys, 10))
    maker.look(0.8)
    return maker.case


def other_bytes(r, held: bytes) -> bytes:
    """A page with one bit changed, or other bytes. What is behind a content's tail is no matter."""
    at = r.choice([0, 0, 1, 2, PAGE - 1, r.randrange(PAGE)])
    flipped = held[:at] + bytes([held[at] ^ r.choice([1, 0x80])]) + held[at + 1 :]
    return r.choice([flipped, flipped, bytes(PAGE), b"\xff" * PAGE])


def over_a_disk(r) -> Case:
    """A script over a disk that another hand made: good, torn, damaged or hostile."""
    made = disk_cases.make(r.randrange(10**9))
    maker = Maker(r, made.image)
    store = disk.read(made.image) if made.image is not None else None
    keys = list(store.states) if isinstance(store, disk.Store) else []
    keys = r.sample(keys, min(len(keys), 8)) + parts.some_keys(r, 3)
    maker.look(0.2)
    for _ in range(r.choice([1, 1, 2])):
        maker.run(STEPS, visit(r, keys, r.choice([5, 20]), 2))
    maker.look(0.5)
    return maker.case


def good_disk(r) -> Case:
    """The same over good disks alone."""
    kind = r.choice([good_disks.good, good_disks.torn, good_disks.wrong_prefixes, good_disks.full_room])
    image = kind(r).image
    maker = Maker(r, image)
    store = disk.read(image)
    keys = list(store.states) if isinstance(store, disk.Store) else []
    keys = r.sample(keys, min(len(keys), 8)) + parts.some_keys(r, 3)
    for _ in range(r.choice([1, 2])):
        maker.run(STEPS, r.choice([visit, played])(r, keys))
        maker.look(0.4)
    return maker.case


# Ends of what there may be --------------------------------------------------------------------


def last_numbers(r) -> Case:
    """Numbers up to the greatest one, and requests for which there is none left."""
    layout = disk.Layout(1, 1)
    last = GREATEST_NUMBER - r.choice([0, 1, 2, 3, 5])
    image = disk.formatted(layout).having({1: disk.spell_header(layout, last, 0, 0)})
    maker = Maker(r, image)
    keys = parts.some_keys(r, 6)
    talk = Talk(r)
    overtaken = scripts.begin_reads(talk, keys)
    talk.members(changes_of(r, keys, 1), False, overtaken)
    talk.drain()
    talk.play_out(changes_of(r, keys, 1))
    for lines in cut(r, talk.lines, r.choice([1, 2])):
        maker.run(STEPS, lines)
        maker.look(0.5)
    maker.run(STEPS, played(r, keys, 1))
    return maker.case


def log_end(r) -> Case:
    """So many leads that the log comes to its end, with frames that just fit or just don't."""
    maker = Maker(r)
    gate = 0
    lines = []
    few = r.random() < 0.3  # leads as small as may be until the end
    while gate < 500 + r.randint(0, 8):
        count = 1 if few or r.random() < 0.97 else r.choice([2, 3, 4])
        lines += frame(r, count) if count > 1 else small_lead(r)
        gate += count + 1
    lines += fitting_frames(r, gate)
    for at, piece in enumerate(cut(r, lines, r.choice([1, 1, 1, 1, 2]))):
        piece = parts.with_checkpoints(r, piece, r.choice([0, 0, 0, 0.001]))
        maker.run(STEPS, piece) if at else maker.fresh(piece, 1, 64)
    if r.random() < 0.3:
        maker.crash()
    maker.look(0.8)
    return maker.case


def fitting_frames(r, gate: int) -> list:
    """Frames of which the last ones leave little room, none or too little."""
    lines = []
    for _ in range(r.choice([2, 4, 8])):
        left = max(0, 511 - gate)
        wanted = [left - 1] * 4 + [left, left, left + 1, left - 2, left - 2, left - 3, 1, 2]
        count = min(9, max(1, r.choice(wanted)))
        gate = (0 if count + 1 > left else gate) + count + 1
        lines += frame(r, count)
    return lines


def small_lead(r) -> list:
    """A lead whose frame has one page."""
    change = r.choice([b"0 put demo/a x:61", b"0 put demo/b x:", b"0 put demo/a x:6162"])
    return [b"0 begin", *r.choice([[], [change], [change]]), b"0 commit", b"lead"]


def frame(r, count: int) -> list:
    """A lead whose frame has so many pages, often filled to the last byte or to the one behind the
    page before."""
    length = PAGE * count - r.choice([0, 0, PAGE - 1, r.randrange(PAGE)])
    return lead_of(r, parts_of(length))


def parts_of(length: int) -> list:
    """Lengths of keys whose empty contents make a body of this length, or nearly so."""
    for count in range(1, 257):
        rest = length - 13 - 18 * -(-count // 16) - 78 * count
        if 5 * count <= rest <= 64 * count:
            return [rest // count + (at < rest % count) for at in range(count)]
    return [5]


def lead_of(r, lengths: list) -> list:
    """One group that puts no bytes under keys of these lengths, sixteen of each member."""
    keys = [key_of(at, length) for at, length in enumerate(lengths)]
    lines = []
    members = [keys[at : at + 16] for at in range(0, len(keys), 16)]
    for session, own in zip(r.sample(range(16), len(members)), members):
        lines += [b"%d begin" % session, *(b"%d put %s x:" % (session, key) for key in own), b"%d commit" % session]
    return lines + [b"lead"]


def key_of(at: int, length: int) -> bytes:
    """A key of this length, of 5 bytes or more, that has this number in it."""
    relation = b"a" * max(1, length - 48)
    return relation + b"/" + (b"%03d" % at).ljust(length - 1 - len(relation), b"x")


def many_states(r) -> Case:
    """States on several pages of a half."""
    maker = Maker(r)
    keys = parts.some_keys(r, r.choice([50, 100]))
    talk = Talk(r)
    for at in range(0, len(keys), 10):
        talk.play_out([[("put", key, parts.small(r)) for key in keys[at : at + 10]]])
    lines = parts.with_checkpoints(r, talk.lines, r.choice([0, 0.02]))
    for at, piece in enumerate(cut(r, lines, r.choice([1, 2]))):
        maker.run(STEPS, piece) if at else maker.fresh(piece, 1, r.choice([2, 3, 4]))
    maker.look(0.5)
    gone = [b"0 begin", *(b"0 del " + key for key in r.sample(keys, 16)), b"0 commit", b"lead"]
    maker.run(STEPS, gone + [b"checkpoint"] * r.choice([0, 1, 2]))
    maker.look(0.7)
    return maker.case


# Words and lines ------------------------------------------------------------------------------


def ends(r) -> Case:
    """Runs that end at a malformed line, or at one that isn't built. What was led before lasts."""
    maker = Maker(r)
    maker.fresh(split_lines(r.choice([odd.odd, odd.not_built, odd.text])(r).script))
    for _ in range(r.choice([1, 2])):
        maker.run(STEPS, split_lines(r.choice([odd.odd, odd.not_built, odd.not_built])(r).script))
    maker.look(0.8)
    return maker.case


FAULTY = [
    [b"steps"], [b"steps", b""], [b"steps", b"s", b"1"], [b"steps", b"s", b"1", b"1"], [b"Steps", b"s"],
    [b"step", b"s"], [b"steps ", b"s"], [b"s", b"steps"], [b"--", b"steps", b"s"], [b"steps", b"s\xff"],
    [b"steps", b"s", b""], [],
]


def odd_words(r) -> Case:
    """Words that are almost a form, no file, and a file that is made anew."""
    keys = parts.some_keys(r, 3)
    maker = Maker(r)
    kind = r.choice(["none", "faulty", "faulty", "no store", "anew", "folder"])
    if kind == "none":
        maker.run(r.choice([STEPS, SHOW]), visit(r, keys))
    elif kind == "folder":
        maker.run([b"steps", r.choice([b".", b"missing/s", b"s/", b"/"])], visit(r, keys), False)
    elif kind == "no store":
        rest = r.choice([b"", b"a" * 5, b"\xff" * (PAGE - 1)])
        count = r.choice([0, 1, 2052, 2053, 2060])
        pages = {r.randrange(count): b"a" * PAGE} if count else {}
        maker = Maker(r, disk.Image(count, pages, rest))
        maker.run(STEPS, visit(r, keys))
    else:
        maker.fresh(played(r, keys))
        if kind == "anew":
            maker.run(r.choice([[b"format", FILE, b"1", b"2"], [b"fresh", FILE, b"2", b"1"]]), visit(r, keys))
    if kind == "faulty":
        maker.run(r.choice(FAULTY), visit(r, keys))
    if kind in ("anew", "faulty"):
        maker.run(STEPS, visit(r, keys))
        maker.look(0.7)
    return maker.case


# Each kind with its weight.
KINDS = {
    "cut up": (26, cut_up),
    "large, cut up": (4, large_cut_up),
    "visits": (16, visits),
    "crashed": (20, crashed),
    "crashed turn": (8, crashed_turn),
    "damaged": (12, damaged),
    "over a disk": (12, over_a_disk),
    "good disk": (8, good_disk),
    "last numbers": (4, last_numbers),
    "log end": (8, log_end),
    "many states": (4, many_states),
    "ends": (12, ends),
    "odd words": (8, odd_words),
}


def make(seed: int) -> Case:
    """The case of this seed."""
    r = random.Random(seed)
    kind = r.choices(list(KINDS), [weight for weight, _ in KINDS.values()])[0]
    return KINDS[kind][1](r)._replace(kind=kind)
