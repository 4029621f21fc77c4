"""Examples of the model of a store that lasts: the worked cases, and what must hold of any run."""

import random

import cost
import crash
import disk
import disk_forms
import lasting
import lasting_cases
import lasting_worked
import model
import sha
import stored
import worked
from disk_worked import ABC_TUPLE, BODY, header
from lasting import SYNC, Lead, Write
from model import LASTING, PAGE
from worked import lines_of, put

FRESH = [b"fresh", b"s", b"1", b"1"]
STEPS = [b"steps", b"s"]
SHOW = [b"show", b"s"]
SEEDS = range(60)


def same(found, wanted) -> None:
    if found != wanted:
        raise SystemExit(f"an example of a store that lasts differs\nfound:  {found!r}\nwanted: {wanted!r}")


def worked_cases() -> None:
    for one in lasting_worked.WORKED:
        same((one.name, lasting_worked.fits(one)), (one.name, True))


def worked_scripts() -> None:
    """The scripts that were worked out for a store that doesn't last have the same answers, and the
    same contents on the same pages."""
    for one in worked.WORKED:
        case = worked.case_of(one)
        ran = lasting.run(case.words, case.script, None)
        outcome = model.Outcome(ran.text, ran.status, ran.errors, 0, ran.image.pages, ran.said)
        same((one.name, worked.fits(one, outcome)), (one.name, True))


def hashes() -> None:
    """The library's hash states are those of the slow code."""
    for length in (64, 128, 4096, 4160):
        blocks = model.Made(length, 9).bytes()
        state = sha.after_slowly(sha.START, blocks[:64])
        same(sha.after(state, blocks), sha.after_slowly(state, blocks))


def bytes_of_a_lead() -> None:
    """What a lead writes, page by page."""
    ran = lasting.run(FRESH, lines_of(put(0, "demo/a", "x:616263")), None)
    pages = [(516, BODY), (517, b""), None, (1029, b"abc"), (515, b"GATEOPEN"), None]
    wanted = [SYNC if page is None else Write(page[0], page[1].ljust(PAGE, b"\0")) for page in pages]
    same(ran.calls[-6:], wanted)
    opened = [(1, header()), (3, b""), None, (0, b""), None]
    opened += [None, (2, header()), (515, b""), None, (0, b"HALFONE1"), None]
    same(ran.calls[:-6], [SYNC if page is None else Write(page[0], page[1].ljust(PAGE, b"\0")) for page in opened])
    same(stored.spell_body(ran.happened[-1].entries), BODY)
    same(stored.read_body(BODY, 1024, 0), ran.happened[-1].entries)
    same(cost.body_length(ran.happened[-1].entries), 119)
    same(cost.cost(ran.happened, True), (3 + 3 + 4, 2 + 3 + 2))
    turned = lasting.run(STEPS, b"checkpoint\n", ran.image)
    same(cost.cost(turned.happened, False), (4 + 4, 1 + 2 + 2))
    same(turned.image.page(1028), ABC_TUPLE.ljust(PAGE, b"\0"))


def largest_body() -> None:
    """Sixteen entries of sixteen states with the longest keys and the most extents."""
    key, size = b"abcdefghijklmnop/" + b"k" * 47, 381_669_375
    state = stored.State(size, 1, bytes(32), bytes(32), (0,) * 127, (bytes(32),) * 127, 0)
    entry = stored.Entry(1, 0, 1, [(key, state)] * 16)
    length = cost.body_length([entry] * 16)
    same((length, cost.pages(length), len(stored.spell_body([entry] * 16))), (1_208_109, 295, 1_208_109))


def no_writes() -> None:
    """A group of which no member commits writes nothing, and neither do other lines."""
    script = put(0, "demo/a", "x:61") + "0 begin; 0 get demo/a; " + put(1, "demo/a", "x:62")
    ran = lasting.run(FRESH, lines_of(script), None)
    script += "0 put demo/b x:63; 0 commit; lead; lead; 2 begin; 2 get demo/a"
    more = lasting.run(FRESH, lines_of(script), None)
    same(more.text.splitlines()[-4:], [b"0 conflict demo/a 1 2", b"idle", b"2 begun", b"2 value 1 62"])
    same(more.calls, ran.calls)


def costs() -> None:
    """The calls of each run are as many as the rule of costs says; each changes the file as it is
    told; and a run ends with all that it wrote synced."""
    for seed in SEEDS:
        case = lasting_cases.make(seed)
        for run, ran in zip(case.runs, lasting_cases.outcomes(case)):
            if ran.happened:
                writes = sum(call is not SYNC for call in ran.calls)
                formats = run.words[0] == b"fresh"
                same((seed, cost.cost(ran.happened, formats)), (seed, (writes, len(ran.calls) - writes)))
                same(ran.calls[-1], SYNC)


def reopened() -> None:
    """Each run leaves what it ended with: opening finds the states and the number after its leads,
    and `show` leaves a half without a log that tells the same."""
    for seed in SEEDS:
        for ran in lasting_cases.outcomes(lasting_cases.make(seed)):
            if not ran.happened:
                continue
            states, last = ran.found.states, ran.found.last
            for lead in ran.happened:
                if isinstance(lead, Lead):
                    states, last = crash.after(states, lead.entries), lead.entries[-1].number
            found = disk.read(ran.image)
            same((seed, found.states, found.last), (seed, states, last))
            same((seed, disk.read(disk.turned(ran.image, found)).states), (seed, states))


def turns() -> None:
    """Opening turns as the model of disks says, which spells the file at once."""
    for seed in SEEDS:
        case = lasting_cases.make(seed)
        for image in [case.image] + [ran.image for ran in lasting_cases.outcomes(case)]:
            if image is not None:
                shown = disk_forms.run(SHOW, image)
                ran = lasting.run(SHOW, b"", image)
                same((seed, ran[:4]), (seed, shown[:4]))


def crashes() -> None:
    """Whatever arrives of what wasn't synced, the store is the one after the groups that were
    answered, or after some of the next group. A second crash while that one is opened changes
    nothing of it."""
    for seed in SEEDS:
        case = lasting_cases.make(seed)
        r = random.Random(seed)
        image = case.image
        for run, ran in zip(case.runs, lasting_cases.outcomes(case)):
            before = image if image is None else image.having(run.hand)
            if ran.happened and ran.status != 9:
                formats = run.words[0] == b"fresh"
                before = disk.Image(ran.image.count, {}) if formats else before
                crash_often(r, seed, before, ran, formats)
            image = ran.image


def crash_often(r, seed: int, before: disk.Image, ran: lasting.Ran, formats: bool) -> None:
    for _ in range(4):
        moment = lasting_cases.crash_moment(r, ran, formats)
        picks = crash.random_picks(r, before, ran.calls, moment)
        left = crash.image_at(before, ran.calls, moment, picks)
        same((seed, moment, crash.survives(ran, moment, left)), (seed, moment, True))
        opened = lasting.run(SHOW, b"", left)
        again = r.randint(1, len(opened.calls))
        picks = crash.random_picks(r, left, opened.calls, again)
        twice = crash.image_at(left, opened.calls, again, picks)
        same((seed, again, lasting.run(SHOW, b"", twice).text), (seed, again, opened.text))


def all_moments() -> None:
    """One lead, stopped at each of its moments: with nothing of what was pending, and with all."""
    ran = lasting.run(FRESH, lines_of(put(0, "demo/a", "x:616263")), None)
    before = disk.Image(2053, {})
    shown = []
    for moment in range(ran.happened[-1].begins, len(ran.calls) + 1):
        _, pending = crash.pages_at(before, ran.calls, moment)
        images = [crash.image_at(before, ran.calls, moment, picks) for picks in ({}, pending)]
        shown.append([lasting.run(SHOW, b"", image).text.splitlines()[-1] for image in images])
    same(shown, [[b"last 0"] * 2] * 5 + [[b"last 0", b"last 1"]] + [[b"last 1"] * 2])


def faults() -> None:
    """A run ends at the call that fails. What was led before it is there; the failed group is there
    or not."""
    script = lines_of(put(0, "demo/a", "x:616263"))
    whole = lasting.run(FRESH, script, None)
    for number in range(1, len(whole.calls) + 1):
        ran = lasting.run(FRESH, script, None, fails=number)
        same((ran.status, len(ran.calls)), (5, number))
        begun = b"0 begun\n0 put\n0 queued\n" if number > 11 else b""
        same(ran.text, begun + b"disk fault\n")
    # The fourth write of the lead, whose page may be as before, or as it should be.
    ran = lasting.run(FRESH, script, None, fails=16)
    same((ran.text, ran.calls[-1].page), (b"0 begun\n0 put\n0 queued\ndisk fault\n", 515))
    arrived = ran.image.having({515: disk.OPEN_GATE})
    same([lasting.run(SHOW, b"", image).text.split()[-1] for image in (ran.image, arrived)], [b"0", b"1"])


def built() -> None:
    """Both tables of what is built can be read."""
    same(model.read_form([b"steps", b"s"], model.TODAY), None)
    same(model.read_form([b"steps", b"s"], LASTING), {"form": "steps", "FILE": b"s"})
    same(model.run(FRESH, b"checkpoint\n")[:2], (b"not built line 1\n", 10))
    same(lasting.run(FRESH, b"checkpoint\n", None)[:2], (b"checkpointed\n", 0))
    same(lasting.run(FRESH, b"0 checkpoint\n", None)[:2], (b"malformed line 1\n", 2))


def check_all() -> None:
    for check in (
        worked_cases, worked_scripts, hashes, bytes_of_a_lead, largest_body, no_writes, costs, reopened, turns,
        crashes, all_moments, faults, built,
    ):
        check()
