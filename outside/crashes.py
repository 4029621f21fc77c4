"""Crashes of the real program: what a stopped run leaves is opened by the program again.

    python3 outside/crashes.py PROGRAM N [SEED | --random] [--plant NAME]

Each run of N random scripts goes under `strace`, which tells its writes and syncs. At each moment of
its disk images are built of what a crash may leave: of each page that was written since the last
sync nothing, all, a part, or other bytes. The program shows and checks each image, and reads the
contents of some. Of each run some images are opened under `strace` too, and the opening is crashed at
each of its own moments: what that leaves must read as the image did. `--plant` changes the calls that
were told, as a faulty program would make them.
"""

import os
import random
import shutil
import subprocess
import sys
import tempfile
from collections import Counter
from pathlib import Path
from typing import NamedTuple, Optional

sys.dont_write_bytecode = True  # nothing is left beside this file

import calls
import crash
import disk
import disk_forms
import lasting
import lasting_cases
import lasting_run
from disk_run import FILE, image_difference, write_image
from lasting import SYNC, Lead
from model import PAGE
from run import read_arguments
from stored import spell_tuple

KINDS = ("cut up", "visits", "crashed", "crashed turn", "good disk", "log end", "many states")
FEW_PAGES = 4  # so many have all their choices of whole pages
ODD_CHOICES = 2  # with torn pages and other bytes, at each moment
RANDOM_CHOICES = 6  # at each moment of more pages
MOST_MOMENTS = 30  # of one run; of a longer run so many are chosen at random
OPENINGS = 3  # of one run are crashed themselves
READS = 20  # the contents of one image of so many are read
MANY = 50  # scripts, which must show every kind
REQUIRED = (
    "moment: format", "moment: opening", "moment: turn", "moment: body", "moment: contents", "moment: gate",
    "moment: answered", "read: format, no store", "read: format, empty store", "read: nothing under way",
    "read: the state before the group", "read: the whole group", "read: a part of the group",
    "opening crashed",
)


class Event(NamedTuple):
    """A call of a run, and where it stands."""

    call: object  # a write, or SYNC
    part: str  # of the run
    lead: Optional[int] = None  # the number of the lead that it belongs to
    answers: bool = False  # the lead is answered once it is done


def events_of(found: list, ran, formats: bool) -> list:
    """The calls of a run with their places. The calls are those of the model."""
    opened = crash.last_moment_of_opening(found, formats)
    format_end = opened - 1 if formats else 0
    events = [Event(call, "format" if at < format_end else "opening") for at, call in enumerate(found)]
    turned = [at for at, call in enumerate(found) if call is SYNC and at >= opened][:2]
    for at in range(turned[-1] + 1 if turned else opened, len(found)):
        events[at] = Event(found[at], "turn")
    leads = [one for one in ran.happened if isinstance(one, Lead)]
    for number, lead in enumerate(leads):
        end = crash.end_of(found, lead)
        body = max(at for at in range(lead.begins, end - 2) if found[at] is SYNC)
        before = [at for at in range(lead.begins, body) if found[at] is SYNC]
        for at in range(lead.begins, end):
            part = "turn" if before and at <= before[-1] else "body" if at <= body else "contents"
            part = {end - 2: "gate", end - 1: "answered"}.get(at, part)
            events[at] = Event(found[at], part, number, at == end - 1)
    return events


# Planted faults -------------------------------------------------------------------------------


def of_leads(events: list) -> list:
    """The places of each lead's body sync, gate and last sync, the last lead first."""
    found = []
    for gate in range(len(events) - 1, 0, -1):
        if events[gate].part == "gate":
            found.append((max(at for at in range(gate) if events[at].part == "body"), gate, gate + 1))
    return found


def no_body_sync(events: list) -> None:
    for body, _, _ in of_leads(events):
        del events[body]


def early_gate(events: list) -> None:
    """Each gate is opened before the sync of its body."""
    for body, gate, _ in of_leads(events):
        events.insert(body, events.pop(gate))


def swapped(events: list) -> None:
    """The last page of a body and the first one behind its sync change their places."""
    for body, _, _ in of_leads(events):
        events[body - 1], events[body + 1] = events[body + 1], events[body - 1]


def no_last_sync(events: list) -> None:
    for _, gate, last in of_leads(events):
        events[gate] = events[gate]._replace(answers=True)
        del events[last]


def no_turn_sync(events: list) -> None:
    """The selector is written without a sync before it."""
    for at in range(len(events) - 1, 0, -1):
        if events[at].call is not SYNC and events[at].call.page == 0 and events[at].part != "format":
            if events[at - 1].call is SYNC:
                del events[at - 1]


PLANTS = {
    "no body sync": no_body_sync, "early gate": early_gate, "swapped": swapped,
    "no last sync": no_last_sync, "no turn sync": no_turn_sync,
}


# Images ---------------------------------------------------------------------------------------


def odd_page(r, old: bytes, new: bytes) -> bytes:
    cut = r.choice([8, 100, r.randrange(PAGE), r.randrange(PAGE)])
    return r.choice([new[:cut] + old[cut:], old[:cut] + new[cut:], r.randbytes(PAGE)])


def choices(r, synced: dict, pending: dict, newest: Optional[int]) -> list:
    """What may arrive of the pending pages. Where there are few, all whole pages: of the page that
    was written last, the old one was tried a moment before."""
    pages = list(pending)
    found = []
    if len(pages) <= FEW_PAGES:
        for chosen in range(2 ** len(pages)):
            picks = {page: pending[page] for at, page in enumerate(pages) if chosen >> at & 1}
            if newest is None or newest in picks or not chosen:
                found.append(picks)
    else:
        found.append(dict(pending))
        for _ in range(RANDOM_CHOICES):
            chance = r.choice([0.2, 0.5, 0.9])
            found.append({page: pending[page] for page in pages if page == newest or r.random() < chance})
    for _ in range(ODD_CHOICES if pages else 0):
        picks = {page: pending[page] for page in pages if r.random() < 0.6}
        for page in r.sample(pages, r.randint(1, min(3, len(pages)))):
            picks[page] = odd_page(r, synced.get(page, disk.ZEROS), pending[page])
        found.append(picks)
    return found


class Disk:
    """A file of which only the pages that differ are written, and the program's runs over it."""

    def __init__(self, program: str, folder: Path, before: disk.Image, touched: set):
        self.program, self.path = program, folder / FILE
        write_image(self.path, before)
        self.file = os.open(self.path, os.O_RDWR)
        self.out = os.open(folder.parent / "answer", os.O_RDWR | os.O_CREAT | os.O_TRUNC)
        self.script = folder.parent / "reads"
        self.script.write_bytes(b"")
        self.have = {page: before.page(page) for page in touched}

    def close(self) -> None:
        os.close(self.file)
        os.close(self.out)
        os.remove(self.path)

    def hold(self, image: disk.Image) -> None:
        for page, held in self.have.items():
            wanted = image.page(page)
            if held != wanted:
                os.pwrite(self.file, wanted, PAGE * page)
                self.have[page] = wanted

    def run(self, form: str, opening: set, script: bytes = b"") -> tuple:
        """One run. The pages that opening writes are unknown afterwards."""
        os.ftruncate(self.out, 0)
        os.lseek(self.out, 0, os.SEEK_SET)
        if script:
            self.script.write_bytes(script)
        source = self.script if script else "/dev/null"
        actions = [(os.POSIX_SPAWN_OPEN, 0, source, os.O_RDONLY, 0), (os.POSIX_SPAWN_DUP2, self.out, 1)]
        actions.append((os.POSIX_SPAWN_OPEN, 2, "/dev/null", os.O_WRONLY, 0))
        child = os.posix_spawn(self.program, [self.program, form, str(self.path)], {}, file_actions=actions)
        status = os.waitstatus_to_exitcode(os.waitpid(child, 0)[1])
        for page in opening:
            self.have[page] = None
        return status, os.pread(self.out, os.fstat(self.out).st_size, 0)

    def traced_show(self, opening: set) -> list:
        """The writes and syncs of a show."""
        trace = self.path.parent.parent / "trace"
        trace.write_text("")
        words = [*calls.command(self.program.encode(), self.path.parent), b"show", str(self.path).encode()]
        subprocess.run(words, stdin=subprocess.DEVNULL, stdout=subprocess.DEVNULL, stderr=subprocess.DEVNULL)
        for page in opening:
            self.have[page] = None
        return calls.calls_of(trace.read_text())


# The judgement --------------------------------------------------------------------------------


def text_of(states: dict, last: int) -> bytes:
    lines = [f"{key.decode()} {states[key].size} {states[key].digest.hex()} {states[key].born}" for key in sorted(states)]
    return "".join(line + "\n" for line in [*lines, f"last {last}"]).encode()


def allowed(ran, events: list, moment: int, image: disk.Image) -> dict:
    """The stores that an image may read as, each with its kind."""
    leads = [one for one in ran.happened if isinstance(one, Lead)]
    states, last = dict(ran.found.states), ran.found.last
    answered = sum(one.answers for one in events[:moment])
    for one in leads[:answered]:
        states, last = crash.after(states, one.entries), one.entries[-1].number
    if not any(one.lead == answered for one in events[:moment]):
        return {"nothing under way": (states, last)}
    entries = leads[answered].entries
    kept = [entry for entry in entries if disk.entry_verifies(image, ran.found.layout, entry)]
    kind = "the whole group" if kept == entries else "a part of the group"
    return {"the state before the group": (states, last), kind: (crash.after(states, kept), entries[-1].number)}


def states_length(ran) -> int:
    """How many bytes all states take, once all leads of a run are done."""
    states = ran.found.states
    for one in ran.happened:
        states = crash.after(states, one.entries) if isinstance(one, Lead) else states
    return sum(len(spell_tuple(key, state)) for key, state in states.items())


def reads_of(states: dict) -> bytes:
    """A script that reads every key, sixteen in each session's transaction."""
    keys, lines = sorted(states)[:256], []
    for session in range(-(-len(keys) // 16)):
        lines.append(b"%d begin" % session)
        lines += [b"%d get %s" % (session, key) for key in keys[16 * session : 16 * session + 16]]
    return b"".join(line + b"\n" for line in lines)


class Crashes:
    """Scripts one by one, with the counts of what came of their images."""

    def __init__(self, program: str, folder: Path, plant=None):
        self.program, self.folder, self.plant = program, folder, plant
        self.counts = Counter()
        self.passed = self.failed = self.moments = self.runs = 0
        self.kept = None

    def script(self, seed: int) -> None:
        case = make(seed)
        r = random.Random(seed)
        image = case.image
        for at, run in enumerate(case.runs):
            before = image if image is None or not run.hand else image.having(run.hand)
            ran = lasting.run(run.words, run.script, before, run.opens)
            if ran.calls and ran.status not in (6, 9):
                self.one_run(r, f"seed-{seed}.{at + 1}", run, ran, before)
            image = ran.image

    def one_run(self, r, name: str, run, ran, before) -> None:
        formats = run.words[0] in (b"format", b"fresh")
        found = self.traced(name, run, ran, before)
        if found is None or ran.found is None:
            return
        before = disk.Image(ran.image.count, {}) if formats else before
        if disk_forms.check(before, ran.found)[1] if not formats else False:
            return  # a content was damaged before
        self.runs += 1
        events = events_of(found, ran, formats)
        if self.plant is not None:
            self.plant(events)
        layout = ran.found.layout
        most = 1 + max([disk.pages_of(one.length) for one in ran.happened] + [disk.pages_of(states_length(ran))])
        opening = {0, 1, 2, layout.log(0), layout.log(1)}
        opening |= {layout.states(half) + at for half in (0, 1) for at in range(min(most, layout.room))}
        touched = opening | {one.call.page for one in events if one.call is not SYNC}
        self.folder.mkdir()
        work = Disk(self.program, self.folder, before, touched)
        try:
            synced, pending = dict(before.pages), {}
            every = range(len(events) + 1)
            chosen = set(every if len(every) <= MOST_MOMENTS else r.sample(every, MOST_MOMENTS))
            crashed = set(r.sample(sorted(chosen), min(OPENINGS, len(chosen))))
            for moment in every:
                if moment and events[moment - 1].call is SYNC:
                    synced, pending = synced | pending, {}
                elif moment:
                    pending[events[moment - 1].call.page] = events[moment - 1].call.held
                if moment in chosen:
                    place, whole = f"{name}, moment {moment}", moment - 1 not in chosen
                    again = moment in crashed
                    self.moment(r, place, work, opening, before, (synced, pending), ran, events, moment, formats, whole, again)
            work.hold(before)
            difference = image_difference(self.folder, before)
            if difference:
                self.fail(f"{name}: a run over an image wrote another page: {difference}", before)
        finally:
            work.close()
            shutil.rmtree(self.folder)

    def traced(self, name: str, run, ran, before) -> Optional[list]:
        """The calls of the real program, or nothing where they aren't the model's."""
        self.folder.mkdir()
        try:
            if before is not None:
                write_image(self.folder / FILE, before)
            (self.folder.parent / "trace").write_text("")
            words = calls.command(self.program.encode(), self.folder)
            found = lasting_run.differences(words, run, ran, self.folder)
            told = calls.calls_of((self.folder.parent / "trace").read_text())
            difference = calls.calls_difference(told, ran.calls)
            if found or difference:
                self.fail(f"{name}: the run itself differs: {(found + [difference])[0]}", before)
                return None
            return told
        finally:
            shutil.rmtree(self.folder)

    def moment(self, r, name, work, opening, before, pages, ran, events, moment: int, formats: bool, whole: bool,
               again: bool) -> None:
        self.moments += 1
        synced, pending = pages
        last = events[moment - 1] if moment else None
        self.counts["moment: " + (last.part if last else "the first")] += 1
        newest = last.call.page if last and last.call is not SYNC and not whole else None
        in_format = formats and (moment == 0 or last.part == "format" and any(
            one.part == "format" for one in events[moment:]))
        found = choices(r, synced, pending, newest)
        crashed = r.randrange(len(found)) if again and not in_format else None
        for number, picks in enumerate(found):
            image = disk.Image(before.count, synced | picks, before.rest)
            faults = self.judge(r, work, opening, image, ran, events, moment, in_format)
            if number == crashed and not faults:
                faults = self.crash_opening(r, work, opening, image)
            if faults:
                pages = {page: "new" if picks.get(page) == new else "odd" if page in picks else "old"
                         for page, new in pending.items()}
                self.fail(f"{name}, choice {number}: {faults}\n  pages: {pages}", image)
            else:
                self.passed += 1

    def judge(self, r, work, opening, image, ran, events, moment: int, in_format: bool) -> str:
        """What is wrong with the program's answers over an image, or nothing."""
        work.hold(image)
        status, shown = work.run("show", opening)
        if in_format:
            wanted = lasting.run(lasting_cases.SHOW, b"", image)
            self.counts["read: format, no store" if status == 6 else "read: format, empty store"] += 1
            return "" if (status, shown) == (wanted.status, wanted.text) else f"show: {status} {shown[:200]!r}"
        stores = allowed(ran, events, moment, image)
        fits = [kind for kind, (states, last) in stores.items() if shown == text_of(states, last)]
        if status != 0 or not fits:
            return f"show: {status} {shown[:200]!r}, allowed: {list(stores)}"
        read = disk.read(image) if len(stores) > 1 else None
        if isinstance(read, disk.Refusal) or read and shown != text_of(read.states, read.last):
            return f"show: {shown[:200]!r}, which isn't what the model reads"
        self.counts["read: " + fits[0]] += 1
        states, last = stores[fits[0]]
        work.hold(image)
        status, checked = work.run("check", opening)
        if (status, checked) != (0, b"checked %d damaged 0\n" % len(states)):
            return f"check: {status} {checked[:200]!r}"
        if states and r.randrange(READS) == 0:
            return self.read(work, opening, image, states)
        return ""

    def crash_opening(self, r, work, opening, image) -> str:
        """The opening of an image, crashed at each of its moments: what is left reads as the image did."""
        wanted = lasting.run(lasting_cases.SHOW, b"", image)
        work.hold(image)
        found = work.traced_show(opening)
        difference = calls.calls_difference(found, wanted.calls)
        if difference:
            return f"its opening differs: {difference}"
        self.counts["opening crashed"] += 1
        synced, pending = dict(image.pages), {}
        for moment in range(len(found) + 1):
            last = found[moment - 1] if moment else SYNC
            if last is SYNC:
                synced, pending = synced | pending, {}
            else:
                pending[last.page] = last.held
            for picks in choices(r, synced, pending, None if last is SYNC else last.page):
                work.hold(disk.Image(image.count, synced | picks, image.rest))
                status, shown = work.run("show", opening)
                self.counts["opening crashed: images"] += 1
                if (status, shown) != (wanted.status, wanted.text):
                    return f"crashed at moment {moment} of its opening: {status} {shown[:200]!r}"
        return ""

    def read(self, work, opening, image, states: dict) -> str:
        script = reads_of(states)
        wanted = lasting.run(lasting_cases.STEPS, script, image)
        work.hold(image)
        self.counts["contents read"] += 1
        status, text = work.run("steps", opening, script)
        return "" if (status, text) == (wanted.status, wanted.text) else f"steps: {status} {text[:200]!r}"

    def fail(self, line: str, image) -> None:
        self.failed += 1
        if self.failed > 10:
            return  # the first ones are enough to look at
        self.kept = self.kept or Path(tempfile.mkdtemp(prefix="outside-failed-"))
        file = self.kept / f"{self.failed}.file"
        if image is not None:
            write_image(file, image)
        print(f"{line}\n  file: {file}")


def make(seed: int) -> lasting_cases.Case:
    """The script of this seed, of a kind that makes or opens a good store."""
    r = random.Random(seed)
    kind = r.choices(KINDS, [lasting_cases.KINDS[kind][0] for kind in KINDS])[0]
    return lasting_cases.KINDS[kind][1](r)._replace(kind=kind)


def in_folder(program: str, plant: Optional[str], work) -> Crashes:
    """Does some work whose files lie in memory, where the system has such a folder."""
    place = "/dev/shm" if os.access("/dev/shm", os.W_OK) else None
    with tempfile.TemporaryDirectory(prefix="outside-", dir=place) as made:
        run = Crashes(program, Path(made).resolve() / "run", PLANTS.get(plant))
        work(run)
    return run


def compare(program: str, count: int, first: int, plant: Optional[str] = None) -> int:
    """All crashes of so many scripts. The exit status."""
    print(f"{count} scripts from seed {first}" + (f", planted: {plant}" if plant else ""))
    run = in_folder(program, plant, lambda run: [run.script(seed) for seed in range(first, first + count)])
    images = run.passed + run.failed
    print(f"{count} scripts, {run.runs} runs, {run.moments} moments, {images} images")
    for kind, often in sorted(run.counts.items()):
        print(f"  {kind}: {often}")
    missing = [kind for kind in REQUIRED if not run.counts[kind]] if count >= MANY else []
    for kind in missing:
        print(f"never shown: {kind}")
    print(f"{run.passed} passed, {run.failed} failed")
    return 1 if run.failed or missing else 0


def main(arguments: list) -> int:
    plant = None
    if "--plant" in arguments:
        at = arguments.index("--plant")
        plant, arguments = "".join(arguments[at + 1 : at + 2]), arguments[:at] + arguments[at + 2 :]
    read = read_arguments(arguments)
    faulty = read is None or not os.access(read[0], os.X_OK) or plant is not None and plant not in PLANTS
    if faulty or shutil.which("strace") is None:
        print("python3 crashes.py PROGRAM N [SEED | --random] [--plant NAME], with strace", file=sys.stderr)
        print("NAME is one of: " + ", ".join(PLANTS), file=sys.stderr)
        return 2
    return compare(*read, plant)


if __name__ == "__main__":
    sys.exit(main(sys.argv[1:]))
