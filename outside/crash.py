"""What a crash may leave of a file.

A page that was written since the last sync may hold any bytes; all other pages hold what was last
synced. `survives` says whether such a file reads as it must: as the store after all groups that were
led before, or as that one changed by those entries of the next group that verify.
"""

import disk
from lasting import SYNC, Lead
from model import PAGE

FIRST_STATES = 3 + 2 * disk.LOG_PAGES  # behind the two logs


def pages_at(before: disk.Image, calls: list, moment: int) -> tuple:
    """The pages as they were last synced, once so many calls were made, and those that were written
    since then, each with its bytes."""
    synced, pending = dict(before.pages), {}
    for call in calls[:moment]:
        if call is SYNC:
            synced, pending = synced | pending, {}
        else:
            pending[call.page] = call.held
    return synced, pending


def image_at(before: disk.Image, calls: list, moment: int, picks: dict) -> disk.Image:
    """The file that a crash leaves, once so many calls were made. `picks` has what arrived of the
    pages that were written since the last sync; the others of them are as before."""
    synced, pending = pages_at(before, calls, moment)
    if not picks.keys() <= pending.keys():
        raise ValueError("a page is picked that wasn't written since the last sync")
    return disk.Image(before.count, synced | picks, before.rest)


def random_picks(r, before: disk.Image, calls: list, moment: int) -> dict:
    """What arrives of each page that was written since the last sync: nothing, all of it, its
    beginning or its end, or other bytes."""
    synced, pending = pages_at(before, calls, moment)
    how_often = r.choice([0, 0.5, 0.5, 0.9, 1])
    picks = {}
    for page, new in pending.items():
        old = synced.get(page, disk.ZEROS)
        cut = r.choice([1, 8, 12, 100, PAGE - 1, r.randrange(PAGE)])
        odd = [new[:cut] + old[cut:], old[:cut] + new[cut:], disk.ZEROS, b"\xff" * PAGE, r.randbytes(PAGE)]
        if r.random() < (0.7 if new == disk.OPEN_GATE else how_often):
            picks[page] = new
        elif r.random() < 0.5:
            picks[page] = r.choice(odd)
    return picks


def last_moment_of_opening(calls: list, formats: bool) -> int:
    """How many calls were made once opening's first sync had returned."""
    syncs = [at for at, call in enumerate(calls, start=1) if call is SYNC]
    return syncs[2 if formats else 0]


def survives(ran, moment: int, image: disk.Image) -> bool:
    """Whether a file that a crash left at this moment of a run reads as it must."""
    read = disk.read(image)
    if isinstance(read, disk.Refusal):
        return False
    states, last = dict(ran.found.states), ran.found.last
    leads = [one for one in ran.happened if isinstance(one, Lead)]
    begun = [one for one in leads if one.begins < moment]
    for one in begun[:-1]:
        states, last = after(states, one.entries), one.entries[-1].number
    if (read.states, read.last) == (states, last) and not returned(ran, begun, moment):
        return True
    for one in begun[-1:]:
        kept = [entry for entry in one.entries if disk.entry_verifies(image, ran.found.layout, entry)]
        states, last = after(states, kept), one.entries[-1].number
        if returned(ran, begun, moment) and kept != one.entries:
            return False
    return (read.states, read.last) == (states, last)


def returned(ran, begun: list, moment: int) -> bool:
    """Whether the last lead that had begun was also answered."""
    if not begun:
        return False
    return moment >= end_of(ran.calls, begun[-1])


def end_of(calls: list, lead: Lead) -> int:
    """How many calls were made once a lead's gate was open and synced."""
    gate = next(at for at in range(lead.begins, len(calls)) if opens_a_gate(calls[at]))
    return gate + 2


def opens_a_gate(call) -> bool:
    return call is not SYNC and call.held == disk.OPEN_GATE and call.page < FIRST_STATES


def after(states: dict, entries: list) -> dict:
    """The states after these entries."""
    states = dict(states)
    for entry in entries:
        disk.apply(states, entry)
    return states
