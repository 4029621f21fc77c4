"""Counts of what runs over a store that lasts show.

`kinds` names what one run shows; REQUIRED lists what some hundred random cases must show.
"""

import cost
import counts
import disk
import disk_counts
from lasting import Lead, Ran
from model import LASTING, PAGE, read_form

READS = ["busy", "no-transaction", "too-many", "stale number", "absent"]
ANSWERS = {
    "begin": ["begun", "busy", "already"],
    "get": ["value", "damaged", *READS],
    "stat": ["stat", *READS],
    "put": ["put", "busy", "no-transaction", "too-many", "too-long"],
    "del": ["deleted", *READS],
    "commit": ["queued", "busy", "no-transaction"],
    "abort": ["aborted", "busy", "no-transaction"],
    "checkpoint": ["checkpointed"],
    "lead": [
        "committed", "conflict number number", "conflict number none", "conflict none number", "no-number",
        "no-space tier 0", "no-space greater tier", "no-room", "idle",
    ],
    "opening": ["refused"],
    "malformed": ["no line of the grammar"],
    "not": [verb for verb in counts.OTHER_VERBS if verb not in LASTING.verbs],
    "faulty words": ["usage"],
    "run": ["format", "fresh", "steps", "show", "check"],
    "group": ["of one", "of several", "of sixteen", "ended by a changed key", "none committed"],
    "frame": [
        "of one page", "of several pages", "to the end of its page", "one byte on its last page", "one entry",
        "several entries", "sixteen entries",
    ],
    "entry": ["no write", "one write", "several writes", "a delete"],
    "lead turned halves": ["no page was left", "one page was left", "some pages were left"],
    "log": ["the last gate is on its last page"],
    "turn": ["no state", "states on one page", "states on several pages", "by opening", "by a line"],
    "found": ["half 0", "half 1", "no state", "one state", "several states"],
    "last frame": ["all kept", "some dropped", "all dropped"],
    "nothing": ["was written behind opening"],
}
REQUIRED = [f"{cause}: {answer}" for cause, answers in ANSWERS.items() for answer in answers]
REQUIRED += ["no file", "end of the script"]


def kinds(words: list, ran: Ran) -> list:
    """The names of all that one run shows."""
    found = [kind for said in ran.said for kind in counts.kinds_of(said)]
    form = read_form(words, LASTING)
    if form is not None and ran.status != 11:
        found.append(f"run: {form['form']}")
    if isinstance(ran.found, disk.Store):
        found += [kind for kind in disk_counts.store_kinds(ran.found) if not kind.startswith("log")]
        found += turn_kinds(ran)
    for lead in ran.happened:
        found += lead_kinds(lead) if isinstance(lead, Lead) else []
    return found


def turn_kinds(ran: Ran) -> list:
    """What turns there are but those that a lead wanted."""
    turns = [one for one in ran.happened if not isinstance(one, Lead)]
    found = ["turn: by opening"] + ["turn: by a line"] * (len(turns) - 1)
    for turn in turns:
        pages = cost.pages(turn.length)
        found.append("turn: " + ({0: "no state", 1: "states on one page"}.get(pages, "states on several pages")))
    if len(ran.happened) == 1 and ran.said:
        found.append("nothing: was written behind opening")
    return found


def lead_kinds(lead: Lead) -> list:
    """What the frame of a lead shows, and where it stands."""
    length = cost.body_length(lead.entries)
    pages = cost.pages(length)
    count = len(lead.entries)
    found = [f"frame: {'of one page' if pages == 1 else 'of several pages'}"]
    found += ["frame: to the end of its page"] if length % PAGE == 0 else []
    found += ["frame: one byte on its last page"] if length % PAGE == 1 else []
    found.append(f"frame: { {1: 'one entry', 16: 'sixteen entries'}.get(count, 'several entries')}")
    for entry in lead.entries:
        found.append(f"entry: { {0: 'no write', 1: 'one write'}.get(len(entry.writes), 'several writes')}")
        found += ["entry: a delete"] if any(state is None for _, state in entry.writes) else []
    return found + place_kinds(lead.gate, pages)


def place_kinds(gate: int, pages: int) -> list:
    left = cost.LAST_GATE - gate
    if pages + 1 > left:
        words = {0: "no page was left", 1: "one page was left"}.get(left, "some pages were left")
        return [f"lead turned halves: {words}"]
    return ["log: the last gate is on its last page"] if pages + 1 == left else []


def table(counted) -> list:
    """Lines that tell how often each kind was shown, those that must be first."""
    names = REQUIRED + sorted(name for name in counted if name not in REQUIRED)
    return [f"{counted[name]:9} {name}" for name in names]
