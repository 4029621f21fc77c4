"""Counts of what the wanted answers are, so that a run shows what its cases reach.

`kinds` names what one run shows; REQUIRED lists what some hundred random cases must show.
"""

from model import BUILT

REPLIES = ("committed", "conflict", "no-space", "no-room")
OTHER_VERBS = ("append", "find", "order", "open", "ls", "pread", "close", "checkpoint")


def kinds(outcome) -> list:
    """The names of all that a run of the model shows, each as often as it shows it."""
    return [kind for said in outcome.said for kind in kinds_of(said)]


def kinds_of(said) -> list:
    """What one line, or the run's end, shows."""
    found = [kind_of(said.cause, answer) for answer in said.answers] or [said.cause]
    if said.cause == "lead" and said.answers != ("idle",):
        found += group_kinds([answer.split(" ")[1] for answer in said.answers], said.left)
    return found


def kind_of(cause: str, answer: str) -> str:
    """An answer without the values in it. Where a number may be missing, or two rules lead to
    one answer, the name tells them apart."""
    words = answer.split(" ", 5)
    if words[0] in ("malformed", "not"):
        return f"{words[0]}: {cause}"
    if answer.startswith("store refused"):
        return f"{cause}: refused"
    if words[0] in ("idle", "usage", "checkpointed", "damaged"):
        return f"{cause}: {words[0]}"
    word = words[1]
    if word == "stale":
        word += " none" if words[2] == "none" else " number"
    if word == "conflict":
        word += "".join(" none" if number == "none" else " number" for number in words[3:5])
    if word == "no-space":
        word += " tier 0" if words[3] == "0" else " greater tier"
    return f"{cause}: {word}"


def group_kinds(replies: list, left: int) -> list:
    """What a group shows as a whole."""
    size = {1: "one", 16: "sixteen"}.get(len(replies), "several")
    found = [f"group: of {size}"]
    if left:
        found.append("group: ended by a changed key")
    places = [at for at, reply in enumerate(replies) if reply == "committed"]
    if not places:
        return found + ["group: none committed"]
    between = set(replies[places[0] : places[-1]]) - {"committed"}
    found += [f"group: {refusal} between committed" for refusal in sorted(between)]
    return found


def required() -> list:
    """What must be shown by the cases of a long run."""
    needs = ["busy", "no-transaction"]
    reads = [*needs, "too-many", "stale number", "stale none", "absent"]
    answers = {
        "begin": ["begun", "busy", "already"],
        "get": ["value", *reads],
        "stat": ["stat", *reads],
        "put": ["put", *needs, "too-many", "too-long"],
        "del": ["deleted", *reads],
        "commit": ["queued", *needs],
        "abort": ["aborted", *needs],
        "lead": [
            "committed", "conflict number number", "conflict number none", "conflict none number",
            "no-space tier 0", "no-space greater tier", "no-room", "idle",
        ],
        "group": [
            "of one", "of several", "of sixteen", "ended by a changed key", "none committed",
            *(f"{refusal} between committed" for refusal in REPLIES[1:]),
        ],
        "not": [verb for verb in OTHER_VERBS if verb not in BUILT.verbs],
        "checkpoint": ["checkpointed"] if "checkpoint" in BUILT.verbs else [],
        "malformed": ["no line of the grammar", "line too long"],
        "faulty words": ["usage"],
    }
    found = [f"{cause}: {answer}" for cause, all_answers in answers.items() for answer in all_answers]
    return found + ["blank", "comment", "no file", "end of the script"]


REQUIRED = required()


def table(counted) -> list:
    """Lines that tell how often each kind was shown, those that must be first."""
    names = REQUIRED + sorted(name for name in counted if name not in REQUIRED)
    return [f"{counted[name]:9} {name}" for name in names]
