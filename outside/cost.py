"""How many writes and syncs a run makes, counted from the sizes of what it writes.

The counts come from a rule of their own, and not from the list of calls that lasting.py makes; both
must be the same.
"""

from model import PAGE, state_length

LAST_GATE = 511  # the log area's last page, where a gate may stand but no frame behind it


def pages(length: int) -> int:
    return (length + PAGE - 1) // PAGE


def body_length(entries: list) -> int:
    """The bytes of a body: 13, and of each entry 18 with its changes. A set counts one more than its
    state, a delete two more than its key."""
    changes = [change for entry in entries for change in entry.writes]
    sets = sum(1 + state_length(key, state.size) for key, state in changes if state is not None)
    deletes = sum(2 + len(key) for key, state in changes if state is None)
    return 13 + 18 * len(entries) + sets + deletes


def data_pages(entries: list) -> int:
    """The pages of all contents that are put."""
    return sum(pages(state.size) for entry in entries for _, state in entry.writes if state is not None)


def of_turn(length: int) -> int:
    """The writes of a turn: of the states, of the header, the gate and the selector. Its syncs are
    two."""
    return pages(length) + 3


def cost(happened: list, formats: bool) -> tuple:
    """The writes and syncs of a run over a store that was opened."""
    writes, syncs = (3, 2) if formats else (0, 0)
    syncs += 1
    gate = 0
    for one in happened:
        body = pages(body_length(one.entries)) if hasattr(one, "entries") else None
        if body is None or gate + body + 1 > LAST_GATE:
            writes, syncs, gate = writes + of_turn(one.length), syncs + 2, 0
        if body is not None:
            writes, syncs, gate = writes + body + 2 + data_pages(one.entries), syncs + 2, gate + body + 1
    return writes, syncs
