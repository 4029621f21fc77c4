"""Random cases whose lines are all well formed.

They press where mistakes hide: reads that are stale by their commit, groups of up to sixteen
members, refused members between committing ones, sizes round the borders of pages, extents and
tiers, full spaces and full rooms, places that are given back and used again.
"""

from parts import (
    FULL, GREATEST_SIZE, PAGE, SKIPPED, Case, border_size, case_of, content, key, made, new_key,
    size_of, small, some_keys, state_length, too_long,
)
from talk import Talk


def puts(changes: list) -> list:
    """A transaction that puts these contents."""
    return [("put", *change) for change in changes]


# Sessions and groups ------------------------------------------------------------------------


def walk(r) -> Case:
    """Lines of some sessions over some keys."""
    talk = Talk(r)
    sessions = r.sample(range(16), r.choice([1, 2, 3, 6, 16]))
    talk.wander(r.choice([5, 20, 60, 120]), sessions, some_keys(r, r.choice([1, 2, 3, 6, 16])), 12)
    return case_of(r, talk.lines, r.choice([1, 1, 1, 2, 3]), r.choice([1, 1, 2, 5]))


def conflicts(r) -> Case:
    """Sessions read keys which another one then changes. They read again, or put or delete the
    keys themselves, and commit or abort."""
    talk = Talk(r)
    keys = some_keys(r, r.randint(1, 5))
    talk.play_out([puts([(k, small(r)) for k in keys if r.random() < 0.7])])
    for _ in range(r.randint(1, 5)):
        readers = talk.free(r.randint(1, 6))
        for session in readers:
            talk.say(session, "begin")
        touch(talk, readers, keys, r.randint(2, 16), ["get", "get", "stat", "stat", "del", "put"])
        talk.members([some_changes(r, keys) for _ in range(r.choice([1, 1, 2]))])
        talk.drain()
        touch(talk, readers, keys, r.randint(0, 20), ["get", "stat", "del", "put"])
        for session in readers:
            talk.say(session, r.choice(["commit", "commit", "commit", "abort"]))
        talk.drain()
    talk.read_back(keys)
    return case_of(r, talk.lines)


def touch(talk: Talk, sessions: list, keys: list, count: int, verbs: list) -> None:
    """Reads and changes of these sessions."""
    r = talk.r
    for _ in range(count):
        verb = r.choice(verbs)
        words = [small(r)] if verb == "put" else []
        talk.say(r.choice(sessions), verb, r.choice(keys), *words)


def some_changes(r, keys: list) -> list:
    """A transaction that puts or deletes some of the keys."""
    chosen = r.sample(keys, r.randint(1, len(keys)))
    return [("del", k) if r.random() < 0.45 else ("put", k, small(r)) for k in chosen]


def groups(r) -> Case:
    """Groups of many members, mostly each with keys of its own. Now and then one reads or
    changes a key of another."""
    talk = Talk(r)
    keys = some_keys(r, 32)
    count = r.choice([2, 3, 5, 9, 16, 16, 16, 16])
    how_often = r.choice([0, 0, 0.02, 0.2])
    for _ in range(r.randint(1, 3)):
        transactions = [member(r, keys[2 * at : 2 * at + 2], keys, how_often) for at in range(count)]
        talk.members(r.sample(transactions, count), r.random() < 0.5)
        talk.drain()
    talk.read_back(keys)
    return case_of(r, talk.lines, r.choice([1, 1, 2]), r.choice([1, 2, 2]))


def member(r, own: list, keys: list, how_often: float) -> list:
    """A transaction over keys of its own, and now and then over any of the keys."""
    found = []
    for _ in range(r.choice([0, 1, 1, 1, 2, 3])):
        k = r.choice(keys) if r.random() < how_often else r.choice(own)
        verb = r.choice(["put", "put", "put", "get", "stat", "del"])
        found.append((verb, k, small(r)) if verb == "put" else (verb, k))
    return found


def many_keys(r) -> Case:
    """Transactions that touch sixteen keys and ask for more. Some of the keys are in the store."""
    talk = Talk(r)
    keys = some_keys(r, 20)
    talk.play_out([puts([(k, small(r)) for k in r.sample(keys, r.randint(0, 8))])])
    for session in talk.free(r.choice([1, 1, 2])):
        r.shuffle(keys)
        talk.say(session, "begin")
        only = r.choice([None, None, None, "get", "put"])
        count = r.choice([15, 16, 16, 16])
        wanted = keys[:count]
        wanted += [r.choice(keys[count:] if r.random() < 0.6 else keys) for _ in range(r.randint(3, 14))]
        for at, k in enumerate(wanted):
            verb = only if only and at < count else r.choice(["get", "stat", "put", "del"])
            talk.say(session, verb, k, *([small_or_too_long(r)] if verb == "put" else []))
        talk.say(session, r.choice(["commit", "commit", "abort"]))
    talk.drain()
    talk.read_back(keys)
    return case_of(r, talk.lines, 1, r.choice([1, 2]))


def small_or_too_long(r) -> bytes:
    return too_long(r) if r.random() < 0.1 else small(r)


def lasting(r) -> Case:
    """Some thousand lines."""
    talk = Talk(r)
    sessions = r.sample(range(16), r.choice([3, 8, 16]))
    talk.wander(r.choice([1000, 2000, 5000]), sessions, some_keys(r, r.choice([3, 8, 30])), 2)
    return case_of(r, talk.lines, r.choice([1, 2]), r.choice([1, 2]))


# Places -------------------------------------------------------------------------------------


def borders(r) -> Case:
    """Contents at borders, read back."""
    talk = Talk(r)
    keys = some_keys(r, r.randint(1, 5))
    most = r.choice([4, 12, 28, 60, 124])
    talk.play_out([puts([(k, made(r, border_size(r, most))) for k in keys])])
    talk.read_back(keys)
    return case_of(r, talk.lines, r.choice([1, 2]))


def reuse(r) -> Case:
    """Several transactions over few keys, so that places are given back and used again."""
    talk = Talk(r)
    keys = some_keys(r, r.randint(1, 6))
    transactions = []
    for _ in range(r.randint(2, 8)):
        changes = []
        for _ in range(r.choice([1, 1, 2, 3, 4])):
            k = r.choice(keys)
            deleted = r.random() < 0.25
            changes.append(("del", k) if deleted else ("put", k, content(r, r.choice([4, 12, 28, 60]))))
        transactions.append(changes)
    talk.play_out(transactions)
    talk.read_back(keys)
    return case_of(r, talk.lines, r.choice([1, 1, 1, 2]))


def fill(r) -> Case:
    """Contents that together come to the end of the space, in one transaction or in several.
    Then one more page is asked for."""
    talk = Talk(r)
    units = r.choice([1, 1, 1, 1, 2])
    keys = some_keys(r, 16)
    again = r.choice([0, 0, 0.3])  # how often a key is one that was put before
    choose = r.choice([whole_tiers, whole_tiers, fitting_pages])
    left = 1024 * units
    used = 0
    transactions = []
    for count in r.choice([[1] * 10, [2, 3, 5], [5, 5], [13], [1, 2, 1, 2, 1, 2]]):
        changes = []
        for _ in range(count):
            pages = choose(r, left) or 1
            left = max(0, left - pages)
            size = max(0, PAGE * pages - r.choice([0, 0, 0, 1, PAGE - 1, r.randint(0, PAGE)]))
            old = used and r.random() < again
            changes.append((keys[r.randrange(used) if old else used], made(r, size)))
            used += 0 if old else 1
        transactions.append(puts(changes))
    talk.play_out(transactions)
    talk.read_back(keys[:used], big=True)
    return case_of(r, talk.lines, units, r.choice([1, 2, 8]))


def whole_tiers(r, left: int) -> int:
    """Mostly the most pages within what is left that fill all extents of the last tier."""
    whole = [pages for pages in FULL[::4] if pages <= left]
    return whole[-1] if r.random() < 0.7 else r.choice(whole)


def fitting_pages(r, left: int) -> int:
    """A number of pages that comes near what is left, or near the end of an extent."""
    borders_left = [pages for pages in FULL if pages <= left]
    near = [left, left // 2, borders_left[-1], r.choice(borders_left), r.randint(0, max(1, left))]
    return max(0, r.choice(near) + r.choice([-1, 0, 0, 0, 1]))


# Full pages of contents that together leave the given number of pages of a unit free.
NEARLY_FULL = {4: [1020], 8: [508, 508], 12: [252] * 4 + [4], 16: [252] * 4}


def crowded_space(r) -> Case:
    """A group over a space that has few pages left: some members find no place, some were
    overtaken, and others between them commit."""
    talk = Talk(r)
    keys = some_keys(r, 14)
    overtaken = begin_reads(talk, keys)
    left = r.choice(list(NEARLY_FULL))
    pages = NEARLY_FULL[left] + [1] * r.randint(max(0, left - 6), left)
    stored = dict(zip(keys, pages))
    talk.play_out([puts([(k, made(r, PAGE * count)) for k, count in stored.items()])])
    if r.random() < 0.3:  # the room is nearly full too
        talk.play_out([puts([(key(r, 64), b"x:") for _ in range(r.randint(12, 16))])])
    if r.random() < 0.4:
        talk.play_out([[("del", k)] for k in keys[1:] if k in stored and r.random() < 0.3])
    add_changes(talk, overtaken, keys)
    members = [crowding(r, keys) for _ in range(r.randint(2, 13))]
    talk.members(members, r.random() < 0.3, overtaken)
    talk.drain()
    talk.read_back(keys, big=True)
    return case_of(r, talk.lines, 1, r.choice([1, 2]))


def begin_reads(talk: Talk, keys: list) -> list:
    """Some sessions that begin and read, and are overtaken later."""
    sessions = talk.free(talk.r.randint(0, 3))
    for session in sessions:
        talk.say(session, "begin")
        for k in talk.r.sample(keys, 3):
            talk.say(session, talk.r.choice(["get", "stat"]), k)
    return sessions


def add_changes(talk: Talk, sessions: list, keys: list) -> None:
    """Gives open transactions a change more, mostly. Some want more than is left, so that they
    are refused for two reasons."""
    r = talk.r
    for session in sessions:
        for k in r.sample(keys, r.choice([0, 1, 1, 2])):
            talk.say(session, "put", k, r.choice([small(r), made(r, PAGE * r.choice([8, 13, 28, 60]))]))


def crowding(r, keys: list) -> list:
    """A transaction that wants few pages or none, of old keys or of a new one."""
    found = []
    for _ in range(r.choice([1, 1, 1, 2, 3])):
        k = key(r) if r.random() < 0.5 else r.choice(keys)
        wanted = made(r, r.choice([0, 1, 4096, 4097, 8192, 12288, 20480, 53248, PAGE * 60]))
        found.append(r.choice([("put", k, wanted), ("put", k, wanted), ("put", k, b"x:"), ("del", k)]))
    return found


# Room for states ----------------------------------------------------------------------------


def room(r) -> Case:
    """Contents whose states fill the room for states up to its last bytes. The last of them
    may replace others by ones with a longer or shorter state."""
    talk = Talk(r)
    rooms = r.choice([1, 1, 1, 2])
    target = PAGE * rooms + r.choice([-1, 0, 0, 0, 1, 1, 1, 2, r.randint(-40, 200)])
    shapes = {}  # from key to (extents, tail): what the store would hold
    transactions = []
    for count, more in r.choice([[(12, 0)], [(13, 0)], [(5, 0), (5, 0.4)], [(3, 0), (3, 0.4), (4, 0.4)]]):
        transactions.append([])
        for _ in range(count):
            k = r.choice(sorted(shapes)) if r.random() < more else new_key(r, shapes, r.choice([3, 20, 64]))
            extents = max(0, min(32, (target // 13 - 80 - len(k)) // 36 + r.randint(-2, 1)))
            shapes[k] = (extents, r.randint(0, 1))
            transactions[-1].append((k, made(r, size_of(r, *shapes[k]))))
    missing = target - sum(state_length(len(k), *shape) for k, shape in shapes.items())
    for length, extents, tail in shapes_of(r, missing):
        change = (new_key(r, shapes, length), made(r, size_of(r, extents, tail)))
        transactions[-1].insert(r.randint(0, len(transactions[-1])), change)
    talk.play_out([puts(changes) for changes in transactions])
    talk.read_back(sorted(shapes), big=True)
    return case_of(r, talk.lines, r.choice([1, 2, 8]), rooms)


def shapes_of(r, length: int) -> list:
    """A key's length, extents and tail for a state of just this length, or nothing."""
    shapes = [(extents, tail) for extents in range(41) for tail in (0, 1)]
    found = [(length - state_length(0, *shape), *shape) for shape in shapes]
    found = [one for one in found if 3 <= one[0] <= 64]
    return [r.choice(found)] if found else []


# Objects that the members of a group over a crowded room replace, with their extents and tails.
OLD = [b"demo/%c" % letter for letter in b"abcdefghijkl"]
OLD_SHAPE = (1, 1)
OLD_LENGTH = state_length(6, *OLD_SHAPE)


def crowded_room(r) -> Case:
    """A group over a room that has few bytes left: the growths of its first members are mostly
    just what is left, or one byte off."""
    talk = Talk(r)
    members = [growing(r, OLD[at]) for at in range(r.randint(2, 12))]
    fitting = members[: r.randint(1, min(4, len(members)))]
    left = max(0, sum(growth for growth, _ in fitting) + r.choice([-1, -1, 0, 0, 1, r.randint(0, 90)]))
    shapes = dict.fromkeys(OLD, OLD_SHAPE) | states_of(r, PAGE - left - len(OLD) * OLD_LENGTH)
    keys = list(shapes)
    overtaken = begin_reads(talk, keys)
    first = [(k, made(r, size_of(r, *shape))) for k, shape in shapes.items()]
    talk.play_out([puts(first[at : at + 16]) for at in range(0, len(first), 16)], [1, 3])
    add_changes(talk, overtaken, keys)
    talk.members([changes for _, changes in members], r.random() < 0.3, overtaken)
    talk.drain()
    talk.read_back(keys, big=True)
    return case_of(r, talk.lines)


def growing(r, old: bytes) -> tuple:
    """A transaction that changes an old key, new ones, or both, and how much longer it makes
    the states, where that is above zero."""
    changes = {}
    growth = 0
    for k in r.choice([[], [old], [old], [old, None], [None], [None], [None, None]]):
        k = k or new_key(r, [*changes, *OLD], r.choice([3, 10, 40, 64]))
        shape = (r.choice([0, 0, 1, 2, 5]), r.randint(0, 1))
        deleted = k == old and r.random() < 0.4
        changes[k] = ("del", k) if deleted else ("put", k, made(r, size_of(r, *shape)))
        growth += (0 if deleted else state_length(len(k), *shape)) - (OLD_LENGTH if k == old else 0)
    return max(0, growth), list(changes.values())


def states_of(r, total: int) -> dict:
    """Keys with extents and tails, whose states have this length together."""
    found = {}
    while total > 400:
        k = new_key(r, [*found, *OLD])
        found[k] = (r.randint(0, (total - 300) // 36 if total < 700 else 10), r.randint(0, 1))
        total -= state_length(len(k), *found[k])
    for length, extents, tail in shapes_of(r, total):
        found[new_key(r, [*found, *OLD], length)] = (extents, tail)
    return found


# Large scripts and contents -----------------------------------------------------------------


def large(r) -> Case:
    """Contents of megabytes, also read back now and then, and sizes past the greatest one."""
    talk = Talk(r)
    keys = some_keys(r, r.randint(1, 3))
    changes = []
    for k in keys:
        size = r.choice([border_size(r, 1020), border_size(r, 2044), r.randint(0, 4_000_000), 3_000_000])
        changes.append((k, made(r, size)))
    if r.random() < 0.1:
        changes.append((r.choice(keys), too_long(r)))
    transactions = [puts(changes)]
    if r.random() < 0.5:
        transactions.append(puts([(r.choice(keys), made(r, border_size(r, 1020)))]))
    talk.play_out(transactions)
    talk.read_back(keys, big=r.random() < 0.7)
    return case_of(r, talk.lines, r.choice([2, 4, 8]), r.choice([1, 4]))


def greatest(r) -> Case:
    """A content of the greatest size, in a store that is too small for it or just large enough:
    91 units hold it to the last page but three."""
    talk = Talk(r)
    talk.play_out([puts([(b"demo/a", made(r, GREATEST_SIZE - r.choice([0, 0, PAGE - 1, PAGE])))])])
    lines = talk.lines + [b"0 begin", b"0 stat demo/a"]
    return case_of(r, lines, r.choice([1, 90, 91]), r.choice([1, 2, 2]))


def million(r) -> Case:
    """About as many lines as a script may have, nearly all of them skipped."""
    count = r.choice([999_999, 1_000_000, 1_000_000, 1_000_001, 1_000_001, 1_000_002])
    lines = [r.choice(SKIPPED)] * count
    put = [b"3 begin", b"3 put demo/a x:61", b"3 commit", b"lead", b"3 begin", b"3 get demo/a"]
    for at, line in zip(sorted(r.sample(range(count), len(put))), put):
        lines[at] = line
    lines[-1] = r.choice([b"3 abort", b"lead", b"#", b"0 jump"])
    script = b"\n".join(lines) + r.choice([b"", b"\n"])
    return case_of(r, [])._replace(script=script)
