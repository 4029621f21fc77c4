"""Shows that the random cases find faults: each is planted into a copy of the model, and the
cases are counted by which the copy and the model part.

    python3 outside/faults.py [N [SEED]]

Without N it takes 300 cases, without SEED those that `run.py` begins with. The exit status is 1
where no case tells a fault. Cases of a million lines and of the greatest size are left out.
"""

import sys
import types
from pathlib import Path

sys.dont_write_bytecode = True  # nothing is left beside this file

import cases
import model
from run import FIRST_SEED

SLOW = ("million", "greatest")

# Each fault: what it is, a piece of the model that stands there once, and what takes its place.
FAULTS = [
    # Groups
    (
        "a lead takes one request",
        "    while queue and not group.ends_before(sessions[queue[0]].transaction):\n",
        "    for _ in range(1):\n",
    ),
    (
        "a group goes past a changed key",
        "return any(transaction.touches(key) for key in self.changed)",
        "return False",
    ),
    (
        "a group ends only before a change of a changed key",
        "return any(transaction.touches(key) for key in self.changed)",
        "return any(key in transaction.changes for key in self.changed)",
    ),
    (
        "a group ends only before a read of a changed key",
        "return any(transaction.touches(key) for key in self.changed)",
        "return any(key in transaction.reads for key in self.changed)",
    ),
    (
        "a group ends before a key that it read",
        "        self.changed.update(blobs)\n",
        "        self.changed.update(dict.fromkeys(transaction.reads) | blobs)\n",
    ),
    (
        "a group ends at a key that a refused member changes",
        "        space = Space(self.owned, self.store.data_pages)\n",
        "        self.hit = getattr(self, 'hit', set()) | set(transaction.changes)\n"
        "        self.ends_before = lambda one: any(one.touches(key) for key in self.hit)\n"
        "        space = Space(self.owned, self.store.data_pages)\n",
    ),
    (
        "a group ends after a refused member",
        "        sessions[number].leave()\n",
        "        sessions[number].leave()\n"
        "        if 'committed' not in lines[-1]:\n"
        "            break\n",
    ),
    (
        "a group has at most fifteen members",
        "    while queue and not group.ends_before",
        "    while queue and len(lines) < 15 and not group.ends_before",
    ),
    (
        "a group is led from the back of the queue",
        "    group = Group(store)\n"
        "    lines = []\n",
        "    group = Group(store)\n"
        "    lines = []\n"
        "    queue.reverse()\n",
    ),
    # Replies
    (
        "a conflict names the greatest key",
        "for key in sorted(transaction.reads):",
        "for key in sorted(transaction.reads, reverse=True):",
    ),
    (
        "a conflict names the key read first",
        "for key in sorted(transaction.reads):",
        "for key in list(transaction.reads):",
    ),
    (
        "a conflict on a key that the member changes itself isn't seen",
        "            if read != now:\n",
        "            if read != now and key not in transaction.changes:\n",
    ),
    (
        "a conflict on a key that was absent isn't seen",
        "            if read != now:\n",
        "            if read != now and read is not None:\n",
    ),
    (
        "a conflict on a key that is gone isn't seen",
        "            if read != now:\n",
        "            if read != now and now:\n",
    ),
    (
        "places come before conflicts",
        "        for key in sorted(transaction.reads):\n"
        "            read,",
        "        full = Space(self.owned, self.store.data_pages)\n"
        "        try:\n"
        "            for key in sorted(transaction.changes):\n"
        "                transaction.changes[key] is None or self.place(full, transaction.changes[key])\n"
        "        except NoSpace as none:\n"
        "            return f'no-space {key.decode()} {none}'\n"
        "        for key in sorted(transaction.reads):\n"
        "            read,",
    ),
    (
        "a refused member takes a number",
        "        sessions[number].leave()\n",
        "        sessions[number].leave()\n"
        "        group.last += 0 if 'committed' in lines[-1] else 1\n",
    ),
    (
        "a number of a group isn't counted by the next lead",
        "        self.store.last = self.last\n",
        "        self.store.last += 1 if self.last > self.store.last else 0\n",
    ),
    (
        "the last number isn't counted",
        "        self.store.last = self.last\n",
        "        self.store.last = 0\n",
    ),
    (
        "a transaction without changes takes no number",
        "        self.last += 1\n",
        "        self.last += 1 if transaction.changes else 0\n",
    ),
    (
        "room comes before places",
        "        space = Space(self.owned, self.store.data_pages)\n",
        "        changes = transaction.changes.items()\n"
        "        wanted = [(key, None if held is None else Blob(held, 0, (), None)) for key, held in changes]\n"
        "        need = max(0, sum(self.lengthening(key, blob) for key, blob in wanted))\n"
        "        need += self.store.states_length() + self.growth\n"
        "        if need > self.store.room:\n"
        "            return f'no-room {need} {self.store.room}'\n"
        "        space = Space(self.owned, self.store.data_pages)\n",
    ),
    # Places
    (
        "a member without room keeps its places",
        "        if need > self.store.room:\n",
        "        if need > self.store.room:\n"
        "            self.owned += [block for blob in blobs.values() if blob for block in blob.owned()]\n",
    ),
    (
        "a member without space keeps its places",
        "            except NoSpace as none:\n",
        "            except NoSpace as none:\n"
        "                self.owned += [block for blob in blobs.values() if blob for block in blob.owned()]\n",
    ),
    (
        "a member uses the places that it replaces itself",
        "        space = Space(self.owned, self.store.data_pages)\n",
        "        old = [block for key in transaction.changes if key in self.store.blobs\n"
        "               for block in self.store.blobs[key].owned()]\n"
        "        space = Space([one for one in self.owned if one not in old], self.store.data_pages)\n",
    ),
    (
        "a member uses the places that earlier members replace",
        "        space = Space(self.owned, self.store.data_pages)\n",
        "        old = [block for key in self.changed if key in self.store.blobs\n"
        "               for block in self.store.blobs[key].owned()]\n"
        "        space = Space([one for one in self.owned if one not in old], self.store.data_pages)\n",
    ),
    (
        "members are placed over each other",
        "        self.owned += [block for",
        "        [] + [block for",
    ),
    (
        "places are taken in the order of the lines",
        "for key in sorted(transaction.changes):",
        "for key in transaction.changes:",
    ),
    (
        "the tail is placed first",
        "        heads = tuple(space.take(tier(i)) for i in range(extents_of(len(content))))\n"
        "        tail = space.take(0) if len(content) % PAGE else None\n",
        "        tail = space.take(0) if len(content) % PAGE else None\n"
        "        heads = tuple(space.take(tier(i)) for i in range(extents_of(len(content))))\n",
    ),
    (
        "the last page isn't used",
        "len(self.taken) - width + 1, width",
        "len(self.taken) - width, width",
    ),
    ("extents aren't aligned", "len(self.taken) - width + 1, width)", "len(self.taken) - width + 1)"),
    (
        "a deleted object keeps its places",
        "            self.store.blobs.pop(key, None)\n",
        "            gone = self.store.blobs.pop(key, None)\n"
        "            if blob is None and gone:\n"
        "                self.store.lost = getattr(self.store, 'lost', []) + gone.owned()\n",
    ),
    # Room
    ("a negative growth counts", "growth = max(0, sum(", "growth = (sum("),
    (
        "growths above zero are summed key by key",
        "growth = max(0, sum(self.lengthening(key, blob) for",
        "growth = max(0, sum(max(0, self.lengthening(key, blob)) for",
    ),
    ("a growth is forgotten by the next member", "        self.growth += growth\n", ""),
    ("a replaced state is counted too", "return lengths[1] - lengths[0]", "return lengths[1]"),
    ("a room is full one byte too early", "if need > self.store.room:", "if need >= self.store.room:"),
    (
        "a room is full one byte too late",
        "if need > self.store.room:",
        "if need > self.store.room + 1:",
    ),
    # Transactions
    (
        "a key that was put goes stale",
        "if key in self.reads and key not in self.changes and self.reads[key] != now:",
        "if key in self.reads and self.reads[key] != now:",
    ),
    (
        "no read is stale",
        "if key in self.reads and key not in self.changes and self.reads[key] != now:",
        "if False:",
    ),
    (
        "a later read is recorded in place of the first",
        "        if not self.touches(key):\n"
        "            self.reads[key]",
        "        if True:\n"
        "            self.reads[key]",
    ),
    (
        "a read of a key that was put is recorded",
        "        if not self.touches(key):\n"
        "            self.reads[key]",
        "        if key not in self.reads:\n"
        "            self.reads[key]",
    ),
    (
        "a read of an absent key isn't recorded",
        "        if not self.touches(key):\n"
        "            self.reads[key]",
        "        if not self.touches(key) and key in store.blobs:\n"
        "            self.reads[key]",
    ),
    (
        "a delete records no read",
        "    transaction.read(store, key)\n"
        "    transaction.changes[key] = None\n",
        "    new = not transaction.touches(key)\n"
        "    transaction.read(store, key)\n"
        "    transaction.changes[key] = None\n"
        "    if new:\n"
        "        del transaction.reads[key]\n",
    ),
    (
        "a put records a read",
        "    transaction.changes[key] = content.bytes()\n",
        "    transaction.reads.setdefault(key, store.number(key))\n"
        "    transaction.changes[key] = content.bytes()\n",
    ),
    (
        "a get after a delete gives the old content",
        "            return self.changes[key] is not None\n"
        "        return key in store.blobs\n",
        "            return self.changes[key] is not None or key in store.blobs\n"
        "        return key in store.blobs\n",
    ),
    (
        "a delete after a put keeps the put",
        "    transaction.changes[key] = None\n",
        "    transaction.changes.setdefault(key, None)\n",
    ),
    (
        "a put after a delete is lost",
        "    transaction.changes[key] = content.bytes()\n",
        "    if transaction.changes.get(key, content) is not None:\n"
        "        transaction.changes[key] = content.bytes()\n",
    ),
    (
        "a delete of an own put leaves no change",
        "    transaction.changes[key] = None\n",
        "    transaction.changes[key] = None\n"
        "    if key not in store.blobs:\n"
        "        del transaction.changes[key]\n",
    ),
    (
        "a refused content still touches its key",
        '        raise Refused(f"too-long',
        "        transaction.changes[key] = b''\n"
        '        raise Refused(f"too-long',
    ),
    (
        "sixteen keys are refused",
        "touched == KEYS_OF_A_TRANSACTION:",
        "touched >= KEYS_OF_A_TRANSACTION - 1:",
    ),
    (
        "seventeen keys are let through",
        "touched == KEYS_OF_A_TRANSACTION:",
        "touched == KEYS_OF_A_TRANSACTION + 1:",
    ),
    (
        "a key that was read and changed is counted twice",
        "touched = len(self.reads.keys() | self.changes.keys())\n"
        "        if not self.touches(key) and touched ==",
        "touched = len(self.reads) + len(self.changes)\n"
        "        if not self.touches(key) and touched >=",
    ),
    (
        "a touched key is refused too once there are sixteen",
        "if not self.touches(key) and touched ==",
        "if touched ==",
    ),
    (
        "a refused seventeenth key is recorded",
        '            raise Refused(f"too-many',
        "            self.reads[key] = None\n"
        '            raise Refused(f"too-many',
    ),
    (
        "an abort leaves the transaction",
        "    session.transaction = None\n"
        '    return "aborted"',
        '    return "aborted"',
    ),
    (
        "an abort while queued is let through",
        "    session.open_transaction()\n"
        "    session.transaction = None\n",
        "    if session.transaction is None:\n"
        "        raise Refused('no-transaction')\n"
        "    if not session.queued:\n"
        "        session.transaction = None\n",
    ),
    (
        "a refused member keeps its transaction",
        "        sessions[number].leave()\n",
        "        sessions[number].queued = False\n"
        "        if 'committed' in lines[-1]:\n"
        "            sessions[number].leave()\n",
    ),
    # Pages
    (
        "a tail page keeps what was behind the tail",
        '.ljust(PAGE, b"\\0")',
        " + self.disk.get(page, bytes(PAGE))[len(blob.content[PAGE * i : PAGE * (i + 1)]) :]",
    ),
    (
        "unused pages of an extent are cleared",
        "        for i, page in enumerate(blob.pages()):\n",
        "        for head, of_tier in blob.owned():\n"
        "            self.disk.update(dict.fromkeys(range(head, head + 2**of_tier), bytes(PAGE)))\n"
        "        for i, page in enumerate(blob.pages()):\n",
    ),
    (
        "pages of a deleted object are cleared",
        "            self.store.blobs.pop(key, None)\n",
        "            gone = self.store.blobs.pop(key, None)\n"
        "            if blob is None and gone:\n"
        "                self.store.disk.update(dict.fromkeys(gone.pages(), bytes(PAGE)))\n",
    ),
    (
        "a member without room is written all the same",
        "        if need > self.store.room:\n",
        "        if need > self.store.room:\n"
        "            [self.store.pour(blob) for blob in blobs.values() if blob]\n",
    ),
    # Lines
    (
        "skipped lines aren't counted",
        "            said.append(answered",
        "            skipped += step is None\n"
        "            said.append(answered",
    ),
    ("a comment behind a blank is skipped", 'line.startswith(b"#")', 'line.lstrip().startswith(b"#")'),
    (
        "a long comment is skipped",
        "if len(line) > LONGEST_LINE:",
        "if len(line) > LONGEST_LINE and line[:1] != b'#':",
    ),
    (
        "a line may be one byte longer",
        "if len(line) > LONGEST_LINE:",
        "if len(line) > LONGEST_LINE + 1:",
    ),
    (
        "a line must be one byte shorter",
        "if len(line) > LONGEST_LINE:",
        "if len(line) >= LONGEST_LINE:",
    ),
    (
        "a malformed line of a verb that is not built is not built",
        "    if step is None:\n"
        "        raise Ended(MALFORMED",
        "    if step is None and line.split(b' ')[1:2] == [b'append']:\n"
        "        raise Ended(NOT_BUILT, 'append')\n"
        "    if step is None:\n"
        "        raise Ended(MALFORMED",
    ),
    (
        "session 15 is malformed",
        "session = read_number(words[0], 0, 15)",
        "session = read_number(words[0], 0, 14)",
    ),
    (
        "session 16 is let through",
        "session = read_number(words[0], 0, 15)",
        "session = read_number(words[0], 0, 16)",
    ),
]

# Pieces that a planted fault needs elsewhere in the model.
HELPS = {
    "skipped lines aren't counted": [
        ("    said = []\n    for number,", "    said = []\n    skipped = 0\n    for number,"),
        ("step = read_line(number, line", "step = read_line(number - skipped, line"),
        ("end.closing.format(number)", "end.closing.format(number - skipped)"),
    ],
    "a deleted object keeps its places": [
        (
            "self.owned = [block for blob in store.blobs.values() for block in blob.owned()]",
            "self.owned = [block for blob in store.blobs.values() for block in blob.owned()]\n"
            "        self.owned += getattr(store, 'lost', [])",
        ),
    ],
    "a get after a delete gives the old content": [
        (
            "return self.changes[key] if key in self.changes else store.content(key)",
            "return self.changes[key] if self.changes.get(key) is not None else store.content(key)",
        ),
        (
            "return size_and_digest(self.changes[key]) if key in self.changes else store.size_and_digest(key)",
            "return size_and_digest(self.content(store, key))",
        ),
    ],
    "session 16 is let through": [("for number in range(16)]", "for number in range(17)]")],
}


def planted(name: str, old: str, new: str) -> types.ModuleType:
    """A copy of the model with this fault."""
    source = Path(model.__file__).read_text()
    for piece, other in [(old, new), *HELPS.get(name, [])]:
        if source.count(piece) != 1:
            raise SystemExit(f"{name}: its piece stands {source.count(piece)} times in the model")
        source = source.replace(piece, other)
    copy = types.ModuleType("planted")
    exec(compile(source, name, "exec"), copy.__dict__)
    copy.made_circle = model.made_circle  # which has made most of them already
    return copy


def outcome(of_model, case: cases.Case) -> tuple:
    """What a run shows: the text, the status and the file. A fault may also make it fail."""
    try:
        return of_model.run(case.words, case.script, case.opens, of_model.BUILT)[:5]
    except Exception as failed:
        return (type(failed).__name__,)


def main(arguments: list) -> int:
    count, first = [*map(int, arguments), *(300, FIRST_SEED)[len(arguments) :]]
    made = [cases.make(seed) for seed in range(first, first + count)]
    made = [case for case in made if case.kind not in SLOW]
    wanted = [outcome(model, case) for case in made]
    missed = 0
    for name, old, new in FAULTS:
        copy = planted(name, old, new)
        parted = sum(outcome(copy, case) != right for case, right in zip(made, wanted))
        missed += parted == 0
        print(f"{parted:5} of {len(made)}  {name}", flush=True)
    print(f"{len(FAULTS) - missed} of {len(FAULTS)} faults told")
    return 1 if missed else 0


if __name__ == "__main__":
    sys.exit(main(sys.argv[1:]))
