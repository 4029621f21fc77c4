"""Faults that are planted into the model of a store that lasts.

Each has a name and pieces of the model, of which every second one takes the place of the one before.
"""

COMMITS = [
    (
        "contents are written before the first sync",
        "        self.device.sync()\n"
        "        for entry in group.entries:\n"
        "            self.pour_all(entry)\n",
        "        for entry in group.entries:\n"
        "            self.pour_all(entry)\n"
        "        self.device.sync()\n",
    ),
    (
        "contents are written before the frame",
        "        gate = self.lay(spell_body(entries))\n"
        "        self.device.sync()\n"
        "        for entry in group.entries:\n"
        "            self.pour_all(entry)\n",
        "        for entry in group.entries:\n"
        "            self.pour_all(entry)\n"
        "        gate = self.lay(spell_body(entries))\n"
        "        self.device.sync()\n",
    ),
    (
        "the gate is opened before the contents",
        "        for entry in group.entries:\n"
        "            self.pour_all(entry)\n"
        "        self.device.write(gate, disk.GATE)\n",
        "        self.device.write(gate, disk.GATE)\n"
        "        for entry in group.entries:\n"
        "            self.pour_all(entry)\n",
    ),
    (
        "the gate is opened before the first sync",
        "        gate = self.lay(spell_body(entries))\n"
        "        self.device.sync()\n",
        "        gate = self.lay(spell_body(entries))\n"
        "        self.device.write(gate, disk.GATE)\n"
        "        self.device.sync()\n",
        "            self.pour_all(entry)\n"
        "        self.device.write(gate, disk.GATE)\n",
        "            self.pour_all(entry)\n",
    ),
    (
        "a lead has no first sync",
        "        gate = self.lay(spell_body(entries))\n"
        "        self.device.sync()\n",
        "        gate = self.lay(spell_body(entries))\n",
    ),
    (
        "a lead has no last sync",
        "        self.device.write(gate, disk.GATE)\n"
        "        self.device.sync()\n",
        "        self.device.write(gate, disk.GATE)\n",
    ),
    (
        "contents are synced apart",
        "        self.device.write(gate, disk.GATE)\n",
        "        self.device.sync()\n"
        "        self.device.write(gate, disk.GATE)\n",
    ),
    (
        "the gate is never opened",
        "        self.device.write(gate, disk.GATE)\n",
        "",
    ),
    (
        "the next gate isn't written",
        '        self.device.write(gate + 1 + count, b"")\n',
        "",
    ),
    (
        "the next gate is written before the body",
        "        count = self.device.write_all(gate + 1, body)\n"
        '        self.device.write(gate + 1 + count, b"")\n',
        "        count = disk.pages_of(len(body))\n"
        '        self.device.write(gate + 1 + count, b"")\n'
        "        self.device.write_all(gate + 1, body)\n",
    ),
    (
        "a group without a committing member writes a frame",
        "        if not group.entries:\n"
        "            return\n",
        "",
    ),
    (
        "an entry without changes isn't written",
        "        entries = [entry_of(entry) for entry in group.entries]\n",
        "        entries = [entry_of(entry) for entry in group.entries if entry.changes]\n"
        "        if not entries:\n"
        "            return\n",
    ),
    (
        "an entry without changes alone isn't written",
        "        if not group.entries:\n",
        "        if not any(entry.changes for entry in group.entries):\n",
    ),
    (
        "a delete isn't written",
        "        writes.append((key, state))\n",
        "        if state is not None:\n"
        "            writes.append((key, state))\n",
    ),
    (
        "changes are written in the order of the lines",
        "        for key in sorted(transaction.changes):\n"
        "            content = transaction.changes[key]\n",
        "        for key in transaction.changes:\n"
        "            content = transaction.changes[key]\n",
    ),
    (
        "contents are written in the order of keys, over all members",
        "        for entry in group.entries:\n"
        "            self.pour_all(entry)\n",
        "        changes = {key: blob for entry in group.entries for key, blob in entry.changes.items()}\n"
        "        self.pour_all(model.Entry(0, 0, 0, dict(sorted(changes.items()))))\n",
    ),
    (
        "a tail page is written first",
        "for page, held in zip(blob.pages(), disk.split(blob.content)):",
        "for page, held in sorted(zip(blob.pages(), disk.split(blob.content)), key=lambda one: one[0] != blob.tail):",
    ),
    (
        "pages are written in the order of their places",
        "for page, held in zip(blob.pages(), disk.split(blob.content)):",
        "for page, held in sorted(zip(blob.pages(), disk.split(blob.content))):",
    ),
    (
        "whole extents are written",
        "                for page, held in zip(blob.pages(), disk.split(blob.content)):\n",
        "                for head, of_tier in blob.owned():\n"
        "                    for page in set(range(head, head + 2**of_tier)) - set(blob.pages()):\n"
        "                        self.device.write(self.layout.data() + page, b'')\n"
        "                for page, held in zip(blob.pages(), disk.split(blob.content)):\n",
    ),
    (
        "a content that is written again keeps its page",
        "                for page, held in zip(blob.pages(), disk.split(blob.content)):\n",
        "                for page, held in zip(blob.pages(), disk.split(blob.content)):\n"
        "                    if self.device.page(self.layout.data() + page) == held:\n"
        "                        continue\n",
    ),
    (
        "an empty content takes a page",
        "        tail = space.take(0) if len(content) % PAGE else None\n",
        "        tail = space.take(0) if len(content) % PAGE or not content else None\n",
    ),
    (
        "a state has the number of its group's first entry",
        "        state = blob and disk.state_of(blob.content, blob.heads, blob.tail, entry.number)\n",
        "        state = blob and disk.state_of(blob.content, blob.heads, blob.tail, first)\n",
        "def entry_of(entry: model.Entry) -> Entry:\n",
        "def entry_of(entry: model.Entry, first: int) -> Entry:\n",
        "[entry_of(entry) for",
        "[entry_of(entry, group.entries[0].number) for",
    ),
    (
        "the last number isn't counted by the next lead",
        "        self.last = group.last\n",
        "",
    ),
    (
        "replaced states keep their places",
        "        self.last = group.last\n",
        "        self.last = group.last\n"
        "        states = [state for entry in entries for _, state in entry.writes if state]\n"
        "        self.old = getattr(self, 'old', []) + states\n",
        "        self.owned = [block for blob in store.blobs.values() for block in blob.owned()]\n",
        "        kept = [*store.blobs.values(), *getattr(store, 'old', [])]\n"
        "        self.owned = [block for blob in kept for block in blob.owned()]\n",
    ),
]

COUNTS = [
    (
        "every transaction is its session's first",
        "    session.transaction = Transaction(session.number, session.begun)\n",
        "    session.transaction = Transaction(session.number, 1)\n",
    ),
    (
        "transactions are counted from 0",
        "    session.transaction = Transaction(session.number, session.begun)\n",
        "    session.transaction = Transaction(session.number, session.begun - 1)\n",
    ),
    (
        "an aborted transaction isn't counted",
        "    session.transaction = None\n"
        '    return "aborted"\n',
        "    session.transaction = None\n"
        "    session.begun -= 1\n"
        '    return "aborted"\n',
    ),
    (
        "a refused begin counts",
        "    session.refuse_busy()\n"
        "    if session.transaction is not None:\n",
        "    session.begun += session.transaction is not None\n"
        "    session.refuse_busy()\n"
        "    if session.transaction is not None:\n",
    ),
    (
        "an entry tells another session",
        "        self.entries.append(Entry(self.last, transaction.session, transaction.nth, blobs))\n",
        "        self.entries.append(Entry(self.last, 15 - transaction.session, transaction.nth, blobs))\n",
    ),
    (
        "a refused transaction isn't counted",
        "        sessions[number].leave()\n",
        "        sessions[number].leave()\n"
        "        sessions[number].begun -= 'committed' not in lines[-1]\n",
    ),
    (
        "the last number of all isn't given",
        "if self.last == GREATEST_NUMBER:",
        "if self.last >= GREATEST_NUMBER - 1:",
    ),
    ("numbers don't run out", "        if self.last == GREATEST_NUMBER:\n", "        if False:\n"),
    (
        "a want of numbers tells the store's number",
        '            return f"no-number {self.last}"\n',
        '            return f"no-number {self.store.last}"\n',
    ),
    (
        "a want of numbers comes before conflicts",
        "        for key in sorted(transaction.reads):\n"
        "            read, now",
        "        if self.last == GREATEST_NUMBER:\n"
        '            return f"no-number {self.last}"\n'
        "        for key in sorted(transaction.reads):\n"
        "            read, now",
    ),
]

TURNS = [
    (
        "halves are turned where a frame just fits",
        "+ 1 > disk.LOG_PAGES - 1:",
        "+ 1 >= disk.LOG_PAGES - 1:",
    ),
    ("a frame's last gate stands behind the log", "+ 1 > disk.LOG_PAGES - 1:", "+ 1 > disk.LOG_PAGES:"),
    (
        "a frame needs no page for its next gate",
        "        if self.gate + disk.pages_of(len(body)) + 1 > disk.LOG_PAGES - 1:\n",
        "        if self.gate + disk.pages_of(len(body)) > disk.LOG_PAGES - 1:\n",
    ),
    (
        "halves are turned once the log is half full",
        "+ 1 > disk.LOG_PAGES - 1:",
        "+ 1 > disk.LOG_PAGES // 2:",
    ),
    (
        "halves are turned before a frame of several pages",
        "        if self.gate + disk.pages_of(len(body)) + 1 > disk.LOG_PAGES - 1:\n",
        "        if self.gate and len(body) > PAGE:\n"
        "            self.turn_halves()\n"
        "        if self.gate + disk.pages_of(len(body)) + 1 > disk.LOG_PAGES - 1:\n",
    ),
    (
        "a turn within a lead tells the group's number",
        "        gate = self.lay(spell_body(entries))\n",
        "        self.last = group.last\n"
        "        gate = self.lay(spell_body(entries))\n",
    ),
    (
        "a turn within a lead writes the group's states",
        "        gate = self.lay(spell_body(entries))\n",
        "        for entry in entries:\n"
        "            disk.apply(self.blobs, entry)\n"
        "        gate = self.lay(spell_body(entries))\n",
    ),
    (
        "a turn leaves the gate where it was",
        "        self.half, self.gate = half, 0\n",
        "        self.half = half\n",
    ),
    (
        "a turn leaves the first gate",
        '        self.device.write(self.layout.log(half), b"")\n',
        "",
    ),
    (
        "a turn writes the header first",
        "        self.device.write_all(self.layout.states(half), tuples)\n"
        "        self.device.write(self.layout.header(half), header)\n",
        "        self.device.write(self.layout.header(half), header)\n"
        "        self.device.write_all(self.layout.states(half), tuples)\n",
    ),
    (
        "a turn writes the gate before the header",
        "        self.device.write(self.layout.header(half), header)\n"
        '        self.device.write(self.layout.log(half), b"")\n',
        '        self.device.write(self.layout.log(half), b"")\n'
        "        self.device.write(self.layout.header(half), header)\n",
    ),
    (
        "a turn writes the selector before its first sync",
        "        self.device.sync()\n"
        '        self.device.write(0, disk.HALF_ONE if half else b"")\n',
        '        self.device.write(0, disk.HALF_ONE if half else b"")\n'
        "        self.device.sync()\n",
    ),
    (
        "a turn has no last sync",
        '        self.device.write(0, disk.HALF_ONE if half else b"")\n'
        "        self.device.sync()\n",
        '        self.device.write(0, disk.HALF_ONE if half else b"")\n',
    ),
    (
        "a turn writes states in the order in which they came",
        "for key in sorted(self.blobs))\n"
        "        header",
        "for key in self.blobs)\n"
        "        header",
    ),
    (
        "a turn writes all pages of the room",
        "        self.device.write_all(self.layout.states(half), tuples)\n",
        "        self.device.write_all(self.layout.states(half), tuples.ljust(self.room, b'\\0'))\n",
    ),
    (
        "a turn writes a page of no states",
        "        self.device.write_all(self.layout.states(half), tuples)\n",
        "        self.device.write_all(self.layout.states(half), tuples or b'\\0')\n",
    ),
    (
        "a turn tells the greatest number of a state",
        "        header = disk.spell_header(self.layout, self.last,",
        "        greatest = max([blob.born for blob in self.blobs.values()], default=0)\n"
        "        header = disk.spell_header(self.layout, greatest,",
    ),
    (
        "a turn writes the half that is picked",
        "        half = 1 - self.half\n"
        "        tuples",
        "        half = self.half\n"
        "        tuples",
    ),
    ("a checkpoint turns nothing", "        store.turn()\n        return Said(", "        return Said("),
    (
        "a checkpoint turns where the log has a frame",
        "        store.turn()\n"
        "        return Said(",
        "        store.gate and store.turn()\n"
        "        return Said(",
    ),
    (
        "a checkpoint drops the queue",
        "        store.turn()\n"
        "        return Said(",
        "        store.turn()\n"
        "        for number in queue:\n"
        "            sessions[number].leave()\n"
        "        queue.clear()\n"
        "        return Said(",
    ),
    (
        "a checkpoint leads the queue",
        "        store.turn()\n"
        "        return Said(",
        "        queue and lead(store, sessions, queue)\n"
        "        store.turn()\n"
        "        return Said(",
    ),
    (
        "a checkpoint drops open transactions",
        "        store.turn()\n"
        "        return Said(",
        "        store.turn()\n"
        "        for session in sessions:\n"
        "            session.queued or session.leave()\n"
        "        return Said(",
    ),
]

OPENINGS = [
    (
        "opening turns nothing",
        "    store = Store(device, found)\n"
        "    store.turn()\n",
        "    store = Store(device, found)\n",
    ),
    (
        "opening turns where the log has a frame",
        "    store = Store(device, found)\n"
        "    store.turn()\n",
        "    store = Store(device, found)\n"
        "    if found.frames:\n"
        "        store.turn()\n",
    ),
    (
        "opening doesn't sync",
        "    device.sync()\n"
        "    found = disk.read(device)\n",
        "    found = disk.read(device)\n",
    ),
    (
        "the end of a script turns halves",
        "        said, status = play(store, script, built)\n",
        "        said, status = play(store, script, built)\n"
        "        store.turn()\n",
    ),
    (
        "the end of a script leads what is queued",
        '    return said + [Said("end of the script", ())], 0\n',
        "    lead(store, sessions, queue)\n"
        '    return said + [Said("end of the script", ())], 0\n',
    ),
    (
        "a malformed line undoes the leads",
        "    except Ended as end:\n"
        "        said = [",
        "    except Ended as end:\n"
        "        device.pages = dict(image.pages)\n"
        "        said = [",
        "            return said + [Said(end.cause, (end.closing.format(number),))], end.status\n",
        "            raise\n",
    ),
    (
        "what was found isn't owned",
        "        self.owned = [block for blob in store.blobs.values() for block in blob.owned()]\n",
        "        first = getattr(store, 'opened', 0)\n"
        "        new = [blob for blob in store.blobs.values() if getattr(blob, 'born', 1) > first]\n"
        "        self.owned = [block for blob in new for block in blob.owned()]\n",
        "        self.last = found.last\n",
        "        self.last = self.opened = found.last\n",
    ),
    (
        "numbers begin again",
        "        self.last = found.last\n",
        "        self.last = max([state.born for state in found.states.values()], default=0)\n",
    ),
    (
        "a dropped entry's number is used again",
        "    store.last = entries[-1].number\n",
        "    store.last = kept[-1].number if kept else store.last\n",
    ),
    (
        "the last frame is kept whole",
        "if not is_last or entry_verifies(",
        "if True or entry_verifies(",
    ),
    (
        "the last frame is dropped",
        "if not is_last or entry_verifies(",
        "if not is_last and entry_verifies(",
    ),
    (
        "a new file isn't formatted",
        "        format_file(device, layout)\n",
        "        device.pages[layout.header(0)] = disk.spell_header(layout, 0, 0, 0)\n",
    ),
    (
        "formatting writes the selector first",
        "    device.write(layout.header(0), disk.spell_header(layout, 0, 0, 0))\n"
        '    device.write(layout.log(0), b"")\n'
        "    device.sync()\n"
        '    device.write(0, b"")\n',
        '    device.write(0, b"")\n'
        "    device.sync()\n"
        "    device.write(layout.header(0), disk.spell_header(layout, 0, 0, 0))\n"
        '    device.write(layout.log(0), b"")\n',
    ),
    (
        "formatting leaves the first gate",
        '    device.write(layout.log(0), b"")\n',
        "",
    ),
    (
        "steps makes a file where there is none",
        '    makes = form["form"] in ("format", "fresh")\n',
        '    makes = form["form"] in ("format", "fresh") or image is None\n'
        '    form = {"UNITS": 1, "ROOM": 1} | form\n',
    ),
    (
        "a refused store is formatted",
        "    if isinstance(found, disk.Refusal):\n"
        "        said = [",
        "    if isinstance(found, disk.Refusal):\n"
        "        if device.count >= 2053:\n"
        "            format_file(device, disk.Layout(1, 1))\n"
        "        said = [",
    ),
]

DAMAGE = [
    (
        "a damaged content is shown",
        "        if link is not None:\n            raise",
        "        if False:\n            raise",
    ),
    (
        "a damaged content is no end",
        '            raise Ended((9, disk_forms.damaged(key, link)), "get")\n',
        "            raise model.Refused(disk_forms.damaged(key, link))\n",
    ),
    (
        "a damaged content is absent",
        '            raise Ended((9, disk_forms.damaged(key, link)), "get")\n',
        "            raise model.Refused('absent')\n",
    ),
    (
        "the digest alone is checked",
        "        if link is not None:\n            raise",
        "        if link is not None and link.is_digest:\n            raise",
    ),
    (
        "a stat checks the content",
        "        return self.blobs[key].size, self.blobs[key].digest.hex()\n",
        "        self.content(key)\n"
        "        return self.blobs[key].size, self.blobs[key].digest.hex()\n",
    ),
    (
        "a stat shows the digest of what is there",
        "        return self.blobs[key].size, self.blobs[key].digest.hex()\n",
        "        pages = [self.device.page(self.layout.data() + page) for page in disk.places(self.blobs[key])]\n"
        "        return model.size_and_digest(b''.join(pages)[: self.blobs[key].size])\n",
    ),
    (
        "a delete checks the content",
        "    transaction.read(store, key)\n"
        "    transaction.changes[key] = None\n",
        "    transaction.read(store, key)\n"
        "    transaction.content(store, key)\n"
        "    transaction.changes[key] = None\n",
    ),
    (
        "a content is shown as its first bytes tell",
        "        pages = disk.places(state)\n"
        "        return b",
        "        if state.size <= 32:\n"
        "            return state.prefix[: state.size]\n"
        "        pages = disk.places(state)\n"
        "        return b",
    ),
    (
        "a damaged content has another status",
        "raise Ended((9, disk_forms.damaged",
        "raise Ended((6, disk_forms.damaged",
    ),
]

LASTING_FAULTS = COMMITS + COUNTS + TURNS + OPENINGS + DAMAGE
