"""Faults that are planted into the model of disks: the log, entries, links, the turn and the forms.

They are written as those in half_faults.py.
"""

LOG_FAULTS = [
    (
        "the first gate is taken for closed",
        "    while is_open(image, log + gate):\n",
        "    while gate and is_open(image, log + gate):\n",
    ),
    ("a gate is compared whole", "return image.page(page).startswith(GATE)", "return image.page(page) == OPEN_GATE"),
    ("any gate but zeros is open", "return image.page(page).startswith(GATE)", "return image.page(page) != ZEROS"),
    (
        "one frame is read",
        "            gate = read_frame(image, store, gate)\n",
        "            gate = read_frame(image, store, gate)\n"
        "            break\n",
    ),
    (
        "a bad frame ends the log",
        '            line = f"bad-frame {store.half} {gate}"\n',
        "            if gate:\n"
        "                return\n"
        '            line = f"bad-frame {store.half} {gate}"\n',
    ),
    (
        "a bad frame is named by its number",
        'line = f"bad-frame {store.half} {gate}"',
        'line = f"bad-frame {store.half} {store.frames}"',
    ),
    (
        "a bad frame is named by its body",
        'line = f"bad-frame {store.half} {gate}"',
        'line = f"bad-frame {store.half} {gate + 1}"',
    ),
    ("the last frame is kept whole", "if not is_last or entry_verifies(", "if True or entry_verifies("),
    ("earlier frames are kept where they verify", "if not is_last or entry_verifies(", "if entry_verifies("),
    (
        "a last frame is kept whole or not at all",
        "    for entry in kept:\n"
        "        apply(store.states, entry)\n",
        "    for entry in kept if len(kept) == len(entries) else []:\n"
        "        apply(store.states, entry)\n",
    ),
    (
        "entries behind a dropped one are dropped",
        "    for entry in kept:\n"
        "        apply(store.states, entry)\n",
        "    for entry, one in zip(kept, entries):\n"
        "        if entry is not one:\n"
        "            break\n"
        "        apply(store.states, entry)\n",
    ),
    (
        "an entry is kept where one of its states verifies",
        "return all(failing_link(image, layout, state) is None for state in states)",
        "return not states or any(failing_link(image, layout, state) is None for state in states)",
    ),
    (
        "a dropped entry's number is used again",
        "    store.last = entries[-1].number\n",
        "    store.last = kept[-1].number if kept else store.last\n",
    ),
    ("room isn't judged behind a frame", "    if store.length() > PAGE * store.layout.room:\n", "    if False:\n"),
    (
        "a room that is full is too small behind a frame",
        "    if store.length() > PAGE * store.layout.room:\n",
        "    if store.length() >= PAGE * store.layout.room:\n",
    ),
    (
        "room is judged behind the last frame alone",
        "    if store.length() > PAGE * store.layout.room:\n",
        "    if is_last and store.length() > PAGE * store.layout.room:\n",
    ),
    (
        "a body's next gate may be past the log",
        "if gate + pages_of(length) + 1 > LOG_PAGES - 1:",
        "if gate + pages_of(length) + 1 > LOG_PAGES:",
    ),
    (
        "the last page can't be a gate",
        "if gate + pages_of(length) + 1 > LOG_PAGES - 1:",
        "if gate + pages_of(length) + 1 > LOG_PAGES - 2:",
    ),
    (
        "the log of the other half is read",
        "    gate = 0\n"
        "    log = store.layout.log(store.half)\n",
        "    gate = 0\n"
        "    log = store.layout.log(0)\n",
    ),
    (
        "a body's text isn't judged",
        '    if head.take("text", 8) != BODY:\n',
        '    if head.take("text", 8) is None:\n',
    ),
    ("a number needn't be the next", "    if found != number:\n", "    if False:\n"),
    ("a body's first number isn't judged", "    if found != number:\n", "    if found != number and earlier:\n"),
    (
        "session 16 is let through",
        'session = fields.number("session", 1, 0, 15)',
        'session = fields.number("session", 1, 0, 16)',
    ),
    (
        "session 15 is refused",
        'session = fields.number("session", 1, 0, 15)',
        'session = fields.number("session", 1, 0, 14)',
    ),
    (
        "a transaction 0 is let through",
        'nth = fields.number("nth", 8, 1, 2**64)',
        'nth = fields.number("nth", 8, 0, 2**64)',
    ),
    (
        "a transaction's count is bounded",
        'nth = fields.number("nth", 8, 1, 2**64)',
        'nth = fields.number("nth", 8, 1, 2**63)',
    ),
    (
        "an entry without writes is refused",
        'fields.number("count of writes", 1, 0, WRITES)',
        'fields.number("count of writes", 1, 1, WRITES)',
    ),
    ("fifteen writes are the most", "WRITES = 16  # most of an entry", "WRITES = 15  # most of an entry"),
    ("seventeen writes are let through", "WRITES = 16  # most of an entry", "WRITES = 17  # most of an entry"),
    ("fifteen entries are the most", "ENTRIES = 16  # most of a body", "ENTRIES = 15  # most of a body"),
    ("keys needn't rise in an entry", "        if key <= last_key:\n", "        if key == last_key:\n"),
    ("a key may stand in two entries", 'return "key in two entries" if key in earlier else None', "return None"),
    (
        "a state's number may be another than the entry's",
        "None if born == number else \"born not the entry's number\"",
        "None if born <= number else \"born not the entry's number\"",
    ),
    ("bytes past the last entry are let through", "    if fields.at < len(body):\n", "    if False:\n"),
    (
        "a delete of what isn't there is refused",
        "        states.pop(key, None)\n",
        "        if state is None and key not in states:\n"
        "            raise Broken('nothing to delete', 0)\n"
        "        states.pop(key, None)\n",
    ),
    (
        "a delete changes nothing",
        "        states.pop(key, None)\n",
        "        if state is None:\n"
        "            continue\n"
        "        states.pop(key, None)\n",
    ),
    (
        "a gate on the last page ends the log",
        "    while is_open(image, log + gate):\n",
        "    while gate + 1 < LOG_PAGES and is_open(image, log + gate):\n",
    ),
    (
        "a state must have its content's first bytes to be kept",
        "return all(failing_link(image, layout, state) is None for state in states)",
        "first = lambda state: image.page(layout.data() + (*state.heads, state.tail)[0])[: min(32, state.size)]\n"
        "    return all(\n"
        "        failing_link(image, layout, state) is None\n"
        "        and (not state.size or first(state).ljust(32, b'\\0') == state.prefix)\n"
        "        for state in states\n"
        "    )",
    ),
    (
        "a tail isn't checked",
        "    return None if digest == state.digest else Link(",
        "    return None if digest == state.digest or state.tail is not None else Link(",
    ),
    (
        "a digest is checked only where there is a tail",
        "    return None if digest == state.digest else Link(",
        "    return None if digest == state.digest or state.tail is None else Link(",
    ),
    (
        "the bytes behind a tail count",
        "[: state.size % PAGE]\n",
        "[: state.size % PAGE] + image.page(layout.data() + state.tail)[state.size % PAGE :].rstrip(b'\\0')\n",
    ),
    ("extents are checked whole", "        for j in range(used):\n", "        for j in range(2 ** tier(i)):\n"),
    (
        "a link is named from one on",
        "            return Link(i, state.marks[i], mark)",
        "            return Link(i + 1, state.marks[i], mark)",
    ),
    (
        "what is kept and what is found change places",
        "            return Link(i, state.marks[i], mark)",
        "            return Link(i, mark, state.marks[i])",
    ),
    ("marks aren't compared", "        if mark != state.marks[i]:\n", "        if False:\n"),
    (
        "digests are named without their extents",
        "Link(len(state.heads), state.digest, digest, True)",
        "Link(0, state.digest, digest, True)",
    ),
    (
        "the half that was read is written",
        "    layout, half = store.layout, 1 - store.half\n",
        "    layout, half = store.layout, store.half\n",
    ),
    ("the selector isn't written", '    pages[0] = HALF_ONE.ljust(PAGE, b"\\0") if half else ZEROS\n', ""),
    (
        "a selector keeps what was behind its text",
        '    pages[0] = HALF_ONE.ljust(PAGE, b"\\0") if half else ZEROS\n',
        "    pages[0] = (HALF_ONE if half else bytes(8)) + image.page(0)[8:]\n",
    ),
    ("the first gate isn't closed", "    pages[layout.log(half)] = ZEROS\n", ""),
    (
        "the second log page is cleared too",
        "    pages[layout.log(half)] = ZEROS\n",
        "    pages[layout.log(half)] = pages[layout.log(half) + 1] = ZEROS\n",
    ),
    (
        "a page of states keeps what was behind",
        "pages = {layout.states(half) + i: page for i, page in enumerate(split(tuples))}",
        "pages = {}\n"
        "    for i in range(pages_of(len(tuples))):\n"
        "        held = tuples[PAGE * i : PAGE * (i + 1)]\n"
        "        pages[layout.states(half) + i] = held + image.page(layout.states(half) + i)[len(held) :]",
    ),
    (
        "an empty half has a page of zeros",
        "    pages[layout.log(half)] = ZEROS\n",
        "    pages[layout.log(half)] = ZEROS\n"
        "    pages.setdefault(layout.states(half), ZEROS)\n",
    ),
    (
        "a header keeps what was behind its fields",
        "    pages[layout.header(half)] = spell_header(",
        "    spelled = lambda *fields: spell_header(*fields)[:36] + image.page(layout.header(half))[36:]\n"
        "    pages[layout.header(half)] = spelled(",
    ),
    (
        "the half that was read is cleared",
        "    pages[layout.log(half)] = ZEROS\n",
        "    pages[layout.log(half)] = pages[layout.header(store.half)] = ZEROS\n",
    ),
    (
        "a refused disk's selector is cleared",
        ".encode(), 6, None, image, found, ())",
        ".encode(), 6, None, image.having({0: disk.ZEROS}), found, ())",
    ),
    ("show tells no last number", '    return lines + [f"last {store.last}"]', "    return lines"),
    (
        "show tells the least number first",
        "    for key in sorted(store.states):\n"
        "        state = store.states[key]\n",
        "    for key in sorted(store.states, key=lambda key: (store.states[key].born, key)):\n"
        "        state = store.states[key]\n",
    ),
    (
        "check ends at the first damaged one",
        "            links.append(link)\n",
        "            if links:\n"
        "                continue\n"
        "            links.append(link)\n",
    ),
    ("a damaged store ends with status 0", "9 if links else 0", "0"),
    (
        "a damaged store isn't turned",
        "disk.turned(image, found), found, links)",
        "image if links else disk.turned(image, found), found, links)",
    ),
    (
        "show doesn't turn",
        "disk.turned(image, found), found, links)",
        'image if form["form"] == "show" else disk.turned(image, found), found, links)',
    ),
    (
        "a format keeps an older file's pages",
        '        made = disk.formatted(disk.Layout(form["UNITS"], form["ROOM"]))\n',
        '        made = disk.formatted(disk.Layout(form["UNITS"], form["ROOM"]))\n'
        "        older = {} if image is None else image.pages\n"
        "        older = {page: held for page, held in older.items() if page < made.count}\n"
        "        made = disk.Image(made.count, older | made.pages | {0: disk.ZEROS, 3: disk.ZEROS})\n",
    ),
    ("a file that isn't there is made", 'image is None and form["form"] != "format"', "False"),
]
