"""Faults that are planted into the model of disks: the order of refusals, halves and tuples.

Each is what it is, a piece of the model that stands there once, and what takes its place; some go
on with further pieces.
"""

HALF_FAULTS = [
    ("a store of 2052 pages is read", '    refuse_small(LEAST_PAGES, image, "no store is that small")\n', ""),
    (
        "the layout is judged behind all fields",
        '        refuse_small(layout.total(), image, "the layout is larger")\n'
        '        last = header.number("last number", 8, 0, GREATEST_NUMBER)\n'
        '        count = header.number("count", 4, 0, 2**32)\n'
        '        length = header.number("length", 4, 0, PAGE * layout.room)\n',
        '        last = header.number("last number", 8, 0, GREATEST_NUMBER)\n'
        '        count = header.number("count", 4, 0, 2**32)\n'
        '        length = header.number("length", 4, 0, PAGE * layout.room)\n'
        '        refuse_small(layout.total(), image, "the layout is larger")\n',
    ),
    ("the layout isn't judged", '        refuse_small(layout.total(), image, "the layout is larger")\n', ""),
    (
        "a layout must be the whole file",
        "    if image.count < need:\n",
        "    if image.count < need or need != LEAST_PAGES and image.count != need:\n",
    ),
    (
        "the count is judged before the tuples",
        "    store = Store(layout, half, last, read_tuples(tuples, count, half, last, layout.data_pages()))\n",
        "    if count * 80 > length:\n"
        '        raise Refused(f"bad-half {half} 28", "")\n'
        "    store = Store(layout, half, last, read_tuples(tuples, count, half, last, layout.data_pages()))\n",
    ),
    ("the count isn't compared", "    if tuples.at < length:\n", "    if False:\n"),
    (
        "tuples are read up to the length",
        "    for _ in range(count):\n"
        "        judge_key",
        "    while tuples.at < len(tuples.held):\n"
        "        judge_key",
    ),
    (
        "blocks owned twice aren't seen",
        "    refuse_owned_twice(store)\n"
        "    return store\n",
        "    return store\n",
    ),
    (
        "blocks owned twice are seen before the log",
        "    read_log(image, store)\n"
        "    refuse_owned_twice(store)\n",
        "    refuse_owned_twice(store)\n"
        "    read_log(image, store)\n",
    ),
    ("one state may own a page twice", "        if head < end:\n", "        if head < end and key != owner:\n"),
    (
        "the page named is the first of the earlier block",
        'raise Refused(f"owned-twice {head}"',
        'raise Refused(f"owned-twice {sorted(blocks)[0][0]}"',
    ),
    ("tails aren't owned", "return extents + ([] if self.tail is None else [(self.tail, 0)])", "return extents"),
    (
        "the selector is compared whole",
        "if image.page(0).startswith(HALF_ONE) else 0",
        "if image.page(0) == HALF_ONE.ljust(PAGE, b'\\0') else 0",
    ),
    (
        "any selector but zeros picks half 1",
        "half = 1 if image.page(0).startswith(HALF_ONE) else 0",
        "half = 1 if image.page(0) != ZEROS else 0",
    ),
    ("the selector isn't read", "half = 1 if image.page(0).startswith(HALF_ONE) else 0", "half = 0"),
    ("any version is read", 'header.number("version", 4, 1, 1)', 'header.number("version", 4, 0, 2**32)'),
    ("16,385 units are let through", 'header.number("units", 4, 1, 16_384)', 'header.number("units", 4, 1, 16_385)'),
    (
        "a room of 1025 pages is let through",
        'header.number("room", 4, 1, 1024))',
        'header.number("room", 4, 1, 1025))',
    ),
    (
        "a last number of 2^62 is refused",
        'header.number("last number", 8, 0, GREATEST_NUMBER)',
        'header.number("last number", 8, 0, GREATEST_NUMBER - 1)',
    ),
    (
        "a last number isn't bounded",
        'header.number("last number", 8, 0, GREATEST_NUMBER)',
        'header.number("last number", 8, 0, 2**64)',
    ),
    (
        "a full room is refused",
        'header.number("length", 4, 0, PAGE * layout.room)',
        'header.number("length", 4, 0, PAGE * layout.room - 1)',
    ),
    (
        "a length may be one byte more",
        'header.number("length", 4, 0, PAGE * layout.room)',
        'header.number("length", 4, 0, PAGE * layout.room + 1)',
    ),
    (
        "a key may come again",
        "None if new > before else \"key doesn't rise\"",
        "None if new >= before else \"key doesn't rise\"",
    ),
    ("keys needn't rise in a half", "None if new > before else \"key doesn't rise\"", "None"),
    (
        "a key that doesn't rise is named by its first byte",
        "    if rule:\n"
        "        raise Broken(rule, start)\n",
        "    if rule:\n"
        "        raise Broken(rule, at)\n",
    ),
    (
        "a bad key is named by its first byte",
        'raise Broken("key malformed", at + place)',
        'raise Broken("key malformed", at)',
    ),
    (
        "a bad key is named by its length",
        'raise Broken("key malformed", at + place)',
        'raise Broken("key malformed", start)',
    ),
    (
        "a key cut short is judged by its bytes",
        '    key = fields.take("key", length)\n',
        "    place = bad_place(fields.held[at : at + length])\n"
        "    if place is not None and at + place < len(fields.held):\n"
        '        raise Broken("key malformed", at + place)\n'
        '    key = fields.take("key", length)\n',
    ),
    ("a name may have 48 characters", "(?:/[a-z0-9._-]{0,47})?", "(?:/[a-z0-9._-]{0,48})?"),
    ("a relation may have 17 characters", 'rb"[a-z0-9._-]{1,16}(?:', 'rb"[a-z0-9._-]{1,17}(?:'),
    ("a number above the last one is let through", 'None if born <= last else "born above the last number"', "None"),
    (
        "a number equal to the last one is refused",
        'None if born <= last else "born above the last number"',
        'None if born < last else "born above the last number"',
    ),
    (
        "a number 0 is let through",
        'born = fields.number("born", 8, 1, GREATEST_NUMBER)',
        'born = fields.number("born", 8, 0, GREATEST_NUMBER)',
    ),
    ("a prefix isn't judged", "    if any(prefix[size:]):\n", "    if False:\n"),
    ("heads needn't be aligned", "    if head % width:\n", "    if False:\n"),
    (
        "an extent may not end at the data area's end",
        'fields.number("head", 4, 0, max(0, data_pages - width))',
        'fields.number("head", 4, 0, max(0, data_pages - width - 1))',
    ),
    (
        "a tail may stand one page past the data area",
        'fields.number("tail", 4, 0, data_pages - 1)',
        'fields.number("tail", 4, 0, data_pages)',
    ),
    (
        "every state has a tail",
        " if size % PAGE else None\n"
        "    heads",
        " if size else None\n"
        "    heads",
    ),
    (
        "a field cut short is named by the form's end",
        '            raise Broken(f"{name} cut short", self.at)',
        '            raise Broken(f"{name} cut short", len(self.held))',
    ),
    (
        "offsets are counted from the tuple",
        "        try:\n"
        "            key, state = read_tuple(",
        "        begun = tuples.at\n"
        "        try:\n"
        "            key, state = read_tuple(",
        'raise Refused(f"bad-tuple {half} {broken.at}"',
        'raise Refused(f"bad-tuple {half} {broken.at - begun}"',
    ),
    (
        "that a key rises is judged behind its tuple",
        "    key = read_key(fields, judge_key)\n"
        "    size",
        "    start = fields.at\n"
        "    key = read_key(fields, lambda key: None)\n"
        "    size",
        "    return key, State(size",
        "    rule = judge_key(key)\n"
        "    if rule:\n"
        "        raise Broken(rule, start)\n"
        "    return key, State(size",
    ),
    (
        "that a number is above the last one is judged behind its tuple",
        "    rule = judge_born(born)\n"
        "    if rule:\n"
        "        raise Broken(rule, at)\n"
        "    digest",
        "    born_at = at\n"
        "    digest",
        "    return key, State(size",
        "    rule = judge_born(born)\n"
        "    if rule:\n"
        "        raise Broken(rule, born_at)\n"
        "    return key, State(size",
    ),
    (
        "states of a half that don't verify are dropped",
        "    store = read_half(image, half)\n",
        "    store = read_half(image, half)\n"
        "    for key, state in list(store.states.items()):\n"
        "        if failing_link(image, store.layout, state) is not None:\n"
        "            del store.states[key]\n",
    ),
    (
        "extents are owned as one page",
        "extents = [(head, tier(i)) for i, head in enumerate(self.heads)]",
        "extents = [(head, 0) for head in self.heads]",
    ),
]
