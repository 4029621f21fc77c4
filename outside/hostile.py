"""Hostile disks: what is done to a good one, field by field, form by form and page by page.

Each function changes the forms of a disk, or the file that they were spelled to. What comes of it
is the model's to say: some of these disks are good ones still.
"""

from typing import Optional

import disk
from build import Field, Forms, copy, fitted, flat, named, spell, write_form
from model import GREATEST_NUMBER, GREATEST_SIZE, PAGE

# What a field may hold at the ends of its rule, and one beyond.
LIMITS = {
    "version": [0, 1, 2, 256, 2**24, 2**32 - 1],
    "units": [0, 1, 2, 3, 16_384, 16_385, 2**32 - 1],
    "room": [0, 1, 2, 3, 1024, 1025, 2**32 - 1],
    "last number": [0, 1, GREATEST_NUMBER, GREATEST_NUMBER + 1, 2**64 - 1],
    "count": [0, 1, 2**32 - 1],
    "length": [0, 1, 12, 13, 14, PAGE, PAGE + 1, 510 * PAGE, 510 * PAGE + 1, 2**32 - 1],
    "count of entries": [0, 1, 15, 16, 17, 255],
    "number": [0, 1, GREATEST_NUMBER, GREATEST_NUMBER + 1, 2**64 - 1],
    "session": [0, 15, 16, 16, 17, 255],
    "nth": [0, 1, 2**63, 2**64 - 1],
    "count of writes": [0, 1, 15, 16, 17, 17, 255],
    "kind of a write": [0, 1, 2, 3, 255],
    "key length": [0, 1, 2, 3, 64, 65, 255],
    "size": [0, 1, PAGE, GREATEST_SIZE, GREATEST_SIZE + 1, 2**31, 2**32 - 1],
    "born": [0, 1, GREATEST_NUMBER, GREATEST_NUMBER + 1, 2**64 - 1],
    "head": [0, 2**31, 2**32 - 1],
    "tail": [0, 2**31, 2**32 - 1],
}


# Fields -------------------------------------------------------------------------------------


def fields_of(forms: Forms) -> list:
    return flat([forms.header, forms.tuples, forms.bodies])


def pick_field(r, fields: list, name: str = "") -> Optional[Field]:
    """A field of this name. Without one it has a random name, so that rare fields are met as often
    as common ones. None where there is no such field."""
    name = name or r.choice(sorted({field.name for field in fields}))
    return r.choice([field for field in fields if field.name == name] or [None])


def change_field(r, forms: Forms, tree: Optional[list] = None, name: str = "") -> None:
    """Another value of one field, of this name in this part of the disk where they are given."""
    field = pick_field(r, fields_of(forms) if tree is None else flat(tree), name)
    if field is None:
        return
    if field.name == "key":
        change_key(r, forms, field)
    elif field.name in LIMITS:
        change_number(r, forms, field)
    else:
        change_bytes(r, field)


def change_header(r, forms: Forms) -> None:
    """Other values of some fields of the header, often of some that are judged apart."""
    if r.random() < 0.5:
        units = r.choice([2, 3, 16_384])
        named(forms.header, "units").held = units.to_bytes(4, "big")
        name, value = r.choice([("last number", GREATEST_NUMBER + 1), ("length", forms.layout.room * PAGE + 1)])
        field = named(forms.header, name)
        field.held = value.to_bytes(len(field.held), "big")
        return
    for _ in range(r.choice([2, 2, 3])):
        change_field(r, forms, forms.header)


def change_tuple(r, forms: Forms) -> None:
    """Two faults in one tuple of the half: of a rule that it keeps among its neighbours, and of a
    field behind it."""
    if not forms.tuples:
        return
    at = r.randrange(len(forms.tuples))
    form = forms.tuples[at]
    if r.random() < 0.5:
        form[:2] = copy(forms.tuples[r.randint(max(0, at - 1), at)][:2])
    else:
        form[3].held = (int.from_bytes(forms.header[4].held, "big") + 1).to_bytes(8, "big")
    places = [field for field in form if field.name in ("head", "tail")]
    forms.fit()
    if places and r.random() < 0.5:
        r.choice(places).held = b"\xff" * 4
    else:
        tell_length(forms, forms.tuples, len(spell(forms.tuples[:at] + form[:4])) + r.randrange(64))


def change_number(r, forms: Forms, field: Field) -> None:
    """A number at a limit, or beside the one that stands there."""
    size = len(field.held)
    now = int.from_bytes(field.held, "big")
    values = LIMITS[field.name] + [now - 1, now + 1] * 2
    if field.name in ("head", "tail"):
        end = forms.layout.data_pages()
        values += [end - field.width] * 2 + [end] * 3 + [end - 1, 2**32 - field.width, now + field.width]
    if field.name == "length":
        values += [forms.layout.room * PAGE, forms.layout.room * PAGE + 1] * 3
    if field.name == "size":
        values += [now - PAGE, now + PAGE]
    if field.name == "born":
        values += [int.from_bytes(forms.header[4].held, "big") + more for more in (0, 1)]
    field.held = (r.choice(values) % 256**size).to_bytes(size, "big")


def change_bytes(r, field: Field) -> None:
    """One byte of a text, digest, mark or prefix, or all of them."""
    at = r.choice([0, len(field.held) - 1, r.randrange(len(field.held))]) if field.held else 0
    other = bytes([field.held[at] ^ r.choice([1, 0x20, 0x80, 0xFF])]) if field.held else b"\1"
    changed = field.held[:at] + other + field.held[at + 1 :]
    field.held = r.choice([changed] * 4 + [bytes(len(field.held)), r.randbytes(len(field.held))])


def change_prefixes(body: list) -> None:
    """First bytes that aren't those of the contents, in the states that a body sets."""
    for form in lists_of(body):
        prefix = named(form, "prefix")
        if prefix is not None and any(named(form, "size").held):
            prefix.held = bytes([prefix.held[0] ^ 1]) + prefix.held[1:]


ODD_BYTES = b"A/Z`{@[:,+~ \0\n\xff"


def change_key(r, forms: Forms, field: Field) -> None:
    """A key with an odd byte, one that stands elsewhere, or one of another length; its length is
    mostly told with it."""
    others = [one.held for one in fields_of(forms) if one.name == "key"]
    held = field.held
    at = r.randrange(len(held)) if held else 0
    odd = held[:at] + bytes([r.choice(ODD_BYTES)]) + held[at + 1 :]
    slash = held.find(b"/")
    wrong = [held[: slash + 1], held[:slash] + held[slash + 1 :], held + b"/", b"/" + held, b"a" * 17 + held[-3:]]
    wrong += [b"abcdefghijklmnop/" + b"b" * 47, b"", held[:-1], held + b"a"]
    rare = [b"a/" + b"b" * 48, b"a" * 17 + b"/b"] * 3
    rare += [r.choice(wrong), b"-/-", b"z" * 16 + b"/z"]
    held = r.choice([odd] * 3 + [r.choice(others)] * 2 + rare * 2)
    if r.random() < 0.8:
        length_before(forms, field).held = bytes([len(held) % 256])
    field.held = held


def length_before(forms: Forms, key: Field) -> Field:
    """The field in front of a key."""
    fields = fields_of(forms)
    return fields[max(0, next(at for at, field in enumerate(fields) if field is key) - 1)]


# Whole forms --------------------------------------------------------------------------------


def cut(r, forms: Forms) -> None:
    """A half or a body whose length ends within a field, or past the last one."""
    form = r.choice([forms.tuples] + forms.bodies)
    if r.random() < 0.1 or not form:
        tell_length(forms, form, len(spell(form)) + r.choice([1, 1, 2, 80, PAGE]))
    else:
        cut_field(r, forms, form)


def cut_field(r, forms: Forms, form: list, name: str = "") -> None:
    """A length that ends within a field, of this name where one is given. The counts and the bytes
    behind stay."""
    fields = flat(form)
    field = pick_field(r, fields, name) if fields else None
    if field is not None:
        before = fields[: next(at for at, one in enumerate(fields) if one is field)]
        tell_length(forms, form, len(spell(before)) + r.choice([0, max(0, len(field.held) - 1)]))


def cut_odd_key(r, forms: Forms) -> None:
    """A key with an odd byte that is cut short behind it."""
    form = r.choice([forms.tuples, forms.tuples, forms.tuples] + forms.bodies)
    keys = [field for field in flat(form) if field.name == "key"]
    if keys:
        key = r.choice(keys)
        key.held = key.held[:1] + bytes([r.choice(ODD_BYTES)]) + key.held[2:]
        before = flat(form)[: next(at for at, one in enumerate(flat(form)) if one is key)]
        tell_length(forms, form, len(spell(before)) + r.randrange(2, len(key.held)))


def unsort(r, forms: Forms) -> None:
    """Two tuples of the half or two writes of an entry that change places, or one that stands
    twice."""
    entries = [entry for body in forms.bodies for entry in body if isinstance(entry, list)]
    writes = [[at for at, one in enumerate(entry) if isinstance(one, list)] for entry in entries]
    choices = [(entry, places) for entry, places in zip(entries, writes) if len(places) > 1]
    form, places = r.choice(choices + [(forms.tuples, list(range(len(forms.tuples))))] * (len(choices) or 1))
    if len(places) > 1:
        one, other = r.sample(places, 2)
        form[one], form[other] = copy(form[other]), form[r.choice([one, one, other])]
        fit(forms)


def tell_length(forms: Forms, form: list, length: int) -> None:
    named(forms.header if form is forms.tuples else form, "length").held = length.to_bytes(4, "big")


def lists_of(tree) -> list:
    """The lists of at least one form in a form, itself among them."""
    if isinstance(tree, Field) or not tree:
        return []
    return [tree] + [found for one in tree for found in lists_of(one)]


def rearrange(r, forms: Forms) -> None:
    """A form that is repeated, left out, or changes places with another one; lengths and counts
    mostly fit."""
    rearrange_one(r, r.choice(lists_of(r.choice([forms.tuples, forms.bodies, forms.bodies])) or [forms.header]))
    if r.random() < 0.75:
        fit(forms)


def rearrange_one(r, form: list) -> None:
    at, other = r.randrange(len(form)), r.randrange(len(form))
    kind = r.choice(["repeat", "leave out", "swap", "swap"])
    if kind == "repeat":
        form.insert(r.choice([at, at, other]), copy(form[at]))
    elif kind == "leave out":
        del form[at]
    else:
        form[at], form[other] = form[other], form[at]


def fit(forms: Forms) -> None:
    """Lets all lengths and counts be those of what is there."""
    forms.fit()
    for body in forms.bodies:
        fitted(body)


def meet_again(r, forms: Forms) -> None:
    """A key that a later entry of a frame deletes again, at its place among the keys."""
    body = r.choice(forms.bodies)
    entries = [entry for entry in body if isinstance(entry, list)]
    keys = [one.held for one in flat(entries) if one.name == "key"]
    if not keys:
        return
    key = r.choice(keys)
    entry = r.choice(entries)
    places = [at for at, write in enumerate(entry) if isinstance(write, list) and named(write, "key").held <= key]
    entry.insert(places[-1] + 1 if places else 4, write_form(key, None))
    fitted(body)


def overlap(r, forms: Forms) -> None:
    """A block of a state that stands on another one, of the same state or of another; mostly of
    the half, whose contents opening doesn't look at."""
    tree = forms.tuples if r.random() < 0.7 else forms.bodies
    places = [field for field in flat(tree) if field.name in ("head", "tail")]
    if len(places) < 2:
        return
    for _ in range(r.choice([1, 1, 2])):
        one, other = r.sample(places, 2)
        if r.random() < 0.5:  # a narrow one somewhere in a wide one
            one, other = sorted(places, key=lambda field: (field.width, r.random()))[:: len(places) - 1]
        at = int.from_bytes(other.held, "big") + r.choice([0, other.width - 1, r.randrange(other.width)])
        one.held = (at // one.width * one.width).to_bytes(4, "big")


def stand_twice(r, forms: Forms) -> None:
    """Two extents or a tail of a content of equal pages on one place, so that it verifies."""
    for form in lists_of([forms.tuples, forms.bodies]):
        heads = [one for one in form if isinstance(one, Field) and one.name == "head"]
        if len(heads) > 1 and r.random() < 0.7:
            one, other = r.sample(heads[: 4 if r.random() < 0.7 else None], 2)
            one.held = other.held


def change_room(r, forms: Forms) -> None:
    """Another layout than the one by which all was written, mostly in a file that is as large."""
    field = named(forms.header, r.choice(["units", "room"]))
    field.held = r.choice([0, 1, 2, 3, 1023, 1024, 1025, 16_384, 16_385]).to_bytes(4, "big")
    units, room = (int.from_bytes(one.held, "big") for one in forms.header[2:4])
    total = disk.Layout(units, room).total()
    forms.count = max(forms.count, total + r.choice([-1, 0, 0, 0, 1]))


# The log and the pages ----------------------------------------------------------------------


def gates_of(forms: Forms) -> list:
    """The pages of the log's gates, the last one too."""
    gates = [forms.layout.log(forms.half)]
    for body in forms.bodies:
        gates.append(gates[-1] + 1 + disk.pages_of(len(spell(body))))
    return gates


GATES = [
    b"GATEOPEN", b"GATEOPEN", b"GATEOPEN", b"", b"GATEOPE", b"gateopen", b"\0GATEOPEN", b"GATEOPEN\xff", b"GATEOPEM",
    b"GATECLOS",
]


def change_gate(r, forms: Forms, image: disk.Image) -> disk.Image:
    """A gate that is opened, closed or spelled otherwise. Behind the last one may stand an older
    body, or one that was never counted."""
    gates = gates_of(forms)
    gate = r.choice([gates[-1], r.choice(gates)])
    if gate + 1 >= forms.layout.log(forms.half) + disk.LOG_PAGES:
        return image.having({gate: r.choice(GATES).ljust(PAGE, b"\0")})
    pages = {gate: r.choice(GATES).ljust(PAGE, b"\0")}
    if len(gates) > 1 and r.random() < 0.6:
        pages[gate + 1] = image.page(r.choice(gates[:-1]) + 1)
    return image.having(pages)


def hide_bodies(r, forms: Forms) -> None:
    """Some bodies at the end of the log that aren't counted: their gates are closed."""
    hidden = forms.bodies[r.randrange(len(forms.bodies)) :]
    gates = gates_of(forms)[len(forms.bodies) - len(hidden) :]
    for gate, body in zip(gates, hidden):
        forms.under |= {gate + 1 + i: page for i, page in enumerate(disk.split(spell(body)))}
    forms.bodies = forms.bodies[: len(forms.bodies) - len(hidden)]


def used_pages(r, forms: Forms, image: disk.Image) -> list:
    """Pages that a hostile hand goes for: those that aren't zeros, and some beside them."""
    beside = [0, 1, 2, 3, 4, 515, 516, forms.layout.states(0), forms.layout.states(1), forms.layout.data()]
    pages = sorted(image.pages) + gates_of(forms) + beside
    return [page for page in pages if page < image.count] or [0]


def move_pages(r, forms: Forms, image: disk.Image) -> disk.Image:
    """Two pages that change places, one that stands at two places, or one that is cleared."""
    pages = used_pages(r, forms, image)
    for _ in range(r.choice([1, 1, 2])):
        one, other = r.choice(pages), r.choice(pages)
        moved = {one: image.page(other), other: image.page(one)}
        kinds = [moved, {one: image.page(other)}, {one: disk.ZEROS}, {one: b"\xff" * PAGE}]
        image = image.having(r.choice(kinds))
    return image


def scatter(r, forms: Forms, image: disk.Image) -> disk.Image:
    """Random bytes on random pages, mostly those before the data area."""
    pages = used_pages(r, forms, image)
    for _ in range(r.choice([1, 1, 2, 5])):
        page = r.choice(pages) if r.random() < 0.9 else r.randrange(image.count)
        held = bytearray(image.page(page))
        for _ in range(r.choice([1, 1, 3, 40])):
            at = r.randrange(r.choice([16, 40, 160, PAGE]))
            held[at] = r.choice([0, 1, 0xFF, held[at] ^ 1, r.randrange(256)])
        image = image.having({page: r.choice([bytes(held)] * 5 + [r.randbytes(PAGE)])})
    return image


def resize(r, image: disk.Image, total: int) -> disk.Image:
    """A file of another length."""
    count = r.choice([0, 1, 2052, 2053, 2054, total - 1, total - 1, total, total + 1, total + 7])
    count = max(0, count)
    rest = r.choice([b"", b"\0", b"a" * 5, r.randbytes(4095)])
    return disk.Image(count, {page: held for page, held in image.pages.items() if page < count}, rest)


def damage(r, forms: Forms, image: disk.Image) -> disk.Image:
    """Pages of contents that were changed, in one byte or whole."""
    pages = [page for page in sorted(image.pages) if page >= forms.layout.data()]
    for page in r.sample(pages, min(len(pages), r.choice([1, 1, 2, 5, 20, 20]))):
        held = bytearray(image.page(page))
        held[r.choice([0, 1, 63, 4095, r.randrange(PAGE)])] ^= 1
        image = image.having({page: r.choice([bytes(held), bytes(held), disk.ZEROS, b"\xff" * PAGE])})
    return image
