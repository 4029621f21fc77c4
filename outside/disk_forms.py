"""What one run of the forms `format`, `show` and `check` writes, and what it leaves of its file."""

from typing import NamedTuple, Optional

import disk
from model import LIST_OF_FORMS, TODAY, read_form


class Ran(NamedTuple):
    """What one run leaves behind."""

    text: bytes  # standard output
    status: int  # exit status
    errors: Optional[bytes]  # standard error, or None where nothing is said of it
    image: Optional[disk.Image]  # the file, or None where there is none
    found: object  # the store or the refusal that opening found, or None where nothing was opened
    links: tuple  # the failing links that `check` told


def run(words: list, image: Optional[disk.Image], opens: bool = True) -> Ran:
    """One run over a file. `opens`: the system lets the file be opened, or be made."""
    form = read_form(words, TODAY)
    if form is None:
        return Ran(b"usage\n", 8, LIST_OF_FORMS, image, None, ())
    if not opens or (image is None and form["form"] != "format"):
        return Ran(b"", 11, b"cannot open " + form["FILE"] + b"\n", image, None, ())
    if form["form"] == "format":
        made = disk.formatted(disk.Layout(form["UNITS"], form["ROOM"]))
        return Ran(f"formatted {made.count}\n".encode(), 0, None, made, None, ())
    found = disk.read(image)
    if isinstance(found, disk.Refusal):
        return Ran(f"store refused: {found.line}\n".encode(), 6, None, image, found, ())
    text, status, links = report(form["form"], image, found)
    return Ran(text, status, None, disk.turned(image, found), found, links)


def report(form: str, image: disk.Image, found: disk.Store) -> tuple:
    """What `show` or `check` writes, its status, and the links that fail."""
    lines, links = (show(found), ()) if form == "show" else check(image, found)
    text = "".join(line + "\n" for line in lines).encode()
    return text, 9 if links else 0, links


def show(store: disk.Store) -> list:
    """Each key with its state, and the last number."""
    lines = []
    for key in sorted(store.states):
        state = store.states[key]
        lines.append(f"{key.decode()} {state.size} {state.digest.hex()} {state.born}")
    return lines + [f"last {store.last}"]


def check(image: disk.Image, store: disk.Store) -> tuple:
    """A line for each key whose state doesn't verify, and how many there are; with them the links
    that fail."""
    lines, links = [], []
    for key in sorted(store.states):
        link = disk.failing_link(image, store.layout, store.states[key])
        if link is not None:
            links.append(link)
            lines.append(damaged(key, link))
    return lines + [f"checked {len(store.states)} damaged {len(links)}"], tuple(links)


def damaged(key: bytes, link: disk.Link) -> str:
    """A content's first link that fails."""
    return f"damaged {key.decode()} {link.number} {link.want.hex()} {link.got.hex()}"
