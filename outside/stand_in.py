"""The model of a store that lasts as a program, which writes and syncs its file call by call.

    python3 outside/stand_in.py WORDS < SCRIPT

It shows that the comparison works: the model compared with itself differs nowhere, whatever the
model says. It says nothing of the program.
"""

import os
import sys

sys.dont_write_bytecode = True  # nothing is left beside this file

import disk
import lasting
from model import PAGE, read_form


def open_file(form: dict) -> tuple:
    """The open file, and what it holds. The forms that make a file empty an older one."""
    makes = "UNITS" in form
    file = os.open(form["FILE"], os.O_RDWR | (os.O_CREAT | os.O_TRUNC if makes else 0), 0o644)
    if makes:
        count = disk.Layout(form["UNITS"], form["ROOM"]).total()
        os.ftruncate(file, PAGE * count)
        return file, disk.Image(count, {})
    return file, read_image(file)


def read_image(file: int) -> disk.Image:
    """What a file holds. Its holes aren't read."""
    length = os.fstat(file).st_size
    pages = {}
    at = 0
    while at < length:
        try:
            at = os.lseek(file, at, os.SEEK_DATA) // PAGE
        except OSError:
            break
        end = -(-os.lseek(file, at * PAGE, os.SEEK_HOLE) // PAGE)
        pages |= {page: os.pread(file, PAGE, PAGE * page) for page in range(at, end)}
        at = end * PAGE
    rest = os.pread(file, PAGE, length // PAGE * PAGE)[: length % PAGE]
    pages.pop(length // PAGE, None)
    return disk.Image(length // PAGE, pages, rest)


def make(file: int, call) -> None:
    """Makes one call."""
    if call is lasting.SYNC:
        os.fdatasync(file)
    else:
        os.lseek(file, PAGE * call.page, os.SEEK_SET)
        os.write(file, call.held)


def main(words: list, script: bytes) -> int:
    form = read_form(words, lasting.LASTING)
    file, image, opens = None, None, True
    if form is not None:
        try:
            file, image = open_file(form)
        except OSError:
            opens = False
    ran = lasting.run(words, script, image, opens)
    for number, call in enumerate(ran.calls, start=1):
        try:
            make(file, call)
        except OSError:
            ran = lasting.run(words, script, image, opens, fails=number)
            break
    sys.stdout.buffer.write(ran.text)
    sys.stderr.buffer.write(ran.errors or b"")
    return ran.status


if __name__ == "__main__":
    sys.exit(main([os.fsencode(word) for word in sys.argv[1:]], sys.stdin.buffer.read()))
