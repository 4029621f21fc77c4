"""Where texts and files differ from the wanted ones."""

import os
from pathlib import Path

from model import PAGE

CHUNK_PAGES = 256
ZEROS = bytes(PAGE)


def first_difference(found: bytes, wanted: bytes) -> str:
    """Where two texts part, with a piece of the line of each."""
    shorter = min(len(found), len(wanted))
    at = next((i for i in range(shorter) if found[i] != wanted[i]), shorter)
    line = wanted.count(b"\n", 0, at) + 1
    start = max(wanted.rfind(b"\n", 0, at) + 1, at - 60)
    pieces = [text[start : start + 160].split(b"\n")[0] or b"(nothing)" for text in (found, wanted)]
    return f"line {line}, byte {at}\n    found:  {pieces[0]!r}\n    wanted: {pieces[1]!r}"


def written_chunks(file, length: int) -> set:
    """The chunks of a file that aren't holes. A hole reads as zeros."""
    width = CHUNK_PAGES * PAGE
    found = set()
    at = 0
    while at < length:
        try:
            at = os.lseek(file, at, os.SEEK_DATA)
        except OSError:
            break  # there is no data from here on
        end = os.lseek(file, at, os.SEEK_HOLE)
        found.update(range(at // width, (end - 1) // width + 1))
        at = end
    return found


def file_difference(path: Path, length: int, pages: dict) -> str:
    """The first byte of the file that isn't the wanted one, or nothing. All pages that aren't
    named must be zeros. The last page may be no whole one."""
    if not path.is_file():
        return "there is none"
    if path.stat().st_size != length:
        return f"length\n    found:  {path.stat().st_size}\n    wanted: {length}"
    file = os.open(path, os.O_RDONLY)
    try:
        for chunk in sorted(written_chunks(file, length) | {page // CHUNK_PAGES for page in pages}):
            difference = chunk_difference(file, chunk, length, pages)
            if difference:
                return difference
    finally:
        os.close(file)
    return ""


def chunk_difference(file, chunk: int, length: int, pages: dict) -> str:
    """The first such byte of a chunk, or nothing."""
    start = chunk * CHUNK_PAGES
    wanted = b"".join(pages.get(page, ZEROS) for page in range(start, start + CHUNK_PAGES))
    wanted = wanted[: length - start * PAGE]
    found = os.pread(file, len(wanted), start * PAGE)
    if found == wanted:
        return ""
    at = next(i for i, (a, b) in enumerate(zip(found, wanted)) if a != b)
    pieces = [text[at : at + 16].hex() for text in (found, wanted)]
    return f"page {start + at // PAGE}, byte {at % PAGE}\n    found:  {pieces[0]}\n    wanted: {pieces[1]}"
