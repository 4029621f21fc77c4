#!/usr/bin/env bash
# Times `show` and `check` of a store of 40,000 objects of 100 bytes, whose states stand in a half; by the clock, best of 3 each, and
# the greatest memory of each. It checks what they print. Beside them stands `sha256sum` over the same contents in one file.
#
#     bench/reports.sh PROGRAM
set -eu
program=$(readlink -f "$1")
folder=$(mktemp -d)
trap 'rm -rf "$folder"' EXIT
cd "$folder"

# The pages and their bytes are those of docs/FORMATS.md: a header, the states' tuples, and a tail page for each content.
python3 - <<'PYTHON'
import hashlib
import struct

COUNT, SIZE, PAGE, UNITS, ROOM = 40_000, 100, 4096, 40, 1024
tuples, shown = bytearray(), []
with open("store", "wb") as store, open("contents", "wb") as contents:
    store.truncate((1027 + 2 * ROOM + 1024 * UNITS) * PAGE)
    for number in range(1, COUNT + 1):
        key = f"demo/k{number:05}".encode()
        content = hashlib.sha256(key).digest() * 3 + b"tail"
        digest = hashlib.sha256(content)
        tuples += struct.pack(">B", len(key)) + key + struct.pack(">IQ", SIZE, number) + digest.digest()
        tuples += content[:32] + struct.pack(">I", number - 1)
        shown.append(f"{key.decode()} {SIZE} {digest.hexdigest()} {number}\n")
        contents.write(content)
        store.seek((1027 + 2 * ROOM + number - 1) * PAGE)
        store.write(content)
    header = b"BLOBHALF" + struct.pack(">IIIQII", 1, UNITS, ROOM, COUNT, COUNT, len(tuples))
    store.seek(PAGE)
    store.write(header)
    store.seek(1027 * PAGE)
    store.write(tuples)
with open("shown", "w") as wanted:
    wanted.writelines(shown)
    wanted.write(f"last {COUNT}\n")
PYTHON

"$program" show store > found
cmp found shown
[ "$("$program" check store)" = "checked 40000 damaged 0" ]

python3 - "$program" <<'PYTHON'
import os
import subprocess
import sys
import time


def best(words):
    """The least time of three runs, and the greatest memory of the last."""
    least = None
    for _ in range(3):
        begun = time.monotonic()
        child = subprocess.Popen(words, stdout=subprocess.DEVNULL)
        _, status, usage = os.wait4(child.pid, 0)
        taken = time.monotonic() - begun
        assert status == 0, words
        least = taken if least is None else min(least, taken)
    return least, usage.ru_maxrss / 1024


hashed, _ = best(["sha256sum", "contents"])
for form in ("show", "check"):
    seconds, memory = best([sys.argv[1], form, "store"])
    print(f"{form}: {seconds:.3f} s, {memory:.1f} MiB, {40_000 / seconds:,.0f} objects a second")
print(f"sha256sum of the contents: {hashed:.3f} s")
PYTHON
