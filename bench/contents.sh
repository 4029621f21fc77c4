#!/usr/bin/env bash
# Measures one transaction of 13 contents of 16 MiB against a hash and a copy of the same bytes:
#
#   bench/contents.sh PROGRAM
#
# PROGRAM is the built program, as crates/blob_shell/out/blob_shell. Its files, some 650 MB, stand in a new folder below
# TMPDIR (else /tmp), which is removed at the end: that folder's disk is the one that is measured.
set -eu

if [ $# -ne 1 ] || [ ! -f "$1" ] || [ ! -x "$1" ]; then
    echo "usage: bench/contents.sh PROGRAM" >&2
    exit 2
fi
program=$(readlink -f "$1")

room=$(mktemp -d)
trap 'rm -rf "$room"' EXIT
trap 'exit 1' HUP INT TERM

python3 - "$program" "$room" << 'EOF'
import os, shutil, subprocess, sys, time

program, room = sys.argv[1:]
os.chdir(room)

COUNT, SIZE, ROUNDS = 13, 16 * 2**20, 3
# The contents are 53,248 pages, 52 units. Their extents are owned whole and stand at multiples of their pages, so that
# they need more: 64 units are too few, and 65 enough.
UNITS, ROOM = "80", "8"


def seconds_of(call):
    """What the call gives, and the seconds that it takes."""
    begun = time.monotonic()
    given = call()
    return given, time.monotonic() - begun


def answers(words, script):
    """What the program answers to the lines of a script."""
    text = "".join(f"{line}\n" for line in script).encode()
    ran = subprocess.run([program, *words], input=text, stdout=subprocess.PIPE)
    told = ran.stdout.decode().splitlines()
    if ran.returncode:
        sys.exit(f"contents.sh: the program ended with status {ran.returncode}: {told[-1:]}")
    return told


def digests():
    """What sha256sum prints of the files."""
    return subprocess.run(["sha256sum", *files], stdout=subprocess.PIPE, check=True).stdout.decode()


def copied():
    """Copies the files into one, with one fsync at the end."""
    with open("copy", "wb") as copy:
        for file in files:
            with open(file, "rb") as content:
                shutil.copyfileobj(content, copy, 2**20)
        copy.flush()
        os.fsync(copy.fileno())


# Byte i of the content g:LEN:FIRST is (FIRST + 7 i + i / 256) mod 256, which comes again after 65,536 bytes.
files = [f"content-{first:02}" for first in range(COUNT)]
for first, file in enumerate(files):
    with open(file, "wb") as content:
        content.write(bytes((first + 7 * i + i // 256) % 256 for i in range(65536)) * (SIZE // 65536))
        content.flush()
        os.fsync(content.fileno())

# Whether the program's contents are the files' bytes, by their digests.
for first, line in enumerate(digests().splitlines()):
    script = ["0 begin", f"0 put bench/{first} g:{SIZE}:{first}", f"0 stat bench/{first}"]
    told = answers(["fresh", "store", "1", "1"], script)
    if told != ["0 begun", "0 put", f"0 stat {SIZE} {line.split()[0]}"]:
        sys.exit(f"contents.sh: the program's content {first} isn't the bytes of the file: {told}")

puts = [f"0 put bench/{first} g:{SIZE}:{first}" for first in range(COUNT)]
script = ["0 begin", *puts, "0 commit", "lead"]
wanted = ["0 begun", *["0 put"] * COUNT, "0 queued", "0 committed 1"]
times = []
for _ in range(ROUNDS):
    os.remove("store")
    told, of_program = seconds_of(lambda: answers(["fresh", "store", UNITS, ROOM], script))
    if told != wanted:
        sys.exit(f"contents.sh: the program doesn't commit: {told[-1:]}")
    _, of_hash = seconds_of(digests)
    _, of_copy = seconds_of(copied)
    os.remove("copy")
    times.append((of_program, of_hash, of_copy))

of_program, of_hash, of_copy = map(min, zip(*times))
print(f"program   {of_program:7.3f} s")
print(f"sha256sum {of_hash:7.3f} s")
print(f"copy      {of_copy:7.3f} s   (with one fsync)")
print(f"ratio     {of_program / (of_hash + of_copy):7.3f}     (program / (sha256sum + copy); best of {ROUNDS} each)")
EOF
