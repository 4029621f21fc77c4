#!/usr/bin/env bash
# Measures what a run of 200,000 commits of one small put holds in memory: its greatest memory, and what a commit adds to it.
#
#     bench/commits.sh PROGRAM
#
# PROGRAM is the built program, as crates/blob_shell/out/blob_shell. The history of a run is never freed, so that its memory grows with
# its commits: beside the long run stands one of a tenth as many, and what a commit adds is the difference of the two by that of their
# counts. It checks each answer. The store has 16 keys, each of which is put again and again. It takes 60 MB of disk.
set -eu

if [ $# -ne 1 ] || [ ! -f "$1" ] || [ ! -x "$1" ]; then
    echo "usage: bench/commits.sh PROGRAM" >&2
    exit 2
fi
program=$(readlink -f "$1")
folder=$(mktemp -d)
trap 'rm -rf "$folder"' EXIT
trap 'exit 1' HUP INT TERM
cd "$folder"

python3 - "$program" << 'PYTHON'
import os, subprocess, sys, time

program = sys.argv[1]
COMMITS, KEYS, SIZE = 200_000, 16, 100
# A child's memory is at least that of the process that starts it, so a small process of its own starts the program.
STARTER = """
import resource, subprocess, sys
with open("script", "rb") as source, open("told", "wb") as sink:
    status = subprocess.run(sys.argv[1:], stdin=source, stdout=sink).returncode
print(status, resource.getrusage(resource.RUSAGE_CHILDREN).ru_maxrss)
"""


def run(count):
    """The greatest memory of a run of so many commits, in KiB, and its seconds."""
    with open("script", "w") as script, open("wanted", "w") as wanted:
        for n in range(count):
            script.write(f"0 begin\n0 put bench/k{n % KEYS:02} g:{SIZE}:{n % 256}\n0 commit\nlead\n")
            wanted.write(f"0 begun\n0 put\n0 queued\n0 committed {n + 1}\n")
    begun = time.monotonic()
    words = [sys.executable, "-c", STARTER, program, "fresh", "store", "1", "1"]
    status, peak = subprocess.run(words, stdout=subprocess.PIPE, check=True).stdout.split()
    seconds = time.monotonic() - begun
    with open("told", "rb") as told, open("wanted", "rb") as answers:
        if int(status) or told.read() != answers.read():
            sys.exit(f"commits.sh: the run of {count} commits ended with status {int(status)}, or doesn't answer what is wanted")
    os.remove("store")
    return int(peak), seconds


few = COMMITS // 10
less, _ = run(few)
most, seconds = run(COMMITS)
print(f"{COMMITS} commits: {seconds:.1f} s, greatest memory {most / 1024:.1f} MiB; of {few}: {less / 1024:.1f} MiB")
print(f"a commit adds {(most - less) / (COMMITS - few):.3f} KiB")
PYTHON
