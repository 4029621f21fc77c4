#!/usr/bin/env bash
# Measures a script of 1,000,000 lines over sixteen sessions against a hash of 625 MB, and the memory of a get of 100
# MB:
#
#   bench/lines.sh PROGRAM
#
# PROGRAM is the built program, as crates/blob_shell/out/blob_shell. Its files, some 400 MB, stand in a new folder below
# TMPDIR (else /tmp), which is removed at the end.
set -eu

if [ $# -ne 1 ] || [ ! -f "$1" ] || [ ! -x "$1" ]; then
    echo "usage: bench/lines.sh PROGRAM" >&2
    exit 2
fi
program=$(readlink -f "$1")

room=$(mktemp -d)
trap 'rm -rf "$room"' EXIT
trap 'exit 1' HUP INT TERM

python3 - "$program" "$room" << 'EOF'
import os, subprocess, sys, time

program, room = sys.argv[1:]
os.chdir(room)

LINES, SESSIONS, ROUNDS = 1_000_000, 16, 3
HASHED, SIZE = 625_000_000, 100_000_000
# What each session says in turn, with the answer. The key is in no store.
TALK = [("begin", "begun"), ("stat none/there", "absent"), ("abort", "aborted")]


def ended(words, given, taken):
    """Runs words from a file to another, and gives the seconds that it takes and its greatest memory in MiB."""
    with open(given, "rb") as source, open(taken, "wb") as sink:
        begun = time.monotonic()
        process = subprocess.Popen(words, stdin=source, stdout=sink)
        _, status, usage = os.wait4(process.pid, 0)
        seconds = time.monotonic() - begun
    process.returncode = os.waitstatus_to_exitcode(status)
    if process.returncode:
        sys.exit(f"lines.sh: {words[0]} ended with status {process.returncode}")
    return seconds, usage.ru_maxrss / 1024


def peak(name, script):
    """The greatest memory of a run that ends by the get of a content of SIZE bytes."""
    with open("script", "w") as file:
        file.writelines(f"{line}\n" for line in script)
    _, memory = ended([program, "fresh", "store", "40", "1"], "script", "told")
    label = f"0 value {SIZE} ".encode()
    with open("told", "rb") as told:
        told.seek(-(len(label) + 2 * SIZE + 1), os.SEEK_END)
        if told.read(len(label)) != label:
            sys.exit(f"lines.sh: the program doesn't show the content that is {name}")
    os.remove("told")
    os.remove("store")
    return memory


# Three lines of session 0, three of session 1, and so on; the last line is a begin.
with open("lines", "w") as lines, open("wanted", "w") as wanted:
    for n in range(LINES):
        line, answer = TALK[n % 3]
        lines.write(f"{n // 3 % SESSIONS} {line}\n")
        wanted.write(f"{n // 3 % SESSIONS} {answer}\n")
# A file of zeros that takes no place on the disk.
with open("zeros", "wb") as zeros:
    zeros.truncate(HASHED)

times = []
for _ in range(ROUNDS):
    of_program, _ = ended([program, "fresh", "store", "1", "1"], "lines", "told")
    if subprocess.run(["cmp", "-s", "told", "wanted"]).returncode:
        sys.exit("lines.sh: the program doesn't answer what is wanted")
    of_hash, _ = ended(["sha256sum"], "zeros", "digest")
    times.append((of_program, of_hash))
os.remove("store")

of_program, of_hash = map(min, zip(*times))
print(f"program   {of_program:7.3f} s   ({LINES / of_program:,.0f} lines a second)")
print(f"sha256sum {of_hash:7.3f} s   ({HASHED / of_hash / 1e6:,.0f} MB a second)")
ratio = of_program / of_hash
print(f"ratio     {ratio:7.3f}     (program / sha256sum over {HASHED // 10**6} MB; best of {ROUNDS} each)")

put = ["0 begin", f"0 put bench/a g:{SIZE}:0"]
of_own = peak("its own", [*put, "0 get bench/a"])
of_stored = peak("stored", [*put, "0 commit", "lead", "0 begin", "0 get bench/a"])
print(f"own get   {of_own:7.1f} MiB (greatest memory, of a content of {SIZE // 10**6} MB that the transaction puts)")
print(f"get       {of_stored:7.1f} MiB (of one that is committed)")
EOF
