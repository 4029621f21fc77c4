#!/usr/bin/env bash
# Measures the repository's SHA-256, `sha_resume::digest`, against the toolchain's crate `sha2` over the same bytes:
#
#   bench/hashing.sh
#
# A program has to stand in crates/ and in crates.txt, so bench/hashing.main becomes the program of a small repository in
# a new folder below TMPDIR (else /tmp), beside copies of `sha_resume` and the crates below it. The folder is removed at
# the end.
set -eu

here=$(dirname "$(readlink -f "${BASH_SOURCE[0]}")")
top=$(dirname "$here")

room=$(mktemp -d)
trap 'rm -rf "$room"' EXIT
trap 'exit 1' HUP INT TERM
crate=$room/crates/bench_hashing
mkdir -p "$crate/src"
cp "$here/hashing.main" "$crate/src/main.rt"

# The lines of crates.txt for sha_resume and all below it, with those crates, and a line for the program.
python3 - "$top" "$room" << 'EOF'
import os, re, shutil, sys

top, room = sys.argv[1:]
lines, uses = {}, {}
with open(f"{top}/crates.txt", encoding="utf-8") as listed:
    for line in listed:
        line = line.partition("#")[0].strip()
        if line:
            head, _, tail = line.partition(":")
            name = head.split()[0]
            lines[name], uses[name] = line, re.findall(r"[^\s,]+", tail)
if "sha_resume" not in lines:
    sys.exit("hashing.sh: crates.txt has no sha_resume")

wanted = ["sha_resume"]
for name in wanted:
    for used in uses.get(name, []):
        if used not in wanted:
            wanted.append(used)
own = [name for name in wanted if name in lines]
for name in own:
    for part in ("src", "specs", "proofs"):
        if os.path.isdir(f"{top}/crates/{name}/{part}"):
            shutil.copytree(f"{top}/crates/{name}/{part}", f"{room}/crates/{name}/{part}")
with open(f"{room}/crates.txt", "w", encoding="utf-8") as listed:
    for name in own:
        print(lines[name], file=listed)
    print("bench_hashing:", *dict.fromkeys([*wanted, "sha2"]), file=listed)
EOF

# `rt run` proves the program and has LLVM compile it at -O3, as the repository's own program is built, and then runs it:
# here over no bytes. `rt try` would run it with checks, many times slower.
echo "hashing.sh: proving and building; that can take minutes where sha_resume hasn't been proved on this machine" >&2
if ! (cd "$crate" && RT_BACKEND=llvm rt run) < /dev/null > "$room/log" 2>&1; then
    cat "$room/log" >&2
    echo "hashing.sh: the program isn't built" >&2
    exit 1
fi

# 64 MiB: 1024 times the same 65,536 bytes.
python3 -c 'import sys
sys.stdout.buffer.write(bytes((7 * i + i // 256) % 256 for i in range(65536)) * 1024)' > "$room/message"
"$crate/out/bench_hashing" < "$room/message" > "$room/rounds"

python3 - "$room/message" "$room/rounds" << 'EOF'
import os, sys

message, rounds = sys.argv[1:]
mebibytes = os.path.getsize(message) / 2**20
with open(rounds, encoding="utf-8") as lines:
    rounds = [line.split() for line in lines]
if not rounds or any(agree != "true" for _, _, agree in rounds):
    sys.exit("hashing.sh: the digests differ")
own = min(int(taken) for taken, _, _ in rounds) / 1e9
other = min(int(taken) for _, taken, _ in rounds) / 1e9
print(f"sha_resume {mebibytes / own:8.1f} MiB a second")
print(f"sha2       {mebibytes / other:8.1f} MiB a second")
print(f"ratio      {other / own:8.3f}   (rate of sha_resume / rate of sha2; best of {len(rounds)} each)")
EOF
