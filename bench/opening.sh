#!/usr/bin/env bash
# Measures what it takes to open a store of 40,000 objects, and to commit in it, against a store of 200:
#
#   bench/opening.sh PROGRAM FOLDER
#
# PROGRAM is the built program, as crates/blob_shell/out/blob_shell. Its files, some 220 MB, stand in a new folder
# below FOLDER, which is removed at the end: FOLDER's disk is the one that is measured. It checks what the program answers
# and how many objects `show` lists.
set -eu

if [ $# -ne 2 ] || [ ! -f "$1" ] || [ ! -x "$1" ] || [ ! -d "$2" ]; then
    echo "usage: bench/opening.sh PROGRAM FOLDER" >&2
    exit 2
fi
program=$(readlink -f "$1")

room=$(mktemp -d -p "$2" opening-XXXXXX)
room=$(readlink -f "$room")
trap 'rm -rf "$room"' EXIT
trap 'exit 1' HUP INT TERM

python3 - "$program" "$room" << 'PYTHON'
import os, subprocess, sys, time

program, room = sys.argv[1:]
os.chdir(room)

ROUNDS, SESSIONS, SIZE = 5, 16, 100
# Both stores have the same layout, so that they differ in their objects alone. The states of the big one take 93 bytes
# each, which fill most of the room.
UNITS, ROOM = "48", "1024"
STORES = {"big": 40_000, "small": 200}
# The log has 512 pages, and a lead takes two of them: 200 leads fit behind an opening, and 1000 don't.
LEADS = (200, 1000)
GNU_TIME = "/usr/bin/time"
# What stands in for it: a small process of its own, since a child's memory is at least that of the process that starts it.
OWN_TIME = """
import resource, subprocess, sys
subprocess.run(sys.argv[2:], check=True)
with open(sys.argv[1], "w") as told:
    print(resource.getrusage(resource.RUSAGE_CHILDREN).ru_maxrss, file=told)
"""


def stop(why):
    sys.exit(f"opening.sh: {why}")


def put_of(session, n, first):
    return f"{session} put bench/k{n:05} g:{SIZE}:{first % 256}"


def making(count):
    """The script that makes a store of so many objects, sixteen a group, and its answers."""
    script, wanted = [], []
    for begin in range(0, count, SESSIONS):
        group = list(enumerate(range(begin, min(begin + SESSIONS, count))))
        for session, n in group:
            script += [f"{session} begin", put_of(session, n, n), f"{session} commit"]
            wanted += [f"{session} begun", f"{session} put", f"{session} queued"]
        script.append("lead")
        wanted += [f"{session} committed {n + 1}" for session, n in group]
    return script, wanted


def leading(count, last):
    """The script of so many leads of one small put each, to keys that are there, and its answers."""
    script, wanted = [], []
    for n in range(count):
        script += ["0 begin", put_of(0, n % STORES["small"], last + n), "0 commit", "lead"]
        wanted += ["0 begun", "0 put", "0 queued", f"0 committed {last + n + 1}"]
    return script, wanted


def written(name, lines):
    with open(name, "w") as file:
        file.writelines(f"{line}\n" for line in lines)


def ran(words, script, wanted):
    """The seconds of a run from a script to the answers that are wanted."""
    written("script", script)
    written("wanted", wanted)
    os.sync()
    with open("script", "rb") as source, open("told", "wb") as sink:
        begun = time.monotonic()
        status = subprocess.run([program, *words], stdin=source, stdout=sink).returncode
        seconds = time.monotonic() - begun
    with open("told", "rb") as told, open("wanted", "rb") as answers:
        if status or told.read() != answers.read():
            stop(f"{words} ended with status {status}, or doesn't answer what is wanted")
    return seconds


def least(call):
    return min(call() for _ in range(ROUNDS))


def peak(words):
    """The greatest memory of a run over an empty script, in MiB."""
    if os.access(GNU_TIME, os.X_OK):
        timed = [GNU_TIME, "-f", "%M", "-o", "peak"]
    else:
        timed = [sys.executable, "-c", OWN_TIME, "peak"]
    subprocess.run([*timed, program, *words], stdin=subprocess.DEVNULL, stdout=subprocess.DEVNULL, check=True)
    with open("peak") as told:
        return int(told.read().split()[-1]) / 1024


def shown(name, last):
    """How many objects `show` lists of a store, whose last number it must tell."""
    told = subprocess.run([program, "show", name], stdin=subprocess.DEVNULL, stdout=subprocess.PIPE, check=True).stdout.decode().splitlines()
    if told[-1:] != [f"last {last}"]:
        stop(f"the store {name} ends with {told[-1:]}")
    return len(told) - 1


def show(name):
    """The seconds of a `show`, whose output isn't looked at."""
    os.sync()
    begun = time.monotonic()
    subprocess.run([program, "show", name], stdin=subprocess.DEVNULL, stdout=subprocess.DEVNULL, check=True)
    return time.monotonic() - begun


def opened(name):
    """The seconds of opening a store by `steps` over an empty script. Behind it the log is empty."""
    return ran(["steps", name], [], [])


def leads_of(name, count, last):
    """Measures runs of so many leads: the least time of a run, of opening the store before it, and of opening it behind."""
    times, before, behind = [], [], []
    for _ in range(ROUNDS):
        before.append(opened(name))
        times.append(ran(["steps", name], *leading(count, last)))
        last += count
        behind.append(opened(name))
    return min(times), min(before), min(behind)


def measured(name, count):
    """Makes a store, and measures it: the making, the openings, their memory, and the leads."""
    told = {"making": ran(["fresh", name, UNITS, ROOM], *making(count))}
    if shown(name, count) != count:
        stop(f"the store {name} hasn't {count} objects")
    told["show memory"], told["steps memory"] = peak(["show", name]), peak(["steps", name])
    told["show"] = least(lambda: show(name))
    told["steps"] = least(lambda: opened(name))
    last = count
    for leads in LEADS:
        told[f"run {leads}"], before, told[f"behind {leads}"] = leads_of(name, leads, last)
        told["steps"] = min(told["steps"], before)
        last += ROUNDS * leads
    for leads in LEADS:
        told[leads] = (told[f"run {leads}"] - told["steps"]) / leads
    if shown(name, last) != count:
        stop(f"the store {name} hasn't {count} objects behind the leads")
    os.remove(name)
    return told


def times_as(one, other):
    """How many times the other this is."""
    return f"{one / other:8.2f}" if one > 0 and other > 0 else "       -"


def tell(label, name, unit, scale=1, digits=3):
    one, other = scale * small[name], scale * big[name]
    print(f"{label:40} {one:9.{digits}f} {unit:3} {other:9.{digits}f} {unit:3} {times_as(other, one)}")


small = measured("small", STORES["small"])
big = measured("big", STORES["big"])

print(f"by the clock, the least of {ROUNDS} runs; ratio: the store of {STORES['big']:,} objects / that of {STORES['small']}")
print(f"{'objects':40} {STORES['small']:9,} {'':3} {STORES['big']:9,} {'':3} {'ratio':>8}")
tell(f"making the store, {SESSIONS} a group (once)", "making", "s")
tell("`show`", "show", "s")
tell("`steps` of an empty script", "steps", "s")
tell(f"the same, with the log of {LEADS[0]} leads", f"behind {LEADS[0]}", "s")
tell("greatest memory of `show`", "show memory", "MiB", digits=1)
tell("greatest memory of `steps`", "steps memory", "MiB", digits=1)
for leads in LEADS:
    tell(f"`steps` of {leads:,} leads of one put", f"run {leads}", "s")
    tell("  a lead", leads, "ms", 1000)
print(f"(a lead: the run's time without that of the empty script, by its leads; {LEADS[0]} fit in the log, {LEADS[1]:,} turn it in between)")
PYTHON
