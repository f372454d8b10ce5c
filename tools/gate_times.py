#!/usr/bin/env python3
"""Runs the gate and prints, as a table, the processor seconds that each crate took.

    python3 tools/gate_times.py            runs .ci/run
    python3 tools/gate_times.py PID        watches a gate that runs already, by its process

What is kept of an earlier run costs nothing and is not in the table: for the whole, run it where nothing is kept.
Processes are looked at five times a second, so a figure may be a few tenths short.
"""
import collections
import os
import re
import subprocess
import sys
import time

TOP = os.path.dirname(os.path.dirname(os.path.realpath(__file__)))
EDITED = re.compile(r"/rt-edit-\d+-")
SECOND = os.sysconf("SC_CLK_TCK")


def read(path):
    try:
        with open(path, "rb") as f:
            return f.read()
    except OSError:
        return b""


def stat(pid):
    """The parent and the processor seconds of a process."""
    fields = read(f"/proc/{pid}/stat").rpartition(b")")[2].split()
    return (int(fields[1]), (int(fields[11]) + int(fields[12])) / SECOND) if fields else None


def kind_of(pid):
    """The crate that a process of the prover works on, and what it does with it."""
    words = read(f"/proc/{pid}/cmdline").decode(errors="replace").split("\0")
    if "--crate-name" not in words or not words[0].endswith("/rattle"):
        return None
    try:
        edited = EDITED.search(os.readlink(f"/proc/{pid}/cwd"))
    except OSError:
        return None
    return words[words.index("--crate-name") + 1], "edits" if edited else "proof"


def look(top, seen):
    """Adds what the processes below one have used so far."""
    every = {int(it): stat(it) for it in os.listdir("/proc") if it.isdigit()}
    for pid, found in every.items():
        above = pid
        while above in every and every[above] and above != top:
            above = every[above][0]
        kind = above == top and found and (seen[pid][0] if pid in seen else kind_of(pid))
        if kind:
            seen[pid] = kind, found[1]


def edits(crate):
    folder = os.path.join(TOP, "crates", crate, "must-fail")
    return len(os.listdir(folder)) if os.path.isdir(folder) else 0


def table(seen, wall):
    sums = collections.defaultdict(lambda: collections.Counter())
    for (crate, kind), used in seen.values():
        sums[crate][kind] += used
    print("| crate | proof | edits | all edits | together |\n| --- | ---: | ---: | ---: | ---: |")
    for crate, it in sorted(sums.items(), key=lambda row: -sum(row[1].values())):
        print(f"| `{crate}` | {it['proof']:.0f} | {edits(crate)} | {it['edits']:.0f} | {sum(it.values()):.0f} |")
    whole = sum(map(sum, (it.values() for it in sums.values())))
    print(f"\n{whole / 60:.0f} minutes of processor time in {wall / 60:.0f} minutes, {len(os.sched_getaffinity(0))} cores")


def main():
    began, seen = time.monotonic(), {}
    gate = None if sys.argv[1:] else subprocess.Popen([os.path.join(TOP, ".ci", "run")])
    top = gate.pid if gate else int(sys.argv[1])
    while gate.poll() is None if gate else stat(top):
        look(top, seen)
        time.sleep(0.2)
    table(seen, time.monotonic() - began)
    sys.exit(gate.returncode if gate else 0)


main()
