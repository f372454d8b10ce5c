#!/usr/bin/env python3
"""Compares `vectors` with the rival of rivals/bench on random cases.

    python3 tools/rival.py SEED ROUNDS

Each round makes 5,000 cases on images, 1,000 benches and 1,000 memories, from a seed of its own, with the answers of
the rival, and has `crates/vectors/out/vectors` run them (`cd crates/vectors && rt run` builds it). It prints what does
not agree, and totals; the status is 1 where one case does not agree.

Left out are cases that the two take as no cases in ways of their own: a banked memory that is given cells.
"""
import os
import re
import subprocess
import sys
import tempfile

ROOT = os.path.dirname(os.path.dirname(os.path.abspath(__file__)))
RIVAL = os.path.join(ROOT, "rivals", "bench")
VECTORS = os.path.join(ROOT, "crates", "vectors", "out", "vectors")
KINDS = [("cases", 5000), ("benches", 1000), ("memories", 1000)]


def is_case(line):
    return not (line.startswith("run ") and "mem=banked" in line and "cells=- " not in line)


def kept(lines):
    """The lines of cases, and of blocks that are cases."""
    inside = False
    for line in lines:
        if line.startswith(("memory ", "bench ")) and "banked" in line and not line.endswith("cells=-"):
            inside = True
        if not inside and is_case(line):
            yield line
        if line == "end":
            inside = False


def round_of(seed, kind, number, folder):
    """How many agree, of how many."""
    made = subprocess.run([os.path.join(RIVAL, "target", "release", "generate"), str(seed), str(number), kind],
                          check=True, capture_output=True, text=True).stdout
    path = os.path.join(folder, f"{kind}-{seed}.txt")
    with open(path, "w") as file:
        file.write("\n".join(kept(made.splitlines())) + "\n")
    said = subprocess.run([VECTORS, path], capture_output=True, text=True).stdout
    agree, every = map(int, re.search(r"^total (\d+) of (\d+)$", said, re.M).groups())
    if agree != every:
        print(said, end="")
    return agree, every


def main():
    first, rounds = int(sys.argv[1]), int(sys.argv[2])
    subprocess.run(["cargo", "build", "--release", "--quiet"], cwd=RIVAL, check=True)
    agree = every = 0
    with tempfile.TemporaryDirectory() as folder:
        for seed in range(first, first + rounds):
            for shift, (kind, number) in enumerate(KINDS):
                one, all_of_it = round_of(seed + 100_000 * shift, kind, number, folder)
                agree, every = agree + one, every + all_of_it
    print(f"{agree} of {every} agree")
    sys.exit(agree != every)


main()
