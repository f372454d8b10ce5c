#!/usr/bin/env python3
"""Looks for places in src/ that are written in an older form than today's Rattle allows.

    python3 tools/places.py            the files as they stand
    python3 tools/places.py COMMIT     the files of a commit

For each point of docs/DESIGN-PASS.md some patterns, each with the lines that it meets, and their number.
Comments, imports and clauses are not looked at. A line that is met need not be such a place: the page says which are.
"""
import os
import re
import subprocess
import sys

POINTS = {
    "1 flags, sentinels and numbers": [
        ("a call that says by a flag whether it did something", r"^\s*(pub )?fn (?!is_|has|hides|admit|whole|masked|takes|within|fits)\w+.*-> (Result<)?bool\b|^\) -> bool"),
        ("a flag beside a value", r"Option<\(\w+, bool\)>|^\s*(scanned|seen|same|branches): bool|ended: bool"),
        ("a choice as a number", r"\bchoice: (u8|\d)|\bFAULT\b"),
        ("a refusal or a kind as a number", r"-> \(\w+, u8\)|number: u8|type Answer = \(|fn (kind_of|kind_code|binary_code|shift_code)\b|Result<\(u8, usize\)|count: u8,"),
        ("a refusal written out by hand", r"(Err|Some)\(Refusal \{|refusal: Refusal \{|return Err\(why\);"),
        ("an Option or a Result inside a Result", r"Result<(Option|Result)<|Option<Refusal>|Option<Reason>"),
        ("a text or a list that is empty where there is none", r'^\s*""$|labels\.clear\(\)|let mut any = false'),
    ],
    "2 twins": [
        ("an impl of Memory", r"^impl.*\bMemory for"),
        ("a method of a memory that only passes on", r"^\s*self\.(below|line|seen)\.\w+\((base|access|j)?.*\)(;)?$|Leaf::(Flat|Banked)\(memory\) => memory\."),
        ("two functions of one shape", r"fn (read|write)_both\b|fn flow_(else|end|again)\b|fn carry_\w+|fn (set_group|pick_group|load_end)\b|fn (innermost|enter|open|turn|leave|close)\(.*(Stack<|Opening|&mut self\))"),
        ("a second stack of openings or repeats", r"^pub struct (Matcher|Masks|Repeats|Stack)\b"),
    ],
    "3 loops by a hand-counted index": [
        ("a loop over numbers", r"^\s*(for \w+ in \(?\d|for \w+ in 0\.\.|while\b|loop\b)"),
        ("offsets reckoned by hand", r"\[\d+ \+ \d \* \w+\.\.|\[(at|2 \* i)( \+ \d)?\]|8 \* place"),
        ("a loop that only asks or finds", r"^\s+(if [^{]*\{ )?return (true|false|Some\(value\));$"),
    ],
    "4 equality, order, copying, conversion, printing": [
        ("a conversion by a function", r"^\s*(pub )?fn (instruction|fields_of|op_fields|set_fields|binary_code|shift_code|kind_of|kind_code|kind_name|name_of|\w+_name|in_words|number)\b"),
        ("a number of a flag", r"\{ 1 \} else \{ 0 \}|label as usize;$|if flag \{ \"1\""),
        ("a wrapper only to be shown", r"^pub struct (Said|Numbered|Refused|RegisterSet|Labels|Words|Visits|VisitLine|Registers|Totals|Worded|Named)\b"),
        ("a copy by a loop", r"^\s*\w+(\.\w+)?\[\w+( \+ \w+)?\] = \w+(\.\w+)?\[\w+\];"),
    ],
    "5 facts and parameters that travel together": [
        ("base, len and off", r"base: usize"),
        ("mask, cells and place", r"mask: Option<Register>"),
        ("place, windows, registers and memory", r"windows: &\[Window; 8\]|registers: &mut \[u32; 32\]"),
        ("the first 64 bytes of an image", r"fn \w+\((image: &\[u8\]|header: &Header, out)"),
        ("sets of a pass", r"list: &mut \[u16\]"),
    ],
    "6 buffers, parallel arrays, arenas": [
        ("a count beside a buffer", r"^\s*(pub )?(count|depth): usize,"),
        ("arrays side by side", r"\[usize; 8\],"),
        ("a fixed array of cells", r"^\s*(pub )?(cells|rows|list): (\[|Vec<(Mark|Instruction)>)"),
        ("numbered fields", r"^\s*(pub )?(first|second|third|fourth): Option<"),
    ],
    "7 which step to run": [
        ("a dispatch over kinds of the same step", r"Leaf::\w+\(memory\) =>|if self\.scanned|match mask \{"),
        ("a table of steps by text or number", r'^\s*Some\(\("\w+", given\)\)|^\s*"\w+" => '),
    ],
}
SKIP = re.compile(r"^\s*(//|ghost |ensures|requires|use |pub mod|mod |#)")


def files(commit):
    if commit:
        names = subprocess.run(["git", "ls-tree", "-r", "--name-only", commit, "crates"], text=True, capture_output=True, check=True).stdout.split()
    else:
        names = [os.path.join(d, f) for d, _, fs in os.walk("crates") for f in fs]
    for name in sorted(names):
        if re.match(r"crates/\w+/src/.*\.rt$", name):
            if commit:
                yield name, subprocess.run(["git", "show", f"{commit}:{name}"], text=True, capture_output=True, check=True).stdout
            else:
                with open(name, encoding="utf-8") as f:
                    yield name, f.read()


def main():
    texts = list(files(sys.argv[1] if len(sys.argv) > 1 else None))
    for point, patterns in POINTS.items():
        total = 0
        said = []
        for what, pattern in patterns:
            found = [f"    {name}:{i}: {line.strip()}" for name, text in texts for i, line in enumerate(text.splitlines(), 1) if not SKIP.match(line) and re.search(pattern, line)]
            total += len(found)
            said += [f"  {what}: {len(found)}"] + found
        print(f"{point}: {total}")
        print("\n".join(said))


main()
