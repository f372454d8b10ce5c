#!/usr/bin/env python3
"""Gives the repository's own definitions and lemmas the spelling of today's Rattle.

Run once, at the top of the repository, after the toolchain's port.py, on what that wrote:

    python3 tools/respell.py

The names stand in tools/respell.txt, a line for each: the old one and the new one. Words are in snake case,
facts and statements in upper camel case. Only definitions, lemmas and their variables turn: functions of src/,
strings, inputs and outputs keep their names. The crate hex, whose name the toolchain's library has, becomes
hexadecimal. Must-fail edits and the pages under docs/ follow the same table.
"""
import os
import re
import sys

HERE = os.path.dirname(os.path.realpath(__file__))
WORD = r"[A-Za-z_][A-Za-z0-9_'\-′≡≢≤≥<>∈ℕ]*"
GENERATED = re.compile(r"(?:Goals|Given)\.\{")


def table():
    with open(os.path.join(HERE, "respell.txt"), encoding="utf-8") as f:
        return dict(line.split() for line in f if line.strip())


def respelled(text, names):
    def turn(m):
        word = m.group(0)
        new = names.get(word, word)
        # behind a dot stands a field or a step, which has no lemma's name
        if new.endswith("_lem") and m.start() > 0 and text[m.start() - 1] == ".":
            return word.replace("-", "_")
        return new

    return re.sub(WORD, turn, text)


def antt(text, names, path):
    if path.endswith("crates/converter/proofs/Fitting.antt"):
        names = names | {"and_mask": "and_mask_lem"}
    lines = []
    for line in text.split("\n"):
        comment = line.lstrip().startswith("--")
        lines.append(line if comment or GENERATED.search(line) else respelled(line, names))
    return "\n".join(lines)


def ghost(text, names):
    """Of a .rt file: the lines of ghost items and clauses, where no name of the code stands in camel case."""
    lines, inside = [], False
    for line in text.split("\n"):
        words = line.split("//")[0]
        inside = inside or re.match(r"\s*(pub )?(ghost|requires|ensures)\b", words) is not None
        lines.append(respelled(line, names) if inside else line)
        if re.search(r"[};,]\s*$", words) or words.strip() == "{":
            inside = False
    return "\n".join(lines)


def edit(text, names):
    lines = []
    for line in text.split("\n"):
        lines.append(respelled(line, names) if re.match(r"(old|new):", line) else line)
    return "\n".join(lines)


def page(text, names):
    return re.sub(r"`[^`\n]*`", lambda m: respelled(m.group(0), names), text)


def hexadecimal(text):
    text = re.sub(r"\bRattle\.hex\b", "Rattle.hexadecimal", text)
    return re.sub(r"(?<![\w.:])hex::", "hexadecimal::", text)


def main():
    names = table()
    if os.path.isdir("crates/hex"):
        os.rename("crates/hex", "crates/hexadecimal")
    turned = 0
    for top in ("crates", "docs", "README.md", "crates.txt"):
        files = [top] if os.path.isfile(top) else [os.path.join(r, f) for r, _, fs in os.walk(top) for f in fs]
        for path in sorted(files):
            if "/out/" in path or path == "docs/PORT.md":
                continue
            try:
                with open(path, encoding="utf-8") as f:
                    old = f.read()
            except UnicodeDecodeError:
                continue
            new = old
            if path.endswith(".antt"):
                new = hexadecimal(antt(old, names, path))
            elif path.endswith(".rt"):
                new = hexadecimal(ghost(old, names))
            elif path.endswith(".edit"):
                new = hexadecimal(edit(old, names))
            elif path.endswith(".md"):
                new = page(old, names).replace("`hex`", "`hexadecimal`")
            elif path == "crates.txt":
                new = re.sub(r"\bhex\b", "hexadecimal", old)
            if new != old:
                with open(path, "w", encoding="utf-8") as f:
                    f.write(new)
                turned += 1
    print(f"respell: {len(names)} names, {turned} files")
    return 0


if __name__ == "__main__":
    sys.exit(main())
