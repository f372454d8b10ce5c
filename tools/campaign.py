#!/usr/bin/env python3
"""Plants the bugs of tools/campaign.txt, one at a time, and asks the prover of each.

    python3 tools/campaign.py                       all bugs
    python3 tools/campaign.py stack labels          those of some crates
    python3 tools/campaign.py --jobs 4              four checks at a time, two without the word
    python3 tools/campaign.py --check               looks at the list, and plants nothing

A bug is killed where the crate is no longer proved, and has survived where it still is. It is void where nothing was
proved or refused: it does not compile, a check takes more than ten minutes, or the crate was not proved before. The
status is 1 if one survived or was void. Everything happens in copies, one for each check at a time.
"""
import argparse
import collections
import concurrent.futures
import os
import re
import shutil
import signal
import subprocess
import sys
import tempfile

TOP = os.path.dirname(os.path.dirname(os.path.realpath(__file__)))
LIST = os.path.join(TOP, "tools", "campaign.txt")
LIMIT = 600
KEYS = ["crate", "file", "kind", "old", "new"]
TRIED = re.compile(r"logic=not-proved|: no proof|: not proved|it is not proved that")
WHY = re.compile(r"it is not proved that|: error: |: no proof|: not proved|logic=not-proved")
Bug = collections.namedtuple("Bug", ["line"] + KEYS)


def text_of(*path):
    with open(os.path.join(*path), encoding="utf-8", newline="") as f:
        return f.read()


def bugs():
    """The blocks of the list, each with the number of its first line."""
    found, block = [], {}
    for number, line in enumerate(text_of(LIST).split("\n") + [""], 1):
        if line.startswith("#"):
            continue
        if line.strip():
            key, _, value = line.partition(": ")
            block.setdefault("line", number)
            block[key] = f"{block[key]}\n{value}" if key in block else value
        elif block:
            found.append(Bug(**block))
            block = {}
    return found


def edited(text, pairs):
    for old, new in pairs:
        text = text.replace(old, new)
    return "".join(text.split())


def edits(crate):
    """Each must-fail edit of a crate: its name, its file, and that file with the edit, without spaces."""
    folder = os.path.join(TOP, "crates", crate, "must-fail")
    for name in sorted(os.listdir(folder)) if os.path.isdir(folder) else []:
        parts = re.split(r"^(file|old|new):", text_of(folder, name), flags=re.M)[1:]
        values = [value.strip() for value in parts[1::2]]
        olds = [v for k, v in zip(parts[::2], values) if k == "old"]
        news = [v for k, v in zip(parts[::2], values) if k == "new"]
        yield name, values[0], edited(text_of(TOP, "crates", crate, values[0]), zip(olds, news))


def faults(bug):
    """What is wrong with a block of the list."""
    path = os.path.join(TOP, "crates", bug.crate, bug.file)
    if not os.path.isfile(path):
        return ["there is no such file"]
    text = text_of(path)
    said = []
    if text.count(bug.old) != 1:
        said.append(f"`old` stands {text.count(bug.old)} times")
    planted = edited(text, [(bug.old, bug.new)])
    if planted == edited(text, []):
        said.append("it changes nothing")
    said += [f"it is must-fail/{name}" for name, file, after in edits(bug.crate) if file == bug.file and after == planted]
    return said


def is_listed_well(listed):
    wrong = [f"campaign.txt:{bug.line}: {why}" for bug in listed for why in faults(bug)]
    print("\n".join(wrong + [f"{len(listed)} bugs, {len(wrong)} faults in the list"]))
    for what in ["crate", "kind"]:
        count = collections.Counter(getattr(bug, what) for bug in listed)
        print(f"by {what}: " + ", ".join(f"{name} {n}" for name, n in count.most_common()))
    return not wrong


def copy_to(folder):
    """The tracked files, and what was built and checked of them."""
    names = subprocess.run(["git", "ls-files", "-z"], cwd=TOP, check=True, capture_output=True, text=True).stdout
    for name in filter(None, names.split("\0")):
        os.makedirs(os.path.dirname(os.path.join(folder, name)), exist_ok=True)
        shutil.copy2(os.path.join(TOP, name), os.path.join(folder, name))
    for crate in os.listdir(os.path.join(TOP, "crates")):
        out = os.path.join(TOP, "crates", crate, "out")
        if os.path.isdir(out):
            shutil.copytree(out, os.path.join(folder, "crates", crate, "out"), symlinks=True)


def checked(folder, crate, limit):
    """The status and the lines of a check; no status where it was not done in time."""
    run = subprocess.Popen(["rt", "check", "--jobs", "1"], cwd=os.path.join(folder, "crates", crate), text=True,
                           stdout=subprocess.PIPE, stderr=subprocess.STDOUT, start_new_session=True)
    try:
        said, _ = run.communicate(timeout=limit)
        return run.returncode, said.splitlines()
    except subprocess.TimeoutExpired:
        return None, []
    finally:
        if run.returncode is None:
            os.killpg(run.pid, signal.SIGKILL)
            run.communicate()


def is_proved(status, lines):
    verdicts = [line for line in lines if "logic=" in line]
    return status == 0 and bool(verdicts) and "logic=proved" in verdicts[-1]


def first(lines, pattern):
    return next((line.strip() for line in lines if re.search(pattern, line)), (lines or ["nothing was said"])[-1].strip())


def verdict(status, lines):
    if status is None:
        return "void", f"no answer in {LIMIT} s"
    if is_proved(status, lines):
        return "SURVIVED", first(lines[::-1], "logic=proved")
    if any(TRIED.search(line) for line in lines):
        return "killed", first(lines, WHY)
    return "void", first(lines, r"error\[")


def planted(folder, bug):
    """What becomes of a bug; the file is put back."""
    path = os.path.join(folder, "crates", bug.crate, bug.file)
    text = text_of(path)
    try:
        with open(path, "w", encoding="utf-8", newline="") as f:
            f.write(text.replace(bug.old, bug.new))
        return verdict(*checked(folder, bug.crate, LIMIT))
    finally:
        with open(path, "w", encoding="utf-8", newline="") as f:
            f.write(text)


def crate_tried(folders, crate, listed):
    """Tries a crate's bugs in a folder that no other takes meanwhile, once the crate is proved there without them."""
    folder = folders.pop()
    try:
        if not os.listdir(folder):
            copy_to(folder)
        before = is_proved(*checked(folder, crate, None))
        for bug in listed:
            word, why = planted(folder, bug) if before else ("void", "the crate is not proved without it")
            print(f"{word:8} {bug.crate} {bug.file} {bug.kind}, campaign.txt:{bug.line}: {why[:200]}", flush=True)
            yield word
    finally:
        folders.append(folder)


def main():
    parser = argparse.ArgumentParser()
    parser.add_argument("crates", nargs="*")
    parser.add_argument("--jobs", type=int, default=2)
    parser.add_argument("--check", action="store_true")
    asked = parser.parse_args()
    listed = [bug for bug in bugs() if not asked.crates or bug.crate in asked.crates]
    if not is_listed_well(listed):
        return 1
    if asked.check:
        return 0
    by_crate = {bug.crate: [other for other in listed if other.crate == bug.crate] for bug in listed}
    with tempfile.TemporaryDirectory(prefix="campaign-") as room:
        folders = [tempfile.mkdtemp(dir=room) for _ in range(asked.jobs)]
        with concurrent.futures.ThreadPoolExecutor(asked.jobs) as pool:
            tries = [pool.submit(lambda c=c, b=b: list(crate_tried(folders, c, b))) for c, b in by_crate.items()]
        count = collections.Counter(word for tried in tries for word in tried.result())
    print(f"{count['killed']} killed, {count['SURVIVED']} survived, {count['void']} void")
    return 0 if listed and count["killed"] == len(listed) else 1


if __name__ == "__main__":
    sys.exit(main())
