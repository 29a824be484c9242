#!/usr/bin/env python3
"""Tests that each edit of must-fail/, of edits/ and of docs/trials/wrong-plans/ still applies, in a second and with no proof.

usage: scripts/edits_apply.py [CRATE..]

An edit is a file with a line 'file: src/lib.rt' and then pairs of lines 'old: TEXT' and 'new: TEXT'. It applies where
each old text stands exactly once in that file; further pairs apply to what the earlier ones made. Reported too: a pair that
changes nothing, an edit that stands in both places, a file that is no edit, an edit of no crate, and a crate with more
edits in must-fail/ than the gate is to try.
"""
import hashlib
import os
import re
import sys
from pathlib import Path

TOP = os.path.dirname(os.path.dirname(os.path.abspath(__file__)))
MOST = 8
TRIED = "tried.tsv"
PLANS = "docs/trials/wrong-plans"
NAME = re.compile(r"[A-Za-z0-9_-][A-Za-z0-9_.-]*\.edit")


def names_in(folder):
    return sorted(os.listdir(folder)) if os.path.isdir(folder) else []


def applied(edit, crate):
    """Returns the texts of the files that the edit changes in the crate, by their path, and why it cannot be applied, or nothing."""
    texts, path, old, pairs = {}, None, None, 0
    with open(edit, encoding="utf-8") as it:
        lines = it.read().split("\n")
    for line in lines:
        if line.startswith("file: "):
            path = line[len("file: ") :].strip()
            if os.path.normpath(path) != path or not path.startswith(("src/", "specs/", "proofs/")):
                return {}, f"{path} is no file below src/, specs/ or proofs/"
        elif line.startswith("old: "):
            if old is not None:
                return {}, f"no new text for: {old}"
            old = line[len("old: ") :]
        elif line.startswith("new:"):
            new = re.sub(r"\A ", "", line[len("new:") :])
            if not path or not old:
                return {}, "a new text stands before its file or its old text"
            if path not in texts:
                try:
                    with open(f"{crate}/{path}", encoding="utf-8") as it:
                        texts[path] = it.read()
                except OSError:
                    return {}, f"there is no {path}"
            found = texts[path].count(old)
            if found != 1:
                return {}, f"in {path}, {found} times and not once: {old}"
            if old == new:
                return {}, f"old and new text are the same: {old}"
            texts[path] = texts[path].replace(old, new)
            old, pairs = None, pairs + 1
    if old is not None:
        return {}, f"no new text for: {old}"
    return texts, None if pairs else "it has no pair of an old and a new text"


def sources_of(folder):
    """What a crate's sources are, as the sum of an edit takes them in."""
    files = sorted(it for part in ("src", "specs", "proofs") for it in (folder / part).rglob("*") if it.is_file())
    return b"".join(f"{path.relative_to(folder)}\0".encode() + path.read_bytes() + b"\0" for path in files)


def sum_of(edit):
    """The sum of what an edit of edits/ is tried on: its crate's own sources, and itself."""
    return hashlib.sha256(edit.read_bytes() + sources_of(Path(TOP) / "crates" / edit.parent.name)).hexdigest()[:16]


def main(wanted):
    crates = [it for it in names_in(f"{TOP}/crates") if os.path.isdir(f"{TOP}/crates/{it}/src")]
    reported, tried = [], 0
    reported += [f"there is no crate {it}" for it in wanted if it not in crates]
    for place in ("edits", PLANS):
        reported += [f"{place}/{it}: there is no crate of this name" for it in names_in(f"{TOP}/{place}") if it not in crates + [TRIED] and not wanted]
    for crate in [it for it in crates if it in wanted or not wanted]:
        folder = f"{TOP}/crates/{crate}"
        places = {f"crates/{crate}/must-fail": f"{folder}/must-fail", f"edits/{crate}": f"{TOP}/edits/{crate}"}
        gate, outside = (names_in(it) for it in places.values())
        places[f"{PLANS}/{crate}"] = f"{TOP}/{PLANS}/{crate}"
        if len(gate) > MOST:
            reported.append(f"crates/{crate}/must-fail: {len(gate)} edits, and the gate is to try at most {MOST}")
        reported += [f"edits/{crate}/{it}: it stands in must-fail/ too" for it in outside if it in gate]
        for place, where in places.items():
            for name in names_in(where):
                tried += 1
                why = applied(f"{where}/{name}", folder)[1] if NAME.fullmatch(name) else "no edit: its name does not end in .edit"
                reported += [f"{place}/{name}: {why}"] if why else []
    for line in reported:
        print(line)
    print(f"{tried} edits read, {len(reported)} faults")
    return 1 if reported else 0


if __name__ == "__main__":
    sys.exit(main(sys.argv[1:]))
