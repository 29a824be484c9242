#!/usr/bin/env python3
"""Reckons the minutes that a person takes to write a text by changing another, by the model that first-readers.md has: so that two readers
are compared by one. Nothing is measured by a clock.

usage: reckon.py BEFORE AFTER [--words N] [--numbers N] [--refusals N]

BEFORE is the text that was begun with (the template; an empty file where all is typed), AFTER the one that was accepted. Of a line of
AFTER that stands in BEFORE nothing is asked but a look, once; a line made of one of BEFORE costs what was typed in it, and a jump to each
place; one made of a line that was used before is copied first. --words: what was read, each page and each refusal as often as it was read;
--numbers: those that were worked out, and stand neither in the interface document nor in a refusal; --refusals: how often the program said no.
"""
import argparse
import sys
from difflib import SequenceMatcher
from pathlib import Path

WORDS_A_MINUTE, KEYS_A_MINUTE = 200, 200
LOOK_S, NUMBER_S, REFUSAL_S = 2, 8, 30
COPY_KEYS, JUMP_KEYS, TAKEN_OUT_KEYS = 4, 4, 2
LIKE = 0.5


def typed(old, new):
    """The keys that make one line of another: what is put in, and a jump to each place that changes."""
    changes = [(to, end) for kind, _, _, to, end in SequenceMatcher(None, old, new, False).get_opcodes() if kind != "equal"]
    return sum(end - to + JUMP_KEYS for to, end in changes)


def cheapest(line, lines):
    """The line of these from which a line is made by the fewest keys, where one is like it."""
    like = [it for it in lines if SequenceMatcher(None, it, line, False).quick_ratio() >= LIKE]
    return min(like, key=lambda it: typed(it, line), default=None)


def reckoned(before, after):
    """The keys, the lines that are looked over and the lines that are typed whole."""
    left, keys, looks, whole = list(before), 0, 0, 0
    known = [it for it in dict.fromkeys(before) if it.strip()]
    for line in after:
        if not line.strip():
            continue
        if line in left:
            left.remove(line)
            looks += not line.lstrip().startswith("#")
            continue
        origin = cheapest(line, known)
        if origin is None:
            keys, whole = keys + len(line.strip()) + 1, whole + 1
        else:
            keys += typed(origin, line) + (0 if origin in left else COPY_KEYS)
            if origin in left:
                left.remove(origin)
        known.append(line)
    # what is left is taken out, runs of lines at once
    out, behind = 0, False
    rest = {}
    for it in left:
        rest[it] = rest.get(it, 0) + 1
    for line in before:
        is_out = line.strip() and not line.lstrip().startswith("#") and rest.get(line, 0) > 0
        if is_out:
            rest[line] -= 1
        out += bool(is_out and not behind)
        behind = is_out
    return keys + TAKEN_OUT_KEYS * out, looks, whole


def main():
    line = argparse.ArgumentParser(usage="reckon.py BEFORE AFTER [--words N] [--numbers N] [--refusals N]")
    line.add_argument("texts", nargs=2)
    for name in ("words", "numbers", "refusals"):
        line.add_argument(f"--{name}", type=int, default=0)
    asked = line.parse_args()
    before, after = (Path(it).read_text().splitlines() for it in asked.texts)
    keys, looks, whole = reckoned(before, after)
    parts = {
        f"reading {asked.words} words": asked.words / WORDS_A_MINUTE,
        f"typing {keys} keys, {whole} lines of them whole": keys / KEYS_A_MINUTE,
        f"looking over {looks} lines": looks * LOOK_S / 60,
        f"working out {asked.numbers} numbers": asked.numbers * NUMBER_S / 60,
        f"{asked.refusals} refusals": asked.refusals * REFUSAL_S / 60,
    }
    for what, minutes in parts.items():
        print(f"{minutes:5.1f}  {what}")
    print(f"{sum(parts.values()):5.1f}  minutes")
    return 0


if __name__ == "__main__":
    sys.exit(main())
