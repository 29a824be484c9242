#!/usr/bin/env python3
"""Tries a program that was built with the bodies of docs/DECISIONS.md, "Causes", planted: for each the trial that is named there
has to print a line that begins as it stands there.

usage: docs/trials/causes.py PROGRAM     in the workspace whose trials are to tell

The last line is 'N bodies, M let through'; the status is 1 where M is not 0.
"""
import re
import subprocess
import sys
from pathlib import Path

sys.dont_write_bytecode = True
sys.path.insert(0, str(Path(__file__).resolve().parents[2] / "scripts"))
from program import ROOT, built, ended

SECONDS = 1800


def expected():
    """Each row of the table: its body, what it fires for, its trial, and how a line of that begins."""
    part = (ROOT / "docs/DECISIONS.md").read_text().partition("\n## Causes\n")[2].partition("\n## ")[0]
    return re.findall(r"^\| (.+) \| (.+) \| (\w+) `(.+?)`.* \|$", part, re.M)


def lines_of(trial, program):
    """What a trial prints of a program."""
    ended = subprocess.run([ROOT / "scripts" / trial, program], capture_output=True, text=True, timeout=SECONDS)
    return ended.stdout.splitlines()


def main():
    program, bodies = built(sys.argv[1:2]), expected()
    told = {trial: lines_of(trial, program) for trial in dict.fromkeys(trial for *_, trial, _ in bodies)}
    through = [f"{body}, {fires}: no line of {trial} begins with {line!r}"
               for body, fires, trial, line in bodies if not any(it.startswith(line) for it in told[trial])]
    return ended(len(bodies), "bodies", through, said="let through")


if __name__ == "__main__":
    sys.exit(main())
