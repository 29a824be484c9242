#!/usr/bin/env python3
"""25 broken inputs for a reader who mends them by the broken file and the terminal's text alone, each in a folder of its own with the
command that was typed. first-readers.md says what came of such trials.

usage: docs/trials/broken.py PROGRAM FOLDER     the built program; a folder, which must not be there
"""
import subprocess
import sys
from pathlib import Path

TOP = Path(__file__).resolve().parents[2]
# without the comments that say what it is
AIR = (TOP / "examples/airdata.toml").read_text().split("\n", 3)[3]
NETWORK = {path.name: path.read_text() for path in (TOP / "examples/network").iterdir()}
FIND, CHECK, SYSTEM = "find tables.toml", "check tables.toml certificate.json", "network system.toml"
BUDGET = "steps = 1\nwithin = 1\nmost = 2"
LAST_STREAM = 'label = "270", equipment = "006", sdi = "any" },\n]\n\n[[router]]'

# what is typed, and the changes of the tables
TABLES = [
    (FIND, [('62500 },\n  { label = "204"', '62500 \n  { label = "204"')]),
    (FIND, [('["ADC1", "ADC2"]', '["ADC1", "ADC2"')]),
    (FIND, [('label = "217", equipment = "006", format', 'label = "290", equipment = "006", format')]),
    (FIND, [("min_us = 31300,", "min_us = 313000,")]),
    (FIND, [("tick_us = 1000", "tick_us = 10000")]),
    (FIND, [("[\n    27] }", "[\n    27, 27] }")]),
    (FIND, [('"ADC2-206"], offsets', '"ADC1-260"], offsets')]),
    (FIND, [(LAST_STREAM, LAST_STREAM.replace("270", "205"))]),
    (FIND, [("queue = 4", "queues = 4")]),
    (FIND, [('["ADC1", "ADC2"]', '["ADC1"]')]),
    (FIND, [('"270", equipment = "006", sdi = 0', '"270", equipment = 006, sdi = 0')]),
    (FIND, [("steps = 1\nwithin = 2", "steps = 3\nwithin = 2")]),
    (FIND, [(BUDGET, BUDGET.replace("within = 1", "within = 20"))]),
    (FIND, [('stale = 65, age = 99, sources = ["ADC1-212"', 'stale = 60, age = 99, sources = ["ADC1-212"')]),
    (FIND, [("12, 92, 172, 252", "12, 62, 172, 252")]),
    (FIND, [("queue = 4", "queue = 1")]),
    (FIND, [('age = 199, sources = ["ADC1-217"', 'age = 120, sources = ["ADC1-217"')]),
    (CHECK, [(BUDGET, BUDGET.replace("within = 1", "within = 2"))]),
]
# the changes of the certificate of the tables as they are
CERTIFICATES = [
    [('"bus":"ADC1","delay":2', '"bus":"ADC1","delay":1')],
    [('"bus":"ADC1","delay":2,', '"bus":"ADC1",')],
    [('"bus":"ADC2"', '"bus":"ADC3"')],
]
# those of the system
SYSTEMS = [
    [("most_us = 700", "most_us = 5700")],
    [('to = "AFT.FROMMID"', 'to = "AFT.FROMMIDDLE"')],
]


def changed(text, changes):
    for old, new in changes:
        if old not in text:
            sys.exit(f"{old!r} does not stand in the text that is to be broken")
        text = text.replace(old, new, 1)
    return text


def cases(certificate):
    """What is typed, and the files that are there, by their names."""
    for words, changes in TABLES:
        yield words, {"tables.toml": changed(AIR, changes), **({"certificate.json": certificate} if words == CHECK else {})}
    for changes in CERTIFICATES:
        yield CHECK, {"tables.toml": AIR, "certificate.json": changed(certificate, changes)}
    yield CHECK, {"tables.toml": AIR}
    yield "check certificate.json tables.toml", {"tables.toml": AIR, "certificate.json": certificate}
    for changes in SYSTEMS:
        yield SYSTEM, {**NETWORK, "system.toml": changed(NETWORK["system.toml"], changes)}


def main(program, folder):
    certificate = subprocess.run([program, "find", "-"], input=AIR, text=True, stdout=subprocess.PIPE, check=True).stdout
    for number, (words, files) in enumerate(cases(certificate), 1):
        room = Path(folder) / f"{number:02}"
        room.mkdir(parents=True)
        for name, text in files.items():
            (room / name).write_text(text)
        (room / "command").write_text(f"dc429 {words}\n")
    print(f"{number} broken inputs in {folder}")


if __name__ == "__main__":
    main(*sys.argv[1:]) if len(sys.argv) == 3 else sys.exit(__doc__)
