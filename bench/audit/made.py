#!/usr/bin/env python3
"""Prints the tables of 64 buses of 16 streams, each of which an output label copies, or a recording of so many events.
usage: bench/audit/made.py tables | EVENTS"""
import sys

LABELS = [f"{n:o}" for n in range(0o201, 0o221)]
BUSES, OUTPUTS = 64, 32


def tables():
    print("version = 1\ntick_us = 1000")
    for label in LABELS:
        print(f'[[parameter]]\nlabel = "{label}"\nequipment = "001"\nformat = "bnr"\nmin_us = 10000\nmax_us = 60000')
    for bus in range(BUSES):
        print(f'[[bus]]\nname = "B{bus}"\nspeed = "high"\nqueue = 16')
        for label in LABELS:
            print(f'[[bus.stream]]\nname = "B{bus}-{label}"\nlabel = "{label}"\nequipment = "001"\nsdi = "any"')
    for bus in range(BUSES):
        print(f'[[router]]\nname = "R{bus}"\nsteps = 2\nwithin = 1\nmost = 2\nvisits = ["B{bus}"]')
    for output in range(OUTPUTS):
        print(f'[[output]]\nname = "O{output}"\nspeed = "high"\nsteps = 1\nwithin = 1\nframe = 40')
        for at in range(32):
            label, bus = LABELS[at % 16], 2 * output + at // 16
            print(f'[[output.label]]\nname = "x{output}-{at}"\nlabel = "{label}"\nequipment = "001"\nsdi = {at // 16}')
            print(f'sources = ["B{bus}-{label}"]\nstale = 70\nage = 200\noffsets = [{at}]')


def odd(word):
    return word | (bin(word).count("1") + 1) % 2 << 31


def lap(tick):
    for number in range(tick % 10, BUSES * 16, 10):
        low = int(f"{int(LABELS[number % 16], 8):08b}"[::-1], 2)
        yield f"A B{number // 16} {odd(0x60000000 | low):08X}"
    for router in range(BUSES):
        yield f"R R{router}"
        yield f"R R{router}"
    for output in range(OUTPUTS):
        yield f"S O{output}"
    yield "T"


def recording(events):
    tick, lines = 0, []
    while len(lines) < events:
        lines.extend(lap(tick))
        tick += 1
    print("\n".join(lines[:events]))


if sys.argv[1] == "tables":
    tables()
else:
    recording(int(sys.argv[1]))
