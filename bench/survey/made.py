#!/usr/bin/env python3
"""Prints what the peers read of tables: a line for each bus, stream, router and output; or a capture of so many words of the tables.
usage: bench/survey/made.py list TABLES | capture TABLES WORDS"""
import sys
from pathlib import Path
from random import Random

sys.dont_write_bytecode = True
sys.path.insert(0, str(Path(__file__).resolve().parents[2] / "scripts"))
from definitions import Tables, composed, label_of


def listed(tables):
    yield f"tick {tables.tick}"
    for row in tables.buses:
        yield f"bus {row.name} {row.spacing} {int(row.police)}"
    for row in tables.streams:
        # (the label as it stands in a word)
        yield f"stream {row.name} {row.bus} {label_of(row.label)} {row.sdi} {row.declared[0]} {row.declared[1]} {row.declared[2]}"
    for row in tables.routers:
        yield f"router {row.name} {row.most}"
    for row in tables.outputs:
        yield f"output {row.name} {row.gap}"


def captured(tables, count):
    """Words of each stream in turn, one after another, those of a bus some two milliseconds apart; times have nine digits."""
    chance, time = Random(429), 100_000_000
    apart = max(2, min(2000, 880_000_000 // count) // len(tables.buses))
    words = [[(row.bus, composed(row.label, row.sdi if row.sdi != "any" else 0, chance.randrange(1 << 19), 3)) for _ in range(64)]
             for row in tables.streams]
    for number in range(count):
        bus, word = words[number * 7 % len(words)][chance.randrange(64)]
        yield f"{time} {tables.buses[bus].name} {word:08X}"
        time += chance.randint(apart // 2, apart)


tables = Tables(Path(sys.argv[2]).read_text())
for line in listed(tables) if sys.argv[1] == "list" else captured(tables, int(sys.argv[3])):
    print(line)
