#!/usr/bin/env python3
"""Writes a recording of one second of the buses of tables.toml: lines `<microseconds> <bus> <word>`, in order of time.

usage: examples/regional/capture.py [SEED] > regional.capture     where none is said 429

Each stream begins by chance within its greatest interval, and each word of it comes by chance between its least and nine tenths of
its greatest interval after the one before; where the wire is taken it waits until the wire is free. The same seed writes the same bytes.
"""
import heapq
import random
import sys
from pathlib import Path

HERE = Path(__file__).resolve().parent
sys.dont_write_bytecode = True
sys.path.insert(0, str(HERE.parents[1] / "scripts"))
from definitions import IN_SPACING, composed

import tomllib

SECOND = 1_000_000
SSM = {"bnr": 3, "bcd": 0, "disc": 0}
DATA = {"bnr": lambda draw: draw.randrange(1 << 18), "bcd": lambda draw: int(str(draw.randrange(10_000)), 16),
        "disc": lambda draw: draw.randrange(1 << 19)}


def main(words):
    draw = random.Random(int(words[0]) if words else 429)
    tables = tomllib.loads((HERE / "tables.toml").read_text())
    parameters = {(row["label"], row["equipment"].lower()): row for row in tables["parameter"]}
    coming = []
    for bus in tables["bus"]:
        for stream in bus["stream"]:
            of = parameters[stream["label"], stream["equipment"].lower()]
            coming.append((draw.randrange(of["max_us"]), stream["name"], bus, stream, of))
    heapq.heapify(coming)
    free = {bus["name"]: 0 for bus in tables["bus"]}
    while coming[0][0] < SECOND:
        time, name, bus, stream, of = heapq.heappop(coming)
        if time < free[bus["name"]]:
            heapq.heappush(coming, (free[bus["name"]], name, bus, stream, of))
            continue
        free[bus["name"]] = time + IN_SPACING[bus["speed"]]
        sdi = 0 if stream["sdi"] == "any" else stream["sdi"]
        data = DATA[of["format"]](draw)
        word = composed(int(stream["label"], 8), sdi, data, SSM[of["format"]])
        print(time, bus["name"], f"{word:08X}")
        heapq.heappush(coming, (time + draw.randint(of["min_us"], of["max_us"] * 9 // 10), name, bus, stream, of))


if __name__ == "__main__":
    main(sys.argv[1:])
