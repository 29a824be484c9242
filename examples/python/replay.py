#!/usr/bin/env python3
"""Replays a trace on the certified engine, and prints what `dc429 replay TABLES --all` prints.

usage: replay.py TABLES CERTIFICATE < TRACE
Status: 0 done, 1 the certificate or an event is refused, 2 a text can't be read.
"""
import sys
from pathlib import Path

from dc429 import Engine, Kind, List, NotOpened, Refused

LOST = {Kind.BAD_PARITY: "parity", Kind.UNDECLARED: "undeclared", Kind.TOO_EARLY: "early", Kind.OVERRUN: "overrun",
        Kind.LATCHED: "latched"}
REFUSALS = {Kind.SPENT: "spent", Kind.TOO_SOON: "early", Kind.OWED_ROUTER: "owed", Kind.OWED_OUTPUT: "owed", Kind.TICK_LIMIT: "ticks"}


def told(engine, reply, word):
    """A reply as it is printed behind the tick and the name."""
    if reply.kind in LOST:
        return f"{LOST[reply.kind]} {word}"
    bus = engine.name(List.BUS, reply.number)
    return {Kind.QUEUED: f"queued {reply.backlog}", Kind.TOOK: f"took {bus} {reply.word:08X}", Kind.EMPTY: f"empty {bus}",
            Kind.SENT: f"{reply.word:08X}", Kind.IDLE: "idle"}[reply.kind]


def refusal(engine, reply, names):
    """Why an event is refused, as it is printed before the line."""
    if reply.kind is Kind.OWED_ROUTER:
        names = [engine.name(List.ROUTER, reply.number)]
    elif reply.kind is Kind.OWED_OUTPUT:
        names = [engine.name(List.OUTPUT, reply.number)]
    return " ".join([REFUSALS[reply.kind], *names[:1]])


def replay(engine, trace):
    """Prints the reply to each line of a trace, up to the first that is refused."""
    events = {"A": lambda bus, word: engine.arrive(bus, int(word, 16)), "R": engine.route, "S": engine.send, "T": engine.tick}
    tick = 0
    for number, line in enumerate(trace, 1):
        kind, *given = line.split()
        try:
            reply = events[kind](*given)
        except Refused as refused:
            print(f"refused {refusal(engine, refused.reply, given)} at line {number}")
            return 1
        if reply.kind is Kind.NOW:
            tick = reply.tick
            print(f"{tick} tick")
        else:
            print(tick, given[0], told(engine, reply, given[-1].upper()))
    return 0


def main(tables, certificate):
    try:
        with Engine(Path(tables).read_bytes(), Path(certificate).read_bytes()) as engine:
            return replay(engine, sys.stdin)
    except NotOpened as refused:
        print(refused, file=sys.stderr)
        return 1 if refused.fault.kind == "C" else 2


if __name__ == "__main__":
    sys.exit(main(*sys.argv[1:]))
