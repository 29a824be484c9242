"""Which certificates are accepted, as docs/definitions.md and docs/formats.md say it: conditions, margins, the least certificate.

A certificate is what its text reads as: {"inputs": [{"bus", "window", "backlog", "delay"}], "outputs": [..], "labels": [..]}.
Each bound is asked of one window after another, and what is least is searched for.
"""
import json
from bisect import bisect_left
from fractions import Fraction
from functools import cached_property, lru_cache
from itertools import accumulate
from operator import sub
from typing import NamedTuple

from definitions import up

LONGEST = 100_000
# What stands for a least number where there is none, and for those of a queue of which no window closes.
NONE = float("inf")
NO_NUMBERS = {"window": LONGEST, "backlog": NONE, "delay": NONE}


class Bound:
    """An input or an output: what may come at most (cap) and what is taken at least (floor) in so many ticks, and its queue.

    `comes` and `leaves` are what cap and floor are on the average: in w ticks cap is never less, and floor never more."""

    def __init__(self, part, row, cap, floor, comes, leaves):
        self.part, self.name, self.queue, self.comes, self.leaves = part, row.name, getattr(row, "queue", None), comes, leaves
        self.cap = lru_cache(None)(lambda d: cap(d) if d > 0 else 0)
        self.floor = lru_cache(None)(lambda d: floor(d) if d > 0 else 0)

    def closes(self, window):
        """Whether as many are taken in the window's ticks but the first as come in all of them."""
        return self.cap(window) <= self.floor(window - 1)

    def waiting(self, w):
        """How many may wait in the w-th tick of a window."""
        return max(self.cap(w) - self.floor(w - 2), 0)

    def needed(self, w):
        """The least delay with which all that come in w ticks are taken, one over the longest where none does; floor never falls."""
        return bisect_left(range(LONGEST + 1), self.cap(w), key=lambda delay: self.floor(w - 1 + delay))

    @cached_property
    def least_window(self):
        """The least window that closes, or None. None does where on the average as much comes as is taken."""
        windows = range(1, LONGEST + 1) if self.comes < self.leaves else ()
        return next((window for window in windows if self.closes(window)), None)

    @cached_property
    def least(self):
        """The least window that closes, and the least backlog and delay in it; None where no window closes."""
        if self.least_window is None:
            return None
        windows = range(1, self.least_window + 1)
        return {"window": self.least_window, "backlog": max(map(self.waiting, windows)), "delay": max(map(self.needed, windows))}


class Rounds:
    """Numbers that come again and again, none negative: what so many consecutive ones weigh at most and at least."""

    def __init__(self, weights):
        self.length, self.before = len(weights), [0, *accumulate([*weights, *weights])]
        self.firsts = [first for first, weight in enumerate(weights) if weight] or [0]

    def parted(self, k):
        """What the whole rounds in k consecutive numbers weigh, and how many numbers are left."""
        rounds, rest = divmod(k, self.length)
        return rounds * self.before[-1] // 2, rest

    def most(self, k):
        """Most weigh those that begin with a number that weighs something."""
        whole, rest = self.parted(k)
        return whole + max(self.before[first + rest] - self.before[first] for first in self.firsts)

    def least(self, k):
        whole, rest = self.parted(k)
        return whole + min(map(sub, self.before[rest:rest + self.length], self.before))


def input_bound(tables, bus):
    """The bound of a bus: of a policed one the sum of its streams' caps, else the lesser of that and its wire's."""
    row, streams = tables.buses[bus], [number for number, it in enumerate(tables.streams) if it.bus == bus]
    router = next(it for it in tables.routers if bus in it.visits)
    visits = [int(it == bus) for it in router.visits]
    visited = Rounds(visits)
    comes, wire = sum(Fraction(1, tables.streams[it].minimum) for it in streams), Fraction(tables.tick, row.spacing)

    def cap(d):
        of_streams = sum(tables.cap(it, d) for it in streams)
        return of_streams if row.police else min(of_streams, tables.wire(bus, d))

    return Bound("input", row, cap, lambda d: visited.least(router.steps * (d // router.within)),
                 comes if row.police else min(comes, wire), Fraction(router.steps * sum(visits), router.within * len(visits)))


def output_bound(row):
    """The bound of an output: the most entries of its frame that are due, and its sends."""
    offsets = {offset for offset, _ in row.entries}
    due = Rounds([int(it in offsets) for it in range(row.frame)])
    return Bound("output", row, lambda d: due.most(d), lambda d: row.steps * (d // row.within),
                 Fraction(len(offsets), row.frame), Fraction(row.steps, row.within))


# ---- conditions


class Condition(NamedTuple):
    """A condition at its place: whether it holds, its first failing window, its margin (None where not told), what decides it."""

    part: str
    name: str
    code: str
    holds: bool = True
    margin: object = None
    by: str = "-"
    window: object = None

    @property
    def line(self):
        unit = "words" if self.code in ("C03", "C04", "C05") else "ticks"
        return f"{self.part:<6} {self.name:<16} {self.code} {'-' if self.margin is None else self.margin:>7} {unit} {self.by}"

    def line_in_time(self, tick):
        """The line with its microseconds, where it counts ticks and there is a number."""
        counts = self.code not in ("C03", "C04", "C05") and self.margin not in (None, "none")
        return f"{self.line} {f'{self.margin * tick}us' if counts else '-'}"

    @property
    def refusal(self):
        return f"refused {self.code} {self.part} {self.name}" + (f" window {self.window}" if self.window else "")

    @property
    def is_law_kept(self):
        """Whether the margin is negative exactly where the condition fails."""
        return self.margin is None or self.holds == (self.margin != "none" and self.margin >= 0)


def told(in_range, condition):
    """A condition that rests on a number in range; where it is not, that number's own condition fails, and nothing is told here."""
    return condition if in_range else Condition(condition.part, condition.name, condition.code)


def open_conditions(bound):
    """C02 to C07 of an input or an output of which no window closes, with the longest: what rests on a delay or backlog is not told."""
    told = {"C02": 0, "C03": bound.floor(LONGEST - 1) - bound.cap(LONGEST)}
    codes = ("C02", "C07", "C03", "C04", "C05", "C06") if bound.part == "input" else ("C02", "C07", "C03", "C06")
    return [Condition(bound.part, bound.name, code, margin=told.get(code)) for code in codes]


def queue_conditions(bound, row):
    """C02 to C07 of an input or an output, in their order."""
    place, window, delay = (bound.part, bound.name), row["window"], row["delay"]
    if delay == NONE:
        yield from open_conditions(bound)
        return
    in_range = 1 <= window <= LONGEST
    windows = range(1, window + 1) if in_range else [1]
    yield Condition(*place, "C02", in_range, min(window - 1, LONGEST - window))
    yield Condition(*place, "C07", delay <= LONGEST, LONGEST - delay)
    yield told(in_range, Condition(*place, "C03", bound.closes(window), bound.floor(window - 1) - bound.cap(window)))
    if bound.part == "input":
        backlog, peak = row["backlog"], max(windows, key=bound.waiting)
        first = next((w for w in windows if bound.waiting(w) > backlog), None)
        yield told(in_range, Condition(*place, "C04", not first, backlog - bound.waiting(peak), f"window={peak}", first))
        yield Condition(*place, "C05", backlog <= bound.queue, bound.queue - backlog)
    peak = max(windows, key=bound.needed)
    first = next((w for w in windows if bound.cap(w) > bound.floor(w - 1 + delay)), None)
    margin = delay - bound.needed(peak) if bound.needed(peak) <= LONGEST else "none"
    yield told(in_range and delay <= LONGEST, Condition(*place, "C06", not first, margin, f"window={peak}", first))


def label_conditions(tables, label, certificate):
    """C08 to C12 of a label, in their order."""
    row, age, place = tables.labels[label], certificate["labels"][label]["age"], ("label", tables.labels[label].name)
    late, minimum, maximum = certificate["outputs"][row.output]["delay"], row.minimum, row.maximum
    offsets = [offset for offset, it in tables.outputs[row.output].entries if it == label]
    gaps = [later - offset for offset, later in zip(offsets, [*offsets[1:], offsets[0] + tables.outputs[row.output].frame])]
    in_range, least, most = late <= LONGEST, min(gaps), max(gaps)
    yield told(in_range, Condition(*place, "C08", all(minimum + late <= gap for gap in gaps), least - minimum - late, f"gap={least}"))
    yield told(in_range, Condition(*place, "C09", all(gap + late <= maximum for gap in gaps), maximum - most - late, f"gap={most}"))
    delays = {it: certificate["inputs"][tables.streams[it].bus]["delay"] for it in row.sources}
    silences = {it: delay + tables.streams[it].maximum for it, delay in delays.items()}
    in_range, slowest, rarest = max(delays.values()) <= LONGEST, max(delays, key=delays.get), max(silences, key=silences.get)
    yield told(in_range, Condition(*place, "C10", all(row.stale + delay <= age for delay in delays.values()),
                                   age - row.stale - delays[slowest], f"source={tables.streams[slowest].name}"))
    yield told(age != NONE, Condition(*place, "C11", age <= row.limit, row.limit - age))
    yield told(in_range, Condition(*place, "C12", all(silence <= row.stale for silence in silences.values()),
                                   row.stale - silences[rarest], f"source={tables.streams[rarest].name}"))


def drift_lines(tables, drift, accepted):
    """What clocks ask and keep that drift by so many millionths, in whole microseconds on the safe side, beside what is declared."""
    of, longest, shortest = 1_000_000, tables.tick * (1_000_000 + drift), tables.tick * (1_000_000 - drift)
    for bus in tables.buses:
        if not bus.police:
            yield f"wire {bus.name} least {up(bus.spacing * (of + drift), of)} of {bus.spacing}"
    for it in tables.streams:
        least, most, jitter = it.declared
        yield (f"source {it.name} least {up(it.minimum * longest, of)} of {least} most {it.maximum * shortest // of} of {most}"
               f" jitter {it.jitter * longest // of} of {jitter}")
    for number, it in enumerate(tables.labels):
        age = up((accepted["labels"][number]["age"] + 1) * longest, of) if accepted else "-"
        least, most = it.declared
        yield (f"sent {it.name} least {(it.minimum - 1) * shortest // of} of {least} most {up((it.maximum + 1) * longest, of)} of {most}"
               f" age {age}")


class Judge:
    """The judge of certificates for tables."""

    def __init__(self, tables):
        self.tables = tables
        self.bounds = [*(input_bound(tables, bus) for bus in range(len(tables.buses))), *map(output_bound, tables.outputs)]

    def conditions(self, certificate):
        """The conditions of the inputs, the outputs and the labels in one row."""
        rows = [*certificate["inputs"], *certificate["outputs"]]
        each = [queue_conditions(*it) for it in zip(self.bounds, rows)]
        each += [label_conditions(self.tables, label, certificate) for label in range(len(certificate["labels"]))]
        return [condition for part in each for condition in part]

    def misnaming(self, certificate):
        """C01: the inputs are not the tables' buses, once each in their order; or the outputs, or the labels likewise."""
        kinds = (("inputs", "bus", self.tables.buses), ("outputs", "output", self.tables.outputs), ("labels", "label", self.tables.labels))
        for part, key, rows in kinds:
            if [it[key] for it in certificate[part]] != [it.name for it in rows]:
                return f"refused C01 {part}"
        return None

    def accepted(self):
        return f"accepted inputs {len(self.tables.buses)} outputs {len(self.tables.outputs)} labels {len(self.tables.labels)}"

    def verdict(self, certificate):
        """The line of `check`: the first condition that fails, if any does."""
        if misnaming := self.misnaming(certificate):
            return misnaming
        return next((it.refusal for it in self.conditions(certificate) if not it.holds), self.accepted())

    def margins(self, certificate):
        """The lines of `margins`."""
        lines = [] if self.misnaming(certificate) else [it.line for it in self.conditions(certificate)]
        return [self.verdict(certificate), *lines]

    def in_time(self, lines, certificate, drift):
        """The lines of `margins` with their microseconds, and behind them those of clocks that drift; the certificate is that of the
        margins, whose ages are told where it is accepted."""
        told = [it.line_in_time(self.tables.tick) for it in self.conditions(certificate)] if len(lines) > 1 else []
        return [lines[0], *told, *drift_lines(self.tables, drift, certificate if lines[0].startswith("accepted") else None)]

    @cached_property
    def least(self):
        """The least numbers, NONE where there are none, and what stands first in the way of a certificate, or None."""
        certificate = {"inputs": [], "labels": [], "outputs": [], "version": 1}
        for bound in self.bounds:
            row = {"bus" if bound.part == "input" else "output": bound.name, **(bound.least or NO_NUMBERS)}
            if bound.part == "output":
                del row["backlog"]
            certificate[f"{bound.part}s"].append(row)
        for row in self.tables.labels:
            delays = [certificate["inputs"][self.tables.streams[it].bus]["delay"] for it in row.sources]
            certificate["labels"].append({"age": row.stale + max(delays), "label": row.name})
        return certificate, self.obstacle(certificate)

    def obstacle(self, least):
        """What stands first in the way of a certificate, given the least numbers, or None."""
        for bound in self.bounds:
            if bound.least is None:
                return f"refused F1 {bound.part} {bound.name}"
            if bound.part == "input" and bound.least["backlog"] > bound.queue:
                return f"refused F2 input {bound.name}"
        broken = next((it for it in self.conditions(least) if not it.holds), None)
        return broken and f"refused F3 label {broken.name} {broken.code}"

    def found(self):
        """The line of `find`."""
        certificate, obstacle = self.least
        return obstacle or text_of(certificate)

    def least_margins(self):
        """The lines of `margins` without a certificate."""
        certificate, obstacle = self.least
        return [obstacle, *(it.line for it in self.conditions(certificate))] if obstacle else self.margins(certificate)


def fields_of(line):
    """What an object of `margins --json` says of the line of a margin, with its microseconds where it has them: `-` is nothing."""
    part, name, code, amount, unit, by, *us = line.split()
    fields = {"part": part, "name": name, "code": code, "amount": amount, "unit": unit, "where": by}
    if us:
        fields["us"] = us[0].removesuffix("us")
    numbers = {key: int(fields[key]) for key in ("amount", "us") if fields.get(key, "-") not in ("-", "none")}
    return {key: None if it == "-" else it for key, it in {**fields, **numbers}.items()}


def objects_of(lines):
    """The lines of `margins` as `margins --json` tells them."""
    verdict, *lines = lines
    margins = [fields_of(it) if it.split()[0] in ("input", "output", "label") else {"line": it} for it in lines]
    return [text_of(it) for it in [{"verdict": verdict}, *margins]]


def text_of(certificate):
    """The text of a certificate, or of such an object, in the compact form, keys in the order of their bytes."""
    return json.dumps(certificate, sort_keys=True, separators=(",", ":"))
