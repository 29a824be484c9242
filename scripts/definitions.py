"""The definitions of docs/definitions.md as plainly as they run: words, tables, runs, replies, admissible runs, claims.

Nothing here is the program's way: each is said of the whole history, a queue is the textbook formula over all earlier places, and
a cap is asked of one window after another.

A run is a list of events, ("A", bus, word), ("R", router), ("S", output) and ("T",), with numbers of the tables' rows. A place is
a number of events: what holds at a place is said of so many first events of the run.
"""
import math
import tomllib
from bisect import bisect_left, bisect_right
from collections import Counter
from itertools import accumulate, product
from types import SimpleNamespace as Row

IN_SPACING = {"high": 350, "low": 2450}
OUT_SPACING = {"high": 365, "low": 3050}
USABLE = {"bnr": (3,), "bcd": (0, 3), "disc": (0,)}
REPORTED = {"sent", "parity", "undeclared", "early", "overrun", "latched"}


def up(number, by):
    """A quotient, rounded up."""
    return -(-number // by)


# ---- words


def label_of(word):
    """The label: bits 1 to 8, the most significant in bit 1."""
    return int(f"{word & 255:08b}"[::-1], 2)


def sdi_of(word):
    return word >> 8 & 3


def ssm_of(word):
    return word >> 29 & 3


def is_odd(word):
    return word.bit_count() % 2 == 1


def composed(label, sdi, data, ssm):
    """The one odd word with these fields."""
    body = label_of(label) | sdi << 8 | data << 10 | ssm << 29
    return body | (not is_odd(body)) << 31


# ---- tables


class Tables:
    """The tables of a valid text as rows, numbered through the whole document, with their intervals in ticks."""

    def __init__(self, text):
        read = {"parameter": [], "bus": [], "router": [], "output": [], **tomllib.loads(text)}
        self.tick = read["tick_us"]
        self.parameters = {(row["label"], row["equipment"].lower()): row for row in read["parameter"]}
        self.buses = [Row(name=row["name"], queue=row["queue"], police=row.get("police", False), spacing=IN_SPACING[row["speed"]])
                      for row in read["bus"]]
        self.streams = [self.stream(bus, row) for bus, its in enumerate(read["bus"]) for row in its["stream"]]
        buses = {row.name: bus for bus, row in enumerate(self.buses)}
        self.routers = [Row(**{**row, "visits": [buses[name] for name in row["visits"]]}) for row in read["router"]]
        self.labels = [self.label(output, row) for output, its in enumerate(read["output"]) for row in its["label"]]
        self.outputs = [self.output(output, row) for output, row in enumerate(read["output"])]

    def parameter(self, row):
        return self.parameters[row["label"], row["equipment"].lower()]

    def stream(self, bus, row):
        of = self.parameter(row)
        return Row(name=row["name"], bus=bus, label=int(row["label"], 8), sdi=row["sdi"], format=of["format"],
                   minimum=of["min_us"] // self.tick, maximum=up(of["max_us"], self.tick), jitter=up(row.get("jitter_us", 0), self.tick),
                   declared=(of["min_us"], of["max_us"], row.get("jitter_us", 0)))

    def label(self, output, row):
        of, numbers = self.parameter(row), {stream.name: number for number, stream in enumerate(self.streams)}
        return Row(name=row["name"], output=output, label=int(row["label"], 8), sdi=row["sdi"], format=of["format"],
                   sources=[numbers[name] for name in row["sources"]], stale=row["stale"], limit=row["age"], offsets=row["offsets"],
                   minimum=up(of["min_us"], self.tick) + 1, maximum=of["max_us"] // self.tick - 1, declared=(of["min_us"], of["max_us"]))

    def output(self, output, row):
        """The output's entries, as (offset, label), stand in order of offset."""
        entries = sorted((offset, x) for x, label in enumerate(self.labels) if label.output == output for offset in label.offsets)
        return Row(name=row["name"], steps=row["steps"], within=row["within"], frame=row["frame"], entries=entries,
                   gap=up(OUT_SPACING[row["speed"]], self.tick))

    def stream_of(self, bus, word):
        """The stream of the bus that declares the word, by its label and SDI."""
        return next((number for number, it in enumerate(self.streams)
                     if it.bus == bus and it.label == label_of(word) and it.sdi in ("any", sdi_of(word))), None)

    def cap(self, stream, d):
        """The most arrivals of a stream in d ticks, d at least 1."""
        return up(d + self.streams[stream].jitter, self.streams[stream].minimum)

    def wire(self, bus, d):
        """The most words that the bus's wire carries in d ticks, d at least 1."""
        return d * self.tick // self.buses[bus].spacing + 1


# ---- runs


def count_in(u, d, ticks):
    """How many of these ticks, which never fall, are among the d consecutive ticks from u on."""
    return bisect_left(ticks, u + d) - bisect_left(ticks, u)


def passes(cap, ticks):
    """Whether the last of these and some before it are more than the cap of the ticks in which they lie."""
    return any(len(ticks) - number > cap(ticks[-1] - first + 1) for number, first in enumerate(ticks))


def before(flags):
    """How many of these hold before each place."""
    return [0, *accumulate(map(int, flags))]


def served(come, turns):
    """How many are served by each place: the least, over all places up to it, of those come by then and the turns after it."""
    least = accumulate((came - had for came, had in zip(come, turns)), min)
    return [come_less_turns + had for come_less_turns, had in zip(least, turns)]


class Queue:
    """The queue of a bus: by each place what came, what entered before the latch, and what was taken."""

    def __init__(self, room, comes, visits):
        self.items = [item for item in comes if item]
        self.numbers = {}
        for number, (stream, _) in enumerate(self.items):
            self.numbers.setdefault(stream, []).append(number)
        self.come, turns = before(item is not None for item in comes), before(visits)
        passed = served(self.come, turns)
        self.latch = next((place for place, came in enumerate(self.come) if came > room + passed[place]), math.inf)
        self.entered = [self.come[min(place, self.latch - 1)] for place in range(len(self.come))]
        self.taken = served(self.entered, turns)

    def latest(self, stream, place):
        """The number of the stream's latest item that has been taken, None where there is none."""
        numbers = self.numbers.get(stream, [])
        found = bisect_left(numbers, self.taken[place])
        return numbers[found - 1] if found else None


class History:
    """A run of tables, and what is said of its places and of its events, which are numbered from 0."""

    def __init__(self, tables, run):
        self.tables, self.run = tables, run
        self.ticks = before(event[0] == "T" for event in run)
        self.visited = list(self.visits())
        self.came = [[] for _ in tables.streams]
        self.offers = list(self.offered())
        self.queues = [self.queue(number) for number in range(len(tables.buses))]
        self.sent = [self.sends(number) for number in range(len(tables.outputs))]
        self.emitted = [[] for _ in tables.labels]
        for at in range(len(run)):
            if (label := self.emission(at)) is not None:
                self.emitted[label].append(at)

    def visits(self):
        """For each event the bus that it visits: that of the router's step, round its list."""
        made = Counter()
        for event in self.run:
            visits = self.tables.routers[event[1]].visits if event[0] == "R" else [None]
            yield visits[made[event] % len(visits)]
            made[event] += 1

    def offered(self):
        """For each event the stream of which it offers a word, and whether the bus refuses it as early; notes what arrives."""
        kept = [[] for _ in self.tables.streams]
        for at, event in enumerate(self.run):
            stream = self.tables.stream_of(*event[1:]) if event[0] == "A" and is_odd(event[2]) else None
            early = False
            if stream is not None:
                then = [*kept[stream], self.ticks[at]]
                early = self.tables.buses[event[1]].police and passes(lambda d: self.tables.cap(stream, d), then)
                if not early:
                    kept[stream] = then
                    self.came[stream].append((at, self.ticks[at], event[2]))
            yield stream, early

    def queue(self, bus):
        comes = [(stream, event[2]) if stream is not None and event[1] == bus and not early else None
                 for event, (stream, early) in zip(self.run, self.offers)]
        return Queue(self.tables.buses[bus].queue, comes, [visited == bus for visited in self.visited])

    def sends(self, output):
        """How many entries have left by each place: no more than all sends, and those served of the entries that are due."""
        row = self.tables.outputs[output]
        sends = before(event == ("S", output) for event in self.run)
        due = [tick // row.frame * len(row.entries) + sum(offset <= tick % row.frame for offset, _ in row.entries) for tick in self.ticks]
        return [min(all_sends, left) for all_sends, left in zip(sends, served(due, sends))]

    def emission(self, at):
        """The label that an event emits."""
        if self.run[at][0] != "S":
            return None
        sent, entries = self.sent[self.run[at][1]], self.tables.outputs[self.run[at][1]].entries
        return entries[sent[at] % len(entries)][1] if sent[at] < sent[at + 1] else None

    def chosen(self, label, place):
        """The source that a label copies and the number of its word: the first usable one of the fresh, else the first, or None."""
        row, fresh = self.tables.labels[label], []
        for stream in row.sources:
            queue = self.queues[self.tables.streams[stream].bus]
            number = queue.latest(stream, place) if place < queue.latch else None
            if number is not None and self.ticks[place] - self.ticks[bisect_right(queue.taken, number) - 1] <= row.stale:
                fresh.append((stream, number))
        usable = [it for it in fresh if ssm_of(self.copied(it)) in USABLE[row.format]]
        return next(iter(usable + fresh), None)

    def copied(self, choice):
        """The source word of a choice."""
        return self.queues[self.tables.streams[choice[0]].bus].items[choice[1]][1]

    def word(self, label, place):
        """The word that a label sends: the copied one, or the fallback."""
        row, choice = self.tables.labels[label], self.chosen(label, place)
        source = self.copied(choice) if choice else 1 << 29
        return composed(row.label, row.sdi, source >> 10 & (1 << 19) - 1, ssm_of(source))

    # ---- replies

    def reply(self, at):
        """The reply to an event: its kind and its line."""
        event, tick = self.run[at], self.ticks[at]
        if event[0] == "T":
            return "now", f"{tick + 1} tick"
        if event[0] == "A":
            kind, shown = self.arrival(at)
            return kind, f"{tick} {self.tables.buses[event[1]].name} {kind} {shown}"
        if event[0] == "R":
            queue, bus = self.queues[self.visited[at]], self.tables.buses[self.visited[at]].name
            number, router = queue.taken[at], self.tables.routers[event[1]].name
            if number < queue.taken[at + 1]:
                return "took", f"{tick} {router} took {bus} {queue.items[number][1]:08X}"
            return "empty", f"{tick} {router} empty {bus}"
        label, output = self.emission(at), self.tables.outputs[event[1]].name
        return ("idle", f"{tick} {output} idle") if label is None else ("sent", f"{tick} {output} {self.word(label, at + 1):08X}")

    def arrival(self, at):
        """Which reply to a word is the first that applies, and what it shows."""
        _, bus, word = self.run[at]
        queue, (stream, early) = self.queues[bus], self.offers[at]
        applies = [("parity", not is_odd(word)), ("undeclared", stream is None), ("early", early), ("latched", queue.latch <= at),
                   ("overrun", queue.latch <= at + 1)]
        kind = next((kind for kind, holds in applies if holds), None)
        return (kind, f"{word:08X}") if kind else ("queued", queue.entered[at + 1] - queue.taken[at + 1])

    # ---- claims

    def is_good(self, label, stream, place):
        """Whether a stream is a live source of a label, and its words of the last `stale` whole ticks and of this one are usable."""
        row, tick = self.tables.labels[label], self.ticks[place]
        maximum, first = self.tables.streams[stream].maximum, tick - row.stale
        came = self.came[stream][:bisect_left(self.came[stream], (place,))]
        ticks = [then for _, then, _ in came]
        return (first >= 0 and all(count_in(u, maximum, ticks) for u in range(first, tick - maximum + 1))
                and all(ssm_of(word) in USABLE[row.format] for _, then, word in came if then >= first))

    def is_young(self, label, place, age):
        """Claim 2: the word is the fallback, or copies an arrival that is at most its age old."""
        row, choice = self.tables.labels[label], self.chosen(label, place)
        if self.word(label, place) == composed(row.label, row.sdi, 0, 1):
            return True
        come = self.queues[self.tables.streams[choice[0]].bus].come
        return self.ticks[place] <= self.ticks[bisect_right(come, choice[1]) - 1] + age

    def uses_live(self, label, place):
        """Claim 3: a good first source is the one that is copied, and any good source makes the word usable."""
        row, choice = self.tables.labels[label], self.chosen(label, place)
        good = [stream for stream in row.sources if self.is_good(label, stream, place)]
        first = row.sources[0] not in good or (choice and choice[0] == row.sources[0])
        return first and (not good or ssm_of(self.word(label, place)) in USABLE[row.format])

    def keeps_intervals(self, at):
        """Claim 4: no label left too long ago, and the one that leaves now did not leave too short ago."""
        for label, row in enumerate(self.tables.labels):
            earlier = self.emitted[label][:bisect_left(self.emitted[label], at)]
            last = self.ticks[earlier[-1]] if earlier else 0
            too_soon = earlier and self.emission(at) == label and self.ticks[at] < last + row.minimum
            if self.ticks[at] > last + row.maximum or too_soon:
                return False
        return True

    def broken(self, at, ages):
        """The least claim that fails at an event, None where none does."""
        label = self.emission(at)
        if self.reply(at)[0] == "overrun":
            return 1
        if label is not None and not self.is_young(label, at + 1, ages[label]):
            return 2
        if label is not None and not self.uses_live(label, at + 1):
            return 3
        return None if self.keeps_intervals(at) else 4

    # ---- how near the run came to its bounds

    def tick_of(self, counts, number):
        """The tick of the event by which more than so many are counted; of the end, where there are no more."""
        return self.ticks[bisect_right(counts, number) - 1]

    def backlog(self, bus):
        """The most words that waited at a place."""
        queue = self.queues[bus]
        return max(entered - taken for entered, taken in zip(queue.entered, queue.taken))

    def wait(self, bus):
        """The most ticks from the coming of an entered word to its visit; to the end, where it still waits."""
        queue = self.queues[bus]
        return max((self.tick_of(queue.taken, number) - self.tick_of(queue.come, number) for number in range(queue.entered[-1])), default=0)

    def late(self, output):
        """The most ticks from the due tick of an entry to its sending; to the end, where it is due and was not sent."""
        row, late = self.tables.outputs[output], 0
        for number in range(self.ticks[-1] + 1):
            due = number // len(row.entries) * row.frame + row.entries[number % len(row.entries)][0]
            if due > self.ticks[-1]:
                return late
            late = max(late, self.tick_of(self.sent[output], number) - due)
        return late

    def age(self, label, at):
        """How many ticks before this emission of the label the word came that it copies, None where it copies none."""
        choice = self.chosen(label, at + 1)
        return self.ticks[at] - self.tick_of(self.queues[self.tables.streams[choice[0]].bus].come, choice[1]) if choice else None

    def hastened(self):
        """The place of the first word with which some ticks hold more than a source or a wire may send, on buses not policed."""
        tables, of_streams, of_buses = self.tables, [[] for _ in self.tables.streams], [[] for _ in self.tables.buses]
        for at, (stream, _) in enumerate(self.offers):
            if stream is not None and not tables.buses[bus := self.run[at][1]].police:
                of_streams[stream].append(self.ticks[at])
                of_buses[bus].append(self.ticks[at])
                if passes(lambda d: tables.cap(stream, d), of_streams[stream]) or passes(lambda d: tables.wire(bus, d), of_buses[bus]):
                    return at + 1
        return None


class Budgets:
    """The steps that routers and outputs have made in a run that keeps the budgets, each with its tick."""

    def __init__(self, tables):
        self.tick, self.tables = 0, tables
        self.routes, self.sends = [[] for _ in tables.routers], [[] for _ in tables.outputs]

    def breach(self, event):
        """How the run with this event would break the budgets, as a replay says it; None where it may follow."""
        if event[0] == "R" and count_in(self.tick, 1, self.routes[event[1]]) >= self.tables.routers[event[1]].most:
            return f"spent {self.tables.routers[event[1]].name}"
        if event[0] == "S" and count_in(self.tick + 1 - (row := self.tables.outputs[event[1]]).gap, row.gap, self.sends[event[1]]):
            return f"early {row.name}"
        if event[0] == "T":
            for row, steps in [*zip(self.tables.routers, self.routes), *zip(self.tables.outputs, self.sends)]:
                u = self.tick + 1 - row.within
                if u >= 0 and count_in(u, row.within, steps) < row.steps:
                    return f"owed {row.name}"
        return None

    def add(self, event):
        if event[0] in "RS":
            (self.routes if event[0] == "R" else self.sends)[event[1]].append(self.tick)
        self.tick += event[0] == "T"


def first_breach(tables, run):
    """The place of the first event with which a run breaks the budgets, and how; None where it keeps them."""
    budgets = Budgets(tables)
    for place, event in enumerate(run, 1):
        if breach := budgets.breach(event):
            return place, breach
        budgets.add(event)
    return None


# ---- a bench


def words_of_bench(tables, bus, ticks):
    """The ticks of the words that a wire of a bench brings: in each tick one of each stream, as soon as its minimum and the wire let
    it come."""
    streams, free, last, words = [stream for stream in tables.streams if stream.bus == bus], 0, {}, []
    for tick, (number, stream) in product(range(ticks), enumerate(streams)):
        time = max(tick * tables.tick, free)
        if tick - last.get(number, -stream.minimum) >= stream.minimum and time < (tick + 1) * tables.tick:
            free, last[number] = time + tables.buses[bus].spacing, tick
            words.append(tick)
    return words


def least_mark(tables, bus, ticks):
    """The least that the mark of a bus may be: when the last word of a tick comes, its router has taken one in each of its steps of
    that tick at most, and the word itself waits."""
    most = next(row.most for row in tables.routers if bus in row.visits)
    return max(1, max(Counter(words_of_bench(tables, bus, ticks)).values()) - most)


def bench(tables, ticks):
    """The lines of a bench of an accepted certificate: its entries are its words and the steps of the steady run."""
    steps = ticks * (1 + sum(row.most for row in tables.routers)) + sum(up(ticks, row.gap) for row in tables.outputs)
    words = sum(len(words_of_bench(tables, bus, ticks)) for bus in range(len(tables.buses)))
    return [f"ticks {ticks}", f"entries {words + steps}", "overruns 0", "claims hold"]


# ---- what the commands say of a run


def replay(tables, run, every=True):
    """The lines of a replay, and the kinds of its replies: up to the first event that may not follow."""
    place, breach = first_breach(tables, run) or (len(run) + 1, None)
    history = History(tables, run[:place - 1])
    replies = [history.reply(at) for at in range(place - 1)]
    lines = [line for kind, line in replies if every or kind in REPORTED] + ([f"refused {breach} at line {place}"] if breach else [])
    return lines, {kind for kind, _ in replies} | ({breach.split(" ")[0] + " step"} if breach else set())


def audit(tables, certificate, run):
    """The three lines of an audit."""
    history, ages = History(tables, run), [row["age"] for row in certificate["labels"]]
    breach, hastened = first_breach(tables, run), history.hastened()
    broken = next(((claim, at + 1) for at in range(len(run)) if (claim := history.broken(at, ages))), None)
    return [f"budgets fail at {breach[0]}" if breach else "budgets hold",
            f"sources fail at {hastened}" if hastened else "sources hold",
            f"claim {broken[0]} fails at {broken[1]}" if broken else "claims hold"]


def beside(number, bound):
    """What was observed, beside its bound."""
    return f"{'-' if number is None else number} of {bound}"


def observe(tables, certificate, run):
    """How near a run came to its bounds: a line for each input, each output and each label."""
    history, lines = History(tables, run), []
    for bus, (row, claim) in enumerate(zip(tables.buses, certificate["inputs"])):
        backlog, wait = beside(history.backlog(bus), claim["backlog"]), beside(history.wait(bus), claim["delay"])
        lines.append(f"input {row.name} backlog {backlog} wait {wait}")
    for output, (row, claim) in enumerate(zip(tables.outputs, certificate["outputs"])):
        lines.append(f"output {row.name} late {beside(history.late(output), claim['delay'])}")
    for label, (row, claim) in enumerate(zip(tables.labels, certificate["labels"])):
        ages, ticks = [history.age(label, at) for at in history.emitted[label]], [history.ticks[at] for at in history.emitted[label]]
        least = min((after - tick for tick, after in zip(ticks, ticks[1:])), default=None)
        greatest = max(after - tick for tick, after in zip([0, *ticks], [*ticks, history.ticks[-1]]))
        age = max((age for age in ages if age is not None), default=None)
        lines.append(f"label {row.name} sent {len(ages)} fallback {ages.count(None)} age {beside(age, claim['age'])}"
                     f" least {beside(least, row.minimum)} greatest {beside(greatest, row.maximum)}")
    return lines
