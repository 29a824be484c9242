"""What scripts/chance draws: small tables, certificates near the least one, and runs.

Each draw takes a source of chance, a Random of the standard library, and says the same for the same one.
"""
import json

from acceptance import NONE, Judge
from definitions import OUT_SPACING, USABLE, Budgets, Tables, composed, up

LABELS = ["001", "203", "204", "205", "310", "377"]


# ---- tables by chance


def toml_of(rows, path=()):
    """The text of tables in TOML: the keys of a table, then its lists of tables."""
    lists = {key: value for key, value in rows.items() if isinstance(value, list) and isinstance(value[0], dict)}
    lines = [f"{key} = {json.dumps(value)}\n" for key, value in rows.items() if key not in lists]
    for key, value in lists.items():
        lines += [f"[[{'.'.join([*path, key])}]]\n{toml_of(row, (*path, key))}" for row in value]
    return "".join(lines)


def draw_parameters(chance, tick, least_ticks, more_ticks):
    """Three parameters: about so many ticks at least, and at most so many more; often of one format."""
    shared = chance.choice([None, "bnr", "bcd", "disc"])
    for label in chance.sample(LABELS, 3):
        least = chance.randint(*least_ticks) * tick + chance.choice([0, chance.randrange(tick)])
        most = (up(least, tick) + chance.randint(*more_ticks)) * tick + chance.choice([0, chance.randrange(tick)])
        yield {"label": label, "equipment": chance.choice(["001", "0Af"]), "format": shared or chance.choice(["bnr", "bcd", "disc"]),
               "min_us": least, "max_us": most}


def draw_bus(chance, number, parameters, longest, policed):
    """A bus of one to three streams, of a label with any SDI or with two SDIs; in version 1 where nothing is said of policing."""
    slots = [(row, sdi) for row in parameters for sdi in chance.choice([["any"], chance.sample(range(4), 2)])]
    streams = [{"name": f"S{number}-{place}", "label": row["label"], "equipment": row["equipment"].upper(), "sdi": sdi}
               for place, (row, sdi) in enumerate(chance.sample(slots, chance.randint(1, 3)))]
    bus = {"name": f"B{number}", "speed": chance.choice(["high", "high", "low"]), "queue": chance.randint(1, longest), "stream": streams}
    if policed is not None:
        bus["police"] = policed
        for stream in streams:
            stream["jitter_us"] = chance.choice([0, chance.randrange(15_000)])
    return bus


def draw_router(chance, number, buses, roomy):
    """A router that visits these buses, some of them twice."""
    most, within = chance.randint(1, 3), chance.randint(1, 3)
    visits = chance.sample(buses, len(buses)) + chance.choices(buses, k=chance.randint(0, 1))
    steps = max(1, most * within - chance.randint(0, 1)) if roomy else chance.randint(1, most * within)
    return {"name": f"R{number}", "steps": steps, "within": within, "most": most, "visits": [bus["name"] for bus in visits]}


def draw_output(chance, number, parameters, buses, tick, roomy):
    """An output of one to three labels of one or two entries, each with sources of its format."""
    formats = {(row["label"], row["equipment"].upper()): row["format"] for row in parameters}
    streams = [(stream["name"], formats[stream["label"], stream["equipment"]]) for bus in buses for stream in bus["stream"]]
    speed, steps, count = chance.choice(["high", "high", "low"]), chance.randint(1, 2), chance.randint(1, 2 if roomy else 3)
    frame = chance.randint(14, 24) if roomy else chance.randint(2 * count, 9)
    offsets, labels = chance.sample(range(min(frame, 9)), min(frame, 9)), []
    for place in range(count):
        form = chance.choice(streams)[1]
        row = chance.choice([it for it in parameters if it["format"] == form])
        sources = [name for name, its in chance.sample(streams, len(streams)) if its == form][:chance.randint(1, 3)]
        due = [offsets.pop() for _ in range(1 if roomy else chance.randint(1, 2))]
        labels.append({"name": f"L{number}{place}", "label": row["label"], "equipment": row["equipment"], "sdi": place, "sources": sources,
                       "stale": chance.randint(1, 8), "age": 90, "offsets": due})
    within = steps * up(OUT_SPACING[speed], tick) + chance.randint(0, 2)
    return {"name": f"O{number}", "speed": speed, "steps": steps, "within": within, "frame": frame, "label": labels}


def draw_tables(chance, roomy, version=None, policed=None, tick=None, fed=()):
    """Small tables: roomy ones, for which often some certificate is accepted, or tight ones, with each reply within a few ticks. Behind
    their own buses they have those that are fed, each with the parameters of its streams."""
    tick, version = tick or chance.choice([300, 500, 1000, 1000, 2000]), version or chance.randint(1, 2)
    parameters = list(draw_parameters(chance, tick, *([(3, 8), (10, 30)] if roomy else [(1, 6), (2, 8)])))
    police = [None if version == 1 else chance.choice([True, False]) if policed is None else policed for _ in range(chance.randint(1, 3))]
    buses = [draw_bus(chance, number, parameters, 6 if roomy else 3, its) for number, its in enumerate(police)] + [bus for bus, _ in fed]
    parameters += [row for _, rows in fed for row in rows]
    cut = chance.randrange(len(buses))
    routers = [draw_router(chance, number, its, roomy) for number, its in enumerate(filter(None, [buses[:cut], buses[cut:]]))]
    outputs = [draw_output(chance, number, parameters, buses, tick, roomy) for number in range(chance.randint(1, 2))]
    rows = {"version": version, "tick_us": tick, "parameter": parameters, "bus": buses, "router": routers, "output": outputs}
    if roomy:
        settle(chance, rows)
    return toml_of(rows)


def nudge(chance, *more):
    """How much a number lies over the least that will do: seldom one too little."""
    return chance.choice([-1, *[0] * 12, *more * 3])


def settle(chance, rows):
    """Gives queues, frames, stale ticks and ages of tables values near those at which some certificate is just accepted."""
    judge = Judge(Tables(toml_of(rows)))
    least = {bound.name: bound.least or {"backlog": 3, "delay": 3} for bound in judge.bounds}
    for bus in rows["bus"]:
        bus["queue"] = max(1, least[bus["name"]]["backlog"] + nudge(chance, 1, 4, 8))
    streams, labels = {row.name: row for row in judge.tables.streams}, iter(judge.tables.labels)
    for output in rows["output"]:
        its, late = [next(labels) for _ in output["label"]], least[output["name"]]["delay"]
        shortest, longest = max(row.minimum for row in its) + late, min(row.maximum for row in its) - late
        output["frame"] = max(9, chance.choice([shortest, chance.randint(shortest, max(shortest, longest))]) + nudge(chance, 1))
        for label in output["label"]:
            sources = [streams[name] for name in label["sources"]]
            delays = [least[judge.tables.buses[row.bus].name]["delay"] for row in sources]
            label["stale"] = max(row.maximum + delay for row, delay in zip(sources, delays)) + nudge(chance, 2)
            label["age"] = label["stale"] + max(delays) + nudge(chance, 3)


def draw_accepted(chance, **given):
    """Roomy tables for which some certificate is accepted, as a text, and the least one, with ages up to their limits."""
    for _ in range(100):
        text = draw_tables(chance, True, **given)
        judge = Judge(Tables(text))
        certificate, obstacle = judge.least
        if not obstacle:
            pairs = zip(certificate["labels"], judge.tables.labels)
            return text, {**certificate, "labels": [{**row, "age": chance.randint(row["age"], label.limit)} for row, label in pairs]}
    raise ValueError("no certificate is accepted for a hundred tables")


# ---- runs by chance


def trace_of(tables, run):
    """The trace of a run."""
    return "".join(f"{line_of(tables, event)}\n" for event in run)


def line_of(tables, event):
    """The line of an event in a trace."""
    rows = {"A": tables.buses, "R": tables.routers, "S": tables.outputs}.get(event[0])
    return " ".join([event[0], *([rows[event[1]].name] if rows else []), *(f"{word:08X}" for word in event[2:])])


def draw_word(chance, label, sdi, ssm=None):
    """A word, its data by chance, and its SSM where none is said."""
    return composed(label, sdi, chance.randrange(1 << 19), chance.randrange(4) if ssm is None else ssm)


def stray_word(chance, tables):
    """A word of the label of some stream with any SDI, now and then of even parity."""
    return draw_word(chance, chance.choice(tables.streams).label, chance.randrange(4)) ^ (chance.randrange(12) == 0) << 31


def any_run(chance, tables):
    """Events in any order. Most of those that may not follow are left out; where one is not, the run ends with it."""
    budgets, run = Budgets(tables), []
    for _ in range(120):
        kind = chance.choice("TTTTRRRRRSSSAAAA")
        rows = {"A": tables.buses, "R": tables.routers, "S": tables.outputs, "T": []}[kind]
        event = (kind, *([chance.randrange(len(rows))] if rows else []), *([stray_word(chance, tables)] if kind == "A" else []))
        breach = budgets.breach(event)
        if breach and chance.randrange(24):
            continue
        run.append(event)
        if breach:
            break
        budgets.add(event)
    return run


def plan(chance, row, most, gap):
    """How many steps an actor makes in each of `within` ticks, over and over: all that it owes, one soon after another."""
    steps, at, left = [0] * row.within, chance.randrange(row.within), row.steps
    while left > 0:
        steps[at % row.within], left, at = min(most, left), left - most, at + gap
    return steps


class Sources:
    """The sources of tables: of each stream the number before which its next word is early, and when the wire of a bus is free."""

    def __init__(self, tables, chance, busy, usable):
        self.tables, self.chance, self.busy, self.usable = tables, chance, busy, usable
        self.paces, self.free = [0] * len(tables.streams), [0] * len(tables.buses)

    def words(self, tick, hurries):
        """The words of a tick: as soon as the streams and the wires let them come, or sooner."""
        chance, us = self.chance, self.tables.tick
        for number, row in enumerate(self.tables.streams):
            at, pace = max(tick * us, self.free[row.bus]), self.paces[number]
            in_time = tick + row.jitter >= pace and at < (tick + 1) * us
            if in_time and chance.random() < self.busy or chance.random() < hurries:
                ssm = chance.choice(USABLE[row.format]) if chance.random() < self.usable else None
                yield "A", row.bus, draw_word(chance, row.label, chance.randrange(4) if row.sdi == "any" else row.sdi, ssm)
                self.free[row.bus], self.paces[number] = at + self.tables.buses[row.bus].spacing, max(tick, pace) + row.minimum


def driven_run(chance, tables, ticks, rests=0, starves=0, hurries=0, flood=0, busy=(0.1, 0.3, 1)):
    """A run in which routers and outputs make their steps and sources keep their intervals, but for such parts of each."""
    sources = Sources(tables, chance, chance.choice(busy), chance.choice([0.7, 0.95, 1]))
    routers = [plan(chance, row, row.most, 1) for row in tables.routers]
    outputs, run = [plan(chance, row, 1, row.gap) for row in tables.outputs], []
    for tick in range(ticks):
        events = list(sources.words(tick, hurries))
        for _ in range(chance.randint(0, flood)):
            events.append(("A", chance.randrange(len(tables.buses)), stray_word(chance, tables)))
        for number, steps in enumerate(routers):
            most = tables.routers[number].most
            made = steps[tick % len(steps)] if chance.randrange(3) else chance.randint(steps[tick % len(steps)], most)
            events += [("R", number) for _ in range(made) if chance.random() >= rests]
        events += [("S", number) for number, steps in enumerate(outputs) if steps[tick % len(steps)] and chance.random() >= starves]
        chance.shuffle(events)
        run += [*events, ("T",)]
    return run


# ---- certificates by chance


def changes_of(certificate, change):
    """The certificate with each of its numbers changed in turn: the list, the key, and the changed certificate."""
    for part in ("inputs", "outputs", "labels"):
        for at, row in enumerate(certificate[part]):
            for key in [key for key, value in row.items() if isinstance(value, int)]:
                rows = [*certificate[part][:at], {**row, key: change(row[key])}, *certificate[part][at + 1:]]
                yield part, key, {**certificate, part: rows}


def near(chance, judge):
    """A certificate near the least one, with numbers by chance where there are none."""
    tables, (least, _), to = judge.tables, judge.least, chance.randint
    inputs = [{"bus": row.name, "window": to(0, 30), "backlog": to(0, 6), "delay": to(0, 9)} for row in tables.buses]
    outputs = [{"output": row.name, "window": to(0, 30), "delay": to(0, 9)} for row in tables.outputs]
    labels = [{"label": row.name, "age": row.limit + to(-9, 1)} for row in tables.labels]
    drawn = {"inputs": inputs, "labels": labels, "outputs": outputs}
    certificate = {"version": 1, **{part: [row if NONE in found.values() else found for found, row in zip(least[part], rows)]
                                    for part, rows in drawn.items()}}
    far, steps = [0, 100_001, 4_294_967_295], [1, 1, 2, -1] if chance.randrange(3) else [1, 5, 9]
    for _ in range(chance.randint(0, 4)):
        *_, certificate = chance.choice(list(changes_of(certificate, lambda it: max(0, it + chance.choice(steps)))))
    if chance.randrange(6) == 0:
        *_, certificate = chance.choice(list(changes_of(certificate, lambda it: chance.choice(far))))
    if chance.randrange(24) == 0:
        part = chance.choice(["inputs", "outputs", "labels"])
        certificate = {**certificate, part: chance.choice([certificate[part][1:], certificate[part] * 2])}
    return certificate
