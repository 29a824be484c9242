#!/usr/bin/env python3
"""Interface documents by chance: rows of inputs and of outputs, and these rows written as spreadsheets write them.

usage: scripts/sheets.py FOLDER [COUNT] [SEED]     writes FOLDER/000-inputs.csv, FOLDER/000-outputs.csv and so on

Each draw takes a source of chance, a Random of the standard library, and says the same for the same one. Times of rows are in
microseconds. Their intervals agree where tables have one for several rows, so that no row contradicts another; whether tables can
keep them is another matter, and for about half none can (docs/design.md).
"""
import sys
from pathlib import Path
from random import Random

IN_SPACING, OUT_SPACING = {"high": 350, "low": 2450}, {"high": 365, "low": 3050}
MEMBERS, STREAMS, LABELS = 256, 1024, 1024

INPUT_COLUMNS = ["bus", "speed", "label", "equipment", "format", "min", "max", "sdi", "jitter", "police", "queue", "router", "name",
                 "steps", "within"]
OUTPUT_COLUMNS = ["output", "speed", "label", "equipment", "sources", "min", "max", "sdi", "max_age", "timeout", "name", "format",
                  "steps", "within"]
NEEDED = ["bus", "output", "speed", "label", "equipment", "format", "sources", "min", "max"]
TIMES = ["min", "max", "jitter", "max_age", "timeout", "within"]
ALIASES = {"bus": ["Bus", "Input bus", "source_bus"], "output": ["Output", "Output Bus"], "speed": ["Speed", "Bus speed"],
           "label": ["Label", "Octal Label", "label (octal)"], "equipment": ["Equipment", "Equipment ID", "Equip. ID", "Eqpt ID (hex)", "EQ_ID"],
           "format": ["Format", "Type", "Data type"], "min": ["Min", "Minimum", "Min interval", "Min transmit interval"],
           "max": ["Max", "Maximum", "Max interval", "Max transmit interval"], "sdi": ["SDI"], "jitter": ["Jitter"], "police": ["Police", "policed"],
           "queue": ["Queue"], "router": ["Router"], "name": ["Name"], "sources": ["Sources", "Source", "Streams"],
           "max_age": ["Max age", "Maximum age"], "timeout": ["Timeout"], "steps": ["Steps"], "within": ["Within"]}
SPEEDS = {"high": ["high", "High", "HS", "100"], "low": ["low", "LOW", "LS", "12.5"]}
FORMATS = {"bnr": ["bnr", "BNR"], "bcd": ["bcd", "BCD"], "disc": ["disc", "DISC", "Discrete", "dis"]}


# ---- rows


def draw_interval(chance, shortest, longest):
    """A least and a greatest interval: the least mostly half of the other."""
    most = round(shortest * (longest / shortest) ** chance.random())
    most = most // 500 * 500 if chance.random() < 0.8 else most
    part = 0.5 if chance.random() < 0.7 else chance.uniform(0.25, 0.9)
    return max(1, int(most * part)), most


def draw_range(chance):
    """Between which intervals those of a document lie, mostly not far apart: beside slow labels the frame of fast ones is long."""
    shortest = chance.randint(20_000, 100_000)
    return shortest, min(4_000_000, shortest * chance.choice([3, 5, 8, 12, 20, 40, 200]))


def draw_bus(chance, number, formats, kind):
    """The rows of a bus, until its wire is full to a share."""
    policed, with_jitter, interval = kind
    speed = chance.choice(["low", "low", "high"])
    share, wanted, used = chance.uniform(0.1, 1.1), chance.randint(2, 40), 0.0
    head = {"bus": f"{chance.choice(['ADC', 'IRS', 'FMC', 'B'])}{number}", "speed": speed}
    head["police"] = policed or chance.random() < 0.08
    head["queue"] = chance.randint(1, 12) if chance.random() < 0.005 else chance.choice([None, None, None, chance.randint(64, 200)])
    rows, code = [], chance.randrange(0x0FF)
    for label in chance.sample(sorted(formats), min(wanted, len(formats))):
        sdis = chance.sample(range(4), 2) if chance.random() < 0.08 else [chance.choice([None, None, chance.randrange(4)])]
        least, most = draw_interval(chance, *interval)
        cost = len(sdis) * IN_SPACING[speed] / least
        if rows and used + cost > share:
            break
        used += cost
        for sdi in sdis:
            row = {**head, "label": label, "equipment": code, "format": formats[label], "min": least, "max": most, "sdi": sdi}
            row["jitter"] = chance.randint(max(1, least // 100), least * 6 // 5) if with_jitter and chance.random() < 0.5 else None
            rows.append(row)
    return rows


def draw_inputs(chance, interval):
    """The rows of the inputs."""
    formats = {label: chance.choice(["bnr", "bnr", "bcd", "disc"]) for label in chance.sample(range(1, 256), 120)}
    kind = chance.random() < 0.12, chance.random() < 0.4, interval
    count = chance.choice([chance.randint(1, 6), chance.randint(1, 20), chance.randint(1, 64)])
    rows = []
    for number in range(count):
        own = draw_bus(chance, number, formats, kind)
        router = f"RT{chance.randrange(max(1, count // 3))}" if chance.random() < 0.15 else None
        rows += [{**row, "router": router} for row in own]
    twice = named_twice(rows, "bus")
    for row in rows:
        row["name"] = None
        row["called"] = called(row, "bus", twice)
        if chance.random() < 0.05:
            row["name"] = row["called"] = f"S{rows.index(row)}"
    return rows[:STREAMS]


def named_twice(rows, group):
    """The groups with labels that stand twice in them."""
    seen = {}
    for row in rows:
        key = row[group], row["label"]
        seen[key] = seen.get(key, 0) + 1
    return {key for key, count in seen.items() if count > 1}


def called(row, group, twice):
    """What a row without a name is called."""
    sdi = "any" if row["sdi"] is None else row["sdi"]
    tail = f"-{sdi}" if (row[group], row["label"]) in twice else ""
    return f"{row[group]}-{row['label']:03o}{tail}"


def draw_sources(chance, streams):
    """One source for half of the labels, two for a third, else three, all of one format."""
    first = chance.choice(streams)
    alike = [stream for stream in streams if stream["format"] == first["format"] and stream is not first]
    more = chance.choice([0, 0, 0, 1, 1, 2])
    return [first] + chance.sample(alike, min(more, len(alike)))


def draw_age(chance, style, slowest):
    """How old data may be at most, by the greatest interval of the sources."""
    if style == "none":
        return None
    if style == "three":
        return 3 * slowest
    return slowest + (chance.randint(20_000, 50_000) if style == "roomy" else chance.randint(4_000, 12_000))


def draw_label(chance, head, label, streams, style, interval):
    """A row of an output; half of them have the interval of their first source."""
    sources = draw_sources(chance, streams)
    least, most = draw_interval(chance, *interval)
    if chance.random() < 0.5:
        least, most = sources[0]["min"], sources[0]["max"]
    slowest = max(source["max"] for source in sources)
    age = draw_age(chance, style, slowest)
    room = chance.randint(10_000, 100_000) if age is None else (age - slowest) // 2
    timeout = slowest + room if chance.random() < (0.03 if style in ("none", "three") else 0.002) else None
    return {**head, "label": label, "min": least, "max": most, "sources": [source["called"] for source in sources], "sdi": chance.choice([None, 0, 1, 2, 3]),
            "max_age": age, "timeout": timeout, "format": chance.choice([None, sources[0]["format"]]), "name": None}


def draw_output(chance, number, streams, interval, style):
    """The rows of an output, until its wire is full to a share."""
    speed = chance.choice(["high", "high", "low"])
    head = {"output": f"{chance.choice(['PFD', 'ND', 'HUD', 'OUT'])}{number}", "speed": speed, "equipment": 0x100 + number}
    share, wanted, used = chance.uniform(0.1, 1.04), chance.randint(1, 100), 0.0
    rows = []
    for label in chance.sample(range(1, 256), wanted):
        row = draw_label(chance, head, label, streams, style, interval)
        if speed == "low" and row["max"] < 40_000 and chance.random() < 0.99:
            continue
        used += OUT_SPACING[speed] / row["max"]
        if rows and used > share:
            break
        rows.append(row)
        if row["sdi"] is not None and chance.random() < 0.03:
            rows.append({**row, "sdi": (row["sdi"] + 1) % 4})
    return rows


def draw_outputs(chance, streams, interval):
    """The rows of the outputs; in one of eight documents an age is near the least, or below it."""
    count = chance.choice([chance.randint(1, 4), chance.randint(1, 12), chance.randint(1, 32)])
    style = chance.choice(["none", "three", "roomy", "tight"])
    rows = [row for number in range(count) for row in draw_output(chance, number, streams, interval, style)][:LABELS]
    rows = rows or [draw_label(chance, {"output": "OUT", "speed": "high", "equipment": 0x1FF}, 1, streams, style, interval)]
    if chance.random() < 0.125:
        row = chance.choice(rows)
        most = max(stream["max"] for stream in streams if stream["called"] in row["sources"])
        row["max_age"] = max(1, most + chance.randint(-20_000, 5_000))
    return rows


def drawn(chance):
    """The rows of inputs and of outputs of a document."""
    interval = draw_range(chance)
    inputs = draw_inputs(chance, interval)
    return inputs, draw_outputs(chance, inputs, interval)


def with_tasks(chance, rows, tasks, slower, group):
    """Rows that say what the task of their bus or output does: by the name of that, its steps and microseconds, so many times slower. All
    rows of one say it, or the first alone; one step is said or not."""
    told = set()
    for row in rows:
        steps, within = tasks[row[group]]
        if row[group] not in told or chance.random() < 0.5:
            row |= {"steps": None if steps == 1 and chance.random() < 0.5 else steps, "within": within * slower}
        told.add(row[group])


# ---- sheets


def in_unit(chance, microseconds, unit, point):
    """A time as a cell has it: never three digits behind a mark that may part thousands."""
    if unit == "us":
        return str(microseconds)
    whole, part = divmod(microseconds, 1000)
    if not part:
        return str(whole)
    digits = f"{part:03}".rstrip("0")
    return f"{whole}{point}{digits if len(digits) < 3 else digits + '0'}"


def cell_of(chance, column, row, unit, point):
    """The text of a cell."""
    value = row.get(column)
    if value is None:
        return chance.choice(["", "any", "x", "-"]) if column == "sdi" and "bus" in row and chance.random() < 0.5 else ""
    if column in TIMES:
        return in_unit(chance, value, unit, point)
    if column == "label":
        return chance.choice([f"{value:03o}", f"{value:o}"])
    if column == "equipment":
        return chance.choice([f"{value:03X}", f"{value:03x}", f"{value:X}"])
    if column == "sdi":
        return chance.choice([str(value), f"{value:02b}"])
    if column == "sources":
        return chance.choice([" ", " | ", "/", "+"]).join(value)
    if column == "police":
        return chance.choice(["yes", "true", "1", "x", "Yes"] if value else ["no", "", "0", "false"])
    return str(chance.choice({"speed": SPEEDS, "format": FORMATS}[column][value]) if column in ("speed", "format") else value)


def quoted(chance, cell, separator):
    """A cell in double quotes where it must be, and now and then where it need not."""
    must = any(mark in cell for mark in (separator, '"', "\n", "\r"))
    return '"' + cell.replace('"', '""') + '"' if must or chance.random() < 0.03 else cell


def columns_of(chance, rows, all_columns):
    """The columns that are written, in any order: those that are wanted, and those that some row says."""
    columns = [column for column in all_columns if column in NEEDED and column in rows[0] or any(row.get(column) not in (None, False) for row in rows)]
    columns = [column for column in columns if column != "format" or "bus" in rows[0] or chance.random() < 0.5] + ["remark"] * (chance.random() < 0.3)
    if chance.random() < 0.5:
        chance.shuffle(columns)
    return columns


def title_of(chance, column, units):
    """A title by which a column is known, with its unit."""
    if column == "remark":
        return "Remark"
    unit = chance.choice([" {}", "_{}", " [{}]"]).format(units[column]) if column in units else ""
    return chance.choice([column] + ALIASES[column]) + unit


def written(chance, rows, all_columns):
    """The bytes of a sheet with these rows."""
    separator, end = chance.choice([",", ",", ";", "\t"]), chance.choice(["\n", "\r\n", "\r"])
    point = chance.choice([".", "."] if separator == "," else [".", ","])
    columns = columns_of(chance, rows, all_columns)
    units = {column: chance.choice(["us", "ms"]) for column in columns if column in TIMES}
    titles = [title_of(chance, column, units) for column in columns]
    lines = [separator.join(quoted(chance, title, separator) for title in titles)]
    for row in rows:
        cells = ["see note, 3" if column == "remark" else cell_of(chance, column, row, units.get(column), point) for column in columns]
        lines.append(separator.join(quoted(chance, cell, separator) for cell in cells))
        if chance.random() < 0.01:
            lines.append(chance.choice(["", separator * (len(columns) - 1), "# a remark"]))
    text = end.join(lines) + chance.choice(["", end])
    return (b"\xef\xbb\xbf" if chance.random() < 0.3 else b"") + text.encode()


def sheets_of(chance, inputs, outputs):
    """The bytes of both sheets with these rows."""
    return written(chance, inputs, INPUT_COLUMNS), written(chance, outputs, OUTPUT_COLUMNS)


def sheets(chance):
    """The bytes of both sheets of a document."""
    return sheets_of(chance, *drawn(chance))


def main(words):
    folder, count, seed = Path(words[0]), int(words[1]) if len(words) > 1 else 500, int(words[2]) if len(words) > 2 else 1
    folder.mkdir(parents=True, exist_ok=True)
    for number in range(count):
        inputs, outputs = sheets(Random(seed * 1_000_003 + number))
        (folder / f"{number:03}-inputs.csv").write_bytes(inputs)
        (folder / f"{number:03}-outputs.csv").write_bytes(outputs)


if __name__ == "__main__":
    main(sys.argv[1:]) if len(sys.argv) > 1 else sys.exit(__doc__)
