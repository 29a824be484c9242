"""What docs/definitions.md and docs/formats.md say of captures, as plainly as it runs: their text, the survey of one, the run that it
makes. Nothing here is the program's way: each number is said of the whole list of times.

A word of a capture is a Row with its line, from 1, its time in microseconds, its bus, by number, and the word.
"""
import re
from itertools import groupby
from types import SimpleNamespace as Row

from definitions import is_odd

LONGEST = 64
LAST_TIME = 2**53


# ---- the text


def fault_of(tables, line, is_ended, latest):
    """The code of the first rule that a line breaks, where no time before the latest may come; None where it breaks none."""
    if len(line) > LONGEST:
        return "E1"
    if not is_ended:
        return "E6"
    fields = line.split(b" ")
    if len(fields) != 3:
        return "E3"
    time, name, word = fields
    if not re.fullmatch(rb"[0-9]+", time) or int(time) > LAST_TIME:
        return "E7"
    if name.decode("latin-1") not in [bus.name for bus in tables.buses]:
        return "E4"
    if not re.fullmatch(rb"[0-9A-Fa-f]{8}", word):
        return "E5"
    return "E8" if int(time) < latest else None


def read(tables, text, start=0):
    """The words before the first faulty line, and what is printed of it: None where there is none. No time is before the start."""
    words, latest, lines = [], start, text.split(b"\n")
    names = [bus.name.encode() for bus in tables.buses]
    for number, line in enumerate(lines, 1):
        if number == len(lines) and not line:
            break
        if code := fault_of(tables, line, number < len(lines), latest):
            return words, f"unreadable {code} at line {number}"
        time, name, word = line.split(b" ")
        latest = int(time)
        words.append(Row(line=number, time=latest, bus=names.index(name), word=int(word, 16)))
    return words, None


def offered(tables, word):
    """The stream to which a word is offered: it is odd, and a stream of its bus declares it; else None."""
    return tables.stream_of(word.bus, word.word) if is_odd(word.word) else None


# ---- the survey


def intervals(times):
    """The intervals between neighbours."""
    return [later - time for time, later in zip(times, times[1:])]


def keeps(minimum, jitter, times):
    """Whether any d consecutive microseconds hold at most (d + jitter) / minimum of these times, rounded up. The spans from one of
    them to another suffice: no shorter one holds both, and a longer one may hold more."""
    return all(after - before + 1 <= -(-(times[after] - times[before] + 1 + jitter) // minimum)
               for after in range(len(times)) for before in range(after + 1))


def least_jitter(minimum, times):
    """The least jitter with which times keep a minimum, by all spans: one of d microseconds with n times in it wants that
    d + jitter > (n - 1) x minimum."""
    late = [number * minimum - time for number, time in enumerate(times)]
    return max((late[number] - min(late[:number + 1]) for number in range(len(times))), default=0)


def first_early(minimum, jitter, words):
    """The line of the first word with which those up to it do not keep the minimum by this jitter; None where all do."""
    late = [number * minimum - word.time for number, word in enumerate(words)]
    return next((word.line for number, word in enumerate(words) if late[number] - min(late[:number + 1]) > jitter), None)


def survey(tables, text):
    """The lines of a survey, and its status."""
    words, fault = read(tables, text)
    streams = [offered(tables, word) for word in words]
    broken, lines = False, []
    for bus, row in enumerate(tables.buses):
        its = [(word, stream) for word, stream in zip(words, streams) if word.bus == bus]
        arrivals = [word for word, stream in its if stream is not None]
        parity, spacings = sum(not is_odd(word.word) for word, _ in its), intervals([word.time for word in arrivals])
        soon = next((word.line for word, spacing in zip(arrivals[1:], spacings) if spacing < row.spacing), None)
        wire = "policed" if row.police else "kept" if soon is None else f"broken at {soon}"
        broken |= wire.startswith("broken")
        lines.append(f"bus {row.name} words {len(arrivals)} parity {parity} undeclared {len(its) - len(arrivals) - parity} "
                     f"spacing {min(spacings, default='-')} {wire}")
    for number, row in enumerate(tables.streams):
        its = [word for word, stream in zip(words, streams) if stream == number]
        (minimum, maximum, jitter), apart = row.declared, intervals([word.time for word in its])
        early = first_early(minimum, jitter, its)
        pace = "silent" if not its else "kept" if early is None else f"early at {early}"
        broken |= early is not None and not tables.buses[row.bus].police
        lines.append(f"stream {row.name} words {len(its)} least {min(apart, default='-')} greatest {max(apart, default='-')} "
                     f"jitter {least_jitter(minimum, [word.time for word in its])} over {sum(it > maximum for it in apart)} {pace}")
    return lines + [fault] * bool(fault), 2 if fault else int(broken)


# ---- the run


def steady_tick(tables, tick):
    """The steps of all actors in a tick of the steady run, and its end."""
    steps = [("R", number) for number, row in enumerate(tables.routers) for _ in range(row.most)]
    return [*steps, *(("S", number) for number, row in enumerate(tables.outputs) if tick % row.gap == 0), ("T",)]


def traced(tables, text, start=None):
    """The run that a capture makes, up to the end of the tick of the last word, and what is printed of its first faulty line. Tick
    0 begins at the start, or at the first time."""
    words, fault = read(tables, text, start or 0)
    if not words:
        return [], fault
    begin, run = words[0].time if start is None else start, []
    in_tick = {tick: list(its) for tick, its in groupby(words, lambda word: (word.time - begin) // tables.tick)}
    for tick in range(max(in_tick) + 1):
        run += [("A", word.bus, word.word) for word in in_tick.get(tick, [])] + steady_tick(tables, tick)
    return run, fault
