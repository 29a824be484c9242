"""The certified ARINC 429 concentrator from Python, by ctypes over libdc429.so.

    from dc429 import Engine, Kind

    with Engine(tables, certificate) as engine:     # bytes; NotOpened says why not
        engine.arrive("A", 0x600000C1)              # Reply(kind=Kind.QUEUED, .., backlog=1, ..)
        engine.route("R1")
        engine.send("O")
        engine.tick()

The library is the one that the environment's DC429_LIBRARY names, else build/libdc429.so of this repository, else an installed
one. include/dc429.h says what each number means, and what is trusted; one engine is in one call at a time.
"""
import ctypes
import ctypes.util
import os
from enum import IntEnum
from pathlib import Path
from typing import NamedTuple

__all__ = ["Engine", "Fault", "Fields", "Format", "Kind", "List", "NotFound", "NotOpened", "Refused", "Reply", "WordStatus", "check",
           "decode", "find", "margins"]


# ---- what the header has


class Kind(IntEnum):
    """What an engine replies to an event, or from SPENT on why it refuses it."""

    NOTHING = 0
    QUEUED = 1
    BAD_PARITY = 2
    UNDECLARED = 3
    TOO_EARLY = 4
    OVERRUN = 5
    LATCHED = 6
    TOOK = 7
    EMPTY = 8
    SENT = 9
    IDLE = 10
    NOW = 11
    SPENT = 32
    TOO_SOON = 33
    OWED_ROUTER = 34
    OWED_OUTPUT = 35
    TICK_LIMIT = 36
    UNKNOWN = 37


class List(IntEnum):
    """What has a name and a number."""

    BUS = 1
    STREAM = 2
    ROUTER = 3
    OUTPUT = 4
    LABEL = 5


class Format(IntEnum):
    """How the data of a word are written."""

    BNR = 1
    BCD = 2
    DISC = 3


class WordStatus(IntEnum):
    """What the SSM of a word says in its format."""

    FAILURE_WARNING = 1
    NO_COMPUTED_DATA = 2
    FUNCTIONAL_TEST = 3
    NORMAL = 4
    PLUS = 5
    MINUS = 6
    VERIFIED = 7


class _Engine(ctypes.Structure):
    _fields_ = [("engine", ctypes.c_void_p), ("is_open", ctypes.c_bool)]


class _Fault(ctypes.Structure):
    _fields_ = [*((name, ctypes.c_uint32) for name in ("kind", "code", "place", "window")), ("index", ctypes.c_size_t)]


class _Reply(ctypes.Structure):
    _fields_ = [*((name, ctypes.c_uint32) for name in ("kind", "label", "word", "backlog")), ("number", ctypes.c_size_t),
                ("tick", ctypes.c_uint64)]


class _Fields(ctypes.Structure):
    _fields_ = [*((name, ctypes.c_uint32) for name in ("label", "sdi", "ssm", "status", "bits")), ("bnr", ctypes.c_int32),
                ("bcd", ctypes.c_uint32), ("bad_digit", ctypes.c_uint32), ("is_odd", ctypes.c_bool), ("is_usable", ctypes.c_bool)]


_AT, _TEXT, _SIZE, _U32 = ctypes.POINTER, ctypes.c_char_p, ctypes.c_size_t, ctypes.c_uint32
# The arguments of each call, and what it returns. Without them ctypes passes a structure by value, and the call goes astray.
_CALLS = {
    "open": ([_AT(_Engine), _TEXT, _SIZE, _TEXT, _SIZE, _AT(_Fault)], ctypes.c_bool),
    "check": ([_TEXT, _SIZE, _TEXT, _SIZE, _AT(_Fault)], ctypes.c_bool),
    "find": ([_TEXT, _SIZE, _TEXT, _SIZE, _AT(_SIZE), _AT(_Fault)], ctypes.c_bool),
    "margins": ([_TEXT, _SIZE, _TEXT, _SIZE, _TEXT, _SIZE, _AT(_SIZE), _AT(_Fault)], ctypes.c_bool),
    "least_margins": ([_TEXT, _SIZE, _TEXT, _SIZE, _AT(_SIZE), _AT(_Fault)], ctypes.c_bool),
    "close": ([_AT(_Engine)], None),
    "arrive": ([_AT(_Engine), _SIZE, _U32, _AT(_Reply)], _U32),
    "route": ([_AT(_Engine), _SIZE, _AT(_Reply)], _U32),
    "send": ([_AT(_Engine), _SIZE, _AT(_Reply)], _U32),
    "tick": ([_AT(_Engine), _AT(_Reply)], _U32),
    "number": ([_AT(_Engine), _U32, _TEXT, _SIZE, _AT(_SIZE)], ctypes.c_bool),
    "name": ([_AT(_Engine), _U32, _SIZE, _TEXT, _SIZE], _SIZE),
    "decode": ([_U32, _U32, _AT(_Fields)], ctypes.c_bool),
}
_LONGEST_NAME = 16


def _library():
    built = Path(__file__).resolve().parents[2] / "build/libdc429.so"
    named = os.environ.get("DC429_LIBRARY") or (str(built) if built.is_file() else ctypes.util.find_library("dc429"))
    if not named:
        raise ImportError("no libdc429.so: run make lib, or name it by DC429_LIBRARY")
    loaded = ctypes.CDLL(named)
    for name, (arguments, result) in _CALLS.items():
        call = getattr(loaded, f"dc429_{name}")
        call.argtypes, call.restype = arguments, result
    return loaded


_LIB = _library()


# ---- what a caller sees


class Fault(NamedTuple):
    """Why tables or a certificate are not accepted, or none is found: the letter M, T, K, C or F, and what dc429_fault has of it."""

    kind: str
    code: int
    place: int
    window: int
    index: int

    def __str__(self):
        return "memory" if self.kind == "M" else f"{self.kind}{self.code:02}" if self.kind in "TC" else f"{self.kind}{self.code}"


class Reply(NamedTuple):
    """What an engine replies. What the kind does not name is 0."""

    kind: Kind
    label: int
    word: int
    backlog: int
    number: int
    tick: int


class Fields(NamedTuple):
    """The fields of a word; bad_digit is the first place that is no decimal digit, or 0."""

    label: int
    sdi: int
    ssm: int
    status: WordStatus
    bits: int
    bnr: int
    bcd: int
    bad_digit: int
    is_odd: bool
    is_usable: bool


class NotOpened(ValueError):
    """The tables or the certificate are not accepted: `fault` says why."""

    def __init__(self, fault):
        super().__init__(str(fault))
        self.fault = fault


class NotFound(ValueError):
    """No certificate is accepted for the tables, or they are not: `fault` says why."""

    def __init__(self, fault):
        super().__init__(str(fault))
        self.fault = fault


class Refused(Exception):
    """An event that may not follow those before it: `reply` says why. The engine is as it was."""

    def __init__(self, reply):
        super().__init__(reply.kind.name)
        self.reply = reply


def _fault_of(fault):
    return Fault(chr(fault.kind), fault.code, fault.place, fault.window, fault.index)


def check(tables, certificate):
    """None where the certificate is accepted for the tables, both bytes; else the Fault."""
    fault = _Fault()
    accepted = _LIB.dc429_check(tables, len(tables), certificate, len(certificate), fault)
    return None if accepted else _fault_of(fault)


def _written(call, *texts):
    """Whether a call that writes a text into a room answers yes, that text, and the fault: with more room where it wants more."""
    fault, length, room = _Fault(), ctypes.c_size_t(), 65536
    given = [it for text in texts for it in (text, len(text))]
    while True:
        text = ctypes.create_string_buffer(room)
        answer = call(*given, text, room, length, fault)
        if length.value <= room:
            return answer, text.raw[:length.value], fault
        room = length.value


def find(tables):
    """The least certificate of tables, both bytes."""
    found, text, fault = _written(_LIB.dc429_find, tables)
    if not found:
        raise NotFound(_fault_of(fault))
    return text


def margins(tables, certificate=None):
    """What dc429 margins prints of a certificate for tables, all bytes, and None; where it is not accepted, the Fault in its place.
    Without a certificate the same of the least one, and where there is none why."""
    if certificate is None:
        accepted, text, fault = _written(_LIB.dc429_least_margins, tables)
    else:
        accepted, text, fault = _written(_LIB.dc429_margins, tables, certificate)
    return text, None if accepted else _fault_of(fault)


def decode(word, format):
    """The Fields of a word in a Format."""
    fields = _Fields()
    if not _LIB.dc429_decode(word, format, fields):
        raise ValueError(f"there is no format {format}")
    read = {name: getattr(fields, name) for name, _ in _Fields._fields_}
    return Fields(**{**read, "status": WordStatus(read["status"])})


class Engine:
    """The certified concentrator: opened on tables and a certificate, both bytes, and closed by `close` or a `with`. A bus, router
    or output is told by its name or its number. Each event gives a Reply, or raises Refused; of a closed engine, ValueError."""

    def __init__(self, tables, certificate):
        self._slot = _Engine()
        fault = _Fault()
        if not _LIB.dc429_open(self._slot, tables, len(tables), certificate, len(certificate), fault):
            raise NotOpened(_fault_of(fault))

    def __enter__(self):
        return self

    def __exit__(self, *_):
        self.close()

    def __del__(self):
        if hasattr(self, "_slot"):
            self.close()

    def close(self):
        """Closes the engine and frees its memory; of a closed one, nothing."""
        _LIB.dc429_close(self._slot)

    def arrive(self, bus, word):
        """A word arrives on a bus."""
        return self._told(_LIB.dc429_arrive, self._at(List.BUS, bus), word)

    def route(self, router):
        """A router makes a step."""
        return self._told(_LIB.dc429_route, self._at(List.ROUTER, router))

    def send(self, output):
        """An output makes a send step."""
        return self._told(_LIB.dc429_send, self._at(List.OUTPUT, output))

    def tick(self):
        """The running tick ends."""
        return self._told(_LIB.dc429_tick)

    def number(self, list, name):
        """The number of a name, a str, in a List; None where there is none."""
        text, found = name.encode(), ctypes.c_size_t()
        return found.value if _LIB.dc429_number(self._slot, list, text, len(text), found) else None

    def name(self, list, number):
        """The name of a number in a List; None where there is none."""
        room = ctypes.create_string_buffer(_LONGEST_NAME)
        length = _LIB.dc429_name(self._slot, list, number, room, _LONGEST_NAME)
        return room.raw[:length].decode() if length else None

    def names(self, list):
        """All names of a List, by their numbers."""
        found = []
        while (name := self.name(list, len(found))) is not None:
            found.append(name)
        return found

    def _at(self, list, which):
        if not isinstance(which, str):
            return which
        number = self.number(list, which)
        if number is None:
            raise KeyError(which) if self._slot.is_open else ValueError("the engine is closed")
        return number

    def _told(self, call, *given):
        reply = _Reply()
        status = call(self._slot, *given, reply)
        if status == 2:
            raise ValueError("the engine is closed")
        told = Reply(Kind(reply.kind), reply.label, reply.word, reply.backlog, reply.number, reply.tick)
        if status == 1:
            raise Refused(told)
        return told
