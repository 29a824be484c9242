"""include/dc429.h beside the crates: a C file that declares each export again and asserts the place, the type and the numbers of each
member, as the sources of dc_embed, dc_engine and dc_texts have them. A C compiler refuses it where the header says otherwise.
"""
import re
from pathlib import Path

from program import ROOT

HEADER = ROOT / "include/dc429.h"
# The crates' names for what the header has, and of the one member that has another name there.
TYPES = {"Slot": "dc429", "Report": "dc429_fault", "Answer": "dc429_reply", "Fields": "dc429_fields"}
MEMBERS = {("Slot", "at"): "engine"}
PLAIN = {"u8": "uint8_t", "u32": "uint32_t", "i32": "int32_t", "u64": "uint64_t", "usize": "size_t", "bool": "bool", "*mut u8": "void *"}
SIZES = {"u8": 1, "bool": 1, "u32": 4, "i32": 4, "u64": 8, "usize": 8, "*mut u8": 8}
# What the header says of numbers that are one of several cases: where they stand in the crates, and how their names begin.
CASES = [
    (r"(?:Reply|StepFault)::(\w+)(?:\(Actor::(\w+))?[^=\n]*=>[^;]*?(?:bare|of_number)\((\d+)", ""),
    (r"(\d+) => Some\(NameList::(\w+?)(?:es|s)\)", ""),
    (r"(\d+) => Some\(Format::(\w+)\)", ""),
    (r"\bStatus::(\w+) => (\d+)", ""),
    (r"(?s)OpenFault::(\w+)(?:\(\w+\))? =>(?:(?!OpenFault::).)*?kind: (\d+)", "FAULT_"),
    (r"(?s)fn (obstruct)ed\(.*?kind: (\d+)", "FAULT_"),
    (r"Section::(\w+) => (\d+)", "TABLES_"),
    (r"CertificateList::(\w+) => (\d+)", "CERTIFICATE_"),
    (r"TextPlace::(\w+)(?:\(\w+\))? => \((\d+)", "CERTIFICATE_"),
]
OTHER_NAMES = {"FAULT_MEMORY": "MEMORY", "FAULT_TABLES": "UNREADABLE_TABLES", "FAULT_CERTIFICATE": "UNREADABLE_CERTIFICATE",
               "FAULT_REFUSED": "REFUSED_CERTIFICATE", "FAULT_OBSTRUCT": "NO_CERTIFICATE"}
# Cases that no call answers, and names of the header that are no case of the crates.
NEVER, OWN = {"OWED_WIRE", "OWED_CLOCK"}, {"NOTHING", "NO_FAULT", "OK", "REFUSED", "IS_CLOSED"}
# Headers that say something else than the crates: each must be refused.
CHANGES = [
    ("uint32_t word;    /* DC429_TOOK", "uint64_t word;    /* DC429_TOOK"),
    ("    uint32_t kind;    /* an enum dc429_kind */\n    uint32_t label; ", "    uint32_t label;    /* */\n    uint32_t kind; "),
    ("size_t router, dc429_reply *reply", "uint32_t router, dc429_reply *reply"),
    ("uint32_t dc429_tick(dc429 *engine, dc429_reply *reply);", "bool dc429_tick(dc429 *engine, dc429_reply *reply);"),
    ("DC429_BAD_PARITY = 2", "DC429_BAD_PARITY = 12"),
    ("DC429_TABLES_BUS = 2, DC429_TABLES_STREAM = 3", "DC429_TABLES_BUS = 3, DC429_TABLES_STREAM = 2"),
    ("    bool is_odd; ", "    uint32_t is_odd; "),
    ("    DC429_UNREADABLE_TABLES = 'T'", "    DC429_UNREADABLE_TABLES = 't'"),
]


def sources():
    """The text of the crates' sources, without comments."""
    files = [path for crate in ("dc_engine", "dc_texts", "dc_embed") for path in sorted((ROOT / f"crates/{crate}/src").glob("*.rt"))]
    return re.sub(r"//[^\n]*", "", "\n".join(path.read_text() for path in files))


def enumerators(text):
    """The names and numbers of the header's enums."""
    pairs = re.findall(r"\bDC429_(\w+) = ('.'|\d+)", text)
    return {name: ord(number[1]) if number[0] == "'" else int(number) for name, number in pairs}


def members_of(text):
    """Of each structure for C its members and their types, a handle's in its place."""
    shown = r"#\[repr\(C\)\]\s*(?:#\[derive\([^]]*\)\]\s*)?pub struct (\w+) \{(.*?)\n\}"
    found = {name: [(member, its.strip()) for member, its in re.findall(r"^\s*(?:pub )?(\w+): ([^,\n]+),", body, re.M)]
             for name, body in re.findall(shown, text, re.S)}
    return {name: [it for member, its in rows for it in found.get(its, [(member, its)])] for name, rows in found.items()}


def layouts(text):
    """Assertions of each member's place and type, and of the size of the whole."""
    for name, rows in members_of(text).items():
        if name not in TYPES:
            continue
        at, shown = 0, TYPES[name]
        for member, its in rows:
            at = -(-at // SIZES[its]) * SIZES[its]
            member = MEMBERS.get((name, member), member)
            yield f'offsetof({shown}, {member}) == {at} && _Generic((({shown} *)0)->{member}, {PLAIN[its]}: 1, default: 0), "{shown}.{member}"'
            at += SIZES[its]
        widest = max(SIZES[its] for _, its in rows)
        yield f'sizeof({shown}) == {-(-at // widest) * widest} && _Alignof({shown}) == {widest}, "{shown}"'


def numbers(text):
    """The names of the crates' cases, as the header has them, with their numbers."""
    found = {}
    for cases, begin in CASES:
        for groups in re.findall(cases, text):
            number = next(it for it in groups if it.isdigit())
            name = begin + "_".join(re.sub(r"(?<!^)(?=[A-Z])", "_", it).upper() for it in groups if it and not it.isdigit())
            found[OTHER_NAMES.get(name, name)] = int(number)
    return {name: number for name, number in found.items() if name not in NEVER}


def exports(text):
    """The name of each export, and its declaration in C."""
    shown = r'#\[unsafe\(no_mangle\)\]\s*pub extern "C" fn (\w+)\((.*?)\)\s*(?:-> (\w+))?\s*(?:requires|ensures|\{)'
    for name, given, result in re.findall(shown, text, re.S):
        words = []
        for its in (it.strip().split(": ", 1)[1] for it in given.split(",") if it.strip()):
            if items := re.fullmatch(r"&(mut )?\[(\w+)\]", its):
                words += [("" if items[1] else "const ") + PLAIN[items[2]] + " *", "size_t"]
            elif its != "Global":
                its, at = (its[5:], " *") if its.startswith("&mut ") else (its, "")
                words.append((PLAIN.get(its) or TYPES[its]) + at)
        yield name, f"{PLAIN[result] if result else 'void'} {name}({', '.join(words) or 'void'});"


def comparison():
    """The C file, and what stands in one of the two alone."""
    text, shown = sources(), HEADER.read_text()
    lines = ['#include "dc429.h"', "#include <assert.h>", *(f"static_assert({it});" for it in layouts(text))]
    lines += [f'static_assert(DC429_{name} == {number}, "DC429_{name}");' for name, number in numbers(text).items()]
    lines += [declared for _, declared in exports(text)]
    calls = set(re.findall(r"\b(dc429_\w+)\(", re.sub(r"/\*.*?\*/", "", shown, flags=re.S)))
    alone = calls ^ {name for name, _ in exports(text)} | (set(enumerators(shown)) ^ (set(numbers(text)) | OWN))
    return "\n".join(lines) + "\n", sorted(alone)


def in_other_languages():
    """The numbers of the header that the binding of Python or of Ada has otherwise."""
    wanted = enumerators(HEADER.read_text())
    python = re.findall(r"^    ([A-Z_]+) = (\d+)$", (ROOT / "examples/python/dc429.py").read_text(), re.M)
    ada = re.findall(r"^   (\w+)\s*: constant (?!:)\w+ := (\d+);", (ROOT / "examples/ada/dc429.ads").read_text(), re.M)
    return [f"{name} is {number}, in the header {wanted.get(name.upper())}" for name, number in [*python, *ada]
            if wanted.get(name.upper()) != int(number)]
