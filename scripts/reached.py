"""What definitions and types a clause rests on: names are followed from definition to definition. A definition reaches the names in
its type and body; a type of the program the types of its fields or, where it has one, its model; a constant nothing."""
import re
import sys
from functools import lru_cache

from program import ROOT

CRATES = ROOT / "crates"
USE = re.compile(r"^\s*(?:ghost )?(?:unfoldable )?(pub )?use Rattle\.([\w.]+)\.\{([^}]*)\}", re.M)
TYPE = r"^pub(?:\(crate\))? (?:struct|enum) %s\b"


def names_in(text):
    """The names in a text, but for those in comments and those of fields that are declared or set."""
    text = re.sub(r"(--|//).*", "", text)
    text = re.sub(r"^\s+pub [\w'-]+ :|[\w'-]+ =(?=\s)", "", text, flags=re.M)
    return set(re.findall(r"(?<![\w.'-])[^\W\d][\w'-]*", text))


@lru_cache(None)
def text_of(file):
    return file.read_text()


@lru_cache(None)
def imports(file):
    """What `use` lines bring, by its name in the file: its place, its name there, and whether it is handed on."""
    found = {}
    for pub, path, names in USE.findall(text_of(file)):
        for entry in filter(None, (n.strip() for n in names.split(","))):
            name, _, other = entry.partition(" as ")
            found[other or name] = (path.split("."), name, bool(pub))
    return found


@lru_cache(None)
def definitions(file):
    """The text of each definition of a file of specs; that of a constructor is the name of its data type."""
    texts, name, data = {}, None, False
    for line in text_of(file).splitlines():
        if line[:1].strip() and not re.match(r"--|((unfoldable |pub )*use|pub mod|unfolding|module)\b", line):
            name = re.sub(r"^((abbrev|unfoldable|pub|record|data) )*", "", line).split()[0]
            data = bool(re.match(r"(pub )?data ", line))
        elif data and (made := re.match(r"\s+([\w'-]+) :", line)):
            texts[made[1]] = name
        if name:
            texts[name] = texts.get(name, "") + line + "\n"
    return texts


def resolved(path, name, *_):
    """Where an imported name is defined: the file and its name there; None where that is outside this repository."""
    crate = CRATES / path[0]
    if not crate.is_dir():
        return None
    if path[2] == "declared":
        parts = [name if p == "TheConstants" else p for p in path[3:] if p != "TheVariants"]
        return crate.joinpath("src", *parts[:-1]).with_suffix(".rt"), parts[-1]
    file, name = crate / "specs" / (path[2] + ".antt"), (path[3:] or [name])[0]
    handed_on = name not in definitions(file) and imports(file).get(name, (0, 0, False))[2]
    return resolved(*imports(file)[name]) if handed_on else (file, name)


@lru_cache(None)
def declared(file, name):
    """Where a type that a source file names is declared; None where that is outside this repository."""
    files = [file]
    for path in re.findall(r"^use ([\w:]+)[^;]*\b%s\b" % name, text_of(file), re.M):
        files += sorted((file.parent if path.startswith("crate") else CRATES / path.split(":")[0] / "src").glob("*.rt"))
    return next(((f, name) for f in files if re.search(TYPE % name, text_of(f), re.M)), None)


@lru_cache(None)
def asked_by(file, name):
    """What a definition, or a type of the program, asks for."""
    whole = text_of(file)
    if file.suffix == ".antt":
        if name not in definitions(file):
            sys.exit(f"{file.relative_to(ROOT)}: no definition of {name}")
        text = definitions(file)[name]
        here = {(file, n) for n in names_in(text) & set(definitions(file))}
    elif re.search(r"^pub const %s:" % name, whole, re.M):
        here = set()
        text = ""
    else:
        model = re.search(r"^impl(?:<.*?>)? Model for %s\b.*?^\}" % name, whole, re.M | re.S)
        body = re.search(TYPE % name + r"[^;{]*(?:\{.*?^\}|;)", whole, re.M | re.S)
        value = model and re.search(r"ghost Value = .*", model[0])
        text = value[0] if value else re.sub(r"ghost .*", "", body[0]) if body else ""
        here = {declared(file, n) for n in names_in(text)}
    return here | {resolved(*imports(file)[n]) for n in names_in(text) & set(imports(file))}


def followed(waiting):
    """Each definition and type that these reach, with what it asks for."""
    asked, waiting = {None: set()}, set(waiting)
    while waiting := waiting - set(asked):
        asked.update({t: asked_by(*t) for t in waiting})
        waiting = set().union(*asked.values())
    return {t: asks - {None, t} for t, asks in asked.items() if t}


def named(file, text, takes=""):
    """What a clause of a file names, and the types that its call takes."""
    found = {resolved(*imports(file)[n]) for n in names_in(text) & set(imports(file))}
    return found | {declared(file, n) for n in names_in(takes)}


def steps(waiting):
    """The same, step by step: those that are named first, what these ask for that is new, and so on."""
    seen, waiting = set(), {it for it in waiting if it}
    while waiting:
        yield sorted(waiting)
        seen |= waiting
        waiting = set().union(*(asked_by(*it) for it in waiting)) - seen - {None}


def outside(reached):
    """The names of the toolchain's libraries that these definitions ask for, with the library of each."""
    return {f"{name} of {path[0]}" for file, its in reached if file.suffix == ".antt"
            for path, name, _ in (imports(file)[n] for n in names_in(definitions(file)[its]) & set(imports(file))) if not (CRATES / path[0]).is_dir()}


def place_of(file, name):
    """Where a definition or a type begins."""
    begins = re.compile(r"((abbrev|unfoldable|pub|pub\(crate\)|record|data|struct|enum|const) )*%s\b" % re.escape(name))
    line = next((n for n, line in enumerate(text_of(file).splitlines(), 1) if begins.match(line)), 1)
    return f"{file.relative_to(ROOT)}:{line}"
