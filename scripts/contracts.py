"""The functions of the program's sources: of each its crate, its type, its name, its clauses, and what it calls."""
import re
from functools import cached_property, lru_cache

from program import ROOT

CRATES = ROOT / "crates"
OPENED = re.compile(r'( *)(pub(?:\(\w+\))? )?(?:const )?(?:unsafe )?(?:extern "C" )?fn (\w+)')
CLAUSE = re.compile(r"\s*(ensures|requires) (?:(\w+) )?(\{.*)")


class Function:
    """A function as it stands in a file. A clause without a name is "unnamed"."""

    def __init__(self, file, line, owner, found):
        self.file, self.first, self.last = file, line, line
        self.indent, self.is_public, self.name = found[1], found[2] == "pub ", found[3]
        self.crate = file.relative_to(CRATES).parts[0]
        self.owner, self.of_trait = owner if found[1] and owner else (None, None)
        self.takes, self.clauses, self.wants, self.body = "", {}, [], ""

    def path(self):
        return f"{self.owner}::{self.name}" if self.owner else self.name

    def code(self):
        return re.sub(r"//.*", "", self.body)

    @cached_property
    def calls(self):
        """The names that stand before a bracket in the body, and those that are handed on and are no value of its own."""
        own = set(re.findall(r"\b(?:let|for|mut|ref)\s+(?:mut\s+)?\(?([a-z_]\w*)", self.code())) | set(re.findall(r"\b([a-z_]\w*)\s*:", self.takes))
        own |= {it for its in re.findall(r"\|([^|\n]*)\|", self.code()) for it in re.findall(r"[a-z_]\w*", its)}
        called = set(re.findall(r"\b([a-z_]\w*)\s*(?:::<[^()]*>)?\(", self.code()))
        handed = set(re.findall(r"[(,]\s*(?:[\w:]+::)?([a-z_]\w*)\s*(?=[,)])", self.code()))
        return called | handed - own

    def mentions(self, other):
        """Whether its file names the type of a method, or takes the function by its name."""
        text = text_of(self.file)
        return bool(re.search(rf"\b{other.owner or other.name}\b", text)) if other.owner != "(" else True


@lru_cache(None)
def text_of(file):
    return file.read_text()


def owner_of(line):
    """The type of an impl, or the trait, that a line opens; and the trait of which it is the impl."""
    opened = re.match(r"(?:pub(?:\(\w+\))? )?(?:trait|impl)(?:<.*?>)? (.*)", line)
    parts = [re.match(r"\w+|\(", it) for it in opened[1].split(" for ")] if opened else []
    return (parts[-1][0], parts[0][0] if len(parts) > 1 and parts[0] else None) if parts and parts[-1] else None


def functions_in(file):
    """The functions of a file, in its order, but for those of tests."""
    owner = now = clause = None
    found = []
    for number, text in enumerate(file.read_text().splitlines(), 1):
        if now is None:
            owner = owner_of(text) or (None if text == "}" else owner)
            if opened := OPENED.match(text):
                now, clause = Function(file, number, owner, opened), None
                found.append(now)
                now.takes, now.body = text[opened.end() :], ""
                if not text.endswith(("{", "(", ")", ",")) and not re.search(r"[>\w'\]]$", text):
                    now = None
            continue
        now.last = number
        if text in (now.indent + "}", now.indent + "{}", now.indent + ") {}"):
            now = None
        elif now.body or text == now.indent + "{" or text.endswith("{") and not CLAUSE.match(text) and not clause:
            now.body += text + "\n"
        elif said := CLAUSE.match(text):
            clause = said[2] or "unnamed"
            if said[1] == "ensures":
                now.clauses[clause] = now.clauses.get(clause, "") + said[3]
            else:
                now.wants.append(said[3])
                clause = "wants"
            if text.endswith("};"):
                now = None
        elif clause in now.clauses:
            now.clauses[clause] += "\n" + text
            if text.endswith("};"):
                now = None
        else:
            now.takes += text
            if text.endswith(";") and not clause:
                now = None
    return found


@lru_cache(None)
def functions_of(crate):
    """All functions of a crate; a law of a module `laws` has the module's name before its own."""
    return [it for file in sorted((CRATES / crate / "src").rglob("*.rt")) for it in functions_in(file)]


def named(crate, path):
    """The functions of a crate that a page names so: `name`, `Type::name`, or `module::name`."""
    *before, name = path.split("::")
    owner = before[-1] if before else None
    same = [it for it in functions_of(crate) if it.name == name]
    of_type = [it for it in same if it.owner == owner and owner]
    return of_type or [it for it in same if owner is None or it.file.stem == owner or it.file.parent.name == owner]


def bodies_of(crate, path):
    """The functions that a page names so, and, where that is a trait's, those of its impls."""
    found = named(crate, path)
    owners = {it.owner for it in found}
    return found + [it for it in functions_of(crate) if it.name == path.split("::")[-1] and it.of_trait in owners - {None}]


@lru_cache(None)
def constants_of(crate):
    """Of each constant of a crate the types that its own type names: what an engine runs is such a value."""
    lines = "\n".join(it.read_text() for it in sorted((CRATES / crate / "src").rglob("*.rt")))
    return {name: set(re.findall(r"\w+", kind)) for name, kind in re.findall(r"^\s*pub(?:\(crate\))? const (\w+): ([^=;]*)", lines, re.M)}


@lru_cache(None)
def within(crate, path):
    """The functions of the same crate that stand under a call: itself, and by name what it calls; of a constant those of its type."""
    waiting, met = bodies_of(crate, path), set()
    for it in waiting:
        if it not in met:
            met.add(it)
            called = it.calls
            types = set().union(*(constants_of(crate).get(name, ()) for name in set(re.findall(r"\b[A-Z_]{2,}\b", it.body))), set())
            types |= set(re.findall(r"\b([A-Z]\w*[a-z]\w*)\s*\{", it.body))
            waiting += [other for other in functions_of(crate) if (other.name in called or other.owner in types) and other not in met]
    return frozenset(met)
