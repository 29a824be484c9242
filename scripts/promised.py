"""The promises of docs/assessment/promises.tsv, the sentences that are marked on the pages, and the wrong bodies that were refused.

Marked are: on README.md the paragraphs and the numbered list of "The theorem" but for its premises, "The theorem on networks", the first two cells of each row of
"Commands", and the rows of what is proved; on docs/formats.md each code or word with what it means, and each status; on a crate's page
the first cell of each row of a table that is headed "Promise"."""
import re
from functools import lru_cache
from pathlib import Path

from contracts import CRATES, Function, functions_of, named, within
from crates import libraries
from edits_apply import applied, sum_of
from program import ROOT
from reached import followed
from reached import named as names_of

FOLDER = ROOT / "docs/assessment"
TABLE, INNER = FOLDER / "promises.tsv", FOLDER / "inner.txt"
HEAD = ["id", "page", "sentence", "carried by", "tests", "wrong bodies", "kind"]
NEAR = 3
KINDS = ("proved", "tested", "trusted", "withdrawn")
CRATE_PAGE = re.compile(r"^crates/(\w+)/README\.md$")


class Promise:
    """A row of the table; what it lists is parted by '; '."""

    def __init__(self, id, page, sentence, by, tests, bodies, kind):
        self.id, self.page, self.sentence, self.kind = id, page, sentence, kind
        self.by, self.tests, self.bodies = by, tests, bodies

    def cells(self):
        return [self.id, self.page, self.sentence, *("; ".join(it) for it in (self.by, self.tests, self.bodies)), self.kind]

    def carriers(self):
        """Of each function that carries it: crate, function, clause."""
        return [(crate, path, clause) for crate, _, call in (it.partition(" ") for it in self.by) for path, _, clause in [call.partition("#")]]


def read():
    rows = [line.split("\t") for line in TABLE.read_text().splitlines()] if TABLE.exists() else [HEAD]
    listed = [[it for it in cell.split("; ") if it] for row in rows[1:] for cell in row[3:6]]
    return [Promise(*row[:3], *listed[3 * n : 3 * n + 3], row[6]) for n, row in enumerate(rows[1:])]


def write(promises):
    TABLE.write_text("\n".join("\t".join(it) for it in [HEAD, *(it.cells() for it in promises)]) + "\n")


def section(text, heading):
    return re.search(r"^## %s\n(.*?)(?=^## |\Z)" % re.escape(heading), text, re.M | re.S)[1]


def rows_of(text):
    """The rows of the tables of a text: of each the heads of its table, and its line."""
    heads = None
    for line in text.splitlines():
        if not line.startswith("|"):
            heads = None
        elif heads is None:
            heads = [it.strip() for it in line.strip("| ").split(" | ")]
        elif not set(line) <= set("|-"):
            yield heads, line


def of_readme():
    text = (ROOT / "README.md").read_text()
    theorem = re.sub(r"^```.*?^```\n", "", section(text, "The theorem"), flags=re.M | re.S)
    for line in [*theorem.splitlines(), *section(text, "The theorem on networks").splitlines()]:
        if line and not line.startswith("|") and not line.startswith("The premises"):
            yield re.sub(r"^\d\. ", "", line)
    for _, line in rows_of(section(text, "Commands")):
        yield " | ".join(line.strip("| ").split(" | ")[:2])
    for _, line in rows_of(section(text, "Proved, tested, trusted, neither")):
        if line.startswith("| Proved"):
            yield line.strip("| ")


def of_formats():
    for heads, line in rows_of((ROOT / "docs/formats.md").read_text()):
        if heads[0] in ("Code", "Word") and heads[-1] == "What to do":
            yield " | ".join(line.strip("| ").split(" | ")[: -2])
        elif heads == ["Status", "Name", "Meaning"]:
            yield line.strip("| ")


def of_crate(page):
    """Of each row of promises of a crate's page its sentence, and what it says carries it."""
    crate = CRATE_PAGE.match(page)[1]
    for heads, line in rows_of((ROOT / page).read_text()):
        if heads[0] == "Promise":
            sentence, by, clauses = re.match(r"^\| (.*) \| ([^|]*) \| ([^|]*) \|$", line).groups()
            yield sentence, carriers_of(crate, by, re.findall(r"`(\w+)`|\b(unnamed|invariant)\b", clauses))


def carriers_of(crate, by, clauses):
    clauses = [one or other for one, other in clauses]
    if by.startswith(("law of", "laws of", "type")):
        return [f"{crate} {path}#{clause}" for path in re.findall(r"`([\w:]+)`", by) for clause in clauses]
    has = {path: set().union(*(it.clauses for it in named(crate, path)), set()) for path in re.findall(r"`([\w:]+)`", by)}
    return [f"{crate} {path}#{clause}" for path in has for clause in clauses if clause in has[path]]


def pages():
    return [f"crates/{it.parent.name}/README.md" for it in sorted(CRATES.glob("*/README.md")) if "| Promise |" in it.read_text()]


def marked():
    """Of each sentence that is marked its page, and what its page says carries it."""
    found = {("README.md", it): [] for it in of_readme()}
    found.update({("docs/formats.md", it): [] for it in of_formats()})
    for page in pages():
        found.update({(page, sentence): by for sentence, by in of_crate(page)})
    return found


# Wrong bodies


@lru_cache(None)
def refused():
    """Of each wrong body what refused it last: the gate, or the prover's words in edits/tried.tsv; nothing where it was not tried."""
    found = {(it.parent.name, it.stem): "" for it in (ROOT / "edits").glob("*/*.edit")}
    for line in (ROOT / "edits/tried.tsv").read_text().splitlines()[1:]:
        crate, edit, by, _ = line.split("\t")
        if (crate, edit) in found:
            found[crate, edit] = by
    return found | {(it.parent.parent.name, it.stem): "the gate" for it in CRATES.glob("*/must-fail/*.edit")}


@lru_cache(None)
def seen_refused():
    """The wrong bodies that were seen refused on these sources of their crates: those of the gate, and those whose line is fresh."""
    lines = [line.split("\t") for line in (ROOT / "edits/tried.tsv").read_text().splitlines()[1:]]
    fresh = {(crate, edit) for crate, edit, _, tried_on in lines if (path := ROOT / "edits" / crate / f"{edit}.edit").exists() and sum_of(path) == tried_on}
    return fresh | {key for key, by in refused().items() if by == "the gate"}


def path_of(crate, edit):
    gate = CRATES / crate / "must-fail" / f"{edit}.edit"
    return gate if gate.exists() else ROOT / "edits" / crate / f"{edit}.edit"


def refusers(body):
    """The functions that refused a wrong body, each as its crate and its last name."""
    calls = [it.partition(": ")[0].split("::") for it in refused().get(body, "").split("; ")]
    return {(it[0], it[-1]) for it in calls if len(it) > 1}


@lru_cache(None)
def round(body):
    """The words of a wrong body, and those that stand near what it changes, and near where what it changes is called."""
    words, file, names = path_of(*body).read_text(), None, {it.name for it in changed_by(*body) if isinstance(it, Function)}
    for line in path_of(*body).read_text().splitlines():
        if line.startswith("file: "):
            file = CRATES / body[0] / line[6:].strip()
        elif line.startswith("old: "):
            before, _, behind = file.read_text().partition(line[5:])
            words += "\n".join([*before.splitlines()[-NEAR:], *behind.splitlines()[:NEAR]])
    for source in sorted((CRATES / body[0] / "src").rglob("*.rt")):
        lines = source.read_text().splitlines()
        for number, line in enumerate(lines):
            if names & set(re.findall(r"\w+", line)):
                words += "\n".join(lines[max(number - 2, 0) : number + 3])
    return words


@lru_cache(None)
def changed_by(crate, edit):
    """What a wrong body changes: functions of src/, files of specs/."""
    lines = path_of(crate, edit).read_text().splitlines()
    file, found = None, set()
    for line in lines:
        if line.startswith("file: "):
            file = CRATES / crate / line[6:].strip()
        elif line.startswith("old: ") and file.suffix == ".antt":
            found.add(file)
        elif line.startswith("old: "):
            at = file.read_text().partition(line[5:])[0].count("\n") + 1
            here = [it for it in functions_of(crate) if it.file == file]
            # (a constant, a field, a mark of a function: whatever stands in the file may rest on it)
            found |= set([it for it in here if it.first <= at <= it.last] or here)
    return frozenset(found)


@lru_cache(None)
def under(crate, path):
    """The functions under a call: of its own crate, and by name those that these call of the libraries on which it stands at once."""
    met = set(within(crate, path))
    callers = {}
    for it in within(crate, path):
        for name in it.calls:
            callers.setdefault(name, []).append(it)
    for library in libraries().get(crate, []):
        for one in functions_of(library):
            if one.is_public and any(it.mentions(one) for it in callers.get(one.name, ())):
                met |= within(library, one.path())
    return frozenset(met)


@lru_cache(None)
def impls_above(crate, path):
    """Where a call is a trait's, what the crates that stand on this one at once have of it in their impls of the trait."""
    traits = {it.owner for it in named(crate, path)} - {None}
    above = [name for name, below in libraries().items() if crate in below and (CRATES / name / "src").is_dir()]
    return frozenset(it for name in above for it in functions_of(name) if it.of_trait in traits and it.name == path.split("::")[-1])


@lru_cache(None)
def said_by(crate, path, clause):
    """The definitions and types that a clause names, each as its file and name."""
    found = set()
    for it in named(crate, path):
        if clause in it.clauses:
            found |= names_of(it.file, it.clauses[clause], it.takes if not it.owner else "")
    return frozenset(it for it in found if it)


@lru_cache(None)
def reaches(crate, path, clause):
    """The definitions and types that a clause rests on."""
    return frozenset(followed(said_by(crate, path, clause)))


@lru_cache(None)
def carried():
    """The functions that some row names."""
    return {it for promise in read() for crate, path, _ in promise.carriers() for it in named(crate, path)}


def is_of(promise, body):
    """Whether a wrong body changes what carries the promise: one of its functions, one that they call, one that is theirs in an impl of a
    crate above, a definition of its clauses. A call through a trait is not followed: a function of the same crate that no row names is
    taken for one that they call."""
    changed = changed_by(*body)
    for crate, path, clause in promise.carriers():
        those = under(crate, path) | impls_above(crate, path)
        if changed & those or changed & {file for file, _ in reaches(crate, path, clause)}:
            return True
        if refusers(body) & {(it.crate, it.name) for it in those}:
            return True
        if body[0] == crate and (not named(crate, path) or not any(isinstance(it, Path) or it in carried() for it in changed)):
            return True
    return False


def telling(promise):
    """The wrong bodies of a promise, those first that its own clause refused. Those of a code speak of it, or stand where it is told."""
    ranked, said = [], promise.page == "docs/formats.md" and re.search(r"^\w+ \| `?([A-Z]\w+)`? \|", promise.sentence)
    for body, by in refused().items():
        if said and not re.search(rf"\b{said[1]}\b", round(body)):
            continue
        for crate, path, clause in promise.carriers():
            wanted = "ensures" if clause == "unnamed" else f"ensures {clause}"
            own = [it for it in by.split("; ") if re.search(rf"::{re.escape(path.split('::')[-1])}: ", it) and it.startswith(crate + "::")]
            exact = any(wanted in re.split(r"[:,] ", it)[1:] for it in own)
            near = bool(changed_by(*body) & within(crate, path)) if body[0] == crate else False
            if exact or own or near or is_of(promise, body):
                ranked.append((not exact, not own, not near, by != "the gate", not by, body))
                break
    return [f"{crate}/{edit}" for *_, (crate, edit) in sorted(ranked)]
