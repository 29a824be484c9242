"""What scripts/pages tries of pages with what was observed of a run: each number of the lines as its bars, beside what bounds it.

The section is made once more, of the lines, the tables and the certificate: of each input, output and label its numbers, in words and as
bars, with a cross where one is past what bounds it; of more than 64 labels one small picture each. The page names all three texts with
their digests, and leads to the section; all else in it is what the page without the third text has. A text that can't be read is its line.
"""
import hashlib
import json
import re
import subprocess
import tomllib
from itertools import zip_longest
from pathlib import Path
from typing import NamedTuple

from network_pages import shape_faults
from program import ROOT

SMALL = (ROOT / "examples/small.toml").read_text()
LEAST = (ROOT / "examples/small-certificate.json").read_text()
TRACE = (ROOT / "examples/small.trace").read_text()
SECONDS, WIDTH, MOST_DRAWN = 60, 400, 64
MISNAMED = "The certificate lists other inputs, outputs or labels than the tables"


class Number(NamedTuple):
    """A number that was seen, what the certificate claims of it, and its limit, each where there is one."""
    what: str
    seen: int | None
    certified: int | None
    limit: int | None
    is_least: bool = False

    def is_past(self):
        if self.seen is None:
            return False
        if self.is_least:
            return self.seen < self.limit
        return any(it is not None and self.seen > it for it in (self.certified, self.limit))

    def longest(self):
        return max(it or 0 for it in (self.seen, self.certified, self.limit))


class Row(NamedTuple):
    """What is shown of an input, an output or a label."""
    kind: str
    name: str
    numbers: list[Number]
    sent: tuple[int, int] | None = None


class Page(NamedTuple):
    """A page on tables, a certificate and lines that were observed."""
    name: str
    tables: str
    certificate: str
    lines: str
    status: int = 0
    below: int = 100_000
    words: tuple[str, ...] = ()
    is_named: bool = True   # the certificate's names are the tables'
    file: str = "observed"  # the name of the file of the lines
    shown: str = "observed" # that name as it stands in the page


# ---- what is wanted


def number(text):
    return None if text == "-" else int(text)


def rows_of(page):
    """Each row of the lines, with the limits of the tables."""
    tables = tomllib.loads(page.tables)
    queues = {bus["name"]: bus["queue"] for bus in tables["bus"]}
    ages = {label["name"]: label["age"] for output in tables["output"] for label in output["label"]}
    for line in page.lines.splitlines():
        kind, name, *fields = line.split(" ")
        it = list(map(number, fields[1::2]))
        if kind == "input":
            yield Row("Input", name, [Number("backlog", it[0], it[1], queues[name]), Number("wait", it[2], it[3], None)])
        elif kind == "output":
            yield Row("Output", name, [Number("late", it[0], it[1], None)])
        else:
            numbers = [Number("age", it[2], it[3], ages[name]), Number("least interval", it[4], None, it[5], True),
                       Number("greatest interval", it[6], None, it[7])]
            yield Row("Label", name, numbers, (it[0], it[1]))


def told(it):
    return "-" if it is None else f"{it:,}"


def words_of(it):
    parts = ["none seen" if it.seen is None else f"seen {it.seen:,}"]
    parts += [f"certificate {it.certified:,}"] if it.certified is not None else []
    return ", ".join(parts + ([f"limit {it.limit:,}"] if it.limit is not None else []))


def place(part, longest):
    """Where a bar ends in a picture of which this is the longest: a tenth more is shown, as far as the machine's numbers go, of which the last
    digits of the greatest are left out."""
    whole = min(longest + longest // 10 + 1, 2**64 - 1)
    scale = max(whole // 2**54, 1)
    return min(part // scale * WIDTH // (whole // scale), WIDTH)


def bars_of(it):
    """The paths of a number by their classes: its limit, what is certified, what was seen."""
    ends = (("r", 2, it.limit), ("b", 9, it.certified), ("d", 19, it.seen))
    return [(kind, f"M0 {y}H{place(end, it.longest())}") for kind, y, end in ends if end is not None]


def cells_of(row):
    """The cells of a row: of each picture its title, description and paths, and what stands below it with its mark."""
    for it in row.numbers:
        yield f"{it.what} of {row.name}", words_of(it), bars_of(it), f"{it.what}: {words_of(it)}", it.is_past()
    if row.sent is not None:
        yield None, None, [], f"sent {row.sent[0]:,}, of these as fallback {row.sent[1]:,}", False


def small_cell(row):
    """The one cell of a label, where there are many."""
    age, least, greatest = row.numbers
    between = max(least.longest(), greatest.longest())
    limits = "".join(f"M0 {y}H{place(end, span)}" for y, end, span in
                     ((2, age.limit, age.longest()), (29, least.limit, between), (46, greatest.limit, between)))
    seen = "".join(f"M0 {y}H{place(end or 0, span)}" for y, end, span in
                   ((19, age.seen, age.longest()), (36, least.seen, between), (53, greatest.seen, between)))
    words = (f"age {told(age.seen)} of {age.certified:,}, limit {age.limit:,}; intervals {told(least.seen)} to {greatest.seen:,}, "
             f"limits {least.limit:,} to {greatest.limit:,}")
    bars = [("r", limits), ("b", f"M0 9H{place(age.certified, age.longest())}"), ("d", seen)]
    return f"label {row.name}", words, bars, f"{row.name} {words}; sent {row.sent[0]:,}, fallback {row.sent[1]:,}", any(it.is_past() for it in row.numbers)


def wanted(page):
    """The parts of the section: the heading of each, and its cells."""
    rows = list(rows_of(page))
    labels = [row for row in rows if row.kind == "Label"]
    drawn = rows if len(labels) <= MOST_DRAWN else [row for row in rows if row.kind != "Label"]
    parts = [(f"{row.kind} {row.name}", list(cells_of(row))) for row in drawn]
    return parts if drawn is rows else [*parts, ("Labels: age, least and greatest interval", [small_cell(row) for row in labels])]


# ---- what stands there


def text_of(node):
    return "".join(node.itertext())


def section_of(tree):
    """The elements between the heading of the section and the next one, or the foot."""
    found = None
    for node in tree.find("body"):
        if node.get("id") == "seen":
            found = []
        elif found is not None and (node.tag == "h2" or text_of(node).startswith("Made by dc429.")):
            return found
        elif found is not None:
            found.append(node)
    return found


def cell_at(node):
    """A cell as it is wanted: what its picture has, what stands below it, and whether that has a cross."""
    picture, mark = node.find("svg"), node.find("b")
    below = text_of(node)
    if picture is None:
        return None, None, [], below, False
    below = below.removeprefix(text_of(picture))
    is_past = mark is not None and mark.get("class") == "no"
    if is_past != ("\u2717 " in below):
        below = f"a cross without its mark: {below}"
    paths = [(path.get("class"), path.get("d")) for path in picture.iter("path")]
    return picture.findtext("title"), picture.findtext("desc"), paths, below.replace("\u2717 ", ""), is_past


def parts_of(nodes):
    """The parts that stand in the section."""
    heading = None
    for node in nodes:
        if node.tag == "h4":
            heading = node.text
        elif node.get("class") == "l":
            yield node.findtext("h4"), [cell_at(cell) for cell in node.find("div")]
        elif node.get("class") == "g":
            yield heading, [cell_at(cell) for cell in node]


def section_faults(page, tree):
    """What is wrong with the section."""
    nodes = section_of(tree)
    if nodes is None:
        return ["has no section on what was seen"]
    if not page.is_named:
        return [] if MISNAMED in "".join(map(text_of, nodes)) and not list(parts_of(nodes)) else ["shows numbers under other names"]
    shown, asked = list(parts_of(nodes)), wanted(page)
    if [name for name, _ in shown] != [name for name, _ in asked]:
        return [f"has parts on {[name for name, _ in shown][:9]} .., wanted {[name for name, _ in asked][:9]} .."]
    return [f"has of {name} {got}, wanted {cell}" for (name, cells), (_, others) in zip(shown, asked)
            for got, cell in zip_longest(cells, others) if got != cell]


def identity(what, name, text):
    return f"<p>{what}: <b>{name}</b><br/><small>SHA-256 <code>{hashlib.sha256(text.encode()).hexdigest()}</code></small></p>"


def without(written):
    """A page without its section on what was seen, and without what its head says of the third text."""
    written = re.sub(r"<p>Observed: .*?</p>\n<p><a href='#seen'>.*?</p>\n", "", written, flags=re.S)
    return re.sub(r"<h2 id='seen'>.*?(?=<h2>|<p class='s'>Made by dc429)", "", written, flags=re.S)


# ---- pages


def run(program, folder, *words, given=""):
    done = subprocess.run([program, *words], input=given.encode(), stdout=subprocess.PIPE, timeout=SECONDS, cwd=folder)
    return done.returncode, done.stdout.decode()


def faults_of(program, folder, page):
    texts = {"tables": page.tables, "certificate": page.certificate, page.file: page.lines}
    for name, text in texts.items():
        (Path(folder) / name).write_text(text)
    words = ["report", "tables", "certificate", *page.words]
    status, written = run(program, folder, *words, "--observed", page.file)
    plain_status, plain = run(program, folder, *words)
    found = [] if status == page.status == plain_status else [f"ends with status {status}, without the lines with {plain_status}, wanted {page.status}"]
    size = len(written.encode())
    found += [] if size < page.below else [f"has {size} bytes"]
    for what, name, text in (("Tables", "tables", page.tables), ("Certificate", "certificate", page.certificate), ("Observed", page.shown, page.lines)):
        found += [] if identity(what, name, text) in written else [f"lacks the digest of the {what.lower()}"]
    found += [] if without(written) == plain else ["has other parts than the page without what was observed"]
    shape, tree = shape_faults(written)
    if tree is None:
        return found + shape
    bare = [it for it in tree.iter("svg") if it.get("role") != "img" or not (it.findtext("title") or "").strip()]
    found += [f"has {len(bare)} pictures without a title"] if bare else []
    return found + shape + section_faults(page, tree)


def changed(text, *changes):
    for old, new in changes:
        if text.count(old) != 1:
            raise ValueError(f"{old} does not stand once in {text}")
        text = text.replace(old, new)
    return text


def certified(program, folder, tables):
    """A certificate of tables, and the lines that `observe` writes of a run without an event."""
    (Path(folder) / "tables").write_text(tables)
    status, certificate = run(program, folder, "find", "tables")
    (Path(folder) / "certificate").write_text(certificate)
    other, lines = run(program, folder, "observe", "tables", "certificate")
    if (status, other) != (0, 0):
        raise ValueError(f"find ends with status {status}, observe with {other}")
    return certificate, lines


def filled(lines):
    """The lines with numbers of all sizes in the place of the noughts, some of them past what bounds them."""
    count = 0
    for line in lines.splitlines():
        fields = line.split(" ")
        for at in range(3, len(fields), 2):
            if fields[at - 1] != "of":
                count += 1
                if fields[at] == "-" and count % 7 == 0:
                    continue
                bound = int(fields[at + 2]) if at + 2 < len(fields) and fields[at + 1] == "of" else 1000
                fields[at] = str(count % (bound + bound // 8 + 2))
        yield " ".join(fields) + "\n"


LINES = """\
input A backlog 2 of 2 wait 2 of 2
output O late 1 of 2
label x sent 3 fallback 1 age 10 of 24 least 15 of 11 greatest 16 of 19
"""
PAST = changed(LINES, ("backlog 2 of", "backlog 3 of"), ("wait 2 of", "wait 10 of"), ("late 1", "late 3"), ("age 10", "age 31"), ("least 15", "least 10"),
               ("greatest 16", "greatest 20"))
HUGE = re.sub(r" \d+ of", " 18446744073709551615 of", changed(LINES, ("sent 3 fallback 1", "sent 18446744073709551615 fallback 18446744073709551615")))
QUICK = changed(LEAST, ('"delay":2,"window":3}],"labels"', '"delay":1,"window":3}],"labels"'))


def pages(program, folder, largest):
    """All pages that are tried."""
    _, observed = run(program, folder, "observe", ROOT / "examples/small.toml", ROOT / "examples/small-certificate.json", given=TRACE)
    yield Page("the run of the example", SMALL, LEAST, observed)
    yield Page("a run beside its bounds", SMALL, LEAST, LINES)
    yield Page("a run past its bounds", SMALL, LEAST, PAST)
    yield Page("the greatest numbers", SMALL, LEAST, HUGE)
    yield Page("clocks that drift, and a run", SMALL, LEAST, LINES, words=("--drift", "50"))
    yield Page("a delay that is too small, and a run", SMALL, QUICK, changed(LINES, ("wait 2 of 2", "wait 2 of 1")), 1)
    yield Page("an age over its limit, and a run", SMALL, changed(LEAST, ('"age":24', '"age":31')), changed(LINES, ("age 10 of 24", "age 31 of 31")), 1)
    yield Page("another bus, and a run", SMALL, changed(LEAST, ('"bus":"A"', '"bus":"B"')), LINES, 1, is_named=False)
    yield Page("lines of a file of any name", SMALL, LEAST, LINES, file="<b>&\"'\x01\N{GREEK SMALL LETTER OMEGA}", shown="&lt;b&gt;&amp;&quot;&#39;\ufffd\N{GREEK SMALL LETTER OMEGA}")
    for name, tables, below in (("64 buses with one label, and a run", largest(1, 1), 400_000), ("64 labels, and a run", largest(2, 32), 500_000),
                                ("65 labels, and a run", largest(5, 13), 500_000), ("the largest tables, and a run", largest(), 1_000_000)):
        certificate, lines = certified(program, folder, tables)
        yield Page(name, tables, certificate, "".join(filled(lines)), below=below)


def tried(program, folder, largest):
    """Of each page its name, and what is wrong with it. The tables are those of scripts/pages, of so many outputs and labels."""
    at = Path(folder) / "seen"
    at.mkdir()
    for page in pages(program, at, largest):
        yield page.name, faults_of(program, at, page)
