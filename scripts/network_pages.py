"""What scripts/pages tries of the pages of networks: the example, a diamond, file names that want escaping, and the largest.

A page is well-formed XML that begins as HTML and holds all of itself. What `network` tells of the same system stands in it: the number of
concentrators, links and labels, and each way that is not left out, in the table of its concentrator. Each of at most sixteen bars is a way,
the longest first, whose parts in words lead over the system's links and sum up to it. Two reports are the same bytes.
"""
import json
import re
import subprocess
import tomllib
import xml.etree.ElementTree as Tree
from pathlib import Path
from random import Random

from contrasts import contrast_faults
from program import ROOT, module_of

networks = module_of(ROOT / "scripts/networks")
EXAMPLE = ROOT / "examples/network"
BEGINS = "<!DOCTYPE html>\n<html lang='en'>"
SECONDS, BARS, ROWS, BELOW = 120, 16, 6144, 1_000_000
# A name of a file, and how the page shows it.
ODD, SHOWN = "a&b<c>'\"\u0001\u00e9.toml", "a&amp;b&lt;c&gt;&#39;&quot;\ufffd\u00e9.toml"


def shape_faults(written):
    """What is wrong with the page as HTML, and its tree, or None."""
    found = [] if written.startswith(BEGINS) else [f"begins with {written[:60]!r}"]
    if re.search(r"https?:|url\(|@import| on[a-z]+=", written):
        found.append("has an address or a handler")
    try:
        tree = Tree.fromstring(written)
    except Tree.ParseError as error:
        return [*found, f"is not well-formed: {error}"], None
    ids = [node.get("id") for node in tree.iter() if node.get("id") is not None]
    found += [f"has the id {it} {ids.count(it)} times" for it in sorted(set(ids)) if ids.count(it) != 1]
    found += [f"leads to {node.get('href')}" for node in tree.iter("a") if (node.get("href") or "").removeprefix("#") not in set(ids)]
    found += contrast_faults(written)
    return found + [f"has an element {node.tag}" for node in tree.iter() if node.tag in ("script", "link", "img", "iframe", "object")], tree


def said(program, *words, status=0):
    done = subprocess.run([program, *words], stdout=subprocess.PIPE, timeout=SECONDS)
    if done.returncode != status:
        raise ValueError(f"{' '.join(map(str, words))} ends with status {done.returncode}")
    return done.stdout


def counted(count, one):
    return f"{count:,} {one}{'' if count == 1 else 's'}"


def number(text):
    return int(text.replace(",", ""))


# ---- systems


def example(folder, tables="fwd.toml"):
    """The three in a row of the examples, the first with a file of this name."""
    for path in EXAMPLE.iterdir():
        (folder / (tables if path.name == "fwd.toml" else path.name)).write_text(path.read_text())
    text = (folder / "system.toml").read_text()
    (folder / "system.toml").write_text(text.replace('"fwd.toml"', json.dumps(tables)))


def diamond(folder):
    """The first network by chance in which a concentrator has two links from different ones."""
    for seed in range(1000):
        chance = Random(f"diamond {seed}")
        network = networks.draw_network(chance)
        drawn = networks.Texts(chance, network)
        ones = {}
        for link in network.links:
            ones.setdefault(link.other, set()).add(link.one)
        if any(len(its) > 1 for its in ones.values()) and drawn.lines()[1] == 0:
            for name, text in drawn.files(folder).items():
                (folder / name).write_text(text)
            return
    raise ValueError("no diamond in a thousand networks")


def largest(folder, program, tables):
    """64 concentrators of the same tables; 16 buses of each but the first are fed by outputs of up to eight before it."""
    (folder / "t.toml").write_text(tables.replace('sdi = "any"', "sdi = 0"))
    (folder / "c.json").write_bytes(said(program, "find", folder / "t.toml"))
    rows = ["version = 1"]
    for at in range(64):
        rows += ["[[concentrator]]", f'name = "C{at}"', 'tables = "t.toml"', 'certificate = "c.json"']
    for at in range(1, 64):
        for bus in range(16):
            rows += ["[[link]]", f'from = "C{max(0, at - 1 - bus % 8)}.O{bus}"', f'to = "C{at}.B{bus}"', "least_us = 500", "most_us = 500"]
    (folder / "system.toml").write_text("\n".join([*rows, ""]))


# ---- what must stand in a page


def told(program, folder):
    """The ways that `network` tells, and the system's text."""
    lines = said(program, "network", folder / "system.toml").decode().splitlines()
    ways = {}
    for _, name, us in (line.split(" ") for line in lines[1:]):
        concentrator, label = name.split(".")
        ways.setdefault(concentrator, {})[label] = int(us)
    return ways, tomllib.loads((folder / "system.toml").read_text())


def bar_faults(bar, links, scale):
    """A bar's way, and what is wrong with it: its parts in words, and its segments."""
    name, words = bar.find("p/b").text, bar.findall("p")[1].text
    way = number(re.search(r"([\d,]+) us$", "".join(bar.find("p").itertext()))[1])
    parts = [part.split(" ") for part in words.split(" + ")]
    found = [] if sum(number(part[-1]) for part in parts) == way else [f"has a way of {name} whose parts sum up to another: {words}"]
    stays, over = [part[0] for part in parts[::2]], [links[int(part[1])] for part in parts[1::2]]
    led = [(link["from"].split(".")[0], link["to"].split(".")[0], link["most_us"]) for link in over]
    if led != [(*ends, number(part[-1])) for ends, part in zip(zip(stays, stays[1:]), parts[1::2])] or stays[-1] != name.split(".")[0]:
        found.append(f"has a way of {name} that leads over other links: {words}")
    drawn = {it.get("class"): list(map(int, re.findall(r"h(\d+)", it.get("d")))) for it in bar.iter("path")}
    if [*map(len, drawn.values())] != [len(stays), len(over)] or sum(map(sum, drawn.values())) != 10_000 * way // scale:
        found.append(f"has a bar of {name} with segments {drawn}")
    return (*name.split("."), way), found


def bars_faults(tree, ways, links):
    """The bars are the longest ways, each of its parts."""
    every = sorted((us for its in ways.values() for us in its.values()), reverse=True)
    bars = [it for it in tree.iter("div") if it.get("class") == "bar" and it.find("p") is not None]
    found, drawn = [], []
    for bar in bars:
        (concentrator, label, way), its = bar_faults(bar, links, every[0])
        drawn.append(way)
        found += its + ([] if ways.get(concentrator, {}).get(label) == way else [f"has a bar of {concentrator}.{label} of {way}"])
    return found if drawn == every[:BARS] else [*found, f"has bars of {drawn}, wanted {every[:BARS]}"]


def table_faults(card, its, most):
    """The table of a concentrator has the ways of its labels, or so many of the longest, each with its stay and what comes before."""
    name, shown, found = card.find("h3").text, {}, []
    for row in card.findall("table/tr")[1:]:
        label, way, stay, before = ("".join(cell.itertext()) for cell in row)
        shown[label] = number(way)
        if number(stay) + (number(before.split(":")[0]) if before else 0) != number(way):
            found.append(f"has a way of {name}.{label} of {way}, a stay of {stay}, and before it {before!r}")
    left = [us for label, us in its.items() if label not in shown]
    if any(its.get(label) != us for label, us in shown.items()) or len(shown) != min(len(its), most) or max(left, default=0) > min(shown.values()):
        found.append(f"has other ways of {name}: {shown}")
    text = "".join(card.itertext())
    return found + ([f"does not tell how many of {name} are left out"] if left and f"{len(left):,} more, none of them longer" not in text else [])


def fed(folder, system):
    """How many streams each link feeds."""
    files = {it["tables"] for it in system["concentrator"]}
    texts = {name: tomllib.loads((folder / name).read_text()) for name in files}
    tables = {it["name"]: texts[it["tables"]] for it in system["concentrator"]}
    for link in system.get("link", []):
        (one, output), (other, bus) = (link[end].split(".") for end in ("from", "to"))
        labels = next(it for it in tables[one]["output"] if it["name"] == output)["label"]
        streams = next(it for it in tables[other]["bus"] if it["name"] == bus)["stream"]
        yield sum(any(row["label"] == it["label"] and it["sdi"] in ("any", row["sdi"]) for row in labels) for it in streams)


def link_faults(tree, links, fed):
    """The table of links has each with its numbers, and the drawing its title."""
    tables = [it for it in tree.iter("div") if it.get("class") == "wide"]
    rows = [[cell.text for cell in row] for row in tables[0].findall("table/tr")[1:]] if tables else []
    wanted = [[str(at), it["from"], it["to"], f"{it['least_us']:,}", f"{it['most_us']:,}", f"{count:,}"]
              for at, (it, count) in enumerate(zip(links, fed))]
    found = [] if rows == wanted else ["has another table of links"]
    titles = [it.text for it in tree.iter("title")][1:]
    named = [f"link {row[0]}: {row[1]} -> {row[2]}, {row[3]} to {row[4]} us" for row in wanted]
    return found + ([] if titles == named else ["has other links in its drawing"])


def page_faults(program, folder):
    """What is wrong with the page of the system in a folder."""
    ways, system = told(program, folder)
    page = said(program, "report", "--network", folder / "system.toml")
    written, links, names = page.decode(), system.get("link", []), [it["name"] for it in system["concentrator"]]
    found, tree = shape_faults(written)
    if page != said(program, "report", "--network", folder / "system.toml"):
        found.append("is other bytes the second time")
    if len(page) >= BELOW:
        found.append(f"has {len(page)} bytes")
    if tree is None:
        return found
    labels = sum(len(its) for its in ways.values())
    verdict = f"Accepted: {counted(len(names), 'concentrator')}, {counted(len(links), 'link')}, {counted(labels, 'label')}."
    if verdict not in "".join(tree.itertext()):
        found.append(f"does not tell {verdict!r}")
    if [it.text for it in tree.iter("text") if it.get("class") == "name"] != names:
        found.append("has other boxes")
    cards = [it for it in tree.iter("div") if it.get("class") == "card"]
    if [it.find("h3").text for it in cards] != names:
        return [*found, "has other parts"]
    found += link_faults(tree, links, fed(folder, system)) + bars_faults(tree, ways, links)
    return found + [it for card, name in zip(cards, names) for it in table_faults(card, ways[name], ROWS // len(names))]


def odd_faults(program, folder):
    """The same of a system whose file has a name that wants escaping."""
    written = said(program, "report", "--network", folder / "system.toml").decode()
    return page_faults(program, folder) + ([] if f"<code>{SHOWN}</code>" in written else [f"lacks {SHOWN!r}"])


def tried(program, folder, tables):
    """Of each page its name, and what is wrong with it. The tables are those of the largest."""
    made = {"an example": example, "a diamond": diamond, "odd names of files": lambda at: example(at, ODD),
            "the largest network": lambda at: largest(at, program, tables)}
    for place, (name, make) in enumerate(made.items()):
        at = Path(folder) / f"network-{place}"
        at.mkdir()
        try:
            make(at)
            yield name, (odd_faults if "odd" in name else page_faults)(program, at)
        except ValueError as error:
            yield name, [str(error)]
