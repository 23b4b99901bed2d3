"""`python3 -m tdl links --diff`: what it tells is what the resolver answers to requests before and after."""
import csv
import io
import itertools
import json
import random
import subprocess
from pathlib import Path
from typing import Any, Iterator, NamedTuple

import pytest

from tests.link_files import ITEM, PAGE, Links, linkset_of
from tools.measures import costs, path_of

# what a connection has of replies, and what two linksets of 60,000 links may cost: seconds of processor time, and MiB
CONNECTION, SECONDS, MEMORY = 1_000, 10, 500
DEFAULT = "gs1:defaultLink"
RELATIONS = [DEFAULT, DEFAULT, "gs1:pip", "related", "https://voc.example/x"]
LANGUAGES: list[list[str]] = [[], ["en"], ["de"], ["de-AT", "fr"]]
# attributes that a reply has, and one that is ignored
MORE: list[dict[str, Any]] = [
    {"title": "Äpfel"}, {"title": ""}, {"type": "text/html"}, {"title*": [{"value": "x", "language": "de"}]}, {"note": ["a"]}, {"media": 7}]
Content = list[dict[str, Any]]


@pytest.fixture
def links(program: Path, module: dict[str, str], tmp_path: Path) -> Links:
    """The command in a folder of its own."""
    return Links(program, module, tmp_path)


# linksets


def drawn_anchor(chance: random.Random, items: int) -> str:
    """Draws an item, a lot of it, or a serial number."""
    item = path_of(chance.randrange(items))
    lot = f"/10/L{chance.randrange(3)}"
    return item + chance.choice(["", "", lot, f"{lot}/21/S{chance.randrange(2)}", f"/21/S{chance.randrange(2)}"])


def drawn_target(chance: random.Random) -> dict[str, Any]:
    """Draws a target."""
    target: dict[str, Any] = {"href": f"https://shop.example/{chance.randrange(10_000)}"}
    target["hreflang"] = chance.choice(LANGUAGES)
    if chance.random() < 0.3:
        target.update(chance.choice(MORE))
    return target


def drawn(chance: random.Random, items: int) -> Content:
    """Draws the contexts of a linkset; an anchor may have two, and a link type two spellings."""
    contexts: Content = []
    for _ in range(3 * items):
        context: dict[str, Any] = {"anchor": chance.choice(["", "https://a.example"]) + drawn_anchor(chance, items)}
        for _ in range(chance.randint(1, 2)):
            relation = chance.choice([*RELATIONS, "https://ref.gs1.org/voc/pip"])
            context[relation] = [drawn_target(chance) for _ in range(chance.randint(1, 2))]
        contexts.append(context)
    return contexts


def edited(contexts: Content, chance: random.Random, items: int) -> Content:
    """Returns contexts of which one in eight is lost, changed, or in another order, and some new ones."""
    found: Content = []
    for context in json.loads(json.dumps(contexts)):
        sort = chance.randrange(48)
        names = [name for name in context if name != "anchor"]
        if sort == 0:
            continue
        if sort == 1:
            context[chance.choice(names)].reverse()
        elif sort == 2:
            chance.choice(context[chance.choice(names)])["href"] += "?new"
        elif sort == 3:
            chance.choice(context[chance.choice(names)])["hreflang"] = chance.choice(LANGUAGES)
        elif sort == 4:
            chance.choice(context[chance.choice(names)])["title"] = "new"
        elif sort == 5:
            del context[chance.choice(names)]
        found.append(context)
    return found + drawn(chance, items)[: max(1, items // 12)]


# requests


class Request(NamedTuple):
    """A request for a path: the link type in the linkset's spelling, `all`, or nothing; and a field of languages, or nothing."""

    path: str
    relation: str = ""
    languages: str = ""

    def head(self) -> bytes:
        """Returns the bytes of the request."""
        query = f"?linkType={self.relation.replace(':', '%3A').replace('/', '%2F')}" if self.relation else ""
        field = f"Accept-Language: {self.languages}\r\n" if self.languages else ""
        return f"GET {self.path}{query} HTTP/1.1\r\n{field}\r\n".encode("ascii")


def replies(links: Links, linkset: str, asked: list[Request]) -> list[bytes]:
    """Returns the resolver's reply to each request."""
    found: list[bytes] = []
    for first in range(0, len(asked), CONNECTION):
        heads = b"".join(request.head() for request in asked[first : first + CONNECTION])
        done = subprocess.run([links.program, "resolve", "--links", linkset], cwd=links.folder, input=heads, stdout=subprocess.PIPE, check=True)
        found += split(done.stdout)
    return found


def split(stream: bytes) -> Iterator[bytes]:
    """Yields the replies of a connection, without what tells that it ends."""
    place = 0
    while place < len(stream):
        end = stream.index(b"\r\n\r\n", place) + 4
        head = stream[place:end]
        size = int(head.split(b"Content-Length: ", 1)[1].split(b"\r\n", 1)[0])
        yield head.replace(b"Connection: close\r\n", b"") + stream[end : end + size]
        place = end + size


def drawn_requests(chance: random.Random, items: int, count: int) -> list[Request]:
    """Draws requests of items, lots and serial numbers, of which some have no link."""
    languages = ["", "", "en", "de, en;q=0.5", "fr"]
    relations = ["", "", "all", *RELATIONS]
    return [Request(drawn_anchor(chance, items + 1), chance.choice(relations), chance.choice(languages)) for _ in range(count)]


def covering(path: str) -> list[str]:
    """Returns a path and its prefixes."""
    parts = path.split("/")
    return ["/".join(parts[:end]) for end in range(len(parts), 2, -2)]


Row = dict[str, str]


def rows_of(links: Links, *words: str) -> tuple[int, list[Row]]:
    """Returns the status and the rows of a comparison."""
    ran = links.run("--diff", *words, "--csv")
    return ran.status, list(csv.DictReader(io.StringIO(ran.output, newline="")))


def compare(links: Links, items: int, count: int, seed: int) -> None:
    """Compares what is told of two drawn linksets with the replies."""
    chance = random.Random(seed)
    old = drawn(chance, items)
    new = edited(old, chance, items)
    for name, content in (("old.json", old), ("new.json", new)):
        links.put(name, {"linkset": content})
    status, rows = rows_of(links, "old.json", "new.json")
    assert status == 1 and rows
    # no reply changes unless a row says so
    asked = drawn_requests(chance, items, count)
    before, after = replies(links, "old.json", asked), replies(links, "new.json", asked)
    told = {(row["anchor"], row["linkType"]) for row in rows}
    anchors = {anchor for anchor, _ in told}
    changed = [request for request, one, other in zip(asked, before, after) if one != other]
    for request in changed:
        wanted = request.relation or DEFAULT
        assert any((path in anchors) if wanted == "all" else ((path, wanted) in told) for path in covering(request.path)), request
    assert count // 100 < len(changed) < count
    check_rows(links, rows)


def check_rows(links: Links, rows: list[Row]) -> None:
    """Compares each row with the replies: the linkset of its anchor changes, and who had and has no links of its type gets 404."""
    for column, file in (("before", "old.json"), ("after", "new.json")):
        found = replies(links, file, [Request(row["anchor"], row["linkType"]) for row in rows])
        assert [row[column] == "" for row in rows] == [reply.startswith(b"HTTP/1.1 404 ") for reply in found]
        # (a document names the anchor whose links it has)
        for row, reply in zip(rows, found):
            if reply.startswith(b"HTTP/1.1 300 "):
                assert f'"anchor":"https://id.gs1.org{row[column]}"'.encode("ascii") in reply, (row, reply)
    asked = [Request(row["anchor"], "all") for row in rows]
    same = [row for row, one, other in zip(rows, replies(links, "old.json", asked), replies(links, "new.json", asked)) if one == other]
    assert not same
    # a default link that is the only one leads where the row says
    moved = [row for row in rows if row["change"] == "moved"]
    for column, file in (("old", "old.json"), ("new", "new.json")):
        for row, reply in zip(moved, replies(links, file, [Request(row["anchor"]) for row in moved])):
            if reply.startswith(b"HTTP/1.1 307 "):
                assert f"Location: {row[column]}\r\n".encode("ascii") in reply, (row, reply)


@pytest.mark.parametrize("seed", range(3))
def test_replies(links: Links, seed: int) -> None:
    """What is told of small linksets is what the resolver answers."""
    compare(links, 40, 1_000, seed)


@pytest.mark.whole
def test_all_replies(links: Links) -> None:
    """What is told of large linksets is what the resolver answers to 20,000 requests."""
    compare(links, 4_000, 20_000, 7)


# what is told

LOT = f"{ITEM}/10/A"
BASE = {ITEM: {DEFAULT: [{"href": "https://a.example/"}], "gs1:pip": [{"href": PAGE}]}, LOT: {DEFAULT: [{"href": "https://a.example/lot"}]}}
TOLD: dict[str, tuple[dict[str, Any], list[str], str]] = {
    "nothing": (BASE, [], "no link differs"),
    "a default link that moves": (
        {**BASE, ITEM: {**BASE[ITEM], DEFAULT: [{"href": "https://b.example/"}]}},
        [f"{ITEM} {DEFAULT}: moved: https://a.example/ -> https://b.example/"], "1 anchor differs: 1 default moved"),
    "a lot that falls to its item": (
        {ITEM: BASE[ITEM]}, [f"{LOT} {DEFAULT}: removed: https://a.example/lot; now its requests get those of {ITEM}"],
        "1 anchor differs: 1 removed, 1 now of a shorter anchor"),
    "a link type that is gone": (
        {**BASE, ITEM: {DEFAULT: BASE[ITEM][DEFAULT]}}, [f"{ITEM} gs1:pip: removed: {PAGE}; now its requests get none"],
        "1 anchor differs: 1 removed, 1 now without a link"),
    "a lot with its own page": (
        {**BASE, LOT: {**BASE[LOT], "gs1:pip": [{"href": "https://a.example/pip"}]}},
        [f"{LOT} gs1:pip: added: https://a.example/pip; before, its requests got those of {ITEM}"], "1 anchor differs: 1 added"),
    "a title": (
        {**BASE, ITEM: {**BASE[ITEM], "gs1:pip": [{"href": PAGE, "title": "x"}]}}, [f"{ITEM} gs1:pip: changed: {PAGE}"], "1 anchor differs: 1 changed"),
}


@pytest.mark.parametrize("new, lines, summary", TOLD.values(), ids=TOLD)
def test_told(links: Links, new: dict[str, Any], lines: list[str], summary: str) -> None:
    """Each change has a line, and the last line of errors counts them."""
    links.put("old.json", linkset_of(BASE))
    ran = links.run("--diff", "old.json", links.put("new.json", linkset_of(new)))
    assert (ran.status, ran.output.splitlines(), ran.told) == (int(bool(lines)), lines, [summary])


def test_order(links: Links) -> None:
    """Links in another order are a change, as the document of a reply shows them."""
    pages = [{"href": "https://a.example/1"}, {"href": "https://a.example/2"}]
    links.put("old.json", linkset_of({ITEM: {"gs1:pip": pages}}))
    ran = links.run("--diff", "old.json", links.put("new.json", linkset_of({ITEM: {"gs1:pip": pages[::-1]}})))
    assert (ran.status, ran.output) == (1, f"{ITEM} gs1:pip: order\n")


def test_tables(links: Links) -> None:
    """A table is compared as its linkset; one with wrong rows is named, with status 2."""
    links.put("table.csv", f"anchor,href,title\n{ITEM},{PAGE},Äpfel\n")
    links.run("table.csv", "-o", "linkset.json")
    assert links.run("--diff", "table.csv", "linkset.json") == (0, "", ["no link differs"])
    ran = links.run("--diff", "linkset.json", links.put("wrong.csv", "anchor,href\n/01/1,x\n"))
    assert ran.status == 2 and ran.told[:1] == ["tdl links: wrong.csv has wrong rows:"] and ran.told[1].startswith("row 2, column anchor: length"), ran
    ran = links.run("--diff", "linkset.json", links.put("wrong.json", '{"linkset":7}'))
    assert ran.status == 3 and ran.told[0].startswith("tdl links: the file of --diff is rejected: "), ran


def large(step: int) -> Iterator[tuple[str, dict[str, Any]]]:
    """Yields the anchors of a linkset of 60,000 links, each with a page; every so many have another one."""
    for number in range(60_000):
        other = "?new" if step and number % step == 0 else ""
        yield path_of(number // 2) + ("/10/L" if number % 2 else ""), {DEFAULT: [{"href": f"https://shop.example/products/{number}{other}"}]}


@pytest.mark.whole
def test_costs(links: Links) -> None:
    """60,000 links are compared within the seconds and the memory that docs/OPERATIONS.md says."""
    for name, step in (("old.json", 0), ("new.json", 10)):
        links.put(name, linkset_of(dict(large(step))))
    spent = costs(["/usr/bin/python3", "-m", "tdl", "links", "--diff", "old.json", "new.json", "-o", "out.txt"], cwd=links.folder, env=links.module)
    assert (spent.status, spent.errors[0]) == (1, "6,000 anchors differ: 6,000 default moved")
    assert spent.processor < SECONDS and spent.memory < MEMORY, spent


def test_many_of_one_type(links: Links) -> None:
    """Links of one anchor and type, all of which change, are paired in time that grows with their number."""
    counts = itertools.count()
    for name in ("old.json", "new.json"):
        links.put(name, linkset_of({ITEM: {"gs1:pip": [{"href": f"https://a.example/{next(counts)}"} for _ in range(30_000)]}}))
    spent = costs(["/usr/bin/python3", "-m", "tdl", "links", "--diff", "old.json", "new.json", "-o", "out.txt"], cwd=links.folder, env=links.module)
    assert (spent.status, spent.errors[0]) == (1, "1 anchor differs: 30,000 changed") and spent.processor < 6 * SECONDS, spent
