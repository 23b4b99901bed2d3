"""`python3 -m tdl links`: tables of links become linksets, and linksets tables.

Every wrong row is named with its column and word, each word that docs/MESSAGES.md has for tables, and nothing is written. Tables of 60,000 rows,
as CSV and as a workbook, become the linkset that is composed here, and that linkset the same table; linksets of every kind of link become tables
and the same links again, as `tdl merge` writes them. More than 65,536 links go to tdl-shard.
"""
import csv
import io
import json
import os
import random
import re
import signal
import subprocess
import sys
import zipfile
from functools import partial
from pathlib import Path
from select import select
from typing import Any, Union

import pytest

from tools.common import Word, begun, printed, run
from tools.measures import costs, path_of
from tools.messages import rows as messages
from tools.repository import TOP

DATA, SHARD = TOP / "checks/link_tables", TOP / "shard/tdl-shard"
# (the one for which Debian has openpyxl)
PYTHON, OPENPYXL = "/usr/bin/python3", "/usr/lib/python3/dist-packages/openpyxl/__init__.py"
# the rows of a large table, and the most MiB of a run over it
ROWS, MOST_MEMORY = 60_000, 300
NAMES = ["anchor", "href", "linkType", "hreflang", "title", "type"]
ITEM, PAGE = "/01/09506000134352", "https://shop.example/p"
FAULT = re.compile(r"row (\d+), column ([^:]*): ([\w-]+): .+")


class Tables:
    """The command in a folder of its own."""

    def __init__(self, program: Path, env: dict[str, str], room: Path) -> None:
        self.program, self.env, self.room = program, env, room

    def run(self, *words: Word) -> tuple[int, str, str]:
        """Runs the command in the folder, and returns its status, output and errors."""
        python = PYTHON if os.path.exists(PYTHON) else sys.executable
        done = subprocess.run([python, "-m", "tdl", "links", *map(str, words)], cwd=self.room, env=self.env, capture_output=True)
        return done.returncode, done.stdout.decode("utf-8"), done.stderr.decode("utf-8")

    def put(self, name: str, content: Union[str, bytes]) -> str:
        """Writes a file of the folder, and returns its name."""
        (self.room / name).write_bytes(content if isinstance(content, bytes) else content.encode("utf-8"))
        return name

    def links(self, linkset: str) -> str:
        """Returns the links of a linkset as the program writes them."""
        self.put("linkset.json", linkset)
        self.put("none.json", '{"linkset":[]}')
        return printed(self.program, "merge", "--links", "linkset.json", "--second", "none.json", cwd=self.room)


@pytest.fixture
def tables(program: Path, module: dict[str, str], tmp_path: Path) -> Tables:
    """The command in a folder of its own."""
    return Tables(program, module, tmp_path)


# Wrong rows


def text(value: str) -> str:
    """Returns a cell with a text."""
    return f'<c t="inlineStr"><is><t>{value}</t></is></c>'


def workbook(*sheets: tuple[str, list[list[str]]]) -> bytes:
    """Returns a workbook of sheets, each a name and rows of cells in XML."""
    named = "".join(f'<sheet name="{name}" sheetId="{place}" r:id="r{place}"/>' for place, (name, _) in enumerate(sheets, 1))
    linked = "".join(f'<Relationship Id="r{place}" Type="{TYPE}/worksheet" Target="worksheets/sheet{place}.xml"/>' for place, _ in enumerate(sheets, 1))
    parts = {
        "[Content_Types].xml": f'<Types xmlns="{PACKAGE}/content-types"><Default Extension="xml" ContentType="application/xml"/>'
        f'<Override PartName="/xl/workbook.xml" ContentType="{MEDIA}.sheet.main+xml"/></Types>',
        "_rels/.rels": f'<Relationships xmlns="{PACKAGE}/relationships">'
        f'<Relationship Id="r" Type="{TYPE}/officeDocument" Target="xl/workbook.xml"/></Relationships>',
        "xl/workbook.xml": f'<workbook xmlns="{MAIN}" xmlns:r="{TYPE}"><sheets>{named}</sheets></workbook>',
        "xl/_rels/workbook.xml.rels": f'<Relationships xmlns="{PACKAGE}/relationships">{linked}</Relationships>',
    }
    for place, (_, rows) in enumerate(sheets, 1):
        cells = "".join(f"<row>{''.join(row)}</row>" for row in rows)
        # (other programs write dimensions that are wrong)
        parts[f"xl/worksheets/sheet{place}.xml"] = f'<worksheet xmlns="{MAIN}"><dimension ref="A1"/><sheetData>{cells}</sheetData></worksheet>'
    into = io.BytesIO()
    with zipfile.ZipFile(into, "w") as archive:
        for name, content in parts.items():
            archive.writestr(name, content)
    return into.getvalue()


SCHEMAS, MEDIA = "http://schemas.openxmlformats.org", "application/vnd.openxmlformats-officedocument.spreadsheetml"
PACKAGE, TYPE, MAIN = f"{SCHEMAS}/package/2006", f"{SCHEMAS}/officeDocument/2006/relationships", f"{SCHEMAS}/spreadsheetml/2006/main"
NAMED = [text("anchor"), text("href"), text("title")]
FORMULA = '<c t="str"><f>"https://shop.example/"&amp;"p"</f><v>https://shop.example/p</v></c>'
# a formula with its last value, without one, and with an error; true; and a number
FORMULAS = [
    NAMED,
    [text(ITEM), FORMULA],
    [text(f"{ITEM}/10/A"), "<c><f>A1</f></c>"],
    [text(f"{ITEM}/10/B"), '<c t="e"><f>1/0</f><v>#DIV/0!</v></c>'],
    [text(f"{ITEM}/10/C"), '<c t="b"><v>1</v></c>'],
    [text(f"{ITEM}/10/D"), text(PAGE), "<c><v>7</v></c>"],
]
HEAD = "anchor,href,linkType,hreflang\n"
# tables, each with further words, and the row, column and word of each fault
Faults = list[tuple[int, str, str]]
WRONG: list[tuple[str, list[str], Faults]] = [
    ("anchor,page,href,HREF,17,8040,1\n", [], [(1, "page", "column"), (1, "HREF", "column"), (1, "17", "column"), (1, "8040", "column"), (1, "1", "column")]),
    ("anchor,href\n", [], [(1, "href", "empty")]),
    ("anchor,href\n", [], [(1, "href", "empty")]),
    ("title,10,# 01\nA,B,C\n", [], [(1, "anchor", "column"), (1, "href", "column")]),
    (f"01,href,,\n09506000134352,{PAGE},,x\n", [], [(2, "D", "column")]),
    (f"01,10,href\n09506000134352,1.20E+05,{PAGE}\n,,{PAGE}\n,A,{PAGE}\n", [], [(2, "10", "power"), (3, "01", "key"), (4, "01", "key")]),
    (f"00,01,href\n106141412345678908,09506000134352,{PAGE}\n", [], [(2, "01", "keys")]),
    (f"01,254,href\n09506000134352,A,{PAGE}\n", [], [(2, "254", "attributes")]),
    (f"anchor,10,href\n{ITEM},A,{PAGE}\n{ITEM}?17=261231,,{PAGE}\n", [], [(2, "anchor", "anchors"), (3, "anchor", "attributes")]),
    (f"{HEAD}/01/1,{PAGE}\n(01)09506000134352(21)A B,{PAGE}\n0109506000134353,{PAGE}\nhttps://a.example/,{PAGE}\n\"/01\n/1\",{PAGE}\n", [],
     [(2, "anchor", "length"), (3, "anchor", "space"), (4, "anchor", "check"), (5, "anchor", "path"), (6, "anchor", "space")]),
    (f"{HEAD}{ITEM},https://shop.example/ü,a b,en;de\n{ITEM},,Gs1:pip,english_language\n{ITEM},{'x' * 2_049},anchor,#N/A\n", [],
     [(2, "href", "bad-href"), (2, "linkType", "link-type"), (2, "hreflang", "language"), (3, "href", "bad-href"), (3, "linkType", "link-type"),
      (3, "hreflang", "language"), (4, "href", "bad-href"), (4, "linkType", "link-type"), (4, "hreflang", "formula")]),
    (f"{HEAD}{ITEM},{PAGE}\n(01)09506000134352,{PAGE}\n{ITEM},{PAGE},https://ref.gs1.org/voc/pip\n{ITEM},{PAGE},gs1:pip\n", [],
     [(3, "href", "duplicate"), (5, "href", "duplicate")]),
    (f"{HEAD}{ITEM},{PAGE}/1,,en de\n{ITEM},{PAGE}/2,,fr DE\n{ITEM},{PAGE}/3\n{ITEM}/10/A,{PAGE}/4\n{ITEM},{PAGE}/5,gs1:pip\n{ITEM},{PAGE}/6,gs1:pip\n", [],
     [(3, "linkType", "default-link"), (4, "linkType", "default-link")]),
    (f"{HEAD}{ITEM},{PAGE}?{{01}}{{10}}\n{ITEM}/10/A,{PAGE}?{{1}}\n{ITEM}/10/B,{PAGE}?{{254}}\n", ["--templates", "yes"],
     [(3, "href", "brace"), (4, "href", "place")]),
    (f"{HEAD}{ITEM},{PAGE}/1,,en\n{ITEM},{PAGE}/2,https://voc.example/defaultLink,EN\n", ["--voc", "https://voc.example/"], [(3, "linkType", "default-link")]),
    ("anchor,linkType,href\n" + "".join(f"{ITEM},gs1:pip,{PAGE}/{number}\n" for number in range(65_537)), [], [(2, "href", "too-many")]),
]
ROWS_OF_TRIAL = [(3, "01", "check"), (4, "01", "power"), (5, "10", "char"), (6, "linkType", "default-link"), (6, "href", "bad-href"), (7, "01", "key"),
                 (8, "href", "duplicate"), (9, "01", "check")]
CELLS_OF_TYPES = [(5, "10", "number"), (6, "10", "date"), (7, "01", "number")]
Wrong = tuple[str, bytes, list[str], Faults]
BOOKS_OF_ROWS: list[Wrong] = [
    ("cells.xlsx", (DATA / "cells_of_types.xlsx").read_bytes(), [], CELLS_OF_TYPES),
    ("formulas.XLSX", workbook(("links", FORMULAS)), [], [(3, "href", "formula"), (4, "href", "formula"), (5, "href", "truth"), (6, "title", "number")]),
]
TABLES_OF_ROWS: list[Wrong] = [
    *((f"wrong{number}.csv", content.encode("utf-8"), more, faults) for number, (content, more, faults) in enumerate(WRONG)),
    ("rows.csv", (DATA / "wrong_rows.csv").read_bytes(), [], ROWS_OF_TRIAL),
]


def of_books(*cases: Any) -> list[Any]:
    """Returns cases of a test that need openpyxl."""
    return [pytest.param(*case, id=case[0], marks=pytest.mark.needs(OPENPYXL)) for case in cases]


def faults_in(told: str) -> list[Any]:
    """Returns the row, column and word of each line but the last, or the line itself."""
    found = [(line, FAULT.fullmatch(line)) for line in told.splitlines()[:-1]]
    return [(int(it[1]), it[2], it[3]) if it else line for line, it in found]


@pytest.mark.parametrize("name, content, more, wanted", [*(pytest.param(*case, id=case[0]) for case in TABLES_OF_ROWS), *of_books(*BOOKS_OF_ROWS)])
def test_names_each_wrong_row(tables: Tables, name: str, content: bytes, more: list[str], wanted: Faults) -> None:
    status, output, told = tables.run(tables.put(name, content), "-o", "out.json", *more)
    assert (status, output, faults_in(told)) == (1, "", wanted)
    last = told.splitlines()[-1]
    assert last.startswith("nothing is written: ") and last.endswith(f"{len({row for row, _, _ in wanted}):,} rejected")
    assert not (tables.room / "out.json").exists()


def test_each_word_of_the_messages_is_tried() -> None:
    documented = {message.split(": ")[1] for message, _ in messages() if message.startswith("row ")}
    # (those of anchors are the reasons of elements)
    of_elements = {message.split(" ")[1] for message, _ in messages() if message.startswith("no ")}
    words = {word for case in (*TABLES_OF_ROWS, *BOOKS_OF_ROWS) for _, _, word in case[3]}
    assert words - (of_elements - documented) == documented


# Tables that are accepted


def draw(count: int, chance: random.Random) -> list[list[str]]:
    """Draws links of some items: anchor, page, link type, languages, title and type, those of one item and type next to each other."""
    links = []
    for number in range(count):
        item, place = divmod(number, 6)
        anchor = path_of(item) + (f"/10/L{item % 97}" if place > 3 else "")
        relation = ["gs1:defaultLink", "gs1:defaultLink", "gs1:pip", "related", "gs1:defaultLink", "https://voc.example/x"][place]
        languages = ["en", "de de-AT", "", "fr", "", "ja"][place]
        title = chance.choice(["", "Äpfel", 'Apples, "red"', " two\nlines; and a tab\t", "=1+1", "日本"])
        links.append([anchor, f"https://shop.example/{place}/{number}", relation, languages, title, chance.choice(["", "text/html"])])
    return links


def linkset_of(links: list[list[str]]) -> dict[str, Any]:
    """Returns a linkset of these links."""
    contexts: dict[str, dict[str, Any]] = {}
    for anchor, href, relation, languages, title, media in links:
        target = {"href": href, "hreflang": languages.split(), "title": title, "type": media}
        contexts.setdefault(anchor, {}).setdefault(relation, []).append({name: value for name, value in target.items() if value})
    return {"linkset": [{"anchor": anchor, **relations} for anchor, relations in contexts.items()]}


def table_of(links: list[list[str]], delimiter: str = ",") -> str:
    """Returns a table of links."""
    into = io.StringIO(newline="")
    csv.writer(into, delimiter=delimiter).writerows([NAMES, *links])
    return into.getvalue()


SPELLED = [["(10)A/7b(01)09506000134352", PAGE, "", "en", "Äpfel", ""], [f"https://a.example{ITEM}", PAGE, "https://ref.gs1.org/voc/pip", "", "", ""],
           ["0109506000134352", PAGE, "gs1:hasRetailers", "", "a", "text/html"]]
BY_ELEMENTS = "HREF,21,10,# a remark,01,LinkType,Title,hreflang,type\r\n" + "".join(
    f"{href},,{'A/7b' if place == 0 else ''},x,{'9506000134352' if place else '09506000134352'},{relation},{title}, {languages} ,{media}\n"
    for place, (_, href, relation, languages, title, media) in enumerate(SPELLED))


@pytest.mark.parametrize("content", (
    pytest.param(table_of(SPELLED), id="commas"), pytest.param(table_of(SPELLED, ";"), id="semicolons"), pytest.param(table_of(SPELLED, "\t"), id="tabs"),
    pytest.param("\ufeff" + table_of(SPELLED), id="a mark"), pytest.param(table_of(SPELLED).replace("\r\n", "\n"), id="line feeds"),
    pytest.param(table_of(SPELLED).replace("\r\n", "\r\n,,,,,\r\n\r\n"), id="empty rows"), pytest.param(BY_ELEMENTS, id="elements"),
))
def test_a_table_in_each_spelling_gives_one_linkset(tables: Tables, content: str) -> None:
    status, output, told = tables.run(tables.put("spelled.csv", content))
    assert status == 0, told
    assert json.loads(output) == linkset_of([[f"{ITEM}/10/A%2F7b", PAGE, "gs1:defaultLink", "en", "Äpfel", ""], [ITEM, PAGE, "gs1:pip", "", "", ""],
                                             [ITEM, *SPELLED[2][1:]]])


@pytest.mark.needs(OPENPYXL)
def test_reads_a_named_sheet_with_a_formula(tables: Tables) -> None:
    tables.put("sheets.xlsx", workbook(("other", [[text("x")]]), ("links", [NAMED, [text(ITEM), FORMULA]])))
    status, output, told = tables.run("sheets.xlsx", "--sheet", "links")
    assert status == 0, told
    assert json.loads(output) == linkset_of([[ITEM, PAGE, "gs1:defaultLink", "", "", ""]])


@pytest.mark.parametrize("back", ("back.csv", pytest.param("back.xlsx", marks=pytest.mark.needs(OPENPYXL))))
def test_large_tables_there_and_back(tables: Tables, back: str) -> None:
    links = draw(ROWS, random.Random(1))
    wanted = linkset_of(links)
    there = f"{ROWS:,} rows, {len(wanted['linkset']):,} anchors, 0 rejected"
    tables.put("large.csv", table_of(links))
    for words, told in ((["large.csv", "-o", "large.json"], there), (["--back", "large.json", "-o", back], f"{ROWS:,} rows"), ([back, "-o", "again.json"], there)):
        spent = costs([PYTHON, "-m", "tdl", "links", *words], cwd=tables.room, env=tables.env)
        assert (spent.status, spent.errors) == (0, [told])
        assert spent.memory < MOST_MEMORY, words
    assert json.loads((tables.room / "large.json").read_text("utf-8")) == wanted or pytest.fail("the linkset differs")
    for name, same in (("again.json", "large.json"), *([("back.csv", "large.csv")] if back == "back.csv" else [])):
        assert (tables.room / name).read_bytes() == (tables.room / same).read_bytes() or pytest.fail(f"{name} differs from {same}")


# Linksets


def drawn_linkset(chance: random.Random) -> dict[str, Any]:
    """Draws a linkset with what a store keeps, ignores and renames."""
    contexts = []
    for _ in range(chance.randint(0, 12)):
        path = path_of(chance.randint(0, 5)) + chance.choice(["", "/10/A%2Fb", "/21/x"])
        context: dict[str, Any] = {"anchor": chance.choice(["", "https://a.example/x", "http://id.gs1.org"]) + path}
        for _ in range(chance.randint(0, 4)):
            name = chance.choice(["gs1:pip", "https://ref.gs1.org/voc/pip", "gs1:defaultLinkMulti", "related", "urn:x:y"])
            context[name] = [drawn_target(chance) for _ in range(chance.randint(0, 3))]
        contexts.append({**context, **drawn_one([{}, {"note": "x"}, {"related ": 1}], chance)})
    return {"linkset": contexts, **drawn_one([{}, {"more": [1]}], chance)}


def drawn_one(choices: list[dict[str, Any]], chance: random.Random) -> dict[str, Any]:
    """Draws one of some choices."""
    return chance.choice(choices)


def drawn_target(chance: random.Random) -> dict[str, Any]:
    """Draws a target whose reference is its own, as those of a table are."""
    target: dict[str, Any] = {"href": f"https://shop.example/{chance.getrandbits(40)}"}
    if chance.random() < 0.5:
        target["hreflang"] = chance.choice([["en"], ["de", "fr"], "en", 5])
    if chance.random() < 0.5:
        target["title"] = chance.choice(["a, b", 'c"', " d\r\n", "Äpfel", 7])
    return {**target, **drawn_one([{}, {"type": "text/html"}, {"type": ["x"]}, {"media": 1}, {"other": "text"}], chance)}


@pytest.mark.parametrize("number", range(8))
def test_linksets_become_tables_and_the_same_links(tables: Tables, number: int) -> None:
    linkset = json.dumps(drawn_linkset(random.Random(number)))
    table = tables.run("--back", tables.put("drawn.json", linkset))[1]
    first = tables.run(tables.put("drawn.csv", table), "--empty", "yes")[1]
    again = tables.run("--back", tables.put("first.json", first))[1]
    second = tables.run(tables.put("again.csv", again), "--empty", "yes")[1]
    assert first and tables.links(first) == tables.links(linkset)
    assert second == first
    assert sorted(again.splitlines()) == sorted(table.splitlines())


@pytest.mark.parametrize("relations, wanted, part", (
    ({"a b": [{"href": "x", "media": "print"}], "c": [{"href": "y", "title*": [{"value": "z"}]}]}, 2,
     "/linkset/0/a b/0: there is no column for 'media'\n/linkset/0/c/0: there is no column for 'title*'"),
    ({"": [{"href": "x"}]}, 2, "/linkset/0//0: the link type is empty"),
    ({" a/": [{"href": "x", "hreflang": ["en us"], "type": " t"}]}, 2, "/linkset/0/ a~1/0: the link type is empty, or begins or ends with a space"),
    ({"r": [{"href": ""}]}, 3, "the file of --back is rejected: bad-href 0 0 0"),
), ids=("members", "no link type", "spaces", "no page"))
def test_names_what_a_table_cannot_hold(tables: Tables, relations: dict[str, Any], wanted: int, part: str) -> None:
    linkset = json.dumps({"linkset": [{"anchor": ITEM, **relations}]})
    status, output, told = tables.run("--back", tables.put("unfit.json", linkset), "-o", "unfit.csv")
    assert (status, output) == (wanted, "") and part in told, told
    assert not (tables.room / "unfit.csv").exists()


def test_more_links_go_to_tdl_shard(tables: Tables) -> None:
    links = [[path_of(number), f"https://shop.example/{number}", "gs1:defaultLink", "", "", ""] for number in range(65_537)]
    tables.put("more.csv", table_of(links))
    told = tables.run("more.csv", "-o", "more.json")[2].splitlines()
    advice = "One process serves 65,536 links in 16,777,216 bytes. Split them: tdl-shard --shards auto --out DIR more.json"
    assert told == ["65,537 rows, 65,537 anchors, 0 rejected", advice]
    _, shards = run(SHARD, "--shards", "auto", "--out", "shards", "more.json", cwd=tables.room, env=tables.env)
    assert shards.startswith("shards 2 links 65537 "), shards
    tables.run("--back", "more.json", "-o", "back.csv")
    assert (tables.room / "back.csv").read_bytes() == (tables.room / "more.csv").read_bytes()


# Templates, files and ends


def test_templates_are_judged_as_the_program_judges_each_alone(tables: Tables) -> None:
    chance = random.Random(3)
    pieces = ["{01}", "{10}", "{21}", "{22}", "{254}", "{", "}", "{0}", "{00001}", "{A}", "x", "{{01}}", "%7B", "{17}"]
    hrefs = [f"https://a.example/{number}?" + "".join(chance.choices(pieces, k=chance.randint(0, 3))) for number in range(80)]
    anchors = [chance.choice([ITEM, f"{ITEM}/10/A", "/414/9506000134352", "/8004/09506000A"]) for _ in hrefs]
    links = [[anchor, href, "gs1:pip", "", "", ""] for anchor, href in zip(anchors, hrefs)]
    wanted = []
    for row, link in enumerate(links, 2):
        tables.put("one.json", json.dumps(linkset_of([link])))
        judged = printed(tables.program, "check", "--templates", "yes", "--links", "one.json", cwd=tables.room)
        wanted += [(row, "href", judged.split(" ")[2])] if judged.startswith("refused ") else []
    assert 10 < len(wanted) < 70
    assert faults_in(tables.run(tables.put("templates.csv", table_of(links)), "--templates", "yes")[2]) == wanted


@pytest.mark.parametrize("name, content, words, part", (
    ("table.csv", b"\xff\xfe0\x001\x00", [], "table.csv is UTF-16: save it as CSV in UTF-8"),
    ("table.csv", b"01,href\n09506000134352,https://shop.example/\xfc\n", [], "line 2 is not UTF-8"),
    ("table.csv", b'01,href\n"09506000134352,https://shop.example/\n', [], "row 2 is not CSV"),
    ("table.csv", b"\n , \n", [], "table.csv is empty"),
    ("table.csv", b"PK\x03\x04", [], "table.csv is a workbook"),
    ("table.csv", b"01,href\n", ["--sheet", "links"], "--sheet is an option for workbooks"),
    ("table.csv", b"01,href\n", ["--tables", "table.csv"], "the file of --tables is rejected: json syntax"),
    ("table.csv", b"01,href\n", ["--empty", "yes", "-o", "no/out.json"], "No such file or directory"),
    *of_books(
        ("table.xlsx", b"01,href\n", [], "table.xlsx is not an XLSX workbook"),
        ("table.xlsx", workbook(("one", FORMULAS), ("two", [])), ["--sheet", "three"], "table.xlsx: it has no sheet three: it has one, two"),
    ),
), ids=lambda part: part if isinstance(part, str) else "")
def test_names_a_file_that_is_no_table(tables: Tables, name: str, content: bytes, words: list[str], part: str) -> None:
    tables.put("out.json", "before")
    status, output, told = tables.run(tables.put(name, content), "-o", "out.json", *words)
    assert status in (2, 3, 4) and not output and part in told, told
    assert (tables.room / "out.json").read_text("ascii") == "before"


def test_names_the_package_that_a_workbook_needs(tables: Tables) -> None:
    without = "import sys; sys.modules['openpyxl'] = None; from tdl.__main__ import main; sys.exit(main(['links', '--back', 'links.json', '-o', 'x.xlsx']))"
    tables.put("links.json", '{"linkset":[]}')
    status, told = run(sys.executable, "-c", without, cwd=tables.room, env=tables.env)
    assert status == 2 and "Debian's package python3-openpyxl" in told and "Traceback" not in told, told


@pytest.mark.parametrize("number", (signal.SIGTERM, signal.SIGINT, signal.SIGKILL), ids=lambda number: str(number.name))
def test_leaves_no_file_if_it_is_ended(tables: Tables, number: signal.Signals) -> None:
    place, waits = tables.room / "ended", tables.room / "waits"
    place.mkdir()
    (place / "table.csv").write_text(f"anchor,href\n{ITEM},{PAGE}\n", "ascii")
    os.mkfifo(tables.room / "begun")
    waiting = os.open(tables.room / "begun", os.O_RDWR)
    waits.write_text(f'#!/bin/sh\ncase "$*" in *--links*) echo > {tables.room}/begun; exec sleep 1000 ;; esac\nexec {tables.program} "$@"\n', "ascii")
    waits.chmod(0o755)
    # (a signal that this process was started to ignore would be ignored by the run too)
    own = None if number == signal.SIGKILL else partial(signal.signal, number, signal.SIG_DFL)
    how: dict[str, Any] = {"stderr": subprocess.PIPE, "start_new_session": True, "preexec_fn": own}
    with begun(PYTHON, "-m", "tdl", "links", "table.csv", "-o", "out.json", cwd=place, env={**tables.env, "TDL": str(waits)}, **how) as process:
        if waiting in select([waiting, process.stderr], [], [])[0]:
            os.read(waiting, 1)
        os.killpg(process.pid, number)
        status = process.wait()
    os.close(waiting)
    assert status and os.listdir(place) == ["table.csv"]
