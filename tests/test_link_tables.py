"""Tables of links: what would empty a resolver, or lose a link, is named before it is served."""
import json
from pathlib import Path
from typing import Any

import pytest

from tests import workbooks
from tests.link_files import ITEM, PAGE, Links, linkset_of
from tests.workbooks import number, row, text
from tools.messages import DOCUMENT

HEAD = "anchor,href,linkType,hreflang,type\n"


@pytest.fixture
def links(program: Path, module: dict[str, str], tmp_path: Path) -> Links:
    """The command in a folder of its own."""
    return Links(program, module, tmp_path)


def words_of(told: list[str]) -> list[tuple[str, str]]:
    """Returns the row and the word of each line of faults or doubts."""
    split = [line.removeprefix("warning: ").split(": ") for line in told if ", column " in line]
    return [(parts[0].split(",")[0], parts[1]) for parts in split]


# a cell is one anchor


@pytest.mark.parametrize("cell, shown", [
    (f"{ITEM}\n/01/09506000134369", "a line break at character 18"),
    (f"{ITEM} {ITEM}", "a space at character 18"),
    (f"https://a.example/x\t{ITEM}", "'\\t' at character 19"),
    (f"https://a.example/x\u00a0{ITEM}", "'\\xa0' at character 19"),
    ("(01)09506000134352\n(01)09506000134369", "a line break at character 18"),
    ("(01)09506000134352(10)A B", "a space at character 23"),
])
def test_one_anchor(links: Links, cell: str, shown: str) -> None:
    """White space in an anchor is a named fault: what stands behind it may be another."""
    ran = links.run(links.put("table.csv", f'{HEAD}"{cell}",{PAGE}\n'), "-o", "out.json")
    assert ran.status == 1 and not (links.folder / "out.json").exists()
    assert ran.told[0].startswith(f"row 2, column anchor: space: a cell names one item, and here is {shown}"), ran.told


def test_one_element(links: Links) -> None:
    """White space in an element is a named fault too."""
    ran = links.run(links.put("table.csv", f"01,10,href\n09506000134352,A B,{PAGE}\n"))
    assert (ran.status, words_of(ran.told)) == (1, [("row 2", "space")])


# workbooks


def test_workbook_bounds(links: Links) -> None:
    """A workbook beyond the bounds is named with what is beyond."""
    rows = [row(text("anchor"), text("href")), row(text(ITEM), text(PAGE), place=4_000_000_000)]
    ran = links.run(links.put("book.xlsx", workbooks.workbook({"one": rows})))
    assert ran.status == 2 and ran.told[0].endswith("sheet one: row 4,000,000,000 is beyond 1,048,576, the last that a sheet has: "
                                                    "save it in a spreadsheet program"), ran


@pytest.mark.parametrize("rows", [[2, 2], [3, 2]])
def test_workbook_rows(links: Links, rows: list[int]) -> None:
    """Repeated and descending row numbers are named, and no row is dropped."""
    those = [row(text("anchor"), text("href"), place=1), *(row(text(f"{ITEM}/10/{place}"), text(PAGE), place=number) for place, number in enumerate(rows))]
    ran = links.run(links.put("book.xlsx", workbooks.workbook({"one": those})))
    assert ran.status == 2 and f"row {rows[1]} is behind row {rows[0]}" in ran.told[0], ran


@pytest.mark.parametrize("folder", ["worksheets", "pages", "../elsewhere"])
def test_formulas(links: Links, folder: str) -> None:
    """A formula without a saved value is named wherever the sheet lies."""
    rows = [row(text("anchor"), text("href"), text("title")), row(text(ITEM), text(PAGE), "<c><f>A1</f></c>")]
    ran = links.run(links.put("book.xlsx", workbooks.workbook({"one": rows}, folder)))
    assert (ran.status, words_of(ran.told)) == (1, [("row 2", "formula")])


# (06141411234 is a GTIN-12 without its check digit; 9506000134353 has a wrong one; 95060001343520 has a digit more)
@pytest.mark.parametrize("value, is_taken", [
    ("9506000134352", True), ("9.506000134352E12", True), ("9506000134353", False), ("614141123452", False), ("95060001343520", False), ("123", False),
])
def test_numbers(links: Links, value: str, is_taken: bool) -> None:
    """A cell with a number is taken only if its 13 digits and check digit prove that it lost none."""
    rows = [row(text("01"), text("href")), row(number(value), text(PAGE))]
    found = links.linkset(workbooks.workbook({"one": rows}), name="book.xlsx")
    assert (ITEM in found) == is_taken, found


def test_number_of_lot(links: Links) -> None:
    """A number in another column is named, whatever its digits are."""
    rows = [row(text("01"), text("10"), text("href")), row(text("09506000134352"), number("9506000134352"), text(PAGE))]
    ran = links.run(links.put("book.xlsx", workbooks.workbook({"one": rows})))
    assert (ran.status, words_of(ran.told)) == (1, [("row 2", "number")])


# what is doubtful


def test_empty(links: Links) -> None:
    """A table without rows is refused unless --empty says yes."""
    ran = links.run(links.put("table.csv", HEAD), "-o", "out.json")
    assert (ran.status, words_of(ran.told)) == (1, [("row 1", "empty")]) and not (links.folder / "out.json").exists()
    assert links.run("table.csv", "--empty", "yes")[:2] == (0, '{"linkset":[\n\n]}\n')


DOUBTS: dict[str, tuple[str, list[tuple[str, str]]]] = {
    "a default link": (f"{ITEM},{PAGE},,,\n{ITEM},{PAGE},gs1:pip,,\n", []),
    "no default link": (f"{ITEM},{PAGE},gs1:pip,,\n{ITEM},{PAGE}/2,related,,\n", [("row 2", "no-default")]),
    "the item's default link": (f"{ITEM},{PAGE},,,\n{ITEM}/10/A,{PAGE},gs1:pip,,\n{ITEM}/10/A/21/B,{PAGE},gs1:pip,,\n", []),
    "another lot's default link": (f"{ITEM}/10/B,{PAGE},,,\n{ITEM}/10/A,{PAGE},gs1:pip,,\n", [("row 3", "no-default")]),
    "several default links": (f"{ITEM},{PAGE},gs1:defaultLinkMulti,,\n", [("row 2", "no-default")]),
    "a mistyped type": (f"{ITEM},{PAGE},,,\n{ITEM},{PAGE},gs1:pipp,,\n", [("row 3", "unknown-type")]),
    "a type without its prefix": (f"{ITEM},{PAGE},,,\n{ITEM},{PAGE},pip,,\n", [("row 3", "unknown-type")]),
    "registered types and URIs": (f"{ITEM},{PAGE},,,\n{ITEM},{PAGE},alternate,,\n{ITEM},{PAGE},https://voc.example/x,,\n", []),
    "one page for all": (f"{ITEM},{PAGE},,,\n{ITEM},{PAGE}/1,gs1:pip,en,text/html\n{ITEM},{PAGE}/2,gs1:pip,EN,text/html\n", [("row 4", "double")]),
    "pages by media type": (f"{ITEM},{PAGE},,,\n{ITEM},{PAGE}/1,gs1:pip,en,text/html\n{ITEM},{PAGE}/2,gs1:pip,en,text/plain\n", []),
}


@pytest.mark.parametrize("rows, wanted", DOUBTS.values(), ids=DOUBTS)
def test_doubts(links: Links, rows: str, wanted: list[tuple[str, str]]) -> None:
    """What is doubtful is a warning, and with --strict a fault."""
    links.put("table.csv", HEAD + rows)
    ran, strict = links.run("table.csv"), links.run("table.csv", "--strict", "-o", "out.json")
    assert (ran.status, bool(ran.output), words_of(ran.told)) == (0, True, wanted)
    assert (strict.status, words_of(strict.told)) == (int(bool(wanted)), wanted)
    assert (links.folder / "out.json").exists() == (not wanted)


@pytest.mark.parametrize("relation, nearest", [("gs1:pipp", "gs1:pip"), ("pip", "gs1:pip"), ("gs1:hasretailers", "gs1:hasRetailers"), ("alternat", "alternate")])
def test_nearest(links: Links, relation: str, nearest: str) -> None:
    """A link type that is not known is named with the nearest that is."""
    told = links.run(links.put("table.csv", f"{HEAD}{ITEM},{PAGE},,,\n{ITEM},{PAGE},{relation},,\n")).told
    assert any(f"; the nearest is {nearest}: {relation}" in line for line in told), told


def test_many_doubts(links: Links) -> None:
    """Of many doubts of one word the first twenty are told in full, with the number of the others; --strict names all."""
    links.put("table.csv", HEAD + "".join(f"{ITEM}/10/{lot},{PAGE},gs1:pip,,\n" for lot in range(50)))
    told = links.run("table.csv").told
    assert len(words_of(told)) == 20 and "warning: 30 more rows: no-default" in told
    assert len(words_of(links.run("table.csv", "--strict").told)) == 50


def test_documented() -> None:
    """docs/MESSAGES.md explains each word."""
    page = DOCUMENT.read_text("utf-8")
    for line in ("row R, column C: space", "row R, column C: empty", *(f"warning: row R, column C: {word}" for word in ("no-default", "unknown-type", "double"))):
        assert f"| `{line}` |" in page, line


# other tables


def test_columns(links: Links) -> None:
    """--column names the columns of a table with other headers, and # leaves one out."""
    table = f"GTIN;Page;Language;Owner\n09506000134352;{PAGE};en;Ann\n"
    found = links.linkset(table, "--column", "01=gtin", "--column", "href=page", "--column", "hreflang=language", "--column", "#=Owner")
    assert found == {ITEM: {"gs1:defaultLink": [{"href": PAGE, "hreflang": ["en"]}]}}
    ran = links.run("table.csv", "--column", "01=ean", "--column", "href=page")
    assert ran.status == 1 and any(line.startswith("row 1, column ean: column: the table has no column of this name") for line in ran.told), ran
    assert links.run("table.csv", "--column", "nothing=gtin").status == 2


def test_resolver_ce(links: Links) -> None:
    """The columns of GS1 Resolver CE's import are taken as the page lists them."""
    table = f"anchor,linktype,targetUrl,linkTitle,ianaLanguage,context,mimetype,title*\n{ITEM},gs1:pip,{PAGE},Apples,de,at ch,text/html,Äpfel\n"
    wanted: dict[str, Any] = {"href": PAGE, "hreflang": ["de"], "title": "Apples", "type": "text/html", "context": ["at", "ch"]}
    assert links.linkset(table) == {ITEM: {"gs1:pip": [{**wanted, "title*": [{"value": "Äpfel", "language": "de"}]}]}}


def test_most_rows(links: Links) -> None:
    """A table of more rows than the limit is named."""
    ran = links.run(links.put("table.csv", HEAD + "\n" * 1_048_576))
    assert ran.status == 2 and "table.csv has more than 1,048,576 rows: split it" in ran.told[0], ran


@pytest.mark.whole
def test_a_million_rows(links: Links) -> None:
    """A table of a million rows takes the memory that docs/LIMITS.md says."""
    from tools.measures import costs, path_of

    with (links.folder / "table.csv").open("w", encoding="ascii") as stream:
        stream.write("anchor,href\n")
        stream.writelines(f"{path_of(number)},https://shop.example/products/{number}\n" for number in range(1_000_000))
    spent = costs(["/usr/bin/python3", "-m", "tdl", "links", "table.csv", "-o", "out.json"], cwd=links.folder, env=links.module)
    assert spent.status == 0 and spent.memory < 2048, spent


# merging


A: dict[str, Any] = {ITEM: {"gs1:defaultLink": [{"href": "https://a.example/"}], "gs1:pip": [{"href": PAGE}]}}


def merged(links: Links, *words: str) -> Any:
    """Returns what a merge of the files writes, by anchor and relation."""
    ran = links.run("--merge", *words)
    return ran, {context.pop("anchor"): context for context in json.loads(ran.output)["linkset"]} if ran.output else {}


def test_merge_agrees(links: Links) -> None:
    """Two default links of an item are named, and --prefer says which stays."""
    links.put("a.json", linkset_of(A))
    links.put("b.csv", f"{HEAD}{ITEM},https://b.example/,,,\n{ITEM},{PAGE},gs1:pip,,\n{ITEM}/10/A,https://b.example/lot,,,\n")
    ran, found = merged(links, "a.json", "b.csv", "-o", "out.json")
    assert ran.status == 1 and not (links.folder / "out.json").exists()
    assert ran.told[0].startswith(f"{ITEM}: default-link: a.json and b.csv each have a default link"), ran
    for prefer, stays in (("a.json", "https://a.example/"), ("./b.csv", "https://b.example/")):
        ran, found = merged(links, "a.json", "b.csv", "--prefer", prefer)
        assert ran.status == 0 and any(line.startswith(f"warning: {ITEM}: default-link: ") for line in ran.told), ran
        assert found[ITEM]["gs1:defaultLink"] == [{"href": stays}]
        assert found[ITEM]["gs1:pip"] == [{"href": PAGE}] and found[f"{ITEM}/10/A"]["gs1:defaultLink"] == [{"href": "https://b.example/lot"}]
    assert links.run("--merge", "a.json", "b.csv", "--prefer", "c.json").status == 2


def test_merge_languages(links: Links) -> None:
    """Default links that languages tell apart stay beside each other; one without a language clashes with all."""
    each: dict[str, list[str]] = {"a": ["en"], "b": ["de"], "c": ["DE", "fr"], "d": []}
    for name, languages in each.items():
        target: dict[str, Any] = {"href": f"https://{name}.example/", "hreflang": languages}
        links.put(f"{name}.json", linkset_of({ITEM: {"gs1:defaultLink": [target]}}))
    statuses = [merged(links, *those)[0].status for those in (("a.json", "b.json"), ("a.json", "c.json"), ("b.json", "c.json"), ("a.json", "d.json"))]
    assert statuses == [0, 0, 1, 1]
    found = merged(links, "a.json", "b.json", "d.json", "--prefer", "d.json")[1]
    assert found[ITEM]["gs1:defaultLink"] == [{"href": "https://d.example/"}]


def test_merge_is_that_of_the_program(links: Links) -> None:
    """Without a clash the links are those of `tdl merge`."""
    from tools.common import printed

    target = {"href": PAGE, "hreflang": ["en"], "title*": [{"value": "Äpfel", "language": "de", "x": 1}], "media": "print", "note": ["x"]}
    one: dict[str, Any] = {ITEM: {"gs1:defaultLink": [target]}}
    two: dict[str, Any] = {f"https://a.example{ITEM}/10/A": {"https://ref.gs1.org/voc/pip": [{"href": PAGE}]}, ITEM: one[ITEM]}
    contents: dict[str, dict[str, Any]] = {"one.json": one, "two.json": two, "none.json": {}}
    for name, content in contents.items():
        links.put(name, linkset_of(content))
    wanted = printed(links.program, "merge", "--links", "one.json", "--second", "two.json", cwd=links.folder)
    links.put("merged.json", merged_text(links, "one.json", "two.json"))
    assert printed(links.program, "merge", "--links", "merged.json", "--second", "none.json", cwd=links.folder) == wanted


def merged_text(links: Links, *files: str) -> str:
    """Returns the linkset of a merge."""
    return links.run("--merge", *files).output
