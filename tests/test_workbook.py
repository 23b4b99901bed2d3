"""The reader of workbooks: what it reads of a sheet, what it names, and what that costs."""
import io
import resource
import subprocess
import sys
import zipfile
from pathlib import Path
from typing import Optional

import pytest

from tdl.workbook import NotAWorkbook, Row, Workbook
from tests import workbooks
from tests.workbooks import DATED, number, row, text

# what a small workbook may cost, whatever is packed in it: seconds of processor time, and bytes of memory
SECONDS, MEMORY = 60, 512 << 20
READ = "import sys, tdl.workbook as w\nwith w.Workbook(sys.argv[1]) as book:\n    print(sum(1 for _ in book.rows()))"


def read(folder: Path, content: bytes, sheet: Optional[str] = None) -> list[Row]:
    """Returns the rows of a workbook."""
    path = folder / "book.xlsx"
    path.write_bytes(content)
    with Workbook(str(path)) as book:
        return list(book.rows(sheet))


def cells(folder: Path, *those: str, shared: Optional[str] = None) -> list[tuple[int, str, str]]:
    """Returns the cells of a row."""
    (only,) = read(folder, workbooks.workbook({"one": [row(*those)]}, shared=shared))
    return [(cell.place, cell.kind, cell.text) for cell in only.cells]


KINDS = [
    (text("a &lt; b"), "text", "a < b"),
    (number("9506000134352"), "number", "9506000134352"),
    (number("9.506000134352E12"), "number", "9506000134352"),
    (number("1.5"), "number", "1.5"),
    (number("-0.0"), "number", "0"),
    (number("1E300"), "number", "1E300"),
    (f'<c s="{DATED}"><v>46307</v></c>', "date", "2026-10-12"),
    (f'<c s="{DATED}"><v>46307.25</v></c>', "date", "2026-10-12 06:00:00"),
    ('<c t="d"><v>2026-10-12</v></c>', "date", "2026-10-12"),
    ('<c t="b"><v>1</v></c>', "boolean", "TRUE"),
    ('<c t="b"><v>0</v></c>', "boolean", "FALSE"),
    ('<c t="e"><f>1/0</f><v>#DIV/0!</v></c>', "error", "#DIV/0!"),
    ('<c t="str"><f>A1&amp;"x"</f><v>x</v></c>', "text", "x"),
    ("<c><v>7</v><f>A1</f></c>", "number", "7"),
    ("<c><f>A1</f></c>", "formula", "=A1"),
    ("<c><f>A1</f><v/></c>", "formula", "=A1"),
    ('<c><f t="shared" si="0"/></c>', "formula", "="),
    ('<c t="inlineStr"><is><r><t>Äp</t></r><r><t>fel</t></r><rPh sb="0" eb="1"><t>said</t></rPh></is></c>', "text", "Äpfel"),
    (text("a_x000D_b_x005F_x0041_"), "text", "a\rb_x0041_"),
]


@pytest.mark.parametrize("cell, kind, shown", KINDS)
def test_kinds(tmp_path: Path, cell: str, kind: str, shown: str) -> None:
    """A cell has the kind and the text that the format gives it."""
    assert cells(tmp_path, cell) == [(0, kind, shown)]


@pytest.mark.parametrize("cell", ["<c/>", '<c s="1"/>', text(""), '<c t="str"><f>""</f><v></v></c>', '<c t="s"><v>1</v></c>'])
def test_empty(tmp_path: Path, cell: str) -> None:
    """An empty cell is none, and those after it keep their places."""
    assert cells(tmp_path, cell, text("x"), shared="<si><t>a</t></si><si/>") == [(1, "text", "x")]


def test_shared(tmp_path: Path) -> None:
    """Shared texts are those of their numbers, without the way to pronounce them."""
    shared = '<si><t>a</t></si><si><r><t xml:space="preserve">b </t></r><r><t>c</t></r><rPh sb="0" eb="1"><t>said</t></rPh></si>'
    those = ['<c t="s"><v>1</v></c>', '<c t="s"><v>0</v></c>']
    assert cells(tmp_path, *those, shared=shared) == [(0, "text", "b c"), (1, "text", "a")]


def test_places(tmp_path: Path) -> None:
    """Rows and cells have the numbers and places that the file names, or those after the last."""
    rows = [row('<c r="B3"><v>1</v></c>', "<c><v>2</v></c>", '<c r="AA3"><v>3</v></c>', place=3), row(number("4")), row(place=9), row(number("5"))]
    found = read(tmp_path, workbooks.workbook({"one": rows}))
    assert [(it.number, [(cell.place, cell.text) for cell in it.cells]) for it in found] == [
        (3, [(1, "1"), (2, "2"), (26, "3")]), (4, [(0, "4")]), (10, [(0, "5")])]
    assert [cell.text for cell in found[0].spread(4)] == ["", "1", "2", ""]


@pytest.mark.parametrize("folder", ["worksheets", "worksheets/deep", "../sheets"])
def test_sheets(tmp_path: Path, folder: str) -> None:
    """A sheet is found by its name, wherever its part lies."""
    content = workbooks.workbook({"one": [row(text("a"))], "two": [row("<c><f>A1</f></c>")]}, folder)
    assert [cell.kind for it in read(tmp_path, content, "two") for cell in it.cells] == ["formula"]
    assert [cell.text for it in read(tmp_path, content) for cell in it.cells] == ["a"]
    with pytest.raises(NotAWorkbook, match="it has no sheet three: it has one, two"):
        read(tmp_path, content, "three")


def test_openpyxl(tmp_path: Path) -> None:
    """What openpyxl writes is read as it was put in."""
    openpyxl = pytest.importorskip("openpyxl")
    book = openpyxl.Workbook()
    book.active.append(["Äpfel", 9506000134352, True, None, " a\nb "])
    into = io.BytesIO()
    book.save(into)
    (only,) = read(tmp_path, into.getvalue())
    assert [tuple(cell) for cell in only.cells] == [
        (0, "text", "Äpfel"), (1, "number", "9506000134352"), (2, "boolean", "TRUE"), (4, "text", " a\nb ")]


WRONG = {
    "a repeated row": ([row(number("1"), place=2), row(number("1"), place=2)], "row 2 is behind row 2"),
    "a descending row": ([row(number("1"), place=3), row(number("1"), place=2)], "row 2 is behind row 3"),
    "a row too far": ([row(number("1"), place=4_000_000_000)], "row 4,000,000,000 is beyond 1,048,576"),
    "a row without a number": (['<row r="x"/>'], "a row has the number x"),
    "a repeated cell": ([row('<c r="B1"><v>1</v></c>', '<c r="B1"><v>1</v></c>')], "the cell B1 of row 1 is out of order"),
    "a cell too far": ([row('<c r="XFE1"><v>1</v></c>')], "the cell XFE1 of row 1 is out of order, or beyond XFD"),
    "a cell of another row": ([row('<c r="A2"><v>1</v></c>')], "the cell A2 is in row 1"),
    "a shared text that is not there": ([row('<c t="s"><v>7</v></c>')], "the cell A1 names the shared text 7"),
    "a number that is none": ([row(number("x"))], "the cell A1 has x as a number"),
    "a document type": (['<!DOCTYPE a>'], "is not an XLSX workbook"),
}


@pytest.mark.parametrize("rows, told", WRONG.values(), ids=WRONG)
def test_wrong(tmp_path: Path, rows: list[str], told: str) -> None:
    """What no spreadsheet program writes is named."""
    with pytest.raises(NotAWorkbook) as raised:
        read(tmp_path, workbooks.workbook({"one": rows}))
    assert told in str(raised.value)


def test_archives(tmp_path: Path) -> None:
    """A file that is not a workbook is named, and so is a document type, a part that is missing, and two of one name."""
    parts = workbooks.parts_of({"one": [row(text("a"))]})
    typed = workbooks.packed({**parts, "xl/styles.xml": '<!DOCTYPE a [<!ENTITY b "c">]><a>&b;</a>'})
    missing = workbooks.packed({name: content for name, content in parts.items() if "sheet1" not in name})
    twice = workbooks.packed({**parts, "XL/WORKBOOK.xml": ""})
    cut = workbooks.packed(parts)[:-40]
    cases = [(b"01,href\n", "is not an XLSX workbook"), (typed, "document type"), (missing, "the part xl/worksheets/sheet1.xml is missing"),
             (twice, "two parts are called"), (cut, "is not an XLSX workbook"), (workbooks.packed({"a": "b"}), "no part of it is one")]
    for content, told in cases:
        with pytest.raises(NotAWorkbook) as raised:
            read(tmp_path, content)
        assert told in str(raised.value)


def test_packing(tmp_path: Path) -> None:
    """A part that is packed in another way is named."""
    into = io.BytesIO()
    with zipfile.ZipFile(into, "w", zipfile.ZIP_LZMA) as archive:
        for name, content in workbooks.parts_of({"one": [row(text("a"))]}).items():
            archive.writestr(name, content)
    with pytest.raises(NotAWorkbook, match="packed in a way that XLSX does not have"):
        read(tmp_path, into.getvalue())


BOMBS = {
    "a row far away": ({"one": row(number("1"), place=4_000_000_000)}, None, "beyond 1,048,576"),
    "empty rows": ({"one": "<row/>" * 5_000_000}, None, "more than 100 times"),
    "empty rows within the ratio": ({"one": "<row/>" * 2_500_000}, None, "row 1,048,577 is beyond"),
    "empty cells": ({"one": "<row>" + "<c/>" * 3_000_000 + "</row>"}, None, "beyond XFD"),
    "one long text": ({"one": row(text("a" * 100_000_000))}, None, "more than 100 times"),
    "shared texts": ({"one": row(text("a"))}, "<si><t>ab</t></si>" * 5_000_000, "more than 100 times"),
    "rows of one far cell": ({"one": '<row><c r="XFD1"/></row>' + '<row><c t="b"><v>1</v></c></row>' * 200_000}, None, ""),
}


@pytest.mark.parametrize("sheets, shared, told", BOMBS.values(), ids=BOMBS)
def test_costs(tmp_path: Path, sheets: dict[str, str], shared: Optional[str], told: str) -> None:
    """A small file takes little time and memory, whatever it unpacks to."""
    path = tmp_path / "book.xlsx"
    path.write_bytes(workbooks.workbook(sheets, shared=shared))
    before = resource.getrusage(resource.RUSAGE_CHILDREN)

    def limit() -> None:
        resource.setrlimit(resource.RLIMIT_AS, (MEMORY, MEMORY))

    done = subprocess.run([sys.executable, "-c", READ, path], capture_output=True, text=True, preexec_fn=limit, env={"PYTHONPATH": ":".join(sys.path)})
    after = resource.getrusage(resource.RUSAGE_CHILDREN)
    assert told in done.stderr and (done.returncode == 0) == (not told), done.stderr[-500:]
    assert "MemoryError" not in done.stderr
    assert after.ru_utime + after.ru_stime - before.ru_utime - before.ru_stime < SECONDS
