"""The rows of a table of links: the texts of their cells."""
from __future__ import annotations

import re
from typing import Dict, Iterator, List, NamedTuple, Tuple

from ..inspector.rows import Rows
from ..workbook import letters
from .columns import Columns, Naming, columns_of
from .faults import Fault
from .table import Cell, Cells, Damaged, NotATable, TableRow

# digits as a spreadsheet writes them in short: 9.50600E+12
POWER = re.compile(r"[0-9](?:[.,][0-9]+)?E\+[0-9]{2,}")
# the columns of an entry besides those of what it names, and those whose blanks count
OTHERS = ("href", "linkType", "hreflang", "title", "type", "context", "title*")
TITLES = ("title", "title*")
ERRORS = frozenset({"#NULL!", "#DIV/0!", "#VALUE!", "#REF!", "#NAME?", "#NUM!", "#N/A"})
AGAIN = "enter the value again in a cell of the format text"
DAMAGED = {
    "number": f"the cell is a number, which loses leading zeros; {AGAIN}",
    "date": f"the cell is a date; {AGAIN}",
    "truth": f"the cell is true or false; {AGAIN}",
    "power": f"a spreadsheet wrote the digits as a power of ten; {AGAIN}",
    "formula": "the formula has no value; correct it, or open the file in a spreadsheet program and save it",
}


class Entry(NamedTuple):
    """A row that is not empty: its number, what it names by one text or by elements, the key first, and its other texts.

    A wrong cell has no text here. The row names nothing if what it names is wrong."""

    row: int
    anchor: str
    elements: Tuple[Tuple[str, str], ...]
    href: str
    relation: str
    languages: str
    title: str
    type: str
    context: str
    tagged: str


class Table(NamedTuple):
    """The columns of a table, its rows, and what is wrong with their cells."""

    columns: Columns
    entries: List[Entry]
    faults: List[Fault]


def read_rows(path: str, rows: Iterator[TableRow], tables: Rows, naming: Naming) -> Table:
    """Returns the rows of a table. Raises `NotATable` if it is empty."""
    nothing: TableRow = (0, [])
    number, cells = next(rows, nothing)
    if not cells:
        raise NotATable(f"{path} is empty: its first row has the names of the columns")
    columns, faults = columns_of(number, cells, tables, naming)
    table, names = Table(columns, [], faults), {place: name for name, place in columns.places.items()}
    if not faults:
        for number, cells in rows:
            texts = _texts(number, cells, columns, names, faults)
            if any(map(str.strip, texts.values())):
                table.entries.append(_entry(number, texts, columns, faults))
    return table


def _texts(number: int, cells: Cells, columns: Columns, names: Dict[int, str], faults: List[Fault]) -> Dict[str, str]:
    """Returns the texts of the cells that are not empty, by the names of their columns. A wrong one has an empty text."""
    texts: Dict[str, str] = {}
    for place, cell in cells:
        name = names.get(place)
        text = cell.text if isinstance(cell, Damaged) else cell if name in TITLES else cell.strip()
        if not text:
            continue
        if name:
            word = _damage(cell, text, name, columns)
            texts[name] = "" if word else text
            if word:
                faults.append(columns.fault(number, name, word, DAMAGED[word], text))
        elif place >= len(columns.spelled) or not columns.spelled[place]:
            faults.append(Fault(number, place, letters(place), "column", "the column has no name", text))
    return texts


def _damage(cell: Cell, text: str, name: str, columns: Columns) -> str:
    """Returns the word for what is wrong with a cell whatever it is for, or nothing."""
    if isinstance(cell, Damaged):
        return "" if cell.word == "number" and name in columns.checked and is_proved(text) else cell.word
    if text in ERRORS:
        return "formula"
    return "power" if name.isdigit() and POWER.fullmatch(text) else ""


def is_proved(text: str) -> bool:
    """Returns whether a number has lost no digits: it has 13, and the last is the check digit of the others."""
    if len(text) != 13 or not text.isdigit():
        return False
    digits = [int(digit) for digit in text]
    return (sum(digits[::2]) + 3 * sum(digits[1::2])) % 10 == 0


def _entry(number: int, texts: Dict[str, str], columns: Columns, faults: List[Fault]) -> Entry:
    codes = [code for code in columns.keys + columns.qualifiers if code in texts]
    has_anchor, has_key = "anchor" in texts, any(code in columns.keys for code in codes)
    anchor, elements = texts.get("anchor", ""), tuple((code, texts[code]) for code in codes)
    if has_anchor and codes:
        sentence = f"the row has elements too, in {', '.join(codes)}; leave one of both"
        faults.append(columns.fault(number, "anchor", "anchors", sentence, anchor))
    elif not has_anchor and not has_key:
        faults.append(columns.fault(number, next(iter(columns.keys), "anchor"), "key", "no element is a key; add one, such as (01) GTIN"))
    if has_anchor == bool(codes) or not (has_anchor or has_key) or not all(text for _, text in elements):
        anchor, elements = "", ()
    return Entry(number, anchor, elements, *(texts.get(name, "") for name in OTHERS))
