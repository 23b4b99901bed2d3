"""Tables as files: the rows of a CSV file or a workbook, and tables written."""
from __future__ import annotations

import csv
import io
import sys
from typing import Callable, Iterator, List, NamedTuple, Optional, Sequence, Tuple, Union

from ..workbook import Workbook, other_kind

DELIMITERS = ",;\t"
WORKBOOKS = (".xlsx", ".xlsm")
# the rows of a table, which is held whole: as many as a sheet has; and those of a CSV file, with its empty ones
MOST_ROWS = 1_048_576
# the words of docs/MESSAGES.md for the kinds of cells that are not texts
DAMAGED = {"number": "number", "date": "date", "boolean": "truth", "error": "formula", "formula": "formula"}


class NotATable(ValueError):
    """A file that is not a table."""


class Damaged(NamedTuple):
    """A cell that is not a text: the word of docs/MESSAGES.md for it, and how it is shown."""

    word: str
    text: str


Cell = Union[str, Damaged]
# a row: its number, and the cells that are not empty, each with the place of its column
Cells = List[Tuple[int, Cell]]
TableRow = Tuple[int, Cells]


def is_workbook(path: str) -> bool:
    """Returns whether a file is an XLSX workbook by its name."""
    return path.lower().endswith(WORKBOOKS)


def read_table(path: str, sheet: Optional[str], is_name: Callable[[str], bool]) -> Iterator[TableRow]:
    """Yields the rows of a table that are not empty. Raises `NotATable` or `NotAWorkbook` if the file is not one.

    The delimiter of a CSV file is the one by which its first line has most names."""
    if is_workbook(path):
        return _read_workbook(path, sheet)
    if sheet is not None:
        raise NotATable("--sheet is an option for workbooks: name a file that ends in .xlsx")
    return _read_csv(path, is_name)


def _read_workbook(path: str, sheet: Optional[str]) -> Iterator[TableRow]:
    with Workbook(path) as book:
        for number, cells in book.rows(sheet):
            found: Cells = [(place, text if kind == "text" else Damaged(DAMAGED[kind], text)) for place, kind, text in cells]
            if any(not isinstance(cell, str) or cell.strip() for _, cell in found):
                yield number, found


def _read_csv(path: str, is_name: Callable[[str], bool]) -> Iterator[TableRow]:
    csv.field_size_limit(sys.maxsize)
    with open(path, "rb") as stream:
        other = other_kind(stream.read(4))
    if other:
        raise NotATable(f"{path} is {other}")
    row = 0
    with open(path, encoding="utf-8-sig", newline="") as lines:
        try:
            delimiter = _delimiter(lines.readline(), is_name)
            lines.seek(0)
            for row, cells in enumerate(csv.reader(lines, delimiter=delimiter, strict=True), 1):
                if row > MOST_ROWS:
                    raise NotATable(f"{path} has more than {MOST_ROWS:,} rows: split it; tdl-shard takes several linksets")
                found: Cells = [(place, cell) for place, cell in enumerate(cells) if cell]
                if any(not cell.isspace() for cell in cells if cell):
                    yield row, found
        except csv.Error as error:
            raise NotATable(f"{path}: row {row + 1} is not CSV: {error}") from error
        except UnicodeDecodeError:
            raise NotATable(f"{path}: line {_line_not_utf8(path)} is not UTF-8: save the table as CSV in UTF-8") from None


def _delimiter(first: str, is_name: Callable[[str], bool]) -> str:
    """Returns the delimiter by which the first line has most names of columns."""
    def names(delimiter: str) -> int:
        return sum(map(is_name, next(csv.reader([first], delimiter=delimiter), [])))

    return max(DELIMITERS, key=names)


def _line_not_utf8(path: str) -> int:
    with open(path, "rb") as lines:
        for number, line in enumerate(lines, 1):
            try:
                line.decode("utf-8")
            except UnicodeDecodeError:
                return number
    return 0


def csv_of(rows: Sequence[Sequence[str]]) -> str:
    """Returns rows as CSV."""
    into = io.StringIO(newline="")
    csv.writer(into).writerows(rows)
    return into.getvalue()
