"""The records of a workbook, as CSV."""
from __future__ import annotations

from typing import Callable, Iterator, List, Optional

from ..workbook import Cell, Row, Workbook
from .records import encoded, quoted
from .source import BLOCK, Source

# digits that a number of a spreadsheet keeps
MOST_DIGITS = 15


def text_of(cell: Cell) -> str:
    """Returns the text of a cell. A whole number of more digits than a spreadsheet keeps is written as the spreadsheet shows it."""
    digits = cell.text.lstrip("-")
    if cell.kind != "number" or not digits.isdigit() or len(digits) <= MOST_DIGITS:
        return cell.text
    return f"{cell.text[: -len(digits)]}{digits[0]}.{digits[1:MOST_DIGITS]}E+{len(digits) - 1}"


def texts_of(row: Row, width: int) -> List[str]:
    """Returns the texts of a row, of `width` cells or more."""
    last = row.cells[-1].place + 1 if row.cells else 0
    return [text_of(cell) for cell in row.spread(max(width, last))]


def csv_of(book: Workbook, sheet: Optional[str], delimiter: str) -> Iterator[bytes]:
    """Yields the rows of a sheet as records of CSV."""
    width, between = 0, encoded(delimiter)
    for row in book.rows(sheet):
        texts = texts_of(row, width)
        width = width or len(texts)
        yield between.join(quoted(encoded(text), between) for text in texts) + b"\n"


class BookSource(Source):
    """The records of a sheet."""

    def __init__(self, book: Workbook, sheet: Optional[str], delimiter: str) -> None:
        self._rows = csv_of(book, sheet, delimiter)
        super().__init__(-1, delimiter)

    def _read(self, waits: Callable[[int], None]) -> None:
        wanted = len(self._data) + BLOCK
        for row in self._rows:
            self._data += row
            if len(self._data) >= wanted:
                return
        self._is_at_end = True

    def _grow(self, waits: Callable[[int], None]) -> None:
        self._read(waits)
