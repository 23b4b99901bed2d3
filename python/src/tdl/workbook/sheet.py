"""The rows of a sheet, read as a stream."""
from __future__ import annotations

from typing import Dict, Iterator, List, NamedTuple, Optional, Set
from xml.parsers import expat

from .archive import MOST_STREAMED, Archive, NotAWorkbook, shown
from .cells import Cell, Row, date_text, letters, number_text, place_of
from .parts import Page, local, unescaped

# what a sheet of the format has (ISO/IEC 29500-1, sections 18.3.1.73 and 18.3.1.4, as spreadsheet programs have it), and the cells that are read
MOST_ROWS, MOST_COLUMNS, MOST_CELLS = 1_048_576, 16_384, 8_388_608
# the elements around rows, cells and their values
ROW, CELL, VALUE = 2, 3, 4


class Shared(NamedTuple):
    """What the cells of a workbook share: their texts, the styles of dates, and whether days count from 1904."""

    texts: List[str]
    dated: Set[int]
    is_from_1904: bool


def rows_of(archive: Archive, page: Page, shared: Shared) -> Iterator[Row]:
    """Yields the rows of a sheet that are not empty."""
    reader = _Reader(archive, page, shared)
    parser = expat.ParserCreate()
    parser.StartElementHandler, parser.EndElementHandler, parser.CharacterDataHandler = reader.start, reader.end, reader.data
    parser.buffer_text = True
    for _ in archive.parse(page.part, parser, MOST_STREAMED):
        if reader.rows:
            yield from reader.rows
            reader.rows.clear()


class _Reader:
    """Reads elements of a sheet; the rows that have ended wait in `rows`."""

    def __init__(self, archive: Archive, page: Page, shared: Shared) -> None:
        self._archive, self._page, self._shared = archive, page, shared
        self.rows: List[Row] = []
        self._depth, self._spoken = 0, 0
        self._is_inside, self._is_string = False, False
        # the element whose text is taken: f, v or t, or none
        self._taken = ""
        self._number, self._place, self._count = 0, -1, 0
        self._cells: List[Cell] = []
        self._type, self._style = "n", ""
        self._pieces: List[str] = []
        self._source: Optional[str] = None
        self._has_value = False

    def start(self, name: str, attributes: Dict[str, str]) -> None:
        """Begins an element."""
        depth, self._depth = self._depth, self._depth + 1
        if depth == 1:
            self._is_inside = local(name) == "sheetData"
        elif not self._is_inside or not depth:
            return
        elif depth == ROW:
            self._start_row(attributes)
        elif depth == CELL:
            self._start_cell(attributes)
        else:
            self._start_value(local(name), depth)

    def _start_row(self, attributes: Dict[str, str]) -> None:
        named = attributes.get("r")
        before, self._number, self._place = self._number, self._number + 1, -1
        if named is not None:
            if not named.isdigit() or len(named) > 20:
                raise self._fault(f"a row has the number {shown(named)}")
            self._number = int(named)
        if not before < self._number <= MOST_ROWS:
            why = f"is behind row {before:,}" if self._number <= before else f"is beyond {MOST_ROWS:,}, the last that a sheet has"
            raise self._fault(f"row {self._number:,} {why}: save it in a spreadsheet program")

    def _start_cell(self, attributes: Dict[str, str]) -> None:
        named = attributes.get("r")
        before, self._place = self._place, self._place + 1
        self._count += 1
        if named is not None:
            column = named.rstrip("0123456789")
            self._place = place_of(column)
            if named[len(column) :] != str(self._number):
                raise self._fault(f"the cell {shown(named)} is in row {self._number:,}: save it in a spreadsheet program")
        if not before < self._place < MOST_COLUMNS:
            raise self._fault(f"the cell {shown(named or letters(self._place))} of row {self._number:,} is out of order, or beyond {letters(MOST_COLUMNS - 1)}")
        if self._count > MOST_CELLS:
            raise self._fault(f"it has more than {MOST_CELLS:,} cells: write CSV")
        self._type, self._style = attributes.get("t", "n"), attributes.get("s", "")
        self._pieces.clear()
        self._source, self._has_value, self._spoken = None, False, 0

    def _start_value(self, name: str, depth: int) -> None:
        if depth == VALUE:
            self._taken = name if name in ("v", "f") else ""
            self._is_string = name == "is"
            if name == "f":
                self._source = ""
            self._has_value = self._has_value or name in ("v", "is")
        elif name == "rPh":
            self._spoken = self._spoken or self._depth
        else:
            self._taken = "t" if name == "t" and self._is_string and not self._spoken else ""

    def data(self, text: str) -> None:
        """Takes a piece of text."""
        if self._taken == "f":
            self._source = (self._source or "") + text
        elif self._taken:
            self._pieces.append(text)

    def end(self, _: str) -> None:
        """Ends an element."""
        self._depth -= 1
        self._taken = ""
        if self._depth + 1 == self._spoken:
            self._spoken = 0
        if not self._is_inside:
            return
        if self._depth == CELL:
            cell = self._cell()
            if cell is not None:
                self._cells.append(cell)
        elif self._depth == ROW and self._cells:
            self.rows.append(Row(self._number, self._cells))
            self._cells = []

    def _cell(self) -> Optional[Cell]:
        """Returns the cell that has ended, or None if it is empty."""
        text, kind = "".join(self._pieces), self._type
        if self._source is not None and not text and (not self._has_value or kind != "str"):
            return Cell(self._place, "formula", f"={self._source}")
        if not text and kind != "s":
            return None
        if kind in ("str", "inlineStr"):
            return Cell(self._place, "text", unescaped(text))
        if kind == "s":
            return self._shared_cell(text)
        if kind == "b":
            return Cell(self._place, "boolean", "TRUE" if text.strip() in ("1", "true") else "FALSE")
        if kind in ("e", "d"):
            return Cell(self._place, "error" if kind == "e" else "date", text)
        return self._number_cell(text.strip())

    def _shared_cell(self, text: str) -> Optional[Cell]:
        if not self._has_value:
            return None
        number = int(text) if text.isdigit() and len(text) < 10 else -1
        if not 0 <= number < len(self._shared.texts):
            raise self._fault(f"the cell {letters(self._place)}{self._number} names the shared text {shown(text)}, which is not there")
        found = self._shared.texts[number]
        return Cell(self._place, "text", found) if found else None

    def _number_cell(self, text: str) -> Cell:
        number = number_text(text)
        if not number:
            raise self._fault(f"the cell {letters(self._place)}{self._number} has {shown(text)} as a number")
        if self._style.isdigit() and int(self._style) in self._shared.dated:
            return Cell(self._place, "date", date_text(number, self._shared.is_from_1904))
        return Cell(self._place, "number", number)

    def _fault(self, sentence: str) -> NotAWorkbook:
        return self._archive.fault(f"sheet {shown(self._page.name)}: {sentence}")
