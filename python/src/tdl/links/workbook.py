"""XLSX workbooks written by openpyxl, which is optional."""
from __future__ import annotations

import io
import re
from typing import Any, List, Sequence

from .table import MOST_ROWS, NotATable

# what a cell holds; XML has no other control characters
MOST_CHARACTERS, FORBIDDEN = 32_767, re.compile("[\x00-\x08\x0b-\x1f\ufffe\uffff]")


def _openpyxl() -> Any:
    try:
        import openpyxl  # type: ignore[import]
    except ImportError:
        raise NotATable("writing a workbook needs openpyxl, Debian's package python3-openpyxl: install it, or use CSV") from None
    return openpyxl


def workbook_of(rows: Sequence[Sequence[str]]) -> bytes:
    """Returns a workbook whose cells are texts. Raises `NotATable` if one cannot be in a workbook."""
    openpyxl = _openpyxl()
    from openpyxl.cell import WriteOnlyCell  # type: ignore[import]

    if len(rows) > MOST_ROWS:
        raise NotATable(f"{len(rows):,} rows are more than a sheet has, {MOST_ROWS:,}: write CSV")
    book = openpyxl.Workbook(write_only=True)
    page = book.create_sheet("links")
    for number, row in enumerate(rows, 1):
        cells: List[Any] = []
        for text in row:
            if len(text) > MOST_CHARACTERS or FORBIDDEN.search(text):
                raise NotATable(f"row {number} has a text that a workbook cannot hold, of {len(text):,} characters: write CSV")
            cell = WriteOnlyCell(page, value=text or None)
            # (a text that begins with = is not a formula)
            cell.data_type = "s"
            cells.append(cell)
        page.append(cells)
    into = io.BytesIO()
    book.save(into)
    return into.getvalue()
