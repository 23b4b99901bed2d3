"""XLSX workbooks, read as a stream by the standard library: their sheets by name, and the rows of a sheet.

Time and memory follow the file. What no spreadsheet program writes is named, and so is a workbook beyond the bounds (docs/LIMITS.md).
"""
from .archive import NotAWorkbook
from .book import Workbook
from .cells import EMPTY, Cell, Row, letters
from .others import other_kind

__all__ = ["Cell", "EMPTY", "NotAWorkbook", "Row", "Workbook", "letters", "other_kind"]
