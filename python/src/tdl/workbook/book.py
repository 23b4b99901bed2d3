"""A workbook that is open."""
from __future__ import annotations

from types import TracebackType
from typing import Iterator, List, Optional, Type

from .archive import Archive, shown
from .cells import Row
from .parts import dated_styles, only, pages_of, related, shared_texts, workbook_part
from .sheet import Shared, rows_of


class Workbook:
    """A workbook: `sheets` has the names of its sheets with cells, in their order. Raises `NotAWorkbook` with a sentence that names the file.

    The file is closed at the end of a `with`."""

    def __init__(self, path: str) -> None:
        self._archive = Archive(path)
        try:
            with self._archive.naming():
                part = workbook_part(self._archive)
                self._targets = related(self._archive, part)
                self._pages, self._is_from_1904 = pages_of(self._archive, part, self._targets)
        except BaseException:
            self.close()
            raise
        self.sheets: List[str] = [page.name for page in self._pages]

    def rows(self, sheet: Optional[str] = None) -> Iterator[Row]:
        """Yields the rows of a sheet, or of the first one, that are not empty. Raises `NotAWorkbook` where one is wrong, or if there is no such sheet."""
        page = next((page for page in self._pages if sheet in (None, page.name)), None)
        if page is None:
            listed = ", ".join(map(shown, self.sheets))
            raise self._archive.fault(f"it has no sheet {shown(sheet)}: it has {listed}" if sheet and self._pages else "it has no sheet with cells")
        with self._archive.naming():
            dated = dated_styles(self._archive, only(self._targets, "styles"))
            texts = shared_texts(self._archive, only(self._targets, "sharedStrings"))
            yield from rows_of(self._archive, page, Shared(texts, dated, self._is_from_1904))

    def close(self) -> None:
        """Closes the file."""
        self._archive.__exit__(None, None, None)

    def __enter__(self) -> "Workbook":
        return self

    def __exit__(self, _: Optional[Type[BaseException]], __: Optional[BaseException], ___: Optional[TracebackType]) -> None:
        self.close()
