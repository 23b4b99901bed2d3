"""The pieces of a CSV file, each of whole records, as soon as they have come."""
from __future__ import annotations

import csv
import os
from typing import Callable, Iterator, List, Optional, Tuple

from ..files import is_ready, wait
from ..kinds import MARK, is_begun, judge_begin
from .records import Chunk, count_lines, encoded, lines_of, not_csv, records_of

BLOCK = 262_144


class Source:
    """The records of a file. `names` are the fields of the first, `head` is how it stands in the file, after the mark of UTF-8, `mark`."""

    def __init__(self, file: int, delimiter: str) -> None:
        self._file, self._delimiter = file, delimiter
        self._data, self._is_at_end, self._before = bytearray(), False, 0
        while is_begun(bytes(self._data)) and not self._is_at_end:
            self._read(wait)
        judge_begin(bytes(self._data))
        self.mark = MARK if self._data.startswith(MARK) else b""
        del self._data[: len(self.mark)]
        while (first := self._first()) is None:
            self._grow(wait)
        self.names, self.head = first

    def skip_head(self) -> None:
        """Takes the first record for a header."""
        self._take(len(self.head))

    def chunks(self, waits: Callable[[int], None] = wait) -> Iterator[Chunk]:
        """Yields the records. Empty lines go to the record after them. `waits` waits until more can be read."""
        while True:
            end = self._whole()
            if end:
                yield self._take(end)
            if self._is_at_end:
                return
            self._grow(waits)

    def _take(self, end: int) -> Chunk:
        chunk = Chunk(self._before, bytes(self._data[:end]))
        del self._data[:end]
        self._before += count_lines(chunk.data)
        return chunk

    def _read(self, waits: Callable[[int], None]) -> None:
        """Adds what can be read, a block or a little more, and waits if that is nothing."""
        waits(self._file)
        wanted = len(self._data) + BLOCK
        while not self._is_at_end:
            block = os.read(self._file, BLOCK)
            self._is_at_end = not block
            self._data += block
            if len(self._data) >= wanted or not is_ready(self._file):
                return

    def _grow(self, waits: Callable[[int], None]) -> None:
        """Reads until as much again is there, or no more can be read now: each try to find whole records takes time by the size."""
        wanted = 2 * len(self._data)
        self._read(waits)
        while len(self._data) < wanted and not self._is_at_end and is_ready(self._file):
            self._read(waits)

    def _lines_end(self) -> int:
        """Returns the end of the last whole line. A carriage return at the end may be the first half of a line end."""
        if self._is_at_end:
            return len(self._data)
        feed = self._data.rfind(b"\n") + 1
        return max(feed, self._data.rfind(b"\r", feed, max(feed, len(self._data) - 1)) + 1)

    def _lines(self) -> List[str]:
        return lines_of(bytes(self._data[: self._lines_end()]))

    def _first(self) -> Optional[Tuple[List[str], bytes]]:
        """Returns the fields of the first record, and how it stands in the file; none at the end of a file without records, or None if more has
        to be read."""
        lines = self._lines()
        reader = csv.reader(lines, delimiter=self._delimiter, strict=True)
        try:
            fields: List[str] = next(filter(None, reader), [])
        except csv.Error as error:
            if reader.line_num < len(lines) or self._is_at_end:
                raise not_csv(0, lines, self._delimiter, error) from error
            return None
        return (fields, encoded("".join(lines[: reader.line_num]))) if fields or self._is_at_end else None

    def _whole(self) -> int:
        """Returns the end of the last whole record, without empty lines after it. What is not CSV counts as whole: its reader says where."""
        end = self._lines_end()
        if self._data.find(b'"', 0, end) >= 0:
            end = self._end_by_csv(end)
        body = len(self._data[:end].rstrip(b"\r\n"))
        return min(end, body + (2 if self._data.startswith(b"\r\n", body) else 1)) if body else 0

    def _end_by_csv(self, end: int) -> int:
        lines, whole = self._lines(), 0
        try:
            for _, line, is_open in records_of(lines, self._delimiter):
                if is_open and not self._is_at_end:
                    return len(encoded("".join(lines[:whole])))
                whole = line
        except csv.Error:
            pass
        return end
