"""The items of a JSON array that comes in blocks, as they stand in it."""
from __future__ import annotations

import os
import re
from typing import Callable, Iterator, List, NamedTuple, Optional

from .errors import Wrong
from .files import BLOCK

BLANK = b" \t\r\n"
# an object without inner ones, at once; a string, or one that is not closed, and brackets; another value
FLAT = re.compile(rb'\{[^{}\[\]"]*(?:"[^"\\]*(?:\\.[^"\\]*)*"[^{}\[\]"]*)*\}', re.DOTALL)
TOKEN = re.compile(rb'("[^"\\]*(?:\\.[^"\\]*)*")|["{}\[\]]', re.DOTALL)
VISIBLE = re.compile(rb"[^ \t\r\n]")
SCALAR = re.compile(rb'[^\s,\[\]{}"]+')
MOST_OF_ITEM = 16_777_216
# (the bracket or a comma is before each item, so none begins at 0)
END = 0


class Items(NamedTuple):
    """Items of an array, and what stands before each: the bracket or the comma, and blanks."""

    befores: List[bytes]
    items: List[bytes]


def item_end(data: bytearray, begin: int) -> Optional[int]:
    """Returns the end of the item that begins at a place, or None if more has to be read. What is not JSON ends where its brackets do."""
    flat = FLAT.match(data, begin)
    if flat:
        return flat.end()
    if data[begin] not in b'{["':
        scalar = SCALAR.match(data, begin)
        end = scalar.end() if scalar else begin + 1
        return end if end < len(data) else None
    depth = 0
    for found in TOKEN.finditer(data, begin):
        token = found[0]
        if token == b'"' and found[1] is None:
            return None
        depth += (token in b"{[") - (token in b"}]") if found[1] is None else 0
        if depth == 0:
            return found.end()
    return None


class Array:
    """An array whose first bytes were read. `rest` has what stands after its items once they are taken."""

    def __init__(self, file: int, begun: bytes, waits: Callable[[int], None]) -> None:
        self._file, self._waits = file, waits
        self._data, self._before, self._is_at_end = bytearray(begun), 0, False
        self.rest = b""

    def pieces(self) -> Iterator[Items]:
        """Yields the items that have come. Raises `Wrong` where the array is not one."""
        is_first = True
        while True:
            found = Items([], [])
            at = 0
            while True:
                begin = self._begin(at, is_first)
                end = item_end(self._data, begin) if begin else None
                if begin is None or end is None:
                    break
                found.befores.append(bytes(self._data[at:begin]))
                found.items.append(bytes(self._data[begin:end]))
                is_first, at = False, end
            del self._data[:at]
            self._before += at
            if found.items:
                yield found
            if begin == END:
                self._end()
                return
            self._more()

    def _begin(self, at: int, is_first: bool) -> Optional[int]:
        """Returns where the next item begins, 0 at the end of the array, or None if more has to be read."""
        place = self._after_blanks(at)
        if place is None:
            return None
        if self._data[place : place + 1] == b"]" and not is_first:
            return END
        if self._data[place : place + 1] != (b"[" if is_first else b","):
            raise self._wrong(place)
        begin = self._after_blanks(place + 1)
        if begin is None:
            return None
        if self._data[begin : begin + 1] == b"]" and is_first:
            return END
        if self._data[begin : begin + 1] in (b",", b"]", b"}"):
            raise self._wrong(begin)
        return begin

    def _after_blanks(self, at: int) -> Optional[int]:
        """Returns the place of the next byte that is not blank, or None if more has to be read."""
        found = VISIBLE.search(self._data, at)
        return found.start() if found else None

    def _more(self) -> None:
        """Reads until as much again is there, since each try to find an item takes time by its size."""
        if self._is_at_end:
            raise Wrong("the array is not closed")
        if len(self._data) > MOST_OF_ITEM:
            raise Wrong(f"the item at byte {self._before:,} of the array does not end within {MOST_OF_ITEM:,} bytes")
        self._waits(self._file)
        block = os.read(self._file, BLOCK)
        self._is_at_end = not block
        self._data += block

    def _end(self) -> None:
        """Reads what stands after the items: the bracket, and blanks."""
        while not self._is_at_end:
            self._waits(self._file)
            block = os.read(self._file, BLOCK)
            self._is_at_end = not block
            self._data += block
            if self._data.rstrip(BLANK)[-1:] != b"]":
                break
        self.rest = bytes(self._data)
        if self.rest.translate(None, BLANK) not in (b"]", b"[]"):
            raise Wrong(f"there is more after the array, which ends after byte {self._before:,}")

    def _wrong(self, place: int) -> Wrong:
        return Wrong(f"the array is not JSON at byte {self._before + place:,}")
