"""The records of a piece of a CSV file: how they stand in it, and their fields of some columns."""
from __future__ import annotations

import csv
import io
import re
from itertools import chain
from typing import Dict, Iterator, List, NamedTuple, Optional, Tuple

from ..errors import Wrong


class Chunk(NamedTuple):
    """Whole records as they stand in the file, and the number of the file's lines before them."""

    before: int
    data: bytes


class Records(NamedTuple):
    """Records as they stand in the file, with the empty lines before each; their line ends apart; for each column that is read a field of
    each record; and the reasons of records that lack them."""

    bodies: List[bytes]
    ends: List[bytes]
    columns: List[List[bytes]]
    reasons: Dict[int, bytes]


def encoded(text: str) -> bytes:
    """Returns the bytes of a file's text."""
    return text.encode("utf-8", "surrogateescape")


def lines_of(data: bytes) -> List[str]:
    """Returns the lines of a file's bytes, each with its end: LF, CR LF or CR."""
    return io.StringIO(data.decode("utf-8", "surrogateescape"), newline="").readlines()


def count_lines(data: bytes) -> int:
    """Returns the number of line ends."""
    return data.count(b"\n") + (data.count(b"\r") - data.count(b"\r\n") if b"\r" in data else 0)


def open_quote(text: str, delimiter: str) -> int:
    """Returns the place of the quote that opens the field which the end of a text leaves open."""
    ends, at = re.compile(f"[\r\n{re.escape(delimiter)}]"), 0
    while at < len(text):
        if text.startswith('"', at):
            close = text.find('"', at + 1)
            while close >= 0 and text.startswith('"', close + 1):
                close = text.find('"', close + 2)
            if close < 0:
                return at
            at = close + 1
        found = ends.search(text, at)
        at = found.end() if found else len(text)
    return at


def not_csv(before: int, lines: List[str], delimiter: str, error: Optional[csv.Error] = None) -> Wrong:
    """Returns the error of lines whose first record is not CSV: it has this error, or a quote that is not closed."""
    empty = next((number for number, line in enumerate(lines) if line.strip("\r\n")), 0)
    if error and not str(error).startswith("unexpected end"):
        return Wrong(f"the record at line {before + empty + 1} is not CSV: {error}")
    text = "".join(lines)
    opened = count_lines(encoded(text[: open_quote(text, delimiter)]))
    return Wrong(f"the record at line {before + empty + 1} is not CSV: the quote that line {before + opened + 1} opens is not closed")


def records_of(lines: List[str], delimiter: str) -> Iterator[Tuple[List[str], int, bool]]:
    """Yields the fields of each record that is not empty, the number of lines to its end, and whether a quote is still open there. After a
    quote that should end its field, the field goes on to the next delimiter or line end."""
    is_open: List[bool] = []

    def ended() -> Iterator[str]:
        is_open.append(True)
        yield from ()

    reader = csv.reader(chain(lines, ended()), delimiter=delimiter)
    for fields in reader:
        if fields:
            yield fields, reader.line_num, bool(is_open)


def parted(raw: bytes) -> Tuple[bytes, bytes]:
    """Returns a record as it stands in the file, and its line end."""
    body = raw.rstrip(b"\r\n")
    return body, raw[len(body) :]


def quoted(field: bytes, delimiter: bytes) -> bytes:
    """Returns a field as it stands in CSV."""
    is_plain = delimiter not in field and not any(byte in field for byte in (b'"', b"\n", b"\r"))
    return field if is_plain else b'"' + field.replace(b'"', b'""') + b'"'


class Reader:
    """Reads records of `width` fields, and of each the fields of the columns `indexes`."""

    def __init__(self, delimiter: str, width: int, indexes: Tuple[int, ...]) -> None:
        self._delimiter, self._bytes = delimiter, encoded(delimiter)
        self._width, self._indexes = width, indexes

    def read(self, chunk: Chunk) -> Records:
        """Returns the records. Raises `Wrong` with the number of a line that is not CSV."""
        return self._without_quotes(chunk.data) or self._by_csv(chunk)

    def _without_quotes(self, data: bytes) -> Optional[Records]:
        """Returns what `_by_csv` does, by a shorter way, if no field is quoted, all records have one width, and all lines end alike."""
        end = b"\r\n" if b"\r" in data else b"\n"
        ends = data.count(end)
        if b'"' in data or b"\0" in data or data.count(b"\n") != ends or data.count(b"\r") not in (0, ends):
            return None
        is_closed = data.endswith(end)
        data = data[: -len(end)] if is_closed else data
        bodies = data.split(end)
        # (each line feed begins a field: the records have one width if these are the first fields of the records)
        fields = data.replace(end, self._bytes + b"\n").split(self._bytes)
        firsts = fields[:: self._width]
        is_even = len(fields) == self._width * len(bodies) and b"".join(firsts).count(b"\n") == len(bodies) - 1
        if not is_even or (self._width == 1 and b"" in bodies):
            return None
        firsts = [field.lstrip(b"\n") for field in firsts] if 0 in self._indexes else []
        columns = [fields[index :: self._width] if index else firsts for index in self._indexes]
        return Records(bodies, [end] * ends + ([] if is_closed else [b""]), columns, {})

    def _by_csv(self, chunk: Chunk) -> Records:
        bodies, ends, rows, reasons = [], [], [], {}  # type: List[bytes], List[bytes], List[List[str]], Dict[int, bytes]
        for fields, raw, reason in self._parsed(chunk):
            body, end = parted(encoded(raw))
            if len(fields) != self._width:
                body += self._bytes * (self._width - len(fields))
                reason = reason or b"fields %d" % len(fields)
            if reason:
                reasons[len(bodies)] = reason
            rows.append([""] * self._width if reason else fields)
            bodies.append(body)
            ends.append(end)
        return Records(bodies, ends, [[encoded(fields[index]) for fields in rows] for index in self._indexes], reasons)

    def _parsed(self, chunk: Chunk) -> List[Tuple[List[str], str, bytes]]:
        """Returns the fields of each record, the record as it stands in the file, and why it is rejected, or nothing."""
        lines = lines_of(chunk.data)
        reader, begun, found = csv.reader(lines, delimiter=self._delimiter, strict=True), 0, []
        try:
            for fields in reader:
                if fields:
                    found.append((fields, "".join(lines[begun : reader.line_num]), b""))
                    begun = reader.line_num
        except csv.Error:
            return self._judged(chunk.before, lines)
        return found

    def _judged(self, before: int, lines: List[str]) -> List[Tuple[List[str], str, bytes]]:
        """Returns what `_parsed` does of lines with records that are not CSV: such a record alone is rejected, by the number of its line."""
        begun, found = 0, []
        try:
            for fields, end, is_open in records_of(lines, self._delimiter):
                if is_open:
                    raise not_csv(before + begun, lines[begun:], self._delimiter)
                raw = "".join(lines[begun:end])
                empty = next(number for number, line in enumerate(lines[begun:end]) if line.strip("\r\n"))
                found.append((fields, raw, b"" if self._is_strict(raw) else b"quote %d" % (before + begun + empty + 1)))
                begun = end
        except csv.Error as error:
            raise not_csv(before + begun, lines[begun:], self._delimiter, error) from error
        return found

    def _is_strict(self, raw: str) -> bool:
        """Returns whether a record is CSV."""
        try:
            return '"' not in raw or bool(list(csv.reader(io.StringIO(raw, newline=""), delimiter=self._delimiter, strict=True)))
        except csv.Error:
            return False
