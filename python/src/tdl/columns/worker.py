"""Records with their answers."""
from __future__ import annotations

from typing import List, NamedTuple, Optional, Tuple

from .elements import Elements
from .forms import Forms
from .job import Job
from .layout import Layout
from .records import Chunk, Reader, Records, encoded, quoted


class Written(NamedTuple):
    """The number of a chunk's records, what is written of them, and the rejected ones, each with the number of records before it."""

    records: int
    lines: bytes
    rejected: List[Tuple[int, bytes]]


class Worker:
    """Writes records with their answers, by kept runs of the program."""

    def __init__(self, job: Job, layout: Layout, elements: Optional[Elements]) -> None:
        self._delimiter = encoded(job.delimiter)
        self._reader = Reader(job.delimiter, layout.width, layout.indexes)
        self._forms = Forms(job, elements)

    def write(self, chunk: Chunk) -> Written:
        """Returns the records with their answers, and the rejected ones for the second file, without their numbers."""
        records = self._reader.read(chunk)
        columns, reasons = self._forms.answer(records.columns, records.reasons)
        cells = [self._quoted(column) for column in columns]
        told = {place: quoted(reasons[place], self._delimiter) for place in sorted(reasons)}
        rejected = [(place, self._rejected(records, place, reason)) for place, reason in told.items()]
        last = list(records.ends)
        for place, reason in told.items():
            last[place] = reason + last[place]
        return Written(len(last), b"".join(map(self._delimiter.join, zip(records.bodies, *cells, last))), rejected)

    def _quoted(self, column: List[bytes]) -> List[bytes]:
        whole = b"".join(column)
        return [quoted(cell, self._delimiter) for cell in column] if self._delimiter in whole or b'"' in whole else column

    def _rejected(self, records: Records, place: int, reason: bytes) -> bytes:
        body = records.bodies[place].lstrip(b"\r\n")
        return self._delimiter.join((b"", body, reason)) + (records.ends[place] or b"\n")

    def close(self) -> None:
        """Ends the runs."""
        self._forms.close()
