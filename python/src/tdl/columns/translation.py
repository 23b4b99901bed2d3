"""The translation of a file."""
from __future__ import annotations

import csv
import sys
from contextlib import ExitStack
from typing import BinaryIO, List, Optional

from ..files import reading, writing
from ..pool import pool_of
from .elements import Elements, keys_among
from .job import Job, Total
from .layout import Layout, layout_of
from .progress import Progress
from .source import Source
from .worker import Worker, Written


class Output:
    """The two files that are written, and the records so far."""

    def __init__(self, answered: BinaryIO, refused: BinaryIO, progress: Progress) -> None:
        self._answered, self._refused, self.progress = answered, refused, progress
        self.total = Total(0, 0)

    def begin(self, layout: Layout) -> None:
        """Writes the headers."""
        for file, head in zip((self._answered, self._refused), layout.heads):
            file.write(head)
            file.flush()

    def write(self, written: Written) -> None:
        """Writes records, at once."""
        self._answered.write(written.lines)
        self._answered.flush()
        for before, line in written.rejected:
            self._refused.write(b"%d%b" % (self.total.records + before + 1, line))
        self._refused.flush()
        self.total = Total(self.total.records + written.records, self.total.rejected + len(written.rejected))
        self.progress.show(self.total)


def is_workbook(path: str) -> bool:
    """Returns whether a path names a workbook."""
    return path.lower().endswith((".xlsx", ".xlsm"))


def _book(opened: ExitStack, path: str, job: Job) -> Source:
    """Returns the records of a workbook."""
    # (its modules take time to load)
    from ..workbook import Workbook
    from .book import BookSource

    return BookSource(opened.enter_context(Workbook(path)), job.sheet, job.delimiter)


def translate_csv(job: Job, path: str, output: str, rejected: Optional[str] = None) -> Total:
    """Translates columns of the file `path`. Each path may be `-`. Writes the rejected records to a second file if it is named."""
    if job.sheet is not None and not is_workbook(path):
        raise ValueError("--sheet is an option for workbooks, whose names end in .xlsx")
    codes = [code for code, _ in job.elements]
    keys: List[int] = keys_among(codes, job.options.get("tables"), job.options.get("program")) if codes else []
    before = csv.field_size_limit(sys.maxsize)
    try:
        with ExitStack() as opened:
            file = None if is_workbook(path) else opened.enter_context(reading(path))
            answered, refused = opened.enter_context(writing(output, rejected, is_synced=job.is_synced))
            out = Output(answered, refused, Progress(file))
            opened.callback(out.progress.end)
            source = _book(opened, path, job) if file is None else Source(file, job.delimiter)
            layout = layout_of(source, job)

            def make() -> Worker:
                return Worker(job, layout, Elements(codes, layout.names, keys, job.options.get("tables")) if codes else None)

            pool = pool_of(job.processes, make, out.write)
            opened.callback(pool.close)
            out.begin(layout)
            for chunk in source.chunks(pool.wait):
                pool.submit(chunk)
            pool.finish()
        return out.total
    finally:
        csv.field_size_limit(before)
