"""The translation of a document: its parts are read, translated and written by one process or several."""
from __future__ import annotations

import csv
import gc
import io
from contextlib import ExitStack, contextmanager
from typing import BinaryIO, Iterable, Iterator, Tuple

from ..errors import Wrong
from ..files import lines_come, reading, writing
from ..pool import pool_of
from ..tables import check
from .job import Counts, Job, Worker, Written
from .parts import CHUNK, Part

REJECTED = ("event", "field", "text", "reason")
LISTED = ("identifier",)
MARK = b"\xef\xbb\xbf"


def rows_of(rows: Iterable[Tuple[object, ...]]) -> bytes:
    """Returns rows of CSV."""
    into = io.StringIO()
    csv.writer(into, lineterminator="\n").writerows(rows)
    return into.getvalue().encode("utf-8", "backslashreplace")


class Output:
    """What is written: the document, the list, the rejected identifiers; and the counts so far."""

    def __init__(self, output: BinaryIO, listed: BinaryIO, rejected: BinaryIO) -> None:
        self._output, self._listed, self._rejected = output, listed, rejected
        self.counts, self._before = Counts(), 0
        self._listed.write(rows_of([LISTED]))
        self._rejected.write(rows_of([REJECTED]))

    def write(self, written: Written) -> None:
        """Writes a part."""
        self._output.write(written.data)
        self._listed.write(rows_of((text,) for text in written.listed))
        self._rejected.write(rows_of((self._before + event, *row) for event, *row in written.rejected))
        self.counts, self._before = self.counts.plus(written.counts), self._before + written.numbers

    def write_at_once(self, written: Written) -> None:
        """Writes lines, which a reader may wait for."""
        self.write(written)
        for file in (self._output, self._listed, self._rejected):
            file.flush()


@contextmanager
def without_collector() -> Iterator[None]:
    """Stops the collector of cycles: what is made has none, and it would take a third of the time."""
    was_on = gc.isenabled()
    gc.disable()
    try:
        yield
    finally:
        if was_on:
            gc.enable()


def _first(head: bytes) -> bytes:
    """Returns the first byte of a document after a byte order mark and white space, or nothing if more has to be read."""
    return b"" if MARK.startswith(head) else head.removeprefix(MARK).lstrip()[:1]


def parts_of(stream: BinaryIO, is_inline: bool) -> Iterator[Part]:
    """Returns the parts of a document, by its first character that is not white space."""
    head = stream.read(CHUNK)
    while not (start := _first(head)):
        more = stream.read(max(CHUNK, len(head)))
        if not more:
            break
        head += more
    if start in (b"{", b"["):
        from .json_source import JsonSource

        return JsonSource(stream, head, is_inline).parts()
    if start == b"<" and b"\0" not in head[:4]:
        from .xml_source import XmlSource

        return XmlSource(stream, head, is_inline).parts()
    has_zero = b"\0" in head[:4]
    raise Wrong("line 1, column 1: neither JSON nor XML" + (": the document is UTF-16 or UTF-32, and has to be UTF-8" if has_zero else ""))


def translate(job: Job) -> Counts:
    """Translates a document, or an event a line, and returns what was counted. Raises `Wrong` for a document that is not well-formed, and then
    writes no file."""
    check(job.how.tables, prefixes=job.how.prefixes)
    with ExitStack() as opened:
        opened.enter_context(without_collector())
        file = opened.enter_context(reading(job.document))
        files = opened.enter_context(writing(job.output, job.listed, job.rejected, is_synced=job.is_synced))
        output = Output(*files)
        if job.is_of_lines:
            # (only here, since a document in XML needs nothing of it)
            from .lines import LineWorker

            lines = pool_of(job.processes, lambda: LineWorker(job.how), output.write_at_once)
            opened.callback(lines.close)
            for piece in lines_come(file, lines.wait):
                lines.submit(piece)
            lines.finish()
        else:
            stream = opened.enter_context(open(file, "rb", closefd=False))
            pool = pool_of(job.processes, lambda: Worker(job.how), output.write)
            opened.callback(pool.close)
            for part in parts_of(stream, job.processes == 1):
                pool.submit(part)
            pool.finish()
    return output.counts
