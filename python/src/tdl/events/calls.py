"""`tdl.epcis` and `tdl.epcis_lines`: a document, and events one at a time, translated in Python."""
from __future__ import annotations

import io
import os
from contextlib import ExitStack, closing
from dataclasses import dataclass
from itertools import islice
from typing import Any, BinaryIO, Iterable, Iterator, List, Optional, Tuple, Union

from ..options import File, choice, path_of
from ..pool import pool_of
from ..tables import EPCIS, check
from .document import parts_of, without_collector
from .identities import How
from .job import Counts, Rejection, Worker, Written
from .lines import located_line

Text = Union[str, bytes]


@dataclass(frozen=True)
class Events:
    """A document, or an event, with its identifiers in one form: `text`, of the type that was given, and bytes for a file; `counts`; and
    `rejected`, each with `event`, its number from 1, `field`, `text` and `reason`."""

    text: Text
    counts: Counts
    rejected: Tuple[Rejection, ...]


def _how(to: str, stem: Optional[str], tables: File, prefixes: Optional[File], gcp: Optional[int]) -> How:
    target = "link" if choice("to", to, ("link", "uri")) == "link" else "uri"
    if target == "link" and (prefixes, gcp) != (None, None):
        raise ValueError("prefixes and gcp are options of uri")
    if target == "uri" and stem is not None:
        raise ValueError("stem is an option of link")
    return How(target, False, stem, path_of(tables), path_of(prefixes), gcp)  # type: ignore[arg-type]


def _opened(document: Union[Text, File, BinaryIO], opened: ExitStack) -> BinaryIO:
    """Returns the stream of a document: a text or bytes of one, a path of a file, or a file that is open for bytes."""
    if isinstance(document, (str, bytes)):
        return io.BytesIO(document.encode("utf-8") if isinstance(document, str) else document)
    if isinstance(document, os.PathLike):
        return opened.enter_context(open(document, "rb"))
    return document


def epcis(
    document: Union[str, bytes, "os.PathLike[str]", BinaryIO],
    to: str,
    *,
    stem: Optional[str] = None,
    tables: File = EPCIS,
    prefixes: Optional[File] = None,
    gcp: Optional[int] = None,
    processes: int = 1,
) -> Events:
    """Returns an EPCIS document, JSON-LD or XML, with each identifier as a Digital Link (`link`) or as an EPC URI (`uri`).

    A `str` and `bytes` are the document, a path names its file, and a file is open for bytes. Raises `Wrong`, a `ValueError`, with line and
    column if it is not well-formed.
    """
    how = _how(to, stem, tables, prefixes, gcp)
    check(how.tables, prefixes=how.prefixes)
    output, counts, rejected = io.BytesIO(), Counts(), []  # type: io.BytesIO, Counts, List[Rejection]

    def sink(written: Written) -> None:
        nonlocal counts
        output.write(written.data)
        rejected.extend(row._replace(event=counts.events + row.event) for row in written.rejected)
        counts = counts.plus(written.counts)

    with ExitStack() as opened:
        opened.enter_context(without_collector())
        stream = _opened(document, opened)
        pool = pool_of(processes, lambda: Worker(how), sink)
        opened.callback(pool.close)
        for part in parts_of(stream, processes == 1):
            pool.submit(part)
        pool.finish()
    text: Any = output.getvalue().decode("utf-8") if isinstance(document, str) else output.getvalue()
    return Events(text, counts, tuple(rejected))


def epcis_lines(
    events: Iterable[Text],
    to: str,
    *,
    stem: Optional[str] = None,
    tables: File = EPCIS,
    prefixes: Optional[File] = None,
    gcp: Optional[int] = None,
    batch: int = 1,
) -> Iterator[Events]:
    """Returns an iterator of each event, or document, in JSON-LD with its identifiers in one form, as soon as it has come.

    One that is neither, or not JSON, is left as it is, and its rejection has the reason. `batch` is how many are taken before the first of them
    is given: more are faster.
    """
    if isinstance(events, (str, bytes)):
        raise TypeError("epcis_lines takes an iterable of events, not one text")
    if batch < 1:
        raise ValueError("a batch has at least one event")
    how = _how(to, stem, tables, prefixes, gcp)
    check(how.tables, prefixes=how.prefixes)
    return _translated(iter(events), how, batch)


def _translated(events: Iterator[Text], how: How, batch: int) -> Iterator[Events]:
    with closing(Worker(how)) as worker:
        while taken := list(islice(events, batch)):
            located = [located_line(each.encode("utf-8", "surrogatepass") if isinstance(each, str) else each, 1) for each in taken]
            for given, written, (_, reason) in zip(taken, worker.written_each([one for one, _ in located]), located):
                text: Text = written.data.decode("utf-8", "surrogatepass") if isinstance(given, str) else written.data
                refused = [Rejection(1, "", "", reason)] * bool(reason)
                rejected = (*written.rejected, *refused)
                yield Events(text, written.counts._replace(rejected=len(rejected)), rejected)
