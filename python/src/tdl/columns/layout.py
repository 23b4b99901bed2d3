"""Which columns are read, and the names of the new ones."""
from __future__ import annotations

from typing import List, NamedTuple, Tuple

from ..errors import Wrong
from ..kinds import judge_head
from .job import Job
from .records import encoded, parted, quoted
from .source import Source


class Layout(NamedTuple):
    """The number of columns, those that are read with their names, and the lines that the two written files begin with."""

    width: int
    indexes: Tuple[int, ...]
    names: Tuple[str, ...]
    heads: Tuple[bytes, bytes]


def _index(column: str, names: List[str], has_header: bool) -> int:
    """Returns the index of a column."""
    if has_header and names.count(column) == 1:
        return names.index(column)
    if has_header and column in names:
        raise Wrong(f"several columns are named {column}: give its number, 1 to {len(names)}")
    if column.isdecimal() and 1 <= int(column) <= len(names):
        return int(column) - 1
    raise Wrong(f"there is no column {column}: " + (f"there are {', '.join(names)}" if has_header else f"give a number from 1 to {len(names)}"))


def new_names(job: Job, base: str, names: List[str]) -> List[str]:
    """Returns the names of the new columns, the last that of the reasons: `BASE_reason`, or if that is taken `BASE_FORM_reason`."""
    base = base if job.name is None else job.name
    words = ["link" if target == "canon" else target for target in job.targets] + list(job.split)
    words += ["form"] * (job.source == "any") + ["repaired"] * job.is_repaired
    added = [f"{base}_{word}" for word in words]
    reason = f"{base}_reason" if f"{base}_reason" not in names else f"{added[0]}_reason"
    for name in (*added, reason):
        if name in names:
            raise Wrong(f"the file has a column {name} already: name the new ones by --name")
        if added.count(name) > 1:
            raise Wrong(f"two new columns would be named {name}")
    return [*added, reason]


def layout_of(source: Source, job: Job) -> Layout:
    """Returns the layout of a file, whose header is taken."""
    columns = [column for _, column in job.elements] if job.elements else [job.column or ""]
    if job.has_header:
        judge_head(source.head)
    if job.has_header and not source.names:
        raise Wrong("the file is empty, and has no header")
    if not source.names:
        return Layout(0, (), (), (source.mark, source.mark))
    indexes = tuple(_index(column, source.names, job.has_header) for column in columns)
    if not job.has_header:
        return Layout(len(source.names), indexes, tuple(str(index + 1) for index in indexes), (source.mark, source.mark))
    source.skip_head()
    names = tuple(source.names[index] for index in indexes)
    return Layout(len(source.names), indexes, names, _heads(source, job, names[0]))


def _heads(source: Source, job: Job, base: str) -> Tuple[bytes, bytes]:
    delimiter = encoded(job.delimiter)
    *added, reason = (quoted(encoded(name), delimiter) for name in new_names(job, base, source.names))
    body, end = parted(source.head)
    numbered = delimiter.join((b"record", body.lstrip(b"\r\n"), reason))
    return source.mark + delimiter.join((body, *added, reason)) + end, source.mark + numbered + (end or b"\n")
