"""`python3 -m tdl jsonl`: JSON lines, each with its answers in members more, as soon as it has come."""
from __future__ import annotations

import argparse
import json
import os
from contextlib import ExitStack
from itertools import chain, repeat
from typing import Any, Callable, Dict, Iterable, Iterator, List, NamedTuple, NoReturn, Optional, Tuple, Union

from .columns.command import add_translation, element, job_of, told
from .columns.elements import Elements, keys_among
from .columns.forms import Forms
from .columns.job import Job, Total
from .columns.layout import new_names
from .files import BLOCK, lines_come, reading, writing
from .json_items import BLANK, Array, Items
from .kinds import MARK, is_begun, judge_begin
from .pool import pool_of


class Line(NamedTuple):
    """A line without the blanks at its end, which are apart; its object, or None; its values; and why it is not asked for, or nothing."""

    body: bytes
    end: bytes
    found: Optional[Dict[str, Any]]
    values: List[bytes]
    reason: str


def _refuse(word: str) -> NoReturn:
    raise ValueError(f"{word} is not JSON")


DECODER = json.JSONDecoder(parse_constant=_refuse)


def _member(value: Any, path: List[str]) -> Any:
    """Returns the member at the end of a path, or None."""
    for name in path:
        value = value.get(name) if isinstance(value, dict) else None
    return value


def _text(value: Any) -> Optional[bytes]:
    """Returns the text of a string or a whole number, or None."""
    if isinstance(value, str):
        return value.encode("utf-8", "surrogatepass")
    return b"%d" % value if isinstance(value, int) and not isinstance(value, bool) else None


def _json(text: bytes) -> bytes:
    return json.dumps(text.decode("utf-8", "surrogateescape")).encode("ascii")


class Written(NamedTuple):
    """Lines with their answers, and the numbers of lines and of rejected ones."""

    data: bytes
    total: Total


class Writer:
    """Writes lines with their answers, by kept runs of the program. A member is its name, or the names on the way to it with dots."""

    def __init__(self, job: Job) -> None:
        codes = [code for code, _ in job.elements]
        members = [column for _, column in job.elements] or [job.column or ""]
        self._paths = [member.split(".") for member in members]
        names = [path[-1] for path in self._paths]
        keys = keys_among(codes, job.options.get("tables"), job.options.get("program")) if codes else []
        self._is_composed = bool(codes)
        *self._added, self._reason = new_names(job, names[0], [])
        self._labels = [_json(name.encode("utf-8", "surrogateescape")) + b":" for name in self._added]
        self._forms = Forms(job, Elements(codes, names, keys, job.options.get("tables")) if codes else None)

    def close(self) -> None:
        """Ends the runs."""
        self._forms.close()

    def write(self, piece: Union[bytes, Items]) -> Written:
        """Returns lines, or the items of an array, with their answers. Blank lines stay as they are."""
        if isinstance(piece, Items):
            befores: Iterable[bytes] = piece.befores
            raws = piece.items
        else:
            *whole, last = piece.split(b"\n")
            befores, raws = repeat(b""), [*(line + b"\n" for line in whole), *filter(None, [last])]
        lines = [self._read(raw) for raw in raws]
        wrong = {number: line.reason.encode("utf-8", "surrogateescape") for number, line in enumerate(lines) if line.reason}
        asked = [number for number, line in enumerate(lines) if line.found is not None and not line.reason]
        columns, found = self._forms.answer([[lines[number].values[at] for number in asked] for at in range(len(self._paths))], {})
        cells = dict(zip(asked, zip(*columns)))
        reasons = {**wrong, **{asked[number]: reason for number, reason in found.items()}}
        written = (self._written(line, cells.get(number, ()), reasons.get(number, b"")) for number, line in enumerate(lines))
        return Written(b"".join(chain.from_iterable(zip(befores, written))), Total(sum(1 for line in lines if line.body), len(reasons)))

    def _read(self, raw: bytes) -> Line:
        body = raw.rstrip(BLANK)
        end = raw[len(body) :]
        if not body:
            return Line(body, end, None, [], "")
        try:
            found = DECODER.decode(body.decode("utf-8"))
        except (ValueError, RecursionError):
            found = None
        if not isinstance(found, dict):
            return Line(body, end, None, [], "json")
        values = [_member(found, path) for path in self._paths]
        return Line(body, end, found, [_text(value) or b"" for value in values], self._reason_of(found, values))

    def _reason_of(self, found: Dict[str, Any], values: List[Any]) -> str:
        """Returns why an object is not asked for, or nothing."""
        taken = next((name for name in self._added if name in found), None)
        if taken is not None:
            return f"twice {taken}"
        if self._is_composed:
            wrong = (path[-1] for path, value in zip(self._paths, values) if value is not None and _text(value) is None)
            return next((f"member {name}" for name in wrong), "")
        if not isinstance(values[0], str):
            return "member"
        return "line-feed" if "\n" in values[0] else ""

    def _written(self, line: Line, cells: Tuple[bytes, ...], reason: bytes) -> bytes:
        members = [label + _json(cell) for label, cell in zip(self._labels, cells) if cell]
        if reason:
            is_taken = line.found is not None and self._reason in line.found
            name = f"{self._added[0]}_reason" if is_taken else self._reason
            members.append(_json(name.encode("utf-8", "surrogateescape")) + b":" + _json(reason))
        if not members:
            return line.body + line.end
        if line.found is None:
            return b'{"line":%b,%b}%b' % (_json(line.body), b",".join(members), line.end)
        return line.body[:-1].rstrip(BLANK) + b"," * bool(line.found) + b",".join(members) + b"}" + line.end


def begin_of(file: int, waits: Callable[[int], None]) -> Tuple[bytes, bytes]:
    """Returns the mark of UTF-8 that a file begins with, or nothing, and the next bytes, with the first that is not blank."""
    data = b""
    while True:
        waits(file)
        block = os.read(file, BLOCK)
        data += block
        mark = MARK if data.startswith(MARK) else b""
        if not block or (not is_begun(data) and data[len(mark) :].strip(BLANK)):
            judge_begin(data)
            return mark, data[len(mark) :]


def translate_jsonl(job: Job, path: str, output: str) -> Total:
    """Translates members of the lines of the file `path`, or of the objects of its array. Each path may be `-`."""
    total = Total(0, 0)
    with ExitStack() as opened:
        file = opened.enter_context(reading(path))
        (stream,) = opened.enter_context(writing(output, is_synced=job.is_synced))

        def sink(written: Written) -> None:
            nonlocal total
            stream.write(written.data)
            stream.flush()
            total = Total(total.records + written.total.records, total.rejected + written.total.rejected)

        pool = pool_of(job.processes, lambda: Writer(job), sink)
        opened.callback(pool.close)
        mark, begun = begin_of(file, pool.wait)
        stream.write(mark)
        array = Array(file, begun, pool.wait) if begun.lstrip(BLANK).startswith(b"[") else None
        pieces: Iterator[Union[bytes, Items]] = lines_come(file, pool.wait, begun)
        if array:
            pieces = array.pieces()
        for piece in pieces:
            pool.submit(piece)
        pool.finish()
        stream.write(array.rest if array else b"")
    return total


def add(parser: argparse.ArgumentParser) -> None:
    """Adds the arguments of `jsonl`."""
    parser.epilog = "The status is 1 if a line was rejected. A written file appears when all is done."
    parser.add_argument("file", nargs="?", default="-", help="the file of JSON lines, or of an array of objects; else, or for -, the standard input")
    which = parser.add_mutually_exclusive_group(required=True)
    which.add_argument("-c", "--column", metavar="MEMBER", help="the member that has texts; one of an inner object by its whole way, such as read.epc")
    told = "a member that has the values of an element, such as 01=gtin; once for each element"
    which.add_argument("-e", "--element", dest="elements", action="append", default=[], type=element, metavar="CODE=MEMBER", help=told)
    add_translation(parser)


def run(asked: argparse.Namespace) -> int:
    """Translates a file, and returns the status."""
    return told(translate_jsonl(job_of(asked), asked.file, asked.output), "line")
