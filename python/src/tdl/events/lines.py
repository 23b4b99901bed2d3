"""Events in JSON-LD, one a line."""
from __future__ import annotations

from typing import List, Tuple

from ..errors import Wrong
from .fields import JSON_DOCUMENT, TOPS, json_identifiers
from .identities import How
from .job import Rejection, Worker, Written
from .json_events import around
from .json_source import MARK, is_event, is_long
from .json_text import JsonText
from .json_walk import CODEC, Walker, drain
from .parts import STRING, Found, Located, cut

# why a line is left as it is: it is not JSON, or neither an event nor a document, or too long
NOT_JSON, NOT_AN_EVENT, LONG = "json", "event", "long"


def _left(text: str) -> Located:
    """Returns a line that has no identifiers."""
    return Located([text], [], [], 0, CODEC)


def _located(text: str, number: int) -> Tuple[Located, str]:
    """Returns a line with its identifiers found, or why it is left as it is."""
    source = JsonText.of(text)
    try:
        begin = source.skip(len(MARK) if text.startswith(MARK) else 0)
        value, end = source.value(begin)
    except Wrong:
        return _left(text), NOT_JSON
    if source.skip(end) < len(text):
        return _left(text), NOT_JSON
    if not is_event(value) and not (isinstance(value, dict) and any(name in value for name in TOPS)):
        return _left(text), NOT_AN_EVENT
    if is_long(text[begin:end]):
        return _left(text), LONG
    found: List[Found] = []
    json_identifiers(value, JSON_DOCUMENT, number, found)
    candidates = [f'"{one}"' for one, _, _, style in found if style is STRING]
    kept = around(text, candidates)
    if kept is not None:
        return Located(kept, candidates, found, 1, CODEC), ""
    walker = Walker(source)
    walker.number = number
    drain(walker.value(begin, JSON_DOCUMENT))
    return cut(text, walker.borders, walker.found, 1, CODEC), ""


def located_line(line: bytes, number: int) -> Tuple[Located, str]:
    """Returns a line with its identifiers found, or why it is left as it is. A blank line is, without a reason."""
    try:
        text = line.decode(CODEC)
    except UnicodeDecodeError:
        return _left(line.decode(CODEC, "surrogateescape")), NOT_JSON
    return _located(text, number) if text.strip() else (_left(text), "")


def lines_of(piece: bytes) -> Tuple[Located, List[Rejection], int]:
    """Returns lines with their identifiers found, the lines that are left as they are with a reason, and the number of all."""
    kept, raw, found, refused, events, number = [""], [], [], [], 0, 0  # type: List[str], List[str], List[Found], List[Rejection], int, int
    for number, line in enumerate(_split(piece), 1):
        one, reason = located_line(line, number)
        kept[-1] += one.kept[0]
        kept += one.kept[1:]
        raw += one.raw
        found += one.found
        events += one.events
        refused += [Rejection(number, "", "", reason)] * bool(reason)
    return Located(kept, raw, found, events, CODEC), refused, number


def _split(piece: bytes) -> List[bytes]:
    """Returns lines, which end in a line feed alone."""
    *lines, last = piece.split(b"\n")
    return [line + b"\n" for line in lines] + [last] * bool(last)


class LineWorker:
    """Translates lines, by kept runs of the program."""

    def __init__(self, how: How) -> None:
        self._worker = Worker(how)

    def write(self, piece: bytes) -> Written:
        """Returns what is written of lines."""
        located, refused, lines = lines_of(piece)
        ((data, listed, rejected, counts, _),) = self._worker.written_each([located])
        told = sorted([*rejected, *refused], key=lambda row: row.event)
        return Written(data, listed, told, counts._replace(rejected=len(told)), lines)

    def close(self) -> None:
        """Ends the runs."""
        self._worker.close()
