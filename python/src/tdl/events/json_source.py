"""A document in JSON-LD, one part at a time."""
from __future__ import annotations

from functools import lru_cache
from typing import Any, BinaryIO, Iterator, List, Tuple

from .fields import JSON_DOCUMENT, JSON_EVENTS, TOPS
from .json_events import JsonEvents
from .json_text import GAP, JsonText, decode, fault
from .json_walk import CODEC, Walk, Walker
from .parts import CHUNK, LARGEST, Located, Part, cut

MARK = "\ufeff"
# the most characters that have not too many bytes
SURE = LARGEST // 4
# the longest text between two events that is kept for the next ones
SHORT = 256


def _gap_fault(gap: str, is_last: bool) -> Tuple[int, str]:
    """Returns where and why the decoder rejects the text between two events, or after the last one, or an empty reason."""
    text = f"[0{gap}]" if is_last else f"[0{gap}0]"
    try:
        decode(text, 0)
    except ValueError as error:
        at, why = fault(text, 0, error)
        return at - 2, why
    return 0, ""


_short_gap_fault = lru_cache(maxsize=1_024)(_gap_fault)


def is_event(found: object) -> bool:
    """Returns whether a value is an event."""
    return isinstance(found, dict) and str(found.get("type", "")).endswith("Event")


def is_long(text: str) -> bool:
    """Returns whether an event has too many bytes."""
    return len(text) > LARGEST or len(text.encode("utf-8", "surrogatepass")) > LARGEST


class JsonSource:
    """The parts of a document. `is_inline` says that this process locates them, so that events need not be decoded twice."""

    def __init__(self, stream: BinaryIO, head: bytes, is_inline: bool) -> None:
        self._text = JsonText(stream, head)
        self._walker = Walker(self._text, self._events, self._frame)
        self._is_inline = is_inline
        self._has_frames = self._is_list = False

    def parts(self) -> Iterator[Part]:
        """Yields the parts in order. Raises `Wrong` for a text that is not JSON or not EPCIS."""
        source, walker = self._text, self._walker
        at = source.skip(len(MARK) if source.text.startswith(MARK) else 0)
        self._is_list = source.text[at : at + 1] == "["
        end = source.skip((yield from walker.value(at, JSON_EVENTS if self._is_list else JSON_DOCUMENT)))
        if end < len(source.text):
            raise source.wrong(end, "not JSON: Extra data")
        has_event = not self._has_frames and is_event({"type": walker.type})
        if not has_event and not self._is_list and not walker.names.intersection(TOPS):
            there = f"there is none of {', '.join(TOPS)}, and the type is not that of an event"
            raise source.wrong(at, f"not an EPCIS document: {there}")
        if has_event and is_long(source.text[at:end]):
            raise source.too_long(at, LARGEST)
        frame = self._frame(end)
        one = [(text, 1, field, style) for text, _, field, style in frame.found]
        yield frame._replace(events=1, found=one) if has_event else frame

    def _frame(self, at: int) -> Located:
        """Returns the held text before a place, which is no longer held."""
        self._has_frames = True
        located = cut(self._text.text[:at], self._walker.borders, self._walker.found, 0, CODEC)
        self._walker.borders, self._walker.found = [], []
        self._text.drop(at)
        return located

    def _events(self, at: int) -> Walk:
        """Yields the events of an array, many in a part, and returns the place after it."""
        text = self._text
        yield self._frame(at + 1)
        at = text.skip(0)
        decoded: List[Any] = []
        if text.text[at : at + 1] == "]":
            return at + 1
        while True:
            event, end = text.value(at, 0, LARGEST)
            if end - at > SURE and is_long(text.text[at:end]):
                raise text.too_long(at, LARGEST)
            if self._is_list and not is_event(event):
                raise text.wrong(at, "not an EPCIS document: the type is not that of an event")
            decoded.append(event)
            at, is_last = self._next(end)
            if is_last or at >= CHUNK:
                yield JsonEvents(text.text[:at], end, decoded if self._is_inline else None)
                text.drop(at)
                at, decoded = 0, []
            if is_last:
                return 1

    def _next(self, end: int) -> Tuple[int, bool]:
        """Returns the place of the event after one that ends here, or of the array's end, and whether it is that."""
        text = self._text
        at = GAP.match(text.text, end).end()  # type: ignore[union-attr]
        while at == len(text.text) and text.read():
            at = GAP.match(text.text, at).end()  # type: ignore[union-attr]
        is_last = text.text[at : at + 1] == "]"
        gap = text.text[end:at]
        wrong, why = _short_gap_fault(gap, is_last) if len(gap) <= SHORT else _gap_fault(gap, is_last)
        if why:
            raise text.wrong(end + wrong, why)
        return at, is_last
