"""The identifiers of many events in JSON-LD at once."""
from __future__ import annotations

import re
from typing import Any, List, NamedTuple, Optional

from .fields import JSON_EVENT, json_identifiers
from .json_text import GAP, JsonText, decode
from .json_walk import CODEC, Walker, drain
from .parts import BEGIN, STRING, Found, Located, cut

# a string of JSON without escapes that begins as a candidate does
QUOTED = re.compile(f'("{BEGIN}[^"]*")', re.ASCII)


class JsonEvents(NamedTuple):
    """Events with the separators between and after them: the text, its size without the last separator, and what the events decode to, if
    this process knows it."""

    text: str
    size: int
    decoded: Optional[List[Any]]

    def located(self) -> Located:
        """Returns the identifiers of the events."""
        decoded = decode(f"[{self.text[: self.size]}]", 0)[0] if self.decoded is None else self.decoded
        found: List[Found] = []
        for number, event in enumerate(decoded, 1):
            json_identifiers(event, JSON_EVENT, number, found)
        candidates = [f'"{text}"' for text, _, _, style in found if style is STRING]
        kept = around(self.text, candidates)
        return _walked(self.text, self.size) if kept is None else Located(kept, candidates, found, len(decoded), CODEC)


def around(text: str, candidates: List[str]) -> Optional[List[str]]:
    """Returns the texts around the candidates, or None if one of them stands elsewhere too or has escapes.

    Without a backslash each match is a whole string, and each string that begins as a candidate does is matched.
    """
    if "\\" in text:
        return None
    pieces = QUOTED.split(text)
    if pieces[1::2] == candidates:
        return pieces[::2]
    wanted = set(candidates)
    if [string for string in pieces[1::2] if string in wanted] != candidates:
        return None
    kept, before = [], pieces[0]
    for string, after in zip(pieces[1::2], pieces[2::2]):
        if string in wanted:
            kept.append(before)
            before = after
        else:
            before += string + after
    return [*kept, before]


def _walked(text: str, size: int) -> Located:
    """Returns the identifiers of the events, each by its place."""
    source = JsonText.of(text)
    walker, at = Walker(source), source.skip(0)
    while at < size:
        walker.number += 1
        end = drain(walker.value(at, JSON_EVENT))
        at = GAP.match(text, end).end()  # type: ignore[union-attr]
    return cut(text, walker.borders, walker.found, walker.number, CODEC)
