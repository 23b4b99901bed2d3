"""The elements of an element string or a link, each with its place in the text.

Only the program decides whether a text is read. This module finds places in texts that it has answered, so that the page can show them; after
the first error of a text it may find less, or nothing.
"""
from __future__ import annotations

import re
from dataclasses import dataclass
from typing import Iterator, List, Optional, Tuple

from .rows import Rows

FNC1 = b"\x1d"
IDENTIFIERS = (b"]C1", b"]e0", b"]d2", b"]Q3", FNC1)
PREDEFINED = {b"00": 20, b"01": 16, b"02": 16, b"03": 16, b"04": 18, b"20": 4, b"41": 16}
PREDEFINED.update({b"%d" % start: 8 for start in range(11, 20)})
PREDEFINED.update({b"%d" % start: 10 for start in range(31, 37)})
CHARACTERS = {"raw": re.compile(rb".", re.S), "bracketed": re.compile(rb"\\\(|.", re.S), "link": re.compile(rb"%[0-9A-Fa-f]{2}|.", re.S)}
BRACKETED = re.compile(rb"\(([0-9]+)\)((?:\\\(|[^(])*)", re.S)
LINK = re.compile(rb"(https?://[^/?#]+)([^?#]*)(\?[^#]*)?", re.S | re.I)


@dataclass(frozen=True)
class Element:
    """An element: its code, the bytes of the text before it, and the bytes before each character of its value and before what follows."""

    code: str
    place: int
    edges: Tuple[int, ...]

    @property
    def length(self) -> int:
        """Returns the number of characters of the value."""
        return len(self.edges) - 1

    def span(self, first: int, end: int) -> Tuple[int, int]:
        """Returns the bytes of the text that hold some characters of the value."""
        return self.edges[first], self.edges[end]

    def value(self, text: bytes) -> List[bytes]:
        """Returns the characters of the value as the text spells them."""
        return [text[start:end] for start, end in zip(self.edges, self.edges[1:])]

    def plain(self, text: bytes) -> bytes:
        """Returns the value without the spelling that the form needs."""
        return b"".join(bytes([int(it[1:], 16)]) if len(it) == 3 else it[-1:] for it in self.value(text))


def _element(form: str, text: bytes, code: Tuple[int, int], value: Tuple[int, int]) -> Element:
    edges = [found.start() for found in CHARACTERS[form].finditer(text, *value)]
    return Element(text[slice(*code)].decode("ascii"), code[0], (*edges, value[1]))


def _raw(text: bytes, rows: Rows) -> Iterator[Element]:
    at = next((len(it) for it in IDENTIFIERS if text.startswith(it)), 0)
    while at < len(text):
        size = next((size for size in (2, 3, 4) if text[at : at + size] in rows.codes), None)
        if size is None:
            return
        total = PREDEFINED.get(text[at : at + 2])
        stop = text.find(FNC1, at)
        end = min(at + total, len(text)) if total else len(text) if stop < 0 else stop
        yield _element("raw", text, (at, at + size), (min(at + size, end), end))
        at = end + (text[end : end + 1] == FNC1)


def _bracketed(text: bytes, _: Rows) -> Iterator[Element]:
    at = 0
    while found := BRACKETED.match(text, at):
        yield _element("bracketed", text, found.span(1), found.span(2))
        at = found.end()


def _spans(text: bytes, start: int, end: int, separators: bytes) -> Iterator[Tuple[int, int]]:
    """Yields the parts of a text between separators."""
    at = start
    for place in [*(it for it in range(start, end) if text[it : it + 1] in separators), end]:
        yield at, place
        at = place + 1


def _path(text: bytes, start: int, end: int, rows: Rows) -> List[Element]:
    """Returns the elements at the end of a path: the last key, and its qualifiers."""
    segments = list(_spans(text, start, end, b"/"))
    found: List[Element] = []
    for code, value in zip(segments[-2::-2], segments[-1::-2]):
        row = rows.ais.get(text[slice(*code)].decode("latin-1"))
        if row is None:
            break
        found.insert(0, _element("link", text, code, value))
        if row.role == "key":
            return found
    return []


def _link(text: bytes, rows: Rows) -> Iterator[Element]:
    found = LINK.match(text)
    if not found:
        return
    yield from _path(text, *found.span(2), rows)
    for start, end in _spans(text, found.start(3) + 1, found.end(3), b"&;") if found[3] else ():
        name = text[start:end].split(b"=", 1)[0]
        if re.fullmatch(rb"[0-9]+", name):
            yield _element("link", text, (start, start + len(name)), (min(start + len(name) + 1, end), end))


FINDERS = {"raw": _raw, "bracketed": _bracketed, "link": _link}


def elements(form: str, text: bytes, rows: Rows) -> List[Element]:
    """Returns the elements of a text of the form `raw`, `bracketed` or `link`, up to the first place where none begins."""
    return list(FINDERS[form](text, rows))


def element_at(form: str, text: bytes, place: int, rows: Rows) -> Optional[Element]:
    """Returns the element whose code begins at this place, or None."""
    return next((it for it in FINDERS[form](text, rows) if it.place == place), None)
