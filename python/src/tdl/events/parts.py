"""A part of a document: what stays, and the identifiers in it."""
from __future__ import annotations

import re
from enum import IntEnum
from typing import Dict, List, NamedTuple, Protocol, Tuple

# the most bytes of an event, or in XML of a tag or a comment
LARGEST = 1 << 24
# the most arrays and objects of JSON in one another, from an event's or, outside the events, from the document's on
DEEPEST = 256
# the size of a part
CHUNK = 1 << 20
# how a text begins that is an EPC or may be a Digital Link
BEGIN = "(?i:urn:epc:|https?://)"
_begin = re.compile(BEGIN, re.ASCII)


class Style(IntEnum):
    """How an identifier is written where it stands; the last two stay: one is neither an EPC nor a Digital Link, one is divided by markup."""

    STRING = 0
    CDATA = 1
    CONTENT = 2
    ATTRIBUTE = 3
    FOREIGN = 4
    DIVIDED = 5


STRING, FOREIGN, DIVIDED = Style.STRING, Style.FOREIGN, Style.DIVIDED
QUOTES: Dict[Style, Dict[str, str]] = {Style.CONTENT: {}, Style.ATTRIBUTE: {'"': "&quot;", "'": "&apos;"}}


def spelled(answer: str, style: Style) -> str:
    """Returns an identifier as it is written in a document. In JSON and in CDATA no character of one is escaped."""
    if style in QUOTES:
        # (only here, since a document in JSON needs nothing of it)
        from xml.sax.saxutils import escape

        return escape(answer, QUOTES[style])
    return f'"{answer}"' if style is Style.STRING else answer


def style_of(text: str, style: Style) -> Style:
    """Returns the style of a text that is an EPC or may be a Digital Link, and `FOREIGN` for any other."""
    return style if _begin.match(text) else FOREIGN


# an identifier: its text, the number of its event within the part, from 1, its field, and how it is written
Found = Tuple[str, int, str, Style]


class Located(NamedTuple):
    """A part whose identifiers are found, in the order of the document.

    `raw` is those that may be replaced, as they stand, and `kept` the texts around them, one more. `events` is the number of events that
    begin in the part, and `codec` gives the bytes of its text.
    """

    kept: List[str]
    raw: List[str]
    found: List[Found]
    events: int
    codec: str

    def located(self) -> Located:
        """Returns itself."""
        return self


def cut(text: str, borders: List[int], found: List[Found], events: int, codec: str) -> Located:
    """Returns a text with identifiers, of which those that may be replaced have borders."""
    places = [0, *borders, len(text)]
    pieces = [text[begin:end] for begin, end in zip(places, places[1:])]
    return Located(pieces[::2], pieces[1::2], found, events, codec)


class Part(Protocol):
    """A part of a document, which any process can locate."""

    def located(self) -> Located:
        """Returns the part with its identifiers found."""
