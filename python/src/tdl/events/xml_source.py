"""A document in XML, one part at a time."""
from __future__ import annotations

from typing import BinaryIO, Dict, Iterator, List, NamedTuple, Optional, Tuple
from xml.parsers import expat
from xml.sax.saxutils import quoteattr

from ..errors import Wrong
from .fields import XML_DOCUMENT, XML_EVENTS
from .parts import CHUNK, LARGEST, Located, Part
from .xml_locator import CODEC, Locator

# the encodings whose bytes below 128 are ASCII, so that an identifier can be written in them
ENCODINGS = {"utf-8": "utf-8", "us-ascii": "us-ascii", "iso-8859-1": "iso-8859-1"}


class XmlEvents(NamedTuple):
    """Events as they stand, the namespaces around them, and the encoding of the document."""

    text: bytes
    namespaces: List[Tuple[Optional[str], str]]
    encoding: str

    def located(self) -> Located:
        """Returns the identifiers of the events."""
        locator = Locator(self.encoding, {})
        names = (f" xmlns{':' * bool(prefix)}{prefix or ''}={quoteattr(uri)}" for prefix, uri in self.namespaces)
        before = f"<x{''.join(names)}>".encode(self.encoding, "xmlcharrefreplace")
        locator.parser.Parse(before, False)
        # (the default namespace may be any, and then x would not be found by its name)
        locator.go_to(XML_EVENTS)
        locator.forget(len(before))
        locator.held = self.text
        locator.parser.Parse(self.text, False)
        return locator.located(len(before) + len(self.text))


class XmlSource:
    """The parts of a document. `is_inline` says that this process locates the events; otherwise they are only cut into parts here."""

    def __init__(self, stream: BinaryIO, head: bytes, is_inline: bool) -> None:
        self._stream, self._head, self._is_inline = stream, head, is_inline
        self._locator = Locator(None, XML_DOCUMENT)
        self._parser = self._locator.parser
        self._parser.XmlDeclHandler = self._declaration
        self._parser.StartDoctypeDeclHandler = self._doctype
        self._parser.StartElementHandler = self._root
        self._parser.StartNamespaceDeclHandler, self._parser.EndNamespaceDeclHandler = self._named, self._unnamed
        self._encoding = "utf-8"
        # the namespaces of the elements that are open, and those in force within the list of events, which each part of it begins with
        self._namespaces: Dict[Optional[str], List[str]] = {}
        self._inner: List[Tuple[Optional[str], str]] = []
        # where the events are only cut: how many elements are open below their list, -1 outside it, and the parts that are whole
        self._depth, self._is_first, self._ready = -1, True, []  # type: int, bool, List[Part]

    def parts(self) -> Iterator[Part]:
        """Yields the parts in order. Raises `Wrong` for a text that is not well-formed, has a document type, or is not EPCIS."""
        locator, block = self._locator, self._head
        while True:
            locator.held += block
            try:
                self._parser.Parse(block, not block)
            except expat.ExpatError as error:
                raise Wrong(f"line {error.lineno}, column {error.offset + 1}: not XML: {expat.errors.messages[error.code]}") from None
            yield from self._ready
            self._ready = []
            if not block:
                break
            yield from self._settled()
            end = locator.base + len(locator.held)
            locator.judge(end)
            if end - self._parser.CurrentByteIndex > LARGEST:
                raise locator.wrong(f"the tag or comment that begins here is longer than {LARGEST:,} bytes")
            block = self._stream.read(CHUNK)
        yield locator.located(locator.base + len(locator.held))

    def _settled(self) -> Iterator[Part]:
        """Yields what is read and not part of an event to be cut."""
        locator, size = self._locator, self._parser.CurrentByteIndex - self._locator.base
        if self._depth < 0:
            yield locator.located(locator.settled())
        elif self._depth == 0 and not self._is_first and size > 0 and locator.held[:size].isspace():
            yield Located([locator.held[:size].decode(CODEC)], [], [], 0, CODEC)
            locator.forget(locator.base + size)

    def _declaration(self, _: str, encoding: Optional[str], __: int) -> None:
        """Takes the encoding of the XML declaration."""
        name = (encoding or "utf-8").lower()
        if name not in ENCODINGS:
            raise self._locator.wrong(f"the encoding {encoding} is not one of {', '.join(ENCODINGS)}")
        self._encoding = name

    def _doctype(self, *_: object) -> None:
        raise self._locator.wrong("a document type (DTD) is not allowed")

    def _named(self, prefix: Optional[str], uri: str) -> None:
        self._namespaces.setdefault(prefix, []).append(uri or "")

    def _unnamed(self, prefix: Optional[str]) -> None:
        self._namespaces[prefix].pop()

    def _root(self, name: str, attributes: Dict[str, str]) -> None:
        """Enters the root."""
        local = name.rpartition(" ")[2]
        if name not in XML_DOCUMENT and local not in XML_DOCUMENT:
            roots = ", ".join(root for root in XML_DOCUMENT if " " not in root)
            raise self._locator.wrong(f"not an EPCIS document: the root is {local}, not {roots} or an envelope of SOAP")
        self._locator.start(name, attributes)
        self._parser.StartElementHandler = self._locator.start if self._is_inline else self._start

    def _start(self, name: str, attributes: Dict[str, str]) -> None:
        """Enters an element outside the events, and begins to cut at their list."""
        self._locator.start(name, attributes)
        if self._locator.is_within(XML_EVENTS):
            self._locator.deaf()
            self._parser.StartElementHandler, self._parser.EndElementHandler = self._deeper, self._higher
            self._depth, self._is_first = 0, True
            # (expat names those of an element before its start: at the start of one in the list its own are in force already)
            self._inner = [(prefix, uris[-1]) for prefix, uris in self._namespaces.items() if uris]

    def _deeper(self, _: str, __: Dict[str, str]) -> None:
        if self._depth == 0:
            at = self._parser.CurrentByteIndex
            self._locator.enter()
            if self._is_first:
                self._ready.append(self._locator.located(at))
                self._is_first = False
            elif at - self._locator.base >= CHUNK:
                self._cut(at)
        self._depth += 1

    def _higher(self, name: str) -> None:
        self._depth -= 1
        if self._depth == 0:
            self._locator.leave()
        if self._depth < 0:
            if not self._is_first:
                self._cut(self._parser.CurrentByteIndex)
            self._locator.listen()
            self._parser.StartElementHandler = self._start
            self._locator.end(name)

    def _cut(self, at: int) -> None:
        """Makes a part of the events before a place."""
        locator = self._locator
        self._ready.append(XmlEvents(locator.held[: at - locator.base], self._inner, self._encoding))
        locator.forget(at)
