"""The identifiers of a document in XML by their places, as expat (the standard library's parser) gives them."""
from __future__ import annotations

import re
from typing import Dict, List, Tuple
from xml.parsers import expat

from ..errors import Wrong
from .fields import XML_EVENT, XML_EVENTS, Tree
from .parts import DIVIDED, FOREIGN, LARGEST, Found, Located, Style, cut, style_of

# the bytes of a document as characters, one each: only what expat decodes is read as text
CODEC = "latin-1"
WHITE = " \t\r\n"
NOTHING: Tree = {}
CONTENT = Style.CONTENT
EPCIS = "urn:epcglobal:epcis"
# an attribute of a start tag that expat has read
ATTRIBUTE = re.compile(rb"""\s+([^\s=]+)\s*=\s*("[^"]*"|'[^']*')""")
NAME = re.compile(rb"<[^\s/>]+")


class Locator:
    """Collects the identifiers of what a parser reads: `parser` calls its handlers.

    `held` is the bytes from the place `base` of the document on that are not part of what was located yet.
    """

    def __init__(self, encoding: "str | None", tree: Tree) -> None:
        self.parser = expat.ParserCreate(encoding, " ")
        self.parser.buffer_text = False
        self.held, self.base = b"", 0
        self._tree, self._trees = tree, []  # type: Tree, List[Tree]
        self._field = ""
        # the runs of characters of an element: where each begins and ends, and whether it stands in CDATA
        self._runs: List[Tuple[int, int, bool]] = []
        self._texts: List[str] = []
        self._begin, self._is_cdata = -1, False
        self._events = 0
        # how many elements are open from one that is right below a list of events on, and where that one begins
        self._within, self.unit = 0, -1
        self._borders: List[int] = []
        self._found: List[Found] = []
        self.listen()

    def listen(self) -> None:
        """Lets the parser call the handlers."""
        parser = self.parser
        parser.StartElementHandler, parser.EndElementHandler = self.start, self.end
        parser.CommentHandler = parser.ProcessingInstructionHandler = self._markup
        parser.StartCdataSectionHandler, parser.EndCdataSectionHandler = self._cdata, self._no_cdata

    def deaf(self) -> None:
        """Lets the parser call no handler but those that another object sets."""
        parser = self.parser
        parser.CommentHandler = parser.ProcessingInstructionHandler = None
        parser.StartCdataSectionHandler = parser.EndCdataSectionHandler = None

    def is_within(self, tree: Tree) -> bool:
        """Returns whether the children of the current element are those of a tree."""
        return self._tree is tree

    def go_to(self, tree: Tree) -> None:
        """Lets the children of the current element be those of a tree."""
        self._tree = tree

    def start(self, name: str, attributes: Dict[str, str]) -> None:
        """Enters an element. The names of EPCIS have no namespace, or its own if a document makes that the default."""
        tree = self._tree
        if tree is XML_EVENTS:
            self.enter()
        node = tree.get(name)
        if node is None and name.startswith(EPCIS):
            node = tree.get(name.rpartition(" ")[2])
        if self._field:
            # (an identifier has no elements)
            self._leave()
        self._trees.append(tree)
        if node.__class__ is str:
            self._tree, self._field = NOTHING, node  # type: ignore[assignment]
            self.parser.CharacterDataHandler = self._characters
        elif node:
            self._tree = node  # type: ignore[assignment]
            if node is XML_EVENT:
                self._events += tree is XML_EVENTS
            elif attributes:
                self._attributes(attributes)
        else:
            self._tree = NOTHING

    def end(self, _: str) -> None:
        """Leaves an element."""
        self._tree = tree = self._trees.pop()
        if tree is XML_EVENTS:
            self.leave()
        if self._field:
            self._close()
            self._identifier()
            self._leave()

    def enter(self) -> None:
        """Enters an element below a list of events."""
        if not self._within:
            self.unit = self.parser.CurrentByteIndex
        self._within += 1

    def leave(self) -> None:
        """Leaves an element below a list of events."""
        self._within -= 1
        if not self._within:
            # (the place is that of the end tag)
            self.judge(self.held.find(b">", self.parser.CurrentByteIndex - self.base) + 1 + self.base)
            self.unit = -1

    def judge(self, end: int) -> None:
        """Raises `Wrong` if the element that is right below a list of events, and open, is too long where it ends or goes on at a place."""
        if self.unit >= 0 and end - self.unit > LARGEST:
            raise self.wrong(f"the event that begins at byte {self.unit + 1:,} is longer than {LARGEST:,} bytes")

    def wrong(self, why: str) -> Wrong:
        """Returns what is wrong at the current place."""
        return Wrong(f"line {self.parser.CurrentLineNumber}, column {self.parser.CurrentColumnNumber + 1}: {why}")

    def _leave(self) -> None:
        self.parser.CharacterDataHandler = None
        self._field, self._runs, self._texts, self._begin = "", [], [], -1

    def _characters(self, text: str) -> None:
        if self._begin < 0:
            self._begin = self.parser.CurrentByteIndex
        self._texts.append(text)

    def _close(self) -> None:
        """Ends a run of characters at the current place."""
        if self._begin >= 0:
            self._runs.append((self._begin, self.parser.CurrentByteIndex, self._is_cdata))
            self._begin = -1

    def _markup(self, *_: str) -> None:
        if self._field:
            self._close()

    def _cdata(self) -> None:
        self._markup()
        self._is_cdata = True

    def _no_cdata(self) -> None:
        self._markup()
        self._is_cdata = False

    def _identifier(self) -> None:
        """Takes the text of an element."""
        runs, text = self._runs, "".join(self._texts).strip(WHITE)
        if len(runs) > 1:
            runs = [run for run in runs if self.held[run[0] - self.base : run[1] - self.base].strip()]
        if not text:
            return
        begin, end, is_cdata = runs[0]
        if end - begin != len(text):
            raw = self.held[begin - self.base : end - self.base]
            end -= len(raw) - len(raw.rstrip())
            begin += len(raw) - len(raw.lstrip())
        style = style_of(text, DIVIDED if len(runs) > 1 else Style.CDATA if is_cdata else CONTENT)
        self._take(begin, end, text, self._field, style)

    def _attributes(self, attributes: Dict[str, str]) -> None:
        """Takes the identifiers among the attributes of an element, in the order of its tag."""
        fields = {name[1:]: field for name, field in self._tree.items() if name[0] == "@" and name[1:] in attributes}
        if not fields:
            return
        begin = self.parser.CurrentByteIndex - self.base
        at = NAME.match(self.held, begin).end()  # type: ignore[union-attr]
        for attribute in iter(lambda: ATTRIBUTE.match(self.held, at), None):
            at = attribute.end()
            name = attribute[1].decode(CODEC)
            text = attributes[name].strip() if name in fields else ""
            if text:
                place = self.base + attribute.start(2) + 1
                self._take(place, place + len(attribute[2]) - 2, text, str(fields[name]), style_of(text, Style.ATTRIBUTE))

    def _take(self, begin: int, end: int, text: str, field: str, style: Style) -> None:
        """Takes an identifier between two places of the document."""
        self._found.append((text, self._events, field, style))
        if style < FOREIGN:
            self._borders += (begin - self.base, end - self.base)

    def located(self, end: int) -> Located:
        """Returns what is located up to a place, and forgets it."""
        part = cut(self.held[: end - self.base].decode(CODEC), self._borders, self._found, self._events, CODEC)
        self._borders, self._found, self._events = [], [], 0
        self.forget(end)
        return part

    def forget(self, end: int) -> None:
        """Forgets the bytes before a place."""
        self.held, self.base = self.held[end - self.base :], end

    def settled(self) -> int:
        """Returns the place up to which nothing changes any more."""
        runs = [run[0] for run in self._runs[:1]] or [self._begin] * (self._begin >= 0)
        return max(self.base, min([self.parser.CurrentByteIndex, *runs]))
