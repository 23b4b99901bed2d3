"""The identifiers of a text in JSON-LD by their places."""
from __future__ import annotations

import json
from typing import Callable, Generator, List, Optional, Set

from .fields import JSON_EVENTS, TOPS, Node, Tree
from .json_text import JsonText, said_twice
from .parts import CHUNK, DEEPEST, STRING, Found, Part, style_of

Walk = Generator[Part, None, int]
CODEC = "utf-8"


class Walker:
    """Walks over a text along a tree. `events` walks over the events of a document, which are an array at a place, and `frame` takes what stands
    before a place, which is no longer held then. `number` is the number of the event that is walked over. `found` and `borders` are what `cut`
    takes."""

    def __init__(self, source: JsonText, events: Optional[Callable[[int], Walk]] = None, frame: Optional[Callable[[int], Part]] = None) -> None:
        self._source, self._events, self._frame = source, events, frame
        self.found: List[Found] = []
        self.borders: List[int] = []
        self.number = 0
        # the members of the root: their names, and the type
        self.names: Set[str] = set()
        self.type: object = None
        self._is_framed, self._leaf = False, None  # type: bool, object

    def value(self, at: int, node: Optional[Node], depth: int = 0) -> Walk:
        """Walks over the value at a place, which is within `depth` others, and returns the place after it."""
        first = self._source.text[at : at + 1]
        if first == "[" and node is JSON_EVENTS and self._events:
            return (yield from self._events(at))
        if (first == "[" and node is not None) or (first == "{" and isinstance(node, dict)):
            if depth == DEEPEST:
                raise self._source.too_deep(at, depth)
            return (yield from self._items(at, node, depth) if first == "[" else self._members(at, node, depth))  # type: ignore[arg-type]
        found, end = self._source.value(at, depth)
        self._leaf = found
        if isinstance(node, str) and isinstance(found, str):
            style = style_of(found, STRING)
            self.found.append((found, self.number, node, style))
            self.borders += (at, end) if style is STRING else ()
        return end

    def _items(self, at: int, node: Node, depth: int) -> Walk:
        source = self._source
        at = source.skip(at + 1)
        if source.text[at : at + 1] == "]":
            return at + 1
        while True:
            at = source.skip((yield from self.value(at, node, depth + 1)))
            if source.text[at : at + 1] != ",":
                return self._expect(at, "]")
            at = source.skip((yield from self._framed(at + 1)))

    def _members(self, at: int, tree: Tree, depth: int) -> Walk:
        source, names, twice = self._source, set(), None  # type: JsonText, Set[str], Optional[str]
        at = source.skip(at + 1)
        if source.text[at : at + 1] == "}":
            return at + 1
        while True:
            self._expect(at, '"')
            name, at = source.value(at)
            twice = name if name in names else twice
            names.add(name)
            at = source.skip(self._expect(source.skip(at), ":"))
            at = source.skip((yield from (self._of_root(at, name, tree) if depth == 0 else self.value(at, tree.get(name), depth + 1))))
            if source.text[at : at + 1] != ",":
                end = self._expect(at, "}")
                if twice is not None:
                    raise source.wrong(at, said_twice(twice))
                return end
            at = source.skip((yield from self._framed(at + 1)))

    def _of_root(self, at: int, name: str, tree: Tree) -> Walk:
        """Walks over a member of the root. What is within that of a document, and no event itself, is taken bit by bit."""
        self.names.add(name)
        self._leaf, self._is_framed = None, name in TOPS
        end = yield from self.value(at, tree.get(name), 1)
        self._is_framed = False
        if name == "type":
            self.type = self._leaf
        return end

    def _framed(self, at: int) -> Walk:
        """Has what stands before a place taken if it is much, and returns the place as it is then."""
        if at < CHUNK or not self._is_framed or self._frame is None:
            return at
        yield self._frame(at)
        return 0

    def _expect(self, at: int, character: str) -> int:
        """Returns the place after a character that has to stand at a place."""
        if self._source.text[at : at + 1] != character:
            raise self._source.wrong(at, f"not JSON: Expecting {json.dumps(character)}")
        return at + 1


def drain(walk: Walk) -> int:
    """Walks without a part on the way. Returns the place after the value."""
    while True:
        try:
            next(walk)
        except StopIteration as ended:
            return int(ended.value)
