"""JSON (RFC 8259) read from a stream by the standard library's decoder, which alone judges what is JSON."""
from __future__ import annotations

import codecs
import io
import json
import re
from typing import Any, BinaryIO, Callable, Dict, List, Optional, Tuple

from ..errors import Wrong
from .parts import CHUNK, DEEPEST

SPACE, GAP = re.compile(r"[ \t\n\r]*"), re.compile(r"[ \t\n\r,]*")
# a number is whole only before a character that no number has
DIGITS, NUMBER = frozenset("-0123456789"), re.compile(r"[-+.0-9Ee]+")
# all of a text but its brackets, of which those in strings are none; a bracket; and an array or an object that has none in it
EMPTY = re.compile(r"\[\]|\{\}")
PLAIN, BRACKET = re.compile(r'"(?:[^"\\]|\\.)*"|[^][{}"]+', re.DOTALL), re.compile(r'"(?:[^"\\]|\\.)*"|[][{}]', re.DOTALL)
# an error of the decoder this near to the end of a text may only mean that the text goes on
NEAR = 32


class _Strict(ValueError):
    """Something that Python's decoder lets through. `width` is that of what shows it."""

    def __init__(self, why: str, width: int = 1) -> None:
        super().__init__(why)
        self.width = width


def said_twice(name: str) -> str:
    """Returns what is wrong with an object that has two members of one name."""
    return f"the object that ends here has two members {json.dumps(name)}"


def _object(pairs: List[Tuple[str, Any]]) -> Dict[str, Any]:
    """Returns an object. JSON-LD 1.1 (section 9) wants unique names, and a second value would be read by one partner and not by the next."""
    found = dict(pairs)
    if len(found) != len(pairs):
        names = [name for name, _ in pairs]
        twice = next(name for number, name in enumerate(names) if name in names[:number])
        raise _Strict(said_twice(twice))
    return found


def _constant(word: str) -> Any:
    raise _Strict(f"{word} is not JSON", len(word))


# (numbers stay texts: none is computed with, and Python bounds the digits of an integer)
_DECODER = json.JSONDecoder(object_pairs_hook=_object, parse_constant=_constant, parse_int=str, parse_float=str)
decode: Callable[[str, int], Tuple[Any, int]] = _DECODER.raw_decode


def place(text: str, at: int, lines: int = 0, columns: int = 0) -> str:
    """Returns the line and the column of a place, both from 1, after so many lines and then columns."""
    before = text.count("\n", 0, at)
    column = at - (text.rfind("\n", 0, at) + 1) + (0 if before else columns)
    return f"line {lines + before + 1}, column {column + 1}"


def fault(text: str, at: int, error: ValueError) -> Tuple[int, str]:
    """Returns where the value at a place is wrong, and why, for an error of the decoder."""
    if isinstance(error, json.JSONDecodeError):
        return error.pos, f"not JSON: {error.msg}"
    # (only a decoded text says where such an error is: the least one that has it)
    least, most = at, len(text)
    while least < most:
        middle = (least + most) // 2
        try:
            decode(text[:middle], at)
            has_it = False
        except json.JSONDecodeError:
            has_it = False
        except _Strict:
            has_it = True
        least, most = (least, middle) if has_it else (middle + 1, most)
    return least - (error.width if isinstance(error, _Strict) else 1), str(error)


def is_deeper(text: str, most: int) -> bool:
    """Returns whether more arrays and objects than so many are in one another."""
    left = PLAIN.sub("", text)
    for _ in range(most):
        left = EMPTY.sub("", left)
        if not left:
            return False
    return True


def too_deep(text: str, at: int, most: int) -> int:
    """Returns the place of the first bracket of a value that is within so many others, or that of the value."""
    depth = 0
    for found in BRACKET.finditer(text, at):
        depth += {"[": 1, "{": 1, "]": -1, "}": -1}.get(found[0], 0)
        if depth > most:
            return found.start()
    return at


class JsonText:
    """The text of a stream, of which only as much is held as is needed."""

    def __init__(self, stream: BinaryIO, head: bytes) -> None:
        self._stream, self._decoder = stream, codecs.getincrementaldecoder("utf-8")()
        self.text, self.is_whole, self._lines, self._columns = "", False, 0, 0
        self._add(head)

    @classmethod
    def of(cls, text: str) -> JsonText:
        """Returns a text that is held whole."""
        made = cls(io.BytesIO(), b"")
        made.text = text
        return made

    def _add(self, block: bytes) -> None:
        self.is_whole = not block
        try:
            self.text += self._decoder.decode(block, final=not block)
        except UnicodeDecodeError as error:
            self.text += error.object[: error.start].decode("utf-8")
            raise self.wrong(len(self.text), "not UTF-8") from None

    def read(self) -> bool:
        """Reads on. Returns whether there was more."""
        if not self.is_whole:
            self._add(self._stream.read(CHUNK))
        return not self.is_whole

    def _read_as_much(self, at: int, most: Optional[int]) -> bool:
        """Reads as much again as there is after a place, so that the tries to decode it take time by its size. Returns whether there was more."""
        if most is not None and len(self.text) - at > most:
            raise self.too_long(at, most)
        begun = len(self.text)
        wanted = 2 * begun - at if most is None else min(2 * begun - at, at + most + 1)
        while len(self.text) < wanted and self.read():
            pass
        return len(self.text) > begun

    def too_long(self, at: int, most: int) -> Wrong:
        """Returns that the event at a place is too long."""
        return self.wrong(at, f"the event that begins here is longer than {most:,} bytes")

    def drop(self, at: int) -> None:
        """Forgets the text before a place."""
        lines = self.text.count("\n", 0, at)
        self._columns = at - (self.text.rfind("\n", 0, at) + 1) + (0 if lines else self._columns)
        self._lines, self.text = self._lines + lines, self.text[at:]

    def wrong(self, at: int, why: str) -> Wrong:
        """Returns what is wrong at a place of the held text."""
        return Wrong(f"{place(self.text, at, self._lines, self._columns)}: {why}")

    def skip(self, at: int) -> int:
        """Returns the place after white space."""
        end = SPACE.match(self.text, at).end()  # type: ignore[union-attr]
        while end == len(self.text) and self.read():
            end = SPACE.match(self.text, end).end()  # type: ignore[union-attr]
        return end

    def value(self, at: int, depth: int = 0, most: Optional[int] = None) -> Tuple[Any, int]:
        """Returns the value at a place, and the place after it. It is within `depth` arrays and objects, and has at most so many bytes."""
        while True:
            try:
                found, end = decode(self.text, at)
            except RecursionError:
                raise self.too_deep(at, depth) from None
            except ValueError as error:
                wrong, why = fault(self.text, at, error)
                if self._is_cut(wrong, error) and self._read_as_much(at, most):
                    continue
                raise self.wrong(wrong, why) from None
            if self.text[at] not in DIGITS or not self._is_number_open(at) or not self._read_as_much(at, most):
                break
        # (most values have too few brackets for that)
        if self.text.count("[", at, end) + self.text.count("{", at, end) > DEEPEST - depth and is_deeper(self.text[at:end], DEEPEST - depth):
            raise self.too_deep(at, depth)
        return found, end

    def _is_number_open(self, at: int) -> bool:
        """Returns whether a number at a place may go on after the text."""
        return NUMBER.match(self.text, at).end() == len(self.text)  # type: ignore[union-attr]

    def _is_cut(self, wrong: int, error: ValueError) -> bool:
        """Returns whether an error at a place may only mean that the text goes on."""
        is_near = wrong + NEAR > len(self.text)
        return isinstance(error, json.JSONDecodeError) and (is_near or error.msg.startswith("Unterminated string"))

    def too_deep(self, at: int, depth: int) -> Wrong:
        """Returns that too many arrays and objects are in one another in a value that is within `depth` others."""
        return self.wrong(too_deep(self.text, at, DEEPEST - depth), f"too many arrays and objects in one another, more than {DEEPEST}")
