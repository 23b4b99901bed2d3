"""The fields of tag bits and of EPC URIs, found by the options of the tables."""
from __future__ import annotations

import re
from dataclasses import dataclass
from functools import lru_cache
from typing import Any, Dict, List, Optional, Tuple

from .rows import Option, Rows

ESCAPED = r"%[0-9A-Fa-f]{2}|[^\"%&/<>?]"


@dataclass(frozen=True)
class Field:
    """A field: its name, its symbols from `start` to `end`, and its value in characters."""

    name: str
    start: int
    end: int
    value: str


@dataclass(frozen=True)
class Reading:
    """The fields of a text, or of bits, and the option by which they are read."""

    option: Option
    symbols: str
    fields: Tuple[Field, ...]

    def field(self, name: str) -> Optional[Field]:
        """Returns the field of this name, or None."""
        return next((field for field in self.fields if field.name == name), None)


def bits_of(text: str) -> str:
    """Returns the bits of hexadecimal digits."""
    return "".join(f"{int(digit, 16):04b}" for digit in text)


def _pattern(item: Tuple[Any, ...]) -> str:
    """Returns a pattern of the words of an item, and maybe of others, which `_value` rejects."""
    name, *rest = item
    if name == "lit":
        return re.escape(str(rest[0]))
    if name == "fill":
        return f"0{{{rest[0]}}}|0{{{rest[1]}}}"
    if name in ("num", "numpad", "numstr", "ascii7"):
        return f"[01]{{{rest[-1] if name == 'ascii7' else rest[1]}}}"
    patterns: Dict[str, str] = {"pad": f"[0-9]{{{rest[1]}}}", "digits": f"[0-9]{{{rest[1]},{rest[-1]}}}"}
    return (patterns | {"int": "0|[1-9][0-9]*", "esc": f"(?:{ESCAPED}){{{rest[1]},{rest[-1]}}}"})[name]


@lru_cache(maxsize=512)
def _compiled(option: Option) -> "re.Pattern[str]":
    return re.compile("".join(f"({_pattern(item)})" for item in option.items), re.S)


def _value(item: Tuple[Any, ...], word: str) -> Optional[str]:
    """Returns the value of a word of an item, or None if the item does not have this word."""
    name, *rest = item
    if name in ("lit", "fill"):
        return word
    if name == "esc":
        return re.sub("%(..)", lambda found: chr(int(found[1], 16)), word)
    if name == "ascii7":
        letters = [int(word[at : at + 7], 2) for at in range(0, len(word) - 6, 7)]
        text = "".join(map(chr, letters)).rstrip("\0")
        return text if rest[1] <= len(text) <= rest[2] and "\0" not in text else None
    if name == "numpad":
        digits = str(int(word, 2)).zfill(rest[2])
        return digits if len(digits) == rest[2] else None
    if name in ("pad", "digits"):
        return word
    if name == "numstr":
        digits = str(int(word, 2))
        return digits[1:] if digits[0] == "1" and 2 <= len(digits) <= rest[2] + 1 else None
    number = int(word, 2 if name == "num" else 10)
    return str(number) if number <= rest[-1] else None


def _names(option: Option) -> List[str]:
    """Returns the name of each item: that of its field, or that of a literal by its place."""
    names: List[str] = []
    for place, (sort, *rest) in enumerate(option.items):
        if sort == "lit":
            names.append("header" if place == 0 else "partition" if names[-1] == "filter" and set(rest[0]) <= {"0", "1"} else "fixed")
        else:
            names.append("padding" if sort == "fill" else rest[0])
    return names


def _begins(option: Option, symbols: str) -> bool:
    return option.items[0][0] != "lit" or symbols.startswith(option.items[0][1])


def read_fields(form: str, text: str, rows: Rows) -> Optional[Reading]:
    """Returns the fields of a text of the form `hex`, `tag` or `pure` that the program reads, or None."""
    symbols = bits_of(text) if form == "hex" else text
    for option in rows.options[form]:
        found = _compiled(option).fullmatch(symbols) if _begins(option, symbols) else None
        if not found:
            continue
        values = [value for value in map(_value, option.items, found.groups()) if value is not None]
        if len(values) == len(option.items):
            spans = map(found.span, range(1, len(values) + 1))
            return Reading(option, symbols, tuple(Field(name, *span, value) for name, span, value in zip(_names(option), spans, values)))
    return None
