"""What a table document tells of the spelling of cells: the headers of tag bits, the keys of element strings, and the elements of digits."""
from __future__ import annotations

import json
import re
from typing import Any, Dict, FrozenSet, List, NamedTuple, Optional, Pattern

from .tables import BUILT_IN

# two digits that fix the length of an element (GS1 General Specifications, figure 7.8.5-2)
PREDEFINED = b"00.{18}|0[1-3].{14}|04.{16}|1[1-9].{6}|20..|3[1-6].{8}|41.{14}"
PART = re.compile(r"[nx](\.\.)?([0-9]+)([c?])?")
LEAST_OF_WORDS = {"zero": 1, "date": 6}
BITS_OF_HEADER = 8


class Known(NamedTuple):
    """`headers`: the first two digits of tag bits, in upper case. `raw`: finds a line feed before each cell that may be an element string
    with a key and without FNC1. `numbers`: the elements whose values are only digits."""

    headers: FrozenSet[bytes]
    raw: Pattern[bytes]
    numbers: FrozenSet[str]


def _least(word: str) -> int:
    """Returns the least length of a part of a value."""
    found = PART.fullmatch(word)
    if not found:
        return LEAST_OF_WORDS.get(word, 0)
    return int(found[2]) if not found[1] else 0 if found[3] == "?" else 1


def _header(items: List[Any]) -> bytes:
    """Returns the two digits that the bits of an option begin with, or nothing if they are not fixed."""
    bits = ""
    for item in items:
        if item[0] != "lit":
            break
        bits += item[1]
    return b"%02X" % int(bits[:BITS_OF_HEADER], 2) if len(bits) >= BITS_OF_HEADER else b""


def _known(document: Dict[str, Any]) -> Known:
    rows = document["ais"]
    headers = frozenset(filter(None, (_header(option["items"]) for option in document["binary"])))
    keys = [b"%b.{%d}" % (row["code"].encode("ascii"), sum(map(_least, row["parts"]))) for row in rows if row["role"] == "key"]
    raw = re.compile(rb"\n(?:%b)*?(?:%b)" % (PREDEFINED, b"|".join(keys) or b"$^"))
    return Known(headers, raw, frozenset(row["code"] for row in rows if not any(part.startswith("x") for part in row["parts"])))


def known_of(tables: Optional[str]) -> Known:
    """Returns what the tables tell. A document that is not one is left to the program, which says why."""
    try:
        with open(tables or BUILT_IN, "rb") as file:
            return _known(json.loads(file.read()))
    except (OSError, ValueError, LookupError, TypeError, AttributeError, RecursionError):
        if tables is None:
            raise
        return known_of(None)
