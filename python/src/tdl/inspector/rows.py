"""The rows of a table document (docs/TABLES.md, 'The table document'), as far as a text is explained by them."""
from __future__ import annotations

import json
import re
from dataclasses import dataclass
from pathlib import Path
from typing import Any, Dict, List, Optional, Tuple

from ..tables import BUILT_IN

TITLES = Path(__file__).resolve().parent / "titles.json"
LEVELS = {"hex": "binary", "tag": "tag", "pure": "pure"}
PART = re.compile(r"([nx])(\.\.)?([0-9]+)([c?])?")


@dataclass(frozen=True)
class Part:
    """A part of a value: its least and greatest number of characters, and what they are: `zero`, `date`, `digits` or `characters`."""

    least: int
    most: int
    sort: str
    has_check: bool = False

    @classmethod
    def of(cls, word: str) -> "Part":
        """Returns the part of a word of the tables, such as `n14c`."""
        if word == "zero":
            return cls(1, 1, "zero")
        if word == "date":
            return cls(6, 6, "date")
        found = PART.fullmatch(word)
        assert found, word
        letter, is_range, size, sign = found.groups()
        least = int(size) if not is_range else 0 if sign == "?" else 1
        return cls(least, int(size), "digits" if letter == "n" else "characters", sign == "c")


@dataclass(frozen=True)
class Ai:
    """An application identifier."""

    code: str
    parts: Tuple[Part, ...]
    role: str
    is_short: bool
    qualifiers: Tuple[str, ...] = ()

    @property
    def least(self) -> int:
        """Returns the least number of characters of its value."""
        return sum(part.least for part in self.parts)

    @property
    def most(self) -> int:
        """Returns the greatest number of characters of its value."""
        return sum(part.most for part in self.parts)

    def places(self, length: int) -> List[Tuple[Part, int, int]]:
        """Returns the parts of a value of this length, each with its first character and the one after its last."""
        found, start = [], 0
        for part in self.parts:
            end = min(start + part.most, length)
            found.append((part, start, end))
            start = end
        return found


@dataclass(frozen=True)
class Kind:
    """A kind of EPC: its name in URIs, the code of its key, the lead digits, where its serial stands: `tail`, a code or empty, and the
    names of its further fields."""

    name: str
    key: str
    lead: int
    serial: str
    fields: Tuple[str, ...] = ()


@dataclass(frozen=True)
class Option:
    """One way to write EPCs of a kind with a company prefix of `gcp` digits."""

    kind: str
    encoding: str
    gcp: int
    items: Tuple[Tuple[Any, ...], ...]


class Rows:
    """The rows of a table document: `path`, or None for the tables that the program has built in."""

    def __init__(self, path: Optional[str] = None) -> None:
        document = json.loads(Path(path or BUILT_IN).read_bytes())
        self.ais: Dict[str, Ai] = {
            row["code"]: Ai(
                row["code"], tuple(map(Part.of, row["parts"])), row["role"], row.get("short", False), tuple(row.get("qualifiers", ()))
            )
            for row in document["ais"]
        }
        self.kinds: Dict[str, Kind] = {
            row["key"]: Kind(row["name"], row["key"], row["lead"], row["serial"], tuple(row.get("fields", ()))) for row in document["kinds"]
        }
        self.options: Dict[str, List[Option]] = {
            form: [Option(row["kind"], row["encoding"], row["gcp"], tuple(map(tuple, row["items"]))) for row in document[level]]
            for form, level in LEVELS.items()
        }
        self.codes = frozenset(code.encode("ascii") for code in self.ais)
        self.titles: Dict[str, str] = json.loads(TITLES.read_text("utf-8"))

    def title(self, code: str) -> str:
        """Returns the data title of a code, or nothing if none is known."""
        return self.titles.get(code, "")

    def encodings(self, kind: Optional[str] = None) -> List[str]:
        """Returns the names of the encodings of tags, of one kind or of all."""
        return list(dict.fromkeys(option.encoding for option in self.options["hex"] if kind in (None, option.kind)))

    def headers(self) -> Tuple[str, ...]:
        """Returns the bits with which tags begin."""
        return tuple({option.items[0][1][:8] for option in self.options["hex"] if option.items[0][0] == "lit"})
