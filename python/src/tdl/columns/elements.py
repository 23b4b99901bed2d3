"""Elements of a record, each in a column of its own: composed to a link, which the program reads, and taken out of one."""
from __future__ import annotations

import re
from string import ascii_letters, digits
from typing import Dict, FrozenSet, List, Optional, Sequence, Tuple
from urllib.parse import quote_from_bytes, unquote_to_bytes

from ..cells import BLANKS, ROUNDED
from ..errors import Rejected
from ..known import known_of
from ..options import File, path_of
from ..translator import Translator

STEM = b"https://id.gs1.org"
UNRESERVED = f"{ascii_letters}{digits}-._~".encode()
CODE = re.compile(r"[0-9]{2,4}")
ELEMENT = re.compile(rb"[/?&]([0-9]+)[/=]([^/?&]*)")
PLACED = frozenset({b"unknown", b"escape", b"length", b"char", b"check", b"date"})
CODED = frozenset({b"repeat", b"keys", b"extra"})
SERIALS = (b"21", b"254")
# elements that are bare numbers, whose cells can be repaired
BARE_NUMBERS = {b"00": "sscc", b"01": "gtin", b"02": "gtin"}


def judged(codes: Sequence[str]) -> Tuple[str, ...]:
    """Returns codes that are application identifiers, each once. Raises `ValueError` for others."""
    for code in codes:
        if not CODE.fullmatch(code):
            raise ValueError(f"an application identifier is 2 to 4 digits, not {code!r}")
        if list(codes).count(code) > 1:
            raise ValueError(f"the element {code} is named twice")
    return tuple(codes)


def keys_among(codes: Sequence[str], tables: Optional[File], program: Optional[str] = None) -> List[int]:
    """Returns which of the codes are keys by the tables, as the program reads them. Raises `ValueError` for a code without a row."""
    with Translator("bracketed", tables=tables, program=program) as labels, Translator("link", tables=tables, program=program) as links:
        for code, answer in zip(codes, labels.translate_list([f"({code})0" for code in codes])):
            if isinstance(answer, Rejected) and answer.kind == "unknown":
                raise ValueError(f"the tables have no element {code}")
        answers = links.translate_list([f"https://id.gs1.org/{code}/0" for code in codes])
    found = [number for number, answer in enumerate(answers) if not (isinstance(answer, Rejected) and answer.kind == "path")]
    if not found:
        raise ValueError(f"no element of {', '.join(codes)} is a key, such as 01")
    return found


def values_of(link: bytes, codes: Sequence[bytes]) -> List[bytes]:
    """Returns the values of a canonical link's elements with these codes; one that is absent is empty."""
    found = dict(ELEMENT.findall(link, len(STEM)))
    return [unquote_to_bytes(found[code]) if code in found else b"" for code in codes]


def _is_plain(values: List[bytes]) -> bool:
    return b"" not in values and not b"".join(values).translate(None, UNRESERVED)


def _quoted(value: bytes) -> bytes:
    return quote_from_bytes(value, safe="").encode("ascii") if value.translate(None, UNRESERVED) else value


class Elements:
    """Composes links of values. Each value is that of a code, and stands in a column with a name, which the reasons name."""

    def __init__(self, codes: Sequence[str], names: Sequence[str], keys: Sequence[int], tables: Optional[File] = None) -> None:
        self._codes = [code.encode("ascii") for code in codes]
        self._names = [name.encode("utf-8", "surrogateescape") for name in names]
        self._tables, self._numbers = tables, None  # type: Optional[File], Optional[FrozenSet[str]]
        self._name_of = dict(zip(self._codes, self._names))
        self._keys = list(keys)
        self._order = [self._keys[0], *(number for number in range(len(codes)) if number != self._keys[0])]
        query = b"&".join(self._codes[number] + b"=%b" for number in self._order[1:])
        self._plain = b"%b/%b/%%b" % (STEM, self._codes[self._keys[0]]) + (b"?" + query if query else b"")

    def repair(self, columns: Sequence[List[bytes]]) -> Tuple[List[List[bytes]], List[bytes]]:
        """Returns the values with the GTINs and SSCCs that could be repaired in one way, and for each record what was done, with the names of
        the columns."""
        from ..repairs import repairs_of

        changed = [list(column) for column in columns]
        told: List[List[bytes]] = [[] for _ in columns[0]]
        for code, name, column in zip(self._codes, self._names, changed):
            form = BARE_NUMBERS.get(code)
            for place, value in enumerate(column if form else ()):
                found = repairs_of(form or "", value.strip(BLANKS))
                if len(found) == 1:
                    column[place] = found[0].text
                    told[place] += [name, *found[0].words]
        return changed, [b" ".join(words) for words in told]

    def compose(self, columns: Sequence[List[bytes]]) -> Tuple[List[bytes], Dict[int, bytes]]:
        """Returns the link of each record, and the reasons of those without one, which have an empty text."""
        if all(map(_is_plain, columns)):
            return [self._plain % row for row in zip(*(columns[number] for number in self._order))], {}
        reasons: Dict[int, bytes] = {}
        texts = []
        for number, row in enumerate(zip(*columns)):
            values = [value.strip(b" ") for value in row]
            key = next((it for it in self._keys if values[it]), None)
            reason = self._reason(values, key)
            if reason:
                reasons[number] = reason
            texts.append(b"" if reason or key is None else self._link(values, key))
        return texts, reasons

    def _reason(self, values: List[bytes], key: Optional[int]) -> bytes:
        """Returns why no link is made of values, or nothing."""
        rounded = next((at for at, value in enumerate(values) if re.fullmatch(ROUNDED, value) and self._is_number(at)), None)
        if rounded is not None:
            return b"rounded " + self._names[rounded]
        if key is None:
            return b"missing " + self._names[self._keys[0]] if len(self._keys) == 1 else b"key"
        return b""

    def _is_number(self, at: int) -> bool:
        """Returns whether an element is only digits, by the tables. Others, such as a serial, may look like a number that was shortened."""
        if self._numbers is None:
            self._numbers = known_of(path_of(self._tables)).numbers
        return self._codes[at].decode("ascii") in self._numbers

    def _link(self, values: List[bytes], key: int) -> bytes:
        pairs = [(self._codes[number], _quoted(values[number])) for number in self._order if number != key and values[number]]
        query = b"&".join(b"%b=%b" % pair for pair in pairs)
        return b"%b/%b/%b%b%b" % (STEM, self._codes[key], _quoted(values[key]), b"?" if query else b"", query)

    def named(self, text: bytes, reason: bytes) -> bytes:
        """Returns a reason of a composed link with the name of a column in place of an offset, of a code, or of the serial."""
        kind, *rest = reason.split(b" ")
        code: Optional[bytes] = None
        if kind in PLACED:
            code = next((found[1] for found in ELEMENT.finditer(text, len(STEM)) if found.start(1) == int(rest[0])), None)
        elif kind in CODED:
            code = rest[0]
        elif reason == b"missing serial":
            code = next((code for code in SERIALS if code in self._name_of), None)
        return b" ".join([kind, self._name_of[code], *rest[1:]]) if code in self._name_of else reason
