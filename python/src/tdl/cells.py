"""Cells as people have them, of a form that is named: how the program spells each."""
from __future__ import annotations

import re
from typing import Dict, Iterable, List, NamedTuple, Optional, Sequence, Tuple

Reasons = Dict[int, bytes]
Places = Optional[Sequence[int]]
ANY, BLANKS = "any", b" \t"
FNC1, FNC1_SPELLINGS, AS_THEY_STAND = b"\x1d", ("<GS>", "|", "^]", "{GS}"), "none"
GROUPED = rb"(?:0[xX])?([0-9A-Fa-f]+(?:[ -][0-9A-Fa-f]+)*)"
MARKS_OF_BITS = (b"x", b"X", b" ", b"-")
# why a cell with a spelling of FNC1 that nothing was said of is not read
UNSAID = b"fnc1?"
# bare numbers: their digits, and the code of the element that they are with the length of its value
DIGITS = {"gtin": rb"(?:[0-9]{8}|[0-9]{12,14})", "sscc": rb"[0-9]{18}"}
CODES = {"gtin": (b"01", 14), "sscc": (b"00", 18)}
# a number of many digits as spreadsheets shorten it: its last digits are lost
ROUNDED = rb"[0-9](?:[.,][0-9]*)?[Ee]\+?[0-9]+"


class Spelling(NamedTuple):
    """How cells are spelled: their form, whether they are repaired, what means FNC1, and whether tag bits are in base64."""

    source: str
    is_repaired: bool = False
    fnc1: Tuple[str, ...] = ()
    is_base64: bool = False

    @property
    def is_any(self) -> bool:
        """Returns whether no form is named."""
        return self.source == ANY

    @property
    def first_asked(self) -> str:
        """Returns the form that the program is asked for the cells, or for some of them."""
        return "raw" if self.is_any or self.source in CODES else self.source


class Group(NamedTuple):
    """Cells of one form: their places, or None for all cells, and the texts that the program reads."""

    form: str
    places: Places
    texts: List[bytes]

    @property
    def asked(self) -> str:
        """Returns the form of the texts."""
        return "raw" if self.form in CODES else self.form


class Read(NamedTuple):
    """Cells by their forms; the reasons of those that are not asked for; and the places of those that raw may read too, each with its form."""

    groups: List[Group]
    reasons: Reasons
    doubts: Dict[int, str]


def trimmed(cells: List[bytes]) -> List[bytes]:
    """Returns cells without the blanks around them."""
    whole = b"".join(cells)
    return [cell.strip(BLANKS) for cell in cells] if b" " in whole or b"\t" in whole else cells


def ungrouped(cell: bytes) -> bytes:
    """Returns hexadecimal digits without 0x and without the marks between groups; another cell as it is."""
    found = re.fullmatch(GROUPED, cell)
    return found[1].translate(None, b" -") if found else cell


def of_base64(cell: bytes) -> Optional[bytes]:
    """Returns the hexadecimal digits of base64, or None for another cell."""
    import base64
    import binascii

    try:
        return base64.b64decode(cell, validate=True).hex().upper().encode("ascii")
    except binascii.Error:
        return None


def coded(form: str, cells: Iterable[bytes]) -> List[bytes]:
    """Returns the element of each bare number, as a scanner transmits it."""
    code, length = CODES[form]
    return [code + cell.zfill(length) for cell in cells]


def _of_number(cell: bytes) -> bytes:
    """Returns why a cell is not a bare number."""
    found = re.search(rb"[^0-9]", cell)
    return b"char 0 %d" % found.start() if found else b"length 0"


def lines_of(cells: Sequence[bytes]) -> bytes:
    """Returns cells as lines."""
    return b"\n".join([*cells, b""])


class Cells:
    """Reads cells of a form that is named."""

    def __init__(self, how: Spelling) -> None:
        self._how = how
        self._means = [spelling.encode("utf-8", "surrogateescape") for spelling in how.fnc1 if spelling != AS_THEY_STAND]
        is_said = AS_THEY_STAND in how.fnc1
        self._unsaid = [] if is_said else [spelling.encode("ascii") for spelling in FNC1_SPELLINGS if spelling not in how.fnc1]

    def read(self, cells: List[bytes]) -> Read:
        """Returns the cells by their forms. No cell has a line feed, or blanks around it."""
        reasons: Reasons = {}
        return Read([self.group(self._how.source, None, cells, reasons)], reasons, {})

    def group(self, form: str, places: Places, cells: List[bytes], reasons: Reasons) -> Group:
        """Returns cells of one form as the program spells them, without those that have a reason."""
        if form == "hex":
            cells, wrong = self._bits(cells)
        elif form == "raw":
            cells, wrong = self._scanned(cells)
        elif form in CODES:
            cells, wrong = self._numbers(form, cells)
        else:
            wrong = {}
        if not wrong:
            return Group(form, places, cells)
        numbers = range(len(cells)) if places is None else places
        reasons.update((numbers[at], reason) for at, reason in wrong.items())
        kept = [at for at in range(len(cells)) if at not in wrong]
        return Group(form, [numbers[at] for at in kept], [cells[at] for at in kept])

    def _bits(self, cells: List[bytes]) -> Tuple[List[bytes], Reasons]:
        """Returns tag bits as hexadecimal digits."""
        if self._how.is_base64:
            found = [of_base64(cell) for cell in cells]
            return [cell or b"" for cell in found], {at: b"base64" for at, cell in enumerate(found) if cell is None}
        whole = b"".join(cells)
        return [ungrouped(cell) for cell in cells] if any(mark in whole for mark in MARKS_OF_BITS) else cells, {}

    def _scanned(self, cells: List[bytes]) -> Tuple[List[bytes], Reasons]:
        """Returns element strings with FNC1 for its spellings. A cell with one that nothing was said of has a reason."""
        wrong: Reasons = {}
        whole = b"\n".join(cells)
        for spelling in self._means:
            if spelling in whole:
                cells = [cell.replace(spelling, FNC1) for cell in cells]
                whole = b"\n".join(cells)
        for spelling in self._unsaid:
            if spelling in whole:
                wrong.update((at, UNSAID) for at, cell in enumerate(cells) if spelling in cell)
        return cells, wrong

    def _numbers(self, form: str, cells: List[bytes]) -> Tuple[List[bytes], Reasons]:
        """Returns the elements of bare numbers."""
        wrong: Reasons = {}
        if not re.fullmatch(rb"(?:%b\n)*" % DIGITS[form], lines_of(cells)):
            is_number = re.compile(DIGITS[form]).fullmatch
            wrong = {at: _of_number(cell) for at, cell in enumerate(cells) if not is_number(cell)}
        return coded(form, cells), wrong
