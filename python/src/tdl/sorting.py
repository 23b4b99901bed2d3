"""Cells of any form: which each has.

A cell without the blanks around it has the first of these forms:

  link       it begins with http:// or https://
  tag, pure  it begins with urn:epc:tag: or urn:epc:id:
  bracketed  it begins with a bracket
  gtin       it is 8, 12, 13 or 14 digits
  sscc       it is 18 digits
  hex        it is whole words of 16 bits, and the first 8 bits are a header of the tables
  raw        it begins with a digit, a symbology identifier or FNC1

Only the program knows whether raw reads what has the form gtin, sscc or hex too: such cells are doubts (answers.py).
"""
from __future__ import annotations

import re
from typing import Dict, List, Optional

from .cells import CODES, DIGITS, Cells, Group, Places, Read, Reasons, Spelling, lines_of
from .known import Known, known_of

DOUBTED = frozenset({*CODES, "hex"})
# patterns of the forms, and the reasons of cells without one
BEFORE = {
    "link": rb"[hH][tT][tT][pP][sS]?://[^\n]*",
    "tag": rb"urn:epc:tag:[^\n]*",
    "pure": rb"urn:epc:id:[^\n]*",
    "bracketed": rb"\([^\n]*",
    **DIGITS,
}
RAW = rb"[0-9\]\x1d][^\n]*"
UNREAD = {"empty": rb"", "form": rb"[^\n]*"}


def _hex_of(known: Known) -> bytes:
    """Returns the pattern of tag bits: words of 16 bits after a header, most of them 96 bits."""
    headers = b"|".join(sorted({*known.headers, *(header.lower() for header in known.headers)})) or b"(?!)"
    digit, marked = rb"[0-9A-Fa-f]", rb"[ -]?[0-9A-Fa-f]"
    plain = rb"%b{2}(?:%b{20}|(?:%b{4})*)" % (digit, digit, digit)
    return rb"(?:(?:%b)%b|(?:0[xX])?(?:%b)(?:%b){2}(?:(?:%b){4})*)" % (headers, plain, headers, marked, marked)


class AnyCells(Cells):
    """Reads cells of any form, by the headers and the keys of the tables."""

    def __init__(self, how: Spelling, tables: Optional[str]) -> None:
        super().__init__(how)
        known = known_of(tables)
        self._raw = known.raw
        forms = {**BEFORE, "hex": _hex_of(known), "raw": RAW}
        sorts = {**forms, **UNREAD}
        self._sort = re.compile(b"|".join(b"(?P<%b>%b)\n" % (name.encode("ascii"), pattern) for name, pattern in sorts.items()))
        # (raw is what the others leave)
        forms["raw"] = rb"(?!(?:%b)\n)%b" % (b"|".join(forms[name] for name in sorted(DOUBTED)), RAW)
        self._all = {name: re.compile(rb"(?:%b\n)*" % pattern) for name, pattern in forms.items()}

    def read(self, cells: List[bytes]) -> Read:
        """Returns the cells by their forms. No cell has a line feed, or blanks around it."""
        reasons: Reasons = {}
        groups: List[Group] = []
        doubts: Dict[int, str] = {}
        lines = lines_of(cells)
        for form, places in self._sorted(lines).items():
            taken = cells if places is None else [cells[place] for place in places]
            if form in UNREAD:
                reasons.update((place, form.encode("ascii")) for place in places or ())
                continue
            if form in DOUBTED:
                doubts.update((place, form) for place in self._doubted(lines if places is None else lines_of(taken), places))
            groups.append(self.group(form, places, taken, reasons))
        return Read(groups, reasons, doubts)

    def _sorted(self, lines: bytes) -> Dict[str, Places]:
        """Returns the places of each form: None if all cells have one."""
        first = self._sort.match(lines)
        form = first.lastgroup if first else None
        if form in self._all and self._all[form].fullmatch(lines):
            return {form: None}
        found: Dict[str, List[int]] = {}
        for place, match in enumerate(self._sort.finditer(lines)):
            found.setdefault(match.lastgroup or "form", []).append(place)
        return {**found}

    def _doubted(self, lines: bytes, places: Places) -> List[int]:
        """Returns the places of lines that raw may read too."""
        found, begin, before = [], 0, 0
        for match in self._raw.finditer(b"\n" + lines):
            before += lines.count(b"\n", begin, match.start())
            begin = match.start()
            found.append(before)
        return found if places is None else [places[number] for number in found]
