"""What programs and people do to cells, undone: only where it can be undone in one way."""
from __future__ import annotations

import re
from typing import List, NamedTuple, Tuple

# blanks, and those that pages and word processors write (U+00A0, U+2007, U+200B, U+202F, U+FEFF)
BLANK = rb"(?:[ \t]|\xc2\xa0|\xe2\x80[\x87\x8b\xaf]|\xef\xbb\xbf)"
WIDE = re.compile(rb"\xc2\xa0|\xe2\x80[\x87\x8b\xaf]|\xef\xbb\xbf")
AROUND = re.compile(rb"%b*(.*?)%b*" % (BLANK, BLANK), re.DOTALL)
FORMULA = re.compile(rb'="([^"]*)"')
DECIMAL = re.compile(rb"(.*[0-9])\.0+", re.DOTALL)
GROUPED = re.compile(rb"[0-9]+(?:(?:%b|-)[0-9]+)*" % BLANK)
BESIDE_BRACKETS = re.compile(rb"%b*(?<!\\)([()])%b*" % (BLANK, BLANK))
CODE_OF_ONE = re.compile(rb"\(([01])\)")
NUMBER_IN_BRACKETS = re.compile(rb"\((0[01])\)([0-9]+(?:(?:%b|-)[0-9]+)*)(?=\(|\Z)" % BLANK)
GTINS, SHORT_GTINS, SSCCS, SHORT_SSCCS = (8, 12, 13, 14), (9, 10, 11), (18,), (15, 16, 17)
MOST_OF_GTIN = 14


class Repaired(NamedTuple):
    """A cell that was repaired, and what was done, in words."""

    text: bytes
    words: Tuple[bytes, ...]


def is_checked(digits: bytes) -> bool:
    """Returns whether the last digit is the check digit of the others (GS1 General Specifications, section 7.9)."""
    return sum((byte - 48) * (3 if place % 2 else 1) for place, byte in enumerate(reversed(digits))) % 10 == 0


def core_of(cell: bytes) -> Repaired:
    """Returns what is in a cell, without what spreadsheets put around it."""
    words: List[bytes] = []
    before = b""
    while cell != before:
        before = cell
        inner = _inner(cell)
        if inner.strip(b" \t") != cell.strip(b" \t"):
            words.append(b"blanks")
        cell = inner
        formula = FORMULA.fullmatch(cell)
        if formula:
            words.append(b"formula")
            cell = formula[1]
        elif cell.startswith(b"'"):
            words.append(b"apostrophe")
            cell = cell[1:]
    return Repaired(cell, tuple(words))


def _inner(cell: bytes) -> bytes:
    found = AROUND.fullmatch(cell)
    return found[1] if found else cell


def _joined(text: bytes) -> Repaired:
    """Returns digits without the blanks and hyphens between them; another text as it is."""
    if not GROUPED.fullmatch(text):
        return Repaired(text, ())
    words = (b"hyphens",) * (b"-" in text) + (b"blanks",) * bool(re.search(BLANK, text))
    return Repaired(re.sub(rb"[^0-9]+", b"", text), words)


def _number(text: bytes) -> Repaired:
    """Returns digits without .0 and without what groups them; another text as it is."""
    decimal = DECIMAL.fullmatch(text)
    joined = _joined(decimal[1] if decimal else text)
    return Repaired(joined.text, (b"decimal",) * bool(decimal) + joined.words) if joined.text.isdigit() else Repaired(text, ())


def _padded(digits: bytes, form: str) -> Tuple[bytes, bytes]:
    """Returns digits with the zeros that a bare number of this form has lost and `zeros`, or the digits and nothing if none is lost; or two
    empty texts if they are not such a number."""
    whole, short, size = (GTINS, SHORT_GTINS, 12) if form == "gtin" else (SSCCS, SHORT_SSCCS, 18)
    if len(digits) in whole:
        return digits, b""
    return (digits.zfill(size), b"zeros") if len(digits) in short and is_checked(digits) else (b"", b"")


def _numbers(source: str, core: Repaired) -> List[Repaired]:
    """Returns the repairs of a bare number."""
    digits, words = _number(core.text)
    found = []
    if digits.isdigit():
        for form in ("gtin", "sscc"):
            text, zeros = _padded(digits, form) if source in ("any", form) else (b"", b"")
            if text:
                found.append(Repaired(text, core.words + words + (zeros,) * bool(zeros)))
        if source == "sscc" and len(digits) == MOST_OF_GTIN and is_checked(digits):
            found.append(Repaired(digits.zfill(18), core.words + words + (b"zeros",)))
    return found


def _scanned(core: Repaired) -> List[Repaired]:
    """Returns the repairs of an element string of digits: the zero of 01 or 00, and blanks between."""
    digits, words = _number(core.text)
    if not digits.isdigit() or b"decimal" in words:
        return []
    is_short = (len(digits) == 15 and digits.startswith(b"1")) or (len(digits) == 19 and digits.startswith(b"0"))
    digits, zeros = (b"0" + digits, (b"zeros",)) if is_short else (digits, ())
    is_whole = (len(digits) == 16 and digits.startswith(b"01")) or (len(digits) == 20 and digits.startswith(b"00"))
    return [Repaired(digits, core.words + words + zeros)] if is_whole and is_checked(digits[2:]) else []


def _in_brackets(core: Repaired) -> List[Repaired]:
    """Returns the repair of an element string in brackets: blanks beside them, the zeros of (00) and (01) and of their numbers."""
    words = list(core.words)
    text = BESIDE_BRACKETS.sub(rb"\1", core.text)
    if text != core.text:
        words.append(b"blanks")
    coded = CODE_OF_ONE.sub(rb"(0\1)", text)
    if coded != text:
        words.append(b"zeros")

    def number(found: "re.Match[bytes]") -> bytes:
        joined = _joined(found[2])
        form, size = ("gtin", 14) if found[1] == b"01" else ("sscc", 18)
        digits = _padded(joined.text, form)[0]
        if not digits:
            return found[0]
        words.extend(joined.words + (b"zeros",) * (len(joined.text) < size))
        return b"(%b)%b" % (found[1], digits.zfill(size))

    return [Repaired(NUMBER_IN_BRACKETS.sub(number, coded), tuple(words))]


def repairs_of(source: str, cell: bytes) -> List[Repaired]:
    """Returns what a cell of a form may have been, each text once. `source` may be `any`."""
    core = core_of(cell)
    found = [core, *_numbers(source, core)]
    if source in ("any", "raw"):
        found += _scanned(core)
    if source in ("any", "bracketed") and core.text.startswith(b"("):
        found += _in_brackets(core)
    if source in ("any", "hex") and WIDE.search(core.text):
        found.append(Repaired(WIDE.sub(b" ", core.text), (*core.words, b"blanks")))
    by_text = {it.text: it for it in reversed(found) if it.words}
    return [Repaired(text, tuple(dict.fromkeys(it.words))) for text, it in by_text.items()]
