"""The reasons of cells in sentences (docs/MESSAGES.md, 'Columns')."""
from __future__ import annotations

from typing import Optional

NUMBERS = {"gtin": "A GTIN has 8, 12, 13 or 14 digits.", "sscc": "An SSCC has 18 digits."}
WHOLE = {
    "form": "No form begins so.",
    "empty": "The cell is empty.",
    "rounded": "A spreadsheet shortened this number, and its last digits are lost. Format the column as text, and export it again.",
    "fnc1?": "This text seems to spell FNC1. Say what means FNC1.",
    "base64": "The text is not base64.",
    "missing gtin": "The text names no GTIN.",
    "missing sscc": "The text names no SSCC.",
    "hold gtin large": "The GTIN has more digits than this form.",
}


def sentence_of_cell(form: str, reason: str) -> Optional[str]:
    """Returns a sentence for a reason of cells, or None for another reason."""
    kind, *words = reason.split(" ")
    if kind == "ambiguous" and len(words) == 2:
        return f"Two forms read this cell, {words[0]} and {words[1]}. Name the form of the column."
    if kind == "digits" and len(words) == 1:
        return f"{words[0]} digits are neither a GTIN, which has 8, 12, 13 or 14, nor an SSCC, which has 18. Lost zeros can be repaired."
    if form in NUMBERS and kind in ("length", "char"):
        return NUMBERS[form] if kind == "length" else f"Character {int(words[1]) + 1} is not a digit. {NUMBERS[form]}"
    return "The check digit is wrong." if form in NUMBERS and kind == "check" else WHOLE.get(reason)
