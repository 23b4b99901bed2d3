"""Rows and cells as they are read: their kinds and their texts."""
from __future__ import annotations

import re
from datetime import datetime, timedelta
from decimal import Decimal, InvalidOperation
from typing import List, NamedTuple

# a number of a cell; longer ones are not made
NUMBER = re.compile(r"[+-]?(?:[0-9]+\.?[0-9]*|\.[0-9]+)(?:[Ee][+-]?[0-9]{1,4})?")
MOST_PLACES = 40
# the day before day 1, as both systems count; in one of them 1900 has a day that never was, so its days from March on count from this one
DAY_0, DAY_0_OF_1904 = datetime(1899, 12, 30), datetime(1904, 1, 1)
MOST_DAYS = 2_958_466


class Cell(NamedTuple):
    """A cell that is not empty: the place of its column, from 0; its kind; and its text.

    The kind is `text`, `number`, `date`, `boolean`, `error`, or `formula`, a formula without a saved value, whose text is its source. A
    formula with a saved value is a cell of the kind of this value. The digits of a number are those of the file, without a power of ten.
    """

    place: int
    kind: str
    text: str


EMPTY = Cell(-1, "empty", "")


class Row(NamedTuple):
    """A row that is not empty: its number, from 1, and its cells in ascending order of place, without those that are empty."""

    number: int
    cells: List[Cell]

    def spread(self, width: int) -> List[Cell]:
        """Returns the cells of the first columns, with `EMPTY` in each place that has none."""
        found = [EMPTY] * width
        for cell in self.cells:
            if cell.place < width:
                found[cell.place] = cell
        return found


def letters(place: int) -> str:
    """Returns the letters by which spreadsheets name the column at a place."""
    high, low = divmod(place, 26)
    return (letters(high - 1) if high else "") + chr(ord("A") + low)


def place_of(name: str) -> int:
    """Returns the place of a column by its letters, or -1 if they are not those of one."""
    place = 0
    for letter in name:
        if not "A" <= letter <= "Z" or place > 26**3:
            return -1
        place = 26 * place + ord(letter) - ord("A") + 1
    return place - 1


def number_text(text: str) -> str:
    """Returns a number without a power of ten, or nothing for another text."""
    if text.isdigit() and text.isascii():
        return text
    if not NUMBER.fullmatch(text):
        return ""
    try:
        number = Decimal(text)
        is_short = number.adjusted() < MOST_PLACES
        return str(int(number)) if is_short and number == number.to_integral_value() else text
    except InvalidOperation:
        return text


def date_text(text: str, is_from_1904: bool) -> str:
    """Returns the date of a number of days, with the time if it has one, or the number itself if it is not that of a date."""
    days = float(text)
    if not 0 <= days < MOST_DAYS:
        return text
    moment = (DAY_0_OF_1904 if is_from_1904 else DAY_0) + timedelta(seconds=round(days * 86_400))
    return moment.date().isoformat() if days.is_integer() else moment.isoformat(" ")
