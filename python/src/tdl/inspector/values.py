"""Values as people read them: dates, measures, prices and temperatures (GS1 General Specifications, section 3)."""
from __future__ import annotations

import re
from calendar import month_name, monthrange
from datetime import date
from typing import Callable, List, NamedTuple, Optional, Tuple

CURRENCIES = {
    "036": "AUD", "124": "CAD", "152": "CLP", "156": "CNY", "203": "CZK", "208": "DKK", "344": "HKD", "348": "HUF", "352": "ISK", "356": "INR",
    "360": "IDR", "376": "ILS", "392": "JPY", "410": "KRW", "458": "MYR", "484": "MXN", "554": "NZD", "578": "NOK", "608": "PHP", "682": "SAR",
    "702": "SGD", "704": "VND", "710": "ZAR", "752": "SEK", "756": "CHF", "764": "THB", "784": "AED", "818": "EGP", "826": "GBP", "840": "USD",
    "946": "RON", "949": "TRY", "975": "BGN", "978": "EUR", "980": "UAH", "985": "PLN", "986": "BRL",
}
NO_TIME, NO_DAY = "9999", "The day is 00: the text gives no day."


class Meaning(NamedTuple):
    """A value as people read it, and a remark on it, each empty if there is none."""

    text: str
    remark: str = ""


def full_year(two: int, today: date) -> int:
    """Returns the year of two digits: from 49 years before this year to 50 years after it (GS1 General Specifications, section 7.12)."""
    gap = two - today.year % 100
    century = today.year // 100 + (-1 if gap > 50 else 1 if gap < -49 else 0)
    return century * 100 + two


def _day(year: int, month: int, day: int) -> Meaning:
    if not 1 <= month <= 12:
        return Meaning("", f"There is no month {month:02}.")
    name = month_name[month]
    if day == 0:
        return Meaning(f"{name} {year}", NO_DAY)
    if day > 31:
        return Meaning("", f"No month has {day} days.")
    ordinal = f"{day}{'st' if day == 31 else 'th'}"
    if day > monthrange(year, month)[1]:
        which = f"{name} {year}" if (month, day) == (2, 29) else name
        return Meaning(f"{day} {name} {year}", f"{which} has no {ordinal}.")
    return Meaning(f"{day} {name} {year}")


def _date(digits: str, today: date) -> Meaning:
    return _day(full_year(int(digits[:2]), today), int(digits[2:4]), int(digits[4:6]))


def _with_time(found: Meaning, digits: str) -> Meaning:
    """Returns a day with the time that digits give: hours, then minutes and seconds, as many as there are."""
    if digits in ("", NO_TIME):
        return found
    parts = [digits[at : at + 2] for at in range(0, len(digits), 2)]
    shown = ":".join(parts) if len(parts) > 1 else f"{parts[0]} hours"
    is_time = int(parts[0]) < 24 and all(int(part) < 60 for part in parts[1:])
    remark = "" if is_time else f"There is no time {':'.join(parts)}."
    return Meaning(", ".join(filter(None, (found.text, shown))), " ".join(filter(None, (found.remark, remark))))


def decimal(digits: str, places: int) -> str:
    """Returns digits as a number with so many decimals."""
    padded = digits.zfill(places + 1)
    whole, rest = padded[: len(padded) - places], padded[len(padded) - places :]
    return f"{int(whole)}" + (f".{rest}" if rest else "")


def _dates(value: str, today: date) -> Meaning:
    """Returns a date, or the first and the last day of a period."""
    first = _date(value[:6], today)
    if len(value) != 12:
        return first
    last = _date(value[6:], today)
    return Meaning(f"{first.text} to {last.text}", " ".join(filter(None, (first.remark, last.remark))))


def _measure(code: str, value: str, title: str) -> Meaning:
    unit = re.search(r"\(([^)]+)\)", title)
    name = unit[1].rstrip(".") if unit else "kg/m²" if code.startswith("337") else ""
    return Meaning(f"{decimal(value, int(code[3]))} {name}".rstrip())


def _money(code: str, value: str) -> Meaning:
    if code[:3] in ("391", "393"):
        currency = CURRENCIES.get(value[:3], f"currency {value[:3]}")
        return Meaning(f"{currency} {decimal(value[3:], int(code[3]))}")
    sign = {"394": " %", "395": " in the local currency per unit of measure"}.get(code[:3], " in the local currency")
    return Meaning(f"{decimal(value, int(code[3]))}{sign}")


def _temperature(code: str, value: str) -> Meaning:
    unit = "°F" if code in ("4330", "4332") else "°C"
    return Meaning(f"{'−' if value.endswith('-') else ''}{decimal(value[:6], 2)} {unit}")


# which identifiers a reading is for, by a pattern of their codes, and the reading of a value with its code and its title
READINGS: List[Tuple[str, str, Callable[[str, str, str, date], Meaning]]] = [
    ("1[1-35-7]|4326|7006", "[0-9]{6}", lambda code, value, title, today: _date(value, today)),
    ("7007", "([0-9]{6}){1,2}", lambda code, value, title, today: _dates(value, today)),
    ("432[45]|7003|7011|8008", "[0-9]{6}([0-9]{2}){0,3}", lambda code, value, title, today: _with_time(_date(value[:6], today), value[6:])),
    ("725[01]", "[0-9]{8}([0-9]{4})?", lambda code, value, title, today: _with_time(_day(int(value[:4]), int(value[4:6]), int(value[6:8])), value[8:])),
    ("3[1-6][0-9][0-5]", "[0-9]{6}", lambda code, value, title, today: _measure(code, value, title)),
    ("39[0-5][0-9]", "[0-9]+", lambda code, value, title, today: _money(code, value)),
    ("433[0-3]", "[0-9]{6}-?", lambda code, value, title, today: _temperature(code, value)),
]


def meaning(code: str, value: str, title: str, today: Optional[date] = None) -> Meaning:
    """Returns a value as people read it, or two empty texts if the value itself is what people read."""
    for codes, values, read in READINGS:
        if re.fullmatch(codes, code) and re.fullmatch(values, value, re.ASCII):
            return read(code, value, title, today or date.today())
    return Meaning("")
