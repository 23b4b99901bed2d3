"""EPC URIs of schemes that no table document has a kind for, judged by the grammar of TDS 2.0 (sections 6.3 and 8)."""
from __future__ import annotations

import re
from typing import Callable, Dict

PREFIX, NUMBER = "[0-9]{6,12}", "(?:0|[1-9][0-9]*)"
# who a department of defence knows by a CAGE code or a DoDAAC, and the characters of parts, of serials of ADI and of serials of a GTIN
OWNER, OF_PART, OF_ADI = "[0-9A-HJ-NP-Z]{5,6}", "(?:[0-9A-Z-]|%2[Ff]|%23)", "(?:[0-9A-Z-]|%2[Ff])"
OF_SERIAL = r"(?:[!'()*+,.0-9:;=A-Z_a-z-]|%(?:22|25|26|2[Ff]|3[CcEeFf]))"
SCHEMES = {
    "adi": rf"{OWNER}\.{OF_ADI}{{0,32}}\.(?:%23)?{OF_ADI}{{1,30}}",
    "bic": "[A-Z]{3}[JUZ][0-9]{7}",
    "cpi": rf"({PREFIX})\.({OF_PART}+)\.(?=[0-9]{{1,12}}$){NUMBER}",
    "gid": rf"{NUMBER}\.{NUMBER}\.{NUMBER}",
    "imovn": "[0-9]{7}",
    "upui": rf"({PREFIX})\.([0-9]+)\.{OF_SERIAL}{{1,28}}",
    "usdod": rf"{OWNER}\.{NUMBER}",
}
_URI = re.compile(r"urn:epc:(id|idpat):([a-z]+):(.*)")
_ESCAPE = re.compile("%..")
# ISO 6346: the values of letters, which leave out the multiples of 11
LETTERS = dict(zip("ABCDEFGHIJKLMNOPQRSTUVWXYZ", (value for value in range(10, 39) if value % 11)))


def _is_container(body: str) -> bool:
    """Returns whether the check digit of a container code is right (ISO 6346, annex A)."""
    total = sum((LETTERS[sign] if sign in LETTERS else int(sign)) << place for place, sign in enumerate(body[:10]))
    return total % 11 % 10 == int(body[10])


def _is_ship(body: str) -> bool:
    """Returns whether the check digit of a ship's number is right (IMO resolution A.1117)."""
    return sum(int(digit) * (7 - place) for place, digit in enumerate(body[:6])) % 10 == int(body[6])


def _has_size_of_part(body: str) -> bool:
    """Returns whether the prefix and the reference of a part have at most 30 characters."""
    prefix, part, _ = body.split(".")
    return len(prefix) + len(_ESCAPE.sub("x", part)) <= 30


def _has_size_of_item(body: str) -> bool:
    """Returns whether the prefix and the reference of an item have the 13 digits of a GTIN without its check digit."""
    prefix, item, _ = body.split(".", 2)
    return len(prefix + item) == 13


_FURTHER: Dict[str, Callable[[str], bool]] = {"bic": _is_container, "cpi": _has_size_of_part, "imovn": _is_ship, "upui": _has_size_of_item}


def is_of_other_scheme(text: str) -> bool:
    """Returns whether a text is a valid EPC URI, or pattern of all serials, of a scheme that this project does not translate."""
    uri = _URI.fullmatch(text)
    body = uri and SCHEMES.get(uri[2])
    if not uri or not body:
        return False
    instance = uri[3]
    if uri[1] == "idpat":
        if not instance.endswith(".*"):
            return False
        instance = f"{instance[:-1]}0"
    return bool(re.fullmatch(body, instance)) and _FURTHER.get(uri[2], bool)(instance)
