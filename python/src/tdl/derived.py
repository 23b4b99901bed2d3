"""Answers that are taken of a canonical link: bare numbers and class URIs."""
from __future__ import annotations

import re
from typing import Dict, List, Tuple

Reasons = Dict[int, bytes]
NUMBERS = {"gtin-8": ("gtin", 8), "gtin-12": ("gtin", 12), "gtin-13": ("gtin", 13), "gtin-14": ("gtin", 14), "sscc": ("sscc", 18)}
KEYS = {"gtin": rb"https://id\.gs1\.org/01/([0-9]{14})(?![^/?])", "sscc": rb"https://id\.gs1\.org/00/([0-9]{18})(?![^/?])"}
# the canonical link itself, whatever the options of targets are
LINK, CLASS = "plain", "class"
DERIVED = frozenset({*NUMBERS, CLASS, LINK})


def number_of(link: bytes, target: str) -> Tuple[bytes, bytes]:
    """Returns the bare number of a canonical link, or nothing and the reason."""
    form, size = NUMBERS[target]
    found = re.match(KEYS[form], link)
    if not found:
        return b"", b"missing " + form.encode("ascii")
    lost = len(found[1]) - size
    return (found[1][lost:], b"") if not found[1][:lost].strip(b"0") else (b"", b"hold gtin large")


def numbers_of(links: List[bytes], target: str) -> Tuple[List[bytes], Reasons]:
    """Returns the bare number of each link, empty for an empty one, and the reasons of those without one."""
    found = [number_of(link, target) if link else (b"", b"") for link in links]
    return [number for number, _ in found], {place: reason for place, (_, reason) in enumerate(found) if reason}
