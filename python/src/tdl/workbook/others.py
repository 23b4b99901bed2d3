"""Files that are not XLSX workbooks, by how they begin."""
from __future__ import annotations

from typing import Optional

OTHERS = {
    b"PK\x03\x04": "a workbook: save it as .xlsx, or as CSV in UTF-8",
    b"\xd0\xcf\x11\xe0": "an old or encrypted workbook: save it as .xlsx without a password, or as CSV in UTF-8",
    b"\xff\xfe": "UTF-16: save it as CSV in UTF-8",
    b"\xfe\xff": "UTF-16: save it as CSV in UTF-8",
}


def other_kind(begin: bytes) -> Optional[str]:
    """Returns what a file is that begins so and is not CSV in UTF-8, and what to do, or None."""
    return next((other for sign, other in OTHERS.items() if begin.startswith(sign)), None)
