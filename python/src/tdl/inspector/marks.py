"""The marks of a text's fields, by which the page gives them a colour and a label."""
from __future__ import annotations

from dataclasses import dataclass
from typing import Any, Dict, Iterable, List, Optional, Tuple

from .elements import Element, elements
from .fields import Reading, read_fields
from .filters import filters_of
from .rows import Ai, Kind, Rows

LEADS = {"01": "indicator digit", "00": "extension digit", "8006": "indicator digit"}
ROLES = {"gcp": "prefix", "rest": "reference", "piece": "part"}
REFERENCES = {
    "00": "serial reference",
    "01": "item reference",
    "253": "document type",
    "255": "coupon reference",
    "414": "location reference",
    "8003": "asset type",
    "8004": "asset reference",
    "8006": "item reference",
    "8017": "service reference",
    "8018": "service reference",
}
LABELS = {
    "check": "check digit",
    "code": "application identifier",
    "filter": "filter value",
    "fixed": "fixed",
    "header": "header",
    "padding": "padding",
    "part": "piece",
    "partition": "partition value",
    "prefix": "company prefix",
    "serial": "serial",
    "total": "total of pieces",
    "undivided": "prefix and reference",
    "zero": "filler digit",
}


@dataclass(frozen=True)
class Mark:
    """Some bytes of a text, and their role: a name of `LABELS`, `lead`, `reference` or `error`."""

    start: int
    end: int
    role: str


def label_of(role: str, key: Optional[str]) -> str:
    """Returns the words for a role, by the key of the identity that a text names."""
    if role == "lead":
        return LEADS.get(key or "", "leading digit")
    return REFERENCES.get(key or "", "reference") if role == "reference" else LABELS.get(role, "")


def pieces(text: bytes, marks: Iterable[Mark], key: Optional[str] = None) -> List[Dict[str, Any]]:
    """Returns the text in pieces, each with its first byte, its role and its label. A mark takes the whole of each character."""
    found: List[Dict[str, Any]] = []
    at = 0

    def take(end: int, role: str) -> None:
        nonlocal at
        while end < len(text) and text[end] & 0xC0 == 0x80:
            end += 1
        if end > at:
            found.append({"text": text[at:end].decode("utf-8", "replace"), "at": at, "role": role, "label": label_of(role, key)})
            at = end

    for mark in sorted(marks, key=lambda it: it.start):
        start = mark.start
        while at < start < len(text) and text[start] & 0xC0 == 0x80:
            start -= 1
        take(start, "")
        take(mark.end, mark.role)
    take(len(text), "")
    return found


def _key_marks(ai: Ai, kind: Kind, gcp: Optional[int], length: int) -> List[Tuple[int, int, str]]:
    """Returns the fields of a key by the characters of its value."""
    found: List[Tuple[int, int, str]] = []
    behind = [ROLES.get(name, name) for name in kind.fields] or ["serial"]
    checked = False
    for part, start, end in ai.places(length):
        if part.sort == "zero":
            found.append((start, end, "zero"))
        elif checked:
            found.append((start, end, behind.pop(0) if behind else "serial"))
        elif part.has_check or part.sort == "digits":
            checked = part.has_check
            body = end - 1 if part.has_check else end
            found += [(start, start + kind.lead, "lead"), *_body(start + kind.lead, body, gcp), (body, end, "check")]
        else:
            found += _body(start, end, gcp) if len(ai.parts) == 1 else [(start, end, "serial")]
    return found


def _body(start: int, end: int, gcp: Optional[int]) -> List[Tuple[int, int, str]]:
    """Returns prefix and reference, which are undivided if the company prefix length is unknown."""
    if gcp is None:
        return [(start, end, "undivided")]
    return [(start, start + gcp, "prefix"), (start + gcp, end, "reference")]


def value_marks(element: Element, rows: Rows, key: Optional[str], gcp: Optional[int]) -> List[Mark]:
    """Returns the marks of an element's value, of an identity with this key and this company prefix length."""
    ai, kind = rows.ais.get(element.code), rows.kinds.get(key or "")
    if ai is None:
        return []
    missing = max(0, ai.most - element.length) if ai.is_short else 0
    length = element.length + missing
    if kind and element.code == key:
        found = _key_marks(ai, kind, gcp, length)
    elif kind and element.code == kind.serial:
        found = [(0, length, "serial")]
    else:
        found = [(end - 1, end, "check") for part, _, end in ai.places(length) if part.has_check]
    clipped = ((max(0, start - missing), max(0, end - missing), role) for start, end, role in found)
    return [Mark(*element.span(start, end), role) for start, end, role in clipped if start < end <= element.length]


def key_of(found: List[Element], rows: Rows) -> Optional[str]:
    """Returns the code of the key among elements, or None."""
    return next((it.code for it in found if it.code in rows.ais and rows.ais[it.code].role == "key"), None)


def element_marks(form: str, text: bytes, rows: Rows, gcp: Optional[int]) -> List[Mark]:
    """Returns the marks of a text of elements: of each its code and its value."""
    found = elements(form, text, rows)
    key = key_of(found, rows)
    marks = []
    for it in found:
        marks += [Mark(it.place, it.place + len(it.code), "code"), *value_marks(it, rows, key, gcp)]
    return marks


def field_marks(reading: Reading, lead: int) -> List[Mark]:
    """Returns the marks of an EPC URI."""
    marks: List[Mark] = []
    for field in reading.fields:
        if field.name == "rest":
            middle = min(field.start + lead, field.end)
            marks += [Mark(field.start, middle, "lead"), Mark(middle, field.end, "reference")]
        elif field.name not in ("fixed", "header"):
            marks.append(Mark(field.start, field.end, ROLES.get(field.name, field.name)))
    return marks


def marks_of(form: str, text: bytes, rows: Rows, gcp: Optional[int]) -> List[Mark]:
    """Returns the marks of a text that the program reads or has written. `bit_rows` has those of tag bits."""
    if form == "hex":
        return []
    if form in ("tag", "pure"):
        reading = read_fields(form, text.decode("ascii", "replace"), rows)
        kind = next((it for it in rows.kinds.values() if reading and it.name == reading.option.kind), None)
        return field_marks(reading, kind.lead) if reading and kind else []
    return element_marks("link" if form == "canon" else form, text, rows, gcp)


def bit_rows(reading: Reading, rows: Rows) -> List[Dict[str, Any]]:
    """Returns the fields of tag bits: name, role, bits, their number, and their value."""
    kind = next((it for it in rows.kinds.values() if it.name == reading.option.kind), None)
    key, found = kind.key if kind else None, []
    for field in reading.fields:
        role = ROLES.get(field.name, field.name)
        label, bits, value = label_of(role, key), reading.symbols[field.start : field.end], field.value
        if role == "reference" and kind and kind.lead:
            label = f"{label_of('lead', key)} and {label}"
        if role == "header":
            value = f"{int(bits, 2):02X}: {reading.option.encoding}"
        elif role == "partition":
            value = str(int(bits, 2))
        elif role == "filter":
            value = f"{value}: {filters_of(reading.option.kind)[int(value)]}"
        elif role in ("fixed", "padding"):
            value = ""
        if bits:
            found.append({"label": label, "role": role, "bits": bits, "width": len(bits), "value": value})
    return found
