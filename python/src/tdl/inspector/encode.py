"""A label composed of the fields of a form: key type, company prefix, reference and serial; the check digit is computed."""
from __future__ import annotations

import re
from dataclasses import dataclass
from typing import Any, Dict, List, Mapping, Tuple

from .filters import filters_of
from .marks import LEADS, REFERENCES
from .reasons import check_digit
from .rows import Kind, Rows

# key types in the order of the form, by the names of their EPC schemes
TITLES = {
    "sgtin": "GTIN: trade item",
    "sscc": "SSCC: logistic unit",
    "sgln": "GLN: location",
    "grai": "GRAI: returnable asset",
    "giai": "GIAI: individual asset",
    "gdti": "GDTI: document",
    "gsrn": "GSRN: service recipient",
    "gsrnp": "GSRN: service provider",
    "sgcn": "GCN: coupon",
    "itip": "ITIP: piece of a trade item",
}
SAMPLES = {
    "sgtin": ("8", "12345", "6789"),
    "sscc": ("1", "234567890", ""),
    "sgln": ("", "00001", "A7"),
    "grai": ("", "00001", "ABC"),
    "giai": ("", "A-17", ""),
    "gdti": ("", "00001", "X1"),
    "gsrn": ("", "0000000007", ""),
    "gsrnp": ("", "0000000007", ""),
    "sgcn": ("", "00001", "42"),
    "itip": ("8", "12345", "6789"),
}
LEAST_PREFIX, MOST_PREFIX = 4, 12
CHARACTERS = re.compile(r"[!\"%-?A-Z_a-z]*")


class Wrong(ValueError):
    """A field of the form that is invalid: its name and a sentence."""

    def __init__(self, field: str, sentence: str) -> None:
        super().__init__(sentence)
        self.field = field


@dataclass(frozen=True)
class KeyType:
    """A key type: its scheme, the greatest length of lead digit, prefix and reference together, and the sorts of reference and serial."""

    kind: Kind
    most: int
    is_digits: bool
    serial_is_digits: bool
    most_of_serial: int

    @classmethod
    def of(cls, kind: Kind, rows: Rows) -> "KeyType":
        """Returns the key type of an EPC scheme."""
        parts = rows.ais[kind.key].parts
        body = next(part for part in parts if part.sort != "zero")
        serial = parts[-1] if kind.serial == "tail" else rows.ais[kind.serial].parts[0] if kind.serial else None
        return cls(kind, body.most - body.has_check, body.sort == "digits", serial is not None and serial.sort == "digits", serial.most if serial else 0)

    def told(self) -> Dict[str, Any]:
        """Returns what the form needs: labels, the meanings of filter values, and a sample."""
        lead, reference, serial = SAMPLES[self.kind.name]
        return {
            "name": self.kind.name,
            "key": self.kind.key,
            "title": TITLES[self.kind.name],
            "lead": LEADS.get(self.kind.key, "") if self.kind.lead else "",
            "reference": REFERENCES[self.kind.key],
            "serial": bool(self.kind.serial),
            "pieces": bool(self.kind.fields),
            "filters": filters_of(self.kind.name),
            "sample": {"prefix": "0614141", "lead": lead, "reference": reference, "serial": serial, "piece": "1", "total": "2"},
        }


def key_types(rows: Rows) -> List[KeyType]:
    """Returns the key types of the form."""
    by_name = {kind.name: kind for kind in rows.kinds.values()}
    return [KeyType.of(by_name[name], rows) for name in TITLES if name in by_name]


def _field(asked: Mapping[str, Any], name: str, called: str, pattern: str, wanted: str) -> str:
    value = str(asked.get(name) or "").strip()
    if not re.fullmatch(pattern, value, re.ASCII):
        raise Wrong(name, f"The {called} must be {wanted}.")
    return value


def _reference(asked: Mapping[str, Any], key: KeyType, prefix: str) -> str:
    """Returns the reference, with zeros before it if it is too short."""
    called, room = REFERENCES[key.kind.key], key.most - key.kind.lead - len(prefix)
    if not key.is_digits:
        return _field(asked, "reference", called, f"(?=.{{1,{room}}}$){CHARACTERS.pattern}", f"1 to {room} characters that GS1 allows")
    wanted = f"at most {room} digits after this company prefix" if room else "empty after this company prefix"
    return _field(asked, "reference", called, f"[0-9]{{0,{room}}}", wanted).zfill(room) if room else _field(asked, "reference", called, "", wanted)


def _serial(asked: Mapping[str, Any], key: KeyType) -> str:
    if not key.kind.serial:
        return ""
    letters, sort = ("[0-9]*", "digits") if key.serial_is_digits else (CHARACTERS.pattern, "characters that GS1 allows")
    return _field(asked, "serial", "serial", f"(?=.{{0,{key.most_of_serial}}}$){letters}", f"at most {key.most_of_serial} {sort}")


def _pieces(asked: Mapping[str, Any], key: KeyType) -> str:
    """Returns the piece and the number of pieces in two digits each, or nothing for a key that has none."""
    if not key.kind.fields:
        return ""
    found = [_field(asked, name, called, "[0-9]{1,2}", "one or two digits").zfill(2) for name, called in (("piece", "piece"), ("total", "total of pieces"))]
    if not "01" <= found[0] <= found[1]:
        raise Wrong("piece", f"The piece must be from 1 to {int(found[1])}, the total of pieces.")
    return "".join(found)


def _value(asked: Mapping[str, Any], key: KeyType, rows: Rows) -> Tuple[str, str]:
    """Returns the value of the key without a serial, and its check digit or nothing."""
    lengths = f"{LEAST_PREFIX} to {MOST_PREFIX} digits"
    prefix = _field(asked, "prefix", "company prefix", f"[0-9]{{{LEAST_PREFIX},{MOST_PREFIX}}}", lengths)
    called = LEADS.get(key.kind.key, "leading digit")
    lead = _field(asked, "lead", called, "[0-9]", "one digit") if key.kind.lead else ""
    body = f"{lead}{prefix}{_reference(asked, key, prefix)}"
    if not key.is_digits:
        return body, ""
    check = str(check_digit(body.encode("ascii")))
    zero = "0" if rows.ais[key.kind.key].parts[0].sort == "zero" else ""
    return f"{zero}{body}{check}{_pieces(asked, key)}", check


def compose(asked: Mapping[str, Any], rows: Rows) -> Dict[str, Any]:
    """Returns the label of a form's fields, the company prefix length and a sentence. Raises `Wrong` for the first invalid field."""
    key = next((it for it in key_types(rows) if it.kind.name == asked.get("kind")), None)
    if key is None:
        raise Wrong("kind", "Choose a key type.")
    value, check = _value(asked, key, rows)
    serial, has_tail = _serial(asked, key), key.kind.serial == "tail"
    found = [(key.kind.key, value + serial if has_tail else value), *([(key.kind.serial, serial)] if serial and not has_tail else [])]
    text = "".join("({}){}".format(code, part.replace("(", "\\(")) for code, part in found)
    gcp = len(str(asked["prefix"]).strip())
    told = f"the check digit is {check}" if check else "this key has no check digit"
    return {"text": text, "gcp": gcp, "sentence": f"The company prefix has {gcp} digits; {told}."}
