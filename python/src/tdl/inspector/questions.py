"""What the page asks: a text, and the options with which its forms are written."""
from __future__ import annotations

import re
from dataclasses import dataclass, field
from typing import Any, Dict, Iterable, List, Mapping, Optional

from ..options import MOST_OF_STEM, STEM

FORMS = {
    "raw": "scanner output",
    "bracketed": "label text",
    "hex": "tag bits",
    "tag": "EPC tag URI",
    "pure": "EPC identity URI",
    "link": "GS1 Digital Link",
    "canon": "canonical link",
}
# what a text of each form begins with, or consists of: tables may define any tag and pure identity URIs of ASCII characters
POSSIBLE = {
    "raw": re.compile(r"[0-9\]^\x1d]|<GS>|$"),
    "bracketed": re.compile(r"\(|$"),
    "hex": re.compile(r"[0-9A-Fa-f]*$"),
    "tag": re.compile(r"[!-~]*$"),
    "pure": re.compile(r"[!-~]*$"),
    "link": re.compile(r"https?://", re.IGNORECASE),
}
MEMBERS = {"text", "gcp", "filter", "encoding", "stem", "keys_only", "target", "tables"}


def _number(name: str, value: Any, least: int, most: int) -> Optional[int]:
    if value in (None, ""):
        return None
    if re.fullmatch("[0-9]{1,2}", str(value)) and least <= int(value) <= most:
        return int(value)
    raise ValueError(f"The {name} must be a number from {least} to {most}.")


def _word(name: str, value: Any, pattern: str, sort: str) -> Optional[str]:
    if value in (None, ""):
        return None
    if isinstance(value, str) and re.fullmatch(pattern, value):
        return value
    raise ValueError(f"The {name} must be {sort}.")


@dataclass(frozen=True)
class Question:
    """A text, and the options of `Translator` that the page has controls for. `target` is the form in which many lines are answered, and
    `tables` the name of a table document, or nothing for the first that is offered."""

    text: str
    options: Dict[str, Any] = field(default_factory=dict)
    target: str = "canon"
    tables: str = ""

    @classmethod
    def of(cls, asked: Mapping[str, Any]) -> "Question":
        """Returns the question of a JSON object of the page. Raises `ValueError` with a sentence for the user if a member is invalid."""
        if not isinstance(asked, Mapping) or set(asked) - MEMBERS or not isinstance(asked.get("text"), str):
            raise ValueError("This is not a question of the page.")
        target = asked.get("target") or "canon"
        if target not in FORMS:
            raise ValueError("Choose a form for the answers.")
        stem = _word("link domain", asked.get("stem"), STEM.pattern, "http:// or https:// and a host, without ?, # or a slash at its end")
        if stem and len(stem) > MOST_OF_STEM:
            raise ValueError(f"The link domain must have at most {MOST_OF_STEM:,} characters.")
        options = {
            "gcp": _number("company prefix length", asked.get("gcp"), 1, 12),
            "filter": _number("filter value", asked.get("filter"), 0, 7),
            "encoding": _word("encoding", asked.get("encoding"), "[!-~]{1,64}", "a name of the tables"),
            "stem": stem,
            "keys_only": True if asked.get("keys_only") is True else None,
        }
        tables = _word("set of tables", asked.get("tables"), "[a-z0-9-]{1,64}", "one that is offered")
        return cls(asked["text"], {name: value for name, value in options.items() if value is not None}, target, tables or "")


def bytes_of(form: str, text: str) -> bytes:
    """Returns the bytes of a text that was typed as a text of this form: in scanner output `^` and `<GS>` are FNC1, the byte 29."""
    if form == "raw":
        text = text.replace("<GS>", "\x1d").replace("^", "\x1d")
    return text.encode("utf-8", "replace")


def forms_in_order(text: str, headers: Iterable[str]) -> List[str]:
    """Returns the six forms, the one that a text looks like first."""
    likely = "raw"
    if re.match(r"\w+://", text):
        likely = "link"
    elif text.lower().startswith("urn:"):
        likely = "tag" if text.lower().startswith("urn:epc:tag") else "pure"
    elif "(" in text[:1]:
        likely = "bracketed"
    elif re.fullmatch("[0-9A-Fa-f]{16,}", text) and f"{int(text[:2], 16):08b}" in headers:
        likely = "hex"
    return [likely, *(form for form in FORMS if form not in (likely, "canon"))]


def possible_forms(text: str, headers: Iterable[str]) -> List[str]:
    """Returns the forms that may read a text by its first characters, after the one that it looks like (docs/FORMATS.md)."""
    likely, *others = forms_in_order(text, headers)
    return [likely, *(form for form in others if POSSIBLE[form].match(text))]
