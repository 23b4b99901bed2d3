"""The reasons of the program in sentences, each with the place that it names (docs/MESSAGES.md).

A sentence names the byte at which its first mark begins, counted from 0 as the program counts.
"""
from __future__ import annotations

import re
from functools import lru_cache
from typing import Callable, Dict, List, Optional, Sequence, Tuple

from .elements import Element, element_at, elements
from .marks import Mark
from .rows import Ai, Part, Rows
from .sets import sets_by_code

Told = Tuple[str, List[Mark]]
MOST_BYTES, MOST_DIGITS = 2_048, 128
SCHEMES = {"hex": "tag bits", "tag": "EPC tag URI", "pure": "EPC identity URI", "class": "class URI"}
PARTS = {"zero": "the digit 0", "date": "a digit", "digits": "a digit", "characters": "one of the 82 characters that GS1 allows"}
TARGETS = {
    "kind": "No EPC scheme has this key.",
    "missing gcp": "This text does not give the company prefix length. Choose it.",
    "missing filter": "A tag needs a filter value, and this text does not give one. Choose it.",
    "missing serial": "An EPC of this scheme names one thing, and this text has no serial. Add it.",
    "option": "The tables have no EPC of this scheme with this company prefix length and encoding. Choose others.",
}
CLASSES = {
    "class": "No class has this key. Lots are built in; the option --classes adds others.",
    "missing element": "No element of this link makes a class. Add the lot, as in /10/ABC.",
}
DUMPS = {
    "word": "The dump is shorter than the control word, its first four digits. Read the EPC memory bank from bit 16.",
    "extended": "The extended bit (XPC) of the control word is set, which tdl does not read.",
    "toggle": "The toggle bit of the control word is set, so this tag does not hold an EPC.",
    "line": "The line must begin with the bits of the control word, as in u0 a00, and a tag URI must follow.",
    "too-long": "The encoding has more than 31 words of 16 bits. Choose a shorter one.",
}
HOLDS = {
    "char": "has a character that this form cannot hold",
    "length": "is too long or too short for this form",
    "zero": "begins with a zero, which this form would lose",
    "large": "is too large for this form",
}
FIELDS = {"gcp": "company prefix", "rest": "reference", "filter": "filter value", "piece": "piece", "total": "total of pieces", "serial": "serial"}
OF_A_TARGET = {"kind", "missing", "option", "hold", "extra"}
OF_A_TEXT = {"long", "odd", "full", "reading", "http", "path", "key", "repeat", "keys", "digit", "unknown", "bracket", "escape"}
OF_A_TEXT |= {"length", "char", "check", "date"}
PLAIN = {"long", "odd", "full", "reading", "http", "path", "key"}
NEEDS = {"missing gcp": "gcp", "missing filter": "filter", "hold": "encoding", "option": "encoding", "extra": "keys_only"}
# what lines with each first word of a reason have in common, for the count of many lines
COUNTED = {
    "long": "text is too long",
    "odd": "odd number of digits",
    "full": "too many digits",
    "digit": "not a hexadecimal digit",
    "reading": "not in the tables",
    "http": "not a web address",
    "path": "path without a key",
    "bracket": "bracket is missing",
    "unknown": "identifier is not in the tables",
    "escape": "percent sign without two digits",
    "length": "value has a wrong length",
    "char": "character is not allowed",
    "check": "check digit is wrong",
    "date": "date is invalid",
    "repeat": "identifier has two values",
    "key": "no key",
    "keys": "two keys",
    "kind": "key without EPC",
    "extra": "element has no place in an EPC",
    "missing": "prefix length, filter value or serial is missing",
    "option": "no such EPC in the tables",
    "hold": "value does not fit the encoding",
}


def check_digit(digits: bytes) -> int:
    """Returns the check digit of some digits (GS1 General Specifications, section 7.9)."""
    return -sum(int(digit) * (1 if place % 2 else 3) for place, digit in enumerate(reversed(digits.decode("ascii")))) % 10


def character_at(text: bytes, place: int, end: int) -> bytes:
    """Returns the bytes of a text from a place to an end, and on to the end of the character."""
    while end < len(text) and text[end] & 0xC0 == 0x80:
        end += 1
    return text[place:end]


def listed(words: Sequence[str]) -> str:
    """Returns words as a sentence lists them."""
    return words[0] if len(words) == 1 else f"{', '.join(words[:-1])} and {words[-1]}"


def _shown(characters: bytes) -> str:
    """Returns characters as a sentence names them."""
    text = characters.decode("utf-8", "replace")
    names = {"\x1d": "FNC1", " ": "a space", "\0": "byte 0"}
    return names.get(text) or (f"“{text}”" if text.isprintable() else f"byte {characters[0]}")


def _called(code: str, rows: Rows) -> str:
    title = rows.title(code)
    return f"({code}) {title}" if title else f"({code})"


def _count(number: int, noun: str) -> str:
    return f"{number} {noun}" if number == 1 else f"{number} {noun}s"


def _length(text: bytes, element: Element, ai: Ai, rows: Rows) -> Told:
    wanted = str(ai.least) if ai.least == ai.most else f"{ai.least} to {ai.most}"
    mark = Mark(*element.span(0, element.length), "error") if element.length else Mark(element.place, element.edges[-1], "error")
    return f"At byte {mark.start}: the value of {_called(element.code, rows)} has {_count(element.length, 'character')}; it must have {wanted}.", [mark]


def _part_at(ai: Ai, element: Element, character: int) -> Part:
    return next((part for part, start, end in ai.places(element.length) if start <= character < end), ai.parts[-1])


def _character(text: bytes, element: Element, ai: Ai, rows: Rows, character: int) -> Told:
    start, end = element.span(character, character + 1)
    wanted, shown = PARTS[_part_at(ai, element, character).sort], _shown(character_at(text, start, end))
    where = f"It is character {character + 1} of {_called(element.code, rows)}."
    return f"At byte {start}: {shown} is not {wanted}. {where}", [Mark(start, end, "error")]


def _check(text: bytes, element: Element, ai: Ai, rows: Rows) -> Told:
    missing = max(0, ai.most - element.length) if ai.is_short else 0
    value = b"0" * missing + element.plain(text)
    for part, start, end in ai.places(len(value)):
        wanted = check_digit(value[start : end - 1]) if part.has_check else None
        if wanted is not None and value[end - 1 : end] != b"%d" % wanted:
            place, stop = element.span(end - 1 - missing, end - missing)
            sentence = f"At byte {place}: the check digit of {_called(element.code, rows)} must be {wanted}, not {value[end - 1 : end].decode()}."
            return sentence, [Mark(place, stop, "error")]
    return f"A check digit of {_called(element.code, rows)} is wrong.", []


def _date(text: bytes, element: Element, ai: Ai, rows: Rows) -> Told:
    for part, start, end in ai.places(element.length):
        digits = element.plain(text)[start:end].decode("ascii", "replace")
        if part.sort != "date" or (1 <= int(digits[2:4]) <= 12 and int(digits[4:6]) <= 31):
            continue
        is_month = not 1 <= int(digits[2:4]) <= 12
        place, stop = element.span(start + (2 if is_month else 4), start + (4 if is_month else 6))
        wrong = f"the month is {digits[2:4]}; months are 01 to 12" if is_month else f"the day is {digits[4:6]}; days are 00 to 31"
        return f"At byte {place}: {wrong}. The date is that of {_called(element.code, rows)}.", [Mark(place, stop, "error")]
    return f"The date of {_called(element.code, rows)} is invalid.", []


def _of_value(form: str, text: bytes, numbers: List[int], rows: Rows, kind: str) -> Optional[Told]:
    element = element_at(form, text, numbers[0], rows)
    ai = rows.ais.get(element.code) if element else None
    if element is None or ai is None:
        return None
    if kind == "char":
        return _character(text, element, ai, rows, numbers[1]) if numbers[1] < element.length else None
    told: Dict[str, Callable[[bytes, Element, Ai, Rows], Told]] = {"length": _length, "check": _check, "date": _date}
    return told[kind](text, element, ai, rows)


def unknown_code(form: str, text: bytes, place: int, rows: Rows) -> str:
    """Returns the application identifier at a place that these tables lack: one of a set, or the digits in brackets; or nothing."""
    element = element_at(form, text, place, rows) if form != "raw" else None
    if element:
        return element.code
    digits = text[place : place + 4].decode("latin-1")
    return next((digits[:size] for size in (2, 3, 4) if digits[:size] in sets_by_code()), "")


def _unknown(form: str, text: bytes, place: int, rows: Rows) -> Told:
    if place >= len(text):
        return f"The text ends at byte {place}, where an application identifier must follow.", []
    code = unknown_code(form, text, place, rows)
    if not code:
        end = min(place + 4, len(text))
        shown = _shown(character_at(text, place, end))
        return f"At byte {place}: no application identifier of the tables begins with {shown}.", [Mark(place, end, "error")]
    names = sets_by_code().get(code, [])
    remedy = f"The {'set' if len(names) == 1 else 'sets'} {listed(names)} {'has' if len(names) == 1 else 'have'} it." if names else "No set has it."
    return f"At byte {place}: the tables lack the application identifier {_called(code, rows)}. {remedy}", [Mark(place, place + len(code), "error")]


def _bracket(text: bytes, place: int) -> Told:
    is_open = text[place : place + 1] == b"("
    wanted = "digits and “)” must follow this bracket" if is_open else "an element must begin here with “(” and its application identifier"
    return f"At byte {place}: {wanted}.", [Mark(place, place + 1, "error")]


def _coded(form: str, text: bytes, code: str, sort: str, rows: Rows) -> Told:
    marks = [Mark(it.place, it.edges[-1], "error") for it in elements(form, text, rows) if it.code == code]
    places = [str(mark.start) for mark in marks]
    where = f"At {'byte' if len(places) == 1 else 'bytes'} {listed(places)}: " if places else ""
    called = _called(code, rows)
    told = f"{called} has two values. Remove one." if sort == "repeat" else f"{called} is a second key. Put each key on its own line."
    return f"{where}{told}", marks


def _plain(form: str, text: bytes, reason: str) -> Optional[Told]:
    """Returns the sentence of a reason that needs no table, or None."""
    if reason not in PLAIN:
        return None
    last = max(0, len(text) - 1)
    sentences: Dict[str, Told] = {
        "long": (f"A text has at most {MOST_BYTES:,} bytes. Those from byte {MOST_BYTES} on are too many.", [Mark(MOST_BYTES, len(text), "error")]),
        "odd": (f"Two hexadecimal digits make a byte. The last digit, at byte {last}, has no partner.", [Mark(last, len(text), "error")]),
        "full": (
            f"Tag bits have at most {MOST_DIGITS} digits (512 bits). Those from byte {MOST_DIGITS} on are too many.",
            [Mark(MOST_DIGITS, len(text), "error")],
        ),
        "reading": (f"The tables have no {SCHEMES.get(form, 'text')} like this.", []),
        "http": ("A link begins with http:// or https:// and a host.", []),
        "path": ("The path does not end in a key and its qualifiers, as in /01/09506000134352/10/ABC.", []),
        "key": ("No element is a key. Add one, such as (01) GTIN." if text else "The text is empty.", []),
    }
    return sentences[reason]


def _dump(kind: str, words: List[str]) -> Optional[Told]:
    """Returns the sentence of a reason of a dump, or None."""
    if kind == "words":
        return f"The control word announces {_count(int(words[0]), 'word')} of 16 bits, but {_count(int(words[1]), 'bit')} follow.", []
    return (DUMPS[kind], []) if kind in DUMPS else None


def explain(form: str, text: bytes, reason: str, rows: Rows) -> Told:
    """Returns a sentence for the reason why a form does not read a text, and the marks of the place that it names."""
    kind, *words = reason.split(" ")
    told = _plain(form, text, reason) or _dump(kind, words)
    if told:
        return told
    if kind in ("repeat", "keys"):
        return _coded(form, text, words[0], kind, rows)
    numbers = [int(word) for word in words]
    if kind == "digit":
        shown = _shown(character_at(text, numbers[0], numbers[0] + 1))
        return f"At byte {numbers[0]}: {shown} is not a hexadecimal digit.", [Mark(numbers[0], numbers[0] + 1, "error")]
    if kind == "unknown":
        return _unknown(form, text, numbers[0], rows)
    if kind == "bracket":
        return _bracket(text, numbers[0])
    if kind == "escape":
        return _escape(form, text, numbers[0], rows)
    return _of_value(form, text, numbers, rows, kind) or (f"The element at byte {numbers[0]} is invalid: {reason}.", [])


def _escape(form: str, text: bytes, place: int, rows: Rows) -> Told:
    element = element_at(form, text, place, rows)
    start, stop = (element.edges[0], element.edges[-1]) if element else (0, 0)
    found = re.compile(rb"%(?![0-9A-Fa-f]{2})").search(text, start, stop)
    where, marks = (f"At byte {found.start()}: two", [Mark(found.start(), min(found.start() + 3, stop), "error")]) if found else ("Two", [])
    return f"{where} hexadecimal digits must follow a percent sign, as in %2F.", marks


def explain_target(reason: str, rows: Rows) -> Tuple[str, str]:
    """Returns a sentence for the reason why an identity is not written in a form, and the name of the control that may help, or nothing."""
    kind, *words = reason.split(" ")
    need = NEEDS.get(reason, NEEDS.get(kind, ""))
    if kind == "extra":
        return f"An EPC has no place for {_called(words[0], rows)}. Drop other elements than the key and its serial.", need
    if kind == "hold":
        return f"The {FIELDS[words[0]]} {HOLDS[words[1]]}. Choose another encoding.", need
    return {**TARGETS, **CLASSES}.get(reason, reason), need


@lru_cache(maxsize=8)
def _rows_of(tables: Optional[str]) -> Rows:
    return Rows(tables)


def sentence_of(form: str, text: bytes, reason: str, tables: Optional[str]) -> str:
    """Returns a sentence for the reason why a text of a form has no translation, or the reason itself if there is no sentence for it."""
    kind = reason.split(" ")[0]
    if kind in OF_A_TARGET or kind in CLASSES:
        return explain_target(reason, _rows_of(tables))[0]
    return explain(form, text, reason, _rows_of(tables))[0] if kind in OF_A_TEXT or kind in DUMPS or kind == "words" else reason
