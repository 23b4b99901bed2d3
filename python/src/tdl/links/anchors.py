"""What the rows of a table name, each read by the program."""
from __future__ import annotations

import re
from typing import List, Optional, Sequence, Tuple
from urllib.parse import quote

from ..errors import Rejected
from ..lines import Answer
from ..options import Form
from ..translator import Translator
from .columns import Columns
from .faults import Fault
from .rows import Entry

STEM = "https://id.gs1.org"
FORMS: Tuple[Form, ...] = ("link", "bracketed", "raw")
PLACED, NUMBER = re.compile(r"At bytes? [^:]*: "), re.compile("[0-9]+")
BLANK = re.compile(r"\s")
EXTRA = re.compile("[?&]([0-9]+)=")


def linked(anchor: str) -> str:
    """Returns an anchor with a stem if it is a path."""
    return STEM + anchor if anchor.startswith("/") else anchor


def asked_of(entry: Entry) -> Tuple[Form, str]:
    """Returns the form and the text that the program is asked for what a row names.

    Elements become a link: the first key in the path, and others in the query, where any order is read.
    """
    if entry.elements:
        (code, value), *others = entry.elements
        query = "&".join(f"{code}={quote(value, safe='')}" for code, value in others)
        return "link", f"{STEM}/{code}/{quote(value, safe='')}" + (f"?{query}" if query else "")
    if entry.anchor.startswith("("):
        return "bracketed", entry.anchor
    text = linked(entry.anchor)
    return "link" if "://" in text else "raw", text


def read_anchors(entries: Sequence[Entry], columns: Columns, tables: Optional[str]) -> Tuple[List[str], List[Fault]]:
    """Returns the path of what each row names, such as /01/09506000134352/10/ABC, or nothing for a wrong one, and the faults."""
    paths, faults = [""] * len(entries), []
    asked: List[Tuple[str, str]] = []
    for entry in entries:
        blank = _blank_fault(entry, columns)
        faults += blank
        asked.append(asked_of(entry) if (entry.anchor or entry.elements) and not blank else ("", ""))
    for form in FORMS:
        places = [place for place, (of, _) in enumerate(asked) if of == form]
        if not places:
            continue
        with Translator(form, tables=tables) as run:
            answers = run.translate_list([asked[place][1] for place in places])
        for place, answer in zip(places, answers):
            fault = _fault(entries[place], answer, columns)
            if fault:
                faults.append(fault)
            elif isinstance(answer, str):
                paths[place] = answer[len(STEM) :]
    return paths, faults


def _blank_fault(entry: Entry, columns: Columns) -> List[Fault]:
    """Returns the fault of a cell that has white space within: what stands behind it may be another anchor."""
    cells = [("anchor", entry.anchor), *entry.elements]
    name, text, found = next(((name, text, found) for name, text in cells for found in [BLANK.search(text)] if found), ("", "", None))
    if found is None:
        return []
    what = "a line break" if found[0] in "\n\r" else "a space" if found[0] == " " else ascii(found[0])
    return [columns.fault(entry.row, name, "space", f"a cell names one item, and here is {what} at character {found.start()}", text)]


def _fault(entry: Entry, answer: Answer, columns: Columns) -> Optional[Fault]:
    """Returns what is wrong with what a row names, or None."""
    if isinstance(answer, Rejected):
        return _element_fault(entry, answer, columns) if entry.elements else _anchor_fault(entry, answer, columns)
    extra = EXTRA.search(answer)
    if not extra:
        return None
    name = extra[1] if entry.elements else "anchor"
    text = dict(entry.elements).get(name, entry.anchor)
    return columns.fault(entry.row, name, "attributes", f"({extra[1]}) is not a qualifier of this key", text)


def _anchor_fault(entry: Entry, rejected: Rejected, columns: Columns) -> Fault:
    """Returns what is wrong with an anchor. The place is that in the cell."""
    told, shift = rejected.sentence, len(STEM) if entry.anchor.startswith("/") else 0
    placed = PLACED.match(told)
    if placed:
        told = NUMBER.sub(lambda number: str(int(number[0]) - shift), placed[0]) + told[placed.end() :]
    return columns.fault(entry.row, "anchor", rejected.kind, _phrase(told), entry.anchor)


def _element_fault(entry: Entry, rejected: Rejected, columns: Columns) -> Fault:
    """Returns what is wrong with an element, which is explained as an element string of its own."""
    elements, kind = dict(entry.elements), rejected.kind
    found = NUMBER.match(rejected.text.decode("ascii"), rejected.place) if rejected.place is not None else None
    code = found[0] if found else rejected.code
    name = code if code in elements else entry.elements[0][0]
    if found:
        alone = f"({name})" + elements[name].replace("(", r"\(")
        rejected = Rejected(alone.encode("utf-8"), " ".join([kind, "1", *rejected.reason.split(" ")[2:]]), "bracketed", rejected.tables)
    return columns.fault(entry.row, name, kind, _phrase(PLACED.sub("", rejected.sentence)), elements[name])


def _phrase(sentence: str) -> str:
    return sentence[:1].lower() + sentence[1:].rstrip(".")
