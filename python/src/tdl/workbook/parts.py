"""The parts about a workbook: its relationships, its sheets, its shared texts, and which of its formats are those of dates."""
from __future__ import annotations

import posixpath
import re
from typing import Callable, Dict, List, NamedTuple, Optional, Set, Tuple
from xml.parsers import expat

from .archive import Archive, resolved

Attributes = Dict[str, str]
MOST_TEXTS = 4_194_304
ESCAPE = re.compile("_x([0-9A-Fa-f]{4})_")
# the formats of dates and times that have numbers and no code (ISO/IEC 29500-1, section 18.8.30)
DATES = frozenset([*range(14, 23), *range(27, 37), *range(45, 48), *range(50, 59)])
# what a format has besides the letters of dates: texts, characters that follow a backslash, a blank or a filler, and brackets, save those of hours
APART = re.compile(r'"[^"]*"|\\.|_.|\*.|\[(?![hms]+\])[^]]*\]', re.IGNORECASE)
DATED = re.compile("[dmyhs]", re.IGNORECASE)


class Page(NamedTuple):
    """A sheet: its name and its part."""

    name: str
    part: str


def local(name: str) -> str:
    """Returns a name of XML without its prefix."""
    return name.rpartition(":")[2]


def unescaped(text: str) -> str:
    """Returns a text with the characters that _xHHHH_ stands for, except halves of one."""
    if "_x" not in text:
        return text
    return ESCAPE.sub(lambda found: found[0] if "d800" <= found[1].lower() <= "dfff" else chr(int(found[1], 16)), text)


def elements(archive: Archive, part: str, found: Callable[[str, Attributes, int], None]) -> None:
    """Calls a function with each element of a part: its name, its attributes, and the number of those around it."""
    depth = 0

    def start(name: str, attributes: Attributes) -> None:
        nonlocal depth
        found(local(name), attributes, depth)
        depth += 1

    def end(_: str) -> None:
        nonlocal depth
        depth -= 1

    parser = expat.ParserCreate()
    parser.StartElementHandler, parser.EndElementHandler = start, end
    for _ in archive.parse(part, parser):
        pass


def related(archive: Archive, part: str) -> Dict[str, Tuple[str, str]]:
    """Returns what a part is related to: by each identifier the last word of the type, and the part."""
    targets: Dict[str, Tuple[str, str]] = {}
    listed = resolved(part, f"_rels/{posixpath.basename(part)}.rels")

    def found(name: str, attributes: Attributes, _: int) -> None:
        if name == "Relationship" and attributes.get("TargetMode") != "External":
            kind = attributes.get("Type", "").rpartition("/")[2]
            targets[attributes.get("Id", "")] = kind, resolved(part, attributes.get("Target", ""))

    if archive.has(listed):
        elements(archive, listed, found)
    return targets


def only(targets: Dict[str, Tuple[str, str]], kind: str) -> Optional[str]:
    """Returns the first part of a type, or None."""
    return next((part for of, part in targets.values() if of == kind), None)


def pages_of(archive: Archive, part: str, targets: Dict[str, Tuple[str, str]]) -> Tuple[List[Page], bool]:
    """Returns the sheets with cells, and whether the days of the workbook count from 1904."""
    pages: List[Page] = []
    is_from_1904 = False

    def found(name: str, attributes: Attributes, _: int) -> None:
        nonlocal is_from_1904
        if name == "sheet":
            identifier = next((value for key, value in attributes.items() if local(key) == "id" and ":" in key), "")
            kind, target = targets.get(identifier, ("", ""))
            if kind == "worksheet":
                pages.append(Page(attributes.get("name", ""), target))
        elif name == "workbookPr":
            is_from_1904 = attributes.get("date1904", "0") in ("1", "true", "on")

    elements(archive, part, found)
    return pages, is_from_1904


def dated_styles(archive: Archive, part: Optional[str]) -> Set[int]:
    """Returns the numbers of the styles whose format is that of a date or a time."""
    codes: Dict[str, str] = {}
    formats: List[str] = []
    is_inside = False

    def found(name: str, attributes: Attributes, depth: int) -> None:
        nonlocal is_inside
        if depth == 1:
            is_inside = name == "cellXfs"
        elif name == "numFmt":
            codes[attributes.get("numFmtId", "")] = attributes.get("formatCode", "")
        elif is_inside and name == "xf" and depth == 2:
            formats.append(attributes.get("numFmtId", "0"))

    if part is not None and archive.has(part):
        elements(archive, part, found)
    dated = {name for name, code in codes.items() if DATED.search(APART.sub("", code.partition(";")[0]))}
    return {number for number, name in enumerate(formats) if name in dated or (name not in codes and name.isdigit() and int(name) in DATES)}


def shared_texts(archive: Archive, part: Optional[str]) -> List[str]:
    """Returns the texts that cells share."""
    texts: List[str] = []
    if part is None or not archive.has(part):
        return texts
    parser = expat.ParserCreate()
    reader = TextReader(texts, archive)
    parser.StartElementHandler, parser.EndElementHandler, parser.CharacterDataHandler = reader.start, reader.end, reader.data
    parser.buffer_text = True
    for _ in archive.parse(part, parser):
        pass
    return texts


class TextReader:
    """Reads the shared texts: each is what its runs say, without the way to pronounce it."""

    def __init__(self, texts: List[str], archive: Archive) -> None:
        self._texts, self._archive = texts, archive
        self._pieces: List[str] = []
        self._depth, self._spoken, self._is_text = 0, 0, False

    def start(self, name: str, _: Attributes) -> None:
        """Begins an element."""
        self._depth += 1
        name = local(name)
        if self._depth == 2:
            self._pieces.clear()
            if len(self._texts) == MOST_TEXTS:
                raise self._archive.fault(f"it has more than {MOST_TEXTS:,} shared texts: write CSV")
        elif name == "rPh":
            self._spoken = self._spoken or self._depth
        self._is_text = name == "t" and not self._spoken and self._depth > 2

    def end(self, _: str) -> None:
        """Ends an element."""
        if self._depth == 2:
            self._texts.append(unescaped("".join(self._pieces)))
        if self._depth == self._spoken:
            self._spoken = 0
        self._is_text = False
        self._depth -= 1

    def data(self, text: str) -> None:
        """Takes a piece of text."""
        if self._is_text:
            self._pieces.append(text)


def workbook_part(archive: Archive) -> str:
    """Returns the part of the workbook itself."""
    part = only(related(archive, ""), "officeDocument")
    if part is None:
        raise archive.fault("it is not an XLSX workbook: no part of it is one; save it as .xlsx without a password, or as CSV")
    return part
