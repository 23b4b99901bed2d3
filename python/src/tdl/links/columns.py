"""The columns of a table of links, by their names in its first row."""
from __future__ import annotations

import re
from dataclasses import dataclass, field
from typing import Dict, Iterator, List, Mapping, Set, Tuple

from ..inspector.rows import Ai, Rows
from ..workbook import letters
from .faults import Fault
from .table import Cells, Damaged

NAMES = ("anchor", "href", "linkType", "hreflang", "title", "type")
# columns that only few tables have, and names of the same columns in the import of GS1 Resolver CE
MORE = ("context", "title*")
ALIASES = {"link": "href", "targeturl": "href", "ianalanguage": "hreflang", "linktitle": "title", "mimetype": "type"}
KNOWN = {**{name.lower(): name for name in NAMES + MORE}, **ALIASES}
CODE = re.compile("[0-9]{2,4}")
# the name by which --column leaves a column out
LEFT_OUT = "#"
# what --column says: by a name of the table in lower case the one that it has here
Naming = Mapping[str, str]


@dataclass(frozen=True)
class Columns:
    """The columns: their names as the table spells them; the places of those that are read, by one of `NAMES` or an AI; the AIs that
    are keys, and qualifiers; and the AIs whose values are 13 or 14 digits with a check digit."""

    spelled: Tuple[str, ...]
    places: Dict[str, int] = field(default_factory=dict)
    keys: List[str] = field(default_factory=list)
    qualifiers: List[str] = field(default_factory=list)
    checked: Set[str] = field(default_factory=set)

    def fault(self, row: int, name: str, word: str, sentence: str, text: str = "") -> Fault:
        """Returns a fault of the column of a name."""
        place = self.places.get(name, len(self.spelled))
        return Fault(row, place, self.spelled[place] if name in self.places else name, word, sentence, text)


def is_name(text: str, naming: Naming) -> bool:
    """Returns whether a text looks like the name of a column."""
    name = text.strip().lower()
    return name in KNOWN or name in naming or bool(CODE.fullmatch(name))


def columns_of(row: int, cells: Cells, tables: Rows, naming: Naming) -> Tuple[Columns, List[Fault]]:
    """Returns the columns that the cells of a row name, and what is wrong with them."""
    spelled = [""] * (cells[-1][0] + 1)
    for place, cell in cells:
        spelled[place] = (cell.text if isinstance(cell, Damaged) else cell).strip()
    columns, faults = Columns(tuple(spelled)), []
    for place, text in enumerate(columns.spelled):
        name = naming.get(text.lower(), KNOWN.get(text.lower(), text))
        if not text or name.startswith(LEFT_OUT):
            continue
        ai = tables.ais.get(name)
        if name not in NAMES + MORE and (ai is None or ai.role == "attribute"):
            faults.append(Fault(row, place, text, "column", _why_unknown(name, tables)))
        elif name in columns.places:
            faults.append(Fault(row, place, text, "column", f"column {letters(columns.places[name])} has this name too"))
        else:
            columns.places[name] = place
            if ai:
                _add(columns, ai)
    return columns, faults + list(_missing(row, columns, naming))


def _add(columns: Columns, ai: Ai) -> None:
    """Adds an AI to the columns."""
    (columns.keys if ai.role == "key" else columns.qualifiers).append(ai.code)
    if len(ai.parts) == 1 and ai.parts[0].has_check and ai.most in (13, 14):
        columns.checked.add(ai.code)


def _missing(row: int, columns: Columns, naming: Naming) -> Iterator[Fault]:
    """Yields the columns that a table has to have and lacks."""
    place, spelled = len(columns.spelled), {text.lower() for text in columns.spelled}
    if "href" not in columns.places:
        yield Fault(row, place, "href", "column", "the table has no column of this name")
    if "anchor" not in columns.places and not columns.keys:
        yield Fault(row, place, "anchor", "column", "the table has no column of this name, and none of a key, such as 01")
    for text in naming:
        if text not in spelled:
            yield Fault(row, place, text, "column", "the table has no column of this name, which --column gives")


def _why_unknown(name: str, tables: Rows) -> str:
    """Returns why a name is not that of a column, and what to do."""
    if name in tables.ais:
        return "this AI is neither a key nor a qualifier; begin the name with # to leave the column out"
    if f"0{name}" in tables.ais:
        return f"no column has this name; write 0{name} in a cell of the format text"
    if CODE.fullmatch(name):
        return "the tables have no such AI; name others by --tables, or begin the name with # to leave the column out"
    return f"no column has this name; choose {', '.join(NAMES)} or an AI, or begin it with # to leave the column out"
