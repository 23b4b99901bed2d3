"""Values of records in the forms that are asked for."""
from __future__ import annotations

from typing import List, NamedTuple, Optional, Tuple

from ..answers import Answers
from ..cells import Reasons, Spelling
from ..derived import LINK
from .elements import Elements, values_of
from .job import Job


class Fields(NamedTuple):
    """The new fields of records, a list for each column, and the first reason of each record that lacks one."""

    columns: List[List[bytes]]
    reasons: Reasons


def _spread(cells: List[bytes], places: List[int], count: int) -> List[bytes]:
    """Returns `count` fields that have these at their places, and are empty elsewhere."""
    found = [b""] * count
    for place, cell in zip(places, cells):
        found[place] = cell
    return found


class Forms:
    """Answers records: a list for each form, one for each element that is split off, and those that name forms and repairs."""

    def __init__(self, job: Job, elements: Optional[Elements]) -> None:
        self._elements, self._is_any, self._is_repaired = elements, job.source == "any", job.is_repaired
        how = Spelling(job.source, job.is_repaired and not elements, job.fnc1, job.is_base64)
        self._answers = Answers(how, [*job.targets, *([LINK] if job.split else [])], job.options)
        self._codes = [code.encode("ascii") for code in job.split]

    def answer(self, columns: List[List[bytes]], wrong: Reasons) -> Fields:
        """Returns the new fields. `columns` has a list of values for each element, or the list of texts; records with a reason in `wrong`
        are not asked for."""
        repaired: List[List[bytes]] = []
        if self._elements and self._is_repaired:
            columns, words = self._elements.repair(columns)
            repaired = [words]
        texts, unasked = self._texts(columns)
        reasons = {**unasked, **wrong}
        if not reasons:
            found = self._translated(texts)
            return Fields(found.columns + repaired, found.reasons)
        places = [place for place in range(len(texts)) if place not in reasons]
        found = self._translated([texts[place] for place in places])
        reasons.update((places[number], reason) for number, reason in found.reasons.items())
        return Fields([_spread(column, places, len(texts)) for column in found.columns] + repaired, reasons)

    def _texts(self, columns: List[List[bytes]]) -> Tuple[List[bytes], Reasons]:
        """Returns the text of each record, and why there is none or it is not one line."""
        if self._elements:
            return self._elements.compose(columns)
        (texts,) = columns
        return texts, {place: b"line-feed" for place, text in enumerate(texts) if b"\n" in text} if b"\n" in b"".join(texts) else {}

    def _translated(self, texts: List[bytes]) -> Fields:
        found = self._answers.answer(texts)
        columns = list(found.columns)
        if self._codes:
            split = [values_of(link, self._codes) if link else [b""] * len(self._codes) for link in columns.pop()]
            columns += [[values[number] for values in split] for number in range(len(self._codes))]
        if self._is_any:
            columns.append(found.forms)
        if self._is_repaired and not self._elements:
            columns.append([found.repaired.get(place, b"") for place in range(len(texts))])
        named = self._elements.named if self._elements else None
        return Fields(columns, {place: named(texts[place], reason) for place, reason in found.reasons.items()} if named else found.reasons)

    def close(self) -> None:
        """Ends the runs."""
        self._answers.close()
