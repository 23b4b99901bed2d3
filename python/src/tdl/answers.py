"""Cells translated: those of each form by runs of the program, with the form of each cell and what was repaired of it."""
from __future__ import annotations

import re
from typing import TYPE_CHECKING, Any, Dict, List, NamedTuple, Optional, Sequence, Tuple

from .cells import ROUNDED, UNSAID, Cells, Group, Read, Reasons, Spelling, trimmed, ungrouped
from .derived import CLASS, DERIVED, LINK, numbers_of
from .lines import Lines
from .options import path_of
from .translator import Classes, Translator

if TYPE_CHECKING:
    from .repairs import Repaired

CANON = "canon"
LINK_OPTIONS, CLASS_OPTIONS = ("tables", "keys_only", "program", "engine"), ("tables", "prefixes", "gcp", "program")
# reasons that no repair changes
DOUBT = b"ambiguous "
KEPT = (DOUBT, UNSAID, b"rounded")
# reasons of a repaired cell that say more than those of the cell
TELLING = (b"check ", b"rounded", UNSAID)
# digits that are no element string with a key of fixed length
BARE = rb"[0-9]{1,15}|[0-9]{17}"
# what may be a bare number to be repaired
NUMERIC = rb"[0-9][0-9.-]*"


class Answered(NamedTuple):
    """For each target the answer to each cell, empty if it was rejected; the reasons of the rejected ones; the form of each cell, if none
    was named; and what was done to cells that were repaired."""

    columns: List[List[bytes]]
    reasons: Reasons
    forms: List[bytes]
    repaired: Reasons


class Try(NamedTuple):
    """A repair, the form of the repaired cell, and why it is not read, or nothing."""

    repaired: Repaired
    form: str
    reason: bytes


def _reject(found: Answered, place: int, reason: bytes) -> None:
    """Takes the answers to a cell back."""
    found.reasons[place] = reason
    for column in found.columns:
        column[place] = b""
    if found.forms:
        found.forms[place] = b""


def _explain(found: Answered, place: int, tries: List[Try]) -> None:
    """Gives a cell the reason of a repaired one, if that says more."""
    for one in tries:
        if one.reason.startswith(TELLING):
            found.reasons[place] = one.reason
            if found.forms:
                found.forms[place] = one.form.encode("ascii")
            return


def cells_of(printed: bytes) -> Tuple[List[bytes], Reasons]:
    """Returns the texts of answers, empty for a rejected one, and the reasons of those."""
    if printed.startswith(b"ok ") and b"\nno " not in printed:
        return printed[3:-1].split(b"\nok "), {}
    lines = printed.split(b"\n")[:-1]
    return [line[3:] if line.startswith(b"ok ") else b"" for line in lines], {at: line[3:] for at, line in enumerate(lines) if line.startswith(b"no ")}


def asked(run: Lines, texts: List[bytes]) -> Tuple[List[bytes], Reasons]:
    return cells_of(run.print_answers(b"\r\n".join([*texts, b""]), len(texts))) if texts else ([], {})


def _among(options: Dict[str, Any], names: Sequence[str]) -> Dict[str, Any]:
    return {name: value for name, value in options.items() if name in names}


def _of_program(target: str) -> Tuple[str, bool]:
    """Returns the program's target for one of this module, and whether it is the link that others are taken of."""
    return (CANON, True) if target in DERIVED else (target, False)


def _reader(how: Spelling, tables: Optional[str]) -> Cells:
    """Returns what reads the cells."""
    if not how.is_any:
        return Cells(how)
    # (most columns have one form, which is named: then the module is not loaded)
    from .sorting import AnyCells

    return AnyCells(how, tables)


class Answers:
    """Answers cells in some forms. A run of the program is started at the first cell that needs it, and kept."""

    def __init__(self, how: Spelling, targets: Sequence[str], options: Dict[str, Any]) -> None:
        self._how, self._targets, self._options = how, tuple(targets), options
        self._cells = _reader(how, path_of(options.get("tables")))
        self._runs: Dict[Tuple[str, str, bool], Lines] = {}
        # (wrong options are an error before a cell is read)
        for target in self._targets:
            self._run(how.first_asked, *_of_program(target))
        self._classes = Classes("uri", **_among(options, CLASS_OPTIONS)) if CLASS in self._targets else None
        self._judge = Answers(how._replace(is_repaired=False), (LINK,), _among(options, LINK_OPTIONS)) if how.is_repaired else None

    def _run(self, form: str, target: str, is_link: bool) -> Lines:
        """Returns the run for a form and a target; for the links that other answers are taken of if `is_link`."""
        key = form, target, is_link
        if key not in self._runs:
            options = _among(self._options, LINK_OPTIONS) if is_link else self._options
            self._runs[key] = Translator(form, target, **options)  # type: ignore[arg-type]
        return self._runs[key]

    def close(self) -> None:
        """Ends the runs."""
        for run in self._runs.values():
            run.close()
        for other in (self._classes, self._judge):
            if other:
                other.close()

    def answer(self, cells: List[bytes]) -> Answered:
        """Returns the answers to cells, none of which has a line feed."""
        cells = trimmed(cells)
        found = self._answered(cells)
        for place in found.reasons:
            if re.fullmatch(ROUNDED, cells[place]):
                _reject(found, place, b"rounded")
            elif self._how.is_any and found.forms[place] == b"raw" and re.fullmatch(BARE, cells[place]):
                _reject(found, place, b"digits %d" % len(cells[place]))
        if self._judge:
            self._repair(cells, found)
        return found

    def _answered(self, cells: List[bytes]) -> Answered:
        read = self._cells.read(cells)
        found = self._by_groups(read, len(cells))
        if read.doubts:
            self._settle(cells, read, found)
        return found

    def _by_groups(self, read: Read, count: int) -> Answered:
        """Returns the answers to cells, each by its form."""
        whole = next((group for group in read.groups if group.places is None), None)
        if whole:
            columns, reasons = self._translated(whole)
            return Answered(columns, {**reasons, **read.reasons}, [whole.form.encode("ascii")] * count * self._how.is_any, {})
        found = Answered([[b""] * count for _ in self._targets], dict(read.reasons), [b""] * count * self._how.is_any, {})
        for group in read.groups:
            self._put(group, found)
        for place, reason in read.reasons.items():
            if found.forms and reason == UNSAID:
                found.forms[place] = b"raw"
        return found

    def _put(self, group: Group, found: Answered) -> None:
        """Puts the answers to a group in their places."""
        assert group.places is not None
        answers, reasons = self._translated(group)
        for column, answer in zip(found.columns, answers):
            for place, text in zip(group.places, answer):
                column[place] = text
        found.reasons.update((group.places[at], reason) for at, reason in reasons.items())
        name = group.form.encode("ascii")
        for place in group.places if found.forms else ():
            found.forms[place] = name

    def _translated(self, group: Group) -> Tuple[List[List[bytes]], Reasons]:
        """Returns the answers to the texts of a group, and the first reason of each that lacks one."""
        columns: List[List[bytes]] = []
        reasons: Reasons = {}
        links: Optional[List[bytes]] = None
        for target in self._targets:
            if target not in DERIVED:
                column, found = asked(self._run(group.asked, target, False), group.texts)
            else:
                links, found = (links, {}) if links is not None else asked(self._run(group.asked, CANON, True), group.texts)
                column, more = self._derived(links, target)
                found = {**more, **found}
            columns.append(column)
            reasons = {**found, **reasons}
        return columns, reasons

    def _derived(self, links: List[bytes], target: str) -> Tuple[List[bytes], Reasons]:
        """Returns what is taken of links, which are empty for rejected cells."""
        if target == LINK:
            return links, {}
        if not self._classes:
            return numbers_of(links, target)
        places = [place for place, link in enumerate(links) if link]
        uris, found = asked(self._classes, [links[place] for place in places])
        column = [b""] * len(links)
        for place, uri in zip(places, uris):
            column[place] = uri
        return column, {places[at]: reason for at, reason in found.items()}

    def _reads(self, form: str, texts: List[bytes]) -> List[bool]:
        """Returns whether a form reads texts."""
        found = asked(self._run(form, CANON, True), texts)[1]
        return [at not in found for at in range(len(texts))]

    def _settle(self, cells: List[bytes], read: Read, found: Answered) -> None:
        """Rejects the cells that two forms read. What only raw reads has that form."""
        are_read = self._reads("raw", [cells[place] for place in read.doubts])
        doubted = [place for place, is_read in zip(read.doubts, are_read) if is_read]
        tags = [place for place in doubted if read.doubts[place] == "hex"]
        only_raw = [place for place, is_read in zip(tags, self._reads("hex", [ungrouped(cells[place]) for place in tags])) if not is_read]
        for place in doubted:
            _reject(found, place, b"ambiguous %b raw" % read.doubts[place].encode("ascii"))
        for place in only_raw:
            del found.reasons[place]
        if only_raw:
            self._put(Group("raw", only_raw, [cells[place] for place in only_raw]), found)

    def _repair(self, cells: List[bytes], found: Answered) -> None:
        """Answers the rejected cells that can be repaired in one way. What can be read in two has a reason."""
        chosen: Dict[int, Repaired] = {}
        for place, tries in self._tried(cells, found).items():
            read = [one for one in tries if not one.reason]
            as_it_stands = [] if place in found.reasons else [found.forms[place].decode("ascii")]
            if len(read) + len(as_it_stands) > 1:
                forms = [*(one.form for one in read), *as_it_stands]
                _reject(found, place, b"ambiguous %b %b" % tuple(form.encode("ascii") for form in forms[:2]))
            elif any(one.reason.startswith(DOUBT) for one in tries):
                _reject(found, place, next(one.reason for one in tries if one.reason.startswith(DOUBT)))
            elif read:
                chosen[place] = read[0].repaired
            elif not as_it_stands:
                _explain(found, place, tries)
        self._replace(chosen, found)

    def _tried(self, cells: List[bytes], found: Answered) -> Dict[int, List[Try]]:
        """Returns the repairs of cells, each with its form and why it is not read, or nothing."""
        from .repairs import repairs_of

        assert self._judge
        places = [place for place, reason in found.reasons.items() if not reason.startswith(KEPT)]
        # (what raw reads may also be a number that lost zeros, or one with .0 or hyphens)
        raw = (place for place, form in enumerate(found.forms) if form == b"raw" and place not in found.reasons)
        places += [place for place in raw if re.fullmatch(NUMERIC, cells[place])]
        tried = [(place, repaired) for place in sorted(places) for repaired in repairs_of(self._how.source, cells[place])]
        judged = self._judge.answer([repaired.text for _, repaired in tried])
        by_place: Dict[int, List[Try]] = {}
        for number, (place, repaired) in enumerate(tried):
            form = judged.forms[number].decode("ascii") if judged.forms else self._how.source
            by_place.setdefault(place, []).append(Try(repaired, form, judged.reasons.get(number, b"")))
        return by_place

    def _replace(self, chosen: Dict[int, Repaired], found: Answered) -> None:
        """Puts the answers to repaired cells in their places."""
        again = self._answered([repaired.text for repaired in chosen.values()])
        for number, (place, repaired) in enumerate(chosen.items()):
            found.reasons.pop(place, None)
            if number in again.reasons:
                found.reasons[place] = again.reasons[number]
            for column, answers in zip(found.columns, again.columns):
                column[place] = answers[number]
            if found.forms:
                found.forms[place] = again.forms[number]
            found.repaired[place] = b" ".join(repaired.words)
