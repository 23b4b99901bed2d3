"""A linkset made of a table."""
from __future__ import annotations

from typing import Dict, Iterator, List, NamedTuple, Optional, Sequence, Tuple

from ..inspector.rows import Rows
from .anchors import read_anchors
from .columns import Columns, Naming, is_name
from .doubtful import doubts_of
from .faults import Fault
from .link import Link, more_of
from .linkset import MOST_BYTES, MOST_LINKS, Context, Options, context_of
from .rows import Entry, read_rows
from .table import read_table
from .targets import DEFAULT, MULTIPLE, VOCABULARY, href_faults, language_faults, relation_faults, relation_of, template_faults


class Source(NamedTuple):
    """A table as a file: its path, the sheet of a workbook or None, and what --column says."""

    path: str
    sheet: Optional[str]
    naming: Naming


class Built(NamedTuple):
    """The links of a table, the contexts of their linkset, the number of rows, what is wrong with these, and what is doubtful."""

    links: List[Link]
    contexts: List[Context]
    rows: int
    faults: List[Fault]
    doubts: List[Fault]


def build(source: Source, options: Options) -> Built:
    """Makes a linkset of a table. It has neither links nor contexts if anything is wrong."""
    path, sheet, naming = source
    rows = Rows(options.tables)
    columns, entries, damaged = read_rows(path, read_table(path, sheet, lambda text: is_name(text, naming)), rows, naming)
    anchors, faults = read_anchors(entries, columns, options.tables)
    links = [_link(entry, anchor, options.voc or VOCABULARY) for entry, anchor in zip(entries, anchors)]
    for entry, link in zip(entries, links):
        faults += _cell_faults(entry.row, link, columns, rows if options.templates else None)
    faults += _clashes(entries, links, columns)
    # (a damaged cell counts as an empty one, which may be wrong for another reason)
    wrong = {(fault.row, fault.place) for fault in damaged}
    faults = damaged + [fault for fault in faults if (fault.row, fault.place) not in wrong]
    contexts = [] if faults else contexts_of(links)
    faults += _too_large(contexts, entries, links, columns)
    if faults:
        return Built([], [], len(entries), sorted(faults), [])
    return Built(links, contexts, len(entries), [], sorted(doubts_of([entry.row for entry in entries], links, columns)))


def _link(entry: Entry, anchor: str, vocabulary: str) -> Link:
    languages = tuple(entry.languages.split())
    more = more_of(entry.context, entry.tagged, languages)
    return Link(anchor, relation_of(entry.relation, vocabulary), entry.href, languages, entry.title, entry.type, more)


def contexts_of(links: Sequence[Link]) -> List[Context]:
    """Returns a context for each anchor, in which each relation has its targets, all in the order of the links."""
    found: Dict[str, Dict[str, List[Dict[str, object]]]] = {}
    for link in links:
        found.setdefault(link.anchor, {}).setdefault(link.relation, []).append(link.target())
    return [context_of({"anchor": anchor, **relations}) for anchor, relations in found.items()]


def _too_large(contexts: Sequence[Context], entries: Sequence[Entry], links: Sequence[Link], columns: Columns) -> Iterator[Fault]:
    """Yields the first row of each item that has more links than one process serves."""
    large = {it.anchor: it.links for it in contexts if it.links > MOST_LINKS or len(it.text.encode("utf-8")) > MOST_BYTES}
    for entry, link in zip(entries, links) if large else ():
        count = large.pop(link.anchor, 0)
        if count:
            sentence = f"the item has {count:,} links, and one process serves {MOST_LINKS:,} in {MOST_BYTES:,} bytes"
            yield columns.fault(entry.row, "href", "too-many", sentence, link.anchor)


def _cell_faults(row: int, link: Link, columns: Columns, rows: Optional[Rows]) -> Iterator[Fault]:
    """Yields what is wrong with the cells about the page. `rows` is that of the tables if references are templates."""
    for word, sentence in href_faults(link.href):
        yield columns.fault(row, "href", word, sentence, link.href)
    for word, sentence in template_faults(link.href, _variables(link.anchor, rows)) if rows else ():
        yield columns.fault(row, "href", word, sentence, link.href)
    for word, sentence in relation_faults(link.relation):
        yield columns.fault(row, "linkType", word, sentence, link.relation)
    for word, sentence in language_faults(link.languages):
        yield columns.fault(row, "hreflang", word, sentence, " ".join(link.languages))


def _variables(anchor: str, rows: Rows) -> Optional[Tuple[str, ...]]:
    """Returns the AIs that a template of an anchor may name, or None if they are not known."""
    if not anchor:
        return None
    key = anchor.split("/", 2)[1]
    return (key, *rows.ais[key].qualifiers)


def _clashes(entries: Sequence[Entry], links: Sequence[Link], columns: Columns) -> Iterator[Fault]:
    """Yields the rows whose link stands in an earlier row, and the default links that no language tells apart from an earlier one."""
    rows: Dict[Link, int] = {}
    defaults: Dict[str, Dict[str, int]] = {}
    for entry, link in zip(entries, links):
        if not link.anchor:
            continue
        earlier = rows.setdefault(link, entry.row)
        if earlier != entry.row:
            yield columns.fault(entry.row, "href", "duplicate", f"row {earlier} has the same link", link.href)
        elif link.relation == DEFAULT:
            known, languages = defaults.setdefault(link.anchor, {}), [language.lower() for language in link.languages]
            clash = alike(known, languages)
            if clash:
                sentence = f"row {clash} is a default link of this item too; give each its own languages, or the link type {MULTIPLE}"
                yield columns.fault(entry.row, "linkType", "default-link", sentence)
            for language in languages or [""]:
                known.setdefault(language, entry.row)


def alike(known: Dict[str, int], languages: Sequence[str]) -> Optional[int]:
    """Returns the row of a default link that no language tells apart from one with these, or None."""
    if not languages:
        return next(iter(known.values()), None)
    return next((known[language] for language in ("", *languages) if language in known), None)
