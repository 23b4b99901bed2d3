"""What is doubtful in a table that is not wrong: links that nobody is sent, or that a client has to choose among."""
from __future__ import annotations

from itertools import groupby
from typing import Dict, Iterable, Iterator, List, Sequence, Set, Tuple

from .columns import Columns
from .faults import Fault
from .link import Link, prefixes_of
from .targets import DEFAULT
from .types import doubt_of

# the doubts of one word that are told in full
MOST_TOLD = 20


def doubts_of(rows: Sequence[int], links: Sequence[Link], columns: Columns) -> Iterator[Fault]:
    """Yields what is doubtful about the links of rows."""
    yield from _without_default(rows, links, columns)
    earlier: Dict[Tuple[str, str, Tuple[str, ...], str], int] = {}
    for row, link in zip(rows, links):
        doubt = doubt_of(link.relation)
        if doubt:
            yield columns.fault(row, "linkType", "unknown-type", doubt, link.relation)
        if link.relation != DEFAULT:
            slot = link.anchor, link.relation, tuple(sorted(language.lower() for language in link.languages)), link.type
            first = earlier.setdefault(slot, row)
            if first != row:
                sentence = f"row {first} has this link type, these languages and this media type too, so a client has to choose"
                yield columns.fault(row, "href", "double", sentence, link.href)


def _without_default(rows: Sequence[int], links: Sequence[Link], columns: Columns) -> Iterator[Fault]:
    """Yields the first row of each anchor that has no default link, and whose prefixes have none."""
    defaults = {link.anchor for link in links if link.relation == DEFAULT}
    told: Set[str] = set(defaults)
    for row, link in zip(rows, links):
        if link.anchor in told:
            continue
        told.add(link.anchor)
        if not any(prefix in defaults for prefix in prefixes_of(link.anchor)):
            yield columns.fault(row, "linkType", "no-default", f"the item has no {DEFAULT}, so a scan without a link type gets 404", link.anchor)


def lines_of(doubts: Iterable[Fault]) -> Iterator[str]:
    """Yields a line for each doubt; of one word the first ones, and how many more there are."""
    by_word: List[Tuple[str, List[Fault]]] = [(word, list(them)) for word, them in groupby(sorted(doubts, key=lambda it: it.word), lambda it: it.word)]
    shown = sorted(doubt for _, them in by_word for doubt in sorted(them)[:MOST_TOLD])
    yield from (f"warning: {doubt}" for doubt in shown)
    yield from (f"warning: {len(them) - MOST_TOLD:,} more rows: {word}" for word, them in by_word if len(them) > MOST_TOLD)
