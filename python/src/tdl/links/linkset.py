"""Linksets: their texts, and what the program says of them."""
from __future__ import annotations

import json
import os
import tempfile
from typing import Iterable, Iterator, List, Mapping, NamedTuple, Optional, Sequence

from ..tables import check

# what one process serves
MOST_LINKS, MOST_BYTES = 65_536, 16_777_216
OPENING, CLOSING, BETWEEN = '{"linkset":[\n', "\n]}\n", ",\n"
encode = json.JSONEncoder(ensure_ascii=False, separators=(",", ":")).encode


class Context(NamedTuple):
    """The anchor of a context, its text, and the number of its links."""

    anchor: str
    text: str
    links: int


class Options(NamedTuple):
    """The options of the program by which a linkset is read."""

    tables: Optional[str]
    voc: Optional[str]
    templates: bool


def context_of(context: Mapping[str, object]) -> Context:
    """Returns a context of JSON."""
    links = sum(len(targets) for targets in context.values() if isinstance(targets, list))
    return Context(str(context["anchor"]), encode(context), links)


def text_of(contexts: Iterable[Context]) -> str:
    """Returns a linkset, each context in a line."""
    return OPENING + BETWEEN.join(context.text for context in contexts) + CLOSING


def parts_of(contexts: Sequence[Context]) -> Iterator[List[Context]]:
    """Yields the contexts in parts that one process serves, if each of them alone is."""
    part: List[Context] = []
    links, size = 0, 0
    around = len(OPENING) + len(CLOSING)
    for context in contexts:
        more = len(context.text.encode("utf-8")) + len(BETWEEN)
        if part and (links + context.links > MOST_LINKS or size + more + around > MOST_BYTES):
            yield part
            part, links, size = [], 0, 0
        part.append(context)
        links, size = links + context.links, size + more
    yield part


def check_part(part: Sequence[Context], options: Options) -> None:
    """Checks contexts by the program. Raises `FilesRejected` if it rejects them."""
    # (a file without a name, of which nothing is left however this ends)
    with tempfile.TemporaryFile() as stream:
        stream.write(text_of(part).encode("utf-8"))
        stream.flush()
        check_file(f"/proc/{os.getpid()}/fd/{stream.fileno()}", options)


def check_file(path: str, options: Options) -> None:
    """Checks a linkset by the program. Raises `FilesRejected` if it rejects it."""
    check(options.tables, links=path, voc=options.voc, templates=options.templates)
