"""A table made of a linkset."""
from __future__ import annotations

import json
from pathlib import Path
from typing import Any, Dict, Iterator, List, Sequence, Tuple

from ..errors import FilesRejected, Rejected
from ..translator import Translator
from .anchors import STEM, linked
from .columns import NAMES
from .link import is_tagged, is_texts
from .linkset import Options, check_file, check_part, context_of, parts_of
from .table import NotATable
from .targets import VOCABULARY, relation_of

# why a linkset is rejected that is only more than one process serves
LARGE = ("too-many", "over")
ESCAPES = str.maketrans({"~": "~0", "/": "~1"})
Target = Dict[str, Any]


def table_of(path: str, options: Options) -> List[Sequence[str]]:
    """Returns the rows of a table of the links of a linkset, with the names of its columns first.

    Raises `FilesRejected` if the program rejects the linkset, and `NotATable` if a table cannot hold a link.
    """
    contexts, anchors = read_linkset(path, "back", options)
    rows: List[Sequence[str]] = [NAMES]
    unfit: List[str] = []
    for number, (context, anchor) in enumerate(zip(contexts, anchors)):
        for place, relation, target in targets_of(context, options.voc or VOCABULARY):
            texts = [" ".join(_languages(target)), _text(target, "title"), _text(target, "type")]
            cells = [anchor, target["href"], relation, *texts]
            rows.append(cells)
            unfit += [f"/linkset/{number}/{place}: {why}" for why in _misfits(cells, target)]
    if unfit:
        raise NotATable("\n".join([f"a table cannot hold these links of {path}:", *unfit]))
    return rows


def read_linkset(path: str, name: str, options: Options) -> Tuple[List[Dict[str, Any]], List[str]]:
    """Returns the contexts of a linkset that the program accepts, whole or in parts, and the path of the anchor of each, empty for one that is too
    long with a host before it. `name` is that of the option that gives the file."""
    contexts = _contexts(path, name, options)
    with Translator("link", tables=options.tables) as run:
        anchors = run.translate_list([linked(context["anchor"]) for context in contexts])
    return contexts, ["" if isinstance(anchor, Rejected) else anchor[len(STEM) :] for anchor in anchors]


def _contexts(path: str, name: str, options: Options) -> List[Dict[str, Any]]:
    """Returns the contexts of a linkset that the program accepts, whole or in parts."""
    try:
        check_file(path, options)
        is_large = False
    except FilesRejected as error:
        if error.which != "links" or error.reason not in LARGE:
            raise FilesRejected(f"refused {name if error.which == 'links' else error.which} {error.reason}") from error
        is_large = True
    try:
        contexts = json.loads(Path(path).read_bytes())["linkset"]
        if is_large:
            _check_large(contexts, name, options)
    except (ValueError, KeyError, TypeError, AttributeError, RecursionError) as error:
        raise error if isinstance(error, FilesRejected) else FilesRejected(f"refused {name} json {error}") from error
    found: List[Dict[str, Any]] = contexts
    return found


def _check_large(contexts: List[Dict[str, Any]], name: str, options: Options) -> None:
    """Checks a linkset that is more than one process serves."""
    first = 0
    for part in parts_of([context_of(context) for context in contexts]):
        try:
            check_part(part, options)
        except FilesRejected as error:
            raise FilesRejected(f"refused {name} {error.reason}, of the {len(part):,} contexts from {first} on") from error
        first += len(part)


def targets_of(context: Dict[str, Any], vocabulary: str) -> Iterator[Tuple[str, str, Target]]:
    """Yields the links of a context: where each stands in it, its link type and its target, those of one link type in their order."""
    named: Dict[str, List[str]] = {}
    for name, targets in context.items():
        if isinstance(targets, list):
            named.setdefault(relation_of(name, vocabulary) if name else "", []).append(name)
    for relation, names in named.items():
        for name in sorted(names):
            for number, target in enumerate(context[name]):
                yield f"{name.translate(ESCAPES)}/{number}", relation, target


def _text(target: Target, name: str) -> str:
    found = target.get(name)
    return found if isinstance(found, str) else ""


def _languages(target: Target) -> List[str]:
    found: List[str] = target["hreflang"] if is_texts(target.get("hreflang")) else []
    return found


def _misfits(cells: Sequence[str], target: Target) -> Iterator[str]:
    """Yields why the cells of a link are not all of it."""
    anchor, _, relation, languages, _, media = cells
    if not anchor:
        yield "the anchor is too long with a host before it"
    if not relation or relation != relation.strip():
        yield "the link type is empty, or begins or ends with a space"
    if media != media.strip():
        yield "the media type begins or ends with a space"
    if languages.split() != _languages(target):
        yield "a language is empty or has a space"
    for name, value in target.items():
        is_kept = is_tagged(value) if name.endswith("*") else isinstance(value, str) if name == "media" else is_texts(value)
        if value and is_kept and name not in NAMES:
            yield f"there is no column for {name!r}"
