"""A link: of a row, or of a target of a linkset."""
from __future__ import annotations

import json
from typing import Any, Dict, Iterator, List, Mapping, NamedTuple, Sequence, Tuple

from .linkset import encode

# the attributes that are texts
TEXTS = ("title", "type", "media")


class Link(NamedTuple):
    """A link. Its anchor is empty if it names nothing; `more` is JSON, the attributes that no other field has, or empty."""

    anchor: str
    relation: str
    href: str
    languages: Tuple[str, ...]
    title: str
    type: str
    more: str = ""

    def target(self) -> Dict[str, object]:
        """Returns the link's target in a linkset."""
        members = {"href": self.href, "hreflang": self.languages, "title": self.title, "type": self.type}
        found: Dict[str, object] = {name: value for name, value in members.items() if value}
        return {**found, **json.loads(self.more)} if self.more else found


def more_of(context: str, tagged: str, languages: Sequence[str]) -> str:
    """Returns the attributes of the columns `context` and `title*`. A title has the language of its row if this is one."""
    if not context and not tagged:
        return ""
    title: Dict[str, str] = {"value": tagged, **({"language": languages[0]} if len(languages) == 1 else {})}
    return encode({**({"context": context.split()} if context else {}), **({"title*": [title]} if tagged else {})})


def link_of(anchor: str, relation: str, target: Mapping[str, Any]) -> Link:
    """Returns the link of a target, with the attributes that the program keeps (docs/REPLIES.md, 'Linksets')."""
    kept = {name: value for name, value in kept_of(target)}
    languages = tuple(kept.pop("hreflang", ()))
    title, media = (kept.pop(name) if kept.get(name) else "" for name in ("title", "type"))
    return Link(anchor, relation, target["href"], languages, title, media, encode(dict(sorted(kept.items()))) if kept else "")


def kept_of(target: Mapping[str, Any]) -> Iterator[Tuple[str, Any]]:
    """Yields the attributes of a target that the program keeps."""
    for name, value in target.items():
        if name == "href":
            continue
        if name.endswith("*"):
            if is_tagged(value) and value:
                yield name, [{key: it[key] for key in ("language", "value") if key in it} for it in value]
        elif name in TEXTS:
            if isinstance(value, str):
                yield name, value
        elif is_texts(value) and value:
            yield name, value


def is_texts(value: object) -> bool:
    """Returns whether a value is an array of texts."""
    return isinstance(value, list) and all(isinstance(it, str) for it in value)


def is_tagged(value: object) -> bool:
    """Returns whether a value is that of an attribute whose name ends in a star."""
    return isinstance(value, list) and all(
        isinstance(it, dict) and isinstance(it.get("value"), str) and isinstance(it.get("language", ""), str) for it in value
    )


def prefixes_of(anchor: str) -> Iterator[str]:
    """Yields the prefixes of an anchor that have fewer qualifiers, the longest first."""
    parts: List[str] = anchor.split("/")
    for end in range(len(parts) - 2, 2, -2):
        yield "/".join(parts[:end])
