"""The requests whose replies are the largest of a linkset: all links of an anchor, in JSON and as text."""
from __future__ import annotations

import json
from heapq import nlargest
from typing import Dict, List, NamedTuple, Sequence
from urllib.parse import quote

from .linkset import encode
from .link import Link

# how many anchors are asked for in each form
MOST = 3
STEM = "https://id.gs1.org"
FORMS = {"application/linkset+json": "in JSON", "application/linkset": "as text"}


class Heavy(NamedTuple):
    """A reply: the bytes of its content, more or less, its anchor, and the media type."""

    size: int
    anchor: str
    form: str

    def head(self) -> str:
        """Returns the head of its request."""
        return f"GET {self.anchor}?linkType=all HTTP/1.1\r\nHost: id.example\r\nAccept: {self.form}\r\n\r\n"


def heaviest(links: Sequence[Link]) -> List[Heavy]:
    """Returns the largest replies of each form, the largest first."""
    sizes: Dict[str, Dict[str, int]] = {form: {} for form in FORMS}
    json_sizes, text_sizes = sizes.values()
    for link in links:
        target = link.target()
        json_sizes[link.anchor] = json_sizes.get(link.anchor, 0) + len(encode(target).encode("utf-8"))
        text_sizes[link.anchor] = text_sizes.get(link.anchor, 0) + _text_size(link, target)
    return sorted((Heavy(size, anchor, form) for form, them in sizes.items() for anchor, size in nlargest(MOST, them.items(), key=lambda it: it[1])), reverse=True)


def _text_size(link: Link, target: Dict[str, object]) -> int:
    """Returns the bytes of a link as text (docs/REPLIES.md, 'Linksets as text')."""
    size = len(f'<>; rel=; anchor="{STEM}",\n') + len(link.href) + _quoted(link.relation) + len(link.anchor)
    for name, value in target.items():
        if name == "href":
            continue
        for item in value if isinstance(value, (list, tuple)) else [value]:
            if isinstance(item, dict):
                language, text = item.get("language", ""), quote(item["value"], safe="-._~")
                size += len(name) + len(f"; =UTF-8'{language}'") + len(text)
            else:
                size += len(name) + len("; =") + _quoted(str(item))
    return size


def _quoted(text: str) -> int:
    """Returns the bytes of a quoted string."""
    return len(json.dumps(text, ensure_ascii=False).encode("utf-8"))
