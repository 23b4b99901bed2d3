"""What changes between two linksets: the links of each anchor, and the anchor whose links its requests get."""
from __future__ import annotations

from collections import Counter
from typing import Callable, Dict, Iterator, List, NamedTuple, Sequence, Tuple

from .link import Link, prefixes_of
from .targets import DEFAULT

# the links of each anchor by their link types, in order
Store = Dict[str, Dict[str, List[Link]]]
HEAD = ("anchor", "linkType", "change", "old", "new", "hreflang", "before", "after")


class Difference(NamedTuple):
    """A link that changes: its anchor, link type and languages, the change, and the old and the new target URI.

    `before` and `after` are the anchors whose links of this type a request for the anchor gets, empty for none."""

    anchor: str
    relation: str
    change: str
    old: str
    new: str
    languages: str
    before: str
    after: str

    def __str__(self) -> str:
        """Returns the line that is printed."""
        uris = " -> ".join(dict.fromkeys(uri for uri in (self.old, self.new) if uri))
        return f"{self.anchor} {self.relation}: {self.change}{f': {uris}' if uris else ''}{self._fall()}"

    def _fall(self) -> str:
        """Returns where requests for the anchor fall."""
        if self.before == self.after:
            return ""
        if self.before == self.anchor:
            return f"; now its requests get those of {self.after}" if self.after else "; now its requests get none"
        return f"; before, its requests got those of {self.before}" if self.before else ""


def store_of(links: Sequence[Link]) -> Store:
    """Returns the links of each anchor."""
    store: Store = {}
    for link in links:
        if link.relation != "anchor":
            store.setdefault(link.anchor, {}).setdefault(link.relation, []).append(link)
    return store


def differences(old: Store, new: Store) -> Iterator[Difference]:
    """Yields the links that change, by anchor and link type."""
    for anchor in sorted({*old, *new}):
        olds, news = old.get(anchor, {}), new.get(anchor, {})
        for relation in sorted({*olds, *news}) if olds != news else ():
            before, after = olds.get(relation, []), news.get(relation, [])
            if before != after:
                holders = _holder(old, anchor, relation), _holder(new, anchor, relation)
                yield from (Difference(anchor, relation, *change, *holders) for change in _changes(relation, before, after))


def _holder(store: Store, anchor: str, relation: str) -> str:
    """Returns the anchor whose links of this type are sent for one, or nothing."""
    return next((prefix for prefix in (anchor, *prefixes_of(anchor)) if relation in store.get(prefix, {})), "")


def _changes(relation: str, old: Sequence[Link], new: Sequence[Link]) -> Iterator[Tuple[str, str, str, str]]:
    """Yields the changes of the links of one type: the change, the old and the new target URI, and the languages."""
    gone, come = list((Counter(old) - Counter(new)).elements()), list((Counter(new) - Counter(old)).elements())
    if not gone and not come:
        yield "order", "", "", ""
    pairs = _pairs(gone, come, relation == DEFAULT)
    for place, link in enumerate(gone):
        if place in pairs:
            other = come[pairs[place]]
            change = "moved" if relation == DEFAULT and link.href != other.href else "changed"
            yield change, link.href, other.href, " ".join(other.languages)
        else:
            yield "removed", link.href, "", " ".join(link.languages)
    paired = set(pairs.values())
    for place, link in enumerate(come):
        if place not in paired:
            yield "added", "", link.href, " ".join(link.languages)


def _pairs(gone: Sequence[Link], come: Sequence[Link], is_default: bool) -> Dict[int, int]:
    """Returns the places of links of which one comes for the other: that of its languages and media type, then that of its target URI, and
    then, of default links, any."""
    pairs: Dict[int, int] = {}
    left = dict.fromkeys(range(len(come)))
    keys: List[Callable[[Link], object]] = [lambda link: (link.languages, link.type), lambda link: link.href]
    for key in keys + ([lambda _: None] if is_default else []):
        waiting: Dict[object, List[int]] = {}
        for place in reversed(list(left)):
            waiting.setdefault(key(come[place]), []).append(place)
        for place, link in enumerate(gone):
            others = waiting.get(key(link))
            if place not in pairs and others:
                pairs[place] = others.pop()
                del left[pairs[place]]
    return pairs


def summary(found: Sequence[Difference]) -> str:
    """Returns what changes in a line."""
    if not found:
        return "no link differs"
    counts = Counter(difference.change for difference in found)
    words = [f"{counts[change]:,} {told}" for change, told in TOLD.items() if counts[change]]
    fallen = {(it.anchor, it.relation): it.after for it in found if it.before == it.anchor != it.after}
    lost = sum(not after for after in fallen.values())
    words += [f"{len(fallen) - lost:,} now of a shorter anchor"] if len(fallen) > lost else []
    words += [f"{lost:,} now without a link"] if lost else []
    anchors = len({difference.anchor for difference in found})
    return f"{anchors:,} anchor{' differs' if anchors == 1 else 's differ'}: {', '.join(words)}"


TOLD = {"added": "added", "removed": "removed", "changed": "changed", "moved": "default moved", "order": "in another order"}
