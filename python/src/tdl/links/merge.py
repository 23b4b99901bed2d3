"""Linksets and tables merged into one, without two default links of one item that no language tells apart."""
from __future__ import annotations

from typing import Dict, List, NamedTuple, Optional, Sequence, Set

from .link import Link
from .targets import DEFAULT


class Merged(NamedTuple):
    """The links that stay, and the anchors where files clash: a line for each that a preferred file decides, and for each that none does."""

    links: List[Link]
    decided: List[str]
    undecided: List[str]


def merge(files: Sequence[str], links: Sequence[Sequence[Link]], preferred: Optional[int]) -> Merged:
    """Merges the links of files. Equal links count once; of default links that clash those of the preferred file stay."""
    order = sorted(range(len(files)), key=lambda number: number != preferred)
    defaults: Dict[str, Dict[str, int]] = {}
    dropped: Set[Link] = set()
    kept: Set[Link] = set()
    decided: List[str] = []
    undecided: List[str] = []
    for number in order:
        # (the links of a file do not clash with those that come after them in it)
        own = [link for link in dict.fromkeys(links[number]) if link not in kept]
        clashes = {link: _clashing(defaults, link) for link in own if link.relation == DEFAULT}
        for link in own:
            others = clashes.get(link)
            if others:
                is_decided = preferred in others
                (decided if is_decided else undecided).append(_told(files, link, min(others), number, is_decided))
                dropped.add(link)
                continue
            kept.add(link)
            if link.relation == DEFAULT:
                for language in map(str.lower, link.languages or ("",)):
                    defaults.setdefault(link.anchor, {}).setdefault(language, number)
    return Merged(list(dict.fromkeys(link for them in links for link in them if link not in dropped)), decided, undecided)


def _clashing(defaults: Dict[str, Dict[str, int]], link: Link) -> Set[int]:
    """Returns the files with a default link that no language tells apart from this one."""
    known, languages = defaults.get(link.anchor, {}), [language.lower() for language in link.languages]
    return {known[language] for language in ("", *languages) if language in known} if languages else set(known.values())


def _told(files: Sequence[str], link: Link, first: int, second: int, is_decided: bool) -> str:
    """Returns a line about two default links."""
    what = f"that of {files[first]} stays" if is_decided else "--prefer names the file whose link stays"
    return f"{link.anchor}: default-link: {files[first]} and {files[second]} each have a default link, which no language tells apart; {what}"
