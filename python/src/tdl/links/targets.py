"""The cells of a row about the page: its reference, link type and languages, and the variables of a template."""
from __future__ import annotations

import re
from typing import Container, Iterator, Optional, Sequence, Tuple

Told = Tuple[str, str]
VOCABULARY = "https://ref.gs1.org/voc/"
DEFAULT, MULTIPLE = "gs1:defaultLink", "gs1:defaultLinkMulti"
MOST_OF_HREF = 2_048
INVISIBLE = re.compile("[^!-~]")
BRACE = re.compile(r"\{([0-9]{2,4})\}|[{}]")
# RFC 5646, section 2.1, as far as a tag's shape goes
LANGUAGE = re.compile("[A-Za-z]{1,8}(?:-[A-Za-z0-9]{1,8})*")
# a name of the vocabulary; RFC 8288, section 3.3: a registered relation type, or a URI
RELATION = re.compile(r"gs1:[!-~]+|[a-z][a-z0-9.-]*|(?!(?i:gs1):)[A-Za-z][A-Za-z0-9+.-]*:[!-~]+")


def relation_of(cell: str, vocabulary: str) -> str:
    """Returns a link type with gs1: in the place of the vocabulary; without one, it is that of the default link."""
    inside = cell.startswith(vocabulary) and len(cell) > len(vocabulary)
    return f"gs1:{cell[len(vocabulary):]}" if inside else cell or DEFAULT


def href_faults(href: str) -> Iterator[Told]:
    """Yields the fault of a reference."""
    found = INVISIBLE.search(href)
    if not href:
        yield "bad-href", "the reference is missing"
    elif found:
        shown = "a space" if found[0] == " " else ascii(found[0])
        yield "bad-href", f"{shown} at character {found.start()}; write it as %XX"
    elif len(href) > MOST_OF_HREF:
        yield "bad-href", f"the reference has {len(href):,} characters; at most {MOST_OF_HREF:,} are allowed"


def template_faults(href: str, codes: Optional[Container[str]]) -> Iterator[Told]:
    """Yields the first fault of a template whose variables are among these AIs, or any for None."""
    for found in BRACE.finditer(href):
        if found[1] is None:
            yield "brace", f"a brace outside a variable at character {found.start()}; write {{CODE}}, or %7B and %7D"
            return
        if codes is not None and found[1] not in codes:
            yield "place", f"{found[0]} at character {found.start()} is neither the key nor one of its qualifiers"
            return


def relation_faults(relation: str) -> Iterator[Told]:
    """Yields the fault of a link type."""
    if relation == "anchor":
        yield "link-type", "a linkset has the anchor under this name; choose another"
    elif not RELATION.fullmatch(relation):
        yield "link-type", "a link type is gs1: and a name, a registered relation type in lower case, or a URI, without spaces"


def language_faults(languages: Sequence[str]) -> Iterator[Told]:
    """Yields the first fault of languages."""
    for language in languages:
        if not LANGUAGE.fullmatch(language):
            yield "language", f"{ascii(language)} is not a language tag, such as en or de-AT; several are separated by spaces"
            return
