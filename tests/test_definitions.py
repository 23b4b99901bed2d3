"""The definitions of crates/*/specs are marked where public clauses reach them, and the documents that bin/docs writes are those of today."""
import re
from typing import Iterator

import pytest

from tools import definition_pages
from tools.bin import docs
from tools.definitions import BEYOND_CORE, CORE, Specs
from tools.repository import TOP
from tools.tests import none

LAWS = re.compile(r"\blaws? ((?:`[\w:]+`(?:, and |, | and )?)+)")
LAW_TABLE = re.compile(r"^\| Law \|.*\n\|[-|]*\n((?:\|.*\n)*)", re.MULTILINE)
pytestmark = pytest.mark.xdist_group("definitions")


@pytest.fixture(scope="module")
def specs() -> Specs:
    """All definitions."""
    return Specs()


def mark_faults(specs: Specs) -> Iterator[str]:
    """Yields each definition whose mark is not right."""
    reached = specs.reached(specs.items)
    for it in specs.all():
        if not it.sentence:
            yield f"{it.path}:{it.line}: {it.name} has no sentence over it"
        if it in reached and not it.is_marked:
            yield f"{it.path}:{it.line}: a public clause reaches {it.name}, which is not marked"
        if it.is_marked and it not in reached:
            yield f"{it.path}:{it.line}: {it.name} is marked, and no public clause reaches it"
        if it.law and (it.crate, it.law) not in specs.laws:
            yield f"{it.path}:{it.line}: {it.name} names the law {it.law}, which its crate does not have"
    names = {it.name for it in specs.all()} | {name for _, _, name in specs.sources.types}
    yield from (f"tools/definitions.py: there is no definition {name}" for name in sorted({*CORE, *BEYOND_CORE} - names))


def law_faults(specs: Specs) -> Iterator[str]:
    """Yields each law that nobody can import, and each that a document names and no crate has."""
    for it in specs.sources.items():
        if it.is_law and it.crate in specs.sources.exports and not specs.sources.is_public(it):
            yield f"crates/{it.crate}/src/lib.rt: the law {it.name} is not exported"
    laws, public = {name for _, name in specs.laws}, {it.name for it in specs.items}
    for path in [TOP / "README.md", *sorted((TOP / "docs").rglob("*.md"))]:
        text = path.read_text("utf-8")
        named = {name for told in LAWS.findall(text) for name in re.findall(r"`(?:\w+::)*(\w+)`", told)}
        rows = [row.split("|")[1] for table in LAW_TABLE.findall(text) for row in table.splitlines()]
        listed = {name for cell in rows for name in re.findall(r"`(?:\w+::)*(\w+)`", cell)}
        yield from (f"{path.relative_to(TOP)}: there is no law {name}" for name in sorted((named - laws) | (listed - public)))


def test_marks(specs: Specs) -> None:
    """Each definition has a sentence, and the mark of one that a public clause reaches if and only if one does."""
    none(mark_faults(specs))


def test_laws(specs: Specs) -> None:
    """Each law is exported, and each that a document names is there."""
    none(law_faults(specs))


def test_formulas(specs: Specs) -> None:
    """docs/THEOREM.md shows formulas that public clauses reach, and its tables explain each piece of a clause."""
    none(definition_pages.lost_formulas(specs))


def test_written(specs: Specs) -> None:
    """The documents are what bin/docs writes."""
    texts = docs.written(specs).items()
    none(f"{path.relative_to(TOP)} is not what `bin/docs --write` writes" for path, text in texts if not path.is_file() or path.read_text("utf-8") != text)
