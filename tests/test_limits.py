"""docs/LIMITS.md has the numbers of the sources, names vectors and cases that are there, and agrees with the pages that repeat its numbers.

The number of each row is a literal of the file of crates/ in its column 'Source', in which 10 seconds are 10_000 milliseconds. A vector is named
by the first words of the comment above it in crates/vectors/data, a case by those of its name in checks/cases.
"""
import re

import pytest

from tools.cases import subjects
from tools.repository import CRATES, TOP
from tools.tests import none
from tools.vectors import comments

TEXT = (TOP / "docs" / "LIMITS.md").read_text("utf-8")
CELLS = ([cell.strip() for cell in line.split("|")[1:-1]] for line in TEXT.splitlines())
# the name of each limit, its number and its source
ROWS = [(row[0], int(row[1].replace(",", "")), row[3]) for row in CELLS if len(row) == 6 and row[0] != "Limit" and set(row[0]) != {"-"}]
NUMBER = re.compile(r"\b(?:[0-9]{1,3}(?:,[0-9]{3})+|[0-9]{2,})\b")
# the pieces of documents whose numbers are limits
REPEATS = {
    "docs/MESSAGES.md": re.compile(r"[Mm]ore than (.*?)(?:[.|]|$)", re.MULTILINE),
    "packaging/man/tdl.1": re.compile(r"^\.Sh LIMITS\n(.*?)^\.Sh ", re.MULTILINE | re.DOTALL),
}
CITES = {"docs/CLI.md": "LIMITS.md", "docs/MESSAGES.md": "LIMITS.md", "packaging/man/tdl.1": "LIMITS.html"}


@pytest.mark.parametrize("name, number, source", ROWS, ids=lambda it: str(it))
def test_number(name: str, number: int, source: str) -> None:
    """The number of a row is a literal of its source."""
    literals = {int(literal.replace("_", "")) for literal in re.findall(r"\b[0-9][0-9_]*\b", (CRATES / source).read_text("utf-8"))}
    assert literals & ({number, 1_000 * number} if name.startswith("seconds") else {number})


def test_tests() -> None:
    """Each vector that the page names is there once, and cases begin with each name of one."""
    texts, cases = comments(), {case["name"] for _, cases in subjects() for case in cases}
    named = re.findall(r"(vectors|case) '(.+?)'(?=,? |,|\)|$)", TEXT.replace("\n", " "))
    assert {"vectors", "case"} == {kind for kind, _ in named}
    for kind, name in named:
        found = sum(text.startswith(name) for text in (texts if kind == "vectors" else cases))
        assert found == 1 or kind == "case" and found, name


@pytest.mark.parametrize("path", REPEATS)
def test_repeats(path: str) -> None:
    """The numbers of a page that repeats limits are limits."""
    known = {number for _, number, _ in ROWS}
    numbers = [number for text in REPEATS[path].findall((TOP / path).read_text("utf-8")) for number in NUMBER.findall(text)]
    assert numbers
    none(f"{number} is not in docs/LIMITS.md" for number in numbers if int(number.replace(",", "")) not in known)


@pytest.mark.parametrize("path", CITES)
def test_cites(path: str) -> None:
    """A page with limits names the page of limits."""
    assert CITES[path] in (TOP / path).read_text("utf-8")
