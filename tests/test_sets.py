"""The cases have values for each identifier of each set of tables/: a right one, one of a wrong length, one with a wrong character in each part,
and one with a wrong check digit or date if it has such a part."""
import json
import re
from typing import Any, Iterator, Optional

import pytest

from tools.cases import joined, subjects
from tools.common import there
from tools.repository import TOP
from tools.tests import none

# what a case tries: a set, a code, the word of the answer, and the offset of a wrong character if there is one
Tried = tuple[str, str, str, Optional[int]]

SETS = {f"tables/{path.name}": path for path in sorted((TOP / "tables").glob("*.json")) if path.stem not in ("builtin", "epcis")}


@pytest.fixture(scope="module")
def tried() -> set[Tried]:
    """What the cases try."""
    found: set[Tried] = set()
    for case in (case for _, cases in subjects() for case in cases):
        used = SETS.keys() & case.get("lent", {}).values()
        if case["words"][:2] != ["canon", "bracketed"] or not used:
            continue
        (used,) = used
        lines, answers = (joined(case, *column).decode("latin-1").splitlines() for column in (("input", 0), ("output", 1)))
        for line, answer in zip(lines, answers):
            word, what, *places = answer.split(" ")
            if word == "ok":
                found |= {(used, code, word, None) for code in re.findall(r"(?<!\\)\((\d{2,4})\)", line)}
            elif places and what in ("length", "char", "check", "date"):
                code = line[int(places[0]):].partition(")")[0]
                found.add((used, code, what, int(places[1]) if places[1:] else None))
    return found


def lacking(used: str, row: dict[str, Any], tried: set[Tried]) -> Iterator[str]:
    """Yields what an identifier of a set has no value for."""
    code, start = row["code"], 0
    for word, what in ("ok", "right value"), ("length", "value of a wrong length"):
        if (used, code, word, None) not in tried:
            yield f"{code}: no {what}"
    for part in row["parts"]:
        size = {"date": 6, "zero": 1}.get(part) or int(there(re.search(r"\d+", part))[0])
        if not any((used, code, "char", place) in tried for place in range(start, start + size)):
            yield f"{code}: no value with a wrong character in {part}"
        for word in {"date"} & {part} | ({"check"} if part.endswith("c") else set()):
            if (used, code, word, None) not in tried:
                yield f"{code}: no value with a wrong {word}"
        start += size


@pytest.mark.parametrize("used", SETS)
def test_values(used: str, tried: set[Tried]) -> None:
    """Each identifier of a set has all these values."""
    rows = json.loads(SETS[used].read_text("ascii"))["ais"]
    assert rows
    none(fault for row in rows for fault in lacking(used, row, tried))
