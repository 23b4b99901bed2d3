"""The table of docs/TUTORIAL.md, 'Your column looks like this': each command gives the fields that it shows."""
import re
import shlex

import pytest

from tests.test_cells import added
from tools.repository import TOP

HEAD = "| Cell | Options | New fields |"


def rows() -> list[tuple[str, str, str]]:
    """Returns the cells of the table: each text stands between backticks, and has a bar after a backslash."""
    lines = iter((TOP / "docs" / "TUTORIAL.md").read_text("utf-8").split("\n"))
    found: list[tuple[str, str, str]] = []
    for line in lines:
        if line == HEAD:
            next(lines)
            for row in iter(lambda: next(lines), ""):
                cells = [cell.strip()[1:-1].replace("\\|", "|") for cell in re.split(r"(?<!\\)\|", row)[1:-1]]
                found.append((cells[0], cells[1], cells[2]))
    return found


def test_there_are_twenty() -> None:
    """The page shows twenty columns."""
    assert len(rows()) == 20


@pytest.mark.parametrize("cell, options, wanted", rows())
def test_a_row(module: dict[str, str], cell: str, options: str, wanted: str) -> None:
    """The options of a row give its fields."""
    assert [",".join(fields) for fields in added(module, [cell], *shlex.split(options))] == [wanted]
