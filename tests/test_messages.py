"""docs/MESSAGES.md explains each message: its examples print it, and each answer `no ..` and line `refused ..` of checks/cases is that of a row.

A row of a table begins with a message, in which words in capitals vary, and its example: the arguments, then the line, or the content of
FILE; texts are joined, and `N times` before one repeats it. docs/TABLES.md explains the messages of tables.
"""
import re
import subprocess
from pathlib import Path

import pytest

from tools.cases import joined, subjects
from tools.common import Word, printed
from tools.messages import rows
from tools.tests import none

VARIES = {"PLACE": r"\S*", "REASON": ".+", "TEXT": ".+", "WHICH": r"\w+", "WHY": r"\w+", "FIELD": r"\w+"}
ROWS = list(rows())


def pattern(message: str) -> re.Pattern[str]:
    """Returns the regular expression of a message, in which a word in capitals is a number unless it is named above."""
    words = [VARIES.get(word, r"\d+") if word.isupper() else re.escape(word) for word in message.split(" ")]
    return re.compile(" ".join(words))


@pytest.mark.parametrize("message, example", [pytest.param(*row, id=row[0]) for row in ROWS if row[1]])
def test_example(program: Path, tmp_path: Path, message: str, example: tuple[list[str], str]) -> None:
    """The example of a row prints its message."""
    words, content = example
    file = tmp_path / "file"
    file.write_text(content, "utf-8")
    given = "" if "FILE" in words else content + "\n"
    named: list[Word] = [file if word == "FILE" else word for word in words]
    found = printed(program, *named, input=given, stderr=subprocess.DEVNULL).partition("\n")[0]
    assert pattern(message).fullmatch(found)


def test_cases() -> None:
    """A row explains each message of the cases."""
    known = [pattern(message) for message, _ in ROWS]
    plain = (case for _, cases in subjects() for case in cases if not case.keys() & {"pattern", "stdout", "room"})
    lines = {line for case in plain for line in joined(case, "output", 1).decode("utf-8", "replace").splitlines()}
    none(sorted(line for line in lines if re.match(r"(?:no|refused) (?!tables )", line) and not any(it.fullmatch(line) for it in known)))
