"""The vectors of crates/vectors/data, each a case with its wanted answer, and the pages at the heads of the library crates."""
from pathlib import Path
from typing import Iterator

from tools.repository import CRATES

DATA = CRATES / "vectors" / "data"
ANSWER, COMMENT = "= ", "# "


def lines() -> Iterator[str]:
    """The lines of the files, one file after another."""
    for path in sorted(DATA.iterdir()):
        yield from path.read_text("latin-1").split("\n")


def cases() -> list[tuple[str, str]]:
    """The cases, each with its wanted answer."""
    asked = [line for line in lines() if line and not line.startswith("#")]
    return [(case, answer.removeprefix(ANSWER)) for case, answer in zip(asked, asked[1:]) if answer.startswith(ANSWER)]


def comments() -> list[str]:
    """The comments over the cases, which say where they come from."""
    return [line.removeprefix(COMMENT) for line in lines() if line.startswith(COMMENT)]


def page(root: Path) -> str:
    """The page at the head of a root file."""
    lines = []
    for line in root.read_text("utf-8").splitlines():
        if not line.startswith("//!"):
            break
        lines.append(line[4:])
    return "\n".join(lines)
