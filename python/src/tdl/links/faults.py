"""What is wrong with a table of links: where, and why (docs/MESSAGES.md, 'Tables of links')."""
from __future__ import annotations

from typing import NamedTuple

MOST_SHOWN = 100


class Fault(NamedTuple):
    """A wrong cell: its row, the place of its column and the column's name, a word of docs/MESSAGES.md, a sentence, and the cell's text."""

    row: int
    place: int
    column: str
    word: str
    sentence: str
    text: str = ""

    def __str__(self) -> str:
        """Returns the line that is printed."""
        text = self.text if len(self.text) <= MOST_SHOWN else f"{self.text[:MOST_SHOWN]}.."
        shown = f": {text if text.isprintable() else ascii(text)}" if text else ""
        return f"row {self.row}, column {self.column}: {self.word}: {self.sentence}{shown}"
