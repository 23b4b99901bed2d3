"""What the calls of this module raise."""
from __future__ import annotations

from typing import Optional, Tuple


class Wrong(ValueError):
    """An input that is not in the format that it has to have, or lacks something that is asked for."""


class Rejected(Exception):
    """A text that has no translation.

    `text` is the text; `reason` is the printed one, without `no ` (docs/CLI.md, 'Lines'), such as `check 19`; `kind` is its first
    word, such as `check`; `place` is the number of bytes of the text before the element or the byte that the reason names, and
    `character` the number of characters of its value before the wrong one, each None if the reason names none; `code` is the application
    identifier that it names, or None. `source` is the form of the text, and `tables` the file of its tables, or None.
    """

    PLACED = frozenset({"bracket", "unknown", "escape", "length", "char", "check", "date", "digit"})
    CODED = frozenset({"repeat", "keys", "extra"})

    def __init__(self, text: bytes, reason: str, source: str = "", tables: Optional[str] = None) -> None:
        super().__init__(reason)
        words = reason.split(" ")
        self.text = text
        self.reason = reason
        self.source = source
        self.tables = tables
        self.kind = words[0]
        numbers: Tuple[int, ...] = tuple(int(word) for word in words[1:]) if self.kind in self.PLACED else ()
        self.place: Optional[int] = numbers[0] if numbers else None
        self.character: Optional[int] = numbers[1] if len(numbers) > 1 else None
        self.code: Optional[str] = words[1] if self.kind in self.CODED else None

    @property
    def sentence(self) -> str:
        """The reason as the inspector's page says it, or the reason itself if the page has no sentence for it."""
        from .cell_reasons import sentence_of_cell
        from .inspector.reasons import sentence_of

        return sentence_of_cell(self.source, self.reason) or sentence_of(self.source, self.text, self.reason, self.tables)

    def __reduce__(self) -> "Tuple[type[Rejected], Tuple[bytes, str, str, Optional[str]]]":
        return type(self), (self.text, self.reason, self.source, self.tables)


class FilesRejected(ValueError):
    """A file that the program was given is rejected: `which` is `tables`, `prefixes`, `links` or `classes`, and `reason` is why, as the
    program prints it (docs/CLI.md, 'Statuses')."""

    def __init__(self, line: str) -> None:
        super().__init__(line)
        _, self.which, self.reason = (line + "  ").split(" ", 2)
        self.reason = self.reason.rstrip(" ")


class ProgramError(RuntimeError):
    """The program cannot be run, is not `tdl`, or ended without an answer. `status` is its exit status, negative if a signal ended it,
    or None if it was not started."""

    def __init__(self, message: str, status: Optional[int] = None) -> None:
        super().__init__(message)
        self.status = status
