"""Texts, their lines, and who answers them."""
from __future__ import annotations

from typing import Callable, Iterator, List, Protocol, Sequence, Union

from .errors import Rejected

Text = Union[str, bytes]
Answer = Union[str, Rejected]


class Translated(str):
    """An answer to a text of any form, or to one that may be repaired: `form` is its form, and `repaired` says what was done to it, or is
    empty."""

    form = ""
    repaired = ""


class Engine(Protocol):
    """What answers texts: runs of the program, or sessions of the library."""

    def one(self) -> Callable[[Text], str]:
        """Returns the call that answers a text, or raises `Rejected`."""

    def answers(self, texts: Sequence[Text]) -> List[Answer]:
        """Returns the answer to each text."""

    def printed(self, lines: bytes, count: int) -> bytes:
        """Returns the answers to lines as the program prints them."""

    def stream(self, texts: Iterator[Text], batch: int) -> Iterator[Answer]:
        """Yields the answer to each text; they are taken by batches."""

    def close(self) -> None:
        """Ends what answers."""


def bytes_of(text: Text) -> bytes:
    """Returns the bytes of a text."""
    if isinstance(text, str):
        return text.encode("utf-8", "surrogateescape")
    if isinstance(text, (bytes, bytearray)):
        return bytes(text)
    raise TypeError(f"{repr(text)[:40]} is of type {type(text).__name__}: a text is str or bytes, and an empty cell has none (tdl.Column)")


def line_of(text: Text) -> bytes:
    """Returns the line of a text. The program drops the carriage return at its end, so a text may end in one."""
    line = bytes_of(text)
    if b"\n" in line:
        raise ValueError("a text has no line feed: each line is a separate text")
    return line + b"\r\n"


def lines_of(texts: Sequence[Text]) -> bytes:
    """Returns the lines of texts."""
    try:
        lines = ("\r\n".join(texts) + "\r\n").encode("utf-8", "surrogateescape")  # type: ignore[arg-type]
    except TypeError:
        return b"".join(map(line_of, texts))
    return lines if lines.count(b"\n") == len(texts) else b"".join(map(line_of, texts))
