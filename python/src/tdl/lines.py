"""Texts answered by the library, or by a command of the program that reads lines."""
from __future__ import annotations

import os
import weakref
from typing import Iterable, Iterator, List, NoReturn, Optional, Sequence, TypeVar

from .library import Library
from .pipe import Pipe
from .texts import Answer, Engine, Text, bytes_of

__all__ = ["Answer", "Lines", "Text", "bytes_of"]
Self = TypeVar("Self", bound="Lines")
BATCH = 512


class Lines:
    """Answers texts by an engine: the library, or a run of the program, either of which is started at the first text and kept.

    Any number of threads may share an object, and it survives a fork. `ValueError`, `FilesRejected`, `FileNotFoundError`, `MemoryError` and
    `ProgramError` say that a text could not be answered.
    """

    def __init__(self, words: Sequence[str], source: str, tables: Optional[str], program: Optional[str], engine: Optional[Engine] = None) -> None:
        self._engine: Engine = engine or Pipe(words, source, tables, program)
        if isinstance(engine, Library):
            _ALIVE.add(self)

    def translate(self, text: Text) -> str:
        """Returns the answer to a text. Raises `Rejected` if it has none."""
        call = self._engine.one()
        if isinstance(self._engine, Library) and type(self).translate is Lines.translate:
            # (further calls go to the session without a step between)
            self.__dict__["translate"] = call
        return call(text)

    def translate_list(self, texts: Iterable[Text]) -> List[Answer]:
        """Returns the answer to each text of a list, or of a column or an array; a text without one has its `Rejected`, which is not
        raised, there."""
        if isinstance(texts, (str, bytes, bytearray)):
            raise TypeError("translate_list takes a list of texts, not one text")
        taken = texts if isinstance(texts, (list, tuple)) else list(texts)
        return self._engine.answers(taken) if taken else []

    def translate_all(self, texts: Iterable[Text], *, batch: int = BATCH) -> Iterator[Answer]:
        """Returns an iterator of the answer to each text, in order; a text without one has its `Rejected`, which is not raised, there.

        It takes up to two batches of texts ahead of the answers. Give `batch` 1 for a source that waits for answers.
        """
        if isinstance(texts, (str, bytes, bytearray)):
            raise TypeError("translate_all takes an iterable of texts, not one text")
        if batch < 1:
            raise ValueError("a batch has at least one text")
        return self._engine.stream(iter(texts), batch)

    def print_answers(self, lines: bytes, count: int) -> bytes:
        """Returns the answers to some lines as the program prints them, `ok TEXT` or `no REASON` and a line feed each."""
        return self._engine.printed(lines, count)

    def close(self) -> None:
        """Ends the run of the program or the session. Nothing is answered after that; a second call does nothing."""
        self.__dict__.pop("translate", None)
        self._engine.close()

    def __enter__(self: Self) -> Self:
        return self

    def __exit__(self, *_: object) -> None:
        self.close()

    def __reduce__(self) -> NoReturn:
        raise TypeError("a run of the program is not pickled: make another object there")

    def after_fork(self) -> None:
        """Lets go of a session that another thread had in a call at the time of the fork."""
        if isinstance(self._engine, Library) and not self._engine.after_fork():
            self.__dict__.pop("translate", None)


_ALIVE: "weakref.WeakSet[Lines]" = weakref.WeakSet()


def _after_fork() -> None:
    for lines in list(_ALIVE):
        lines.after_fork()


os.register_at_fork(after_in_child=_after_fork)
