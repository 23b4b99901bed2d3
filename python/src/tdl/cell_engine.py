"""Texts answered as cells are: those of any form, bare numbers, and repaired ones."""
from __future__ import annotations

import os
import threading
from itertools import islice
from typing import Any, Callable, Dict, Iterator, List, Sequence

from .answers import Answered, Answers
from .cells import Spelling
from .errors import Rejected
from .options import path_of
from .texts import Answer, Text, Translated, bytes_of


def _told(answer: bytes, form: str, repaired: bytes) -> Translated:
    told = Translated(answer, "latin-1")
    told.form, told.repaired = form, repaired.decode("ascii")
    return told


class CellEngine:
    """Answers texts in one form. Its calls are those of `Engine`."""

    def __init__(self, how: Spelling, target: str, options: Dict[str, Any]) -> None:
        self._source, self._tables = how.source, path_of(options.get("tables"))
        self.is_any, self._is_told = how.is_any, how.is_any or how.is_repaired
        self._answers = Answers(how, (target,), options)
        self._owner, self._lock, self._is_closed = os.getpid(), threading.Lock(), False

    def one(self) -> Callable[[Text], str]:
        """Returns the call that answers a text, or raises `Rejected`."""
        return self._one

    def _one(self, text: Text) -> str:
        (answer,) = self.answers((text,))
        if isinstance(answer, Rejected):
            raise answer
        return answer

    def answers(self, texts: Sequence[Text]) -> List[Answer]:
        """Returns the answer to each text."""
        cells = [bytes_of(text) for text in texts]
        if any(b"\n" in cell for cell in cells):
            raise ValueError("a text has no line feed: each line is a separate text")
        found = self.answered(cells)
        forms = [form.decode("ascii") or self._source for form in found.forms] or [self._source] * len(cells)
        answers: List[Answer] = [answer.decode("latin-1") for answer in found.columns[0]]
        if self._is_told:
            answers = [_told(answer, form, found.repaired.get(place, b"")) for place, (answer, form) in enumerate(zip(found.columns[0], forms))]
        for place, reason in found.reasons.items():
            answers[place] = Rejected(cells[place], reason.decode("latin-1"), forms[place], self._tables)
        return answers

    def answered(self, cells: List[bytes]) -> Answered:
        """Returns the answers to cells, with their forms and repairs. One thread at a time is answered."""
        if self._is_closed:
            raise ValueError("this is closed")
        with self._lock_of_process():
            return self._answers.answer(cells)

    def _lock_of_process(self) -> threading.Lock:
        """Returns the lock: a new one after a fork, since another thread may have held the old one."""
        if self._owner != os.getpid():
            self._owner, self._lock = os.getpid(), threading.Lock()
        return self._lock

    def printed(self, lines: bytes, count: int) -> bytes:
        """Returns the answers to lines as the program prints them."""
        texts = [line[:-1] if line.endswith(b"\r") else line for line in lines.split(b"\n")[:count]]
        told = (("no", answer.reason) if isinstance(answer, Rejected) else ("ok", answer) for answer in self.answers(texts))
        return "".join(f"{word} {text}\n" for word, text in told).encode("latin-1")

    def stream(self, texts: Iterator[Text], batch: int) -> Iterator[Answer]:
        """Yields the answer to each text."""
        while taken := list(islice(texts, batch)):
            yield from self.answers(taken)

    def close(self) -> None:
        """Ends the runs of the program."""
        self._is_closed = True
        self._answers.close()
