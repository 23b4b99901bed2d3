"""Texts answered by kept runs of the program."""
from __future__ import annotations

import os
import threading
from itertools import islice
from typing import Callable, Iterator, List, Optional, Sequence, TypeVar

from .errors import ProgramError, Rejected
from .program import ANSWERS, Killed, Run
from .texts import Answer, Text, bytes_of, lines_of

Result = TypeVar("Result")


def _checked(run: Run, printed: bytes) -> bytes:
    """Returns what the program printed if each line of it is an answer."""
    lines = b"\n" + printed
    if lines.count(b"\nok ") + lines.count(b"\nno ") == printed.count(b"\n"):
        return printed
    raise run.not_an_answer(next(line for line in printed.decode("latin-1").split("\n") if not line.startswith(ANSWERS)))


class Pipe:
    """Answers texts by a command of the program, of which a run is started at the first text and kept.

    If a signal ends it, another is started, and the text sent again. After a fork each process has its own run.
    """

    def __init__(self, words: Sequence[str], source: str, tables: Optional[str], program: Optional[str]) -> None:
        self._words = words
        self._source = source
        self._tables = tables
        self._program = program
        self._lock = threading.Lock()
        self.run: Optional[Run] = None
        self._owner = os.getpid()
        self._is_closed = False

    def one(self) -> Callable[[Text], str]:
        """Returns the call that answers a text, or raises `Rejected`."""
        return self._one

    def _one(self, text: Text) -> str:
        (answer,) = self.answers((text,))
        if isinstance(answer, Rejected):
            raise answer
        return answer

    def answers(self, texts: Sequence[Text]) -> List[Answer]:
        """Returns the answers of the kept run."""
        return self._kept(lines_of(texts), len(texts), lambda run, printed: self._answers(run, texts, printed))

    def printed(self, lines: bytes, count: int) -> bytes:
        """Returns the answers to lines as the program prints them."""
        return self._kept(lines, count, _checked)

    def stream(self, texts: Iterator[Text], batch: int) -> Iterator[Answer]:
        """Yields the answer to each text. A separate run answers, with up to two batches of texts on the way."""
        run = Run(self._words, self._program)
        try:
            ahead: List[Text] = []
            while taken := list(islice(texts, batch)):
                asked, ahead = (taken, []) if batch == 1 else (ahead, taken)
                yield from self._answers(run, asked, run.exchange(lines_of(taken), len(asked)))
            yield from self._answers(run, ahead, run.exchange(b"", len(ahead)))
        except Killed:
            raise ProgramError("a signal ended the program") from None
        finally:
            run.close()

    def _answers(self, run: Run, texts: Sequence[Text], printed: bytes) -> List[Answer]:
        lines = printed.decode("latin-1").split("\n")
        return [line[3:] if line.startswith("ok ") else self._other(run, text, line) for text, line in zip(texts, lines)]

    def _other(self, run: Run, text: Text, line: str) -> Rejected:
        if not line.startswith("no "):
            raise run.not_an_answer(line)
        return Rejected(bytes_of(text), line[3:], self._source, self._tables)

    def close(self) -> None:
        """Ends the run of the program."""
        with self._lock_of_process():
            self._is_closed = True
            self._drop()

    def _drop(self) -> None:
        run, self.run = self.run, None
        if run:
            run.close()

    def __del__(self) -> None:
        if getattr(self, "run", None) and self._owner == os.getpid():
            self._drop()

    def _lock_of_process(self) -> threading.Lock:
        """Returns the lock. After a fork lock and run are new ones, since another thread may have held the old lock."""
        if self._owner != os.getpid():
            self._owner, self._lock, self.run = os.getpid(), threading.Lock(), None
        return self._lock

    def _kept(self, lines: bytes, count: int, read: Callable[[Run, bytes], Result]) -> Result:
        """Returns what is read of the answers of the kept run. Asks once more if a signal ends the program."""
        with self._lock_of_process():
            if self._is_closed:
                raise ValueError("this is closed")
            for _ in range(2):
                if self.run is None:
                    self.run = Run(self._words, self._program)
                try:
                    return read(self.run, self.run.exchange(lines, count))
                except Killed:
                    self.run = None
                except BaseException:
                    # (an answer may still be on its way, which would be taken for that to the next text)
                    self._drop()
                    raise
        raise ProgramError("a signal ended the program, and again the one that was started in its place")
