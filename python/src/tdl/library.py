"""Texts answered by the library libtdl, in this process."""
from __future__ import annotations

import functools
import threading
from itertools import islice
from typing import Callable, Iterator, List, Optional, Sequence, cast

from .errors import FilesRejected, Rejected
from .options import FORMS, TARGETS
from .texts import Answer, Text, bytes_of

try:
    from . import _library
except ImportError:
    IS_THERE = False
else:
    IS_THERE = True

STEM = "https://id.gs1.org"
ANY_FILTER = 255
# the most bytes of a file (docs/LIMITS.md)
LIMITS = {"tables": 2_097_152, "prefixes": 4_194_304}


def _rejected(source: str, tables: Optional[str], text: bytes, reason: str) -> Rejected:
    return Rejected(text, reason, source, tables)


def _content(which: str, path: Optional[str]) -> bytes:
    """Returns the bytes of a file; those of an empty one are a blank, since no bytes stand for no file."""
    if path is None:
        return b""
    try:
        with open(path, "rb") as file:
            content = file.read(LIMITS[which] + 1)
    except OSError as error:
        raise FileNotFoundError("a file that the program was given is missing or unreadable") from error
    if len(content) > LIMITS[which]:
        raise FilesRejected(f"refused {which} over")
    return content or b" "


class Library:
    """Answers texts by a session of the library, which is opened at the first text and kept. Its calls are those of `Engine`."""

    def __init__(
        self,
        source: str,
        target: str,
        *,
        tables: Optional[str],
        prefixes: Optional[str],
        filter: Optional[int],
        gcp: Optional[int],
        encoding: Optional[str],
        keys_only: bool,
        stem: Optional[str],
    ) -> None:
        self._forms = FORMS.index(source), TARGETS.index(target)
        self._numbers = ANY_FILTER if filter is None else int(filter), int(gcp or 0), int(keys_only)
        self._names = (bytes_of(encoding or ""), bytes_of(stem or STEM))
        self._files = (tables, prefixes)
        self._rejected = functools.partial(_rejected, source, tables)
        self._lock = threading.Lock()
        self._session: Optional[_library.Session] = None
        self._is_closed = False

    def _opened(self) -> "_library.Session":
        """Returns the session."""
        session = self._session
        if session is None:
            with self._lock:
                if self._is_closed:
                    raise ValueError("this is closed")
                session = self._session = self._session or self._open()
        return session

    def _open(self) -> "_library.Session":
        tables, prefixes = (_content(which, path) for which, path in zip(LIMITS, self._files))
        return _library.Session(*self._forms, *self._numbers, *self._names, tables, prefixes, bytes_of, self._rejected, FilesRejected)

    def one(self) -> Callable[[Text], str]:
        """Returns the call that answers a text, or raises `Rejected`."""
        return self._opened().translate

    def answers(self, texts: Sequence[Text]) -> List[Answer]:
        """Returns the answer to each text. The global lock is released meanwhile."""
        return cast(List[Answer], self._opened().translate_list(texts))

    def printed(self, lines: bytes, count: int) -> bytes:
        """Returns the answers to lines as the program prints them. The global lock is released meanwhile."""
        return self._opened().print_answers(lines)

    def stream(self, texts: Iterator[Text], batch: int) -> Iterator[Answer]:
        """Yields the answer to each text. The session goes on until the last one, even if this is closed before."""
        session = self._opened()
        while taken := list(islice(texts, batch)):
            yield from cast(List[Answer], session.translate_list(taken))

    def close(self) -> None:
        """Closes the session, if no call and no stream has it."""
        with self._lock:
            self._is_closed = True
            self._session = None

    def after_fork(self) -> bool:
        """Returns whether the session is as it was, in a process that was forked off. Otherwise the next text opens another."""
        self._lock = threading.Lock()
        if self._session and not self._session.after_fork():
            self._session = None
            return False
        return True
