"""Signals that end a command at once: neither a process nor a part of a file is left of it."""
from __future__ import annotations

import os
import signal
import sys
from contextlib import contextmanager, suppress
from typing import Callable, Dict, Iterator, List, Set

SIGNALS = (signal.SIGHUP, signal.SIGINT, signal.SIGTERM)
# the files that have not appeared yet, each with the path that a signal removes, if it has one; the processes that a signal ends (both are
# changed only while the signals are held); and what it calls before
DRAFTS: Dict[str, str] = {}
CHILDREN: Set[int] = set()
AT_END: List[Callable[[], None]] = []


def tell(sentence: str) -> None:
    """Prints a line on standard error, if that can be written."""
    with suppress(OSError):
        os.write(2, f"{sentence}\n".encode("utf-8", "surrogateescape"))


def end_by_signals() -> None:
    """Lets the signals end this process, except those that it was started to ignore."""
    for number in SIGNALS:
        if signal.getsignal(number) is not signal.SIG_IGN:
            signal.signal(number, _end)


def _end(number: int, _: object) -> None:
    """Ends the process with the status of a shell for this signal. It runs between two instructions of Python, so it raises nothing."""
    _leave()
    for path in filter(None, DRAFTS.values()):
        with suppress(OSError):
            os.unlink(path)
    clear = "\r\033[K" if os.isatty(2) else ""
    tell(f"{clear}{' '.join(['tdl', *sys.argv[1:2]])}: ended by {signal.Signals(number).name}{'; no file was written' if DRAFTS else ''}")
    os._exit(128 + number)


def _leave() -> None:
    """Ends the processes of this one. A run of the program is killed before its pipe breaks, which it would print."""
    for call in AT_END:
        call()
    for child in CHILDREN:
        end_child(child)


def end_child(child: int) -> None:
    """Lets a child end, and its own processes with it."""
    with suppress(OSError):
        os.kill(child, signal.SIGUSR1)


def _end_as_child(_: int, __: object) -> None:
    _leave()
    os._exit(0)


def finish() -> None:
    """Lets the signals end the process no more: the files of the command have appeared."""
    for number in SIGNALS:
        if signal.getsignal(number) is _end:
            signal.signal(number, signal.SIG_IGN)


def leave_to_parent() -> None:
    """Lets a child ignore the signals, which a terminal sends to it too: its parent ends it, or it ends when the parent's pipe closes."""
    DRAFTS.clear()
    CHILDREN.clear()
    signal.signal(signal.SIGUSR1, _end_as_child)
    for number in SIGNALS:
        signal.signal(number, signal.SIG_IGN)


@contextmanager
def held() -> Iterator[None]:
    """Holds the signals back to the end of a block."""
    before = signal.pthread_sigmask(signal.SIG_BLOCK, SIGNALS)
    try:
        yield
    finally:
        signal.pthread_sigmask(signal.SIG_SETMASK, before)
