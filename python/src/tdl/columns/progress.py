"""A line on a terminal: how far the work is."""
from __future__ import annotations

import os
import stat
import sys
from time import monotonic
from typing import Optional

from .job import Total

PAUSE, WIDTH = 0.2, 20


class Progress:
    """A line on a terminal: how far the work is."""

    def __init__(self, file: Optional[int]) -> None:
        """Shows how much of a file was read, if it is named."""
        self._file, self._began, self._next = 0 if file is None else file, monotonic(), 0.0
        self._is_shown = os.isatty(2)
        found = os.fstat(self._file)
        self._size = found.st_size if file is not None and stat.S_ISREG(found.st_mode) else 0

    def show(self, total: Total) -> None:
        """Shows the records, how many a second, the seconds left, and the rejected ones."""
        now = monotonic()
        if not self._is_shown or now < self._next:
            return
        self._next = now + PAUSE
        spent = max(now - self._began, 0.001)
        done = os.lseek(self._file, 0, os.SEEK_CUR) / self._size if self._size else 0
        bar = f"[{'#' * int(WIDTH * done):{WIDTH}}] " if done else ""
        left = f"{spent / done - spent:.0f} s left, " if done else ""
        text = f"\r{bar}{total.records:,} records, {total.records / spent:,.0f} a second, {left}{total.rejected:,} rejected\033[K"
        print(text, end="", file=sys.stderr, flush=True)

    def end(self) -> None:
        """Clears the line."""
        if self._is_shown:
            print("\r\033[K", end="", file=sys.stderr, flush=True)
