"""The program: where it is, and a run of it that is kept."""
from __future__ import annotations

import os
import select
import shutil
import subprocess
import weakref
from pathlib import Path
from typing import Optional, Sequence, Union

from . import interrupts
from .errors import FilesRejected, ProgramError

BLOCK = 65_536
PATIENCE = 10.0
OWN = Path(__file__).resolve().parent / "bin" / "tdl"
ANSWERS = ("ok ", "no ")
USAGE, REFUSED = "usage: tdl ", "refused "


def find_program(program: Optional[str] = None) -> str:
    """Returns the path of the program: the argument, else `$TDL`, else `tdl` on the PATH, else the package's own."""
    for path in (program, os.environ.get("TDL"), shutil.which("tdl"), str(OWN) if OWN.is_file() else None):
        if path:
            return path
    raise ProgramError("the program tdl is not found: name it by the argument `program`, by $TDL, or put it on the PATH")


def error_of(status: int, printed: str, path: str) -> Exception:
    """Returns what the end of a run with this status means; `printed` is the line that came in place of an answer."""
    if status == 2 and printed.startswith(USAGE):
        return ValueError("the program rejects these arguments: it may be of another version")
    if status == 3 and printed.startswith(REFUSED):
        return FilesRejected(printed)
    if status == 4:
        return FileNotFoundError("a file that the program was given is missing or unreadable")
    if status == 9:
        return MemoryError("the program ran out of memory")
    shown = f" after {printed[:60]!r}" if printed else " without an answer"
    return ProgramError(f"{path} is not tdl, or could not run: it ended with status {status}{shown}", status)


class Killed(Exception):
    """A signal from outside ended the program."""


class Run:
    """A run of the program: bytes of whole lines go in, and as many answer lines come out, in order."""

    def __init__(self, arguments: Sequence[str], program: Optional[str]) -> None:
        self._path = find_program(program)
        try:
            self._process = subprocess.Popen([self._path, *arguments], stdin=subprocess.PIPE, stdout=subprocess.PIPE, bufsize=0)
        except OSError as error:
            raise ProgramError(f"{self._path} cannot be run: {error.strerror}") from error
        assert self._process.stdin and self._process.stdout
        self._input, self._output = self._process.stdin, self._process.stdout
        self._in, self._out = self._input.fileno(), self._output.fileno()
        os.set_blocking(self._in, False)
        self._pipes = select.poll()
        self._pipes.register(self._out, select.POLLIN)
        self._pipes.register(self._in, select.POLLOUT)
        self._found = bytearray()
        self._ends = 0
        _ALIVE.add(self)

    def exchange(self, sent: bytes, wanted: int) -> bytes:
        """Sends bytes and returns the next lines that come back. It reads while it writes, so no full pipe stops either side."""
        written = self._write(sent) if sent else 0
        left = memoryview(sent)[written:] if written < len(sent) else None
        while left:
            for pipe, _ in self._pipes.poll():
                if pipe == self._out:
                    self._read()
                else:
                    left = left[self._write(left) :]
        while self._ends < wanted:
            self._read()
        return self._take(wanted)

    def _take(self, wanted: int) -> bytes:
        """Returns the first lines of what has come."""
        if self._ends == wanted and self._found.endswith(b"\n"):
            taken, self._found = bytes(self._found), bytearray()
        else:
            lines = self._found.split(b"\n", wanted)
            self._found = lines.pop()
            taken = b"".join(line + b"\n" for line in lines)
        self._ends -= wanted
        return taken

    def _write(self, piece: Union[bytes, memoryview]) -> int:
        try:
            return os.write(self._in, piece)
        except BlockingIOError:
            return 0
        except BrokenPipeError:
            # (it may have said why)
            self._read()
            raise self._ended() from None

    def _read(self) -> None:
        block = os.read(self._out, BLOCK)
        if not block:
            raise self._ended()
        self._ends += block.count(b"\n")
        self._found += block

    def _ended(self) -> Exception:
        """Returns why the program ended before all its answers."""
        printed = next((line for line in self._found.decode("latin-1").split("\n") if not line.startswith(ANSWERS)), "")
        status = self.close()
        return Killed() if status < 0 else error_of(status, printed, self._path)

    def not_an_answer(self, line: str) -> Exception:
        """Returns why a line came that is not an answer, and ends the run."""
        if not line.startswith((USAGE, REFUSED)):
            self._process.kill()
            self.close()
            return ProgramError(f"{self._path} is not tdl: it printed {line[:60]!r}")
        return error_of(self.close(), line, self._path)

    def close(self) -> int:
        """Ends the run and returns its status. A second call returns the same."""
        _ALIVE.discard(self)
        for stream in (self._input, self._output):
            stream.close()
        try:
            return self._process.wait(PATIENCE)
        except subprocess.TimeoutExpired:
            self._process.kill()
            return self._process.wait()

    def kill(self) -> None:
        """Kills the run, whatever it does."""
        self._process.kill()

    def forget(self) -> None:
        """Closes the pipes in a process that was forked off, which does not own the run."""
        self._input.close()
        self._output.close()
        self._process.returncode = 0


_ALIVE: "weakref.WeakSet[Run]" = weakref.WeakSet()


def _after_fork() -> None:
    for run in list(_ALIVE):
        run.forget()
    _ALIVE.clear()


def _kill_all() -> None:
    for run in list(_ALIVE):
        run.kill()


os.register_at_fork(after_in_child=_after_fork)
interrupts.AT_END.append(_kill_all)
