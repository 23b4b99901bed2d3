"""Who does the work of a command, piece by piece: this process alone, or several others, which end with it."""
from __future__ import annotations

import fcntl
import os
import select
import signal
from contextlib import suppress
from typing import Any, BinaryIO, Callable, Dict, Generic, List, NoReturn, Optional, Protocol, Tuple, TypeVar, Union

from . import interrupts
from .errors import ProgramError
from .files import wait

PIPE_SIZE, F_SETPIPE_SZ = 1_048_576, 1031
AHEAD = 4
Piece = TypeVar("Piece")
Done = TypeVar("Done")
_Piece = TypeVar("_Piece", contravariant=True)
_Done = TypeVar("_Done", covariant=True)


class Worker(Protocol[_Piece, _Done]):
    """What does the work, by kept runs of the program."""

    def write(self, piece: _Piece) -> _Done:
        """Returns what becomes of a piece."""

    def close(self) -> None:
        """Ends the runs."""


class Alone(Generic[Piece, Done]):
    """Does each piece in this process."""

    def __init__(self, make: Callable[[], Worker[Piece, Done]], sink: Callable[[Done], None]) -> None:
        self._worker, self._sink = make(), sink
        self.wait = wait

    def submit(self, piece: Piece) -> None:
        """Does a piece."""
        self._sink(self._worker.write(piece))

    def close(self) -> None:
        """Ends the runs of the program."""
        self._worker.close()

    finish = close


def _pipe() -> Tuple[int, int]:
    ends = os.pipe()
    with suppress(OSError):
        fcntl.fcntl(ends[1], F_SETPIPE_SZ, PIPE_SIZE)
    return ends


def _done(worker: Worker[Piece, Done], piece: Piece) -> Union[Done, Exception]:
    try:
        return worker.write(piece)
    except Exception as error:
        return error


def _dump(what: object, into: BinaryIO) -> None:
    """Sends something on."""
    # (only here and below, since a command that has one process needs nothing of it)
    import pickle

    pickle.dump(what, into, pickle.HIGHEST_PROTOCOL)
    into.flush()


def _load(file: BinaryIO) -> Any:
    """Returns what comes next. Raises `EOFError` if it does not come whole."""
    import pickle

    try:
        return pickle.load(file)
    except pickle.UnpicklingError:
        raise EOFError from None


def _serve(make: Callable[[], Worker[Piece, Done]], given: int, done: int, others: List[int]) -> NoReturn:
    """Does the pieces that come by a pipe until it is closed, which it is when the parent ends."""
    status = 1
    try:
        interrupts.leave_to_parent()
        for file in others:
            os.close(file)
        worker = make()
        with open(given, "rb") as pieces, open(done, "wb") as written, suppress(EOFError, BrokenPipeError):
            while True:
                _dump(_done(worker, _load(pieces)), written)
        worker.close()
        status = 0
    finally:
        os._exit(status)


class Child(Generic[Piece, Done]):
    """A process that was forked off. It has at most one piece, whose number is `number`."""

    def __init__(self, make: Callable[[], Worker[Piece, Done]], others: List[Child[Piece, Done]]) -> None:
        given, given_to = _pipe()
        done_by, done = _pipe()
        with interrupts.held():
            self._pid = os.fork()
            if not self._pid:
                _serve(make, given, done, [given_to, done_by, *(file for other in others for file in other.files())])
            interrupts.CHILDREN.add(self._pid)
        os.close(given)
        os.close(done)
        self._given, self._done = open(given_to, "wb"), open(done_by, "rb")
        self.number: Optional[int] = None

    def files(self) -> Tuple[int, int]:
        """Returns the ends of the pipes in this process: the first takes pieces, the second has what became of them."""
        return self._given.fileno(), self._done.fileno()

    def send(self, number: int, piece: Piece) -> None:
        """Gives the process a piece."""
        self.number = number
        with suppress(BrokenPipeError):
            _dump(piece, self._given)

    def receive(self) -> Union[Done, Exception]:
        """Returns what became of the piece. Raises `ProgramError` if the process has ended."""
        self.number = None
        try:
            done: Union[Done, Exception] = _load(self._done)
            return done
        except EOFError:
            status = self.end()
        how = f"was ended by {signal.Signals(-status).name}" if status < 0 else f"ended with status {status}"
        raise ProgramError(f"a process of this command {how}")

    def end(self, is_killed: bool = False) -> int:
        """Lets the process end, at once if `is_killed`, and returns its status. A second call returns 0."""
        pid, self._pid = self._pid, 0
        if not pid:
            return 0
        if is_killed:
            interrupts.end_child(pid)
        with suppress(BrokenPipeError):
            self._given.close()
        with interrupts.held():
            interrupts.CHILDREN.discard(pid)
        status = os.waitstatus_to_exitcode(os.waitpid(pid, 0)[1])
        self._done.close()
        return status


class Pool(Generic[Piece, Done]):
    """Does pieces in several processes, and gives what becomes of them to `sink` in order."""

    def __init__(self, processes: int, make: Callable[[], Worker[Piece, Done]], sink: Callable[[Done], None]) -> None:
        # (wrong options are an error before a process is made)
        make().close()
        self._sink = sink
        self._children: List[Child[Piece, Done]] = []
        for _ in range(processes):
            self._children.append(Child(make, self._children))
        self._done: Dict[int, Union[Done, Exception]] = {}
        self._begun = self._ended = 0

    def submit(self, piece: Piece) -> None:
        """Gives a piece to a process, and waits for one if each has a piece."""
        while len(self._busy()) == len(self._children) or self._begun - self._ended >= AHEAD * len(self._children):
            self._receive()
        child = next(child for child in self._children if child.number is None)
        child.send(self._begun, piece)
        self._begun += 1

    def wait(self, file: int) -> None:
        """Takes what the processes have done, until the file can be read."""
        while file not in self._receive(file):
            pass

    def _busy(self) -> List[Child[Piece, Done]]:
        return [child for child in self._children if child.number is not None]

    def _receive(self, *files: int) -> List[int]:
        """Waits for a process or a file, passes on what is whole, and returns the files that can be read."""
        waiting = select.poll()
        for file in (*files, *(child.files()[1] for child in self._busy())):
            waiting.register(file, select.POLLIN)
        ready = [file for file, _ in waiting.poll()]
        for child in self._busy():
            if (number := child.number) is not None and child.files()[1] in ready:
                self._done[number] = child.receive()
        while self._ended in self._done:
            done = self._done.pop(self._ended)
            if isinstance(done, Exception):
                raise done
            self._ended += 1
            self._sink(done)
        return ready

    def finish(self) -> None:
        """Waits for all that was submitted, and for the ends of the processes."""
        while self._ended < self._begun:
            self._receive()
        for child in self._children:
            child.end()

    def close(self) -> None:
        """Ends the processes, whatever they do."""
        for child in self._children:
            child.end(is_killed=True)


def pool_of(processes: int, make: Callable[[], Worker[Piece, Done]], sink: Callable[[Done], None]) -> Union[Alone[Piece, Done], Pool[Piece, Done]]:
    """Returns this process alone, or several others."""
    return Alone(make, sink) if processes == 1 else Pool(processes, make, sink)
