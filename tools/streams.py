"""The streams of a case: its standard input, which may be cut, may break, or has to stay unread, and its standard output, which may be short
of room."""
import os
import resource
import socket
import subprocess
import tempfile
from contextlib import ExitStack, suppress
from threading import Thread
from typing import Any, Callable, Optional, Union

from tools.cases import Case, bytes_of, joined
from tools.common import begun

# status, output and errors
Ended = tuple[Union[int, str], bytes, bytes]
Said = tuple[Optional[bytes], Optional[bytes]]


def cut_in(given: bytes, most: int) -> tuple[socket.socket, Thread]:
    """Returns an input of which a read gets at most so many bytes, and the thread that feeds it."""
    ours, theirs = socket.socketpair(socket.AF_UNIX, socket.SOCK_SEQPACKET)

    def feed() -> None:
        with ours, suppress(BrokenPipeError, ConnectionResetError):
            for place in range(0, len(given), most):
                ours.send(given[place:place + most])

    return theirs, Thread(target=feed)


def broken_after(given: bytes) -> socket.socket:
    """Returns an input whose read after these bytes fails: its peer has closed, and left something unread."""
    ours, theirs = socket.socketpair()
    with ours:
        theirs.send(b"x")
        ours.sendall(given)
    return theirs


def limited_to(room: int) -> Callable[[], None]:
    """Returns what keeps the files of a process from growing over so many bytes, so that a write fails."""
    return lambda: resource.setrlimit(resource.RLIMIT_FSIZE, (room, room))


def spoken(words: list[bytes], given: Optional[bytes], patience: float, fed: Optional[Thread], close: Callable[[], None], how: Any) -> tuple[Any, Said]:
    """Returns the status of a program, and what it wrote to pipes; closes what it has inherited, and starts the thread that feeds it."""
    running = begun(*words, **how)
    close()
    if fed:
        fed.start()
    try:
        said: Said = running.communicate(given, timeout=patience)
    except subprocess.TimeoutExpired:
        running.kill()
        running.communicate()
        return f"none in {patience} seconds", (None, None)
    finally:
        if fed:
            fed.join()
    return running.returncode, said


def run(words: list[bytes], case: Case, folder: bytes, patience: float) -> Ended:
    """What a program answers: its status, its standard output and its standard error."""
    how: dict[str, Any] = {"cwd": folder, "stdout": subprocess.PIPE, "stderr": subprocess.PIPE, "stdin": subprocess.PIPE}
    given, fed = joined(case, "input", 0), None
    with ExitStack() as opened, ExitStack() as inherited:
        if "stdin" in case:
            how["stdin"] = os.open(os.path.join(folder, bytes_of(case["stdin"])), os.O_RDONLY)
            inherited.callback(os.close, how["stdin"])
        elif "cut" in case:
            theirs, fed = cut_in(given, case["cut"])
            how["stdin"] = inherited.enter_context(theirs)
        elif "broken" in case:
            how["stdin"] = inherited.enter_context(broken_after(given))
        elif "unread" in case:
            how["stdin"] = opened.enter_context(tempfile.TemporaryFile())
            how["stdin"].write(given)
            how["stdin"].seek(0)
        if "stdout" in case:
            how["stdout"] = os.open(case["stdout"], os.O_WRONLY)
            inherited.callback(os.close, how["stdout"])
        elif "room" in case:
            how["stdout"] = opened.enter_context(tempfile.TemporaryFile())
            # (the signal of a file that would be too large stays ignored, as it is in Python)
            how.update(preexec_fn=limited_to(case["room"]), restore_signals=False)
        status, (output, error) = spoken(words, given if how["stdin"] == subprocess.PIPE else None, patience, fed, inherited.close, how)
        if "room" in case:
            how["stdout"].seek(0)
            output = how["stdout"].read()
        if "unread" in case and os.lseek(how["stdin"].fileno(), 0, os.SEEK_CUR):
            return "the input was read", output or b"", error or b""
    return status, output or b"", error or b""
