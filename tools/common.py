"""What the tools have in common: their arguments, how they run programs, what that costs, and what has to be there."""
import argparse
import resource
import socket
import subprocess
import tempfile
from contextlib import contextmanager
from pathlib import Path
from time import monotonic, sleep
from typing import Any, Callable, Iterator, Optional, Sequence, TypeVar, Union

T = TypeVar("T")
Word = Union[str, bytes, int, Path]
Process = subprocess.Popen[Any]
HOST = "127.0.0.1"
# the seconds after which a test takes what it waits for as hung: far more than it needs on a slow machine
PATIENCE = 900
QUIET: dict[str, Any] = {"stdout": subprocess.DEVNULL, "stderr": subprocess.DEVNULL}
PIPES: dict[str, Any] = {"stdin": subprocess.PIPE, "stdout": subprocess.PIPE, "stderr": subprocess.PIPE}
BOTH: dict[str, Any] = {"stdout": subprocess.PIPE, "stderr": subprocess.STDOUT, "text": True, "errors": "replace"}


def parser(described: Optional[str], **how: Any) -> argparse.ArgumentParser:
    """Returns a parser of arguments, whose help is a module's text."""
    return argparse.ArgumentParser(description=described, formatter_class=argparse.RawDescriptionHelpFormatter, **how)


def told(words: Sequence[Word]) -> list[Union[str, bytes]]:
    """Returns the words of a command as the system takes them."""
    return [word if isinstance(word, (str, bytes)) else str(word) for word in words]


def begun(*words: Word, **how: Any) -> Process:
    """Starts a command, and returns its process."""
    process: Process = subprocess.Popen(told(words), **how)
    return process


def run(*words: Word, **how: Any) -> tuple[int, str]:
    """Runs a command, and returns its status and what it prints, errors too."""
    done: subprocess.CompletedProcess[str] = subprocess.run(told(words), check=False, **{**BOTH, **how})
    return done.returncode, done.stdout


def ran(*words: Word, **how: Any) -> str:
    """Runs a command, and returns what it prints; if its status is not 0, that, and its errors too."""
    named: dict[str, Any] = {**BOTH, "stderr": subprocess.PIPE, **how}
    done: subprocess.CompletedProcess[str] = subprocess.run(told(words), **named)
    return f"status {done.returncode}\n{done.stdout[-4000:]}{done.stderr or ''}" if done.returncode else done.stdout


def printed(*words: Word, **how: Any) -> str:
    """Runs a command, and returns what it prints, without errors."""
    named: dict[str, Any] = {"stdout": subprocess.PIPE, "text": True, **how}
    done: subprocess.CompletedProcess[str] = subprocess.run(told(words), **named)
    return done.stdout


def spent() -> float:
    """Returns the seconds of processor time of the processes that this one started and that have ended."""
    used = resource.getrusage(resource.RUSAGE_CHILDREN)
    return used.ru_utime + used.ru_stime


@contextmanager
def temporary(prefix: Optional[str] = None) -> Iterator[Path]:
    """Makes a folder for a block, and removes it at its end."""
    with tempfile.TemporaryDirectory(prefix=prefix) as name:
        yield Path(name)


def stat_of(pid: Word) -> list[str]:
    """Returns what the system tells of a process behind its name: state, parent, group, and so on. Raises `OSError` if it is gone."""
    return Path("/proc", f"{pid!s}", "stat").read_text(errors="replace").rpartition(")")[2].split()


def children_of(pid: int) -> list[int]:
    """Returns the processes that a process has started. Raises `OSError` if it is gone."""
    return [int(child) for child in Path(f"/proc/{pid}/task/{pid}/children").read_text().split()]


def until(found: Callable[[], T], seconds: float, pause: float = 0.02) -> T:
    """Calls until the answer is true, or so many seconds are over, and returns the last answer."""
    last = monotonic() + seconds
    while not (it := found()) and monotonic() < last:
        sleep(pause)
    return it


def end(process: Process, seconds: float = 10) -> None:
    """Ends a process, by force if it has not ended after some seconds."""
    process.terminate()
    try:
        process.wait(seconds)
    except subprocess.TimeoutExpired:
        process.kill()
        process.wait()


@contextmanager
def ending(process: Process) -> Iterator[Process]:
    """Ends a process at the end of a block."""
    try:
        yield process
    finally:
        end(process)


def free_port() -> int:
    """Returns a port of this machine that nothing listens at."""
    with socket.socket() as asked:
        asked.bind((HOST, 0))
        return int(asked.getsockname()[1])


def there(it: Optional[T]) -> T:
    """Returns what has to be there. Raises `LookupError` if it is not."""
    if it is None:
        raise LookupError("what has to be there is missing")
    return it
