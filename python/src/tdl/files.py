"""Files that are read, and files that appear only when they are whole."""
from __future__ import annotations

import errno
import os
import secrets
import select
import stat
import tempfile
from contextlib import ExitStack, contextmanager, suppress
from itertools import combinations
from typing import BinaryIO, Callable, Dict, Iterator, List, Optional, Tuple

from . import interrupts

# how the name of a draft begins, as long as it has one
PREFIX = ".tdl-"
BLOCK = 262_144
# the numbers of the standard streams by their names; `-` is the first or the second
STREAMS = {name: number for number, word in enumerate(("stdin", "stdout", "stderr")) for name in (f"/dev/{word}", f"/dev/fd/{number}", f"/proc/self/fd/{number}")}


def keep_standard_streams() -> None:
    """Opens the standard streams that are closed, so that no file has their numbers. Reading the first and writing the second fails."""
    for number, how in enumerate((os.O_WRONLY, os.O_RDONLY, os.O_WRONLY)):
        try:
            os.fstat(number)
        except OSError:
            file = os.open(os.devnull, how)
            if file != number:
                os.dup2(file, number)
                os.close(file)


@contextmanager
def reading(path: str) -> Iterator[int]:
    """Opens a file, or takes the standard input for `-`. Yields its number."""
    if path == "-":
        yield 0
    else:
        with open(path, "rb", buffering=0) as stream:
            yield stream.fileno()


def is_ready(file: int, milliseconds: Optional[int] = 0) -> bool:
    """Returns whether something can be read, or the end was reached, now or within some time."""
    waiting = select.poll()
    waiting.register(file, select.POLLIN)
    return bool(waiting.poll(milliseconds))


def wait(file: int) -> None:
    """Waits until something can be read, or the end is reached."""
    is_ready(file, None)


def lines_come(file: int, waits: Callable[[int], None] = wait, begun: bytes = b"") -> Iterator[bytes]:
    """Yields the whole lines that have come, after the bytes that were read before, and at the end the rest. `waits` waits until more can be
    read."""
    end = begun.rfind(b"\n") + 1
    if end:
        yield begun[:end]
    rest = bytearray(begun[end:])
    waits(file)
    while block := os.read(file, BLOCK):
        end = block.rfind(b"\n") + 1
        if end:
            yield bytes(rest) + block[:end]
            rest.clear()
        rest += block[end:]
        waits(file)
    if rest:
        yield bytes(rest)


def is_same(one: str, other: str) -> bool:
    """Returns whether two paths name one file, which need not exist yet. A terminal, another device and a pipe take both of what is written, and so
    do two standard streams."""
    if one in STREAMS and other in STREAMS:
        return STREAMS[one] == STREAMS[other]
    found = []
    for path in (one, other):
        with suppress(OSError, ValueError):
            found.append(os.stat(path))
    if len(found) == 2:
        return one == other or (stat.S_ISREG(found[0].st_mode) and os.path.samestat(*found))
    return not found and os.path.realpath(one) == os.path.realpath(other)


def _named(path: str, standard: str) -> str:
    """Returns a path, or the one name of the standard stream that it names; `-` is a given one."""
    path = standard if path == "-" else path
    return f"/dev/fd/{STREAMS[path]}" if path in STREAMS else path


def judge_names(read: str, written: Dict[str, Optional[str]], *, is_in_place: bool) -> None:
    """Raises `ValueError` if two of the files that are written, by their options, are one, or one of them is the file that is read. If
    `is_in_place`, the output may be. A name of None is that of no file."""
    named = {option: _named(path, "/dev/stdout") for option, path in written.items() if path is not None}
    for one, other in combinations(named, 2):
        if is_same(named[one], named[other]):
            raise ValueError(f"--{one} and --{other} name the same file")
    for option, path in named.items():
        if not (is_in_place and option == "output") and is_same(path, _named(read, "/dev/stdin")):
            raise ValueError(f"--{option} names the file that is read")


class _Draft:
    """A file that becomes another. It has no name until then, so that it goes with its process, except on a file system without such files."""

    def __init__(self, target: str) -> None:
        self.target, self.path = target, ""
        folder = os.path.dirname(target)
        with interrupts.held():
            try:
                file = os.open(folder, os.O_WRONLY | os.O_TMPFILE | os.O_CLOEXEC, 0o600)
            except OSError:
                file, self.path = tempfile.mkstemp(prefix=PREFIX, dir=folder)
            interrupts.DRAFTS[target] = self.path
        self.stream: BinaryIO = open(file, "wb")

    def sync(self) -> None:
        """Waits until the file's bytes are on the disk."""
        os.fsync(self.stream.fileno())

    def name(self) -> None:
        """Gives the file a name beside its target, whose mode it takes."""
        if not self.path:
            folder = os.path.dirname(self.target)
            path, where = os.path.join(folder, f"{PREFIX}{secrets.token_hex(8)}"), os.open(folder, os.O_RDONLY | os.O_DIRECTORY)
            try:
                # (with a folder's number Python follows the link of /proc to the file)
                os.link(f"/proc/self/fd/{self.stream.fileno()}", path, src_dir_fd=where)
            finally:
                os.close(where)
            self.path = path
        os.chmod(self.path, _mode(self.target))

    def put(self) -> None:
        """Renames the file to its target."""
        os.replace(self.path, self.target)

    def drop(self) -> None:
        """Closes the file, and removes its name if it has one still."""
        self.stream.close()
        with interrupts.held():
            if self.path:
                with suppress(FileNotFoundError):
                    os.unlink(self.path)
            interrupts.DRAFTS.pop(self.target, None)


def _mode(target: str) -> int:
    """Returns the mode of a file, or that of a new one."""
    with suppress(FileNotFoundError):
        return stat.S_IMODE(os.stat(target).st_mode)
    mask = os.umask(0)
    os.umask(mask)
    return 0o666 & ~mask


def _sync_folder(folder: str) -> None:
    """Waits until the names in a folder are on the disk, if its file system can say so."""
    number = os.open(folder, os.O_RDONLY | os.O_DIRECTORY)
    try:
        os.fsync(number)
    except OSError as error:
        if error.errno != errno.EINVAL:
            raise
    finally:
        os.close(number)


def _put_all(drafts: List[_Draft], is_synced: bool) -> None:
    """Lets files appear together. The signals are held during the renames, and end nothing after them."""
    if is_synced:
        for draft in drafts:
            draft.sync()
    with interrupts.held():
        for draft in drafts:
            draft.name()
        for draft in drafts:
            draft.put()
        interrupts.finish()
    if is_synced:
        for folder in sorted({os.path.dirname(draft.target) for draft in drafts}):
            _sync_folder(folder)


def _is_written_directly(path: str) -> bool:
    """Returns whether a path is that of a device, a pipe or a folder."""
    return os.path.exists(path) and not os.path.isfile(path)


@contextmanager
def writing(*paths: Optional[str], is_synced: bool = True) -> Iterator[Tuple[BinaryIO, ...]]:
    """Opens files that appear together, by renames at the end; `-` is the standard output, and what is written for None goes nowhere.

    The files are on the disk before they appear, and their names before the end, if `is_synced`. A standard stream, such as /dev/stderr, and a
    file that is not a regular one are written directly.
    """
    drafts: List[_Draft] = []
    with ExitStack() as opened:
        streams: List[BinaryIO] = []
        for path in paths:
            number = 1 if path == "-" else STREAMS.get(path or "")
            if number:
                streams.append(opened.enter_context(open(number, "wb", closefd=False)))
            elif path is None or _is_written_directly(path):
                streams.append(opened.enter_context(open(path or os.devnull, "wb")))
            else:
                drafts.append(_Draft(os.path.realpath(path)))
                opened.callback(drafts[-1].drop)
                streams.append(drafts[-1].stream)
        yield tuple(streams)
        for stream in streams:
            stream.flush()
        if drafts:
            _put_all(drafts, is_synced)
