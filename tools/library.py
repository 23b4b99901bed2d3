"""library: libtdl, the translator for C: where it is, and how it is built of the crates that `rt ci` proved.

It is crates/tdl_c/out/libtdl.so.1, with its soname, and crates/tdl_c/out/libtdl.a. Beside them stands a record: the checksums of both and of
the sources that they were made from. `rattle` proves tdl_c and compiles it over the libraries that `rt ci` left in crates/*/out/rlib, whose
proofs are not made again, and the kit's linker links it; no other compiler is needed.
"""
import fcntl
import hashlib
import os
import shutil
import subprocess
import tempfile
from pathlib import Path
from typing import Any

from tools import common, repository
from tools.common import Word
from tools.repository import CRATES, TOP

CRATE = "tdl_c"
OUT = CRATES / CRATE / "out"
SOURCES = TOP / "packaging" / "libtdl"
HEADER, MAP = SOURCES / "tdl.h", SOURCES / "tdl.map"
SONAME, ARCHIVE, RECORD = "libtdl.so.1", "libtdl.a", "libtdl.sources"
JOBS = 2


class Unbuilt(Exception):
    """The library cannot be built, for this reason."""


def is_there() -> bool:
    """Returns whether the repository has the crate."""
    return (CRATES / CRATE / "src").is_dir() and CRATE in repository.crates()


def checksum_of_sources(top: Path = TOP) -> str:
    """Returns the checksum of all that the library is made from."""
    return hashlib.sha256(f"{repository.checksum_of_sources(top, CRATE)} {repository.checksum(MAP)}".encode()).hexdigest()


def is_current(folder: Path = OUT) -> bool:
    """Returns whether the library is there, and was made from the sources as they stand."""
    try:
        *files, sources = (folder / RECORD).read_text("ascii").split()
        return files == [repository.checksum(folder / name) for name in (SONAME, ARCHIVE)] and sources == checksum_of_sources()
    except (OSError, ValueError, KeyError):
        return False


def kit() -> Path:
    """Returns the folder of the kit."""
    found = shutil.which("rt")
    folder = Path(found).resolve().parent.parent if found else None
    if not folder or not (folder / "rlibs").is_dir():
        raise Unbuilt("there is no kit behind the `rt` on the PATH")
    return folder


def libraries(top: Path = TOP) -> dict[str, Path]:
    """Returns the libraries below the crate, as `rt ci` leaves them at `top`. Raises `Unbuilt` if one is not there."""
    found = {crate: top / "crates" / crate / "out" / "rlib" / f"{crate}.rlib" for crate in repository.below(CRATE, repository.crates(top))[:-1]}
    lacking = [crate for crate, path in found.items() if not path.is_dir()]
    if lacking:
        raise Unbuilt(f"`rt ci` has left no library of {', '.join(lacking)}: bin/build proves them and builds libtdl")
    return found


def run(*words: Word, **how: Any) -> None:
    """Runs a tool. Raises `Unbuilt` with what it said if it fails."""
    status, text = common.run(*words, stdin=subprocess.DEVNULL, **how)
    if status:
        raise Unbuilt(f"{words[0]!s} ended with status {status}\n{text[-4000:]}")


def compile_crate(top: Path, to: Path) -> None:
    """Proves the crate and compiles it to an archive."""
    tools, built = kit(), libraries(top)
    used = next(line.partition(":")[2].split() for line in (top / "crates.txt").read_text("utf-8").splitlines() if line.split()[:1] in ([CRATE], [f"{CRATE}:"]))
    words: list[Word] = [tools / "bin" / "rattle", "build", "--crate-name", CRATE, "src/lib.rt"]
    for name in dict.fromkeys(["std", *used]):
        words += ["--extern", f"{name}={built.get(name, tools / 'rlibs' / f'{name}.rlib')}"]
    for folder in [tools / "rlibs", *(path.parent for path in built.values())]:
        words += ["-L", f"dependency={folder}"]
    words += ["--antt-project", tools / "rattle/logic/antt-project.json", "--logic-built", tools / "logic_built", "--links", f"{CRATE}="]
    words += ["--jobs", JOBS, "--crate-type", "staticlib", "--backend", "llvm", "--toolchain", tools / "toolchain", "-o", to]
    run(*words, cwd=top / "crates" / CRATE)


def link(compiled: Path, to: Path) -> None:
    """Makes the archive and the shared library of what the crate was compiled to, with the kit's `malloc`, in a folder."""
    tools = kit() / "toolchain"
    with tempfile.TemporaryDirectory() as room:
        for archive in (compiled, kit() / "c" / "liblibc_c.a"):
            run(tools / "bin/llvm-ar", "x", archive.resolve(), cwd=room)
        objects = sorted(path.name for path in Path(room).iterdir())
        run(tools / "bin/llvm-ar", "rcsD", (to / ARCHIVE).resolve(), *objects, cwd=room)
    words: list[Word] = ["-shared", "-soname", SONAME, "--version-script", MAP, "-z", "relro", "-z", "now", "-z", "defs", "--hash-style=gnu"]
    words += ["--build-id=sha1", "--gc-sections", "--strip-all", "-o", to / SONAME]
    run(tools / "bin/ld.lld", *words, "--whole-archive", to / ARCHIVE, "--no-whole-archive", tools / "lib/libc.so.6")


def build(top: Path = TOP, folder: Path = OUT) -> Path:
    """Builds the library over the libraries that `rt ci` left at `top`, puts both files and their record into a folder, and returns it."""
    sources = checksum_of_sources(top)
    with tempfile.TemporaryDirectory(prefix="tdl-library-") as name:
        room = Path(name)
        compile_crate(top, room / "compiled.a")
        link(room / "compiled.a", room)
        sums = [repository.checksum(room / name) for name in (SONAME, ARCHIVE)]
        (room / RECORD).write_text("\n".join([*sums, sources]) + "\n", "ascii")
        put_in_place(room, folder)
    return folder


def put_in_place(room: Path, folder: Path = OUT) -> None:
    """Moves the library's files to their place, the record last."""
    folder.mkdir(parents=True, exist_ok=True)
    for name in (SONAME, ARCHIVE, RECORD):
        beside = folder / f"{name}.{os.getpid()}"
        shutil.copyfile(room / name, beside)
        beside.replace(folder / name)


def current() -> Path:
    """Returns the folder of the library, which one process builds if it is not current and `rt ci` left what it needs. Raises `Unbuilt`."""
    if not is_there():
        raise Unbuilt("this repository has no crate tdl_c")
    with HEADER.open() as lock:
        fcntl.flock(lock, fcntl.LOCK_EX)
        return OUT if is_current() else build()


def named_or_current() -> Path:
    """Returns the folder that $TDL_LIBRARY names, or that of the library. Raises `Unbuilt`."""
    named = os.environ.get("TDL_LIBRARY")
    return Path(named).resolve() if named else current()
