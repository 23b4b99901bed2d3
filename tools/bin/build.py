"""build [--chain|--costs]: proves the program and the library with every crate below them, and builds them: crates/tdl/out/tdl, and libtdl.so.1
and libtdl.a in crates/tdl_c/out.

It runs `rt ci` over a copy that has these crates alone, without vectors and without must-fail edits, so each proof is made from
nothing and the program is run as two compilers build it. Every processor is used, the longest chain of crates first. `rt` uses fewer if
they need more memory than is free by its own estimate; unless RT_JOBS is set, bin/build sets it if the crates' own peaks fit. Standard
error shows which crates are being proved, the time used, and what is left, a range that narrows as crates end (tools/progress.py).

The library is compiled over what is proved, without a second proof of the crates below it (tools/library.py).

Ctrl-C leaves nothing half done: program, library and their records are put into their place at the end. What was proved until then the `rt` of
README's kit keeps beside the kit, if that folder can be written, so a second call goes on where the first ended. A second call at the same
time waits for the first. If both are built already from the sources as they stand, nothing is done.

--chain prints the longest chain of crates, each of which uses the one before it; no number of processors makes a build shorter. --costs
builds anew and notes in bench/proofs.txt what each proof cost that was made now.

The status is 0, or 1 if a crate is not proved, 2 for other arguments, 70 if bin/build cannot begin, 130 after Ctrl-C.
"""
import fcntl
import os
import re
import shutil
import signal
import subprocess
import sys
import tempfile
from pathlib import Path
from threading import Thread
from time import monotonic
from typing import Optional

from tools import costs, library, repository
from tools.common import BOTH, begun, end, parser, there
from tools.pace import between, minutes
from tools.progress import Progress
from tools.repository import CRATES, GIGABYTE, PROGRAM, TOP

CANNOT, INTERRUPTED = 70, 130
ROOM = 3 * GIGABYTE
PREFIX = "tdl-build-"
# what a program is run on by `rt ci`
RUN_FILES = ("args", "stdin", "stdout", "status", "data")
SHOWN_LINES = 40
# where standard error is no terminal: the seconds between two lines, beside those of crates that end
QUIET = 60


def say(text: str, end: str = "\n") -> None:
    """Writes to standard error."""
    print(f"bin/build: {text}", end=end, file=sys.stderr, flush=True)


class Stopped(Exception):
    """A signal that ends the build."""


def copy_crates(to: Path) -> None:
    """Copies the crates of the program and of the library to a folder, without edits."""
    lines = []
    for crate in repository.built_crates():
        for path in repository.files_of(crate):
            copy = to / path.relative_to(TOP)
            copy.parent.mkdir(parents=True, exist_ok=True)
            shutil.copyfile(path, copy)
    for line in (TOP / "crates.txt").read_text("utf-8").splitlines():
        names = line.partition("#")[0].partition(":")[0].split()
        if names and (to / "crates" / names[0]).is_dir():
            lines.append(line)
    (to / "crates.txt").write_text("\n".join(lines) + "\n", "utf-8")
    shutil.copyfile(TOP / "HANDLES", to / "HANDLES")
    for name in RUN_FILES:
        path = CRATES / "tdl" / name
        if path.is_dir():
            shutil.copytree(path, to / "crates" / "tdl" / name)
        elif path.is_file():
            shutil.copyfile(path, to / "crates" / "tdl" / name)
    # (it is the top of a repository)
    (to / ".git").mkdir()


def sweep() -> None:
    """Removes the copies of builds that were killed."""
    for path in Path(tempfile.gettempdir()).glob(f"{PREFIX}*"):
        found = re.match(rf"{PREFIX}(\d+)-", path.name)
        if found and not Path("/proc", found[1]).exists():
            shutil.rmtree(path, ignore_errors=True)


def environment(progress: Progress) -> Optional[dict[str, str]]:
    """Returns the environment of `rt`: with RT_JOBS if all processors fit into the memory, and `rt` would use fewer."""
    named = os.environ.get("RT_JOBS") or costs.jobs(progress.order, progress.uses, progress.processors, repository.memory_free())
    return {**os.environ, "RT_JOBS": str(named)} if named else None


def tell(progress: Progress) -> None:
    """Says how long the build takes here, and that it may be stopped."""
    low, high = map(progress.left, progress.paces())
    goes_on = "Ctrl-C ends it, and the next call goes on from there" if not repository.lack_of_kit() else "another kit may begin anew after Ctrl-C"
    say(f"{len(progress.order)} crates on {progress.processors} processors: {between(low, high)} with what else runs here now; {goes_on}")


def prove(progress: Progress) -> tuple[int, list[str]]:
    """Runs `rt ci` over the copy, shows how far it is, and returns its status with all that it said."""
    said: list[str] = []
    tell(progress)
    running = begun("rt", "ci", cwd=progress.top, env=environment(progress), stdin=subprocess.DEVNULL, **BOTH)
    is_terminal, told = sys.stderr.isatty(), monotonic()

    def read() -> None:
        for line in there(running.stdout):
            said.append(line.rstrip("\n"))
            if progress.read(said[-1]) and not is_terminal:
                say(progress.text())

    reader = Thread(target=read, daemon=True)
    reader.start()
    try:
        while reader.is_alive():
            reader.join(1)
            progress.look()
            if is_terminal:
                columns = shutil.get_terminal_size().columns - len("bin/build: ") - 1
                say(f"{progress.text()[:columns]:{columns}}", end="\r")
            elif monotonic() - told > QUIET:
                told = monotonic()
                say(progress.text())
        return running.wait(), said
    except BaseException as why:
        end(running)
        if isinstance(why, (KeyboardInterrupt, Stopped)):
            goes_on = "" if repository.lack_of_kit() else "; bin/build goes on from there"
            say(f"stopped with {len(progress.done)} of {len(progress.order)} crates proved{goes_on}")
        raise
    finally:
        if is_terminal:
            print(file=sys.stderr)


def put_in_place(made: Path, sources: str, began: float) -> None:
    """Moves the program to its place, and notes what it was proved from."""
    PROGRAM.parent.mkdir(parents=True, exist_ok=True)
    beside = PROGRAM.with_name(f"tdl.{os.getpid()}")
    shutil.copyfile(made, beside)
    beside.chmod(0o755)
    # (a source that was changed meanwhile is newer than the program)
    os.utime(beside, (began, began))
    beside.replace(PROGRAM)
    repository.write_record(sources)


def every_source() -> tuple[str, str]:
    """Returns the checksums of all that the program and the library are made from."""
    return repository.checksum_of_sources(), library.checksum_of_sources()


def build(is_noted: bool) -> int:
    """Builds the program and the library if they are not current, or if their costs are to be noted, and returns the status."""
    if repository.is_current() and library.is_current() and not is_noted:
        repository.renew_record()
        say(f"{PROGRAM.relative_to(TOP)} and libtdl are built already, from the sources as they stand")
        return 0
    start, sources = monotonic(), every_source()
    sweep()
    with tempfile.TemporaryDirectory(prefix=f"{PREFIX}{os.getpid()}-") as folder:
        top = Path(folder, "tdl")
        copy_crates(top)
        began = top.stat().st_mtime
        progress = Progress(top)
        status, said = prove(progress)
        if status:
            print("\n".join(said[-SHOWN_LINES:]), file=sys.stderr)
            say("not proved; the last lines of `rt ci` stand above. The sources of a release are proved, so this is a change of them, or of the kit")
            return 1
        say("all is proved; now libtdl is compiled")
        try:
            library.build(top, top / "libtdl")
        except library.Unbuilt as why:
            say(f"libtdl is not built: {why}")
            return 1
        if every_source() != sources:
            say("the sources were changed meanwhile: call bin/build again")
            return 1
        put_in_place(top / "crates" / "tdl" / "out" / "tdl", sources[0], began)
        library.put_in_place(top / "libtdl")
        if is_noted:
            costs.write(progress.measured())
    crates = len(repository.built_crates())
    say(f"{PROGRAM.relative_to(TOP)} and libtdl are proved and built: {crates} crates, in {minutes(monotonic() - start)}; bin/tdl runs it")
    return 0


def lack() -> Optional[str]:
    """Why the build cannot begin, in a line, or nothing."""
    kit = repository.lack_of_kit()
    if kit and kit[1]:
        return kit[0]
    if kit:
        say(kit[0])
    if not os.access(CRATES / "tdl", os.W_OK):
        return f"{CRATES / 'tdl'} cannot be written: clone the repository to a folder of yours"
    return repository.lack_of_room(tempfile.gettempdir(), ROOM, ROOM) or repository.lack_of_room(TOP, GIGABYTE, 0)


def chain() -> None:
    """Prints the longest chain of crates, and by how much each of them lengthens it."""
    order, uses = repository.built_crates(), repository.crates()
    need = {crate: seconds for crate, (seconds, _) in costs.costs(order).items()}
    found = costs.longest(need, uses)
    whole = costs.length(need, found)
    print(f"{len(found)} of {len(order)} crates are the longest chain, {whole / 60:.0f} of {sum(need.values()) / 60:.0f} minutes of one processor.\n")
    print("| Crate | minutes | the chain is shorter without it by |\n|---|---:|---:|")
    for crate in found:
        without = {**need, crate: 0.0}
        print(f"| {crate} | {need[crate] / 60:.1f} | {(whole - costs.length(without, costs.longest(without, uses))) / 60:.1f} |")


def main() -> int:
    """Returns the status."""
    asked = parser(__doc__)
    either = asked.add_mutually_exclusive_group()
    either.add_argument("--chain", action="store_true", help="print the longest chain of crates")
    either.add_argument("--costs", action="store_true", help="build anew, and note what each proof cost")
    given = asked.parse_args()
    if given.chain:
        chain()
        return 0
    why = lack()
    if why:
        say(why)
        return CANNOT

    def stop(*_: object) -> None:
        raise Stopped

    signal.signal(signal.SIGTERM, stop)
    with open(__file__, "rb") as lock:
        try:
            try:
                fcntl.flock(lock, fcntl.LOCK_EX | fcntl.LOCK_NB)
            except BlockingIOError:
                say("another bin/build is at work in this checkout; waiting for it")
                fcntl.flock(lock, fcntl.LOCK_EX)
            return build(given.costs)
        except (KeyboardInterrupt, Stopped):
            return INTERRUPTED
