"""`python3 -m tdl csv` and its processes, ended at any moment, and the ways of docs/TUTORIAL.md to many machines.

A run with several processes that a signal ends, each at another moment after it answers signals, has the status of the signal and one line; no
process is left, and no file, or the whole one if it was done. With --whole ten times as many signals come.
"""
import os
import random
import re
import signal
import subprocess
import sys
import tempfile
import time
from concurrent.futures import ThreadPoolExecutor
from contextlib import ExitStack, suppress
from pathlib import Path
from typing import Callable, NamedTuple, TypeVar

import pytest

from tools.common import HOST, PATIENCE, QUIET, Process, begun, ending, free_port, run, stat_of, until
from tools.repository import TOP
from tools.tests import none, same

T = TypeVar("T")
Environment = dict[str, str]

DASK, DISTRIBUTED = (f"/usr/lib/python3/dist-packages/{name}/__init__.py" for name in ("dask", "distributed"))
SIDE_BY_SIDE, SMALL, LARGE, READS = 4, 3_000, 1_500_000, 20_000
pytestmark = pytest.mark.xdist_group("columns")


def record(number: int) -> str:
    """Returns a pure identity URI of an item."""
    return f"urn:epc:id:sgtin:0614141.812345.{number}"


def awaited(what: str, found: Callable[[], T]) -> T:
    """Waits until something is found, and returns it."""
    it = until(found, PATIENCE)
    assert it, f"not in {PATIENCE} seconds: {what}"
    return it


@pytest.fixture(scope="module")
def records(tmp_path_factory: pytest.TempPathFactory) -> Path:
    """A folder with a small and a large file of records."""
    folder = tmp_path_factory.mktemp("records")
    for size in (SMALL, LARGE):
        (folder / f"{size}.csv").write_text("\n".join(["e", *map(record, range(size))]) + "\n")
    return folder


def whole(size: int) -> int:
    """Returns the size of what `csv` writes of a file of records."""
    link = len("https://id.gs1.org/01/80614141123458/21/") + len(",,")
    return sum(2 * len(record(number)) + 2 + link - len(record(0)) for number in range(size)) + len("e,e_link,e_reason\n")


def members(group: int) -> dict[int, int]:
    """Returns the processes of a group that have not ended, with their parents."""
    found: dict[int, int] = {}
    for pid in filter(str.isdigit, os.listdir("/proc")):
        with suppress(OSError):
            state, parent, of_group = stat_of(pid)[:3]
            if int(of_group) == group and state not in "ZX":
                found[int(pid)] = int(parent)
    return found


def answers_signals(process: subprocess.Popen[bytes]) -> bool:
    """Returns whether a run has its own answer to an end, or has ended."""
    try:
        caught = re.search(r"^SigCgt:\s*(\w+)", Path(f"/proc/{process.pid}/status").read_text(), re.M)
    except OSError:
        caught = None
    return process.poll() is not None or bool(caught and int(caught[1], 16) >> (signal.SIGTERM - 1) & 1)


class Run:
    """A run of `csv` with several processes, in a group of its own, over a file of some size."""

    def __init__(self, folder: Path, size: int, environment: Environment) -> None:
        self.folder = Path(tempfile.mkdtemp(dir=folder))
        words = ["-c", "e", "--from", "pure", "-j", "3", f"{folder}/{size}.csv", "-o", str(self.folder / "out.csv")]
        with open(self.folder.with_suffix(".told"), "wb") as told:
            self.process = subprocess.Popen([sys.executable, "-m", "tdl", "csv", *words], env=environment, stderr=told, start_new_session=True)
        self.group = self.process.pid

    def ended(self) -> tuple[int, str, list[str]]:
        """Returns the status, the lines on standard error, and the files that are there, after all processes of the group have ended."""
        status = self.process.wait(PATIENCE)
        awaited("no process is left", lambda: not members(self.group))
        return status, self.folder.with_suffix(".told").read_text(), sorted(os.listdir(self.folder))

    def workers(self) -> list[int]:
        """Returns the processes that the run forks off, once all are there."""
        def found() -> list[int]:
            forked = [pid for pid, parent in members(self.group).items() if parent == self.group]
            return forked if len(forked) == 3 else []

        return awaited("it has processes", found)


def interrupted(folder: Path, environment: Environment, kind: signal.Signals, size: int, dice: random.Random) -> str:
    """Returns what is wrong after a signal at some moment."""
    run = Run(folder, size, environment)
    awaited("it answers signals", lambda: answers_signals(run.process))
    time.sleep(dice.random())
    if run.process.poll() is None:
        (os.kill if kind == signal.SIGTERM and dice.random() < 0.5 else os.killpg)(run.group, kind)
    status, told, files = run.ended()
    if status == 0 and files == ["out.csv"]:
        written = (run.folder / "out.csv").stat().st_size
        return "" if written == whole(size) else f"{written} bytes, not {whole(size)}"
    is_told = re.fullmatch(rf"tdl csv: ended by {kind.name}(; no file was written)?\n", told)
    return "" if status == 128 + kind and is_told and not files else f"status {status}, it printed {told[-600:]!r}, files {files}"


@pytest.mark.parametrize("count", (10, pytest.param(100, marks=pytest.mark.whole)))
@pytest.mark.parametrize("size", (SMALL, LARGE))
@pytest.mark.parametrize("kind", (signal.SIGINT, signal.SIGTERM, signal.SIGHUP), ids=lambda kind: str(kind.name))
def test_a_signal_at_any_moment_leaves_nothing(records: Path, module: Environment, kind: signal.Signals, size: int, count: int) -> None:
    with ThreadPoolExecutor(SIDE_BY_SIDE) as pool:
        none(pool.map(lambda number: interrupted(records, module, kind, size, random.Random(number)), range(count)))


def test_a_killed_process_ends_the_run_with_an_error(records: Path, module: Environment) -> None:
    run = Run(records, LARGE, module)
    os.kill(run.workers()[0], signal.SIGKILL)
    status, told, files = run.ended()
    # the tdl of the killed process may be writing to it at that moment, and says so
    told = told.replace("tdl: cannot write standard output: Broken pipe (os error 32)\n", "")
    assert (status, told, files) == (4, "tdl csv: a process of this command was ended by SIGKILL\n", [])


def test_a_killed_run_leaves_no_process(records: Path, module: Environment) -> None:
    run = Run(records, LARGE, module)
    run.workers()
    os.kill(run.group, signal.SIGKILL)
    status, _, files = run.ended()
    assert (status, files) == (-signal.SIGKILL, [])


def shown() -> list[tuple[list[str], str]]:
    """Returns the files and the commands of docs/TUTORIAL.md, 'A billion reads': each with the words behind its fence."""
    text = (TOP / "docs" / "TUTORIAL.md").read_text("utf-8")
    story = text[text.index("\n## A billion reads\n") :].split("\n## ")[1]
    return [(head.split(), body) for head, body in re.findall(r"^```(.*)\n((?:.*\n)*?)```$", story, re.M)]


class Story(NamedTuple):
    """A folder with the files of the story, an environment for its commands, and what `csv` writes of its reads."""

    folder: Path
    environment: Environment
    wanted: bytes


@pytest.fixture
def story(tmp_path: Path, module: Environment) -> Story:
    """The story of docs/TUTORIAL.md, with reads of tags."""
    for words, body in shown():
        if len(words) > 1:
            (tmp_path / words[1]).write_text(body)
    dice = random.Random(5)
    tags = [f"{0x3074257BF7194E4000000000 + dice.randrange(2**38):024X}"[: 24 if number % 50 else 10] for number in range(READS)]
    (tmp_path / "reads.csv").write_text("time,reader,antenna,epc\n" + "".join(f"08:00,dock,{number % 4},{tag}\n" for number, tag in enumerate(tags)))
    words = ["csv", "-c", "epc", "--from", "hex", "--to", "link", "reads.csv"]
    done = subprocess.run([sys.executable, "-m", "tdl", *words], cwd=tmp_path, env=module, stdout=subprocess.PIPE, stderr=subprocess.DEVNULL)
    (tmp_path / "bin").mkdir()
    (tmp_path / "bin" / "tdl").symlink_to(module["TDL"])
    return Story(tmp_path, {**module, "HOME": str(tmp_path), "PATH": f"{tmp_path}/bin:{module['PATH']}"}, done.stdout)


@pytest.mark.needs("parallel")
@pytest.mark.parametrize("is_over_hosts", (False, True), ids=("here", "over hosts"))
def test_gnu_parallel_gives_the_bytes_of_csv(story: Story, is_over_hosts: bool) -> None:
    here, there = (body for words, body in shown() if words == ["text"])
    commands = here.split("$ parallel")[0] + there if is_over_hosts else here
    # (a host that is a shell of this machine)
    script = re.sub(r"^\$ ", "", commands, flags=re.M).replace("--block 20M", "--block 100k").replace("host1,host2", "2/:,2/:")
    status, told = run("bash", "-ec", script, cwd=story.folder, env=story.environment, stdin=subprocess.DEVNULL)
    assert status == 0, told
    same(story.wanted, (story.folder / "links.csv").read_bytes())


@pytest.mark.needs(DASK, DISTRIBUTED)
def test_dask_gives_the_bytes_of_csv_if_a_worker_is_killed(story: Story) -> None:
    address = f"tcp://{HOST}:{free_port()}"
    script = story.folder / "dask_links.py"
    script.write_text(script.read_text().replace("20_000_000", "100_000"))
    with ExitStack() as all_:

        def start(*words: str) -> Process:
            return all_.enter_context(ending(begun("/usr/bin/python3", *words, cwd=story.folder, env=story.environment, **QUIET)))

        start("-m", "distributed.cli.dask_scheduler", "--host", HOST, "--port", address.rsplit(":", 1)[1], "--no-dashboard")
        workers = [start("-m", "distributed.cli.dask_worker", address, "--nthreads", "1", "--no-nanny", "--no-dashboard") for _ in range(2)]
        client = start("dask_links.py", address)
        awaited("a first part is there", lambda: list(story.folder.glob("links-*.csv")) or client.poll() is not None)
        workers[0].kill()
        awaited("the script ends", lambda: client.poll() is not None)
    assert client.returncode == 0
    parts = [path.read_bytes().partition(b"\n") for path in sorted(story.folder.glob("links-*.csv"))]
    assert len(parts) > 1
    same(story.wanted, b"".join([parts[0][0], b"\n", *(rows for _, _, rows in parts)]))
