"""test [--whole] [ARGUMENT..]: tries the program by pytest, to which the arguments go, such as `-k NAME` or `tests/test_cases.py`.

tests/ and python/tests run side by side over the program that bin/build, or `rt ci` at the top, has built, or over that of `--program FILE`;
--whole tries the large sizes too. A test whose tool is missing is skipped with the name of its package; in the gate (CI=true) it fails.

Without arguments and without a program that is as new as its sources, nothing is proved: `rt try` runs the sources, with every check at run
time on, over some cases of checks/cases, those with the same words joined, and up to 25 vectors of each public call of the libraries, with
answers of the standards. It takes as much of that as should end within five minutes here, all of it with --whole, and never a case that is
marked heavy. Beside that run the tests that need no program. The first line says how long it will take. What is left out is named, 'left out:
slow here', and so is a run that had not ended after an hour; a run that takes a quarter of an hour of processor time has failed. The last
line is 'N passed, M failed'.

The status is 0, 1 if a test failed, another of pytest, or 70 if the tests cannot run.
"""
import json
import os
import re
import resource
import signal
import subprocess
import sys
import tempfile
from contextlib import ExitStack
from dataclasses import dataclass, field
from pathlib import Path
from time import monotonic
from typing import Any, Iterator, Optional

from tools import costs, pace, repository, vectors
from tools.cases import Case, bytes_of, content_of, joined, subjects
from tools.common import BOTH, PIPES, Process, Word, begun, ending, run, temporary
from tools.repository import CRATES, GIGABYTE, TOP

Pairs = list[tuple[str, str]]
# cases that passed, failed, and were too slow
Counts = tuple[int, int, int]

CANNOT = 70
PYTEST = "Debian's packages python3-pytest and python3-pytest-xdist"
# how many runs of tdl are taken, how many vectors of each call, and the most lines of `gen`
RUNS, VECTORS_A_CALL, MOST_LINES = 70, 25, 10_000
# the seconds that all may take, that a run may take by the clock, and of processor time
ALL, CLOCK, PROCESSOR = 300, 3_600, 900
# the costs (tools/pace.py) of a run of tdl, and of a thousand vectors
RUN, THOUSAND = 1.2, 10
# what `rt try` cannot give a program, or does not tell of it, and what takes more than a fifth of PROCESSOR on a slow machine
BEYOND = {"turns", "broken", "room", "sparse", "folders", "stdin", "stdout", "pattern", "heavy"}
MOST_OUTPUT = 1 << 20
# the file of vectors, and what the program of vectors prints of it last
SOME, COUNTS = "some.txt", re.compile(r"some.txt: (\d+) answers, (\d+) differ")
TOO_LATE = re.compile(r"no-answer: .* within the time limit")
# how many runs are taken on the slowest machines, and how many lines of a run that failed are printed
FEW, LINES = 20, 20


def say(text: object) -> None:
    """Writes a line to standard error."""
    print(f"bin/test: {text}", file=sys.stderr, flush=True)


def whole_options(words: list[str]) -> list[str]:
    """Returns words with the values of --program and --under joined to them: until pytest has read conftest.py, it takes them for files."""
    text = "\0".join(words)
    text = re.sub(r"(?<![^\0])(--program)[\0=]([^\0]*)", lambda found: f"{found[1]}={os.path.abspath(found[2])}", text)
    return re.sub(r"(?<![^\0])(--under)\0", r"\1=", text).split("\0") if words else []


def of_pytest(*words: str) -> Optional[list[str]]:
    """Returns the command that runs pytest, side by side if it can, or nothing if no Python here has it."""
    for python in (sys.executable, "/usr/bin/python3"):
        if not run(python, "-c", "import pytest")[0]:
            beside = [] if run(python, "-c", "import xdist")[0] else ["-n", "auto", "--dist", "loadgroup"]
            return [python, "-m", "pytest", "-q", "--tb=short", "-rfEs", *beside, *words]
    say(f"no Python here has pytest: install {PYTEST}")
    return None


@dataclass
class Run:
    """A run of tdl: its arguments, files, input, output and status, and the cases that it stands for."""

    words: list[Any]
    files: dict[str, bytes]
    given: bytes = b""
    wanted: bytes = b""
    status: int = 0
    names: list[str] = field(default_factory=list)


def is_within(case: Case) -> bool:
    """Returns whether `rt try` can run a case: words are handed on as lines of text."""
    words = [bytes_of(word) for word in case["words"]]
    is_text = all(word.isascii() and b"\n" not in word and b"{}" not in word for word in words)
    is_long = words[:1] == [b"gen"] and words[1:] and words[1].isdigit() and int(words[1]) > MOST_LINES
    return is_text and not is_long and words[:1] != [b"serve"] and not case.keys() & BEYOND


def files_of(case: Case) -> dict[str, bytes]:
    """Returns the files of a case, by their names there."""
    files = {name: content_of(file) for name, file in case.get("files", {}).items()}
    return {**files, **{name: (TOP / path).read_bytes() for name, path in case.get("lent", {}).items()}}


def runs_of(subject: str, cases: list[Case]) -> list[Run]:
    """Returns the runs of a file of cases, those of lines with the same words and files joined; those that stand for the most come first."""
    found: dict[str, Run] = {}
    for case in filter(is_within, cases):
        apart = None if "lines" in case and case["status"] < 2 else case["name"]
        key = json.dumps([case["words"], case.get("files"), case.get("lent"), apart], sort_keys=True)
        it = found.setdefault(key, Run(case["words"], files_of(case)))
        it.given += joined(case, "input", 0)
        it.wanted += joined(case, "output", 1)
        it.status = max(it.status, case["status"])
        it.names.append(f"{subject}: {case['name']}")
    return sorted((it for it in found.values() if len(it.wanted) <= MOST_OUTPUT), key=lambda it: (-len(it.names), -len(it.given)))


def program_runs() -> list[Run]:
    """Returns the runs of tdl that are taken: of each file of cases the first, then of each the second, and so on."""
    every = [runs_of(subject, cases) for subject, cases in subjects()]
    return [runs[number] for number in range(max(map(len, every))) for runs in every if number < len(runs)][:RUNS]


def some_vectors() -> Pairs:
    """Returns some of the vectors of each call, each a case with its wanted answer."""
    by_call: dict[str, Pairs] = {}
    for case, answer in vectors.cases():
        # (calls at the limits take minutes where each check at run time is on)
        if not case.split()[0].endswith(("many", "_each")):
            by_call.setdefault(case.split()[0], []).append((case, answer))
    return [pair for some in by_call.values() for pair in some[::-(-len(some) // VECTORS_A_CALL)]]


def started(crate: str, *words: Word) -> Process:
    """Starts `rt try` in a crate; each process that it starts may use PROCESSOR seconds."""
    how: dict[str, Any] = {**PIPES, "stdin": subprocess.DEVNULL, "text": True, "errors": "replace"}
    how["preexec_fn"] = lambda: resource.setrlimit(resource.RLIMIT_CPU, (PROCESSOR, PROCESSOR))
    return begun("rt", "try", "--steps", 1, "--seconds", CLOCK, *words, cwd=CRATES / crate, **how)


def begin(runs: list[Run], folder: Path) -> Process:
    """Writes the runs of tdl to a folder, and starts them."""
    data: list[Word] = []
    (folder / "runs").mkdir()
    for number, it in enumerate(runs):
        names = {name: f"file-{number}-{place}" for place, name in enumerate(it.files)}
        for name, given in names.items():
            (folder / given).write_bytes(it.files[name])
            data += ["--data", f"{given}={folder / given}"]
        of_run = folder / "runs" / f"{number:03}"
        of_run.write_bytes(it.given)
        Path(f"{of_run}.stdout").write_bytes(it.wanted)
        if it.words:
            words = [names.get(word, word) if isinstance(word, str) else word for word in it.words]
            Path(f"{of_run}.args").write_bytes(b"".join(bytes_of(word) + b"\n" for word in words))
    return started("tdl", *data, "--cases", folder / "runs")


def begin_vectors(pairs: Pairs, folder: Path) -> Process:
    """Writes vectors to a file in a folder, and starts the program that compares their answers."""
    (folder / SOME).write_text("".join(f"{case}\n{vectors.ANSWER}{answer}\n" for case, answer in pairs), "latin-1")
    return started("vectors", "--data", f"{SOME}={folder / SOME}")


def reports(said: str) -> Iterator[tuple[int, tuple[str, str], str]]:
    """Yields what `rt try` says of each run: its number, its status and its output, and the lines before that."""
    before = []
    for line in said.splitlines():
        before.append(line)
        if line.startswith("case="):
            told = dict(word.split("=", 1) for word in line.split() if "=" in word)
            yield int(told["case"]), (told.get("status", "none"), told.get("output", "none")), "\n".join(before)
            before = []


def count(runs: list[Run], said: str) -> Counts:
    """Returns the counts of cases by what `rt try` said; prints those that did not pass."""
    ended = {number: (got, lines) for number, got, lines in reports(said)}
    passed = failed = slow = 0
    for number, it in enumerate(runs):
        (status, output), lines = ended.get(number, (("none", "none"), ""))
        what = it.names[0] + (f", or one of {len(it.names) - 1} cases behind it" if len(it.names) > 1 else "")
        if (status, output) == (str(it.status), "expected"):
            passed += len(it.names)
        elif TOO_LATE.search(lines):
            slow += len(it.names)
            print(f"left out: slow here: {what}")
        else:
            failed += len(it.names)
            print(f"failed: {what}\n  status wanted {it.status}, got {status}; output {output}", *(lines or said).splitlines()[-LINES:], sep="\n  ")
    return passed, failed, slow


def count_vectors(pairs: Pairs, printed: str, said: str) -> Counts:
    """Returns the counts of vectors by what the program printed and `rt try` said; prints those that failed. Without counts all failed."""
    *differ, last = printed.splitlines() or [""]
    print(*(f"vectors: {line}" for line in differ), sep="\n", end="\n" if differ else "")
    found = COUNTS.fullmatch(last)
    if found and int(found[1]) == len(pairs):
        return len(pairs) - int(found[2]), int(found[2]), 0
    if TOO_LATE.search(said):
        print(f"left out: slow here: {len(pairs):,} vectors")
        return 0, 0, len(pairs)
    print("failed: the vectors", *said.splitlines()[-LINES:], sep="\n  ")
    return 0, len(pairs), 0


def cost(runs: list[Run], pairs: Pairs, processors: int) -> float:
    """Returns the cost of runs and vectors side by side, on so many processors."""
    apart = [costs.TRY + RUN * len(runs)] + [costs.TRY + THOUSAND * len(pairs) / 1000] * bool(pairs)
    return max(*apart, (sum(apart) + costs.BESIDE * len(apart)) / processors)


def chosen(is_whole: bool) -> tuple[list[Run], Pairs]:
    """Returns the runs and the vectors that are taken here, and prints how long they take and what is left out."""
    runs, pairs, processors = program_runs(), some_vectors(), pace.processors()
    rate = pace.clock(processors)
    choices: list[tuple[list[Run], Pairs]] = [(runs, pairs), (runs, []), (runs[:FEW], [])]
    taken = next((it for it in choices if is_whole or cost(*it, processors) * rate <= ALL), choices[-1])
    what = f"{len(taken[0])} runs of tdl and {len(taken[1]):,} vectors of its libraries"
    time = pace.between(*(cost(*taken, processors) * rate * factor for factor in costs.RANGE))
    say(f"nothing is proved here, so the sources run without proofs: {what}, in {time} here")
    left_out = len(runs) - len(taken[0]), len(pairs) - len(taken[1])
    if any(left_out):
        print(f"left out: slow here: {left_out[0]} runs of tdl and {left_out[1]:,} vectors; bin/test --whole takes them", flush=True)
    return taken


def lack() -> Optional[str]:
    """Returns why the tests cannot run, in a line, or nothing."""
    kit = repository.lack_of_kit()
    if kit and kit[1]:
        return kit[0]
    if kit:
        say(kit[0])
    return repository.lack_of_room(tempfile.gettempdir(), GIGABYTE, 3 * GIGABYTE)


def test_unproved(is_whole: bool) -> int:
    """Runs the sources without proofs, and beside them the tests that need no program, and returns the status."""
    why = lack()
    if why:
        say(why)
        return CANNOT
    start, total = monotonic(), (0, 0, 0)
    runs, pairs = chosen(is_whole)
    words = of_pytest("--sources", "-n", "0")
    with ExitStack() as opened:
        room = opened.enter_context(temporary("tdl-test-"))
        beside = opened.enter_context(ending(begun(*words, cwd=TOP, **BOTH))) if words else None
        both = [opened.enter_context(ending(begin(runs, room)))]
        both += [opened.enter_context(ending(begin_vectors(pairs, room)))] if pairs else []
        for crate, running in zip(("tdl", "vectors"), both):
            printed, said = running.communicate()
            some = count(runs, said) if crate == "tdl" else count_vectors(pairs, printed, said)
            total = total[0] + some[0], total[1] + some[1], total[2] + some[2]
            print(f"{crate}: {some[0]} passed, {some[1]} failed, after {monotonic() - start:.0f} s", flush=True)
        if beside:
            print(beside.communicate()[0], end="", flush=True)
            total = total[0] + (not beside.returncode), total[1] + bool(beside.returncode), total[2]
    print("nothing was proved; bin/build proves and builds the program, and bin/test then tries that")
    print(f"{total[0]} passed, {total[1]} failed" + (f", {total[2]} left out: slow here" if total[2] else ""))
    return 1 if total[1] or not total[0] else 0


def main() -> int:
    """Returns the status."""
    words = sys.argv[1:]
    if {"-h", "--help"} & {*words}:
        print(__doc__)
        return 0
    is_current = repository.is_current()
    if not is_current and words in ([], ["--whole"]):
        signal.signal(signal.SIGTERM, signal.default_int_handler)
        try:
            return test_unproved(bool(words))
        except KeyboardInterrupt:
            return 130
    if not is_current and not any(word.startswith(("--program", "--sources")) for word in words):
        say("there is no program as new as its sources; tests over it fail, or try an older one")
    command = of_pytest(*whole_options(words))
    return subprocess.run(command, cwd=TOP).returncode if command else CANNOT
