"""bench/gate [FOLDER]: what the gate costs from nothing, in processor minutes by crate and step.

It runs `rt ci --anew` at the top of the repository (or in FOLDER, the top of another), shows what that prints on standard
error, and then prints a table in Markdown on standard output, which is what CONTRIBUTING.md, 'What proofs cost', has:

    bench/gate > table.md

Below it stands a second table, of the edits that cost most.

Run it with nothing else at work on the machine, in a clean clone; it takes as long as the gate. It ends with the gate's
status. The steps of a crate are

- library: the check of the crate itself, from nothing;
- tests: the check of its #[test] functions, with the crate a second time, and their build;
- edits: the must-fail edits, with the check that they begin with;
- run: what is built of a program by both compilers, and the runs of programs and tests.

How it measures: each process that `rt` starts is looked at ten times a second, with the processes below it, until it ends;
what it had used when it was last seen counts for the crate that its command names. What no such look saw (the last tenth of a
second of a process, and rt itself) stands in the row 'the rest', so that the sum is the time that the system counted.

How fast the machine was: the same machine takes up to twice as long for the same work from one minute to the next, by what else
shares its processors. So a fixed sum is added up all the while, once a second, and what it took on average is printed in milliseconds of
processor time, with the least that it took. Counts whose averages differ are not comparable as numbers.
"""
import glob
import os
import re
import subprocess
import sys
import time
from collections import Counter
from contextlib import suppress
from typing import Optional

from tools.common import parser, printed, spent, stat_of, there
from tools.repository import TOP

# the crate and the step; and the edits of a crate, each with its name and the files that it leaves
Step = tuple[str, str]
Edits = dict[str, list[tuple[str, dict[str, str]]]]

STEPS = ("library", "tests", "edits", "run")
TICKS = os.sysconf("SC_CLK_TCK")
INTERVAL = 0.1
TERMS = 50_000


def processes() -> dict[int, tuple[int, float]]:
    """The parent and the seconds used, those of its ended children included, of each process."""
    found = {}
    for name in filter(str.isdigit, os.listdir("/proc")):
        with suppress(OSError):
            fields = stat_of(name)
            found[int(name)] = int(fields[1]), sum(map(int, fields[11:15])) / TICKS
    return found


def step_of(pid: int) -> Optional[Step]:
    """The crate and the step of a process that rt started, where its command names a crate."""
    try:
        with open(f"/proc/{pid}/cmdline", "rb") as file:
            words = file.read().decode(errors="replace").split("\0")
        place = os.readlink(f"/proc/{pid}/cwd")
    except OSError:
        return None
    ran = re.search(r"/rt-run-[^/]*/bin/([a-z0-9_]+?)(_tests)?(?:[.-][a-z]+)?(?:\0|$)", "\0".join(words))
    if ran:
        return ran[1], "run"
    if "--crate-name" in words:
        name = words[words.index("--crate-name") + 1]
        if os.path.basename(place).startswith("rt-edit"):
            return name, "edits"
        if "--test" in words:
            return name, "tests"
        return name, "run" if "--backend" in words else "library"
    linked = re.search(r"(?:^|/)out/([a-z0-9_]+?)(_tests)?(?:[.-][a-z]+)?$", words[words.index("-o") + 1] if "-o" in words else "")
    if linked:
        return linked[1], "tests" if linked[2] else "run"
    return None


def edits_of(folder: str) -> Edits:
    """The files that each must-fail edit changes, as it leaves them, by its crate, and its name."""
    found: Edits = {}
    for path in sorted(glob.glob(f"{folder}/crates/*/must-fail/*.edit")):
        crate, name = path.split("/")[-3], os.path.basename(path)[: -len(".edit")]
        texts: dict[str, str] = {}
        file = old = ""
        for line in read(path).split("\n"):
            if line.startswith("file: "):
                file = line[len("file: ") :].strip()
                texts.setdefault(file, read(f"{folder}/crates/{crate}/{file}"))
            elif line.startswith("old: "):
                old = line[len("old: ") :]
            elif line.startswith("new:"):
                texts[file] = texts[file].replace(old, line[len("new:") :].removeprefix(" "))
        found.setdefault(crate, []).append((name, texts))
    return found


def read(path: str) -> str:
    """Returns the text of a file."""
    with open(path, encoding="utf-8") as file:
        return file.read()


def edit_of(pid: int, crate: str, edits: Edits) -> Optional[str]:
    """The edit that a process tries: the one whose files stand in the copy that it reads. The check that edits begin with has none."""
    try:
        place = os.readlink(f"/proc/{pid}/cwd")
        return next((name for name, texts in edits.get(crate, []) if all(read(f"{place}/{file}") == text for file, text in texts.items())), None)
    except OSError:
        return None


class Watch:
    """The seconds of each process that rt started, and what it was at work on."""

    def __init__(self, top: int, edits: Edits) -> None:
        self.top, self.edits = top, edits
        self.seconds: dict[int, float] = {}
        self.steps: dict[int, Optional[Step]] = {}
        self.names: dict[int, Optional[str]] = {}
        self.tried: list[tuple[float, str, str]] = []

    def look(self) -> None:
        """Notes what each process has used that rt started."""
        all_ = processes()
        below: dict[int, list[int]] = {}
        for pid, (parent, _) in all_.items():
            below.setdefault(parent, []).append(pid)
        for pid in below.get(self.top, []):
            if self.steps.get(pid) is None:
                step = self.steps[pid] = step_of(pid)
                if step and step[1] == "edits":
                    self.names[pid] = edit_of(pid, step[0], self.edits)
            self.seconds[pid] = max(self.seconds.get(pid, 0), self.whole(pid, all_, below))

    def whole(self, pid: int, all_: dict[int, tuple[int, float]], below: dict[int, list[int]]) -> float:
        """Returns the seconds of a process and of those below it."""
        return all_[pid][1] + sum(self.whole(it, all_, below) for it in below.get(pid, []))

    def forget(self) -> dict[Optional[Step], float]:
        """Gives the seconds by crate and step of the processes that have ended, and forgets them."""
        given: dict[Optional[Step], float] = {}
        for pid in [it for it in self.seconds if not os.path.exists(f"/proc/{it}")]:
            step, seconds = self.steps.pop(pid), self.seconds.pop(pid)
            given[step] = given.get(step, 0) + seconds
            name = self.names.pop(pid, None)
            if name and step:
                self.tried.append((seconds, step[0], name))
        return given


def fixed_sum() -> float:
    """The milliseconds of processor time that a fixed sum takes now."""
    began = time.process_time()
    sum(number * number for number in range(TERMS))
    return 1000 * (time.process_time() - began)


def measured(folder: str) -> tuple[dict[Optional[Step], float], list[tuple[float, str, str]], float, float, list[float], str, int]:
    """Runs the gate. Gives the seconds by crate and step, those of each edit and of all, those that passed, what the fixed sums took,
    what was said, and the status."""
    before, began = spent(), time.time()
    gate = subprocess.Popen(["rt", "ci", "--anew"], cwd=folder, stdout=subprocess.PIPE, stderr=subprocess.STDOUT)
    os.set_blocking(there(gate.stdout).fileno(), False)
    watch, said, sums = Watch(gate.pid, edits_of(folder)), b"", [fixed_sum()]
    by: dict[Optional[Step], float] = {}
    while gate.poll() is None:
        watch.look()
        for step, seconds in watch.forget().items():
            by[step] = by.get(step, 0) + seconds
        said += shown(gate)
        if time.time() - began >= len(sums):
            sums.append(fixed_sum())
        time.sleep(INTERVAL)
    said += shown(gate)
    passed, whole = time.time() - began, spent() - before
    for step, seconds in watch.forget().items():
        by[step] = by.get(step, 0) + seconds
    return by, watch.tried, whole, passed, sums, said.decode(errors="replace"), gate.returncode


def shown(gate: subprocess.Popen[bytes]) -> bytes:
    """What the gate printed since, which goes on to standard error."""
    text = there(gate.stdout).read() or b""
    sys.stderr.buffer.write(text)
    sys.stderr.flush()
    return text


def minutes(seconds: float) -> str:
    """Returns seconds in minutes, or nothing for none."""
    return f"{seconds / 60:.1f}" if seconds else ""


def table(folder: str, by: dict[Optional[Step], float], whole: float, passed: float, sums: list[float], said: str) -> None:
    """Prints the table of crates and steps."""
    version = printed("rt", "version").strip()
    edits = Counter(re.findall(r"^(?:rt: )?must-fail ([a-z0-9_]+)/", said, re.M))
    crates = sorted({step[0] for step in by if step})
    rows = [["Crate", *STEPS[:2], "edits (number)", "run", "all"], ["---", *["---:"] * 5]]
    for name in crates:
        cells = [by.get((name, step), 0.0) for step in STEPS]
        told = [minutes(seconds) for seconds in (*cells, sum(cells))]
        rows.append([name, *told[:2], told[2] + (f" ({edits[name]})" if edits[name] else ""), *told[3:]])
    totals = [sum(by.get((name, step), 0.0) for name in crates) for step in STEPS]
    number = f" ({sum(edits.values())})" if edits else ""
    rows.append(["the rest", "", "", "", "", minutes(max(whole - sum(totals), 0))])
    rows.append(["all", minutes(totals[0]), minutes(totals[1]), minutes(totals[2]) + number, minutes(totals[3]), minutes(whole)])
    last = said.rstrip().rsplit("\n", 1)[-1]
    day = time.strftime("%Y-%m-%d")
    print(f"The gate from nothing on {day}, by `{version}`, in processor minutes: {minutes(whole)}; ", end="")
    print(f"{passed / 60:.0f} minutes passed on {len(os.sched_getaffinity(0))} processors. `{last}`.\n")
    print(f"The fixed sum took {sum(sums) / len(sums):.1f} milliseconds on average, {min(sums):.1f} at least.\n")
    for row in rows:
        print(f"| {' | '.join(row)} |")


def main() -> int:
    """Returns the status of the gate."""
    asked = parser(__doc__)
    asked.add_argument("folder", nargs="?", default=str(TOP), metavar="FOLDER")
    folder = asked.parse_args().folder
    by, tried, whole, passed, sums, said, status = measured(folder)
    table(folder, by, whole, passed, sums, said)
    print("\n| Edit | seconds |\n| --- | ---: |")
    for seconds, crate, name in sorted(tried, reverse=True)[:30]:
        print(f"| {crate}/{name} | {seconds:.0f} |")
    return status
