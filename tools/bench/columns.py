"""columns [PROGRAM]: measures the Python module and `python3 -m tdl csv`, beside the program with files of its own.

Each row is the best of five runs over the same pure identity URIs, and of CSV records with one of them in the second of three columns, or
JSON lines; seconds are those of the wall. A share is of the program's own lines a second in the same five runs. `translate` is the best of
windows of 1,000 texts, once as the system places the two processes and once with both on one processor. The last rows are by the time of
the processors, which other work on the machine changes little.
"""
import os
import subprocess
import sys
from collections import deque
from pathlib import Path
from time import perf_counter
from typing import Any, Callable

import tdl
from tools.common import Word, printed, spent, temporary
from tools.measures import arguments
from tools.repository import of_module

Way = Callable[[str, Path, list[str]], int]

LINES, WINDOW, RUNS = 100_000, 1_000, 5


def plain(program: str, folder: Path, _: list[str]) -> int:
    """Answers the lines from a file to a file."""
    with open(folder / "lines") as given, open(folder / "answers", "w") as answers:
        subprocess.run([program, "canon", "pure"], stdin=given, stdout=answers)
    return LINES


def one_by_one(program: str, texts: list[str]) -> float:
    """Translates texts one at a time, and returns the best of the windows, in texts a second."""
    best = 0.0
    with tdl.Translator("pure", program=program) as translator:
        for first in range(0, RUNS * 5 * WINDOW, WINDOW):
            began = perf_counter()
            for text in texts[first : first + WINDOW]:
                translator.translate(text)
            best = max(best, WINDOW / (perf_counter() - began))
    return best


def on_one_processor(call: Callable[..., float], *how: Any) -> float:
    """What a call returns with this process, and those that it starts, on one processor."""
    before = os.sched_getaffinity(0)
    os.sched_setaffinity(0, {max(before)})
    try:
        return call(*how)
    finally:
        os.sched_setaffinity(0, before)


def all_of_them(program: str, _: Path, texts: list[str]) -> int:
    """Translates all texts by one call."""
    with tdl.Translator("pure", program=program) as translator:
        deque(translator.translate_all(texts), 0)
    return LINES


def command(name: str, file: str, *more: str) -> Way:
    """Translates a file by a command of the module."""

    def run(program: str, folder: Path, _: list[str]) -> int:
        words: list[Word] = ["-c", "EPC", "--from", "pure", folder / file, "-o", folder / "out", *more]
        printed(sys.executable, "-m", "tdl", name, *words, env=of_module(program), stderr=subprocess.DEVNULL)
        return LINES

    return run


def processor(run: Way, *how: Any) -> float:
    """The processor time of what a run starts."""
    before = spent()
    run(*how)
    return spent() - before


COMMANDS = {
    "`csv` without quotes": command("csv", "plain.csv"),
    "`csv -j 4` without quotes": command("csv", "plain.csv", "-j", "4"),
    "`csv` with quotes": command("csv", "quoted.csv"),
    "`jsonl`": command("jsonl", "lines.json"),
}


def main() -> None:
    """Measures all, and prints the rows."""
    program = str(arguments(__doc__).program)
    texts = [f"urn:epc:id:sgtin:0614141.812345.{number}" for number in range(LINES)]
    rows = {"`tdl canon pure` from file to file": plain, "`translate_all`": all_of_them, **COMMANDS}
    best = dict.fromkeys(rows, 0.0)
    with temporary() as folder:
        (folder / "lines").write_text("\n".join(texts) + "\n")
        (folder / "plain.csv").write_text("id,EPC,note\n" + "".join(f"{number},{text},a b\n" for number, text in enumerate(texts)))
        (folder / "quoted.csv").write_text("id,EPC,note\n" + "".join(f'{number},{text},"a, b"\n' for number, text in enumerate(texts)))
        (folder / "lines.json").write_text("".join(f'{{"id":{number},"EPC":"{text}"}}\n' for number, text in enumerate(texts)))
        for _ in range(RUNS):
            for row, run in rows.items():
                began = perf_counter()
                count = run(program, folder, texts)
                best[row] = max(best[row], count / (perf_counter() - began))
        times = {row: min(processor(run, program, folder, texts) for _ in range(RUNS)) for row, run in COMMANDS.items()}
    best["`translate`"] = one_by_one(program, texts)
    best["`translate`, on one processor"] = on_one_processor(one_by_one, program, texts)
    whole = best["`tdl canon pure` from file to file"]
    for row, rate in best.items():
        print(f"| {row} | {rate:,.0f} | {rate / whole:.2f} |")
    for row, seconds in times.items():
        print(f"| {row}, by processor time | {LINES / seconds:,.0f} | |")
