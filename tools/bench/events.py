"""events [PROGRAM] [--events N]: measures `python3 -m tdl epcis` over generated documents of N events, 20,000 where it is not given.

Events a processor second are those of the least of three runs, with the time of all processes. Each written document has to be the one that
is generated in the other form.
"""
import os
import subprocess
import sys
from time import perf_counter
from typing import Any, Sequence

from tools import events
from tools.common import Word, begun, temporary
from tools.repository import of_module
from tools.measures import arguments

EVENTS, RUNS = 20_000, 3


def once(words: Sequence[Word], **named: Any) -> tuple[float, float]:
    """The processor time and the wall time of a command in seconds."""
    began = perf_counter()
    with begun(*words, stderr=subprocess.DEVNULL, **named) as running:
        _, status, used = os.wait4(running.pid, 0)
        running.returncode = os.waitstatus_to_exitcode(status)
    if running.returncode:
        sys.exit(f"events: status {running.returncode} of {words}")
    return used.ru_utime + used.ru_stime, perf_counter() - began


def least(words: Sequence[Word], **named: Any) -> tuple[float, float]:
    """The least processor time and wall time of some runs."""
    processor, wall = zip(*(once(words, **named) for _ in range(RUNS)))
    return min(processor), min(wall)


def main() -> None:
    """Measures all, and prints the rows."""
    given = arguments(__doc__, count=("--events", EVENTS))
    environment = of_module(given.program)
    with temporary() as folder:
        for kind in events.FORMATS:
            for form in events.FORMS:
                (folder / f"{kind}.{form}").write_text("".join(events.document(kind, form, given.count)))
        print("| Document | to | events a processor second | `-j 1`, s | `-j 4`, s |\n| --- | --- | ---: | ---: | ---: |")
        for kind in events.FORMATS:
            ways: list[tuple[str, str, list[Word]]] = [("link", "uri", []), ("uri", "link", ["--gcp", 7])]
            for target, source, more in ways:
                command: list[Word] = [sys.executable, "-m", "tdl", "epcis", folder / f"{kind}.{source}", "--to", target, "-o", folder / "out", *more]
                processor, wall = least(command, env=environment)
                _, several = least([*command, "-j", 4], env=environment)
                if (folder / "out").read_bytes() != (folder / f"{kind}.{target}").read_bytes():
                    sys.exit(f"events: another document in {kind} to {target}")
                rate = given.count / processor
                print(f"| {kind} | {target} | {rate:,.0f} | {wall:.2f} | {several:.2f} |", flush=True)
