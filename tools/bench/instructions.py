"""bench/instructions [PROFILE]: instructions that a line costs, by `valgrind --tool=callgrind`, the start-up taken off.

It makes its lines itself, as bench/lines does, runs crates/tdl/out/tdl (which `bin/build` or `rt ci` leaves) over few and over
many of them, and prints the difference for one line, `canon` of every form and `translate pure hex`: the table of
docs/BENCHMARKS.md. Instructions are the same whatever else the machine does. With the name of a command and its operands, such
as `canon pure`, it prints in place of the table the functions that cost most for one line. It ends with a message where valgrind
is missing.
"""
import argparse
import random
import re
import shutil
import subprocess
import sys
import tempfile

from tools.common import parser, printed, there
from tools.measures import TDL, company_prefixes, lines_of

FEW, MANY = 100, 1_100
COMMANDS = [["canon", form] for form in ("pure", "tag", "hex", "raw", "bracketed", "link")]
COMMANDS.append(["translate", "pure", "hex", "--filter", "3"])


def lines(form: str, count: int) -> bytes:
    """The first lines of a form that bench/lines makes."""
    random.seed(1)
    return lines_of(company_prefixes(), count)[form]


def counted(words: list[str], data: bytes, out: str) -> int:
    """The instructions of a run over this input, and of each function of it."""
    with tempfile.TemporaryFile() as given:
        given.write(data)
        given.seek(0)
        command = ["valgrind", "--tool=callgrind", f"--callgrind-out-file={out}", TDL, *words]
        run = subprocess.run(command, stdin=given, stdout=subprocess.PIPE, stderr=subprocess.PIPE)
    if run.returncode != 0:
        sys.exit(f"bench/instructions: {' '.join(words)} ended with {run.returncode}: {run.stdout[:200]!r}")
    return int(there(re.search(rb"Collected : (\d+)", run.stderr)).group(1))


def functions(out: str) -> dict[str, int]:
    """The own instructions of each function in what callgrind wrote."""
    costs: dict[str, int] = {}
    for line in printed("callgrind_annotate", "--threshold=100", out).splitlines():
        found = re.match(r"\s*([\d,]+) \([^)]*\)\s+(?:\S+?:)?(.*?)(?: \[.*\])?$", line)
        if found:
            name = found.group(2)
            costs[name] = costs.get(name, 0) + int(found.group(1).replace(",", ""))
    return costs


def main() -> None:
    """Counts all, and prints the rows."""
    if shutil.which("valgrind") is None:
        sys.exit("bench/instructions: skipped, since valgrind is missing")
    asked = parser(__doc__)
    asked.add_argument("words", nargs=argparse.REMAINDER, metavar="PROFILE")
    profile = asked.parse_args().words
    commands = [profile] if profile else COMMANDS
    with tempfile.TemporaryDirectory() as folder:
        if not profile:
            print("| Command | instructions a line |\n|---|---:|")
        for words in commands:
            form = words[1]
            few, many = (f"{folder}/{count}" for count in (FEW, MANY))
            counts = [counted(words, lines(form, n), out) for n, out in ((FEW, few), (MANY, many))]
            a_line = (counts[1] - counts[0]) / (MANY - FEW)
            if not profile:
                print(f"| `{' '.join(words)}` | {a_line:,.0f} |")
                continue
            print(f"{a_line:,.0f} instructions a line of `{' '.join(words)}`, of which")
            before, now = functions(few), functions(many)
            own = {name: (now[name] - before.get(name, 0)) / (MANY - FEW) for name in now}
            for name, cost in sorted(own.items(), key=lambda item: -item[1])[:40]:
                print(f"{cost:10,.0f} {name}")
