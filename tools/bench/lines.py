"""bench/lines: lines a second of `tdl canon` in each form, of `tdl translate` from each form to each, its memory over a pipe, and
what one long link costs.

It makes its lines itself, runs crates/tdl/out/tdl (which `bin/build` or `rt ci` leaves) over them five times each, and prints
tables in Markdown, which are those of docs/BENCHMARKS.md. Times are processor time, the start of the process with it, the
least of the five runs. It compiles bench/sgtin_plain.c by `gcc -O2`, which does the work of `canon pure` for trade items alone, has to
answer the lines alike, and gives the ratio of both; without gcc it says that this is left out.
"""
import json
import random
import shutil
import subprocess
import sys
import tempfile

from tools.common import parser, spent, there
from tools.measures import FORMS, TDL, company_prefixes, lines_of
from tools.repository import TOP

LINES, RUNS = 100_000, 5
# how often the lines are given to the C program and to tdl beside it: it takes a few milliseconds for them
COPIES = 10


def seconds(words: list[str], data: bytes) -> tuple[float, bytes]:
    """The least processor time of a program over this input, and what it prints."""
    with tempfile.TemporaryFile() as lines:
        lines.write(data)
        times = []
        for _ in range(RUNS):
            lines.seek(0)
            before = spent()
            answers = subprocess.run(words, stdin=lines, stdout=subprocess.PIPE).stdout
            times.append(spent() - before)
    return min(times), answers


def in_plain_c(data: bytes) -> None:
    """Prints the lines a second of `canon pure` beside those of the C program that does nothing else."""
    if not shutil.which("gcc"):
        print("\nThe C program is left out: there is no gcc (Debian's package gcc)")
        return
    with tempfile.TemporaryDirectory() as folder:
        program = f"{folder}/sgtin_plain"
        subprocess.run(["gcc", "-O2", "-o", program, TOP / "bench" / "sgtin_plain.c"], check=True)
        in_c, wanted = seconds([program], data * COPIES)
    time, answers = seconds([TDL, "canon", "pure"], data * COPIES)
    if answers != wanted:
        sys.exit("bench/lines: tdl and sgtin_plain answer the lines of pure differently")
    count = LINES * COPIES
    print(f"\n| `pure`, {count:,} lines | seconds | lines a second |\n|---|---:|---:|")
    print(f"| `tdl canon pure` | {time:.2f} | {count / time:,.0f} |\n| the C program sgtin_plain | {in_c:.2f} | {count / in_c:,.0f} |")
    print(f"\ntdl answers {in_c / time:.2f} times as many lines a second as the C program")


def translations(data: dict[str, bytes], prefixes: list[str]) -> None:
    """The lines a second of each pair of forms, under all options that any of them needs."""
    print(f"\n| `translate` of {LINES:,} lines, from | " + " | ".join(f"`{to}`" for to in [*FORMS, "canon"]) + " |")
    print("|---" * 8 + "|")
    with tempfile.TemporaryDirectory() as folder:
        entries = [{"prefix": prefix, "length": len(prefix)} for prefix in prefixes]
        with open(f"{folder}/prefixes.json", "w") as written:
            json.dump({"version": 1, "prefixes": entries}, written)
        options = ["--prefixes", f"{folder}/prefixes.json", "--filter", "3", "--keys-only", "yes"]
        for form, lines in data.items():
            row = []
            for to in [*FORMS, "canon"]:
                time, answers = seconds([TDL, "translate", form, to, *options], lines)
                if answers.count(b"ok ") != LINES:
                    sys.exit(f"bench/lines: not every line of {form} is translated to {to}")
                row.append(f"{LINES / time:,.0f}")
            print(f"| `{form}` | " + " | ".join(row) + " |")


def piped(data: bytes, least: int) -> tuple[int, float, float]:
    """The bytes that were sent through a pipe, at least so many, and the processor time and the peak memory in MiB of that."""
    words = ["/usr/bin/time", "-f", "%U %S %M", TDL, "canon", "pure"]
    sent = 0
    with subprocess.Popen(words, stdin=subprocess.PIPE, stdout=subprocess.DEVNULL, stderr=subprocess.PIPE) as run:
        given = there(run.stdin)
        while sent < least:
            sent += given.write(data)
        given.close()
        user, system, memory = map(float, there(run.stderr).read().split())
    return sent, user + system, memory / 1024


def main() -> None:
    """Measures all, and prints the tables."""
    parser(__doc__).parse_args()
    random.seed(1)
    prefixes = company_prefixes()
    data = lines_of(prefixes, LINES)
    print(f"| `canon` of {LINES:,} lines | bytes | seconds | lines a second |\n|---|---:|---:|---:|")
    for form, lines in data.items():
        time, answers = seconds([TDL, "canon", form], lines)
        if answers.count(b"ok ") != LINES:
            sys.exit(f"bench/lines: not every line of {form} is answered by ok")
        print(f"| `{form}` | {len(lines):,} | {time:.2f} | {LINES / time:,.0f} |")
    in_plain_c(data["pure"])
    translations(data, prefixes)
    print("\n| `canon pure` through a pipe, bytes | seconds | peak memory |\n|---:|---:|---:|")
    for least in (1_000_000, 10_000_000, 100_000_000):
        sent, time, memory = piped(data["pure"], least)
        print(f"| {sent:,} | {time:.2f} | {memory:.1f} MiB |")
    print("\n| One link | bytes | microseconds |\n|---|---:|---:|")
    stem = "https://x/01/09506000134352?"
    for count in (125, 250, 500):
        show(f"{count} parts of the query that are ignored", stem + "&".join(["a=b"] * count))
    for count in (50, 100, 202):
        show(f"{count} equal elements in the query", stem + "&".join(["99=1234"] * count))
    for count in (500, 1000, 2039):
        show(f"{count} slashes", "https://x" + "/" * count)


def show(name: str, link: str) -> None:
    """Prints the row of a link."""
    time, _ = seconds([TDL, "canon", "link"], (link + "\n").encode() * 5000)
    print(f"| {name} | {len(link):,} | {time / 5000 * 1e6:.1f} |")
