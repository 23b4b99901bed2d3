"""library [PROGRAM]: texts a second by the library and by the pipe to the program, from C, Python, PostgreSQL and SQLite, in one run.

All translate tag bits to links, C the way back too. C and the databases count the time of the processor, the best of five and of three
runs. Python counts the time of the wall, since two processes share the work of the pipe: the best of windows of 1,000 single calls, and of
lists of 10,000 texts. It prints a table in Markdown for docs/BENCHMARKS.md, and the ratios of the module's two engines.
"""
import re
import sys
from pathlib import Path

from tools import library
from tools.common import Word, printed, temporary
from tools.measures import arguments, libtdl
from tools.repository import TOP

TEXT = "3074257BF7194E4000001A85"
ASKED = f"""
import sys, time, tdl
with tdl.Translator("hex", "link", engine=sys.argv[1]) as bits:
    bits.translate("{TEXT}")
    for count, windows, call in ((1_000, 100, lambda texts: [bits.translate(text) for text in texts]), (10_000, 50, bits.translate_list)):
        texts, times = ["{TEXT}"] * count, []
        for _ in range(windows):
            began = time.perf_counter()
            call(texts)
            times.append(time.perf_counter() - began)
        print(count / min(times))
"""


def in_python(wheel: Path, program: Path, engine: str) -> list[float]:
    """The single calls and the texts of lists a second, by an engine of the module."""
    told = printed(sys.executable, "-c", ASKED, engine, check=True, env={"PYTHONPATH": str(wheel), "TDL": str(program), "PATH": "/usr/bin:/bin"})
    return [float(line) for line in told.splitlines()]


def main() -> int:
    """Measures all, and returns the status."""
    program, built = arguments(__doc__).program, libtdl()
    print("| Texts a second | |\n|---|---:|", flush=True)
    with temporary() as room:
        words: list[Word] = ["-I", library.HEADER.parent, "-o", room / "measure", TOP / "bench/library.c", built / library.ARCHIVE]
        printed("cc", "-O2", "-D_GNU_SOURCE", *words, check=True)
        told = printed(room / "measure", 200_000, check=True)
        print(re.sub(r"\d+(?= \|$)", lambda number: f"{int(number[0]):,}", told, flags=re.MULTILINE), end="", flush=True)
        printed(TOP / "packaging/make", room / "made", "--program", program, "--library", built, check=True)
        (wheel,) = (room / "made").glob("*.whl")
        printed(sys.executable, "-m", "zipfile", "-e", wheel, room / "wheel", check=True)
        own, pipe = (in_python(room / "wheel", program, engine) for engine in ("library", "pipe"))
        for what, number in (("`translate`", 0), ("`translate_list`", 1)):
            print(f"| Python, the library, {what} | {own[number]:,.0f} |\n| Python, the pipe, {what} | {pipe[number]:,.0f} |", flush=True)
    print(printed(TOP / "bench/databases", program, check=True), end="", flush=True)
    print(f"\nIn Python the library answers {own[0] / pipe[0]:.1f} times the pipe's single calls, and {own[1] / pipe[1]:.2f} times its lists")
    return 0
