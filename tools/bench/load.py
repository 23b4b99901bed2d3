"""bench/load: what the load of tables costs, the check that no text or bit string has two readings in it.

It runs crates/tdl/out/tdl (which `bin/build` or `rt ci` leaves) and prints tables in Markdown, which are those of
docs/BENCHMARKS.md: `check` and `canon` of one line by the built-in tables, `check` of the files of tables/, and of tables of the
largest size, which it makes itself: 256 options in each level, each of 512 symbols, which are alike but for their last ones.
"""
import json
import os
import statistics
import tempfile
from typing import Any

from tools.measures import TDL, costs
from tools.repository import TOP

LINE = b"urn:epc:id:sgtin:0614141.812345.6789\n"
KINDS = 22


def median(words: list[str], stdin: bytes, runs: int) -> list[float]:
    """The medians of some runs, and the slowest."""
    all_ = [costs([TDL, *words], stdin) for _ in range(runs)]
    columns = zip(*((run.wall, run.processor, run.memory) for run in all_))
    return [*(statistics.median(column) for column in columns), max(run.wall for run in all_)]


def cut(text: str) -> list[list[Any]]:
    """Literals of at most 64 symbols that are the text together."""
    return [["lit", text[i : i + 64]] for i in range(0, len(text), 64)]


def tag_option(i: int) -> dict[str, Any]:
    """An option of tag URIs."""
    fields = [["int", "filter", 7], ["pad", "gcp", 12], ["pad", "rest", 1], ["esc", "serial", 1, 20]]
    end = f"|{i:03}"
    return {"kind": "k0", "encoding": f"e{i}", "gcp": 12, "items": cut("a" * (512 - 74 - len(end))) + fields + [["lit", end]]}


def binary_option(i: int) -> dict[str, Any]:
    """An option of tag bits."""
    fields = [["num", "filter", 3, 7], ["numpad", "gcp", 40, 12], ["numpad", "rest", 4, 1], ["ascii7", "serial", 1, 20, 140]]
    end = f"{i:08b}"
    return {"kind": "k0", "encoding": f"e{i}", "gcp": 12, "items": cut("01" * 158 + "0") + fields + [["lit", end]]}


def pure_option(i: int) -> dict[str, Any]:
    """An option of pure identity URIs."""
    gcp = 12 - i % 12
    fields = [["pad", "gcp", gcp], ["pad", "rest", 13 - gcp], ["esc", "serial", 1, 20]]
    end = f"|{i:03}"
    return {"kind": f"k{i // 12}", "encoding": "", "gcp": gcp, "items": cut("a" * (512 - 73 - len(end))) + fields + [["lit", end]]}


def largest() -> dict[str, Any]:
    """A document of tables of the largest size."""
    ais = [{"code": str(8100 + k), "parts": ["n14c"], "role": "key", "qualifiers": ["21"]} for k in range(KINDS)]
    ais.append({"code": "21", "parts": ["x..20"], "role": "qualifier"})
    kinds = [{"name": f"k{k}", "key": str(8100 + k), "lead": 1, "serial": "21"} for k in range(KINDS)]
    levels = {"binary": binary_option, "tag": tag_option, "pure": pure_option}
    return {"version": 1, "ais": ais, "kinds": kinds} | {name: [row(i) for i in range(256)] for name, row in levels.items()}


def main() -> None:
    """Measures all, and prints the rows."""
    print("| Tables | wall | slowest | processor | peak memory |")
    print("| --- | ---: | ---: | ---: | ---: |")
    runs = [("built-in, `check`", ["check"], b""), ("built-in, `canon pure` of one line", ["canon", "pure"], LINE)]
    for name in ("builtin", "gs1"):
        runs.append((f"tables/{name}.json, `check`", ["check", "--tables", f"{TOP}/tables/{name}.json"], b""))
    for name, words, stdin in runs:
        wall, processor, memory, slowest = median(words, stdin, 51)
        print(f"| {name} | {wall * 1000:.1f} ms | {slowest * 1000:.1f} ms | {processor * 1000:.1f} ms | {memory:.1f} MiB |")
    print()
    with tempfile.TemporaryDirectory() as folder:
        path = f"{folder}/tables.json"
        with open(path, "w", encoding="ascii") as file:
            json.dump(largest(), file, separators=(",", ":"))
        run = costs([TDL, "check", "--tables", path])
        size = os.path.getsize(path)
    print("| Tables of the largest size | bytes | wall | processor | peak memory | answer |")
    print("| --- | ---: | ---: | ---: | ---: | --- |")
    spent = f"{run.wall:.2f} s | {run.processor:.2f} s | {run.memory:.1f} MiB"
    print(f"| 256 options of 512 symbols a level | {size:,} | {spent} | `{run.output.strip()}` |")
