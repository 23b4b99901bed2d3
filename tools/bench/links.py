"""bench/links: what the load of a linkset costs, and what a reply does where an identity has as many links as a store.

It runs `check --links FILE` of crates/tdl/out/tdl (which `bin/build` or `rt ci` leaves) over linksets that it makes itself, each
context with an anchor of its own and one target of three members, and beside it Python's `json.load` of the same file. It prints
a table in Markdown, which is that of docs/BENCHMARKS.md: the medians of five runs, the start of the process in them.

Then it runs `resolve --links FILE` over linksets of one anchor, once with one request and once with more, and prints a second
table: what each of the further replies took, by the medians of five runs. The heads are near the most bytes of a head.
"""
import json
import os
import statistics
import sys
import tempfile
from typing import Any, Iterator, Sequence

from tools.common import Word
from tools.measures import TDL, costs, path_of

LOAD = [sys.executable, "-c", "import json,sys; json.load(open(sys.argv[1]))"]
RUNS = 5
SIZES = (0, 8192, 32768, 65536)
MOST_LINKS, RANGES, FURTHER = 65536, 4000, 20
LETTERS = "abcdefghijklmnopqrstuvwxyz0123456789"
ITEM = "/01/09506000134352"


def context(i: int) -> dict[str, Any]:
    """The context of a trade item."""
    target = {"href": f"https://example.com/{i}", "title": f"Item {i}", "type": "text/html"}
    return {"anchor": path_of(i), "gs1:pip": [target]}


def medians(words: Sequence[Word], given: bytes = b"") -> tuple[list[float], str]:
    """The medians of some runs, and what the last one wrote."""
    all_ = [costs(words, given) for _ in range(RUNS)]
    columns = zip(*((run.wall, run.processor, run.memory) for run in all_))
    return [statistics.median(column) for column in columns], all_[-1].output


def shown(measured: list[float]) -> str:
    """The columns of a run."""
    wall, processor, memory = measured
    return f"{wall:.2f} s | {processor:.2f} s | {memory:.0f} MiB"


def link_in(i: int) -> dict[str, Any]:
    """A target in a language of its own."""
    return {"href": f"https://example.com/{i}", "hreflang": [f"qq-{i}"]}


def accepted(last: str) -> str:
    """A head that accepts as many language ranges as have room, the last of which is given."""
    ranges = [LETTERS[i % len(LETTERS)] for i in range(RANGES - 1)] + [last]
    return f"GET {ITEM} HTTP/1.1\r\nAccept-Language: {','.join(ranges)}\r\n\r\n"


def replies() -> Iterator[tuple[str, dict[str, Any], str, str]]:
    """What is asked, the members beside the anchor, the head, and the status that has to come."""
    links = {"gs1:defaultLink": [link_in(i) for i in range(MOST_LINKS)]}
    relations = {f"r{i}": [{"href": f"https://example.com/{i}"}] for i in range(MOST_LINKS)}
    yield f"{RANGES:,} ranges, the last that of one of {MOST_LINKS:,} links", links, accepted(f"qq-{MOST_LINKS - 1}"), "307"
    yield f"{RANGES:,} ranges, and none that of one of {MOST_LINKS:,} links", links, accepted("zz"), "300"
    yield f"a linkset of {MOST_LINKS:,} relations", relations, f"GET {ITEM}?linkType=all HTTP/1.1\r\n\r\n", "200"


def reply_row(what: str, members: dict[str, Any], head: str, status: str) -> str:
    """The row of what is asked."""
    with tempfile.TemporaryDirectory() as folder:
        path = f"{folder}/links.json"
        with open(path, "w", encoding="ascii") as file:
            json.dump({"linkset": [{"anchor": ITEM, **members}]}, file, separators=(",", ":"))
        words = [TDL, "resolve", "--links", path]
        one, _ = medians(words, head.encode("ascii"))
        more, output = medians(words, head.encode("ascii") * (1 + FURTHER))
    if output.count(f"HTTP/1.1 {status} ") != 1 + FURTHER:
        sys.exit(f"bench/links: {what}: {output[:200]}")
    return f"| {what} | {(more[0] - one[0]) / FURTHER * 1000:.1f} ms | {(more[1] - one[1]) / FURTHER * 1000:.1f} ms |"


def main() -> None:
    """Measures all, and prints the rows."""
    print("| Contexts | bytes | `check --links`, wall | processor | peak memory | `json.load`, wall | processor | peak memory |")
    print("| ---: " * 8 + "|")
    for count in SIZES:
        with tempfile.TemporaryDirectory() as folder:
            path = f"{folder}/links.json"
            with open(path, "w", encoding="ascii") as file:
                json.dump({"linkset": [context(i) for i in range(count)]}, file, separators=(",", ":"))
            size = os.path.getsize(path)
            ours, output = medians([TDL, "check", "--links", path])
            theirs, _ = medians([*LOAD, path])
        if not output.endswith(f" links {count}\n"):
            sys.exit(f"bench/links: {output}")
        print(f"| {count:,} | {size:,} | {shown(ours)} | {shown(theirs)} |")
    print("\n| What is asked | a reply, wall | processor |")
    print("| --- | ---: | ---: |")
    for case in replies():
        print(reply_row(*case))
