"""The stack that docs/LIMITS.md names is enough for each command, also for the documents that nest most."""
import subprocess
from pathlib import Path

import pytest

from tools.repository import TOP

KIB, DEEPEST = 256, 127
NESTED = "[" * (DEEPEST - 1) + "]" * (DEEPEST - 1)
ITEM = "urn:epc:id:sgtin:0614141.812345.6789"
BITS = "3074257BF7194E4000001A85"
EXAMPLES, TABLES = TOP / "examples", TOP / "tables"
HEAD = "GET /01/09506000134352 HTTP/1.1\r\nHost: a\r\nConnection: close\r\n\r\n"
RUNS: dict[str, tuple[tuple[object, ...], str, int]] = {
    "canon": (("canon", "pure"), f"{ITEM}\n", 0),
    "tables of GS1": (("translate", "hex", "link", "--tables", TABLES / "gs1.json"), f"{BITS}\n", 0),
    "prefixes": (("translate", "hex", "tag", "--prefixes", EXAMPLES / "prefixes.json"), f"{BITS}\n", 0),
    "resolve": (("resolve", "--links", EXAMPLES / "links.json"), HEAD, 0),
    "merge": (("merge", "--links", EXAMPLES / "links.json", "--second", EXAMPLES / "links.json"), "", 0),
    "migrate": (("migrate", "--tables", TOP / "checks/version1/gs1.json"), "", 0),
    "class": (("class", "canon"), "urn:epc:class:lgtin:0614141.812345.A\n", 0),
    "gen": (("gen", 100), "", 0),
}


@pytest.mark.parametrize("words, given, status", RUNS.values(), ids=RUNS)
def test_commands(program: Path, words: tuple[object, ...], given: str, status: int) -> None:
    done = subprocess.run(["sh", "-c", f'ulimit -s {KIB}; exec "$@"', "sh", program, *map(str, words)], input=given, capture_output=True, text=True)
    assert (done.returncode, done.stderr) == (status, "")


@pytest.mark.parametrize("option", ["--tables", "--links", "--prefixes"])
def test_nested_documents(program: Path, tmp_path: Path, option: str) -> None:
    """A document that nests as deep as JSON may here is judged by its form, and one level more is no JSON."""
    for levels, wanted in ((NESTED, False), (f"[{NESTED}]", True)):
        (tmp_path / "nested.json").write_text(f'{{"a":{levels}}}', "ascii")
        words = ["sh", "-c", f'ulimit -s {KIB}; exec "$@"', "sh", str(program), "check", option, str(tmp_path / "nested.json")]
        done = subprocess.run(words, capture_output=True, text=True)
        assert (done.returncode, "json syntax" in done.stdout) == (3, wanted), done
    assert f"has to have {KIB} KiB of stack" in (TOP / "docs/LIMITS.md").read_text("utf-8")
