"""A standard stream that is closed is told as one that cannot be read or written, and no file takes its place."""
import subprocess
from pathlib import Path

import pytest

from tools.repository import TOP

LINKS = TOP / "examples" / "links.json"
ITEM = "urn:epc:id:sgtin:0614141.812345.6789"
READ, WRITTEN = 4, 5


def closed(program: Path, *words: object, streams: str, given: str = "") -> "subprocess.CompletedProcess[str]":
    """Runs the program with some streams closed, as a shell closes them."""
    command = ["sh", "-c", f'exec "$@" {streams}', "sh", str(program), *map(str, words)]
    return subprocess.run(command, input=given, capture_output=True, text=True)


@pytest.mark.parametrize("words", [
    ("canon", "pure"),
    ("translate", "pure", "hex", "--filter", 1),
    ("resolve", "--links", LINKS),
    ("translate", "bracketed", "pure", "--prefixes", TOP / "examples" / "prefixes.json"),
], ids=lambda words: str(words[-1]))
def test_input(program: Path, words: tuple[object, ...]) -> None:
    """No file that the command opens is read as standard input."""
    done = closed(program, *words, streams="<&-")
    assert (done.returncode, done.stdout) == (READ, "")
    assert done.stderr.startswith("tdl: cannot read")


@pytest.mark.parametrize("words, given", [
    (("canon", "pure"), f"{ITEM}\n"),
    (("merge", "--links", LINKS, "--second", LINKS), ""),
    (("gen", 3), ""),
    (("--version",), ""),
    (("--help",), ""),
])
@pytest.mark.parametrize("streams", [">&-", "<&- >&-"])
def test_output(program: Path, words: tuple[object, ...], given: str, streams: str) -> None:
    """Nothing is written into a file that the command opens."""
    before = LINKS.read_bytes()
    done = closed(program, *words, streams=streams, given=given)
    assert done.returncode == (READ if words[0] == "canon" and "<" in streams else WRITTEN)
    assert done.stderr.startswith("tdl: cannot ")
    assert LINKS.read_bytes() == before


def test_errors(program: Path) -> None:
    """What is told to a closed standard error goes nowhere, and the answers are whole."""
    done = closed(program, "canon", "pure", streams="2>&-", given=f"{ITEM}\nx\n")
    assert (done.returncode, done.stdout) == (1, "ok https://id.gs1.org/01/80614141123458/21/6789\nno reading\n")
    assert closed(program, "canon", "x", streams="2>&-").returncode == 2


def test_all(program: Path) -> None:
    """With all three closed the status tells."""
    assert closed(program, "canon", "pure", streams="<&- >&- 2>&-").returncode == READ
    assert closed(program, "gen", 3, streams="<&- >&- 2>&-").returncode == WRITTEN
