"""The commands that documents show print what they say, the edits of tables that they list are answered so, and their paths and links lead on.

Commands run as they are pasted at the top of a fresh copy of the repository, as a clone is, in which the program stands as bin/build leaves it;
`tdl` is bin/tdl there. All documents share that copy:

  a fenced block whose first line has a second word is the file of that name; where it is one of examples/, the two have to be equal
  a fenced block whose first line is `rust` and the name of a file of crates/ is a piece of that file
  a fenced block `console`, and an indented block that begins with `$ `, has commands behind `$ ` and what they print
  a table whose first head is `In` and the name of a file has edits of this file: what stands there once, what is written in
  its place, and what `tdl check --tables` prints of the edited file; a cell is texts between backticks, which are joined, and
  `N times` before one repeats it

A command's status has to be that of docs/CLI.md, 'Statuses': 3 where it prints `refused`, 2 where it prints the usage line, 1 where
it prints an answer `no` or a total with rejected records, else 0. The text by which tables are ambiguous is left free and not compared.
"""
import os
import re
import shutil
import struct
import subprocess
from functools import cache
from pathlib import Path
from typing import Iterator, Optional

import pytest

from tdl.inspector.filters import FILTERS
from tools import repository
from tools.repository import TOP
from tools.tests import none

Block = tuple[Optional[list[str]], list[str]]

DOCUMENTS = ["README.md", "docs/TUTORIAL.md", "docs/TABLES.md", "docs/REPLIES.md"]
PATHED = ["README.md", "CONTRIBUTING.md", "CHANGELOG.md", *(f"docs/{path.name}" for path in sorted((TOP / "docs").glob("*.md")))]
FOLDERS = "docs|checks|tests|bench|tables|bin|tools|python|shard|examples|packaging"
NAMED = re.compile(rf"(?<![\w/.-])(?:(crates/\w+)(?:/([\w/.-]+))?|((?:src|specs|proofs)/[\w/.-]+)|((?:{FOLDERS})/[\w./@-]+))")
LINK = re.compile(r"\]\((?!https?:)([^)#\s]*)#?([^)\s]*)\)")
FENCE, INDENT, PROMPT = "```", "    ", "$ "
UNPROVED = re.compile(r"^bin/tdl: (?:the program is not built yet, |the kit is ).*\n", re.MULTILINE)
TEXT = re.compile(r"(?:([0-9,]+) times )?`([^`]*)`")
# the most pixels that a picture of README is high, and where a PNG says how high it is
MOST_HEIGHT, PNG_HEIGHT = 700, 20


def text_of(name: str) -> str:
    """Returns the text of a document."""
    return (TOP / name).read_text("utf-8")


def blocks(text: str) -> Iterator[Block]:
    """Yields the blocks of a document: the words behind its fence, or none where it is indented, and its lines."""
    block = None
    for line in text.splitlines():
        if block and (line == FENCE if block[0] is not None else not line.startswith(INDENT)):
            yield block
            block = None
        elif block:
            block[1].append(line if block[0] is not None else line[len(INDENT):])
        elif line.startswith(FENCE):
            block = (line[len(FENCE):].split(), [])
        elif line.startswith(INDENT + PROMPT):
            block = (None, [line[len(INDENT):]])
    if block:
        yield block


def files_of(text: str) -> Iterator[tuple[str, str]]:
    """Yields the files that a document shows: name and content."""
    for words, lines in blocks(text):
        if words and len(words) == 2 and words[0] != "rust":
            yield words[1], "\n".join(lines) + "\n"


def commands(text: str) -> list[tuple[str, list[str]]]:
    """Returns the commands of a document, each with the lines that it prints."""
    found: list[tuple[str, list[str]]] = []
    for line in (line for words, lines in blocks(text) if words is None or words[:1] == ["console"] for line in lines):
        if line.startswith(PROMPT):
            found.append((line[len(PROMPT):], []))
        else:
            found[-1][1].append(line)
    return found


def edits(text: str) -> Iterator[tuple[str, str, str, str]]:
    """Yields the edits that a document lists: the file, what stands in it, what is written there, and what is printed."""
    name = None
    for line in text.splitlines():
        cells = [cell.strip() for cell in re.split(r"(?<!\\)\|", line)[1:-1]]
        head = re.fullmatch(r"In `(.*)`", cells[0]) if cells else None
        if head:
            name = head[1]
        elif not cells:
            name = None
        elif name and set(cells[0]) != {"-"}:
            stands, instead, printed = ("".join(text * int((count or "1").replace(",", "")) for count, text in TEXT.findall(cell)) for cell in cells[:3])
            yield name, stands, instead, printed


def status_of(printed: list[str]) -> int:
    """Returns the status that belongs to what is printed."""
    firsts = {line.split(" ")[0] for line in printed}
    is_rejected = any(re.search(r" [1-9][0-9,]* rejected$|^[0-9,]+ anchors? differs?: ", line) for line in printed)
    return 3 if "refused" in firsts else 2 if "usage:" in firsts else 1 if "no" in firsts or is_rejected else 0


def fixed(line: str) -> str:
    """Returns a printed line without the text that is left free."""
    return re.sub(r"^(refused tables ambiguous \w+ \d+ \d+) .*", r"\1", line)


def fault(command: str, wanted: list[str], folder: Path) -> str:
    """Returns how a command differs from what is wanted, or nothing."""
    # (as README's line sets them, once)
    given = {"PATH": f"{folder}/bin:{os.environ['PATH']}", "PYTHONPATH": f"{folder}/python/src"}
    kept = {name: value for name, value in os.environ.items() if name != "TDL"}
    done = subprocess.run(["sh", "-c", command], cwd=folder, env={**kept, **given}, capture_output=True, text=True)
    got = [*map(fixed, (done.stdout + UNPROVED.sub("", done.stderr)).splitlines()), f"status {done.returncode}"]
    wanted = [*map(fixed, wanted), f"status {status_of(wanted)}"]
    return "" if got == wanted else "\n".join([f"$ {command}", *(f"  wanted {line}" for line in wanted), *(f"  got    {line}" for line in got)])


EDITS = [edit for name in DOCUMENTS for edit in edits(text_of(name))]


@pytest.fixture(scope="module")
def clone(program: Path, tmp_path_factory: pytest.TempPathFactory) -> Path:
    """A copy of the repository that has the program, and the files that the documents show."""
    folder = tmp_path_factory.mktemp("documents") / "clone"
    repository.fresh_copy(folder)
    built = folder / "crates/tdl/out/tdl"
    built.parent.mkdir()
    shutil.copyfile(program, built)
    built.chmod(0o755)
    for name, content in (file for document in DOCUMENTS for file in files_of(text_of(document))):
        if not name.startswith("examples/"):
            (folder / name).write_text(content, "ascii")
    return folder


@pytest.mark.xdist_group("documents")
@pytest.mark.parametrize("name", DOCUMENTS)
def test_commands(clone: Path, name: str) -> None:
    """The commands of a document print what it shows."""
    found = commands(text_of(name))
    assert found
    none(fault(command, wanted, clone) for command, wanted in found)


@pytest.mark.xdist_group("documents")
@pytest.mark.parametrize("name, stands, instead, printed", EDITS, ids=[f"{edit[0]}: {edit[3]}" for edit in EDITS])
def test_edit(clone: Path, name: str, stands: str, instead: str, printed: str) -> None:
    """An edited table is answered as the document says."""
    table = (clone / name).read_text("ascii")
    assert table.count(stands) == 1
    (clone / "edited.json").write_text(table.replace(stands, instead), "ascii")
    none([fault("tdl check --tables edited.json", [printed], clone)])


@pytest.mark.needs("rt")
@pytest.mark.parametrize("place", [0, *(pytest.param(place, marks=pytest.mark.whole) for place in range(1, len(commands(text_of("README.md")))))])
def test_unproved(tmp_path: Path, place: int) -> None:
    """README's commands print what it shows where nothing is built, which the kit's `rt` takes a minute for."""
    repository.fresh_copy(tmp_path / "clone")
    none([fault(*commands(text_of("README.md"))[place], tmp_path / "clone")])


def test_examples() -> None:
    """Each file of examples/ is what the documents show."""
    shown = {name: content for document in DOCUMENTS for name, content in files_of(text_of(document)) if name.startswith("examples/")}
    assert {name: text_of(name) for name in shown} == shown


def test_pieces() -> None:
    """Each piece of a crate that docs/LIBRARY.md shows stands in its file."""
    pieces = [(words[1], "\n".join(lines)) for words, lines in blocks(text_of("docs/LIBRARY.md")) if words and words[0] == "rust"]
    assert pieces
    none(f"this is not in {name}: {piece}" for name, piece in pieces if f"\n{piece}\n" not in text_of(name))


@pytest.mark.parametrize("name", PATHED)
def test_paths(name: str) -> None:
    """Each path that a document names is there."""
    crate, faults = None, []
    for line in text_of(name).splitlines():
        crate = None if not line.strip() or line.lstrip().startswith("- ") else crate
        for found in NAMED.finditer(line):
            crate = found[1] or crate
            path = found[4] or "/".join(filter(None, [crate, found[2] or found[3]]))
            is_free = "/out/" in path or crate == "crates/NAME"
            faults += [] if is_free or (TOP / path.rstrip("./")).exists() else [f"there is no {path}"]
    none(faults)


@cache
def anchors(path: Path) -> set[str]:
    """Returns the names by which links find places of a document: those of its headings, and those that it gives."""
    text = re.sub(r"^```.*?^```$", "", path.read_text("utf-8"), flags=re.MULTILINE | re.DOTALL)
    heads = re.findall(r"^#+ (.*)", text, re.MULTILINE)
    return {re.sub(r"[^\w -]", "", head.lower()).replace(" ", "-") for head in heads} | set(re.findall(r'<a id="([^"]*)"', text))


def leads(name: str, path: str, anchor: str) -> bool:
    """Returns whether a link of a document leads to a file of the repository, or a place in one."""
    to = (TOP / name).parent / path if path else TOP / name
    return to.exists() and (not anchor or to.suffix != ".md" or anchor in anchors(to.resolve()))


@pytest.mark.parametrize("name", PATHED)
def test_links(name: str) -> None:
    """Each link of a document leads somewhere."""
    none(f"there is no {path}#{anchor}" for path, anchor in LINK.findall(text_of(name)) if not leads(name, path, anchor))


def test_pictures() -> None:
    """Each picture of README fits on a screen."""
    pictures = re.findall(r"!\[[^]]*\]\((.*\.png)\)", text_of("README.md"))
    assert pictures
    heights = {path: struct.unpack_from("!I", (TOP / path).read_bytes(), PNG_HEIGHT)[0] for path in pictures}
    assert not {path: height for path, height in heights.items() if height > MOST_HEIGHT}


def test_filters() -> None:
    """docs/GLOSSARY.md has the filter values that the inspector shows."""
    text = text_of("docs/GLOSSARY.md").split("## Filter values\n", 1)[1].split("\n## ", 1)[0]
    head, _, *rows = [[cell.strip() for cell in line.split("|")[1:-1]] for line in text.splitlines() if line.startswith("|")]
    assert {name.lower(): {int(row[0]): row[place] for row in rows if row[place]} for place, name in enumerate(head) if place} == FILTERS
