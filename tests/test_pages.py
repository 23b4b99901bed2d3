"""Each library has a page with an example that is a vector or of a case, crates.txt lists each crate above those that use it, and CONTRIBUTING.md names edits."""
import re
from pathlib import Path

import pytest

from tools.calls import calls_of
from tools.cases import subjects
from tools.crate_pages import layers
from tools.repository import CRATES, TOP
from tools.tests import none
from tools.vectors import cases, page

EXAMPLE = re.compile(r"^```text\n(.*?)\n```$", re.MULTILINE | re.DOTALL)
DIFFERS = re.compile(r"^# Differences from the (standards?|system)$", re.MULTILINE)
WRONG_BODY = re.compile(r"^\| `(\w+)/(\w+)` \|", re.MULTILINE)
# the callers that docs/LIBRARY.md shows are not part of tdl
BESIDE = ("uses",)
# the objects of the system, their records and the handles of C are in no case: adapter_tests and tests/test_library.py try them
WITHOUT_EXAMPLE = {"gs_history", "gs_port_system", "tdl_c", "tdl_session"}
# the call of the crate is for what a load has accepted, or takes a request, so its case goes through the call of this one
THROUGH = {"gs_tables_migration": "gs_tables", "tdl_loads": "tdl_run"}
# a case that is for a call may have it as an example, in the words of the vectors
SHOWN = {(call, answer) for _, some in subjects() for case in some for call, answer in case.get("examples", []) if call.split()[0] in calls_of(case)}
KNOWN = {*cases(), *SHOWN}
ROOTS = [root for root in sorted(CRATES.glob("*/src/lib.rt")) if not root.parts[-3].startswith(BESIDE)]


@pytest.mark.parametrize("root", ROOTS, ids=[root.parts[-3] for root in ROOTS])
def test_page(root: Path) -> None:
    """A page says where the crate differs from the standards, and shows calls of the crate itself that are vectors, or examples of cases, with this answer."""
    text, crate = page(root), root.parts[-3]
    blocks = [block.split("\n") for block in EXAMPLE.findall(text)]
    examples = [pair for lines in blocks for pair in zip(lines[::2], lines[1::2])]
    assert DIFFERS.search(text)
    assert examples or crate in WITHOUT_EXAMPLE
    none(f"neither a vector nor an example of a case, or with another answer: {pair[0]}" for pair in examples if pair not in KNOWN)
    none(f"this is the call of another crate: {call}" for call, _ in examples if not call.startswith(f"{THROUGH.get(crate, crate)}::"))


def test_crates() -> None:
    """crates.txt lists each crate of crates/, each above those that use it, and docs/layers.svg names those of tdl."""
    uses = dict(pair for _, crates in layers() for pair in crates)
    listed = list(uses)
    none(f"{name} is listed above {it}, which it uses" for place, name in enumerate(listed) for it in uses[name] if it in listed[place:])
    assert sorted(listed) == sorted(path.parent.name for path in CRATES.glob("*/src"))
    drawn = set(re.findall(r"\b(?:gs_\w+|tdl\w*)\b", (TOP / "docs" / "layers.svg").read_text("utf-8")))
    assert drawn == {name for name in listed if name.startswith(("gs_", "tdl"))}


def test_wrong_bodies() -> None:
    """Each wrong body that CONTRIBUTING.md names has its must-fail edit, in the crate that it names."""
    rows = WRONG_BODY.findall((TOP / "CONTRIBUTING.md").read_text("utf-8").partition("\n## Named wrong bodies\n")[2].partition("\n## ")[0])
    assert rows
    none(f"{crate}/{name} has no must-fail edit" for crate, name in rows if not (CRATES / crate / "must-fail" / f"{name}.edit").is_file())
