"""crate_pages: the section 'Crates' of docs/ARCHITECTURE.md, made of crates.txt and of the first sentence of each crate's page.

The layers are the comment lines of crates.txt that begin a group. The section is the last of its page.
"""
import re

from tools.repository import CRATES, TOP
from tools.vectors import page

ARCHITECTURE = TOP / "docs" / "ARCHITECTURE.md"
HEAD = """## Crates

`bin/docs --write` writes this section from crates.txt, which lists the libraries of each crate, and from the first sentence of each
crate's page.
"""


def layers() -> list[tuple[str, list[tuple[str, list[str]]]]]:
    """Returns the layers of crates.txt: for each its name and its crates, each with the libraries that it uses."""
    found = []
    for block in (TOP / "crates.txt").read_text("utf-8").split("\n\n")[1:]:
        first, *lines = block.strip().split("\n")
        found.append((first.lstrip("# "), [(name.split()[0], used.split()) for name, used in (line.split(":") for line in lines)]))
    return found


def sentence(name: str) -> str:
    """Returns the first sentence of a crate's page."""
    root = next(path for file in ("lib.rt", "main.rt") if (path := CRATES / name / "src" / file).is_file())
    text = page(root).split("\n\n")[0].replace("\n", " ")
    return re.split(r"(?<=[^.][.:]) (?=[A-Z`])", text)[0].rstrip(".:")


def architecture() -> str:
    """Returns the text of docs/ARCHITECTURE.md with the section as it is today."""
    text = [ARCHITECTURE.read_text("utf-8").partition(HEAD.splitlines(keepends=True)[0])[0], HEAD]
    for layer, crates in layers():
        text.append(f"\n### {layer[0].upper()}{layer[1:]}\n\n")
        text.extend(f"- `{name}`: {sentence(name)}\n" for name, _ in crates)
    return "".join(text)
