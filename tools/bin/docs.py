"""docs [--mark | --write | --list [NAME] | --reach NAME | --kit | --pictures]: writes the parts of the documents that are made of the sources,
and shows the definitions of crates/*/specs.

A definition that the contract of a public call speaks of, at once or by others, is marked in its file:

    -- trusted, SOURCE: SENTENCE
    -- by law NAME: SENTENCE

SOURCE is the section of the standard that it restates, or `own`. In place of the body of a definition `by law` a reader reads that law.
Definitions with no empty line between them have one sentence together, which stands over the first.

--mark puts the marks right, takes away those of what no clause reaches, and marks what one reaches as `own`. --write writes
docs/definitions/kernel.md; in docs/THEOREM.md the formulas, functions by their equations, the links to entries, and the sizes; the kit's
crates in docs/TRUST.md; and the section 'Crates' of docs/ARCHITECTURE.md. tests/test_definitions.py compares all these.

--list prints the sentence of each definition, and of a crate's or of a name's the formula too. --reach prints how many definitions the
contract of a public item reaches, their lines, and the words of their sentences. --kit prints how many clauses and lines of definitions
the kit's crates have that tdl uses, as the kit of the `rt` on the PATH has them. --pictures writes the pictures of the inspector.
"""
import re
import shutil
import sys
from pathlib import Path
from typing import Iterable

from tools import definition_pages, pictures
from tools.common import parser
from tools.crate_pages import ARCHITECTURE, architecture
from tools.definitions import Definition, Node, Specs, definitions_in, remarked
from tools.repository import kit_crates

KIT_CLAUSE = re.compile(r"^ *(?:requires|ensures)\b", re.MULTILINE)


def written(specs: Specs) -> dict[Path, str]:
    """Returns the documents that have written parts, each with its text as it is today."""
    return {**definition_pages.pages(specs), ARCHITECTURE: architecture()}


def write(texts: Iterable[tuple[Path, str]]) -> int:
    """Writes texts to their files, names those that change, and returns the status."""
    for path, text in texts:
        path.parent.mkdir(exist_ok=True)
        if not path.is_file() or path.read_text("utf-8") != text:
            path.write_text(text, "utf-8")
            print(f"docs: wrote {path}")
    return 0


def count(nodes: Iterable[Node]) -> str:
    """Returns how many definitions there are among nodes, their lines, and the words of their sentences."""
    found = definitions_in(nodes)
    lines = sum(len(it.formula) for it in found)
    return f"{len(found)} definitions, {lines} lines, {sum(len(it.sentence.split()) for it in found)} words of sentences"


def reach(specs: Specs, name: str) -> int:
    """Prints what a public item reaches, and returns the status."""
    crate, _, last = name.rpartition("::")
    items = [it for it in specs.items if it.name == last and crate in ("", it.crate)]
    if not items:
        print(f"docs: no crate exports {name}", file=sys.stderr)
        return 2
    for what, nodes in ((name, specs.reached(items)), ("all public items", specs.reached(specs.items)), ("the kernel", specs.kernel()), ("its core", specs.core())):
        print(f"{what}: {count(nodes)}")
    return 0


def count_kit() -> int:
    """Prints how much there is to read of the kit's crates, and returns the status."""
    rt = shutil.which("rt")
    if not rt:
        print("docs: there is no `rt` on the PATH", file=sys.stderr)
        return 2
    counts = [0, 0]
    for crate in ["core", "std", *kit_crates()]:
        folder = Path(rt).resolve().parent.parent / "rattle" / crate
        clauses = sum(len(KIT_CLAUSE.findall(path.read_text("utf-8"))) for path in (folder / "src").rglob("*.rt"))
        lines = sum(len(path.read_text("utf-8").splitlines()) for path in (folder / "specs").rglob("*.antt"))
        counts = [counts[0] + clauses, counts[1] + lines]
        print(f"{crate}: {clauses} clauses, {lines} lines of definitions")
    print("all: {} clauses, {} lines of definitions".format(*counts))
    return 0


def told(it: Definition, is_whole: bool) -> str:
    """Returns what is printed of a definition."""
    source = f" (by the law {it.law})" if it.law else f" ({it.source})" if it.source else ""
    return "\n".join([f"  {it.name}: {it.sentence}{source}", *(f"      {line}" for line in (it.formula if is_whole else []))])


def show(specs: Specs, name: str) -> int:
    """Prints the definitions of a crate or of a name, or the sentences of all, and returns the status."""
    shown = {place: [it for it in found if name in ("", it.name, it.crate)] for place, found in specs.files.items()}
    for (crate, file), found in shown.items():
        if found:
            print(f"\ncrates/{crate}/specs/{file}.antt", *(told(it, bool(name)) for it in found), sep="\n")
    return 0 if any(shown.values()) else 2


def main() -> int:
    """Does what is asked, and returns the status."""
    words = parser(__doc__)
    one = words.add_mutually_exclusive_group(required=True)
    one.add_argument("--list", nargs="?", const="", metavar="NAME")
    one.add_argument("--reach", metavar="NAME")
    for flag in ("--mark", "--write", "--kit", "--pictures"):
        one.add_argument(flag, action="store_true")
    given = words.parse_args()
    if given.kit:
        return count_kit()
    if given.pictures:
        return pictures.main()
    specs = Specs()
    if given.mark or given.write:
        return write(remarked(specs) if given.mark else written(specs).items())
    return reach(specs, given.reach) if given.reach else show(specs, given.list)
