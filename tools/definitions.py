"""The definitions of crates/*/specs, and which of them the clauses of public items speak of.

A node is a definition or a Rust type that definitions and clauses name. From the names in the clauses of a public item (tools/clauses.py)
edges lead on: from a definition to each name that it uses, from a constructor to its data, from a Rust type to the value that contracts see in
its place or else to its fields. A definition that is marked `by law` leads to the clauses of its law in place of its body.
"""
import re
import textwrap
from dataclasses import dataclass, field
from pathlib import Path
from typing import Collection, Iterable, Iterator, Optional, Union

from tools.clauses import IMPORT, NAMES, Item, Place, Sources, Type, imported
from tools.repository import TOP, crates

Imports = dict[str, Place]

DEFINED = re.compile(r"(?:abbrev|unfoldable|record|data|pub)(?: (?:abbrev|unfoldable|record|data|pub))* ([^\s{(]+)")
SORTS = {"abbrev", "unfoldable", "record", "data"}
MARK = re.compile(r"(?:trusted, ([^:]+)|by law (\w+)): (.*)")
MADE = re.compile(r"  ([^\s:][^:]*) : ")
MEMBER = re.compile(r"  pub (\S+) : ")
WIDTH = 128
CLAUSE = re.compile(r"ensures (\w+) \{.*?(?=\n\s*(?:ensures|requires|//)|\Z)", re.DOTALL)

# Where the kernel ends, which is what the clause `defined` of `run` says for `canon` and `translate` with files of tables and prefixes: other
# commands, the other files, and what else is loaded.
BEYOND_KERNEL = set("""Generated IsClassCanonLine IsClassUriLine writing_classes IsDumpReadLine IsDumpWriteLine counts_line migrated_line
merged_line Resolves Serves served_outcome LinksGive OtherGives merging ClassesGive Loaded SiteData Settings""".split())
# The core says what is accepted and what it means: it begins at CORE, and ends at these: reasons, rules of tables, and how one of several
# right spellings is chosen.
CORE = ("IsTranslation", "canonical_link")
BEYOND_CORE = BEYOND_KERNEL | set("""IsLoaded reason_text IsRawError IsBracketedError IsHexFault FirstBadDigit OfElement link_reason
write_reason WritesAs LastRejects Candidate written raw_text bracketed_text""".split())


@dataclass(eq=False)
class Definition:
    """A definition: its place, its sentence, its source or its law where it is marked, its formula, and the names that it uses."""
    crate: str
    file: str
    line: int
    name: str
    sentence: str
    source: str = ""
    law: str = ""
    within: str = ""
    formula: list[str] = field(default_factory=list)
    is_open: bool = True

    def __post_init__(self) -> None:
        found = MARK.fullmatch(self.sentence)
        if found:
            self.source, self.law, self.sentence = found[1] or "", found[2] or "", found[3]

    @property
    def path(self) -> str:
        """The file that it stands in."""
        return f"crates/{self.crate}/specs/{self.file}.antt"

    @property
    def is_marked(self) -> bool:
        """Whether a reader of public clauses is told to read it."""
        return bool(self.source or self.law)

    def made(self) -> Iterator[str]:
        """The constructors, if it is data."""
        if " data " in f" {self.formula[0]}":
            yield from (name for line in self.formula[1:] if (found := MADE.match(line)) for name in found[1].split())

    def uses(self) -> set[str]:
        """The names that it speaks of: of a function with a law, only those of its type."""
        lines = [line for line in self.formula if not (self.law and line.startswith(f"{self.name} "))]
        return {name for line in lines for name in NAMES.findall(MEMBER.sub("  ", re.sub(r"(?:^|\s)--\s.*", "", line)))}


Node = Union[Definition, Type]


class Specs:
    """All definitions, and the graph of what names what."""

    def __init__(self, top: Path = TOP) -> None:
        self.files: dict[tuple[str, str], list[Definition]] = {}
        self.imports: dict[tuple[str, str], Imports] = {}
        self.known: dict[Place, Definition] = {}
        for crate in crates(top):
            for path in sorted((top / "crates" / crate / "specs").glob("*.antt")):
                if path.stem != "Lib":
                    self.read(crate, path)
        self.sources = Sources(top)
        self.items = [it for it in self.sources.items() if self.sources.is_public(it)]
        self.laws = {(it.crate, it.name): it for it in self.items if it.is_law}
        self.edges: dict[Node, set[Node]] = {}

    def read(self, crate: str, path: Path) -> None:
        """Reads the definitions of a file, and where the names that it imports are defined."""
        place, over, within = (crate, path.stem), False, ""
        found: list[Definition] = []
        imports: Imports = {}
        sentence: list[str] = []
        for number, line in enumerate(path.read_text("utf-8").splitlines(), 1):
            bare = line.strip()
            if line[:1].strip():
                within = line if line.startswith("module _ ") else ""
            elif within:
                line = line[2:]
            if IMPORT.fullmatch(bare):
                imports.update(imported(bare))
            defined = DEFINED.match(line)
            if defined and SORTS & set(line.split()[:3]):
                found.append(Definition(crate, path.stem, number, defined[1], " ".join(sentence), within=within))
            elif defined and found:
                found[-1].is_open = False
            if bare.startswith("--"):
                sentence = [*(sentence if over else []), bare[2:].strip()]
            elif not bare:
                sentence = []
                if found and found[-1].formula:
                    found[-1].is_open = False
            elif found and found[-1].is_open and not IMPORT.fullmatch(bare):
                found[-1].formula.append(line.rstrip())
            over = bare.startswith("--")
        self.files[place], self.imports[place] = found, imports
        for it in found:
            self.known[crate, path.stem, it.name] = it
            self.known.update({(crate, path.stem, name): it for name in it.made()})

    def all(self) -> list[Definition]:
        """All definitions, crates in the order of crates.txt."""
        return [it for found in self.files.values() for it in found]

    def found(self, names: Iterable[str], imports: Imports, own: Optional[tuple[str, str]] = None) -> Iterator[Node]:
        """The nodes that names lead to, by what their file imports and defines."""
        for name in names:
            place = (*own, name) if own and (*own, name) in self.known else imports.get(name)
            if place and place not in self.known:
                place = self.imports.get(place[:2], {}).get(name, place)
            node = place and (self.known.get(place) or self.sources.types.get(place))
            if node:
                yield node

    def next(self, node: Node) -> set[Node]:
        """The nodes that a node leads to."""
        if node not in self.edges:
            self.edges[node] = set(self.leads(node)) - {node}
        return self.edges[node]

    def leads(self, node: Node) -> Iterator[Node]:
        """The nodes that a node names."""
        if not isinstance(node, Definition):
            if node.value:
                yield from self.found(node.names, node.source.imports)
            else:
                yield from filter(None, (self.sources.type_of(node.source, name) for name in node.names))
            return
        place = (node.crate, node.file)
        yield from self.found(node.uses(), self.imports[place], place)
        if node.law:
            law = self.laws.get((node.crate, node.law))
            yield from self.found(law.names, law.imports) if law else ()

    def reached(self, items: Iterable[Item]) -> set[Node]:
        """The nodes that the clauses of items speak of, in the end."""
        return self.closed({node for item in items for node in self.found(item.names, item.imports)})

    def closed(self, nodes: Iterable[Node], beyond: Collection[str] = ()) -> set[Node]:
        """Nodes and all that they lead to, without those of the names beyond and what only they lead to."""
        todo, done = {node for node in nodes if node.name not in beyond}, set()
        while todo:
            node = todo.pop()
            done.add(node)
            todo |= {it for it in self.next(node) if it.name not in beyond} - done
        return done

    def item(self, crate: str, name: str) -> list[Item]:
        """The public items of a crate with a name."""
        return [it for it in self.items if (it.crate, it.name) == (crate, name)]

    def kernel(self) -> set[Node]:
        """The nodes of the kernel."""
        run = self.item("tdl_run", "run")[0]
        names = set(NAMES.findall(clause_of(run, "defined")))
        return self.closed(self.found(names, run.imports), BEYOND_KERNEL)

    def core(self) -> set[Node]:
        """The nodes of the core, which are in the kernel."""
        return self.closed([it for it in self.all() if it.name in CORE], BEYOND_CORE) & self.kernel()


def remarked(specs: Specs) -> Iterator[tuple[Path, str]]:
    """The files whose marks are not right, each with its text once they are: what no clause reaches has none, what one reaches is `own`."""
    reached = specs.reached(specs.items)
    wrong: dict[str, list[Definition]] = {}
    for it in specs.all():
        if it.sentence and it.is_marked != (it in reached):
            wrong.setdefault(it.path, []).append(it)
    for path, found in wrong.items():
        lines = (TOP / path).read_text("utf-8").splitlines()
        for it in reversed(found):
            end = next(n for n in range(it.line - 2, -1, -1) if lines[n].strip().startswith("--"))
            start = next((n + 1 for n in range(end, -1, -1) if not lines[n].strip().startswith("--")), 0)
            begun = lines[start][:lines[start].index("--")] + "-- "
            told = it.sentence if it.is_marked else f"trusted, own: {it.sentence}"
            lines[start:end + 1] = textwrap.wrap(told, WIDTH, initial_indent=begun, subsequent_indent=begun, break_on_hyphens=False)
        yield TOP / path, "\n".join(lines) + "\n"


def clause_of(item: Item, name: str) -> str:
    """The text of a clause of an item."""
    return next((it[0] for it in CLAUSE.finditer(item.text) if it[1] == name), "")


def definitions_in(nodes: Iterable[Node]) -> list[Definition]:
    """The definitions among nodes."""
    return [it for it in nodes if isinstance(it, Definition)]


def kit_words(specs: Specs, nodes: Iterable[Node]) -> set[str]:
    """The words of the kit's libraries that the formulas of nodes use."""
    own = set(crates())
    places = {specs.imports[it.crate, it.file].get(name) for it in definitions_in(nodes) for name in it.uses()}
    return {place[2] for place in places if place and place[0] not in own}
