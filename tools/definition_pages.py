"""The pages of the definitions that public clauses reach: docs/definitions, of which git keeps that of the kernel, and packaging/site writes
all; the formulas of docs/THEOREM.md; and in that page and docs/TRUST.md the parts between `<!-- written: NAME -->` and `<!-- end -->`:
sizes, and what is used of the kit.
"""
import re
from pathlib import Path
from typing import Iterable, Iterator, Optional, Sequence

from tools.clauses import Type
from tools.definitions import Definition, Node, Specs, clause_of, definitions_in, kit_words
from tools.repository import TOP, crates, kit_crates, kit_wanted

DOCS = TOP / "docs"
THEOREM, TRUST = DOCS / "THEOREM.md", DOCS / "TRUST.md"
MOST_NAMED = 12
PART = re.compile(r"(?<=<!-- written: )(\w+)( -->\n).*?(?=<!-- end -->)", re.DOTALL)
CLAUSE_TABLE = r"```\n(?:(?!```|\|).*\n)*\| In the clause \|.*\n\|[-|]*\n((?:\|.*\n)*)"
GLOSSED = re.compile(r"^```\n-- (\w+): (\w+), (\w+)\n((?:(?!```).*\n)*)" + CLAUSE_TABLE, re.MULTILINE)
BLOCK = re.compile(r"^```\n(-- \w+: .*?)^```$", re.MULTILINE | re.DOTALL)
HEAD = re.compile(r"^-- (\w+): (\w+)(?:, (\w+))?$", re.MULTILINE)
ENTRY = re.compile(r"\[`(\w+)`\]\(definitions/[^)]*\)")

PAGES = {
    "kernel": ("The kernel", "The definitions of the clause `defined` of `run` for `canon` and `translate`, with files of tables and of company prefix lengths."),
    "run": ("The rest of `run`", "The other definitions of the contract of `run`: the other commands and files, `serve`, and the clauses other than `defined`."),
    "calls": ("Other public calls", "The other definitions of the contracts of public calls."),
}
KEPT = ("kernel",)
CHAPTERS = {
    "core": ("The core", "Which texts are accepted, and their meaning."),
    "kernel": ("The rest of the kernel", "The command line, the files, the rules of tables, the reasons, and the choice among several right spellings."),
}


class Pages:
    """Some of PAGES: which page and chapter each node stands on, and under which name links find it."""

    def __init__(self, specs: Specs, names: Sequence[str]) -> None:
        self.specs, self.names = specs, names
        core, kernel, run = specs.core(), specs.kernel(), specs.reached(specs.item("tdl_run", "run"))
        self.chapters = {}
        for node in specs.reached(specs.items):
            self.chapters[node] = "core" if node in core else "kernel" if node in kernel else "run" if node in run else "calls"
        self.numbers = {node: number for number, node in enumerate(sorted(self.chapters, key=self.place))}
        self.order = [node for node in self.numbers if self.page(node) in names]
        self.anchors: dict[Node, str] = {}
        self.users: dict[Node, list[Node]] = {}
        self.items: dict[Node, list[str]] = {}
        taken: set[tuple[str, str]] = set()
        for node in self.order:
            page, file = self.page(node), node.file if isinstance(node, Definition) else node.module.replace("::", ".")
            anchors = (node.name, f"{node.crate}.{node.name}", f"{node.crate}.{file}.{node.name}")
            self.anchors[node] = next(name for name in anchors if (page, name) not in taken)
            taken.add((page, self.anchors[node]))
            for used in specs.next(node):
                self.users.setdefault(used, []).append(node)
        for item in specs.items:
            for node in set(specs.found(item.names, item.imports)):
                name = f"{item.owner[1] or item.owner[2]}::{item.name}" if item.owner else item.name
                self.items.setdefault(node, []).append(f"`{item.crate}::{name}`")

    @staticmethod
    def place(node: Node) -> tuple[int, bool, str, int]:
        """The place of a node in the order of crates.txt: a crate's types first."""
        names = list(crates())
        return names.index(node.crate), isinstance(node, Definition), node.path, node.line

    def page(self, node: Node) -> str:
        """The page of a node."""
        return "kernel" if self.chapters[node] == "core" else self.chapters[node]

    def link(self, node: Node, page: str) -> str:
        """A link from a page to the entry of a node, or to its file if no page has it."""
        own = self.page(node)
        if own not in self.names:
            return f"[{node.name}](../../{node.path})"
        file = "" if own == page else f"{own}.md" if page else f"definitions/{own}.md"
        return f"[{node.name}]({file}#{self.anchors[node]})"

    def links(self, nodes: Iterable[Node], page: str) -> list[str]:
        """Links to nodes, in the order of crates.txt."""
        return [self.link(node, page) for node in sorted(nodes, key=self.numbers.__getitem__)]

    def entry(self, node: Node, page: str) -> str:
        """The entry of a node: its sentence, its formula, and its place among the others."""
        if isinstance(node, Definition):
            told, lines = f"{node.sentence[:1].upper()}{node.sentence[1:].rstrip('.')}. ({self.source(node)}, ", shown(node)
        else:
            told, lines = f"{node.doc or 'A Rust type.'} (", fields_of(node)
        text = [f'#### <a id="{self.anchors[node]}"></a>`{node.name}`', f"{told}[{node.path.rpartition('/')[2]}](../../{node.path}))"]
        used, users, items = self.links(self.specs.next(node), page), self.links(self.users.get(node, []), page), self.items.get(node, [])
        around = [("Uses", ", ".join(used)), ("Used by", several(users)), ("In clauses of", several(items))]
        text += ["```", *lines, "```", " ".join(f"{word} {names}." for word, names in around if names)]
        return "\n" + "\n".join(text).rstrip("\n") + "\n"

    def source(self, node: Definition) -> str:
        """Returns the source of a definition, or the law that a reader reads instead of its formula."""
        law = self.specs.laws.get((node.crate, node.law))
        return f"by the law [{law.name}](../../crates/{law.crate}/src/{law.module.replace('::', '/')}.rt)" if law else node.source

    def text(self, page: str) -> str:
        """The text of a page."""
        title, about = PAGES[page]
        text = [f"# {title}\n\n{about} `bin/docs --write` writes this page, and [DEFINITIONS.md](../DEFINITIONS.md) says how to read it.\n"]
        for chapter in ("core", "kernel") if page == "kernel" else (page,):
            if page == "kernel":
                text.append(f"\n## {CHAPTERS[chapter][0]}\n\n{CHAPTERS[chapter][1]}\n")
            last = None
            for node in (it for it in self.order if self.chapters[it] == chapter):
                if node.crate != last:
                    text.append(f"\n### {node.crate}\n")
                text.append(self.entry(node, page))
                last = node.crate
        return "".join(text)


def several(names: list[str]) -> str:
    """Names, the first of them where they are many."""
    more = f" and {len(names) - MOST_NAMED} more" if len(names) > MOST_NAMED else ""
    return ", ".join(names[:MOST_NAMED]) + more


def shown(node: Definition) -> list[str]:
    """The formula of a definition as it stands in its file, with the head of the module that it stands in."""
    return [node.within, *(f"  {line}" for line in node.formula)] if node.within else node.formula


def fields_of(node: Type) -> list[str]:
    """The fields of a type, or the value that contracts see in its place."""
    if node.value:
        return [f"ghost Value = {{ {node.value.strip(' };')} }}"]
    return [line for line in node.formula if line.strip()]


def equations(node: Definition) -> list[str]:
    """The formula of a definition, and of a function only its equations: the entry of its page has the type."""
    lines = shown(node)
    found = [number for number, line in enumerate(lines) if re.match(rf"{node.name}\b.*=", line)]
    return lines[found[0]:] if lines and found and re.match(r"(abbrev|unfoldable) ", lines[0]) else lines


def formula(specs: Specs, crate: str, name: str, clause: Optional[str]) -> Optional[list[str]]:
    """The lines of a definition, or of a clause of a public item, as they stand in the file."""
    if clause:
        return next((clause_of(it, clause).splitlines() for it in specs.item(crate, name)), None) or None
    return next((equations(it) for it in specs.all() if (it.crate, it.name) == (crate, name)), None)


def heads() -> list[tuple[str, str, str]]:
    """The crate, the name and the clause, or nothing, of each formula of docs/THEOREM.md."""
    return [head for block in BLOCK.findall(THEOREM.read_text("utf-8")) for head in HEAD.findall(block)]


def theorem(specs: Specs, entries: Pages) -> str:
    """The text of docs/THEOREM.md with the formulas of today, and with links to the entries of today."""
    def filled(block: re.Match[str]) -> str:
        texts = []
        for head in HEAD.finditer(block[1]):
            lines = formula(specs, *head.groups())
            if lines is None:
                return block[0]
            texts.append("".join(f"{line}\n" for line in [head[0], *lines]))
        return "```\n" + "".join(texts) + "```"

    def linked(found: re.Match[str]) -> str:
        node = next((it for it in entries.order if it.name == found[1]), None)
        return f"[`{found[1]}`]({entries.link(node, '').partition('](')[2]}" if node else found[0]

    return ENTRY.sub(linked, BLOCK.sub(filled, THEOREM.read_text("utf-8")))


def sizes(specs: Specs) -> Iterator[str]:
    """The table of how much has to be read to know what the clauses claim."""
    run = specs.item("tdl_run", "run")
    parts = [
        ("[the core](definitions/kernel.md#the-core): which texts are accepted, and what they mean", specs.core()),
        ("the clause `defined`, for `canon` and `translate`", specs.kernel()),
        ("all clauses of `run`", specs.reached(run)),
        ("all public calls of all crates", specs.reached(specs.items)),
    ]
    yield "| What is claimed by | Definitions | Lines | Words of the kit |\n|---|---:|---:|---:|\n"
    for name, nodes in parts:
        found = definitions_in(nodes)
        yield f"| {name} | {len(found):,} | {sum(len(it.formula) for it in found):,} | {len(kit_words(specs, nodes)):,} |\n"


def parted(specs: Specs, text: str) -> str:
    """A document's text with its written parts as they are today."""
    parts = {"sizes": "".join(sizes(specs)), "kit": f"`{kit_wanted()}`\n", "kit_crates": ", ".join(f"`{name}`" for name in kit_crates()) + "\n"}
    return PART.sub(lambda found: f"{found[1]}{found[2]}{parts[found[1]]}", text)


def unglossed(text: str) -> Iterator[str]:
    """Each piece of a clause that a table under it explains and that the clause has not, and each word that no piece has."""
    for _, name, clause, formula, rows in GLOSSED.findall(text):
        left, place = " ".join(formula.split()), f"docs/THEOREM.md: the clause {clause} of {name}"
        for piece in re.findall(r"^\| `([^`]*)` \|", rows, re.MULTILINE):
            if piece not in left:
                yield f"{place} has no {piece}"
            left = left.replace(piece, "")
        yield from (f"{place} has {word}, which no row of its table explains" for word in re.findall(r"[\w.]+", left) if word not in ("ensures", clause))


def lost_formulas(specs: Specs) -> Iterator[str]:
    """Each formula of docs/THEOREM.md that no crate has or no public clause reaches, and each name that links to no entry."""
    reached = {(it.crate, it.name) for it in specs.reached(specs.items)}
    for crate, name, clause in heads():
        if formula(specs, crate, name, clause) is None:
            yield f"docs/THEOREM.md: {crate} has no {name}" + (f" with a clause {clause}" if clause else "")
        elif not clause and (crate, name) not in reached:
            yield f"docs/THEOREM.md: no public clause reaches {name} of {crate}"
    text = THEOREM.read_text("utf-8")
    yield from unglossed(text)
    entries = {it.name for it in specs.kernel()}
    yield from (f"docs/THEOREM.md: docs/definitions/kernel.md has no entry {name}" for name in ENTRY.findall(text) if name not in entries)


def definitions(specs: Specs, names: Sequence[str]) -> dict[Path, str]:
    """The path and the text of each of these pages of definitions."""
    entries = Pages(specs, names)
    return {DOCS / "definitions" / f"{name}.md": entries.text(name) for name in names}


def pages(specs: Specs) -> dict[Path, str]:
    """The path and the text of each page that git keeps."""
    told = {THEOREM: parted(specs, theorem(specs, Pages(specs, KEPT))), TRUST: parted(specs, TRUST.read_text("utf-8"))}
    return {**definitions(specs, KEPT), **told}
