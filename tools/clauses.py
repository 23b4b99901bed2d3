"""The public items of the crates, as src/lib.rt re-exports them, with the names in their clauses; and the Rust types, with their fields.

Clauses of an item are its `requires`, `ensures` and `ghost` members, up to its body; of `impl Model` only the type of the value, since view
and invariant serve proofs. The files are in the layout of `rt fmt`: an item begins at the margin, a member four blanks behind it.
"""
from __future__ import annotations

import re
from dataclasses import dataclass
from pathlib import Path
from typing import Iterator, Optional

from tools.common import there
from tools.repository import TOP, crates

# a crate, a file and a name; whether a trait is public, the trait and the type
Place = tuple[str, str, str]
Owner = tuple[bool, str, str]

IMPORT = re.compile(r"(?:pub |ghost )?use Rattle\.(\w+)\.specs\.([\w.]+?)(?:\.\{(.*)\}| as (\S+?));?")
NAMES = re.compile(r"[^\s(){}\[\];,.]+")
USE = re.compile(r"^(?:pub )?use ((?:\w+::)+)(?:\{([^}]*)\}|(\w+(?: as \w+)?));", re.MULTILINE)
BEGUN = re.compile(r"( {4})?(pub(?:\(crate\))? )?(?:extern \"C\" )?(fn|struct|enum|trait|impl|ghost)\b(.*)")
OWNER = re.compile(r"(?:<[^>]*>)? (?:(\w+)(?:<.*>)? for )?&?(?:'\w+ )?(?:mut )?(\w+)")
CLAUSE = re.compile(r" +(?:requires|ensures)\b")


def imported(line: str) -> Iterator[tuple[str, Place]]:
    """The names that a line imports from specs, each with its place: a crate, a file, and the name there; or a crate, a Rust module and a type."""
    crate, path, names, alias = there(IMPORT.fullmatch(line)).groups()
    parts = path.split(".")
    place: Optional[Place] = None
    if parts[0] == "declared":
        variants = parts[-1] == "TheVariants"
        place = (crate, "::".join(parts[1:-2 if variants else -1]), parts[-2 if variants else -1])
    for item in names.split(", ") if names else [alias]:
        name, _, local = item.partition(" as ")
        yield local or name, place or (crate, parts[0], parts[1] if len(parts) > 1 else name)


@dataclass(eq=False)
class Item:
    """An item, or a member of a trait or a type: its place, its clauses, what its file imports, its owner, and what it is."""
    crate: str
    module: str
    line: int
    name: str
    text: str
    imports: dict[str, Place]
    owner: Optional[Owner] = None
    is_open: bool = True
    is_law: bool = False

    @property
    def names(self) -> set[str]:
        """The names in its clauses."""
        return set(NAMES.findall(re.sub(r"//.*", "", self.text)))


@dataclass(eq=False)
class Type:
    """A Rust type: its place, its doc comment, its lines, and the value that contracts see in its place, if there is one."""
    crate: str
    module: str
    line: int
    name: str
    doc: str
    formula: list[str]
    source: Source
    value: str = ""

    @property
    def path(self) -> str:
        """The file that it stands in."""
        return f"crates/{self.crate}/src/{self.module.replace('::', '/')}.rt"

    @property
    def names(self) -> set[str]:
        """The names of its value, or else those that its fields name."""
        return set(NAMES.findall(self.value or re.sub(r"//.*|<'\w+>", "", "\n".join(self.formula))))


def block(lines: list[str], start: int, margin: str) -> list[str]:
    """The lines of an item from its first one up to the one that closes it: a brace at its margin, or a semicolon or brace behind it."""
    if lines[start].endswith((";", "}", "},")):
        return lines[start:start + 1]
    end = next(n for n in range(start + 1, len(lines)) if lines[n].startswith((margin + "}", margin + ")")))
    return lines[start:end + 1]


def told_of(lines: list[str], start: int, margin: str) -> tuple[str, str, bool]:
    """The signature of a function, its clauses, and whether its body is empty."""
    signature: list[str] = []
    told: list[str] = []
    end = start
    while end < len(lines) and lines[end] not in (margin + "{", margin + "{}"):
        line = lines[end]
        (told if told or CLAUSE.match(line) else signature).append(line)
        if line.endswith("};" if told else (" {", ";", "{}")):
            break
        end += 1
    return " ".join(signature), "\n".join(told), end < len(lines) and lines[end] == margin + "{}"


class Source:
    """A file of a crate: its items, its types, and what it uses of other files."""

    def __init__(self, crate: str, module: str, text: str) -> None:
        self.crate, self.module, self.lines = crate, module, text.splitlines()
        self.items: list[Item] = []
        self.types: list[Type] = []
        self.imports: dict[str, Place] = {}
        self.uses: dict[str, tuple[str, str]] = {}
        for path, many, one in USE.findall(text):
            for name in re.split(r",\s*", many.strip().rstrip(",")) if many else [one]:
                told, _, local = name.partition(" as ")
                self.uses[local or told] = (path.rstrip(":"), told)
        for line in self.lines:
            if IMPORT.fullmatch(line.strip()):
                self.imports.update(imported(line.strip()))
        owner = None
        for start, line in enumerate(self.lines):
            found = BEGUN.fullmatch(line)
            if line.startswith("}"):
                owner = None
            elif found and not found[1] and found[3] in ("trait", "impl") and line.endswith("{"):
                owner = self.owner_of(found)
            elif found and bool(found[1]) == bool(owner):
                self.take(start, found, owner)

    @staticmethod
    def owner_of(found: re.Match[str]) -> Owner:
        """What the members of a trait or an impl belong to: whether it is public, the trait and the type."""
        if found[3] == "trait":
            return found[2] == "pub ", there(re.match(r" (\w+)", found[4]))[1], ""
        trait, name = map(str, there(OWNER.match(found[4])).groups(""))
        return False, trait, name

    def take(self, start: int, found: re.Match[str], owner: Optional[Owner]) -> None:
        """Takes an item, or a member of a trait or a type."""
        margin, sort, name = found[1] or "", found[3], there(re.match(r" (\w*)", found[4]))[1]
        if sort == "fn":
            signature, text, is_empty = told_of(self.lines, start, margin)
            is_law = not owner and found[2] == "pub " and " -> " not in signature and (is_empty or self.module.endswith("laws"))
            self.items.append(Item(self.crate, self.module, start + 1, name, text, self.imports, owner, found[2] == "pub ", is_law))
        elif sort in ("struct", "enum"):
            lines = block(self.lines, start, margin)
            self.types.append(Type(self.crate, self.module, start + 1, name, self.doc(start), lines, self))
            self.items.append(Item(self.crate, self.module, start + 1, name, "\n".join(it for it in lines if it.startswith("    ghost")), self.imports))
        elif sort == "ghost" and name != "use":
            text = "\n".join(block(self.lines, start, margin))
            self.items.append(Item(self.crate, self.module, start + 1, name, text, self.imports, owner))

    def doc(self, start: int) -> str:
        """The doc comment over a line."""
        told: list[str] = []
        while start and self.lines[start - 1].startswith(("///", "#[", "//")):
            start -= 1
            told.insert(0, self.lines[start])
        return " ".join(line[3:].strip() for line in told if line.startswith("///"))


class Sources:
    """The files of all crates: their types, and which of their items are public."""

    def __init__(self, top: Path = TOP) -> None:
        self.files: dict[tuple[str, str], Source] = {}
        self.exports: dict[str, dict[str, str]] = {}
        self.types: dict[Place, Type] = {}
        for crate in crates(top):
            for path in sorted((top / "crates" / crate / "src").rglob("*.rt")):
                text, module = path.read_text("utf-8"), "::".join(path.relative_to(top / "crates" / crate / "src").with_suffix("").parts)
                if module == "lib":
                    self.exports[crate] = dict(exported(text))
                self.files[crate, module] = Source(crate, module, text)
        for source in self.files.values():
            self.types.update({(it.crate, it.module, it.name): it for it in source.types})
        for source in self.files.values():
            for item in source.items:
                if item.name == "Value" and item.owner and item.owner[1] == "Model":
                    made = self.type_of(source, item.owner[2])
                    if made:
                        made.value = item.text.split("{", 1)[1]

    def type_of(self, source: Source, name: str) -> Optional[Type]:
        """The type that a file names so."""
        path, told = source.uses.get(name, (f"crate::{source.module}", name))
        crate, _, module = path.partition("::")
        crate = source.crate if crate == "crate" else crate
        place = (crate, module or self.exports.get(crate, {}).get(told, ""), told)
        return self.types.get(place)

    def is_public(self, item: Item) -> bool:
        """Whether callers of its crate see an item."""
        exports = self.exports.get(item.crate, {})
        if not item.owner:
            return item.is_open and item.module in ("lib", exports.get(item.name))
        public_trait, trait, name = item.owner
        if not name:
            return public_trait and exports.get(trait) == item.module
        if name not in exports:
            return False
        return item.is_open if not trait else trait != "Model" or item.name == "Value"

    def items(self) -> list[Item]:
        """The items of all files."""
        return [item for source in self.files.values() for item in source.items]


def exported(text: str) -> Iterator[tuple[str, str]]:
    """The names that the root file of a crate exports of its own modules, each with its module."""
    for path, many, one in USE.findall("\n".join(line for line in text.splitlines() if line.startswith(("pub use", " ", "}")))):
        for name in re.split(r",\s*", many.strip().rstrip(",")) if many else [one]:
            yield name, path.removeprefix("crate::").rstrip(":")
