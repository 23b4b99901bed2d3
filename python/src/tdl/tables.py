"""Files of tables, checked, and those that come with the module."""
from __future__ import annotations

import subprocess
from dataclasses import dataclass, fields
from pathlib import Path
from typing import Optional

from . import options
from .errors import ProgramError
from .options import File
from .program import error_of, find_program


def _shipped(name: str) -> str:
    """Returns the path of a table document of the project: the module's own, or that of the checkout that the module is part of."""
    folder = Path(__file__).resolve().parent
    own = folder / "documents" / name
    return str(own if own.is_file() else folder.parents[2] / "tables" / name)


BUILT_IN, GS1 = _shipped("builtin.json"), _shipped("gs1.json")
# the built-in rows, and the kinds that only EPCIS events name
EPCIS = _shipped("epcis.json")
# the sets of tables/ (docs/TABLES.md, 'Which set to take')
SETS = {name: _shipped(f"{name}.json") for name in ("gs1", "measures", "food", "healthcare", "logistics")}


@dataclass(frozen=True)
class Counts:
    """How many rows loaded files have: application identifiers, kinds, options of each level, company prefixes, links."""

    ais: int
    kinds: int
    binary: int
    tag: int
    pure: int
    prefixes: int
    links: int


def check(
    tables: Optional[File] = None,
    *,
    prefixes: Optional[File] = None,
    links: Optional[File] = None,
    voc: Optional[str] = None,
    templates: bool = False,
    program: Optional[str] = None,
) -> Counts:
    """Returns the counts of what the program loads: `tables` is a table document, or None for the built-in tables.

    `voc` is the vocabulary of the links, and `templates` says whether they are templates. Raises `FilesRejected` with the first reason if
    a file is rejected.
    """
    path = find_program(program)
    words = ["check", *options.words(tables=tables, prefixes=prefixes, links=links), *(["--voc", voc] if voc is not None else [])]
    words += ["--templates", "yes"] if templates else []
    try:
        ran = subprocess.run([path, *words], stdin=subprocess.DEVNULL, stdout=subprocess.PIPE, check=False)
    except OSError as error:
        raise ProgramError(f"{path} cannot be run: {error.strerror}") from error
    printed = ran.stdout.decode("latin-1").rstrip("\n")
    told = printed.split(" ")
    names = [field.name for field in fields(Counts)]
    if ran.returncode or told[:1] != ["ok"] or told[1::2] != names or not all(word.isdigit() for word in told[2::2]):
        raise error_of(ran.returncode, printed, path)
    return Counts(*map(int, told[2::2]))
