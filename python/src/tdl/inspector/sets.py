"""The table documents that the page offers."""
from __future__ import annotations

from functools import lru_cache
from pathlib import Path
from typing import Dict, List, Optional

from ..tables import BUILT_IN, SETS
from .rows import Rows

FIRST, OWN, BUILT_IN_NAME = "gs1", "own", "built-in"
PURPOSES = {
    "gs1": "labels of several branches",
    "measures": "items sold by measure",
    "food": "food, prices and weights",
    "healthcare": "health care",
    "logistics": "logistic units and addresses",
    BUILT_IN_NAME: "the tables of the program itself",
}


@lru_cache(maxsize=1)
def sets_by_code() -> Dict[str, List[str]]:
    """Returns the names of the sets that have each application identifier."""
    found: Dict[str, List[str]] = {}
    for name, path in SETS.items():
        for code in Rows(path).ais:
            found.setdefault(code, []).append(name)
    return found


class Sets:
    """The table documents by their names: the user's own if there is one, the sets of the project, and the built-in tables."""

    def __init__(self, own: Optional[str] = None) -> None:
        self._paths = {**({OWN: own} if own else {}), **SETS, BUILT_IN_NAME: BUILT_IN}
        self._rows: Dict[str, Rows] = {}
        self.first = OWN if own else FIRST

    def path(self, name: str) -> str:
        """Returns the path of a document. Raises `ValueError` if none has this name; an empty name is that of the first."""
        path = self._paths.get(name or self.first)
        if path is None:
            raise ValueError(f"There is no set of tables named {name}.")
        return path

    def rows(self, name: str) -> Rows:
        """Returns the rows of a document."""
        path = self.path(name)
        return self._rows.setdefault(path, self._rows.get(path) or Rows(path))

    def offered(self) -> List[Dict[str, str]]:
        """Returns the name and the title of each document, the first choice first."""
        titles = {name: f"{name}: {purpose}" for name, purpose in PURPOSES.items()}
        if OWN in self._paths:
            titles[OWN] = f"your file {Path(self._paths[OWN]).name}"
        return [{"name": name, "title": titles[name]} for name in self._paths]
