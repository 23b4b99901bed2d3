"""The links of a file, which is a linkset or a table."""
from __future__ import annotations

from typing import List

from .back import read_linkset, targets_of
from .build import Source, build
from .link import Link, link_of
from .linkset import Options
from .table import NotATable, is_workbook
from .targets import VOCABULARY


def is_linkset(path: str) -> bool:
    """Returns whether a file is a linkset in JSON: it is not a workbook by its name, and begins with a brace."""
    if is_workbook(path):
        return False
    with open(path, "rb") as stream:
        return stream.read(4096).lstrip(b" \t\r\n").startswith(b"{")


def links_of(source: Source, name: str, options: Options) -> List[Link]:
    """Returns the links of a file, in its order. `name` is that of the option that gives it.

    Raises `FilesRejected` if the program rejects a linkset, and `NotATable` if a table has wrong rows, with a line for each of them.
    """
    if is_linkset(source.path):
        contexts, anchors = read_linkset(source.path, name, options)
        # (attributes of an anchor are no part of what it names)
        return [
            link_of(anchor.partition("?")[0], relation, target)
            for context, anchor in zip(contexts, anchors)
            for _, relation, target in targets_of(context, options.voc or VOCABULARY)
        ]
    built = build(source, options)
    if built.faults:
        raise NotATable("\n".join([f"{source.path} has wrong rows:", *map(str, built.faults)]))
    return built.links
