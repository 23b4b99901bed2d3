"""The symbols of a text: a GS1 DataMatrix of its element string, and a QR Code of its link."""
from __future__ import annotations

from typing import Any, Dict, List, Optional

from . import datamatrix, qr

# the light modules around a symbol, that its standard asks for
DATA_MATRIX_ZONE, QR_ZONE = 1, 4


def path_of(modules: List[List[bool]], zone: int) -> str:
    """Returns the dark modules as the path of an SVG, a rectangle for each run of them in a row."""
    found = []
    for row, line in enumerate(modules):
        column = 0
        while column < len(line):
            end = column
            while end < len(line) and line[end]:
                end += 1
            if end > column:
                found.append(f"M{column + zone} {row + zone}h{end - column}v1h-{end - column}z")
            column = max(end, column + 1)
    return "".join(found)


def _shown(name: str, file: str, says: str, modules: Optional[List[List[bool]]], zone: int) -> Dict[str, Any]:
    """Returns what the page needs to draw a symbol, or says that its text is too long."""
    shown: Dict[str, Any] = {"name": name, "file": file, "says": says}
    if modules is None:
        return {**shown, "sentence": f"This text is too long for a {name}."}
    return {**shown, "size": len(modules) + 2 * zone, "modules": len(modules), "path": path_of(modules, zone)}


def symbols_of(raw: Optional[str], label: Optional[str], link: Optional[str]) -> List[Dict[str, Any]]:
    """Returns the symbols of an element string, which `label` shows in brackets, and of a link; each may be missing."""
    found = []
    if raw:
        found.append(_shown("GS1 DataMatrix", "gs1-datamatrix.svg", label or raw, datamatrix.symbol(raw.encode("latin-1")), DATA_MATRIX_ZONE))
    if link:
        found.append(_shown("QR Code", "qr-code.svg", link, qr.symbol(link.encode("ascii")), QR_ZONE))
    return found
