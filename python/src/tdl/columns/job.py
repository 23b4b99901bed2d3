"""What is asked for, and what becomes of it."""
from __future__ import annotations

from dataclasses import dataclass, field
from typing import Any, Dict, NamedTuple, Optional, Tuple

from ..options import Form, Target


@dataclass(frozen=True)
class Job:
    """What is asked for. `options` are those of `Translator`; a column is a name, or a number from 1.

    Texts of the form `source` are in `column`, or `elements` has the code of each element with its column; then `source` is `link`. `split`
    are codes of elements whose values are wanted, `name` is that of the new columns instead of the first column's, and `is_synced` says
    whether the written files are on the disk before the end. `fnc1` are
    spellings of FNC1, and `is_base64` says whether tag bits are in base64. `sheet`
    is that of a workbook, else its first.
    """

    source: Form
    column: Optional[str] = None
    elements: Tuple[Tuple[str, str], ...] = ()
    targets: Tuple[Target, ...] = ("canon",)
    split: Tuple[str, ...] = ()
    name: Optional[str] = None
    delimiter: str = ","
    has_header: bool = True
    processes: int = 1
    is_synced: bool = True
    is_repaired: bool = False
    fnc1: Tuple[str, ...] = ()
    is_base64: bool = False
    sheet: Optional[str] = None
    options: Dict[str, Any] = field(default_factory=dict)


class Total(NamedTuple):
    """The number of records, and that of the rejected ones."""

    records: int
    rejected: int
