"""`python3 -m tdl links`: a table of links made a linkset, a linkset made a table, and linksets merged and compared."""
from __future__ import annotations

import argparse
import re
from typing import Dict, Tuple

from ..files import judge_names

EPILOG = """\
Columns, in any order: `anchor` (a link, its path, or an element string), or one for each AI, `01`, `10`, `21` ..; `href`; `linkType`, where
an empty cell means gs1:defaultLink; `hreflang`, languages separated by spaces; `title`; `type`; `context`; `title*`. Other names begin with #.
The status is 1 if a row is wrong: all wrong rows are named, and nothing is written; or if the files of --diff differ."""
VOCABULARY = re.compile("[!-~]{1,256}")


def vocabulary(word: str) -> str:
    """Returns the vocabulary of link types."""
    if not VOCABULARY.fullmatch(word):
        raise argparse.ArgumentTypeError("a vocabulary is 1 to 256 visible ASCII characters")
    return word


def column(word: str) -> Tuple[str, str]:
    """Returns the name of a column here, and its name in the table."""
    from .columns import CODE, KNOWN, LEFT_OUT

    name, sign, spelled = word.partition("=")
    if not (name.lower() in KNOWN or CODE.fullmatch(name) or name == LEFT_OUT) or not sign or not spelled.strip():
        raise argparse.ArgumentTypeError("a column is NAME=HEADER, NAME an AI, a name of the columns below, or # for one that is left out")
    return name, spelled


def add(parser: argparse.ArgumentParser) -> None:
    """Adds the arguments of `links`."""
    parser.epilog = " ".join(EPILOG.split())
    source = parser.add_mutually_exclusive_group(required=True)
    source.add_argument("table", nargs="?", metavar="TABLE", help="the table: a workbook if its name ends in .xlsx, else CSV in UTF-8")
    source.add_argument("--back", metavar="LINKSET", help="make a table of this linkset; a workbook if FILE ends in .xlsx")
    source.add_argument("--merge", nargs="+", metavar="FILE", help="make one linkset of linksets and tables")
    source.add_argument("--diff", nargs=2, metavar=("OLD", "NEW"), help="tell what differs between linksets or tables; the status is 1 if anything does")
    source.add_argument("--heaviest", metavar="FILE", help="write the requests with the largest replies of a linkset, for tdl resolve")
    parser.add_argument("-o", "--output", default="-", metavar="FILE", help="the file to write; else the standard output")
    parser.add_argument("--sheet", metavar="NAME", help="the sheet of the workbook; else the first")
    parser.add_argument("--column", type=column, action="append", default=[], metavar="NAME=HEADER", help="the table calls column NAME so; again for more")
    parser.add_argument("--strict", action="store_true", help="reject what is only doubtful, too")
    parser.add_argument("--empty", choices=("yes", "no"), default="no", help="whether a table without rows is accepted")
    parser.add_argument("--prefer", metavar="FILE", help="with --merge: the file whose default link stays, where two files have one")
    parser.add_argument("--csv", action="store_true", help="with --diff: write CSV")
    templates = "whether target URIs are templates, such as https://shop.example/{01}"
    parser.add_argument("--templates", choices=("yes", "no"), default="no", help=templates)
    parser.add_argument("--tables", metavar="FILE", help="a table document, such as tables/gs1.json; else the built-in tables")
    parser.add_argument("--voc", type=vocabulary, metavar="PREFIX", help="what gs1: means; else https://ref.gs1.org/voc/")


# the options that only some kinds of work have
ONLY: Dict[str, Tuple[str, ...]] = {
    "sheet": ("table", "merge", "diff", "heaviest"),
    "column": ("table", "merge", "diff", "heaviest"),
    "strict": ("table",),
    "prefer": ("merge",),
    "csv": ("diff",),
}


def run(asked: argparse.Namespace) -> int:
    """Does the work that is asked for, and returns the status."""
    # (only here, since other commands need nothing of it)
    from . import work

    kind = next(name for name in ("back", "merge", "diff", "heaviest", "table") if getattr(asked, name) is not None)
    for name, kinds in ONLY.items():
        if getattr(asked, name) not in (None, False, []) and kind not in kinds:
            raise ValueError(f"--{name} is not an option of {'a table' if kind == 'table' else f'--{kind}'}")
    read = getattr(asked, kind)
    for path in read if isinstance(read, list) else [read]:
        judge_names(path, {"output": asked.output}, is_in_place=False)
    works = {"table": work.make_linkset, "back": work.make_table, "merge": work.merge_files, "diff": work.compare, "heaviest": work.ask_heaviest}
    return works[kind](asked)
