"""`python3 -m tdl csv`: its arguments, and its run."""
from __future__ import annotations

import argparse
from typing import List, Optional, Tuple

from ..cells import AS_THEY_STAND
from ..files import judge_names
from ..interrupts import tell
from ..options import BASE64, CELL_FORMS, CELL_TARGETS, Target, processes
from .elements import judged
from .job import Job, Total
from .translation import translate_csv

OPTIONS = ("tables", "prefixes", "filter", "gcp", "stem", "keys_only")


def delimiter(word: str) -> str:
    """Returns the character between fields."""
    found = "\t" if word in ("\\t", "tab") else word
    if len(found) != 1 or found in '"\r\n ':
        raise argparse.ArgumentTypeError("a delimiter is one character, or \\t, and not a quote, a space or a line end")
    return found


def element(word: str) -> Tuple[str, str]:
    """Returns the code of an element, and its column."""
    code, sign, column = word.partition("=")
    if not sign or not column:
        raise argparse.ArgumentTypeError("an element is CODE=COLUMN, such as 01=gtin")
    return code, column


def spelling(word: str) -> str:
    """Returns a spelling of FNC1."""
    if not word or "\n" in word or word.isalnum() and word != AS_THEY_STAND:
        raise argparse.ArgumentTypeError("a spelling of FNC1 has a sign that is not a letter or a digit, or is none")
    return word


def codes(word: str) -> List[str]:
    """Returns the codes of elements."""
    return word.split(",")


def add_translation(parser: argparse.ArgumentParser) -> None:
    """Adds the arguments that say how texts are translated."""
    parser.add_argument("--from", dest="source", choices=CELL_FORMS, help="the form of the texts that -c names; any: that of each cell")
    told = "a form of the answers, also several times; else the canonical link"
    parser.add_argument("--to", dest="targets", action="append", default=[], choices=CELL_TARGETS, help=told)
    told = "repair cells that can be repaired in one way: lost zeros, .0, =\"..\", a leading ', blanks and hyphens within"
    parser.add_argument("--repair", dest="is_repaired", action="store_true", help=told)
    told = "what means FNC1 in texts of scanners, such as '<GS>', also several times; none: <GS>, |, ^] and {GS} stand for themselves"
    parser.add_argument("--fnc1", action="append", default=[], type=spelling, metavar="TEXT", help=told)
    parser.add_argument("--split", type=codes, default=[], metavar="CODE,..", help="the elements whose values are wanted, such as 01,21")
    parser.add_argument("-n", "--name", help="the name that the new ones begin with; else that of the first that is read")
    parser.add_argument("-o", "--output", default="-", metavar="FILE", help="the file to write; else the standard output")
    parser.add_argument("--tables", metavar="FILE", help="a table document, such as tables/gs1.json; else the built-in tables")
    parser.add_argument("--filter", type=int, metavar="N", help="a filter value where the text has none, 0 to 7")
    parser.add_argument("--gcp", type=int, metavar="N", help="the digits of the company prefix where the text does not tell them, 1 to 12")
    told = "the name of the encoding of a tag; base64: tag bits are read from base64"
    parser.add_argument("--encoding", dest="encodings", action="append", default=[], metavar="NAME", help=told)
    parser.add_argument("--stem", metavar="LINK", help="the stem of a link")
    parser.add_argument("--keys-only", action="store_true", help="keep only the key and its serial")
    parser.add_argument("-j", "--jobs", type=processes, default=1, metavar="N", help="the number of processes; the output is the same for each")


def add(parser: argparse.ArgumentParser) -> None:
    """Adds the arguments of `csv`."""
    parser.epilog = "The status is 1 if a record was rejected. Written files appear when all is done."
    parser.add_argument("file", nargs="?", default="-", help="the CSV file in UTF-8, or an XLSX workbook; else, or for -, the standard input")
    which = parser.add_mutually_exclusive_group(required=True)
    which.add_argument("-c", "--column", help="the name of the column that has texts, or its number from 1")
    told = "a column that has the values of an element, such as 01=gtin; once for each element"
    which.add_argument("-e", "--element", dest="elements", action="append", default=[], type=element, metavar="CODE=COLUMN", help=told)
    add_translation(parser)
    parser.add_argument("--rejected", metavar="FILE", help="a second file with the rejected records and their numbers")
    parser.add_argument("-d", "--delimiter", type=delimiter, default=",", metavar="C", help="the character between fields; else a comma")
    parser.add_argument("--sheet", metavar="NAME", help="the sheet of a workbook; else its first")
    parser.add_argument("-H", "--no-header-row", dest="has_header", action="store_false", help="the file has no header: columns are numbers")


def _encoding(asked: argparse.Namespace) -> Tuple[Optional[str], bool]:
    """Returns the encoding of tags that are written, and whether tag bits are read from base64."""
    is_base64 = BASE64 in asked.encodings
    if is_base64 and asked.source != "hex":
        raise ValueError("--encoding base64 is for tag bits: --from hex")
    named = [name for name in asked.encodings if name != BASE64]
    return named[-1] if named else None, is_base64


def job_of(asked: argparse.Namespace) -> Job:
    """Returns what is asked for. Raises `ValueError` for arguments that do not go together."""
    if asked.elements and asked.source:
        raise ValueError("--from is the form of the texts that -c names: elements have none")
    if not asked.elements and not asked.source:
        raise ValueError("-c needs --from, the form of its texts")
    judged([code for code, _ in asked.elements])
    targets: Tuple[Target, ...] = tuple(asked.targets) or (() if asked.split else ("canon",))
    encoding, is_base64 = _encoding(asked)
    if asked.fnc1 and asked.source not in ("raw", "any"):
        raise ValueError("--fnc1 is for texts of scanners: --from raw or any")
    options = {"encoding": encoding, **{name: getattr(asked, name) for name in OPTIONS}}
    return Job(
        asked.source or "link", asked.column, tuple(asked.elements), targets, judged(asked.split), asked.name, options=options,
        delimiter=getattr(asked, "delimiter", ","), has_header=getattr(asked, "has_header", True), processes=asked.jobs, is_synced=asked.is_synced,
        is_repaired=asked.is_repaired, fnc1=tuple(asked.fnc1), is_base64=is_base64,
        sheet=getattr(asked, "sheet", None),
    )


def told(total: Total, noun: str) -> int:
    """Prints the total, and returns the status."""
    tell(f"{total.records:,} {noun}{'s' * (total.records != 1)}, {total.records - total.rejected:,} translated, {total.rejected:,} rejected")
    return 1 if total.rejected else 0


def run(asked: argparse.Namespace) -> int:
    """Translates a file, and returns the status."""
    judge_names(asked.file, {"output": asked.output, "rejected": asked.rejected}, is_in_place=True)
    return told(translate_csv(job_of(asked), asked.file, asked.output, asked.rejected), "record")
