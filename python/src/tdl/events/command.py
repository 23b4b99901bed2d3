"""The command `epcis` and its arguments."""
from __future__ import annotations

import argparse
import sys

from ..files import judge_names
from ..options import processes
from ..tables import EPCIS
from .document import translate
from .identities import How
from .job import Counts, Job

OF_LINKS, OF_URIS = ("stem",), ("prefixes", "gcp")


def add(parser: argparse.ArgumentParser) -> None:
    """Adds the arguments of `epcis`."""
    parser.epilog = (
        "Extensions, ILMD, event hashes and all other bytes stay. The status is 1 if an identifier was rejected, and 2 if the document is not "
        "well-formed. Written files appear when all is done."
    )
    parser.add_argument("file", nargs="?", default="-", help="the document, JSON-LD or XML; else, or for -, the standard input")
    parser.add_argument("--to", dest="target", required=True, choices=("link", "uri"), help="the form: Digital Links, or EPC URIs")
    parser.add_argument("-o", "--output", metavar="FILE", help="the file to write; else the standard output, or none with --list")
    parser.add_argument("--list", dest="listed", metavar="FILE", help="a CSV file of the canonical link of each identifier, or its text")
    parser.add_argument("--rejected", metavar="FILE", help="a CSV file of the identifiers without a translation: event, field, text, reason")
    parser.add_argument("--gcp", type=int, metavar="N", help="with --to uri: the digits of the company prefix, 1 to 12, if no list says them")
    parser.add_argument("--stem", metavar="LINK", help="with --to link: the stem of the links; else https://id.gs1.org")
    parser.add_argument("--lines", dest="is_of_lines", action="store_true", help="the file has an event a line: each is written as soon as it has come")
    parser.add_argument("--tables", metavar="FILE", default=EPCIS, help="a table document; else tables/epcis.json")
    parser.add_argument("-j", "--jobs", type=processes, default=1, metavar="N", help="the number of processes; what is written is the same")


def job_of(asked: argparse.Namespace) -> Job:
    """Returns what is asked for. Raises `ValueError` for arguments that do not go together."""
    for name in OF_URIS if asked.target == "link" else OF_LINKS:
        if getattr(asked, name) is not None:
            raise ValueError(f"--{name} goes with --to {'uri' if asked.target == 'link' else 'link'}")
    output = asked.output or (None if asked.listed else "-")
    judge_names(asked.file, {"output": output, "list": asked.listed, "rejected": asked.rejected}, is_in_place=True)
    how = How(asked.target, asked.listed is not None, asked.stem, asked.tables, asked.prefixes, asked.gcp)
    return Job(how, asked.file, output, asked.listed, asked.rejected, asked.is_of_lines, asked.jobs, asked.is_synced)


def said(counts: Counts) -> str:
    """Returns the sentence of what was done."""
    hashes = f"{_many(counts.hashes, 'event hash', 'es')} left as before\n" if counts.hashes else ""
    others = f"{counts.untranslated:,} not translated, " if counts.untranslated else ""
    return (
        f"{hashes}{_many(counts.events, 'event')}, {_many(counts.identifiers, 'identifier')}: {counts.translated:,} translated, "
        f"{counts.same:,} in this form before, {others}{counts.foreign:,} neither EPC nor Digital Link, {counts.rejected:,} rejected"
    )


def _many(count: int, noun: str, ending: str = "s") -> str:
    return f"{count:,} {noun}{ending if count != 1 else ''}"


def run(asked: argparse.Namespace) -> int:
    """Translates a document, and returns the status."""
    counts = translate(job_of(asked))
    print(said(counts), file=sys.stderr)
    return 1 if counts.rejected else 0
