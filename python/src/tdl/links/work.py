"""The work of `python3 -m tdl links`: what is read, checked, written and told."""
from __future__ import annotations

import argparse
import sys
from typing import Dict, List, Sequence

from ..errors import FilesRejected, ProgramError
from ..files import is_same, writing
from ..tables import check
from .back import table_of
from .build import Built, Source, build, contexts_of
from .columns import KNOWN
from .diff import HEAD, differences, store_of, summary
from .doubtful import lines_of
from .faults import Fault
from .heaviest import FORMS, heaviest
from .linkset import MOST_BYTES, MOST_LINKS, Context, Options, check_part, parts_of, text_of
from .merge import merge
from .source import links_of
from .table import csv_of, is_workbook
from .workbook import workbook_of


def make_linkset(asked: argparse.Namespace) -> int:
    """Writes the linkset of a table that has nothing wrong, and returns the status."""
    options = _options(asked)
    built = build(_source(asked.table, asked), options)
    if not built.rows and not built.faults and asked.empty == "no":
        built.faults.append(Fault(1, 0, "href", "empty", "the table has no rows; --empty yes writes a linkset without links"))
    if built.faults or (asked.strict and built.doubts):
        return _reject(built)
    _write(asked, built.contexts, options)
    for line in lines_of(built.doubts):
        _tell(line)
    _tell_written(asked, built.contexts, f"{_count(built.rows, 'row')}, {_count(len(built.contexts), 'anchor')}, 0 rejected")
    return 0


def make_table(asked: argparse.Namespace) -> int:
    """Writes the table of a linkset, and returns the status."""
    rows = table_of(asked.back, _options(asked))
    with writing(asked.output, is_synced=asked.is_synced) as (stream,):
        stream.write(workbook_of(rows) if is_workbook(asked.output) else csv_of(rows).encode("utf-8"))
    _tell(_count(len(rows) - 1, "row"))
    return 0


def merge_files(asked: argparse.Namespace) -> int:
    """Writes the linkset of the links of several files, and returns the status."""
    options, files = _options(asked), asked.merge
    preferred = next((number for number, file in enumerate(files) if asked.prefer is not None and is_same(file, asked.prefer)), None)
    if asked.prefer is not None and preferred is None:
        raise ValueError("--prefer names one of the files of --merge")
    merged = merge(files, [links_of(_source(file, asked), "merge", options) for file in files], preferred)
    if merged.undecided:
        print(*merged.undecided, sep="\n", file=sys.stderr)
        _tell(f"nothing is written: {_count(len(merged.undecided), 'default link')} rejected")
        return 1
    contexts = contexts_of(merged.links)
    _write(asked, contexts, options)
    for line in merged.decided:
        _tell(f"warning: {line}")
    _tell_written(asked, contexts, f"{_count(len(merged.links), 'link')}, {_count(len(contexts), 'anchor')}, {len(merged.decided):,} left out")
    return 0


def compare(asked: argparse.Namespace) -> int:
    """Writes what differs between two files, and returns the status: 1 if anything does."""
    options = _options(asked)
    old, new = (store_of(links_of(_source(file, asked), "diff", options)) for file in asked.diff)
    found = list(differences(old, new))
    text = csv_of([HEAD, *found]) if asked.csv else "".join(f"{difference}\n" for difference in found)
    with writing(asked.output, is_synced=asked.is_synced) as (stream,):
        stream.write(text.encode("utf-8"))
    _tell(summary(found))
    return 1 if found else 0


def ask_heaviest(asked: argparse.Namespace) -> int:
    """Writes the heads of the requests with the largest replies, and returns the status."""
    found = heaviest(links_of(_source(asked.heaviest, asked), "heaviest", _options(asked)))
    with writing(asked.output, is_synced=asked.is_synced) as (stream,):
        stream.write("".join(reply.head() for reply in found).encode("ascii"))
    for reply in found:
        _tell(f"{reply.anchor}: some {reply.size:,} bytes {FORMS[reply.form]}")
    return 0


def _options(asked: argparse.Namespace) -> Options:
    """Returns the options of the program. Raises `FilesRejected` if the table document is rejected."""
    check(asked.tables)
    return Options(asked.tables, asked.voc, asked.templates == "yes")


def _source(path: str, asked: argparse.Namespace) -> Source:
    """Returns a table, with what --sheet and --column say of it."""
    naming: Dict[str, str] = {}
    for name, spelled in asked.column:
        naming[spelled.strip().lower()] = KNOWN.get(name.lower(), name)
    return Source(path, asked.sheet, naming)


def _write(asked: argparse.Namespace, contexts: List[Context], options: Options) -> None:
    """Writes a linkset that the program accepts, whole or in parts."""
    for part in parts_of(contexts):
        try:
            check_part(part, options)
        except FilesRejected as error:
            raise ProgramError(f"`tdl check` rejects the linkset: {error}") from error
    with writing(asked.output, is_synced=asked.is_synced) as (stream,):
        stream.write(text_of(contexts).encode("utf-8"))


def _tell_written(asked: argparse.Namespace, contexts: Sequence[Context], counts: str) -> None:
    """Tells what was written, and how it is served if one process cannot."""
    _tell(counts)
    if sum(1 for _ in parts_of(contexts)) > 1:
        name = "FILE" if asked.output == "-" else asked.output
        _tell(f"One process serves {MOST_LINKS:,} links in {MOST_BYTES:,} bytes. Split them: tdl-shard --shards auto --out DIR {name}")


def _reject(built: Built) -> int:
    """Tells what is wrong with a table, or doubtful in it, and returns the status."""
    wrong = built.faults or built.doubts
    print(*wrong, sep="\n", file=sys.stderr)
    _tell(f"nothing is written: {_count(built.rows, 'row')}, {len({fault.row for fault in wrong}):,} rejected")
    return 1


def _count(number: int, noun: str) -> str:
    return f"{number:,} {noun}{'' if number == 1 else 's'}"


def _tell(sentence: str) -> None:
    print(sentence, file=sys.stderr)
