"""`python3 -m tdl csv`, `jsonl`: columns of a CSV file, or members of JSON lines, translated. `links`: a linkset of a table. `inspect`: the page
that shows what a code says. `epcis`: an EPCIS document, each identifier in one form."""
from __future__ import annotations

import sys

from . import interrupts

if __name__ == "__main__":
    # (first of all, since imports take time)
    interrupts.end_by_signals()

import argparse  # noqa: E402
import os  # noqa: E402
from importlib import import_module  # noqa: E402
from types import ModuleType  # noqa: E402
from typing import List, Optional  # noqa: E402

from .errors import FilesRejected  # noqa: E402
from .files import keep_standard_streams  # noqa: E402
from .kinds import shown  # noqa: E402

# each command: the module with its arguments and its run, and what it is for
COMMANDS = {
    "csv": ("columns.command", "translate columns of a CSV file: each record gets columns with the answers and one with the reason"),
    "jsonl": ("jsonl", "translate members of JSON lines: each line gets members with the answers or the reason, before the next has come"),
    "links": ("links.command", "make a linkset of a table of links, or a table of a linkset"),
    "inspect": ("inspector.command", "serve a page on 127.0.0.1 that shows what a code says"),
    "epcis": ("events.command", "translate the identifiers of an EPCIS document, JSON-LD or XML, to Digital Links or to EPC URIs"),
}
# the command that takes no list of company prefix lengths, and the one that writes no file
WITHOUT_PREFIXES, WITHOUT_FILES = "links", "inspect"


def module_of(command: str) -> ModuleType:
    """Returns the module of a command, which only that command imports."""
    return import_module(f"{__package__}.{COMMANDS[command][0]}")


def arguments(words: Optional[List[str]]) -> argparse.Namespace:
    """Returns what is asked for."""
    parser = argparse.ArgumentParser(prog="python3 -m tdl", description="GS1 identities, translated by the program tdl")
    commands = parser.add_subparsers(dest="command", required=True)
    files = argparse.ArgumentParser(add_help=False)
    files.add_argument("--prefixes", metavar="FILE", help="a list of company prefix lengths")
    written = argparse.ArgumentParser(add_help=False)
    told = "do not wait until the written files are on the disk: a loss of power may lose them"
    written.add_argument("--no-sync", dest="is_synced", action="store_false", help=told)
    asked = (sys.argv[1:] if words is None else words)[:1]
    for name, (_, purpose) in COMMANDS.items():
        parents = [files] * (name != WITHOUT_PREFIXES) + [written] * (name != WITHOUT_FILES)
        one = commands.add_parser(name, parents=parents, help=purpose, description=f"{purpose[0].upper()}{purpose[1:]}.")
        if asked == [name]:
            module_of(name).add(one)
    return parser.parse_args(words)


def main(words: Optional[List[str]] = None) -> int:
    """Runs a command and returns its status, which is the program's if a file or the program is wrong."""
    keep_standard_streams()
    asked = arguments(words)
    try:
        return int(module_of(asked.command).run(asked))
    except FilesRejected as error:
        return _failed(asked, f"the file of --{error.which} is rejected: {error.reason}", 3)
    except ValueError as error:
        return _failed(asked, str(error), 2)
    except BrokenPipeError:
        os.dup2(os.open(os.devnull, os.O_WRONLY), 1)
        return 5
    except (RuntimeError, OSError, MemoryError) as error:
        return _failed(asked, str(error), 4)
    except KeyboardInterrupt:
        return _failed(asked, "interrupted", 130)


def _failed(asked: argparse.Namespace, sentence: str, status: int) -> int:
    # (a name of a file or of a column may have control characters; a list of faults has lines)
    interrupts.tell(f"tdl {asked.command}: " + "\n".join(map(shown, sentence.split("\n"))))
    return status


if __name__ == "__main__":
    sys.exit(main())
