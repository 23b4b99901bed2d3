"""The command `inspect`, its arguments, and its run."""
from __future__ import annotations

import argparse
import os
import sys
import webbrowser

from ..tables import SETS, check
from . import address_of, is_served, serve

PORT = 8090


def port(word: str) -> int:
    """Returns the number of a port."""
    if not word.isdigit() or int(word) > 65_535:
        raise argparse.ArgumentTypeError("a port is a number from 0 to 65535")
    return int(word)


def add(parser: argparse.ArgumentParser) -> None:
    """Adds the arguments of `inspect`."""
    sets = f"{', '.join(list(SETS)[1:-1])} and {list(SETS)[-1]}"
    parser.add_argument("--tables", metavar="FILE", help=f"a table document of your own; else tables/gs1.json, and the page offers {sets} too")
    parser.add_argument("--port", type=port, default=PORT, metavar="N", help=f"the port, {PORT} if none is given; 0 is any that is free")
    opens = "open the page in a browser, also one that is served at the port already; without either option, only if a terminal and a desktop are there"
    parser.add_argument("--open", action=argparse.BooleanOptionalAction, help=opens)


def run(asked: argparse.Namespace) -> int:
    """Serves the page, or opens one that is served at the port already, and returns the status."""
    if asked.open and asked.port and is_served(asked.port):
        webbrowser.open(address_of(asked.port))
        return 0
    check(asked.tables, prefixes=asked.prefixes)
    has_desktop = sys.stdout.isatty() and any(os.environ.get(name) for name in ("DISPLAY", "WAYLAND_DISPLAY"))
    serve(asked.port, tables=asked.tables, prefixes=asked.prefixes, is_opened=has_desktop if asked.open is None else asked.open)
    return 0
