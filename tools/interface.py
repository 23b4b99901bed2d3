"""interface [--write]: the binary interface of libtdl, as packaging/libtdl/tdl.h declares it, and as packaging/libtdl/tdl.abi keeps it.

The library is stripped, so `abidw` (Debian's abigail-tools) reads the header's types from a library of empty functions that has its declarations.
What differs from the kept description, other than functions that were added, is printed and gives the status 1. With `--write` the description
is written anew if nothing is. A change that is meant, as an option at the end of tdl_choice, needs the file removed first: the reviewer sees it.
"""
import os
import re
import subprocess
import sys
from pathlib import Path

from tools import library
from tools.common import Word, parser, ran, temporary

DESCRIPTION = library.SOURCES / "tdl.abi"


def stub() -> str:
    """A source with the header's functions, which do nothing."""
    text = re.sub(r"/\*.*?\*/", "", library.HEADER.read_text("ascii"), flags=re.DOTALL)
    functions = re.findall(r"^((\w+) tdl_\w+\([^;]*\));", text, re.MULTILINE)
    bodies = "".join(f"{head} {{{'' if kind == 'void' else ' return 0;'} }}\n" for head, kind in functions)
    return f'#include "tdl.h"\n{bodies}'


def described(folder: Path) -> str:
    """The description of the header's interface, by `abidw`. Raises `ValueError` with what a tool says if it fails."""
    source, made = folder / "stub.c", folder / library.SONAME
    source.write_text(stub(), "ascii")
    linked = f"-Wl,-soname,{library.SONAME},--version-script,{library.MAP}"
    words: list[Word] = ["cc", "-g", "-shared", "-fPIC", "-w", f"-ffile-prefix-map={folder}=.", linked]
    told = ran(*words, "-I", library.HEADER.parent, "-o", made, source)
    if told:
        raise ValueError(told)
    return ran("abidw", "--no-corpus-path", "--no-comp-dir-path", "--no-show-locs", "--type-id-style", "hash", made)


def broken(described_now: str, kept: Path = DESCRIPTION) -> str:
    """What differs from the kept description, other than functions that were added, or nothing."""
    with temporary() as room:
        now = room / "now.abi"
        now.write_text(described_now, "utf-8")
        done = subprocess.run(["abidiff", "--no-added-syms", kept, now], check=False, capture_output=True, text=True)
        return f"{done.stdout}{done.stderr}" if done.returncode else ""


def environment(folder: Path) -> dict[str, str]:
    """The environment in which compilers and programs find the library in a folder, by a tdl.pc as the package has it."""
    text = (library.SOURCES / "tdl.pc").read_text("ascii").replace("@VERSION@", "0")
    text = re.sub(r"^(includedir|libdir)=.*$", rf"\1={folder}", text, flags=re.MULTILINE)
    (folder / "tdl.pc").write_text(text, "ascii")
    return {**os.environ, "PKG_CONFIG_PATH": str(folder), "LD_LIBRARY_PATH": str(folder), "GO111MODULE": "off"}


def flags(folder: Path, is_static: bool) -> list[str]:
    """The flags that pkg-config gives for the library in a folder."""
    words = ["pkg-config", *(["--static"] if is_static else []), "--cflags", "--libs", "tdl"]
    return ran(*words, env=environment(folder)).split()


def main() -> int:
    """Compares or writes the description, and returns the status."""
    parsed = parser(__doc__)
    parsed.add_argument("--write", action="store_true", help="write the description anew")
    is_written = parsed.parse_args().write
    with temporary() as room:
        now = described(room)
    wrong = broken(now) if DESCRIPTION.exists() else ""
    if is_written and not wrong:
        DESCRIPTION.write_text(now, "utf-8")
    print(wrong, end="", file=sys.stderr)
    return 1 if wrong else 0


if __name__ == "__main__":
    sys.exit(main())
