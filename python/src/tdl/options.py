"""The options of the program, judged before a run of it is started."""
from __future__ import annotations

import argparse
import operator
import os
import re
from typing import Dict, List, Literal, Optional, Union

Form = Literal["hex", "tag", "pure", "raw", "bracketed", "link", "any", "gtin", "sscc"]
Target = Literal["hex", "tag", "pure", "raw", "bracketed", "link", "canon", "gtin-8", "gtin-12", "gtin-13", "gtin-14", "sscc", "class"]
File = Union[str, "os.PathLike[str]"]
FORMS = ("hex", "tag", "pure", "raw", "bracketed", "link")
TARGETS = (*FORMS, "canon")
# the forms that only this module has, and all
CELL_FORMS, CELL_TARGETS = (*FORMS, "any", "gtin", "sscc"), (*TARGETS, "gtin-8", "gtin-12", "gtin-13", "gtin-14", "sscc", "class")
# tag bits that are read may be in base64
BASE64 = "base64"
ENGINES = ("library", "pipe")
STEM = re.compile(r"https?://[!\"$-.0->@-~][!\"$->@-~]*(?<!/)")
MOST_OF_STEM = 1_024


def processes(word: str) -> int:
    """Returns the number of processes that a command line asks for."""
    if not word.isdigit() or not 1 <= int(word) <= 256:
        raise argparse.ArgumentTypeError("the number of processes is 1 to 256")
    return int(word)


def choice(name: str, value: object, choices: "tuple[str, ...]") -> str:
    """Returns a value that is one of the choices. Raises `ValueError` for another."""
    if isinstance(value, str) and value in choices:
        return value
    raise ValueError(f"{name} is {', '.join(choices[:-1])} or {choices[-1]}, not {value!r}")


def number(name: str, value: object, least: int, most: int) -> str:
    """Returns the digits of a number within its range. Raises `ValueError` for anything else."""
    try:
        found = -1 if isinstance(value, bool) else operator.index(value)  # type: ignore[arg-type]
    except TypeError:
        found = -1
    if least <= found <= most:
        return str(found)
    raise ValueError(f"{name} is a number from {least} to {most}, not {value!r}")


def path_of(file: Optional[File]) -> Optional[str]:
    """Returns the path of a file, or None for None."""
    return None if file is None else os.fspath(file)


def existing(name: str, value: File) -> str:
    """Returns the path of a file. Raises `FileNotFoundError` if there is none, and `ValueError` if the value is not a path."""
    if not isinstance(value, (str, os.PathLike)):
        raise ValueError(f"{name} is the path of a file, not {value!r}")
    os.stat(value)
    return os.fspath(value)


def _encoding(value: object) -> str:
    if isinstance(value, str) and value:
        return value
    raise ValueError(f"encoding is the name of a tag's encoding, not {value!r}")


def _stem(value: object) -> str:
    if isinstance(value, str) and STEM.fullmatch(value) and len(value) <= MOST_OF_STEM:
        return value
    raise ValueError(f"stem is http:// or https:// and a host, without ?, # and a slash at its end, in at most {MOST_OF_STEM:,} characters, not {value!r}")


def _yes(name: str, value: object) -> str:
    if isinstance(value, bool):
        return "yes" if value else "no"
    raise ValueError(f"{name} is True or False, not {value!r}")


def words(
    *,
    filter: Optional[int] = None,
    gcp: Optional[int] = None,
    encoding: Optional[str] = None,
    keys_only: bool = False,
    stem: Optional[str] = None,
    **files: Optional[File],
) -> List[str]:
    """Returns the words of the command line for options; `files` are those that name a file."""
    judged: Dict[str, str] = {name: existing(name, value) for name, value in files.items() if value is not None}
    if filter is not None:
        judged["filter"] = number("filter", filter, 0, 7)
    if gcp is not None:
        judged["gcp"] = number("gcp", gcp, 1, 12)
    if encoding is not None:
        judged["encoding"] = _encoding(encoding)
    if keys_only is not False:
        judged["keys-only"] = _yes("keys_only", keys_only)
    if stem is not None:
        judged["stem"] = _stem(stem)
    return [word for name, value in judged.items() for word in (f"--{name}", value)]
