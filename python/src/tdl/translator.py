"""Translations from one form to another, class URIs, and dumps of tags."""
from __future__ import annotations

import os
from typing import TYPE_CHECKING, Any, Dict, Literal, Optional, Sequence, Tuple, Union

from . import library, options
from .lines import Lines
from .options import BASE64, CELL_FORMS, CELL_TARGETS, ENGINES, FORMS, TARGETS, File, Form, Target, choice, path_of
from .texts import Engine, Text

if TYPE_CHECKING:
    from .cells import Spelling


class Translator(Lines):
    """Translates texts of one form to another.

        with Translator("link", "hex", filter=1, prefixes="prefixes.json") as to_bits:
            to_bits.translate("https://id.gs1.org/01/80614141123458/21/6789")

    `source` is `hex`, `tag`, `pure`, `raw`, `bracketed` or `link`, and `target` one of these or `canon`; or `source` is `any`, `gtin` or
    `sscc`, and `target` is `gtin-8`, `gtin-12`, `gtin-13`, `gtin-14`, `sscc` or `class`. `repair` repairs a text that can be repaired in one
    way, and `fnc1` has spellings of FNC1 (docs/TUTORIAL.md, 'Your column looks like this'); with `any` or `repair` an answer has the
    attributes `form` and `repaired`.

    `tables` and `prefixes` are files; `filter` is 0 to 7, `gcp` 1 to 12 digits, `encoding` the name of a tag's encoding, or for `hex`
    `base64`; `stem` is that of a link; `keys_only` keeps only the key and its serial. A wrong option raises `ValueError`, a missing file
    `FileNotFoundError`.

    `engine` is `library`, which answers in this process, or `pipe`, which asks the program, whose path is `program`; both give the same
    answers and exceptions. Unless it is named, the library answers if the module has it, and neither `program` nor `$TDL` names a program.
    """

    def __init__(
        self,
        source: Form,
        target: Target = "canon",
        *,
        tables: Optional[File] = None,
        prefixes: Optional[File] = None,
        filter: Optional[int] = None,
        gcp: Optional[int] = None,
        encoding: Optional[str] = None,
        keys_only: bool = False,
        stem: Optional[str] = None,
        repair: bool = False,
        fnc1: Union[str, Sequence[str]] = (),
        program: Optional[str] = None,
        engine: Optional[Literal["library", "pipe"]] = None,
    ) -> None:
        choices: Dict[str, Any] = {"filter": filter, "gcp": gcp, "encoding": encoding, "keys_only": keys_only, "stem": stem}
        if is_of_cells(source, target, repair, fnc1, encoding):
            engine_of = {"tables": tables, "prefixes": prefixes, "program": program, "engine": engine, **choices}
            super().__init__((), source, path_of(tables), program, _cells(source, target, repair, fnc1, engine_of))
            return
        command = ["translate", choice("source", source, FORMS), choice("target", target, TARGETS)]
        words = options.words(tables=tables, prefixes=prefixes, **choices)
        super().__init__(command + words, source, path_of(tables), program, None if _is_pipe(engine, program) else library.Library(
            source, target, tables=path_of(tables), prefixes=path_of(prefixes), **choices
        ))


def is_of_cells(source: str, target: str, repair: bool, fnc1: Union[str, Sequence[str]], encoding: Optional[str]) -> bool:
    """Returns whether texts are answered as cells are: the program alone does not read them."""
    return source in CELL_FORMS[len(FORMS):] or target in CELL_TARGETS[len(TARGETS):] or bool(repair) or bool(fnc1) or encoding == BASE64


def spelling_of(source: str, repair: bool, fnc1: Union[str, Sequence[str]], options: Dict[str, Any]) -> Tuple[Spelling, Dict[str, Any]]:
    """Returns how cells are spelled, and the other options. Raises `ValueError` for what does not go together."""
    from .cells import Spelling

    spelled = (fnc1,) if isinstance(fnc1, str) and fnc1 else tuple(fnc1)
    if spelled and source not in ("raw", "any"):
        raise ValueError(f"fnc1 is an option of the sources raw and any, not of {source!r}")
    if not all(isinstance(spelling, str) and spelling and "\n" not in spelling for spelling in spelled):
        raise ValueError(f"fnc1 is a text or several, not {fnc1!r}")
    is_base64 = options.get("encoding") == BASE64
    if is_base64 and source != "hex":
        raise ValueError(f"the encoding base64 is that of the source hex, not of {source!r}")
    return Spelling(choice("source", source, CELL_FORMS), bool(repair), spelled, is_base64), {**options, "encoding": None} if is_base64 else options


def _cells(source: str, target: str, repair: bool, fnc1: Union[str, Sequence[str]], options: Dict[str, Any]) -> Engine:
    """Returns what answers texts as cells are answered."""
    from .cell_engine import CellEngine

    how, others = spelling_of(source, repair, fnc1, options)
    return CellEngine(how, choice("target", target, CELL_TARGETS), others)


def _is_pipe(engine: Optional[str], program: Optional[str]) -> bool:
    """Returns whether the program is asked."""
    if engine is None:
        return not library.IS_THERE or bool(program or os.environ.get("TDL"))
    if choice("engine", engine, ENGINES) == "pipe":
        return True
    if program:
        raise ValueError(f"program is an option of the engine pipe, not {program!r} of library")
    if not library.IS_THERE:
        raise ValueError("engine is library only if the module was installed with it, not 'library' here")
    return False


class Classes(Lines):
    """Translates class URIs of lots to canonical links (`canon`), or links to class URIs (`uri`).

    `classes` is a class document, and `gcp` the length of the company prefix if no list of `prefixes` tells it.
    """

    def __init__(
        self,
        target: Literal["canon", "uri"],
        *,
        tables: Optional[File] = None,
        classes: Optional[File] = None,
        prefixes: Optional[File] = None,
        gcp: Optional[int] = None,
        program: Optional[str] = None,
    ) -> None:
        command = ["class", choice("target", target, ("canon", "uri"))]
        if target == "canon" and (prefixes, gcp) != (None, None):
            raise ValueError("prefixes and gcp are options of `uri`")
        words = options.words(gcp=gcp, tables=tables, classes=classes, prefixes=prefixes)
        super().__init__(command + words, "link" if target == "uri" else "class", path_of(tables), program)


class Dumps(Lines):
    """Shows dumps of the EPC memory bank as lines such as `u0 a00 urn:epc:tag:..` (`read`), or makes dumps of such lines (`write`)."""

    def __init__(self, action: Literal["read", "write"], *, tables: Optional[File] = None, program: Optional[str] = None) -> None:
        command = ["dump", choice("action", action, ("read", "write"))]
        source = "hex" if action == "read" else "tag"
        super().__init__(command + options.words(tables=tables), source, path_of(tables), program)


def canon(source: Form, text: Text, *, tables: Optional[File] = None, program: Optional[str] = None) -> str:
    """Returns the canonical GS1 Digital Link of a text. It starts a run of the program: for many texts keep a `Translator`."""
    with Translator(source, tables=tables, program=program) as translator:
        return translator.translate(text)
