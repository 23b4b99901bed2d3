"""The built-in tables, tables/builtin.json and tables/epcis.json answer lines of every form alike, and tables/gs1.json tag bits and EPC URIs;
and so do a document of version 1 and what `migrate` writes of it."""
import json
import random
import subprocess
from pathlib import Path
from typing import Any, Sequence

import pytest

from tools.cases import joined, subjects
from tools.common import Word, told
from tools.made_lines import FORMS, LINES, lines_of
from tools.repository import TOP
from tools.tests import same

TABLES = TOP / "tables"
# the tables of tables/gs1.json as they were in version 1
FIRST = TOP / "checks" / "version1" / "gs1.json"
MOST_INPUT = 1 << 20
EPCS = {"hex", "tag", "pure"}


def answers(words: Sequence[Word], data: bytes) -> bytes:
    """Returns what a run prints."""
    return subprocess.run(told(words), input=data, capture_output=True).stdout


def second_version(tables: dict[str, Any]) -> str:
    """Returns the text that a document of version 1 is migrated to, with a line feed."""
    kinds: list[dict[str, Any]] = [{**kind, "fields": []} for kind in tables["kinds"]]
    return json.dumps({**tables, "version": 2, "kinds": kinds}, sort_keys=True, separators=(",", ":")) + "\n"


def lines_of_cases(form: str) -> bytes:
    """Returns the lines of a form in checks/cases."""
    found = b""
    for case in (case for _, cases in subjects() for case in cases):
        if case["words"][0:1] in (["canon"], ["translate"]) and case["words"][1:2] == [form]:
            given = joined(case, "input", 0)
            found += given + b"\n" if len(given) < MOST_INPUT else b""
    return found


@pytest.fixture(scope="module")
def migrated(program: Path, tmp_path_factory: pytest.TempPathFactory) -> Path:
    """The document that `migrate` writes of the one of version 1."""
    path = tmp_path_factory.mktemp("migrated") / "second.json"
    path.write_bytes(answers([program, "migrate", "--tables", FIRST], b""))
    return path


@pytest.mark.parametrize("form", FORMS)
def test_made_lines(program: Path, form: str) -> None:
    """2,000 lines, made of the rows of the file with a fixed seed, at least a quarter of them `ok` and a quarter `no`, are answered alike."""
    random.seed(42)
    tables = json.loads((TABLES / "builtin.json").read_text("ascii"))
    data = "".join(line + "\n" for line in lines_of(form, tables)).encode("latin-1")
    plain = answers([program, "canon", form], data)
    lines = plain.splitlines()
    assert len(lines) == LINES
    assert LINES // 4 <= sum(line.startswith(b"ok ") for line in lines) <= LINES * 3 // 4
    for name in ["builtin", "epcis", *(["gs1"] if form in EPCS else [])]:
        same(plain, answers([program, "canon", form, "--tables", TABLES / f"{name}.json"], data))


def test_migrate(migrated: Path) -> None:
    """`migrate` writes version 2 of a document of version 1."""
    same(second_version(json.loads(FIRST.read_text("ascii"))).encode(), migrated.read_bytes())


@pytest.mark.parametrize("form", FORMS)
def test_migrated(program: Path, migrated: Path, form: str) -> None:
    """Both documents translate the lines of the cases from a form to each alike, each line with an answer."""
    data = lines_of_cases(form)
    for target in [*FORMS, "canon"]:
        for options in "", "--filter 1 --gcp 7":
            words: list[Word] = [program, "translate", form, target, *options.split(), "--tables"]
            before, now = (answers([*words, tables], data) for tables in (FIRST, migrated))
            same(before, now)
            assert len(before.splitlines()) >= data.count(b"\n")
