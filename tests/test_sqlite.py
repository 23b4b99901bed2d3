"""examples/sqlite in the shell of SQLite: values, NULL, wrong options, the program's answers, an index, and more choices than a connection keeps."""
import json
import random
import re
import subprocess
from pathlib import Path

import pytest

from tools.common import there
from tools.databases import BITS, FORM_OF, LINK, OF_SQLITE, SQLITE, ask_sqlite, compile_for_sqlite
from tools.made_lines import FORMS, lines_of
from tools.repository import TOP

pytestmark = [pytest.mark.needs(*OF_SQLITE), pytest.mark.xdist_group("sqlite")]
STEM = "stem is http:// or https:// and a host, without ?, # and a slash at its end"
# what is asked, and what is printed, or what the error says
CASES = [
    (f"tdl('hex', 'link', '{BITS}')", LINK),
    (f"tdl_canon('hex', CAST('{BITS}' AS BLOB))", LINK),
    (f"tdl('hex', '{BITS}')", LINK),
    ("tdl('hex', 'link', '30') IS NULL", "1"),
    ("tdl('hex', 'link', NULL) IS NULL", "1"),
    ("tdl_reason('hex', 'link', '30')", "reading"),
    ("tdl_reason('hex', 'link', 30)", "reading"),
    (f"tdl_reason('hex', 'link', '{BITS}') IS NULL", "1"),
    ("tdl('bracketed', 'hex', '(01)80614141123458(21)6789', 'gcp', 7, 'filter', 3)", BITS),
    ("tdl_reason('bracketed', 'hex', '(01)80614141123458(21)6789')", "missing gcp"),
    ("tdl('bracketed', 'link', '(01)80614141123458(17)261231', 'keys_only', 1, 'stem', 'https://a.example')", "https://a.example/01/80614141123458"),
    ("tdl('xml', 'link', 'a')", "source is hex, tag, pure, raw, bracketed or link"),
    ("tdl('hex', 'pdf', 'a')", "target is hex, tag, pure, raw, bracketed, link or canon"),
    ("tdl('hex', 'link', 'a', 'gcp', 13)", "gcp is a number from 1 to 12"),
    ("tdl('hex', 'link', 'a', 'filter', '3')", "filter is a number from 0 to 7"),
    ("tdl('hex', 'link', 'a', 'gcp')", "an option has a name and a value"),
    ("tdl('hex', 'link', 'a', 'size', 1)", "an option is filter, gcp, keys_only, encoding, stem, tables or prefixes"),
    ("tdl('hex', 'link', 'a', 'stem', 'ftp://a')", STEM),
    ("tdl('hex', 'link', 'a', 'tables', '{')", "the tables are rejected: json syntax"),
    ("tdl('hex', 'link', 'a', 'prefixes', '{')", "the prefixes are rejected: json syntax"),
    ("tdl('hex')", "a source, a target and a value are needed"),
    # NULL for an option is one that is not given
    ("tdl_reason('bracketed', 'hex', '(01)80614141123458(21)6789', 'gcp', NULL)", "missing gcp"),
    ("tdl('bracketed', 'hex', '(01)80614141123458(21)6789', 'gcp', 7, 'filter', 3, 'stem', NULL, 'tables', NULL, 'keys_only', NULL)", BITS),
    ("tdl_reason(NULL, 'link', '30')", "source is hex, tag, pure, raw, bracketed or link"),
    (f"tdl_valid('hex', '{BITS}') || tdl_valid('hex', '30')", "10"),
    ("tdl_valid('hex', NULL) IS NULL", "1"),
    *((f"coalesce(tdl_any('{text}'), '')", form) for text, form in FORM_OF.items()),
    ("tdl_class('https://id.gs1.org/01/80614141123458/10/A', 7)", "urn:epc:class:lgtin:0614141.812345.A"),
    (f"tdl_class('{LINK}', 7) IS NULL", "1"),
    ("tdl_class('x') IS NULL", "1"),
    (f"tdl_class('{LINK}', 13)", "gcp is a number from 1 to 12"),
]


@pytest.fixture(scope="module")
def extension(libtdl: Path, tmp_path_factory: pytest.TempPathFactory) -> Path:
    """The folder with the compiled extension."""
    folder = tmp_path_factory.mktemp("sqlite")
    assert compile_for_sqlite(folder, libtdl) == ""
    return folder


@pytest.mark.parametrize("statement, wanted", CASES)
def test_values(extension: Path, statement: str, wanted: str) -> None:
    got = ask_sqlite(extension, f"SELECT {statement};\n").strip()
    assert got == wanted or "error" in got.lower() and wanted in got


@pytest.mark.parametrize("form", FORMS)
def test_rows_have_the_answers_of_the_program(extension: Path, program: Path, form: str) -> None:
    tables = json.loads((TOP / "tables/builtin.json").read_text("ascii"))
    random.seed(44)
    lines = [line for line in lines_of(form, tables) if line.isascii() and line.isprintable() and "'" not in line][:400]
    wanted = subprocess.run([program, "canon", form], input="".join(f"{it}\n" for it in lines).encode(), stdout=subprocess.PIPE).stdout
    values = ", ".join(f"({number}, '{line}')" for number, line in enumerate(lines))
    answer = f"coalesce('ok ' || tdl_canon('{form}', value), 'no ' || tdl_reason('{form}', value))"
    got = ask_sqlite(extension, f"CREATE TABLE lines (id, value);\nINSERT INTO lines VALUES {values};\nSELECT {answer} FROM lines ORDER BY id;\n")
    assert got.splitlines() == wanted.decode("latin-1").splitlines()


def test_prints_what_its_text_says(extension: Path) -> None:
    text = (SQLITE / "README.md").read_text("utf-8")
    shown = there(re.search(r"```sql\n\.load \./tdl\n(.*?)```", text, re.DOTALL))[1]
    printed = "".join(f"{line.strip()}\n" for line in there(re.search(r"They print\n\n((?:    .*\n)+)", text))[1].splitlines())
    assert ask_sqlite(extension, f"CREATE TABLE reads (epc);\nINSERT INTO reads VALUES ('{BITS}');\n{shown}") == printed


def test_an_index_is_used(extension: Path) -> None:
    index = f"CREATE TABLE reads (epc);\nINSERT INTO reads VALUES ('{BITS}'), ('30');\nCREATE INDEX canonical ON reads (tdl_canon('hex', epc));\n"
    select = f"SELECT epc FROM reads WHERE tdl_canon('hex', epc) = '{LINK}';\n"
    assert ask_sqlite(extension, index + select) == f"{BITS}\n"
    assert "canonical" in ask_sqlite(extension, f"{index}EXPLAIN QUERY PLAN {select}")


def test_takes_more_choices_than_it_keeps(extension: Path) -> None:
    choice = f"SELECT tdl('link', 'hex', '{LINK}', 'gcp', 7, 'filter', %d, 'stem', 'https://a%d.example');\n"
    got = ask_sqlite(extension, "".join(choice % (number % 8, number) for number in [*range(40), *range(40)])).splitlines()
    assert (len(set(got)), len(got)) == (8, 80)
    assert got[:40] == got[40:]
