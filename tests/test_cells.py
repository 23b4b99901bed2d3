"""Columns as they are: forms, repairs and doubts of cells, as `csv`, `jsonl` and the module read them (docs/TUTORIAL.md)."""
import csv
import io
import itertools
import os
import random
import subprocess
import sys
import tempfile
from pathlib import Path
from unittest import mock

import pytest

from tdl.__main__ import main
from tests import untidy

Environment = dict[str, str]
FEW, ALL = 3_000, 200_000
ITEM, BITS = "https://id.gs1.org/01/80614141123458/21/6789", "3074257BF7194E4000001A85"
GTIN = "https://id.gs1.org/01/04006381333931"


def command(module: Environment, *given_words: object, given: str = "") -> tuple[int, str, str]:
    """Returns the status, the output and the errors of a command of the module."""
    words = [sys.executable, "-m", "tdl", *map(str, given_words)]
    done = subprocess.run(words, input=given.encode("utf-8", "surrogateescape"), env=module, capture_output=True, check=False)
    return done.returncode, done.stdout.decode("utf-8", "surrogateescape"), done.stderr.decode()


def column_of(texts: list[str]) -> str:
    """Returns CSV of one column c, and a number in each record."""
    into = io.StringIO()
    csv.writer(into, lineterminator="\n").writerows([["n", "c"], *([number, text] for number, text in enumerate(texts))])
    return into.getvalue()


def added(module: Environment, texts: list[str], *words: str) -> list[list[str]]:
    """Returns the new fields of each text. The command runs in this process, which saves the start of another."""
    with tempfile.TemporaryDirectory() as folder, mock.patch.dict(os.environ, {"TDL": module["TDL"]}):
        Path(folder, "in.csv").write_bytes(column_of(texts).encode("utf-8", "surrogateescape"))
        main(["csv", "-c", "c", *words, f"{folder}/in.csv", "-o", f"{folder}/out.csv", "--no-sync"])
        written = Path(folder, "out.csv").read_bytes().decode("utf-8", "surrogateescape")
    return [row[2:] for row in list(csv.reader(io.StringIO(written, newline="")))[1:]]


def cells_wanted(whole: bool) -> int:
    """Returns how many cells are drawn: $CELLS, or a few."""
    return int(os.environ.get("CELLS", ALL if whole else FEW))


def test_drawn_cells(module: Environment, pytestconfig: pytest.Config, tmp_path: Path) -> None:
    """Each drawn cell has the link, form, repair or reason that its making says, in one process and in three."""
    dice = random.Random(11)
    cells = [untidy.any_cell(dice) for _ in range(cells_wanted(pytestconfig.getoption("--whole")))]
    (tmp_path / "in.csv").write_bytes(column_of([cell.text for cell in cells]).encode())
    written = []
    for jobs in (1, 3):
        command(module, "csv", "-c", "c", "--from", "any", "--repair", "-j", jobs, tmp_path / "in.csv", "-o", tmp_path / f"{jobs}.csv")
        written.append((tmp_path / f"{jobs}.csv").read_bytes())
    assert written[0] == written[1]
    rows = list(csv.reader(io.StringIO(written[0].decode("utf-8"), newline="")))
    assert rows[0] == ["n", "c", "c_link", "c_form", "c_repaired", "c_reason"]
    wanted = [[str(number), cell.text, cell.link, cell.form, cell.repaired, cell.reason] for number, cell in enumerate(cells)]
    differ = [(want, got) for want, got in itertools.zip_longest(wanted, rows[1:]) if want != got]
    assert not differ, (len(differ), differ[:5])
    assert {cell.form for cell in cells} == {*untidy.FORMS, ""}


@pytest.mark.parametrize("one, other", itertools.combinations(untidy.FORMS, 2))
def test_each_pair_of_forms(module: Environment, one: str, other: str) -> None:
    """Cells of two forms in one column are each read by its own."""
    dice = random.Random(f"{one} {other}")
    cells = [untidy.tidy(dice.choice((one, other)), dice) for _ in range(40)]
    assert added(module, [cell.text for cell in cells], "--from", "any") == [[cell.link, cell.form, ""] for cell in cells]


@pytest.mark.parametrize("form", untidy.FORMS)
def test_any_is_the_named_form(module: Environment, form: str) -> None:
    """Answers and reasons of `any` are those of the form that it names."""
    dice = random.Random(form)
    texts = [untidy.tidy(form, dice).text for _ in range(20)]
    words = ("--to", "hex", "--to", "canon", "--gcp", "7")
    named, found = added(module, texts, "--from", form, *words), added(module, texts, "--from", "any", *words)
    assert [[*row[:2], form, row[2]] for row in named] == found


@pytest.mark.parametrize("words, text, wanted", [
    ((), "3006381333931.0", ["", "raw", "length 0"]),
    ((), "4006381333932", ["", "gtin", "check 0"]),
    ((), '="4006381333931"', ["", "", "form"]),
    ((), "61414112345", ["", "", "digits 11"]),
    ((), "4.00638E+12", ["", "", "rounded"]),
    (("--repair",), "4.00638E+12", ["", "", "", "rounded"]),
    (("--repair",), '="4.00638E+12"', ["", "", "", "rounded"]),
    (("--repair",), "4006381333932.0", ["", "gtin", "", "check 0"]),
    (("--repair",), "1234567", ["", "", "", "digits 7"]),
    (("--repair",), '="4012345678901"', ["", "", "", "ambiguous gtin raw"]),
])
def test_what_is_not_repaired(module: Environment, words: tuple[str, ...], text: str, wanted: list[str]) -> None:
    """Nothing is repaired unless that is asked for, and nothing whose digits are lost, wrong or in doubt."""
    assert added(module, [text], "--from", "any", *words) == [wanted]


@pytest.mark.parametrize("form, text, wanted", [
    ("gtin", "96385074", ["https://id.gs1.org/01/00000096385074", ""]),
    ("gtin", "614141123452", ["https://id.gs1.org/01/00614141123452", ""]),
    ("gtin", "4012345678901", ["https://id.gs1.org/01/04012345678901", ""]),
    ("gtin", "4006381333932", ["", "check 0"]),
    ("gtin", "400638133393", ["", "check 0"]),
    ("gtin", "12345", ["", "length 0"]),
    ("gtin", "", ["", "length 0"]),
    ("gtin", "40063x1333931", ["", "char 0 5"]),
    ("sscc", "106141412345678908", ["https://id.gs1.org/00/106141412345678908", ""]),
    ("sscc", "106141412345678907", ["", "check 0"]),
    ("sscc", "4006381333931", ["", "length 0"]),
    ("hex", f"0x{BITS}", [ITEM, ""]),
    ("hex", "3074-257B F719-4E40-0000 1A85", [ITEM, ""]),
    ("hex", f" {BITS}\t", [ITEM, ""]),
    ("hex", f"{BITS[:-1]}x", ["", "digit 23"]),
    ("link", f" {ITEM} ", [ITEM, ""]),
    ("raw", "  0104006381333931 ", [GTIN, ""]),
])
def test_forms_of_the_module(module: Environment, form: str, text: str, wanted: list[str]) -> None:
    """Bare numbers are forms, tag bits may be grouped, and blanks around a cell do not count."""
    assert added(module, [text], "--from", form) == [wanted]


@pytest.mark.parametrize("target, text, wanted", [
    ("gtin-8", "(01)00000096385074", ["96385074", ""]),
    ("gtin-12", "(01)00614141123452", ["614141123452", ""]),
    ("gtin-13", "(01)00614141123452", ["0614141123452", ""]),
    ("gtin-14", "(01)80614141123458(21)6789", ["80614141123458", ""]),
    ("gtin-13", "(01)80614141123458", ["", "hold gtin large"]),
    ("gtin-8", "(01)00614141123452", ["", "hold gtin large"]),
    ("gtin-14", "(00)106141412345678908", ["", "missing gtin"]),
    ("sscc", "(00)106141412345678908(02)80614141123458(37)5", ["106141412345678908", ""]),
    ("sscc", "(01)80614141123458", ["", "missing sscc"]),
    ("class", "(01)80614141123458(10)ABC", ["urn:epc:class:lgtin:0614141.812345.ABC", ""]),
    ("class", "(01)80614141123458", ["", "missing element"]),
    ("class", "(01)80614141123459", ["", "check 1"]),
])
def test_targets_of_the_module(module: Environment, target: str, text: str, wanted: list[str]) -> None:
    """Bare numbers and class URIs are targets."""
    assert added(module, [text], "--from", "bracketed", "--to", target, "--gcp", "7") == [wanted]


@pytest.mark.parametrize("spelling", ["<GS>", "|", "^]", "{GS}"])
def test_spellings_of_fnc1(module: Environment, spelling: str) -> None:
    """A raw cell with a spelling of FNC1 is read only if an option says what it means."""
    text, linked = f"010400638133393110A{spelling}21B", f"{GTIN}/10/A/21/B"
    assert added(module, [text], "--from", "raw") == [["", "fnc1?"]]
    assert added(module, [text], "--from", "raw", "--fnc1", spelling) == [[linked, ""]]
    assert added(module, [text], "--from", "any", "--fnc1", spelling) == [[linked, "raw", ""]]
    assert added(module, [text], "--from", "raw", "--fnc1", "~") == [["", "fnc1?"]]


def test_spellings_that_stand_for_themselves(module: Environment) -> None:
    """`--fnc1 none` leaves <GS> in a lot, whose characters GS1 allows."""
    assert added(module, ["010400638133393110A<GS>21B"], "--from", "raw", "--fnc1", "none") == [[f"{GTIN}/10/A%3CGS%3E21B", ""]]


def test_base64(module: Environment) -> None:
    """Tag bits in base64 are those in hexadecimal digits."""
    assert added(module, [untidy.as_base64(BITS), "MHQle", "MHQl"], "--from", "hex", "--encoding", "base64") == [[ITEM, ""], ["", "base64"], ["", "reading"]]
    words = ("--encoding", "base64", "--encoding", "sgtin-198", "--to", "hex")
    assert added(module, [untidy.as_base64(BITS)], "--from", "hex", *words)[0][0].startswith("36")


def test_repairs_of_elements(module: Environment) -> None:
    """With -e, --repair repairs GTINs and SSCCs."""
    given = "g,s\n4006381333931.0,6.7E+5\n61414112345,6\n4.0E+12,1\n"
    lines = command(module, "csv", "-e", "01=g", "-e", "21=s", "--repair", given=given)[1].splitlines()
    wanted = [f"4006381333931.0,6.7E+5,{GTIN}/21/6.7E%2B5,g decimal,", "61414112345,6,https://id.gs1.org/01/00061414112345/21/6,g zeros,", "4.0E+12,1,,,rounded g"]
    assert lines == ["g,s,g_link,g_repaired,g_reason", *wanted]


@pytest.mark.parametrize("words, sentence", [
    (("--from", "hex", "--fnc1", "|"), "--from raw or any"),
    (("--from", "raw", "--encoding", "base64"), "--from hex"),
    (("--from", "raw", "--fnc1", "GS"), "a sign that is not a letter"),
    (("--from", "any", "--sheet", "x"), "--sheet is an option for workbooks"),
])
def test_options_that_do_not_go_together(module: Environment, words: tuple[str, ...], sentence: str) -> None:
    """A wrong option ends the run with status 2, and writes nothing."""
    status, output, told = command(module, "csv", "-c", "c", *words, given="c\n1\n")
    assert (status, output, sentence in told) == (2, "", True), told


def test_jsonl_names_forms_and_repairs(module: Environment) -> None:
    """JSON lines get members with the form and the repair."""
    given = '{"c":"61414112345"}\n{"c":"4012345678901"}\n'
    wanted = ['{"c":"61414112345","c_link":"https://id.gs1.org/01/00061414112345","c_form":"gtin","c_repaired":"zeros"}']
    wanted += ['{"c":"4012345678901","c_reason":"ambiguous gtin raw"}']
    assert command(module, "jsonl", "-c", "c", "--from", "any", "--repair", given=given)[1].splitlines() == wanted
