"""`python3 -m tdl csv` over workbooks."""
import subprocess
import sys
from pathlib import Path

import pytest

from tests.workbooks import number, row, text, workbook

Environment = dict[str, str]
GTIN = "https://id.gs1.org/01/04006381333931"


def run(module: Environment, *words: object) -> tuple[int, str, str]:
    """Returns the status, the output and the errors of `csv`."""
    done = subprocess.run([sys.executable, "-m", "tdl", "csv", *map(str, words)], env=module, capture_output=True, text=True, check=False)
    return done.returncode, done.stdout, done.stderr


@pytest.fixture
def book(tmp_path: Path) -> Path:
    """A workbook with GTINs as texts and as numbers, and a second sheet."""
    cells = [number("4006381333931"), text("4006381333931"), number("61414112345"), number("1.06141412345678E+17"), number("4006381333931.5")]
    cells.append(text("a, &quot;b&quot;"))
    stock = [row(text("n"), text("ean"), text("note")), *(row(number(str(place)), cell, text("x,y")) for place, cell in enumerate(cells))]
    path = tmp_path / "book.xlsx"
    path.write_bytes(workbook({"stock": stock, "more": [row(text("c")), row(text(GTIN))]}))
    return path


def test_cells_of_a_sheet(module: Environment, book: Path) -> None:
    """Texts and numbers of the first sheet become CSV with answers; a number that lost digits is named."""
    status, output, told = run(module, book, "-c", "ean", "--from", "any")
    assert output.splitlines() == [
        "n,ean,note,ean_link,ean_form,ean_reason",
        f'0,4006381333931,"x,y",{GTIN},gtin,',
        f'1,4006381333931,"x,y",{GTIN},gtin,',
        '2,61414112345,"x,y",,,digits 11',
        '3,1.06141412345678E+17,"x,y",,,rounded',
        '4,4006381333931.5,"x,y",,raw,key',
        '5,"a, ""b""","x,y",,,form',
    ]
    assert (status, told) == (1, "6 records, 2 translated, 4 rejected\n")


def test_zeros_that_a_number_lost(module: Environment, book: Path) -> None:
    """--repair gives numbers of a workbook their zeros."""
    lines = run(module, book, "-c", "ean", "--from", "gtin", "--repair", "-d", ";")[1].splitlines()
    assert lines[3] == "2;61414112345;x,y;https://id.gs1.org/01/00061414112345;zeros;"


def test_a_sheet_by_its_name(module: Environment, book: Path) -> None:
    """--sheet names a sheet; one that is not there is an error that lists them."""
    assert run(module, book, "--sheet", "more", "-c", "c", "--from", "link")[:2] == (0, f"c,c_link,c_reason\n{GTIN},{GTIN},\n")
    status, output, told = run(module, book, "--sheet", "none", "-c", "c", "--from", "link")
    assert (status, output, "stock, more" in told) == (2, "", True), told


def test_each_number_of_processes(module: Environment, tmp_path: Path) -> None:
    """A large sheet gives the same bytes in one process and in three."""
    rows = [row(text("c"), text("n")), *(row(number(str(4_006_381_000_000 + place)), text(str(place))) for place in range(20_000))]
    (tmp_path / "large.xlsx").write_bytes(workbook({"s": rows}))
    found = {run(module, tmp_path / "large.xlsx", "-c", "c", "--from", "gtin", "-j", jobs) for jobs in (1, 3)}
    ((status, output, told),) = found
    # (one number in ten has the right check digit)
    assert (status, output.count("\n"), told) == (1, 20_001, "20,000 records, 2,000 translated, 18,000 rejected\n")


def test_cells_beyond_the_columns(module: Environment, tmp_path: Path) -> None:
    """A row with more cells than the first is rejected; one with fewer has empty ones."""
    (tmp_path / "ragged.xlsx").write_bytes(workbook({"s": [row(text("c"), text("n")), row(text(GTIN)), row(text(GTIN), text("1"), text("2"))]}))
    lines = run(module, tmp_path / "ragged.xlsx", "-c", "c", "--from", "link")[1].splitlines()
    assert lines == ["c,n,c_link,c_reason", f"{GTIN},,{GTIN},", f"{GTIN},1,2,,fields 3"]


@pytest.mark.parametrize("begin, sentence", [
    (b"PK\x03\x04", "a workbook: save it as .xlsx"),
    (b"\xd0\xcf\x11\xe0\xa1\xb1\x1a\xe1", "an old or encrypted workbook"),
    ("a,b\n".encode("utf-16"), "UTF-16"),
    (b"\x1f\x8b\x08\0", "compressed by gzip"),
    (b"%PDF-1.7\n", "a PDF document"),
    (b"PAR1\x15\x04", "a Parquet file"),
    (b"SQLite format 3\0", "a database of SQLite"),
    (b"\x09\x08\x10\0\0\x06\x05\0", "binary"),
])
@pytest.mark.parametrize("command", ["csv", "jsonl"])
def test_other_files_are_named(module: Environment, tmp_path: Path, begin: bytes, sentence: str, command: str) -> None:
    """A file that is not text is named as what it is, and none of its control characters is printed."""
    path = tmp_path / "book.xls"
    path.write_bytes(begin + bytes(range(256)))
    words = [sys.executable, "-m", "tdl", command, "-c", "c", "--from", "any", str(path)]
    done = subprocess.run(words, env=module, capture_output=True, check=False)
    if command == "jsonl" and sentence == "binary":
        assert (done.returncode, done.stderr.endswith(b" rejected\n")) == (1, True)
    else:
        assert (done.returncode, done.stdout, sentence.encode() in done.stderr) == (2, b"", True), done.stderr
    assert not [byte for byte in done.stderr[:-1] if byte < 32 and byte not in b"\n"]
