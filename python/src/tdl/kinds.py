"""Files that are not text in UTF-8, named by how they begin."""
from __future__ import annotations

from .errors import Wrong

TEXT = "save it as text in UTF-8"
KINDS = {
    b"\x1f\x8b": "compressed by gzip: unpack it",
    b"\x28\xb5\x2f\xfd": "compressed by zstd: unpack it",
    b"BZh": "compressed by bzip2: unpack it",
    b"\xfd7zXZ\0": "compressed by xz: unpack it",
    b"7z\xbc\xaf\x27\x1c": "an archive of 7-Zip: unpack it",
    b"PAR1": f"a Parquet file: {TEXT}",
    b"ARROW1": f"an Arrow file: {TEXT}",
    b"SQLite format 3\0": f"a database of SQLite: {TEXT}",
    b"%PDF-": f"a PDF document: {TEXT}",
    b"{\\rtf": f"an RTF document: {TEXT}",
    b"\x89PNG": "a picture",
    b"\xff\xd8\xff": "a picture",
    b"\x7fELF": "a program",
}
# how the files begin that the reader of workbooks names, and the mark of UTF-8
OF_WORKBOOKS, MARK = (b"PK", b"\xd0\xcf", b"\xff\xfe", b"\xfe\xff"), "\ufeff".encode()
# the control characters that a line of text has: tabs, line ends, and the separators of barcodes and of reports
ALLOWED = frozenset(b"\t\n\r\x0b\x0c\x1c\x1d\x1e\x1f")


def is_begun(begin: bytes) -> bool:
    """Returns whether more of a file has to be read before its kind is known."""
    return any(sign.startswith(begin) for sign in (MARK, *OF_WORKBOOKS, *KINDS)) or (len(begin) < 4 and begin.startswith(OF_WORKBOOKS))


def judge_begin(begin: bytes) -> None:
    """Raises `Wrong` with what a file is that begins so, if that is not text in UTF-8."""
    kind = next((kind for sign, kind in KINDS.items() if begin.startswith(sign)), None)
    if begin.startswith(OF_WORKBOOKS):
        # (its modules take time to load)
        from .workbook import other_kind

        kind = other_kind(begin)
    if kind:
        raise Wrong(f"the file is {kind}")


def judge_head(head: bytes) -> None:
    """Raises `Wrong` if the first record of a file has control characters, as those of binary files have."""
    if any(byte < 32 and byte not in ALLOWED for byte in head):
        raise Wrong(f"the file is binary: {TEXT}")


def shown(text: str) -> str:
    """Returns a text for a terminal: each character that is not printed is written as its code."""
    return "".join(letter if letter.isprintable() else ascii(letter)[1:-1] for letter in text)
