"""The parts of a workbook, which is a ZIP archive: each within its bounds."""
from __future__ import annotations

import os
import posixpath
import zlib
from contextlib import contextmanager
from types import TracebackType
from typing import Any, Dict, Iterator, Optional, Type
from xml.parsers import expat
from zipfile import ZIP_DEFLATED, ZIP_STORED, BadZipFile, ZipFile, ZipInfo

# the bytes of a part that is held whole, and of one that is read as a stream
MOST_HELD, MOST_STREAMED = 268_435_456, 1_073_741_824
# a part of more bytes unpacks to so many times its packed bytes at most; those that spreadsheet programs write are far below
ANY_RATIO, MOST_RATIO = 16_777_216, 100
MOST_PARTS = 65_536
BLOCK = 65_536


class NotAWorkbook(ValueError):
    """A file that is not a workbook, or is one beyond the bounds."""


def shown(text: str) -> str:
    """Returns a text without characters that would act on a terminal, cut if it is long."""
    text = text if len(text) <= 100 else f"{text[:100]}.."
    return text if text.isprintable() else ascii(text)


class Archive:
    """An open archive, and its parts by name, in either case."""

    def __init__(self, path: str) -> None:
        self.path = path
        with self.naming():
            self._file = ZipFile(path)
        try:
            self._size = os.path.getsize(path)
            self._parts = self._named()
        except BaseException:
            self._file.close()
            raise

    def _named(self) -> Dict[str, ZipInfo]:
        parts: Dict[str, ZipInfo] = {}
        for part in self._file.infolist():
            name = part.filename.lower()
            if name in parts or len(parts) == MOST_PARTS:
                raise self.fault(f"two parts are called {shown(part.filename)}" if name in parts else f"it has more than {MOST_PARTS:,} parts")
            parts[name] = part
        return parts

    def __enter__(self) -> "Archive":
        return self

    def __exit__(self, _: Optional[Type[BaseException]], __: Optional[BaseException], ___: Optional[TracebackType]) -> None:
        self._file.close()

    def fault(self, sentence: str) -> NotAWorkbook:
        """Returns an error that names the file."""
        return NotAWorkbook(f"{self.path}: {sentence}")

    @contextmanager
    def naming(self) -> Iterator[None]:
        """Raises `NotAWorkbook` for what a damaged archive or its XML ends in."""
        try:
            yield
        except NotAWorkbook:
            raise
        except (BadZipFile, NotImplementedError, EOFError, zlib.error, expat.ExpatError, ValueError, RuntimeError) as error:
            why = f"{type(error).__name__}: {error}"
            raise NotAWorkbook(f"{self.path} is not an XLSX workbook ({why}): save it as .xlsx without a password, or as CSV") from error

    def has(self, name: str) -> bool:
        """Returns whether there is a part of this name."""
        return name.lower() in self._parts

    def parse(self, name: str, parser: Any, most: int = MOST_HELD) -> Iterator[None]:
        """Feeds a part to a parser, block by block."""
        part = self._parts.get(name.lower())
        if part is None:
            raise self.fault(f"the part {shown(name)} is missing")
        self._judge(part, most)
        parser.StartDoctypeDeclHandler = self._reject_doctype
        with self._file.open(part) as stream:
            while block := stream.read(BLOCK):
                parser.Parse(block, False)
                yield
        parser.Parse(b"", True)
        yield

    def _judge(self, part: ZipInfo, most: int) -> None:
        """Raises `NotAWorkbook` for a part beyond its bounds. No more bytes are unpacked than the archive says."""
        name, size = shown(part.filename), part.file_size
        if part.compress_type not in (ZIP_STORED, ZIP_DEFLATED):
            raise self.fault(f"the part {name} is packed in a way that XLSX does not have")
        if size > most:
            raise self.fault(f"the part {name} unpacks to {size:,} bytes; at most {most:,} are read: write CSV")
        if size > ANY_RATIO and size > MOST_RATIO * min(part.compress_size, self._size):
            raise self.fault(f"the part {name} unpacks to {size:,} bytes, more than {MOST_RATIO} times those that it has packed: write CSV")

    def _reject_doctype(self, *_: object) -> None:
        raise self.fault("its XML has a document type, which XLSX does not have")


def resolved(base: str, target: str) -> str:
    """Returns the name of a part that another one names."""
    return posixpath.normpath(posixpath.join("/", posixpath.dirname(base), target)).lstrip("/")
