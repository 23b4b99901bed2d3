"""The packages that packaging/make makes, once for all processes of a run of tests."""
import shutil
import tarfile
from pathlib import Path
from typing import Any

import pytest

from tools.common import Word, run
from tools.repository import TOP, VERSION
from tools.tests import library_if_any, once


@pytest.fixture(scope="session")
def make(program: Path) -> Any:
    """A function that makes the packages in a folder."""
    built = library_if_any()

    def made(folder: Path) -> None:
        more: list[Word] = ["--library", built] if built else []
        status, text = run(TOP / "packaging/make", folder, "--program", program, *more)
        assert status == 0 and "SHA256SUMS\n" in text, text

    return made


@pytest.fixture(scope="session")
def made(make: Any) -> Path:
    """The folder with the packages."""
    return once("made", make)


@pytest.fixture(scope="session")
def root(made: Path) -> Path:
    """The folder of the unpacked packages."""
    def unpack(folder: Path) -> None:
        if shutil.which("dpkg-deb"):
            for package in made.glob("*.deb"):
                run("dpkg-deb", "-x", package, folder / "root")
        else:
            with tarfile.open(made / f"tdl-{VERSION}-x86_64-linux.tar.gz") as archive:
                archive.extractall(folder)
            (folder / f"tdl-{VERSION}").rename(folder / "root")

    return once("unpacked", unpack) / "root"
