"""What the tests have in common.

Options: `--program FILE`, the program that is tried (crates/tdl/out/tdl if it is not given); `--whole`, which tries the large sizes too; and
`--sources`, which tries only what needs no program.
$TDL_LIBRARY is the folder of libtdl (crates/tdl_c/out, where it is built over what `rt ci` left, if it is not given).

Fixtures: `program`, its path; `libtdl`, the library's folder; `module`, an environment in which `python3 -m tdl` runs this repository's module
over the program. Marks: `needs(TOOL..)`, the tools of a test, by the names of tools/debian.py; `whole`, a test of a large size. $TDL, by which the
module finds its program, is set in each test. tools/tests.py has `same`, `none`, `leave_out`, and `once` for what is
made once for all processes of a run.

A test whose tool is missing is skipped with the name of its package; in the gate (CI=true) it fails. A test waits for what has to happen, for
at most PATIENCE seconds (tools/common.py), far more than it takes on a slow machine.
"""
import os
import shutil
import tempfile
from pathlib import Path
from typing import Any

import pytest

from tools import library, repository
from tools.debian import lack
from tools.repository import TOP
from tools.tests import leave_out

OF_PROGRAM = {"program", "libtdl"}


def pytest_addoption(parser: pytest.Parser) -> None:
    """Adds the options of the tests."""
    parser.addoption("--program", type=Path, default=repository.PROGRAM, metavar="FILE", help="the program that is tried")
    parser.addoption("--whole", action="store_true", help="try the large sizes too")
    parser.addoption("--under", default="", metavar="WORDS", help="the words before the program in a case of checks/cases, such as `valgrind -q`")
    parser.addoption("--sources", action="store_true", help="try only what needs no program")


def pytest_configure(config: pytest.Config) -> None:
    """Names the marks of the tests."""
    config.addinivalue_line("markers", "needs(*tools): the tools of a test, by the names of tools/debian.py")
    config.addinivalue_line("markers", "whole: a test of a large size, tried only with --whole")
    # (python/tests take their program from here, some as they are imported)
    os.environ["TDL"] = str(config.getoption("--program").resolve())
    # (of all processes of a run the first makes the folder of what is made once; other users may read it)
    if not hasattr(config, "workerinput"):
        os.environ["TDL_TESTS"] = tempfile.mkdtemp(prefix="tdl-tests-")
        os.chmod(os.environ["TDL_TESTS"], 0o755)


def pytest_unconfigure(config: pytest.Config) -> None:
    """Removes what was made once."""
    if not hasattr(config, "workerinput"):
        shutil.rmtree(os.environ["TDL_TESTS"], ignore_errors=True)


def pytest_collection_modifyitems(config: pytest.Config, items: list[pytest.Item]) -> None:
    """Puts what shares something expensive first, and keeps the tests that need no program, where only these are asked for."""
    items.sort(key=lambda item: not item.get_closest_marker("xdist_group"))
    if config.getoption("--sources"):
        items[:] = [item for item in items if item.path.is_relative_to(TOP / "tests") and not OF_PROGRAM & {*getattr(item, "fixturenames", [])}]


def pytest_runtest_setup(item: pytest.Item) -> None:
    """Skips what is not asked for, and what needs a tool that is missing."""
    if item.get_closest_marker("whole") and not item.config.getoption("--whole"):
        pytest.skip("a large size: --whole tries it")
    missing = lack(*(tool for mark in item.iter_markers("needs") for tool in mark.args))
    if missing:
        leave_out(f"needs {missing}")


@pytest.fixture(scope="session")
def program(pytestconfig: pytest.Config) -> Path:
    """The program that is tried."""
    found: Path = pytestconfig.getoption("--program").resolve()
    if not repository.is_program(found):
        pytest.fail(f"there is no program {found}: bin/build makes it", pytrace=False)
    return found


@pytest.fixture(scope="session")
def module(program: Path) -> dict[str, str]:
    """The environment in which `python3 -m tdl` runs this repository's module over the program."""
    return repository.of_module(program)


@pytest.fixture(scope="session")
def libtdl() -> Any:
    """The folder of the library for C."""
    try:
        return library.named_or_current()
    except library.Unbuilt as why:
        return leave_out(f"needs libtdl: {why}")
