"""mypy and flake8 find nothing in what setup.cfg names, each launcher has its module in tools, and tables/make would write tables/ as it is."""
import pytest

from tools.common import ran
from tools.repository import TOP

# what runs a module of tools, the other launcher among them
LAUNCHER, OTHER = (TOP / "bin" / "test").read_bytes(), TOP / "bin" / "tdl"


@pytest.mark.needs("mypy")
def test_types() -> None:
    """The tools, the tests, the Python module and tdl-shard have types."""
    assert ran("mypy", "--no-error-summary", cwd=TOP) == ""


@pytest.mark.needs("flake8")
def test_style() -> None:
    """flake8 finds nothing in them."""
    assert ran("flake8", "conftest.py", "tools", "tests", "python", "shard/tdl-shard", cwd=TOP) == ""


@pytest.mark.parametrize("name", ["bin", "bench", "packaging", "tables"])
def test_launchers(name: str) -> None:
    """Each launcher has its module, and each module its launcher."""
    launchers = {path.name for path in (TOP / name).iterdir() if path == OTHER or path.is_file() and path.read_bytes() == LAUNCHER}
    assert launchers == {path.stem for path in (TOP / "tools" / name).glob("*.py")}


def test_tables() -> None:
    """tables/make writes the files of tables/ as they are."""
    assert ran(TOP / "tables" / "make", "--check") == ""
