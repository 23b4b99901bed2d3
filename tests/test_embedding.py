"""The ways of docs/EMBEDDING.md to tdl: the Python module, which pip installs offline from its folder and as a wheel, and the examples in C, Java and
Python, over the library and over the program.
"""
import os
import re
import subprocess
import sys
import sysconfig
from pathlib import Path
from typing import Any

import pytest

from tools import library
from tools.common import Word, printed, ran, told
from tools.repository import TOP, VERSION
from tools.tests import library_if_any, once

DOCUMENT = TOP / "docs" / "EMBEDDING.md"
EXAMPLES, MODULE = TOP / "examples" / "embedding", TOP / "python"
TEXTS = ["urn:epc:id:sgtin:0614141.812345.6789", "urn:epc:id:sgtin:x", "urn:epc:id:sscc:0614141.1234567890"]
ANSWERS = "ok https://id.gs1.org/01/80614141123458/21/6789\nno reading\nok https://id.gs1.org/00/106141412345678908\n"
LINK = ANSWERS.split()[1]
BITS, PANDAS = "3074257BF7194E4000001A85", "/usr/lib/python3/dist-packages/pandas/__init__.py"
OTHER_LISTS = f"""
import pickle, numpy, pandas, tdl
column = pickle.loads(pickle.dumps(tdl.Column("hex", "hex", filter=1)))
texts = pandas.Series(["{BITS}", "30"])
print(column(texts).values.tolist(), column(texts[:0]).equals(tdl.Column.META), tdl.Column.META.columns.tolist())
with tdl.Translator("hex", "hex") as bits:
    for texts in (texts, texts.to_numpy(), numpy.array(texts.tolist()), iter(texts), tuple(texts)):
        print(bits.translate_list(texts)[0])
    try:
        bits.translate_list(pandas.Series(["30", float("nan")]))
    except TypeError as error:
        print(error)
"""
PICKLED = f"[['{BITS}', None], [None, 'reading']] True ['answer', 'reason']\n" + f"{BITS}\n" * 5 + (
    "nan is of type float: a text is str or bytes, and an empty cell has none (tdl.Column)\n"
)
JNA = "/usr/share/java/jna.jar"
OF_THE_MODULE = {"README.md", "backend.py", "library.c", "pyproject.toml", "src", "tests", "__pycache__"}
PYTHONS = sorted(Path("/usr/bin").glob("python3.[0-9]*[0-9]"))
Environment = dict[str, str]


def document() -> list[str]:
    """Returns the Python of the document, what it says that this prints, and its lines for pandas."""
    text = DOCUMENT.read_text("utf-8")
    blocks = re.findall(r"\n\n((?:    .*\n|\n(?=    ))+)", text[text.index("## The Python module") :])
    return [re.sub(r"^    ", "", block, flags=re.M) for block in blocks[:3]]


def test_the_python_of_the_document(module: Environment) -> None:
    code, wanted, _ = document()
    assert ran(sys.executable, "-c", code, env=module) == wanted


def test_the_c_of_the_document() -> None:
    assert "".join(f"    {line}\n" if line else "\n" for line in (EXAMPLES / "library.c").read_text("ascii").splitlines()) in DOCUMENT.read_text("utf-8")


@pytest.mark.needs(PANDAS)
def test_the_recipe_for_pandas(module: Environment) -> None:
    cells = f"['{BITS}', '30', None, 'a\\nb', 5, float('nan')]"
    frame = f"import pandas, tdl\nframe = pandas.DataFrame({{'epc': {cells}}}, index=[3, 1, 4, 1, 5, 9])\n{document()[2]}"
    code = f"{frame}\nprint(frame['link'].tolist(), frame['reason'].tolist())"
    assert ran("/usr/bin/python3", "-c", code, env=module) == f"['{LINK}', None, None, None, None, None] [None, 'reading', None, 'line-feed', 'type int', None]\n"


@pytest.mark.needs(PANDAS)
def test_a_pickled_column_and_lists_of_other_types(module: Environment) -> None:
    assert ran("/usr/bin/python3", "-c", OTHER_LISTS, env=module) == PICKLED


def install(what: Path, folder: Path, environment: Environment) -> None:
    """Installs the module by pip, offline, in an empty folder."""
    environment = {name: value for name, value in environment.items() if name not in ("PYTHONPATH", "PATH")}
    offline = {**environment, "PATH": os.defpath, "PIP_NO_INDEX": "1", "PIP_DISABLE_PIP_VERSION_CHECK": "1", "PIP_ROOT_USER_ACTION": "ignore"}
    assert ran(sys.executable, "-m", "pip", "install", "-q", "--no-cache-dir", "--target", folder, what, env=offline) == ""


def answer(python: Word, folder: Path, environment: Environment, engine: str = "") -> str:
    """Returns what an installed module answers, how many AIs it counts in its own tables, and whether it has the library."""
    asked = f"tdl.Translator('pure', engine='{engine}').translate" if engine else "tdl.Translator('pure').translate"
    code = f"import tdl, tdl.library; print(tdl.__version__, tdl.check(tdl.GS1).ais > 200, {asked}('{TEXTS[0]}'), tdl.library.IS_THERE)"
    return ran(python, "-c", code, env={**environment, "PATH": os.defpath, "PYTHONPATH": str(folder)})


def test_pip_installs_the_folder(module: Environment, tmp_path: Path) -> None:
    install(MODULE, tmp_path, module)
    assert answer(sys.executable, tmp_path, module) in (f"{VERSION} True {LINK} {has_part}\n" for has_part in (True, False))
    assert sorted(path.name for path in MODULE.iterdir() if path.name not in OF_THE_MODULE) == []


@pytest.fixture(scope="module")
def has_part() -> bool:
    """Whether the wheel has its part over the library."""
    return bool(library_if_any()) and Path(sysconfig.get_path("include"), "Python.h").is_file()


@pytest.fixture(scope="module")
def of_wheel(made: Path) -> Path:
    """The folder in which pip installed the wheel."""
    (wheel,) = made.glob("*.whl")
    return once("of-wheel", lambda folder: install(wheel, folder, without(os.environ)))


def without(environment: Any) -> Environment:
    """Returns an environment without a program for the module."""
    return {name: value for name, value in environment.items() if name != "TDL"}


def test_pip_installs_the_wheel(made: Path, of_wheel: Path, has_part: bool) -> None:
    assert answer(sys.executable, of_wheel, without(os.environ)) == f"{VERSION} True {LINK} {has_part}\n"
    assert any("-cp39-abi3-" in wheel.name for wheel in made.glob("*.whl")) == has_part


@pytest.mark.parametrize("python", PYTHONS, ids=lambda python: str(python.name))
def test_each_python_has_the_library_of_the_wheel(libtdl: Path, of_wheel: Path, python: Path) -> None:
    assert answer(python, of_wheel, without(os.environ), "library") == f"{VERSION} True {LINK} True\n"


def test_the_wheel_passes_tests_of_the_module(libtdl: Path, of_wheel: Path) -> None:
    environment = {**without(os.environ), "PYTHONPATH": str(of_wheel), "PATH": f"{of_wheel}/tdl/bin:{os.environ['PATH']}"}
    words = [sys.executable, "-m", "unittest", "discover", "-s", str(MODULE / "tests"), "-p", "test_csv.py"]
    tests = subprocess.run(words, env=environment, stderr=subprocess.PIPE, text=True)
    assert tests.returncode == 0, tests.stderr


@pytest.mark.parametrize("name, build, run", (
    pytest.param("library.c", ["cc", "-O2", "-Wall", "-Wextra", "-I", library.HEADER.parent, "-o", "library"], ["./library"], marks=pytest.mark.needs("cc")),
    pytest.param("Library.java", ["javac", "-cp", JNA, "-d", "."], ["java", "-cp", f"{JNA}:.", "Library"], marks=pytest.mark.needs("javac", JNA)),
), ids=("C", "Java"))
def test_an_example_over_the_library(libtdl: Path, tmp_path: Path, name: str, build: list[Word], run: list[Word]) -> None:
    printed(*build, EXAMPLES / name, *([libtdl / library.ARCHIVE] if name.endswith(".c") else []), cwd=tmp_path, check=True)
    words = [run[0], *([f"-Djna.library.path={libtdl}"] if name.endswith(".java") else []), *run[1:]]
    assert ran(*words, *TEXTS, cwd=tmp_path) == ANSWERS
    assert ran(*words, *[TEXTS[0]] * 3_000, cwd=tmp_path).splitlines()[-1] == ANSWERS.splitlines()[0]


@pytest.mark.parametrize("name, build, run", (
    pytest.param("translate.c", ["cc", "-O2", "-Wall", "-D_GNU_SOURCE", "-o", "translate"], ["./translate"], marks=pytest.mark.needs("cc")),
    pytest.param("Translate.java", ["javac", "-d", "."], ["java", "-cp", ".", "Translate"], marks=pytest.mark.needs("javac")),
    ("translate.py", [], [sys.executable, EXAMPLES / "translate.py"]),
), ids=("C", "Java", "Python"))
def test_an_example_over_the_program(module: Environment, tmp_path: Path, name: str, build: list[Word], run: list[Word]) -> None:
    if build:
        printed(*build, EXAMPLES / name, cwd=tmp_path, check=True)
    assert ran(*run, *TEXTS, cwd=tmp_path, env=module) == ANSWERS
    first = ANSWERS.splitlines()[0]
    assert ran(*run, *[TEXTS[0]] * 3_000, cwd=tmp_path, env=module).splitlines()[0] == first
    # a text with a line feed is rejected, and the program is asked nothing
    done = subprocess.run([*told(run), f"{TEXTS[0]}\n{TEXTS[0]}"], cwd=tmp_path, env=module, capture_output=True, text=True)
    assert done.returncode != 0 and not done.stdout and "a text has no line feed" in done.stderr


def test_each_example_is_tried() -> None:
    assert sorted(os.listdir(EXAMPLES)) == ["Library.java", "Translate.java", "library.c", "translate.c", "translate.py"]
