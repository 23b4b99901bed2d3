"""libtdl, the translator for C, asked by checks/library.c: the program's answers, buffers, handles, threads and denied memory, under valgrind and the
address sanitizers too.

Calls with buffers of each length around the answer's, with handles that have no session, with numbers out of range and any bytes. Each request
for memory of each call is denied in turn: the status is TDL_MEMORY and the handle works. Eight threads ask a handle each, with tables of their own
and with the same ones, then one behind a lock. Sessions are opened and closed 1,000,000 times over a small document and 300 times over the built-in
tables (with --whole 1,000,000 times: an hour and more), and hold no byte more.
"""
import json
import os
import random
import re
import subprocess
from pathlib import Path
from typing import Any, Callable, Optional

import pytest

from tools import common, library
from tools.cases import Case, bytes_of, joined, lay_out, subjects
from tools.common import Word, there
from tools.made_lines import FORMS, lines_of
from tools.repository import TOP, VERSION
from tools.tests import same

pytestmark = pytest.mark.needs("cc", "c++", "objdump")
SOURCE, TABLES = TOP / "checks" / "library.c", TOP / "tables"
TARGETS = [*FORMS, "canon"]
WARNINGS = ["-Wall", "-Wextra", "-Wpedantic", "-Werror"]
SANITIZED = ["-g", "-O1", "-fsanitize=address", "-fno-omit-frame-pointer"]
DENYING = ["-DWRAPPED", "-Wl,--wrap=malloc,--wrap=realloc"]
VALGRIND = ["valgrind", "-q", "--error-exitcode=99", "--leak-check=full", "--show-leak-kinds=all"]
# sessions over a small document, over the built-in tables, and requests of an opening of which one is denied under valgrind
SMALL, BUILT_IN, STEP = 1_000_000, 300, 397
# blocks that glibc would keep for a thread count as held by it
EXACT = {**os.environ, "GLIBC_TUNABLES": "glibc.malloc.tcache_count=0"}
DOCUMENT = {
    "version": 1,
    "ais": [{"code": "01", "parts": ["n14c"], "role": "key", "qualifiers": []}],
    "kinds": [],
    "binary": [],
    "tag": [],
    "pure": [],
}
NONE = {"--filter": "255", "--gcp": "0", "--keys-only": "no", "--encoding": "", "--stem": "https://id.gs1.org", "--tables": "-", "--prefixes": "-"}
# the programs that are made of library.c: the compiler and its flags
BUILDS: dict[str, tuple[str, ...]] = {
    "plain": ("cc", "-g", "-O1"), "shared": ("cc", "-g", "-O1"), "denying": ("cc", "-g", "-O1", *DENYING),
    "gcc": ("gcc", *SANITIZED), "clang": ("clang", *SANITIZED),
}
Build = Callable[[str], Path]


def ran(*words: Word) -> str:
    """Returns what a command prints, errors too, behind its status if it is not 0."""
    return common.ran(*words, stderr=subprocess.STDOUT)


@pytest.fixture(scope="module")
def build(libtdl: Path, tmp_path_factory: pytest.TempPathFactory) -> Build:
    """A function that compiles library.c in one of the ways, once, and returns the program."""
    room = tmp_path_factory.mktemp("library")

    def made(name: str) -> Path:
        to = room / name
        if not to.is_file():
            shared: list[Word] = ["-L", libtdl, f"-l:{library.SONAME}", f"-Wl,-rpath,{libtdl}"]
            words: list[Word] = ["-std=c11", "-D_GNU_SOURCE", *WARNINGS, *BUILDS[name][1:], "-I", library.HEADER.parent, "-o", to, SOURCE]
            assert ran(BUILDS[name][0], *words, *(shared if name == "shared" else [libtdl / library.ARCHIVE]), "-lpthread") == ""
        return to

    return made


def does(*words: Word, **how: Any) -> str:
    """Runs a program, which has to end with status 0 and print nothing on standard error, and returns what it prints."""
    done: subprocess.CompletedProcess[str] = subprocess.run(common.told(words), stdout=subprocess.PIPE, stderr=subprocess.PIPE, text=True, errors="replace", **how)
    assert (done.returncode, done.stderr) == (0, ""), done.stdout[-500:]
    return done.stdout


def test_exports_what_its_map_names_and_needs_only_the_c_library(libtdl: Path) -> None:
    head = ran("objdump", "-p", libtdl / library.SONAME)
    assert re.findall(r"SONAME +(\S+)", head) == [library.SONAME]
    assert re.findall(r"NEEDED +(\S+)", head) == ["libc.so.6"]
    named = sorted(set(re.findall(r"^ +(tdl_\w+);", library.MAP.read_text("ascii"), re.MULTILINE)))
    assert sorted(re.findall(r" T (\w+)@@TDL_1\.0", ran("nm", "-D", "--defined-only", libtdl / library.SONAME))) == named
    assert sorted(set(re.findall(r"^\w+ (tdl_\w+)\(", library.HEADER.read_text("ascii"), re.MULTILINE))) == named


@pytest.mark.parametrize("words", (("cc", "-std=c99"), ("cc", "-std=c11"), ("c++", "-std=c++11", "-xc++")), ids=("C99", "C11", "C++"))
def test_compilers_read_its_header_with_its_example(libtdl: Path, tmp_path: Path, words: tuple[str, ...]) -> None:
    example = there(re.search(r"^   (    tdl_handle handle.*?tdl_close\(&handle\);)", library.HEADER.read_text("ascii"), re.MULTILINE | re.DOTALL))[1]
    source, made = tmp_path / "example.c", tmp_path / "example"
    body = f'{example}\nprintf("%u\\n", (unsigned)tdl_version_number());\nreturn 0;\n'
    source.write_text(f'#include "tdl.h"\n#include <stdio.h>\n\nint main(void) {{\n{body}}}\n', "ascii")
    assert ran(*words, *WARNINGS, "-I", library.HEADER.parent, "-o", made, source, "-xnone", libtdl / library.ARCHIVE) == ""
    major, minor, patch = map(int, VERSION.split("."))
    assert ran(made) == f"https://id.gs1.org/01/80614141123458/21/6789\n{10_000 * major + 100 * minor + patch}\n"


@pytest.mark.parametrize("name, words", (
    ("plain", ["calls"]), ("shared", ["calls"]), ("denying", ["faults"]), ("plain", ["threads"]),
    *(pytest.param(name, ["calls"], marks=pytest.mark.needs(name)) for name in ("gcc", "clang")),
    *(pytest.param(name, ["threads"], marks=pytest.mark.needs(name)) for name in ("gcc", "clang")),
))
def test_calls(build: Build, name: str, words: list[str]) -> None:
    does(build(name), *words)


@pytest.mark.needs("valgrind")
@pytest.mark.parametrize("name, words", (("plain", ["calls"]), ("denying", ["faults", STEP])))
def test_calls_under_valgrind(build: Build, name: str, words: list[Word]) -> None:
    does(*VALGRIND, build(name), *words)


@pytest.mark.parametrize("count, is_small", ((2 * SMALL // 3, True), (BUILT_IN, False), pytest.param(SMALL, False, marks=pytest.mark.whole)))
def test_sessions_hold_no_byte_more(build: Build, tmp_path: Path, count: int, is_small: bool) -> None:
    (tmp_path / "small.json").write_text(json.dumps(DOCUMENT), "ascii")
    does(build("plain"), "churn", count, tmp_path / "small.json" if is_small else "-", env=EXACT)


def options_of(words: list[str]) -> Optional[dict[str, str]]:
    """Returns the options of a translation, by their names, or nothing if the library has not all of them."""
    options = {**NONE, **dict(zip(words[::2], words[1::2]))}
    return options if len(words) % 2 == 0 and len(options) == len(NONE) and len({*words[::2]}) == len(words) // 2 else None


def answers(driver: Path, mode: str, source: str, target: str, options: dict[str, str], given: bytes, folder: Optional[Path] = None) -> bytes:
    """Returns what the driver prints for lines, one call for each or one for all."""
    numbers = [list(FORMS).index(source), TARGETS.index(target), options["--filter"], options["--gcp"], int(options["--keys-only"] == "yes")]
    words = [driver, "answers", mode, *map(str, numbers), options["--encoding"], options["--stem"], options["--tables"], options["--prefixes"]]
    done = subprocess.run([*map(bytes_of, map(str, words))], input=given, cwd=folder, stdout=subprocess.PIPE, stderr=subprocess.PIPE)
    return done.stdout + done.stderr + (b"" if not done.returncode else b"status %d" % done.returncode)


@pytest.mark.parametrize("target, words", (
    *((target, words) for target in TARGETS for words in ("", "--filter 1 --gcp 7", "--keys-only yes")),
    *(("canon", f"--tables {TABLES}/{name}.json") for name in ("builtin", "epcis", "gs1")),
), ids=lambda value: Path(value).name)
@pytest.mark.parametrize("form", FORMS)
def test_lines_have_the_answers_of_the_program(build: Build, program: Path, form: str, target: str, words: str) -> None:
    random.seed(43)
    data = "".join(line + "\n" for line in lines_of(form, json.loads((TABLES / "builtin.json").read_text("ascii")))).encode("latin-1")
    wanted = subprocess.run([program, "translate", form, target, *words.split()], input=data, stdout=subprocess.PIPE).stdout
    for mode in ("one", "lines"):
        same(wanted, answers(build("plain"), mode, form, target, there(options_of(words.split())), data))


def translations() -> list[Any]:
    """Returns the cases of checks/cases that translate lines, or whose tables or prefixes are rejected: a form, a target, options, and the case."""
    found = []
    for subject, cases in subjects():
        for case in cases:
            words = [bytes_of(word).decode("latin-1") for word in case["words"]]
            source, target, more = (words[1:2], ["canon"], words[2:]) if words[:1] == ["canon"] else (words[1:2], words[2:3], words[3:])
            options = options_of(more)
            is_asked = words[:1] in (["canon"], ["translate"]) and source and source[0] in FORMS and target and target[0] in TARGETS
            is_whole = case["status"] in (0, 1, 3) and not case.keys() & {"stdin", "stdout", "pattern", "sparse", "folders", "broken", "room"}
            files = {*case.get("files", {}), *case.get("lent", {})}
            if is_asked and options and is_whole and all(options[name] in ("-", *files) for name in ("--tables", "--prefixes")):
                found.append(pytest.param(source[0], target[0], options, case, id=f"{subject}: {case['name']}"))
    return found


TRANSLATIONS = translations()


def test_many_cases_are_translations() -> None:
    assert len(TRANSLATIONS) > 100


@pytest.mark.parametrize("source, target, options, case", TRANSLATIONS)
def test_cases(build: Build, tmp_path: Path, source: str, target: str, options: dict[str, str], case: Case) -> None:
    lay_out(case, os.fsencode(tmp_path))
    for mode in ("one", "lines"):
        same(joined(case, "output", 1), answers(build("plain"), mode, source, target, options, joined(case, "input", 0), tmp_path))
