"""The interface of libtdl: what tdl.h promises of it for later versions, and the calls beside the translation of a text.

Those of `class` and `dump` answer the cases of checks/cases as the commands do. The C of it (each pointer null, each size of a choice, buffers of
each length, denied memory) is in library.c, which test_library.py runs under valgrind and the sanitizers.
"""
import ctypes
import re
import shutil
from pathlib import Path
from typing import Any

import pytest

from tools import cases, interface, library, messages
from tools.common import PATIENCE, Word, ran
from tools.repository import TOP, VERSION

OK, NO, SMALL, MEMORY, ARGUMENT, TABLES, PREFIXES, SHUT, CLASSES = range(9)
FORMS = {"hex": 0, "tag": 1, "pure": 2, "raw": 3, "bracketed": 4, "link": 5, "canon": 6}
ROOM, STEM, LEAST_STACK = 8192, b"https://id.gs1.org", 256 * 1024
PURE, LINK = b"urn:epc:id:sgtin:0614141.812345.6789", b"https://id.gs1.org/01/80614141123458/21/6789"
EXAMPLES, JAVA = TOP / "examples" / "library", TOP / "examples" / "embedding" / "Library.java"
JNA = "/usr/share/java/jna.jar"
# what each example is asked, and what it prints: an identity, an empty text, rejections with their reasons, and more texts than threads
ASKED = [PURE.decode(), "", "urn:epc:id:sgtin:x", "urn:epc:id:sscc:0614141.1234567890", "\u00e4", *[PURE.decode()] * 9]
ANSWERED = [f"ok {LINK.decode()}", "no reading", "no reading", "ok https://id.gs1.org/00/106141412345678908", "no reading", *[f"ok {LINK.decode()}"] * 9]
OF_CASES = [
    pytest.param(case, id=case["name"][:60])
    for subject, some in cases.subjects()
    if subject in ("class", "dump", "classes")
    for case in some
    if case["words"][:2] in (["class", "canon"], ["class", "uri"], ["dump", "read"], ["dump", "write"]) and case["status"] in (0, 1, 3)
    # (the library takes documents of any size)
    if not cases.joined(case, "output", 1).endswith(b" over\n")
]


class Choice(ctypes.Structure):
    """The choice of a session, as tdl.h has it."""

    _fields_ = [
        ("size", ctypes.c_size_t),
        ("from_", ctypes.c_uint8),
        ("to", ctypes.c_uint8),
        ("filter", ctypes.c_uint8),
        ("gcp", ctypes.c_uint8),
        ("flags", ctypes.c_uint32),
    ]


class Session:
    """A session of the library, asked as C asks it: an empty text is a null pointer."""

    def __init__(self, folder: Path, source: str, target: str) -> None:
        self.calls, self.handle = ctypes.CDLL(str(folder / library.SONAME)), ctypes.c_void_p()
        self.choice = Choice(ctypes.sizeof(Choice), FORMS[source], FORMS[target], 255, 0, 0)
        self.out, self.length = ctypes.create_string_buffer(ROOM), ctypes.c_size_t()

    def open(self, tables: bytes = b"", prefixes: bytes = b"") -> int:
        """Opens the session, and returns the status."""
        words = [word for text in (b"", STEM, tables, prefixes) for word in given(text)]
        return int(self.calls.tdl_open(ctypes.byref(self.handle), ctypes.byref(self.choice), *words, *self.room()))

    def ask(self, call: str, text: bytes) -> int:
        """Makes a call for a text, and returns the status."""
        return int(getattr(self.calls, call)(ctypes.byref(self.handle), *given(text), *self.room()))

    def room(self) -> tuple[Any, ...]:
        """The buffer, its size, and the place of the length."""
        return self.out, ctypes.c_size_t(ROOM), ctypes.byref(self.length)

    def said(self) -> bytes:
        """What the last call has put into the buffer."""
        return bytes(self.out.raw[: self.length.value])

    def close(self) -> None:
        """Closes the session."""
        self.calls.tdl_close(ctypes.byref(self.handle))


def given(text: bytes) -> tuple[Any, Any]:
    """A text as a pointer and a length."""
    return text or None, ctypes.c_size_t(len(text))


def option(case: dict[str, Any], name: str) -> bytes:
    """The content of the file that an option of a case names, or nothing."""
    words = case["words"]
    if name not in words:
        return b""
    file = words[words.index(name) + 1]
    return (TOP / str(case["lent"][file])).read_bytes() if file in case.get("lent", {}) else cases.content_of(case["files"][file])


def answered(session: Session, call: str, lines: bytes) -> bytes:
    """The answer lines of a call to each line."""
    out = b""
    for line in lines.splitlines() if b"\r" not in lines else [line for line in re.split(rb"\n", lines)[:-1]]:
        status = session.ask(call, line[:-1] if line.endswith(b"\r") else line)
        assert status in (OK, NO), status
        out += (b"ok " if status == OK else b"no ") + session.said() + b"\n"
    return out


def output_of(folder: Path, case: dict[str, Any]) -> bytes:
    """What the command of a case prints, by the library."""
    call, session = "_".join(case["words"][:2]), Session(folder, "link", "canon")
    if "--gcp" in case["words"]:
        session.choice.gcp = int(case["words"][case["words"].index("--gcp") + 1])
    try:
        status = session.open(option(case, "--tables"), option(case, "--prefixes"))
        if status == OK and call.startswith("class"):
            status = session.ask("tdl_load_classes", option(case, "--classes"))
        if status != OK:
            return b"refused " + {TABLES: b"tables", PREFIXES: b"prefixes", CLASSES: b"classes"}[status] + b" " + session.said() + b"\n"
        return answered(session, f"tdl_{call}", cases.joined(case, "input", 0))
    finally:
        session.close()


@pytest.mark.parametrize("case", OF_CASES)
def test_classes_and_dumps(libtdl: Path, case: dict[str, Any]) -> None:
    """The calls of classes and dumps answer as the commands have to."""
    wanted = case.get("pattern")
    got = output_of(libtdl, case)
    if wanted is not None:
        assert re.fullmatch(cases.bytes_of(wanted), got)
    else:
        assert got == cases.joined(case, "output", 1)


def test_version(libtdl: Path) -> None:
    """The library and the header say the version of the file VERSION."""
    major, minor, patch = map(int, VERSION.split("."))
    number = 10_000 * major + 100 * minor + patch
    found = re.search(r"^#define TDL_VERSION_NUMBER (\d+)$", library.HEADER.read_text("ascii"), re.MULTILINE)
    assert found and int(found[1]) == number
    assert ctypes.CDLL(str(libtdl / library.SONAME)).tdl_version_number() == number


def test_numbers() -> None:
    """The numbers of forms and statuses stay as they are: programs have them compiled in."""
    text = re.sub(r"/\*.*?\*/", "", library.HEADER.read_text("ascii"), flags=re.DOTALL)
    forms, statuses, kinds = enumerators(text)
    assert forms == [name.upper() for name in FORMS]
    assert statuses == ["OK", "NO", "SMALL", "MEMORY", "ARGUMENT", "TABLES", "PREFIXES", "SHUT", "CLASSES"]
    # the kinds: the first words of the reasons that docs/MESSAGES.md has for lines, in its order, each once
    listed = dict.fromkeys(message.split()[1] for message, _ in messages.rows() if message.startswith("no "))
    assert kinds == ["NO_REJECTION", *(word.upper().replace("-", "_") for word in listed)]


def enumerators(header: str) -> list[list[str]]:
    """The names of each enumeration of the header, without TDL_."""
    return [re.findall(r"TDL_(\w+)", body) for body in re.findall(r"^enum \{(.*?)\};", header, re.MULTILINE | re.DOTALL)]


OF_MESSAGES = [
    pytest.param(message, *example, id=message)
    for message, example in messages.rows()
    if example and example[0][0] in ("canon", "translate") and message.startswith("no ") and "--tables" not in example[0]
]


@pytest.mark.parametrize("message, words, text", OF_MESSAGES)
def test_kinds(libtdl: Path, message: str, words: list[str], text: str) -> None:
    """The kind of a rejection is that of its printed reason, and its place the numbers in it."""
    session = Session(libtdl, words[1], "canon" if words[0] == "canon" else words[2])
    for name, value in zip(words, words[1:]):
        if name in ("--gcp", "--filter"):
            setattr(session.choice, name[2:], int(value))
    encoding = words[words.index("--encoding") + 1] if "--encoding" in words else ""
    opening = [word for part in (encoding.encode(), STEM, b"", b"") for word in given(part)]
    assert session.calls.tdl_open(ctypes.byref(session.handle), ctypes.byref(session.choice), *opening, *session.room()) == OK
    kind, at, character = ctypes.c_uint32(), ctypes.c_size_t(), ctypes.c_size_t()
    found = [ctypes.byref(number) for number in (kind, at, character)]
    assert session.calls.tdl_why(ctypes.byref(session.handle), *given(text.encode("ascii")), *found) == NO
    assert session.ask("tdl_translate", text.encode("ascii")) == NO
    said = session.said().decode("ascii").split()
    session.close()
    assert enumerators(re.sub(r"/\*.*?\*/", "", library.HEADER.read_text("ascii"), flags=re.DOTALL))[2][kind.value] == said[0].upper()
    assert said[0] == message.split()[1]
    places = [int(word) for word, name in zip(said[1:], message.split()[2:]) if name in ("P", "AT", "I")]
    assert [at.value, character.value] == (places + [2**64 - 1] * 2)[:2]


@pytest.mark.needs("cc", "mandoc")
def test_page(libtdl: Path, tmp_path: Path) -> None:
    """The manual page has the functions of the header, and an example that prints a link; mandoc finds nothing, and no line is too long."""
    page = TOP / "packaging" / "man" / "tdl.3"
    text, header = page.read_text("ascii"), library.HEADER.read_text("ascii")
    named = re.findall(r"^\w+ (tdl_\w+)\(", header, re.MULTILINE)
    assert sorted(re.findall(r"^\.F[on] (tdl_\w+)", text.partition(".Sh DESCRIPTION")[0], re.MULTILINE)) == sorted(named)
    # (tdl-messages(7) has the kinds)
    names = set(re.findall(r"TDL_(\w+)", header)) - {"H", "VERSION_NUMBER"} - set(enumerators(re.sub(r"/\*.*?\*/", "", header, flags=re.DOTALL))[2])
    assert not names - set(re.findall(r"TDL_(\w+)", text))
    found = ran("mandoc", "-T", "lint", page)
    assert not [line for line in found.splitlines() if "mandoc" in line and "referenced manual not found" not in line]
    assert max(map(len, text.splitlines())) <= 80
    source = re.search(r"^\.Bd -literal -offset indent\n(.*?)^\.Ed", text, re.MULTILINE | re.DOTALL)
    assert source
    (tmp_path / "tag.c").write_text(source[1].replace(r"\e", "\\"), "ascii")
    words: list[Word] = ["cc", "-Wall", "-Werror", "-I", library.HEADER.parent, "-o", tmp_path / "tag", tmp_path / "tag.c", libtdl / library.ARCHIVE]
    assert ran(*words, timeout=PATIENCE) == ""
    assert ran(tmp_path / "tag") == f"{LINK.decode()}\n"


@pytest.mark.parametrize("size", [0, 9, 10, 11, 12, 15, 16, 17, 24, 2**63, 2**64 - 1])
def test_sizes(libtdl: Path, size: int) -> None:
    """Of a choice those options count that end within its size; a size that is too small or too large is rejected."""
    session = Session(libtdl, "link", "hex")
    session.choice = Choice(size, FORMS["link"], FORMS["hex"], 3, 7, 1)
    assert session.open() == (OK if 10 <= size <= 16 else ARGUMENT)
    if 10 <= size <= 16:
        wanted = (OK, b"3074257BF7194E4000001A85") if size >= 12 else (NO, b"missing gcp")
        assert (session.ask("tdl_translate", LINK), session.said()) == wanted
        # (the lot goes if only the key is kept)
        status = session.ask("tdl_translate", b"https://id.gs1.org/01/80614141123458/10/A/21/6789")
        assert (status, session.said()) == (wanted if size == 16 else (NO, b"extra 10"))
    session.close()


@pytest.mark.parametrize("flags", [0, 1, 2, 3, 1 << 31])
def test_flags(libtdl: Path, flags: int) -> None:
    """Only the flag that is known is taken."""
    session = Session(libtdl, "link", "canon")
    session.choice.flags = flags
    assert session.open() == (OK if flags < 2 else ARGUMENT)
    session.close()


@pytest.mark.parametrize("call", ["tdl_class_canon", "tdl_class_uri"])
def test_no_classes(libtdl: Path, call: str) -> None:
    """A session without classes says so, and one whose handle is closed is shut."""
    session = Session(libtdl, "link", "canon")
    assert (session.ask(call, PURE), session.length.value) == (SHUT, 0)
    assert session.open() == OK
    assert (session.ask(call, PURE), session.length.value) == (CLASSES, 0)
    session.close()
    session.close()
    assert (session.ask("tdl_load_classes", b""), session.length.value) == (SHUT, 0)


@pytest.mark.needs("cc")
def test_stack(libtdl: Path, tmp_path: Path) -> None:
    """All calls fit in the stack that tdl.h names, the system's part of a thread included."""
    words: list[Word] = ["cc", "-std=c11", "-D_GNU_SOURCE", "-O1", "-I", library.HEADER.parent, "-o", tmp_path / "library"]
    words += [TOP / "checks" / "library.c", libtdl / library.ARCHIVE, "-lpthread"]
    assert ran(*words, timeout=PATIENCE) == ""
    assert ran(tmp_path / "library", "stack", LEAST_STACK, timeout=PATIENCE) == ""
    assert f"{LEAST_STACK // 1024} KiB of stack" in library.HEADER.read_text("ascii")


@pytest.mark.needs("cc", "abidiff")
def test_binary_interface(tmp_path: Path) -> None:
    """A program that was compiled by the kept description of the interface runs with the library of the header as it stands."""
    described = interface.described(tmp_path)
    assert interface.broken(described) == ""
    assert described == interface.DESCRIPTION.read_text("utf-8"), "the interface has more than its description: python3 -m tools.interface --write"


@pytest.mark.needs("cc", "pkg-config")
@pytest.mark.parametrize("is_static", [False, True])
def test_pkg_config(libtdl: Path, tmp_path: Path, is_static: bool) -> None:
    """The flags of pkg-config link a program, with the shared library and static."""
    (tmp_path / "tdl.h").symlink_to(library.HEADER)
    for name, to in ((library.SONAME, "libtdl.so"), (library.SONAME, library.SONAME), (library.ARCHIVE, library.ARCHIVE)):
        (tmp_path / to).symlink_to(libtdl / name)
    flags = interface.flags(tmp_path, is_static)
    source = TOP / "examples" / "embedding" / "library.c"
    more = ["-static"] if is_static else [f"-Wl,-rpath,{tmp_path}"]
    assert ran("cc", *more, "-o", tmp_path / "asks", source, *flags, timeout=PATIENCE) == ""
    assert ran(tmp_path / "asks", PURE) == f"{ANSWERED[0]}\n"


@pytest.mark.needs("objdump")
def test_symbols(libtdl: Path) -> None:
    """The shared library has the symbols of the header and no other; the archive defines no name that a program might have."""
    named = set(re.findall(r"^(?:\w+ )(tdl_\w+)\(", library.HEADER.read_text("ascii"), re.MULTILINE))
    assert named == set(re.findall(r" T (\w+)@@TDL_1\.0", ran("nm", "-D", "--defined-only", libtdl / library.SONAME)))
    defined = set(re.findall(r" [A-Z] (\w+)$", ran("nm", "-g", "--defined-only", libtdl / library.ARCHIVE), re.MULTILINE))
    assert named <= defined and not [name for name in defined - named if not name.startswith(("rattle", "tdl_"))]


def as_documented(name: str) -> tuple[str, str]:
    """The commands of docs/EMBEDDING.md that build and run an example."""
    rows = [line.split(" | ") for line in (TOP / "docs" / "EMBEDDING.md").read_text("utf-8").splitlines() if f"/{name} |" in line]
    (row,) = rows
    built, run = (cell.strip("`| ") for cell in row[2:])
    return built, run


@pytest.mark.parametrize(
    "name",
    [
        pytest.param("library.cpp", marks=pytest.mark.needs("c++", "pkg-config")),
        pytest.param("library.go", marks=pytest.mark.needs("go", "cc", "pkg-config")),
        pytest.param("library.rs", marks=pytest.mark.needs("rustc", "cc", "pkg-config")),
        pytest.param("Library.cs", marks=pytest.mark.needs("mcs", "mono")),
        pytest.param("Library.java", marks=pytest.mark.needs("javac", JNA)),
        pytest.param("library.js", marks=pytest.mark.needs("node", "/usr/include/node/node_api.h", "cc", "pkg-config")),
    ],
)
def test_example(libtdl: Path, tmp_path: Path, name: str) -> None:
    """An example answers, in threads, an identity, an empty text and texts that are rejected, with their reasons."""
    (tmp_path / "tdl.h").symlink_to(library.HEADER)
    for to in ("libtdl.so", library.SONAME):
        (tmp_path / to).symlink_to(libtdl / library.SONAME)
    for path in [*EXAMPLES.iterdir(), JAVA]:
        shutil.copy(path, tmp_path)
    built, run = as_documented(name)
    how: dict[str, Any] = {"cwd": tmp_path, "env": interface.environment(tmp_path), "timeout": PATIENCE}
    assert ran("sh", "-c", built, **how) == ""
    assert ran("sh", "-c", run.replace("TEXT..", '"$@"'), "sh", *ASKED, **how).splitlines() == ANSWERED
