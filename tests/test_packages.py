"""The packages of packaging/make, and what is in them: the same bytes of each make, pages, completions, the unit, and the library as users install it.

The first commands, the examples of the manual pages and the completions run from the unpacked .deb. The names, ranges, defaults and statuses of
pages, completions and docs/CLI.md are the same, and the program answers by them.
"""
import os
import re
import shlex
import socket
import subprocess
import tarfile
from pathlib import Path
from typing import Any, Iterator

import pytest

from tools import fronts
from tools.common import Word, run, there
from tools.repository import TOP, VERSION
from tools.tests import none

LINE, ANSWER = "urn:epc:id:sgtin:0614141.812345.6789\n", "ok https://id.gs1.org/01/80614141123458/21/6789\n"
LIBRARY = ("libtdl1", "libtdl-dev")
PAGES = {"tdl": 1, "tdl-links": 1, "tdl-tables": 5, "tdl-messages": 7, "tdl-resolver": 8, "tdl-shard": 8}
FORMS = ["hex", "tag", "pure", "raw", "bracketed", "link"]
COMMANDS: dict[str, list[str]] = {
    "canon": ["pure"],
    "translate": ["pure", "hex"],
    "check": [],
    "resolve": [],
    "serve": [],
    "gen": ["1"],
    "migrate": [],
    "class canon": [],
    "class uri": [],
    "dump read": [],
    "dump write": [],
    "merge": [],
}
USAGE, SHELLS = 2, ("bash", "zsh", "fish")
# the seconds of a shortage, and of a load that fails; the most exposure that systemd may rate
SHORTAGE, FAILING_LOAD, EXPOSURE = 60, 5, 1.5


# Files


def files_below(folder: Path) -> dict[str, tuple[bytes, bool]]:
    """Returns the files of a folder with their bytes and whether they can be run."""
    paths = [path for path in sorted(folder.rglob("*")) if path.is_file()]
    return {path.relative_to(folder).as_posix(): (path.read_bytes(), os.access(path, os.X_OK)) for path in paths}


@pytest.mark.needs("mkdocs")
def test_two_makes_are_the_same_bytes(make: Any, made: Path, tmp_path: Path) -> None:
    make(tmp_path)
    first, second = files_below(made), files_below(tmp_path)
    assert [name for name in first.keys() | second.keys() if first.get(name) != second.get(name)] == []


def test_the_checksums(made: Path) -> None:
    assert run("sha256sum", "--quiet", "-c", "SHA256SUMS", cwd=made) == (0, "")


def packages(made: Path) -> list[Path]:
    """Returns the packages of Debian."""
    return [path for name in ("tdl", *LIBRARY) if (path := made / f"{name}_{VERSION}_amd64.deb").exists()]


@pytest.mark.needs("dpkg-deb")
def test_the_archive_has_the_files_of_the_packages(made: Path, tmp_path: Path) -> None:
    with tarfile.open(made / f"tdl-{VERSION}-x86_64-linux.tar.gz") as archive:
        archive.extractall(tmp_path)
    for package in packages(made):
        run("dpkg-deb", "-x", package, tmp_path / "debian")
    first, second = files_below(tmp_path / f"tdl-{VERSION}"), files_below(tmp_path / "debian")
    assert [name for name in first.keys() | second.keys() if first.get(name) != second.get(name)] == []


@pytest.mark.needs("dpkg-deb")
def test_the_fields(made: Path) -> None:
    fields = run("dpkg-deb", "-f", packages(made)[0], "Version", "Depends")[1]
    assert re.fullmatch(rf"Version: {re.escape(VERSION)}\nDepends: libc6 \(>= [\d.]+\)\n", fields), fields


@pytest.mark.needs("lintian")
def test_lintian_finds_nothing(made: Path) -> None:
    none(line for line in run("lintian", "--allow-root", *packages(made))[1].splitlines() if line[:2] in ("E:", "W:"))


def test_the_first_answer(root: Path) -> None:
    assert run(root / "usr/bin/tdl", "canon", "pure", input=LINE) == (0, ANSWER)


@pytest.mark.needs("dpkg-deb")
def test_what_the_packages_of_the_library_declare(libtdl: Path, made: Path, root: Path) -> None:
    package = packages(made)[1]
    symbols = run("dpkg-deb", "-I", package, "symbols")[1]
    assert symbols.startswith("libtdl.so.1 libtdl1 #MINVER#\n") and " tdl_open@TDL_1.0 1.0.0\n" in symbols, symbols
    assert run("dpkg-deb", "-I", package, "shlibs")[1] == f"libtdl 1 libtdl1 (>= {VERSION})\n"
    assert os.readlink(root / "usr/lib/x86_64-linux-gnu/libtdl.so") == "libtdl.so.1"


# what a user pastes, over the system's folders as they are, which stay so
PASTED = """set -e
for folder in etc usr var; do
    mkdir -p "$1/$folder" "$1/$folder.work"
    mount -t overlay overlay -o "lowerdir=/$folder,upperdir=$1/$folder,workdir=$1/$folder.work" "/$folder" || exit 77
done
shift
apt-get -qq -y -o Dpkg::Use-Pty=0 install "$1" "$2" > apt.log 2>&1 || { cat apt.log; exit 1; }
gcc "$3" $(pkg-config --cflags --libs tdl)
./a.out "$4"
gcc -static "$3" $(pkg-config --cflags --libs --static tdl)
./a.out "$4"
"""


@pytest.mark.needs("dpkg-deb", "unshare", "cc", "pkg-config")
def test_the_example_of_c_as_pasted(libtdl: Path, made: Path, tmp_path: Path) -> None:
    if os.geteuid():
        pytest.skip("needs the right to install packages")
    over, place = tmp_path / "over", tmp_path / "pasted"
    over.mkdir()
    place.mkdir()
    (place / "x.c").write_bytes((TOP / "examples/embedding/library.c").read_bytes())
    script, env = f'mount -t tmpfs tmpfs "$1"\n{PASTED}', {**os.environ, "DEBIAN_FRONTEND": "noninteractive"}
    status, printed = run("unshare", "-m", "sh", "-c", script, "sh", over, *packages(made)[1:], "x.c", LINE.strip(), cwd=place, env=env)
    if status == 77:
        pytest.skip("needs the right to mount")
    assert (status, printed) == (0, 2 * ANSWER)


# Pages


def page_of(root: Path, name: str) -> str:
    """Returns a manual page of the package."""
    return run("gzip", "-dc", root / f"usr/share/man/man{PAGES[name]}/{name}.{PAGES[name]}.gz")[1]


def examples_of(page: str) -> Iterator[tuple[str, str]]:
    """Yields the commands of a page's examples, each with what it prints."""
    for block in re.findall(r"^\.Bd -literal\n(\$ .*?)^\.Ed", page, re.MULTILINE | re.DOTALL):
        for part in re.split(r"^\$ ", block, flags=re.MULTILINE)[1:]:
            command, _, printed = part.partition("\n")
            yield command.replace(r"\e", "\\"), printed


@pytest.mark.parametrize("name", PAGES)
def test_the_examples_of_a_page_print_what_it_says(root: Path, name: str) -> None:
    env = {**os.environ, "PATH": f"{root}/usr/bin:{os.environ['PATH']}"}
    for command, printed in examples_of(page_of(root, name)):
        # (the unpacked package stands for the system's folders)
        assert run("sh", "-c", command.replace("/usr/share/tdl", f"{root}/usr/share/tdl"), env=env)[1] == printed, command


@pytest.mark.needs("mandoc")
@pytest.mark.parametrize("name", PAGES)
def test_mandoc_finds_nothing(root: Path, name: str) -> None:
    text, own = page_of(root, name), "|".join(PAGES)
    found = run("mandoc", "-T", "lint", input=text)[1].splitlines()
    none(line for line in found if not re.search(rf"referenced manual not found: Xr ({own}) \d", line))
    plain = re.sub(r".\x08", "", run("mandoc", "-T", "ascii", input=text)[1])
    assert name.upper() in plain and "SEE ALSO" in plain


def options() -> Iterator[tuple[str, set[str], str, str]]:
    """Yields the names of docs/CLI.md: each with the commands that it stands behind, what its value is, and what holds without it."""
    text = (TOP / "docs/CLI.md").read_text("utf-8")
    for name, behind, value, without in re.findall(r"^\| `(--[\w-]+)` \| ([^|]*) \| ([^|]*) \| ([^|]*) \|$", text, re.MULTILINE):
        commands = set(re.findall(r"`([a-z ]+)`", behind)) or set(COMMANDS)
        yield name, commands, value, without


def statuses(text: str) -> set[str]:
    """Returns the statuses that docs/CLI.md lists of the program."""
    section = there(re.search(r"^## Statuses\n(.*?)^## ", text, re.MULTILINE | re.DOTALL))[1]
    return {number for number, told in re.findall(r"^\| (\d+) \| (.*)", section, re.MULTILINE) if "bin/tdl" not in told}


def value_for(name: str) -> str:
    """Returns a value that a name may have."""
    return {"--keys-only": "yes", "--voc": "https://a.example/", "--stem": "https://a.example", "--listen": "no address", "--templates": "yes"}.get(name, "1")


def accepts(program: Path, command: str, *pairs: str) -> bool:
    """Returns whether the arguments are in order: else the program writes the usage line. No file of these pairs is there, so nothing is done."""
    needed = {"resolve": ["--links"], "serve": ["--links", "--count"], "merge": ["--links", "--second"], "migrate": ["--tables"]}.get(command, [])
    # (a linkset as text stands in place of one in JSON)
    given = {"--links" if name == "--link-text" else name for name in pairs}
    asked = [word for name in needed if name not in given for word in (name, value_for(name) if name == "--count" else "/absent/file")]
    return run(program, *command.split(), *COMMANDS[command], *asked, *pairs, input="")[0] != USAGE


def range_faults(program: Path, name: str, command: str, value: str) -> Iterator[str]:
    """Yields how the program differs from a range of numbers that a value is said to have."""
    found = re.match(r".*, (\d[\d,]*) to (\d[\d,]*)$", value)
    if not found:
        return
    low, high = (int(number.replace(",", "")) for number in found.groups())
    for number, is_within in ((low - 1, False), (low, True), (high, True), (high + 1, False)):
        if number >= 0 and accepts(program, command, name, str(number)) != is_within:
            yield f"{name} {number} is {'rejected' if is_within else 'accepted'}"


OPTIONS = list(options())


def test_names_of_the_page(root: Path) -> None:
    assert sorted(set(re.findall(r"^\.It Fl (-[\w-]+)", page_of(root, "tdl"), re.MULTILINE))) == sorted(name[1:] for name, *_ in OPTIONS)


@pytest.mark.parametrize("name, commands, value, without", [pytest.param(*option, id=option[0]) for option in OPTIONS])
def test_an_option_of_the_page_and_of_the_program(root: Path, name: str, commands: set[str], value: str, without: str) -> None:
    item = re.search(rf"^\.It Fl {name[1:]} .*\n((?:.*\n)*?)(?=\.It |\.El)", page_of(root, "tdl"), re.MULTILINE)
    told = re.sub(r"\s+", " ", re.sub(r"^\.(?:Cm|Ql|Xr|Ar|Fl(?= -)) ?", "", item[1].replace(".Fl -", ".Fl --"), flags=re.MULTILINE)) if item else ""
    wanted = re.findall(r"\d[\d,]* to \d[\d,]*", value) + [text for text in re.findall(r"`([^`]*)`", without) if text not in COMMANDS]
    assert [text for text in [*wanted, *(commands if commands != set(COMMANDS) else [])] if text not in told] == [], "its item lacks these"
    program = root / "usr/bin/tdl"
    assert {command for command in COMMANDS if accepts(program, command, name, value_for(name))} == commands
    none(range_faults(program, name, sorted(commands)[0], value))


def test_statuses_and_forms_of_the_page(root: Path) -> None:
    page = page_of(root, "tdl")
    assert set(re.findall(r"^\.It (\d+)$", page, re.MULTILINE)) == statuses((TOP / "docs/CLI.md").read_text("utf-8"))
    plain = re.sub(r"\s+", " ", re.sub(r"^\.\w+ ?|\\&", "", page, flags=re.MULTILINE))
    assert [form for form in FORMS if f" {form} " not in plain] == []


@pytest.mark.parametrize("page, paths", (
    ("OPERATIONS", ["systemd/tdl@.service", "systemd/tdl.target", "systemd/rollout", "fronts/nginx.conf", "fronts/haproxy.cfg"]),
    ("SHARDING", ["../shard/tdl-shard"]),
))
def test_a_document_names_the_files_that_it_explains(page: str, paths: list[str]) -> None:
    text = (TOP / f"docs/{page}.md").read_text("utf-8")
    assert [path for path in paths if f"packaging/{path}".replace("packaging/../", "") not in text] == []


# Completions


def completed(shell: str, root: Path, words: list[str]) -> list[str]:
    """Returns what a completion offers behind these words, the last of which is begun."""
    if shell == "bash":
        file = root / "usr/share/bash-completion/completions/tdl"
        asked = f"COMP_WORDS=({' '.join(map(shlex.quote, words))}); COMP_CWORD={len(words) - 1}"
        script = f'compopt() {{ :; }}; source "$0"; {asked}; _tdl; printf "%s\\n" "${{COMPREPLY[@]}}"'
        told = run("bash", "-c", script, file)[1]
    elif shell == "zsh":
        file = root / "usr/share/zsh/vendor-completions/_tdl"
        script = 'compadd() { shift; print -l -- "$@" }; _files() { }; '
        script += 'ask() { local file=$1; shift; local words=("$@"); local CURRENT=$#; source $file }; ask "$0" "$@"'
        told = run("zsh", "-f", "-c", script, file, *words)[1]
        told = "\n".join(line for line in told.splitlines() if line.startswith(words[-1]))
    else:
        file = root / "usr/share/fish/vendor_completions.d/tdl.fish"
        told = run("fish", "-N", "-c", "source $argv[1]; complete -C $argv[2]", file, " ".join(words))[1]
    return sorted({line.split("\t")[0] for line in told.splitlines() if line})


def of_each_shell(rows: list[tuple[Any, ...]]) -> list[Any]:
    """Returns each row for each shell."""
    return [pytest.param(shell, *row, id=f"{shell} {' '.join(row[0])}", marks=pytest.mark.needs(shell)) for shell in SHELLS for row in rows]


@pytest.mark.parametrize("shell, words, wanted", of_each_shell([
    (["--"], ["--help", "--version"]),
    (["canon", ""], sorted(FORMS)),
    (["translate", "hex", ""], sorted([*FORMS, "canon"])),
    (["canon", "b"], ["bracketed"]),
    (["class", ""], ["canon", "uri"]),
    (["dump", ""], ["read", "write"]),
    (["translate", "hex", "tag", "--keys-only", ""], ["no", "yes"]),
    (["translate", "hex", "tag", "--filter", ""], [*"01234567"]),
    *(([*command.split(), *operands, "--"], sorted(name for name, commands, *_ in OPTIONS if command in commands)) for command, operands in COMMANDS.items()),
]))
def test_a_completion(root: Path, shell: str, words: list[str], wanted: list[str]) -> None:
    assert completed(shell, root, ["tdl", *words]) == wanted


@pytest.mark.parametrize("shell", [pytest.param(shell, marks=pytest.mark.needs(shell)) for shell in SHELLS])
def test_commands_are_completed(root: Path, shell: str) -> None:
    assert [word for word in completed(shell, root, ["tdl", ""]) if not word.startswith("-")] == sorted({command.split()[0] for command in COMMANDS})


# The unit


def test_the_unit_asserts_that_its_linkset_is_a_file(root: Path) -> None:
    assert fronts.setting(root, "AssertFileNotEmpty") == there(re.search(r"--links (\S+)", fronts.setting(root, "ExecStart")))[1]


@pytest.fixture
def unit(root: Path, tmp_path: Path) -> Path:
    """The unit for a port."""
    # (the program of the package is not in /usr/bin here, and its page is not installed)
    text = (root / fronts.UNIT).read_text("ascii").replace("/usr/bin/tdl", f"{root}/usr/bin/tdl")
    (tmp_path / "tdl@8081.service").write_text(re.sub(r"^Documentation=.*\n", "", text, flags=re.MULTILINE), "ascii")
    return tmp_path / "tdl@8081.service"


@pytest.mark.needs("systemd-analyze")
def test_systemd_finds_nothing_in_the_unit(unit: Path) -> None:
    assert run("systemd-analyze", "verify", unit)[1] == ""


@pytest.mark.needs("systemd-analyze")
def test_the_exposure_of_the_unit(unit: Path) -> None:
    told = run("systemd-analyze", "security", "--offline=true", "--no-pager", unit)[1]
    assert float(there(re.search(r"Overall exposure level for \S+: ([\d.]+)", told))[1]) < EXPOSURE


def test_the_unit_starts_again_for_two_minutes_but_not_without_end(root: Path) -> None:
    names = ("StartLimitBurst", "RestartSec", "StartLimitIntervalSec")
    burst, pause, period = (float(fronts.setting(root, name).removesuffix("ms")) for name in names)
    assert burst * pause / 1000 >= 2 * SHORTAGE
    assert burst * pause / 1000 + burst * FAILING_LOAD < period


def test_a_process_starts_once_its_address_is_free(root: Path) -> None:
    with socket.socket() as taken:
        taken.bind((fronts.HOST, 0))
        taken.listen()
        port = taken.getsockname()[1]
        service = fronts.service(root, 8081, root / "usr/share/tdl/examples/links.json", (fronts.HOST, port))
        try:
            service.await_starts(3)
            assert service.starts >= 3
            taken.close()
            assert fronts.listens(port)
        finally:
            service.stop()


# Lines in pieces


SSH = """#!/bin/sh
# stands in for ssh: the host, then the command
host=$1
shift
[ "$1" = -- ] && shift
echo "$host" >> "$(dirname "$0")/hosts-asked"
exec sh -c "$*"
"""


@pytest.mark.needs("parallel")
@pytest.mark.parametrize("is_over_hosts", (False, True), ids=("here", "over hosts"))
def test_lines_in_pieces_by_gnu_parallel(root: Path, tmp_path: Path, is_over_hosts: bool) -> None:
    (tmp_path / "lines.txt").write_text(LINE * 2_000 + "x\n", "ascii")
    (tmp_path / "ssh").write_text(SSH, "ascii")
    (tmp_path / "ssh").chmod(0o755)
    # (without $SHELL parallel takes its parent, Python here, for the shell of the hosts, and nothing comes back)
    env = {**os.environ, "PATH": f"{root}/usr/bin:{os.environ['PATH']}", "HOME": str(tmp_path), "SHELL": "/bin/sh"}
    words: list[Word] = ["parallel", "--joblog", "log", "--will-cite", "--pipepart", "-a", "lines.txt", "-k", "--block", "20k"]
    words += ["--ssh", tmp_path / "ssh", "-S", "1/one,1/two"] if is_over_hosts else []
    status, text = run(*words, "tdl", "canon", "pure", stderr=subprocess.DEVNULL, env=env, cwd=tmp_path)
    assert text == ANSWER * 2_000 + "no reading\n"
    pieces = sorted(line.split("\t")[6] for line in (tmp_path / "log").read_text().splitlines()[1:])
    assert (status, pieces) == (1, ["0"] * (len(pieces) - 1) + ["1"])
    assert not is_over_hosts or {"one", "two"} <= set((tmp_path / "hosts-asked").read_text().split())
