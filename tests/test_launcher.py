"""bin/tdl and bin/try in each of their states, in a copy of the repository with nothing built, and bin/build there.

`rt` is a stand-in that runs the program as `rt try` runs the sources: in a folder of its own, with the files that are handed in, the output at the
end, and the same limits and last line; its `rt ci` takes a moment and leaves the program. With --whole the runs without proofs go through the kit's
own `rt`, too, each of which takes a minute.
"""
import os
import pty
import re
import shutil
import signal
import subprocess
import sys
import tempfile
from pathlib import Path
from threading import Thread
from time import sleep
from typing import Any, Iterator, Optional, Sequence, Union

import pytest

from tools import costs, recorded, repository
from tools.bin.tdl import FILE_NAMES
from tools.common import PIPES, Process, Word, begun, run, temporary, there, told
from tools.repository import TOP

# status, output and errors
Got = tuple[int, bytes, str]

pytestmark = pytest.mark.xdist_group("launcher")
LINE = b"urn:epc:id:sgtin:0614141.812345.6789\n"
ANSWER = b"ok https://id.gs1.org/01/80614141123458/21/6789\n"
NOBODY = 65534
TOOLS = ("sh", "python3", "find", "dirname", "readlink", "printf", "echo")
UNPROVED, OLDER = "without proofs", "older than its sources"
# the statuses with which the program writes a line to standard error
SAID = {2, 4, 5, 6, 8, 9}
STAND_IN = r'''#!/usr/bin/env python3
"""Stands in for the kit's rt."""
import os, pathlib, shutil, subprocess, sys, tempfile, time

# status, output and errors
Got = tuple[int, bytes, str]
PROGRAM, DELAY, KIT, FAILS, LATE = (os.environ[f"STAND_IN_{name}"] for name in ("PROGRAM", "DELAY", "KIT", "FAILS", "LATE"))
words = sys.argv[1:]
if words == ["version"]:
    print(KIT)
elif words == ["ci"]:
    names = [line.partition("#")[0].partition(":")[0] for line in open("crates.txt")]
    for name in (name.split()[0] for name in names if name.strip()):
        os.makedirs(f"crates/{name}/out/rlib/{name}.rlib")
        time.sleep(float(DELAY))
        print(f"rt: {name} {'NOT PROVED' if name == FAILS else 'proved'}", flush=True)
    shutil.copyfile(PROGRAM, "crates/tdl/out/tdl")
    os.chmod("crates/tdl/out/tdl", 0o755)
    sys.exit(1 if FAILS else 0)
else:
    cut = words.index("--") if "--" in words else len(words)
    flags, arguments = words[1:cut], words[cut + 1:]
    given = b""
    while True:
        piece = os.read(0, 1 << 20)
        if not piece:
            break
        given += piece
    time.sleep(float(DELAY))

    def run(arguments, given):
        with tempfile.TemporaryDirectory() as folder:
            for flag, word in zip(flags[::2], flags[1::2]):
                if flag == "--data":
                    name, _, path = word.partition("=")
                    assert name == pathlib.Path(name).name and not name.startswith(("program", "stdin", "stdout", "stderr"))
                    shutil.copyfile(path, f"{folder}/{name}")
            assert not any(word.startswith("/") for word in arguments)
            return subprocess.run([PROGRAM, *arguments], input=given, cwd=folder, stdout=subprocess.PIPE, env={})

    if "--cases" in flags:
        for case in sorted(pathlib.Path(flags[flags.index("--cases") + 1]).iterdir()):
            if case.name == LATE:
                print("checked: no-answer: the program did not end within the time limit", file=sys.stderr)
                print(f"case={case.name} run=no-answer proved=no", file=sys.stderr, flush=True)
            elif not case.suffix:
                given, wanted = pathlib.Path(f"{case}.args"), pathlib.Path(f"{case}.stdout")
                done = run(given.read_text().splitlines() if given.exists() else [], case.read_bytes())
                if wanted.exists():
                    told = f"output={'expected' if done.stdout == wanted.read_bytes() else 'other'} "
                else:
                    told = ""
                    sys.stdout.buffer.write(f"== {case.name}\n".encode() + done.stdout)
                print(f"case={case.name} run=ended status={done.returncode} runners=1 {told}proved=no", file=sys.stderr, flush=True)
        sys.exit(0)
    if pathlib.Path.cwd().name == "vectors":
        count = sum(line.startswith("= ") for line in open(flags[-1].partition("=")[2], encoding="latin-1"))
        print(f"some.txt: {count} answers, 0 differ")
        sys.exit(0)
    done = run(arguments, given)
    if len(done.stdout) > 1 << 20:
        sys.stdout.buffer.write(done.stdout[:100])
        print("checked: no-answer: the program wrote more than 1048576 bytes to standard output or to standard error, the limit on each", file=sys.stderr)
        print("run=no-answer proved=no", file=sys.stderr)
        sys.exit(6)
    sys.stdout.buffer.write(done.stdout)
    print(f"checked: ended status={done.returncode}\nrun=ended status={done.returncode} runners=1 proved=no", file=sys.stderr)
    sys.exit(done.returncode)
'''


# the kit's tools that make the library
TOOL = """#!/bin/sh
# stands in for a tool of the kit: makes the file that it is told to make
while [ $# -gt 0 ]; do
    case $1 in -o | rcsD) echo made > "$2" ;; esac
    shift
done
"""


class Place:
    """A copy of the repository with nothing built, a folder elsewhere, and an `rt`."""

    def __init__(self, room: Path, program: Path, is_real: bool) -> None:
        self.is_real = is_real
        self.top, self.elsewhere, self.tools = Path(room, "clone"), Path(room, "else where"), Path(room, "tools")
        repository.fresh_copy(self.top)
        # (another user may have to run it)
        self.program, self.built = Path(room, "program"), self.top / "crates/tdl/out/tdl"
        shutil.copyfile(program, self.program)
        self.program.chmod(0o755)
        self.record = self.top / "crates/tdl/out/tdl.sources"
        self.elsewhere.mkdir()
        self.tools.mkdir()
        for tool in TOOLS:
            (self.tools / tool).symlink_to(sys.executable if tool == "python3" else there(shutil.which(tool)))
        self.told = Path(room, "temporary", f"tdl-told-{os.getuid()}")
        self.told.parent.mkdir()
        self.told.parent.chmod(0o777)
        # (this is not the gate, whose tools are not on that path)
        self.without_rt = {**os.environ, "PATH": str(self.tools), "TMPDIR": str(self.told.parent), "CI": ""}
        self.with_rt = {**self.without_rt, "PATH": f"{room}/rt:{self.tools}"}
        Path(room, "rt").mkdir()
        if is_real:
            self.with_rt["PATH"] = f"{self.tools}:{os.environ['PATH']}"
        else:
            stand_in = Path(room, "rt", "rt")
            stand_in.write_text(STAND_IN, "ascii")
            stand_in.chmod(0o755)
            Path(room, "rlibs").mkdir()
            for name in ("bin/rattle", "toolchain/bin/llvm-ar", "toolchain/bin/ld.lld"):
                made = Path(room, name)
                made.parent.mkdir(parents=True, exist_ok=True)
                made.write_text(TOOL, "ascii")
                made.chmod(0o755)
        told = {"PROGRAM": str(self.program), "DELAY": "0.2", "KIT": repository.kit_wanted(), "FAILS": "", "LATE": ""}
        self.with_rt.update({f"STAND_IN_{name}": value for name, value in told.items()})
        shutil.copyfile(TOP / "tables" / "gs1.json", self.elsewhere / "my tables.json")

    def run(
        self, *arguments: Word, given: bytes = b"", env: Optional[dict[str, str]] = None, folder: Optional[Union[str, Path]] = None,
        command: Optional[Sequence[Word]] = None, **how: Any,
    ) -> Got:
        """Runs bin/tdl elsewhere, and returns the status, standard output, and standard error as text."""
        words = told([*(command or [self.top / "bin/tdl"]), *arguments])
        streams: dict[str, Any] = {"stdout": subprocess.PIPE, "stderr": subprocess.PIPE, **({} if "stdin" in how else {"input": given}), **how}
        done: subprocess.CompletedProcess[bytes] = subprocess.run(words, cwd=folder or self.elsewhere, env=env or self.with_rt, **streams)
        return done.returncode, done.stdout, done.stderr.decode()

    def begin(self, *words: Word, **how: Any) -> Process:
        """Starts a command elsewhere."""
        return begun(*words, cwd=self.elsewhere, env=self.with_rt, **{**PIPES, **how})

    def put(self, is_recorded: bool = False) -> None:
        """Puts the program in its place, as `rt ci` leaves it, or with the record that bin/build writes."""
        self.built.parent.mkdir(exist_ok=True)
        shutil.copyfile(self.program, self.built)
        self.built.chmod(0o755)
        if is_recorded:
            told = repository.checksum(self.built), repository.checksum_of_sources(self.top), repository.kit_wanted()
            self.record.write_text("\n".join(told) + "\n", "ascii")

    def clear(self) -> None:
        """Removes what was built."""
        for crate in ("tdl", "tdl_c"):
            shutil.rmtree(self.top / "crates" / crate / "out", ignore_errors=True)


@pytest.fixture(scope="module", params=["stand-in", pytest.param("kit", marks=[pytest.mark.whole, pytest.mark.needs("rt")])])
def copy(request: pytest.FixtureRequest, program: Path) -> Iterator[Place]:
    """A copy of the repository, over a stand-in of `rt`, or over the kit's."""
    # (another user may have to run it)
    with temporary("tdl-launcher-") as room:
        room.chmod(0o755)
        yield Place(room, program, request.param == "kit")


@pytest.fixture
def place(copy: Place) -> Iterator[Place]:
    """The copy, with nothing built."""
    yield copy
    copy.clear()


@pytest.fixture
def stand_in(place: Place) -> Place:
    """The copy over a stand-in of `rt`."""
    if place.is_real:
        pytest.skip("only over a stand-in")
    return place


def has(got: Got, status: int, output: bytes, *texts: str) -> None:
    """Fails if a run has not the status, the output and the texts on standard error that are wanted: one line where there are any, and behind
    it the program's own line where the status has one."""
    assert got[:2] == (status, output), got[2]
    assert [text for text in texts if text not in got[2]] == [], got[2]
    assert len(got[2].splitlines()) == bool(texts) + (status in SAID), got[2]
    assert status not in SAID or "\ntdl: " in f"\n{got[2]}", got[2]


def usage(place: Place) -> bytes:
    """Returns the usage line."""
    return place.run(command=[place.program])[1]


# Without a program


def test_bin_build_is_told_of_once(place: Place) -> None:
    place.told.unlink(missing_ok=True)
    has(place.run("canon", "pure", given=LINE), 0, ANSWER, UNPROVED, "not built yet", "bin/build", " here")
    again = place.run("canon", "pure", given=LINE)
    has(again, 0, ANSWER, UNPROVED)
    assert "bin/build" not in again[2]


def test_a_line_that_is_rejected(place: Place) -> None:
    has(place.run("canon", "pure", given=b"x\n"), 1, b"no reading\n", UNPROVED)


def test_the_usage_line(place: Place) -> None:
    has(place.run("canon"), 2, usage(place), UNPROVED)


@pytest.mark.parametrize("words", ([], ["help"], ["cannon", "pure"]), ids=("none", "help", "cannon"))
def test_wrong_words_before_anything_is_built(place: Place, words: list[str]) -> None:
    got = place.run(*words, env=place.without_rt)
    has(got, 2, usage(place))
    assert "--help lists them" in got[2]


def test_a_terminal_shows_recorded_answers(place: Place) -> None:
    """Without arguments it shows the usage line, and below it the recorded answers, said to be recorded."""
    ours, theirs = pty.openpty()
    line = usage(place)
    with open(ours, "rb", buffering=0) as screen:
        got = place.run(stdout=theirs, command=[place.top / "bin/tdl"], stdin=theirs, env=place.without_rt)
        os.close(theirs)
        assert (got[0], screen.read(len(line) + 1).replace(b"\r", b"")) == (2, line)
    wanted = [text for command, answers in recorded.commands() for text in [command, *answers]] + ["nothing was computed now", "bin/build proves"]
    assert len(wanted) >= 10 and [text for text in wanted if text not in got[2]] == [], got[2]


@pytest.mark.parametrize("name, said", (("stdin", 'tdl: cannot read "stdin": No such file or directory (os error 2)\n'), (".", 'tdl: cannot read "."')))
def test_a_file_that_cannot_be_read(place: Place, name: str, said: str) -> None:
    has(place.run("check", "--tables", name), 4, b"", UNPROVED, said)


def test_a_file_elsewhere_by_its_name_by_its_whole_path_and_as_a_pipe(place: Place) -> None:
    whole, through = place.elsewhere / "my tables.json", place.elsewhere / "pipe"
    counts = place.run("check", "--tables", whole.name, command=[place.program])[1]
    assert counts.startswith(b"ok ais 253 ")
    has(place.run("check", "--tables", whole.name), 0, counts, UNPROVED)
    has(place.run("check", "--tables", whole, folder="/"), 0, counts, UNPROVED)
    os.mkfifo(through)
    Thread(target=lambda: through.write_bytes(whole.read_bytes()), daemon=True).start()
    has(place.run("check", "--tables", "pipe"), 0, counts, UNPROVED)
    through.unlink()


def test_a_value_that_is_the_name_of_a_file_too(place: Place) -> None:
    (place.elsewhere / "1").write_bytes(b"x")
    has(place.run("translate", "pure", "hex", "--filter", "1", given=LINE), 0, b"ok 3034257BF7194E4000001A85\n", UNPROVED)


def test_a_file_that_is_rejected(place: Place) -> None:
    has(place.run("check", "--links", "my tables.json"), 3, b"refused links json lacks /linkset\n", UNPROVED)


def test_output_above_1_mib(place: Place) -> None:
    status, output, said = place.run("canon", "pure", given=LINE * 30_000)
    first, last = said.splitlines()
    assert (status, output) == (70, b"") and UNPROVED in first and "1 MiB" in last and "bin/build" in last, said


def test_what_a_run_without_proofs_cannot_do(place: Place) -> None:
    has(place.run("serve", "--links", "l", "--count", "1"), 70, b"", "`serve`", "bin/build")
    has(place.run("canon", b"\xff"), 70, b"", "UTF-8")


def test_output_that_cannot_be_written(place: Place) -> None:
    with open("/dev/full", "wb") as full:
        got = place.run("canon", "pure", given=LINE, stdout=full)
    has((got[0], b"", got[2]), 5, b"", UNPROVED)


def test_input_that_pauses(place: Place) -> None:
    with place.begin(place.top / "bin/tdl", "canon", "pure") as slow:
        there(slow.stdin).write(LINE)
        there(slow.stdin).flush()
        sleep(3)
        output, errors = slow.communicate(LINE)
    has((slow.returncode, output, errors.decode()), 0, ANSWER * 2, UNPROVED)


def test_input_that_cannot_be_read_or_is_closed(place: Place) -> None:
    folder = os.open(place.elsewhere, os.O_RDONLY)
    has(place.run("canon", "pure", stdin=folder), 4, b"", UNPROVED)
    os.close(folder)
    has(place.run("canon", "pure", command=["sh", "-c", 'exec "$0" "$@" <&-', place.top / "bin/tdl"]), 4, b"", UNPROVED)


def test_input_that_is_not_asked_for_is_not_read(place: Place) -> None:
    with tempfile.TemporaryFile() as given:
        given.write(LINE)
        given.seek(0)
        place.run("check", stdin=given)
        assert given.tell() == 0


def test_several_at_once(place: Place) -> None:
    started = [place.begin(place.top / "bin/tdl", "canon", form) for form in ("pure", "link") * 2]
    for number, running in enumerate(started):
        output, errors = running.communicate([LINE, ANSWER[3:]][number % 2])
        has((running.returncode, output, errors.decode()), 0, ANSWER, UNPROVED)


# bin/try

COMMANDS = ["printf 'urn:epc:id:sgtin:0614141.812345.6789\\n' | bin/tdl canon pure", "tdl check --tables 'my tables.json'", "tdl canon pure < lines"]
COMMANDS += ["echo x | tdl canon pure", "tdl check --tables absent"]


def attempt(place: Place, text: str, env: Optional[dict[str, str]] = None) -> Got:
    """Runs bin/try over a text."""
    (place.elsewhere / "lines").write_bytes(LINE)
    return place.run(given=text.encode(), command=[place.top / "bin/try"], env=env)


def answered(place: Place) -> bytes:
    """Returns what bin/try has to print for the commands."""
    counts = place.run("check", "--tables", "my tables.json", command=[place.program])[1]
    return b"".join(f"$ {one}\n".encode() + two for one, two in zip(COMMANDS, [ANSWER, counts, ANSWER, b"no reading\n", b""]))


@pytest.mark.parametrize("text", ("\n".join(COMMANDS), "".join(f"    $ {one}\n    what stands below it\n" for one in COMMANDS)), ids=("lines", "a document"))
def test_several_commands(place: Place, text: str) -> None:
    has(attempt(place, text), 4, answered(place), UNPROVED)


def test_several_commands_by_the_program(place: Place) -> None:
    place.put(is_recorded=True)
    got = attempt(place, "\n".join(COMMANDS), env=place.without_rt)
    assert got[:2] == (4, answered(place)) and got[2].startswith("tdl: ")


@pytest.mark.parametrize("line, text", (("rm -rf x", "no such command"), ("tdl canon pure > x", "no such command"), ("tdl canon pure < absent", "No such file")))
def test_a_line_that_is_no_command(place: Place, line: str, text: str) -> None:
    got = attempt(place, f"tdl check\n{line}")
    assert got[:2] == (2, b"") and len(got[2].splitlines()) == 1 and text in got[2]


def test_several_commands_with_a_server(place: Place) -> None:
    has(attempt(place, "tdl check\ntdl serve --links l --count 1"), 70, b"", "`serve`")


# Rights, the kit and room


@pytest.mark.needs("setpriv")
def test_a_user_who_may_not_write_in_the_checkout(place: Place) -> None:
    if os.geteuid():
        pytest.skip("needs root")

    def listed() -> list[str]:
        return sorted(str(path) for path in place.top.rglob("*") if "__pycache__" not in path.parts)

    before = listed()
    other: list[Word] = [there(shutil.which("setpriv")), f"--reuid={NOBODY}", f"--regid={NOBODY}", "--clear-groups", place.top / "bin/tdl"]
    everywhere = {**place.with_rt, "PATH": f"{place.with_rt['PATH'].partition(':')[0]}:{os.environ['PATH']}"}
    has(place.run("canon", "pure", given=LINE, command=other, env=everywhere), 0, ANSWER, UNPROVED)
    assert listed() == before


def test_no_rt(stand_in: Place) -> None:
    has(stand_in.run("canon", "pure", given=LINE, env=stand_in.without_rt), 70, b"", "no `rt` on the PATH", repository.kit_wanted())


@pytest.mark.parametrize("command", ("bin/build", "bin/test"))
def test_no_rt_to_build_or_test_with(stand_in: Place, command: str) -> None:
    has(stand_in.run(env=stand_in.without_rt, command=[stand_in.top / command]), 70, b"", "no `rt` on the PATH")


def test_another_kit(stand_in: Place) -> None:
    got = stand_in.run("canon", "pure", given=LINE, env={**stand_in.with_rt, "STAND_IN_KIT": "another kit"})
    lines = got[2].splitlines()
    assert got[:2] == (0, ANSWER) and len(lines) == 2 and "the kit is another kit" in lines[0]


def test_too_little_room() -> None:
    disk, memory = repository.lack_of_room(TOP, 1 << 60, 0), repository.lack_of_room(TOP, 0, 1 << 60)
    assert re.fullmatch(r"\S.* has [\d.]+ GB free, and \d+ are needed: .*", disk or "")
    assert repository.memory_free() is None or re.fullmatch(r"[\d.]+ GB of memory are free, and \d+ are needed: .*", memory or "")
    assert not repository.lack_of_room(TOP, 0, 0)


# With a program


def test_a_program_that_rt_ci_left(place: Place) -> None:
    place.put()
    (place.elsewhere / "tdl").symlink_to(place.top / "bin/tdl")
    has(place.run("canon", "pure", given=LINE), 0, ANSWER)
    has(place.run("canon", "pure", given=LINE, env=place.without_rt), 0, ANSWER)
    has(place.run("canon", "pure", given=LINE, command=[place.elsewhere / "tdl"]), 0, ANSWER)
    (place.elsewhere / "tdl").unlink()


@pytest.mark.parametrize("is_recorded", (False, True), ids=("rt ci", "bin/build"))
def test_a_program_that_is_older_than_its_sources(place: Place, is_recorded: bool) -> None:
    """Only one with a record is current again once the old text is back."""
    source = place.top / "crates/gs_chars/src/lib.rt"
    text = source.read_bytes()
    place.put(is_recorded)
    # (times of files are as coarse as the system's clock)
    sleep(0.05)
    source.write_bytes(text + b"\n")
    has(place.run("canon", "pure", given=LINE), 0, ANSWER, UNPROVED, OLDER)
    source.write_bytes(text)
    has(place.run("canon", "pure", given=LINE), 0, ANSWER, *([] if is_recorded else [UNPROVED, OLDER]))


def test_a_file_more_and_a_crate_that_the_program_has_not(place: Place) -> None:
    place.put(is_recorded=True)
    beside, added = place.top / "crates/vectors/src/main.rt", place.top / "crates/gs_chars/src/added.rt"
    beside.write_bytes(beside.read_bytes() + b"\n")
    has(place.run("canon", "pure", given=LINE), 0, ANSWER)
    # (times of files are as coarse as the system's clock)
    sleep(0.05)
    added.write_bytes(b"")
    has(place.run("canon", "pure", given=LINE), 0, ANSWER, UNPROVED, OLDER)
    added.unlink()
    has(place.run("canon", "pure", given=LINE), 0, ANSWER)


# Help and version


def test_help_and_version_are_those_of_the_program(place: Place, program: Path) -> None:
    commands = {row.split()[0] for row in there(re.fullmatch(r"usage: tdl (.*), then .*\n", usage(place).decode()))[1].split(" | ")}
    for words in (["--help"], ["--version"], *([command, "--help"] for command in sorted(commands))):
        has(place.run(*words, env=place.without_rt), 0, place.run(*words, command=[program])[1])
    assert {name.split()[0] for name in help_options(place.run("--help")[1].decode())} == commands
    has(place.run("--version", env=place.without_rt), 0, f"tdl {repository.VERSION}\n".encode())
    assert f"## {repository.VERSION}" in (TOP / "CHANGELOG.md").read_text("utf-8")


def test_the_lines_and_the_documents_of_help(place: Place) -> None:
    text = place.run("--help")[1].decode()
    assert [line for line in text.splitlines() if len(line) > 79] == []
    paths = re.findall(r"\bdocs/\S+", text)
    assert paths and [path for path in paths if not (TOP / path).is_file()] == []


@pytest.mark.parametrize("path", ("packaging/man/tdl.1", "docs/CLI.md"))
def test_the_options_of_help_are_those_of(place: Place, path: str) -> None:
    shown = help_options(place.run("--help")[1].decode())
    found = {"packaging/man/tdl.1": manual_options, "docs/CLI.md": listed_options}[path](set(shown))
    names = {name for options in shown.values() for name in options}
    assert {name: {command for command, options in shown.items() if name in options} for name in names} == found


def test_the_options_that_name_files(place: Place, program: Path) -> None:
    shown = help_options(place.run("--help")[1].decode())
    assert {name for options in shown.values() for name in options if names_file(program, name)} == FILE_NAMES


def help_options(text: str) -> dict[str, set[str]]:
    """Returns the options of each command in the help."""
    parts = re.findall(r"^tdl ((?:class |dump )?[a-z]+).*\n((?: {4}.*\n)+)", text, re.MULTILINE)
    return {name: set(re.findall(r"^ {4}(--[\w-]+) ", part, re.MULTILINE)) for name, part in parts}


def manual_options(commands: set[str]) -> dict[str, set[str]]:
    """Returns the commands of each option in the manual page."""
    page = (TOP / "packaging/man/tdl.1").read_text("utf-8").partition(".Sh OPTIONS")[2].partition(".Sh FILES")[0]
    found = {}
    for item in page.split("\n.It ")[1:]:
        behind = {line.strip(" ,.;") for line in re.findall(r"^\.Cm ([a-z ]+)", item, re.MULTILINE)} & commands
        found["-" + item.split()[1]] = commands if "with each command" in item else behind
    return found


def listed_options(commands: set[str]) -> dict[str, set[str]]:
    """Returns the commands of each option in docs/CLI.md."""
    rows = re.findall(r"^\| `(--[\w-]+)` \| ([^|]*) \|", (TOP / "docs/CLI.md").read_text("utf-8"), re.MULTILINE)
    return {name: set(re.findall("`([^`]+)`", behind)) & commands or commands for name, behind in rows}


def names_file(program: Path, name: str) -> bool:
    """Returns whether the program opens what this name has as its value, behind one of the commands."""
    absent = "/absent/file"
    links: list[Word] = ["--links", TOP / "examples/links.json"]
    asked: list[list[Word]] = [["canon", "pure"], ["translate", "pure", "hex"], ["check"], ["resolve", *links], ["resolve"], ["gen", "1"], ["class", "canon"]]
    asked += [["merge", *links], ["merge", *links, "--second", TOP / "examples/links.json"]]
    return 4 in [run(program, *words, name, absent, input="")[0] for words in asked]


# bin/build


# (a test that runs in the background may have Ctrl-C ignored, which its children would inherit)
QUIETLY: dict[str, Any] = {"stdin": None, "stdout": subprocess.DEVNULL, "text": True, "preexec_fn": lambda: signal.signal(signal.SIGINT, signal.SIG_DFL)}


def test_a_crate_that_is_not_proved(stand_in: Place) -> None:
    got = stand_in.run(env={**stand_in.with_rt, "STAND_IN_DELAY": "0", "STAND_IN_FAILS": "gs_ai"}, command=[stand_in.top / "bin/build"])
    assert got[0] == 1 and "NOT PROVED" in got[2] and not stand_in.built.exists()


def test_a_build_that_is_ended(stand_in: Place) -> None:
    ended = stand_in.begin(stand_in.top / "bin/build", **QUIETLY)
    for line in there(ended.stderr):
        if re.search(r"\b3 of \d+ crates", line):
            ended.send_signal(signal.SIGINT)
            break
    rest = ended.communicate()[1]
    assert ended.returncode == 130 and "goes on from there" in rest and not stand_in.built.exists()


def test_two_builds_at_a_time(stand_in: Place) -> None:
    kept = set(Path(tempfile.gettempdir()).glob("tdl-build-*"))
    both = [stand_in.begin(stand_in.top / "bin/build", **QUIETLY) for _ in range(2)]
    said = [running.communicate()[1] for running in both]
    assert [running.returncode for running in both] == [0, 0], said
    assert sorted("waiting for it" in text for text in said) == [False, True], said
    assert sum("proved and built" in text for text in said) == 1 == sum("built already" in text for text in said), said
    shown = next(text for text in said if "proved and built" in text)
    assert re.search(r"\d+ crates on \d+ processors: \d+.* (min|s) with what else runs here now; Ctrl-C ends it, and the next call goes on from there", shown), shown
    assert re.search(r"\d+ of \d+ crates proved; now \w+.*used, \d+.* (min|s) left", shown), shown
    has(stand_in.run("canon", "pure", given=LINE), 0, ANSWER)
    assert stand_in.record.read_text().splitlines()[0] == repository.checksum(stand_in.built)
    assert set(Path(tempfile.gettempdir()).glob("tdl-build-*")) - kept == set()


USES: dict[str, list[str]] = {"low": [], "left": ["low"], "right": ["low"], "long": [], "top": ["left", "right"]}
NEED: dict[str, float] = {"low": 10, "left": 20, "right": 30, "long": 45, "top": 5}


def test_crates_are_laid_out_on_processors() -> None:
    assert [costs.laid_out(NEED, USES, processors) for processors in (1, 2, 3)] == [110, 65, 45]
    assert costs.laid_out({"long": 15, "left": 30}, USES, 1, ["long"]) == 45


def test_the_longest_chain() -> None:
    assert [costs.longest({**NEED, "long": seconds}, USES) for seconds in (44, 46)] == [["low", "right", "top"], ["long"]]
    status, shown = run(TOP / "bin/build", "--chain")
    assert not status and re.match(r"\d+ of \d+ crates are the longest chain", shown)


def test_memory_lets_rt_use_processors() -> None:
    """Memory for two, much more, too little, unknown; and bench/proofs.txt has each crate."""
    order = repository.built_crates()
    assert [costs.jobs(order, repository.crates(), 2, free) for free in (10_000_000_000, 1 << 40, 1 << 30, None)] == [2, None, None, None]
    assert [crate for crate in order if crate not in costs.rows()] == []


# bin/test


@pytest.mark.parametrize("late, ends", (("", r"\d+ passed, 0 failed\n"), ("001", r"\d+ passed, 0 failed, \d+ left out: slow here\n")), ids=("all", "one is late"))
def test_bin_test_without_a_program(stand_in: Place, late: str, ends: str) -> None:
    """All pass, and what has not ended within the time limit is left out and not failed."""
    # (few of the tests that need no program)
    env = {**stand_in.with_rt, "STAND_IN_LATE": late, "PYTEST_ADDOPTS": "-k test_launchers"}
    status, output, said = stand_in.run("--whole", env=env, command=[stand_in.top / "bin/test"])
    begins = r"bin/test: nothing is proved here, so the sources run without proofs: \d+ runs of tdl and [\d,]+ vectors of its libraries, in \d"
    assert status == 0 and re.match(begins, said) and re.search(rf"(?m)^{ends}\Z", output.decode()), output[-2000:]
    assert bool(late) == (b"left out: slow here: " in output)
