"""try [FILE]: answers several commands of tdl in one run, which without proofs takes as long as one.

FILE, or standard input, has a command on each line, as the documents show them:

    printf 'TEXT' | bin/tdl WORDS
    bin/tdl WORDS < FILE

`echo` may stand for `printf`, `tdl` for `bin/tdl`, and a command without input needs neither. If lines begin with `$ `, only these are commands,
so that a block of a document can be pasted. Each command is printed with its output. If the program is built, it answers; otherwise the
sources run without proofs (bin/tdl --help and CONTRIBUTING.md have the limits).

The status is the highest of the commands, 2 for a line that is none of these, of which nothing is run then, or 70 if there can be no run.
"""
import argparse
import re
import secrets
import shlex
import subprocess
import sys
from pathlib import Path
from typing import Iterator

from tools import repository
from tools.bin import tdl as launcher
from tools.bin.tdl import Cannot
from tools.common import parser, temporary
from tools.repository import CRATES, PROGRAM

Answer = tuple[int, bytes, str]

FORMS = "printf 'TEXT' | bin/tdl WORDS, or bin/tdl WORDS < FILE"
SOURCES, NAMES = ("printf", "echo"), ("tdl", "bin/tdl")


class Command:
    """A command: its line, the words of tdl, and its input."""

    def __init__(self, line: str) -> None:
        lexer = shlex.shlex(line, posix=True, punctuation_chars="|<>;&")
        lexer.whitespace_split, lexer.commenters = True, ""
        self.line, words, self.given = line, list(lexer), b""
        if words[0] in SOURCES and "|" in words:
            place = words.index("|")
            self.given = subprocess.run(words[:place], stdout=subprocess.PIPE, check=True).stdout
            words = words[place + 1 :]
        elif words[-2:-1] == ["<"]:
            self.given, words = Path(words[-1]).read_bytes(), words[:-2]
        if words[:1] not in [[name] for name in NAMES] or any(set(word) <= set("|<>;&") for word in words if word):
            raise ValueError("it is no such command")
        self.words = words[1:]


def commands_of(text: str) -> list[Command]:
    """Returns the commands of a text."""
    lines = [line.strip() for line in text.splitlines() if line.strip()]
    marked = [line[2:] for line in lines if line.startswith("$ ")]
    found = []
    for line in marked or lines:
        try:
            found.append(Command(line))
        except (ValueError, OSError, subprocess.CalledProcessError) as why:
            raise SyntaxError(f"{line}: {why}; a line is {FORMS}") from None
    return found


def proved(commands: list[Command]) -> Iterator[Answer]:
    """Yields what the program answers to each command: its status, its output and its line on standard error."""
    for command in commands:
        done = subprocess.run([PROGRAM, *command.words], input=command.given, stdout=subprocess.PIPE, stderr=subprocess.PIPE)
        yield done.returncode, done.stdout, done.stderr.decode("utf-8", "replace")


def unproved(commands: list[Command], folder: Path) -> Iterator[Answer]:
    """Yields the same by one run of the sources without proofs."""
    mark = secrets.token_hex(8)
    words = ["rt", "try", "--steps", "1", "--seconds", str(launcher.MOST_SECONDS), "--cases", str(folder / "cases")]
    (folder / "cases").mkdir()
    handed = []
    for number, command in enumerate(commands):
        if any("{}" in word for word in command.words):
            raise Cannot(f"{command.line}: a run without proofs takes no argument with {{}}; {launcher.BUILD}")
        named, files = launcher.hand_in(command.words, folder, f"{number}-")
        handed.append(named)
        words += [word for name, path in files.items() for word in ("--data", f"{name}={path}")]
        of_case = folder / "cases" / f"{mark}-{number:04}"
        of_case.write_bytes(command.given)
        Path(f"{of_case}.args").write_text("".join(f"{word}\n" for word in named), "utf-8")
    done = subprocess.run(words, cwd=CRATES / "tdl", stdin=subprocess.DEVNULL, stdout=subprocess.PIPE, stderr=subprocess.PIPE)
    outputs = dict(re.findall(rb"^== %b-(\d+)\n(.*?)(?=^== %b-|\Z)" % (mark.encode(), mark.encode()), done.stdout, re.MULTILINE | re.DOTALL))
    reports = re.split(rf"^case={mark}-", done.stderr.decode("utf-8", "replace"), flags=re.MULTILINE)
    for number, (command, named) in enumerate(zip(commands, handed)):
        ended = re.match(rf"{number:04} run=(\w[\w-]*)(?: status=(\d+))?", reports[number + 1]) if number + 1 < len(reports) else None
        if not ended or not ended[2]:
            raise Cannot(f"{command.line}: the run without proofs gave no answer; {launcher.BUILD}\n{reports[number].strip()}")
        lines = launcher.lines_of_program(reports[number], named, command.words)
        yield int(ended[2]), outputs.get(b"%04d" % number, b""), "".join(f"{line}\n" for line in lines)


def answer(commands: list[Command], folder: Path) -> int:
    """Prints each command with its output, and returns the highest status."""
    if repository.is_current():
        answers = proved(commands)
    else:
        launcher.reject_machine()
        for command in commands:
            launcher.reject_arguments(command.words)
        launcher.say_unproved()
        answers = unproved(commands, folder)
    highest = 0
    for command, (status, output, error) in zip(commands, answers):
        sys.stdout.buffer.write(f"$ {command.line}\n".encode() + output)
        sys.stdout.flush()
        sys.stderr.write(error)
        highest = max(highest, status)
    return highest


def main() -> int:
    """Returns the status."""
    asked = parser(__doc__)
    asked.add_argument("file", nargs="?", type=argparse.FileType("r"), default=sys.stdin, metavar="FILE")
    given = asked.parse_args()
    try:
        if given.file.isatty():
            print(f"bin/try: commands, {FORMS}; an end of input (Ctrl-D) runs them", file=sys.stderr)
        commands = commands_of(given.file.read())
        with temporary("tdl-") as folder:
            return answer(commands, folder)
    except SyntaxError as why:
        print(f"bin/try: {why}", file=sys.stderr)
        return launcher.USAGE_STATUS
    except (Cannot, OSError) as why:
        print(f"bin/try: {why}", file=sys.stderr)
        return launcher.CANNOT
    except KeyboardInterrupt:
        return launcher.INTERRUPTED
