"""tdl [ARGUMENT..]: what bin/tdl does if it cannot just start the proved program.

It starts a program that fits its sources. If none is built, or it is older, the texts in the program's sources answer --help, --version
and words that are not a command; without arguments, on a terminal, the documents' first commands follow with their recorded answers. For
everything else `rt try` builds and runs the sources without proofs, with each check at run time on, which takes a minute or two. One line on
standard error says so; standard output, status and the line of standard error are the program's. `rt try` keeps no program from one call to
the next, prints the output once the program has ended, and has limits: 1 MiB of output, an hour, 64 MiB of input, and no server. What it
cannot do ends with a line on standard error and the status 70, and never with a part of an answer.

bin/tdl passes standard input on as INPUT, since Python does not start if that is a folder.

It writes only below the system's folder for temporary files: in a new folder, and an empty file that notes that a user has read of
bin/build. So any number of runs may go on at a time, even of users who may not write in the checkout.
"""
import json
import os
import re
import shutil
import signal
import subprocess
import sys
import tempfile
from pathlib import Path
from typing import Iterator, Union

from tools import costs, recorded, repository
from tools.common import ending
from tools.pace import between
from tools.repository import CRATES, GIGABYTE, PROGRAM
from tools.texts import asked_text, commands, usage_line

# the commands that read standard input
READ_INPUT = {"canon", "translate", "resolve", "class", "dump"}
# the names whose value is the name of a file
FILE_NAMES = {"--tables", "--prefixes", "--links", "--link-text", "--second", "--third", "--describe", "--classes"}
INPUT = 3
USAGE_STATUS, CANNOT, INPUT_FAILED, OUTPUT_FAILED, INTERRUPTED = 2, 70, 4, 5, 130
MOST_INPUT, MOST_SECONDS = 64 << 20, 3_600
PIECE = 1 << 20
BUILD = "bin/build proves and builds the program"
ENDED = re.compile(r"^run=ended status=(\d+) .*$", re.MULTILINE)
TOO_MUCH = re.compile(r"^checked: no-answer: the program wrote more than ", re.MULTILINE)
NO_ANSWER = re.compile(r"^checked: no-answer: (.*)$", re.MULTILINE)


class Cannot(Exception):
    """Why a run without proofs cannot be made."""


def say(text: object) -> None:
    """Writes a line to standard error."""
    print(f"bin/tdl: {text}", file=sys.stderr, flush=True)


def say_as_program(text: str) -> None:
    """Writes a line to standard error as the program does."""
    print(f"tdl: {text}", file=sys.stderr, flush=True)


def system_words(error: OSError) -> str:
    """An error as the program writes it."""
    return f"{error.strerror} (os error {error.errno})"


def fault_of_command(arguments: list[str]) -> str:
    """Returns the fault of the first argument, or nothing if it is a command."""
    if not arguments:
        return "a command is missing; tdl --help lists them"
    if arguments[0] not in commands():
        return f"{json.dumps(arguments[0], ensure_ascii=False)}: it is not a command; tdl --help lists them"
    return ""


def is_told() -> bool:
    """Notes that this user has read of bin/build, and returns whether that was noted before."""
    try:
        Path(tempfile.gettempdir(), f"tdl-told-{os.getuid()}").touch(0o600, exist_ok=False)
        return False
    except FileExistsError:
        return True
    except OSError:
        return False


def state() -> str:
    """Returns why the program does not run, in words."""
    return "the program is older than its sources" if repository.is_program() else "the program is not built yet"


def say_unproved() -> None:
    """Says that the run is without proofs, and the first time what ends that."""
    text = f"{state()}, so this run is without proofs, and takes {between(*costs.run_unproved())} here"
    if not is_told():
        text += f"; {BUILD}, once, in {between(*costs.whole_build())} here"
    say(text)


def show_recorded() -> None:
    """Writes the first commands of the documents with their recorded answers, and what gives computed ones."""
    say(f"{state()}; {' and '.join(recorded.DOCUMENTS)} record these answers, and nothing was computed now:")
    for command, answers in recorded.commands():
        print(*(f"    {line}" for line in [f"$ {command}", *answers]), sep="\n", file=sys.stderr)
    say(f"such a command runs without proofs, in {between(*costs.run_unproved())} here; one call answers any number of lines, bin/try several commands")
    say(f"{BUILD}, once, in {between(*costs.whole_build())} here; answers then come at once")


def copy_input(path: str) -> bool:
    """Copies standard input to a file, and returns whether all of it could be read. After an error the file has the lines that had ended."""
    size, tail = 0, b""
    with open(path, "wb") as copy:
        while True:
            try:
                piece = os.read(INPUT, PIECE)
            except OSError as error:
                say_as_program(f"cannot read standard input: {system_words(error)}")
                return False
            if not piece:
                copy.write(tail)
                return True
            size += len(piece)
            if size > MOST_INPUT:
                raise Cannot(f"a run without proofs takes at most {MOST_INPUT >> 20} MiB of input; {BUILD}, which takes more")
            ended, feed, rest = (tail + piece).rpartition(b"\n")
            copy.write(ended + feed)
            tail = rest


def hand_in(arguments: list[str], folder: Union[str, Path], mark: str = "") -> tuple[list[str], dict[str, str]]:
    """Returns the arguments, with a name in the folder of `rt try` for each name of a file, and the files by these names. `mark` is in each."""
    named, files = list(arguments), {}
    for place, argument in enumerate(arguments):
        if place and arguments[place - 1] in FILE_NAMES:
            named[place] = f"handed-in-{mark}{place}"
            if os.path.isfile(argument) and os.access(argument, os.R_OK):
                files[named[place]] = os.path.abspath(argument)
            elif os.path.exists(argument) and not os.path.isdir(argument):
                files[named[place]] = f"{folder}/{named[place]}"
                with open(argument, "rb") as given, open(files[named[place]], "wb") as copy:
                    shutil.copyfileobj(given, copy)
    return named, files


def reject_arguments(arguments: list[str]) -> None:
    """Rejects what a run without proofs cannot do."""
    if arguments[:1] == ["serve"]:
        raise Cannot(f"`serve` needs the proved program; {BUILD}")
    for argument in arguments:
        try:
            argument.encode("utf-8")
        except UnicodeEncodeError:
            raise Cannot(f"an argument is not valid UTF-8, which a run without proofs cannot pass on; {BUILD}") from None


def reject_machine() -> None:
    """Rejects a machine on which there can be no run without proofs."""
    lack, too_little = repository.lack_of_kit(), repository.lack_of_room(tempfile.gettempdir(), GIGABYTE, 2 * GIGABYTE)
    if lack and lack[1]:
        raise Cannot(f"{lack[0]}; then {BUILD}")
    if lack:
        say(lack[0])
    if too_little:
        raise Cannot(too_little)


def write_output(path: str) -> bool:
    """Writes a file to standard output, and answers whether that could be done."""
    try:
        with open(path, "rb") as output:
            shutil.copyfileobj(output, sys.stdout.buffer)
        sys.stdout.buffer.flush()
        return True
    except OSError as error:
        say_as_program(f"cannot write standard output: {system_words(error)}")
        # (so that the end of this process does not try it again)
        os.dup2(os.open(os.devnull, os.O_WRONLY), 1)
        return False


def status_of(report: str, rt_status: int) -> int:
    """The status of a run by what `rt try` reports of it."""
    ended = ENDED.findall(report)
    if ended:
        return int(ended[-1])
    if TOO_MUCH.search(report):
        raise Cannot(f"the output has more than 1 MiB, the most that a run without proofs gives; {BUILD}, which has no such limit")
    silent = NO_ANSWER.search(report)
    if silent:
        raise Cannot(f"the run without proofs gave no answer: {silent[1]}; {BUILD}, which has no such limit")
    sys.stderr.write(report)
    raise Cannot(f"`rt try` in crates/tdl ended with the status {rt_status}, and its lines above say why")


def lines_of_program(report: str, named: list[str], arguments: list[str]) -> Iterator[str]:
    """Yields the program's line on standard error, with the names of files that the user gave."""
    for line in re.findall("^tdl: .*$", report, re.MULTILINE):
        for name, argument in zip(named, arguments):
            if name != argument:
                line = line.replace(json.dumps(name), json.dumps(argument, ensure_ascii=False))
        yield line


def try_unproved(arguments: list[str], folder: str) -> int:
    """Runs the sources without proofs, and returns the status."""
    is_read = arguments[0] not in READ_INPUT or copy_input(f"{folder}/input")
    Path(folder, "input").touch()
    named, files = hand_in(arguments, folder)
    words = ["rt", "try", "--steps", "1", "--seconds", str(MOST_SECONDS)]
    for name, path in files.items():
        words += ["--data", f"{name}={path}"]
    with open(f"{folder}/input", "rb") as given, open(f"{folder}/output", "wb") as output, open(f"{folder}/report", "wb") as told:
        with ending(subprocess.Popen([*words, "--", *named], cwd=CRATES / "tdl", stdin=given, stdout=output, stderr=told)) as running:
            running.wait()
    report = Path(folder, "report").read_text("utf-8", "replace")
    status = status_of(report, running.returncode)
    for line in lines_of_program(report, named, arguments):
        print(line, file=sys.stderr, flush=True)
    if not write_output(f"{folder}/output"):
        return OUTPUT_FAILED
    return status if is_read or status > 1 else INPUT_FAILED


def main() -> int:
    """Returns the status, or replaces this process by the proved program if that is to run."""
    arguments = sys.argv[1:]
    if repository.is_current():
        repository.renew_record()
        os.dup2(INPUT, 0)
        os.close(INPUT)
        os.execv(PROGRAM, [str(PROGRAM), *arguments])
    text = asked_text(arguments)
    if text:
        sys.stdout.write(text)
        return 0
    fault = fault_of_command(arguments)
    if fault:
        print(usage_line(), flush=True)
        say_as_program(fault)
        if not arguments and os.isatty(INPUT) and sys.stdout.isatty():
            show_recorded()
        return USAGE_STATUS
    signal.signal(signal.SIGTERM, lambda *_: sys.exit(128 + signal.SIGTERM))
    try:
        reject_arguments(arguments)
        reject_machine()
        say_unproved()
        with tempfile.TemporaryDirectory(prefix="tdl-") as folder:
            return try_unproved(arguments, folder)
    except Cannot as why:
        say(why)
        return CANNOT
    except OSError as error:
        say(f"the run without proofs failed: {error}")
        return CANNOT
    except KeyboardInterrupt:
        return INTERRUPTED
