"""The program answers each case of checks/cases, with real standard input and real files; tools/cases.py says what a case is."""
import os
import re
import shlex
from pathlib import Path
from select import select
from time import monotonic
from typing import IO

import pytest

from tools.cases import SHOWN, Case, bytes_of, form_fault, is_said, joined, lay_out, shown, subjects
from tools.common import PATIENCE, PIPES, begun, temporary, there
from tools.streams import Ended, run
from tools.tests import same

CASES = [pytest.param(case, id=f"{subject}: {case.get('name')}") for subject, cases in subjects() for case in cases]


def answer_of(stream: IO[bytes]) -> bytes:
    """Returns what comes up to a line feed, or up to the end of a stream or of the time for one answer."""
    answer, end = b"", monotonic() + PATIENCE
    while not answer.endswith(b"\n") and select([stream], [], [], max(0, end - monotonic()))[0]:
        more = stream.read(SHOWN)
        if not more:
            break
        answer += more
    return answer


def talk(words: list[bytes], case: Case, folder: bytes) -> Ended:
    """Returns what the program answers where each line is sent once the answer to the line before has come."""
    with begun(*words, cwd=folder, bufsize=0, **PIPES) as talking:
        output = b""
        for line, _ in case["turns"]:
            there(talking.stdin).write(bytes_of(line) + b"\n")
            answer = answer_of(there(talking.stdout))
            output += answer
            if not answer.endswith(b"\n"):
                talking.kill()
                return f"no answer in {PATIENCE} seconds", output, b""
        rest, error = talking.communicate()
    return talking.returncode, output + rest, error


@pytest.mark.parametrize("case", CASES)
def test_case(program: Path, pytestconfig: pytest.Config, case: Case) -> None:
    """The status, the output and standard error are those of the case."""
    assert not form_fault(case)
    words = [*map(os.fsencode, shlex.split(pytestconfig.getoption("--under"))), os.fsencode(program), *map(bytes_of, case["words"])]
    with temporary() as room:
        folder = os.fsencode(room)
        lay_out(case, folder)
        status, output, error = talk(words, case, folder) if "turns" in case else run(words, case, folder, PATIENCE)
    if "pattern" in case:
        assert re.fullmatch(bytes_of(case["pattern"]), output), shown(output)
    else:
        same(joined(case, "output", 1), output)
    assert status == case["status"], shown(error)
    assert is_said(case, error), shown(error)
