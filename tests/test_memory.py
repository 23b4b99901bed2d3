"""A run of which a request for memory is refused ends with status 9, a front of its output and at most one line of errors, or as if none were refused.

A C library, checks/memory.c, that cc builds stands in front of the system's `malloc`, `calloc` and `realloc`. At each request of a run it
makes a copy of the process, by `fork`, with input, files and output of its own: to the copy this request is refused, and the process itself
goes on when the copy has ended. So each request of a run is refused once, in the time of one run and of its ends. That takes minutes, so
without --whole only each 101st is. docs/TRUST.md says what it shows.
"""
import os
import subprocess
import sys
from pathlib import Path

import pytest

from tools.repository import TOP

OUT_OF_MEMORY, EVERY = 9, 101
TWICE = (
    '{"version":1,"ais":[{"code":"01","parts":["n14c"],"role":"key","qualifiers":["21"],"short":true},'
    '{"code":"21","parts":["x..20"],"role":"qualifier"}],"kinds":[{"name":"sgtin","key":"01","lead":1,"serial":"21"}],'
    '"binary":[],"tag":[{"kind":"sgtin","encoding":"e1","gcp":12,"items":[["lit","t"],["int","filter",7],["lit","."],'
    '["pad","gcp",12],["pad","rest",1],["lit","."],["int","serial",999]]},{"kind":"sgtin","encoding":"e2","gcp":12,"items":'
    '[["lit","t"],["int","filter",7],["lit","."],["pad","gcp",12],["pad","rest",1],["lit","."],["pad","serial",2]]}],"pure":[]}'
)
LINKS = (
    '{"linkset":[{"anchor":"https://id.gs1.org/01/09506000134352","gs1:defaultLink":[{"href":"https://example.com/p"}],'
    '"gs1:pip":[{"href":"https://example.com/pip"}]},{"anchor":"/01/09506000134352/10/ABC","gs1:defaultLink":'
    '[{"href":"https://example.com/lot"}]}]}'
)
# the words, and the input
RUNS = {
    "one line of canon": ("canon pure", "urn:epc:id:sgtin:0614141.812345.6789\n"),
    "tables with an ambiguous level": ("check --tables t", ""),
    "one line of translate": ("translate hex tag", "3074257BF7194E4000001A85\n"),
    "one request": ("resolve --links l", "GET /01/09506000134352/10/ABC/21/X1 HTTP/1.1\r\nHost: r\r\n\r\n"),
    "the built-in tables and a linkset": ("check --links l", ""),
}


@pytest.mark.needs("cc")
@pytest.mark.parametrize("name", RUNS)
def test_refused(program: Path, tmp_path: Path, pytestconfig: pytest.Config, name: str) -> None:
    """Each copy ends with status 9 and a front of the output, or as the whole run does, and so does the run itself."""
    words, given = RUNS[name]
    command: list[str] = [str(program), *words.split()]
    files = {file: tmp_path / file for file in ("t", "l", "tally", "whole", "failures", "given", "output", "errors")}
    for path, content in zip(files.values(), (TWICE, LINKS, "\0" * 48, "", "", given, "", "")):
        path.write_text(content, "ascii")
    subprocess.run(["cc", "-O1", "-fno-builtin", "-shared", "-fPIC", "-o", "refuse.so", TOP / "checks" / "memory.c"], cwd=tmp_path, check=True)
    whole = subprocess.run(command, cwd=tmp_path, input=given.encode(), capture_output=True)
    files["whole"].write_bytes(whole.stdout)
    files["failures"].write_bytes(whole.stderr)
    told = {"TALLY": files["tally"], "WHOLE": files["whole"], "ERRORS": files["failures"], "STATUS": whole.returncode, "FIRST": 1, "OUT_OF_MEMORY": OUT_OF_MEMORY}
    told["STEP"] = 1 if pytestconfig.getoption("--whole") else EVERY
    env = {**os.environ, "LD_PRELOAD": f"{tmp_path}/refuse.so", **{f"TDL_{name}": str(value) for name, value in told.items()}}
    with files["given"].open("rb") as opened, files["output"].open("r+b") as output, files["errors"].open("r+b") as errors:
        done = subprocess.run(command, cwd=tmp_path, env=env, stdin=opened, stdout=output, stderr=errors)
    tally = files["tally"].read_bytes()
    requests, nine, same, otherwise, number, status = (int.from_bytes(tally[at : at + 8], sys.byteorder, signed=True) for at in range(0, 48, 8))
    print(f"{name}: {requests} requests, {nine} refused with status 9 and a front, {same} as without, {otherwise} otherwise")
    if not requests:
        pytest.skip("the program was linked with a malloc of its own, in front of which nothing can stand")
    assert nine
    assert not otherwise, f"the first of them is request {number}, status {status}"
    got = done.returncode, files["output"].read_bytes(), files["errors"].read_bytes()
    assert got == (whole.returncode, whole.stdout, whole.stderr)
