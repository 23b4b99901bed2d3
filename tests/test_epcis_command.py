"""`python3 -m tdl epcis`, and what all commands of the module share: processes, files and signals; and `tdl.epcis` in Python."""
import json
import os
import re
import signal
import subprocess
import sys
from contextlib import suppress
from pathlib import Path
from typing import Any, Callable, Iterator, Optional

import pytest

import tdl
from tdl import files
from tests.test_epcis_parts import EVENTS, ITEM, JSON, XML, filled, set_all, xml_document
from tools import events
from tools.common import PATIENCE, PIPES, begun, children_of, stat_of, there, until

# Debian's own, on which a pool of the standard library waits for ever after a kill
PYTHON = "/usr/bin/python3"
LINK = "https://id.gs1.org/01/10614141073464/21/{}"
EVENT = '{"type":"ObjectEvent","epcList":["%s"]}'
Environment = dict[str, str]


def run(module: Environment, *words: object, given: bytes = b"", **how: Any) -> tuple[int, bytes, str]:
    """The status, the output and the errors of a run over some input."""
    command = [sys.executable, "-m", "tdl", *map(str, words)]
    done = subprocess.run(command, input=given, capture_output=True, env=module, timeout=PATIENCE, check=False, **how)
    return done.returncode, done.stdout, done.stderr.decode("utf-8", "replace")


@pytest.fixture
def program_of_module(module: Environment, monkeypatch: pytest.MonkeyPatch) -> None:
    """Lets the module in this process ask the program."""
    monkeypatch.setenv("TDL", module["TDL"])


# ------------------------------------------------------------------------------------------------------------------------ parts and processes


@pytest.mark.usefixtures("program_of_module")
@pytest.mark.parametrize("which", ["a foreign element", "names", "json", "xml"])
def test_same_bytes_for_each_number_of_processes(which: str, monkeypatch: pytest.MonkeyPatch) -> None:
    """Parts of a few hundred bytes, by one process and by several, give one document and equal counts."""
    foreign = "".join(f"<ObjectEvent><epcList><epc>{ITEM.format(n)}</epc></epcList></ObjectEvent><v xmlns='http://vendor.example/'/>" for n in range(60))
    texts: dict[str, Callable[[], bytes]] = {
        "a foreign element": lambda: (XML % foreign).encode(),
        "names": lambda: xml_document(__import__("random").Random(3)),
        "json": lambda: filled(EVENTS / "epcis2.jsonld"),
        "xml": lambda: filled(EVENTS / "epcis1.xml"),
    }
    data = texts[which]()
    set_all(monkeypatch, "CHUNK", 300)
    whole, *others = (tdl.epcis(data, "link", processes=number) for number in (1, 2, 7))
    assert whole.counts.translated > 10
    assert others == [whole, whole]


def descendants(pid: int) -> list[int]:
    """The processes that a process started, of Python."""
    return [child for child in children_of(pid) if b"-m\0tdl\0" in Path(f"/proc/{child}/cmdline").read_bytes()]


@pytest.mark.parametrize("command", ["epcis", "epcis --lines", "csv", "jsonl"])
def test_killed_worker(command: str, module: Environment, tmp_path: Path) -> None:
    """A command whose process is killed says so, and ends."""
    rows = {"csv": (b"e,rest\n", ITEM + ",\n"), "jsonl": (b"", '{"e":"%s"}\n' % ITEM)}
    rows.update({"epcis --lines": (b"", EVENT % ITEM + "\n"), "epcis": (b"[", EVENT % ITEM + ",")})
    head, row = rows[command]
    words = [*command.split(), *(["--to", "link"] if "epcis" in command else ["-c", "e", "--from", "pure"]), "-j", "2", "-o", str(tmp_path / "out")]
    how: dict[str, Any] = {"env": module, "stdin": subprocess.PIPE, "stderr": subprocess.PIPE}
    with begun(PYTHON, "-m", "tdl", *words, **how) as running:
        # (a table's processes begin after its header)
        there(running.stdin).write(head)
        there(running.stdin).flush()
        workers = until(lambda: descendants(running.pid) if len(descendants(running.pid)) == 2 else [], PATIENCE)
        os.kill(workers[0], signal.SIGKILL)
        os.kill(workers[1], signal.SIGKILL)
        data = b"".join(row.replace("{}", str(number)).encode() for number in range(30_000))
        _, said = running.communicate(data, PATIENCE)
    named = "a process of this command was ended by SIGKILL\n"
    assert (running.returncode, said.decode()) == (4, f"tdl {command.split()[0]}: {named}")
    assert os.listdir(tmp_path) == []


# ------------------------------------------------------------------------------------------------------------------------------------- files


def same_files(folder: Path) -> Iterator[tuple[str, str]]:
    """Two names of one file, each pair another way."""
    (folder / "there").write_text("x")
    (folder / "inner").mkdir()
    (folder / "link").symlink_to("there")
    (folder / "dangling").symlink_to("absent")
    (folder / "folder").symlink_to("inner")
    os.link(folder / "there", folder / "hard")
    yield from (("new", "new"), ("new", "./new"), ("new", f"{folder}/new"), ("there", "link"), ("there", "hard"), ("absent", "dangling"))
    yield from (("inner/a", "folder/a"), ("inner/../new", "new"), ("-", "/dev/stdout"), ("/dev/stdout", "/dev/fd/1"), ("/proc/self/fd/1", "-"))


COMMANDS = {"epcis": ["--to", "link"], "csv": ["-c", "e", "--from", "pure"]}
GIVEN = {"epcis": (EVENT % ITEM.format(1)).encode(), "csv": f"e\n{ITEM.format(1)}\n".encode()}


@pytest.mark.parametrize("command", COMMANDS)
def test_two_names_of_one_file(command: str, module: Environment, tmp_path: Path) -> None:
    """A command writes no two outputs to one file, however it is named."""
    for one, other in same_files(tmp_path):
        before = {path: path.read_bytes() for path in tmp_path.iterdir() if path.is_file()}
        got = run(module, command, *COMMANDS[command], "-o", one, "--rejected", other, given=GIVEN[command], cwd=tmp_path)
        assert got == (2, b"", f"tdl {command}: --output and --rejected name the same file\n"), (one, other)
        assert before == {path: path.read_bytes() for path in tmp_path.iterdir() if path.is_file()}


@pytest.mark.parametrize("command", COMMANDS)
def test_standard_output_in_a_file(command: str, module: Environment, tmp_path: Path) -> None:
    """The file of the standard output is one of those that are compared, and /dev/stdout adds to it."""
    words = [sys.executable, "-m", "tdl", command, *COMMANDS[command]]
    for name, how in (("out", "-"), ("out", "/dev/stdout")):
        with open(tmp_path / "out", "wb") as file:
            done = subprocess.run([*words, "-o", how, "--rejected", name], input=GIVEN[command], stdout=file, stderr=subprocess.PIPE, env=module, cwd=tmp_path)
        assert done.returncode == 2 and b"name the same file" in done.stderr
    (tmp_path / "log").write_bytes(b"before\n")
    with open(tmp_path / "log", "ab") as file:
        done = subprocess.run([*words, "-o", "/dev/stdout", "--rejected", "/dev/stderr"], input=GIVEN[command], stdout=file, stderr=subprocess.PIPE, env=module)
    assert (tmp_path / "log").read_bytes().startswith(b"before\n") and LINK.format(1).encode() in (tmp_path / "log").read_bytes()
    assert done.stderr.startswith((b"event,field", b"record,e"))


def test_the_file_that_is_read(module: Environment, tmp_path: Path) -> None:
    """A document may become its own translation, and nothing else may take its place."""
    place = tmp_path / "e.jsonld"
    place.write_bytes(GIVEN["epcis"])
    assert run(module, "epcis", "--to", "link", place, "-o", tmp_path / "o", "--rejected", place)[::2] == (2, "tdl epcis: --rejected names the file that is read\n")
    assert run(module, "epcis", "--to", "link", place, "-o", "o", "--list", "./o", cwd=tmp_path)[::2] == (2, "tdl epcis: --output and --list name the same file\n")
    with open(place, "rb") as file:
        done = subprocess.run([sys.executable, "-m", "tdl", "epcis", "--to", "link", "--list", str(place)], stdin=file, capture_output=True, env=module)
    assert (done.returncode, done.stderr) == (2, b"tdl epcis: --list names the file that is read\n")
    assert place.read_bytes() == GIVEN["epcis"]
    assert run(module, "epcis", "--to", "link", place, "-o", place)[0] == 0
    assert place.read_text() == EVENT % LINK.format(1)
    (tmp_path / "t.csv").write_text("anchor,href\n/01/09506000134352,https://shop.example/\n")
    status, _, said = run(module, "links", "t.csv", "-o", "./t.csv", cwd=tmp_path)
    assert (status, said) == (2, "tdl links: --output names the file that is read\n")
    assert (tmp_path / "t.csv").read_text().startswith("anchor")


@pytest.mark.parametrize("is_synced", [True, False])
def test_files_are_synced(is_synced: bool, tmp_path: Path, monkeypatch: pytest.MonkeyPatch) -> None:
    """The bytes are on the disk before the files appear, and the names after; not with --no-sync."""
    calls: list[str] = []
    sync, replace = os.fsync, os.replace

    def synced(number: int) -> None:
        calls.append("folder" if os.path.isdir(f"/proc/self/fd/{number}") else "file")
        sync(number)

    def renamed(one: str, other: str) -> None:
        calls.append("rename")
        replace(one, other)

    monkeypatch.setattr(os, "fsync", synced)
    monkeypatch.setattr(os, "replace", renamed)
    with files.writing(str(tmp_path / "a"), str(tmp_path / "b"), is_synced=is_synced) as streams:
        for stream in streams:
            stream.write(b"x")
    assert calls == (["file", "file", "rename", "rename", "folder"] if is_synced else ["rename", "rename"])
    assert sorted(path.name for path in tmp_path.iterdir()) == ["a", "b"]


@pytest.mark.parametrize("command", ["epcis", "csv", "jsonl", "links"])
@pytest.mark.parametrize("option", ["", "--no-sync"])
@pytest.mark.needs("strace")
def test_commands_sync(command: str, option: str, module: Environment, tmp_path: Path) -> None:
    """Each command syncs its file and the folder, unless --no-sync."""
    table = "anchor,href\n/01/09506000134352,https://shop.example/\n"
    given = {**GIVEN, "jsonl": b'{"e":"%b"}\n' % ITEM.format(1).encode(), "links": table.encode()}[command]
    (tmp_path / "given").write_bytes(given)
    own: dict[str, list[str]] = {**COMMANDS, "jsonl": COMMANDS["csv"], "links": []}
    words = own[command] + option.split()
    traced = ["strace", "-e", "trace=fsync,rename,renameat,renameat2", "-o", tmp_path / "calls", sys.executable, "-m", "tdl", command]
    done = subprocess.run([*map(str, traced), *words, "given", "-o", "out"], env=module, cwd=tmp_path, capture_output=True, check=False)
    assert done.returncode == 0, done.stderr
    calls = re.findall(r"^(fsync|rename)", (tmp_path / "calls").read_text(), re.M)
    assert calls == (["rename"] if option else ["fsync", "rename", "fsync"])


# ----------------------------------------------------------------------------------------------------------------------------------- signals

SIGNALS = [signal.SIGINT, signal.SIGTERM, signal.SIGHUP]
WAITING = {"epcis": ["--to", "link"], "csv": ["-c", "e", "--from", "pure"], "jsonl": ["-c", "e", "--from", "pure"], "inspect": ["--port", "0", "--no-open"]}


def answers_signals(pid: int) -> bool:
    """Whether a process has its own answer to an end."""
    caught = re.search(r"^SigCgt:\s*(\w+)", Path(f"/proc/{pid}/status").read_text(), re.M)
    return bool(caught and int(caught[1], 16) >> (signal.SIGTERM - 1) & 1)


def is_alive(pid: int) -> bool:
    """Whether a process runs, and is not only waited for."""
    with suppress(OSError):
        return stat_of(pid)[0] != "Z"
    return False


def started(module: Environment, command: str, number: signal.Signals, *words: str, script: Optional[str] = None) -> "subprocess.Popen[bytes]":
    """A run of a command whose input stays open."""
    # (a job in the background of a shell ignores SIGINT, and hands that down)
    how: dict[str, Any] = {**PIPES, "preexec_fn": lambda: signal.signal(number, signal.SIG_DFL)}
    python = ["-m", "tdl"] if script is None else ["-c", script]
    return begun(sys.executable, *python, command, *WAITING[command], *words, env=module, **how)


@pytest.mark.parametrize("number", SIGNALS)
@pytest.mark.parametrize("command", WAITING)
def test_signal_at_the_begin(command: str, number: signal.Signals, module: Environment, tmp_path: Path) -> None:
    """A signal as soon as a command answers signals ends it with a line, and without a file."""
    words = ["-o", str(tmp_path / "out")] if command != "inspect" else []
    with started(module, command, number, *words) as running:
        assert until(lambda: answers_signals(running.pid), PATIENCE)
        running.send_signal(number)
        _, said = running.communicate(timeout=PATIENCE)
    assert running.returncode == 128 + number
    assert re.fullmatch(rf"tdl {command}: ended by {number.name}(; no file was written)?\n", said.decode())
    assert os.listdir(tmp_path) == []


@pytest.mark.parametrize("number", SIGNALS)
@pytest.mark.parametrize("jobs", [1, 2])
def test_signal_within_a_document(jobs: int, number: signal.Signals, module: Environment, tmp_path: Path) -> None:
    """A signal within a document ends the command and its processes, and leaves no file."""
    with started(module, "epcis", number, "-j", str(jobs), "-o", str(tmp_path / "out"), "--list", str(tmp_path / "list")) as running:
        # (it takes more than a pipe holds, so it has read when all is written)
        there(running.stdin).write("".join(events.document("json", "uri", 8_000)).encode()[:-3])
        there(running.stdin).flush()
        children = until(lambda: children_of(running.pid), PATIENCE)
        running.send_signal(number)
        _, said = running.communicate(timeout=PATIENCE)
    assert (running.returncode, said.decode()) == (128 + number, f"tdl epcis: ended by {number.name}; no file was written\n")
    assert os.listdir(tmp_path) == []
    assert until(lambda: not any(map(is_alive, children)), PATIENCE)


AT_RENAME = """
import os, signal, sys
replace, count = os.replace, 0
def renamed(one, other):
    global count
    count += 1
    if count == {which}:
        os.kill(os.getpid(), signal.{name})
    replace(one, other)
os.replace = renamed
sys.argv = ["tdl", *sys.argv[1:]]
import runpy
runpy.run_module("tdl", run_name="__main__", alter_sys=False)
"""


@pytest.mark.parametrize("number", SIGNALS)
@pytest.mark.parametrize("which", [1, 2])
def test_signal_within_the_renames(which: int, number: signal.Signals, module: Environment, tmp_path: Path) -> None:
    """A signal while the files appear comes too late: all are there, and the command says what it did."""
    script = AT_RENAME.format(which=which, name=number.name)
    with started(module, "epcis", number, "-o", str(tmp_path / "out"), "--list", str(tmp_path / "list"), script=script) as running:
        _, said = running.communicate(GIVEN["epcis"], PATIENCE)
    assert (running.returncode, said.decode()[:9]) == (0, "1 event, "), said
    assert sorted(os.listdir(tmp_path)) == ["list", "out"]


# ------------------------------------------------------------------------------------------------------------------------- lines, and counts


def test_lines_are_live(module: Environment) -> None:
    """A line is answered before the next one comes, by one process and by several."""
    for jobs in "1", "2":
        with started(module, "epcis", signal.SIGINT, "--lines", "-j", jobs) as running:
            for number in range(5):
                there(running.stdin).write((EVENT % ITEM.format(number) + "\n").encode())
                there(running.stdin).flush()
                assert there(running.stdout).readline().decode() == EVENT % LINK.format(number) + "\n"
            _, said = running.communicate(timeout=PATIENCE)
        assert (running.returncode, said.decode()[:24]) == (0, "5 events, 5 identifiers:")


def lines_there_and_back(module: Environment, folder: Path, count: int) -> None:
    """Tries that events a line go to links and back, byte for byte, with what is no event among them."""
    document = json.loads("".join(events.document("json", "uri", count)))
    lines = [json.dumps(each, separators=(",", ":")) for each in document["epcisBody"]["eventList"]]
    lines[3:3] = ["", "no event"]
    (folder / "uri").write_text("\n".join(lines) + "\n")
    written = []
    for jobs in 1, 2:
        status, _, said = run(module, "epcis", "--lines", "--to", "link", folder / "uri", "-o", folder / "link", "--rejected", folder / "why", "-j", jobs)
        assert status == 1 and f"{count:,} events" in said and said.endswith(" 1 rejected\n")
        assert (folder / "why").read_text() == "event,field,text,reason\n5,,,json\n"
        written.append((folder / "link").read_bytes())
        assert run(module, "epcis", "--lines", "--to", "uri", "--gcp", 7, folder / "link", "-o", folder / "back")[0] == 1
        assert (folder / "back").read_bytes() == (folder / "uri").read_bytes()
    assert written[0] == written[1] and b"urn:epc:id:" not in written[0]


def test_lines_there_and_back(module: Environment, tmp_path: Path) -> None:
    """Events a line go there and back."""
    lines_there_and_back(module, tmp_path, 2_000)


@pytest.mark.whole
def test_many_lines_there_and_back(module: Environment, tmp_path: Path) -> None:
    """A hundred thousand events a line go there and back."""
    lines_there_and_back(module, tmp_path, 100_000)


# what is of the standard (the examples of TDS 2.0, section 6.3, of ISO 6346 and of IMO), and what is not
OTHER_SCHEMES = [
    "urn:epc:id:cpi:0614141.123ABC.123456789", "urn:epc:id:cpi:0614141.123-%2F%23.0", "urn:epc:id:upui:1234567.098765.51qIgY)%3C%26Jp3*j7'SDB",
    "urn:epc:id:usdod:CAGEY.5678", "urn:epc:id:usdod:W81X9C.1", "urn:epc:id:adi:2S194..12345678901", "urn:epc:id:adi:W81X9C.3KL984PX1.2WMA52",
    "urn:epc:id:adi:35962.%2FA.%23123456", "urn:epc:id:bic:CSQU3054383", "urn:epc:id:gid:95100000.12345.400", "urn:epc:id:imovn:9176187",
    "urn:epc:idpat:cpi:0614141.123ABC.*", "urn:epc:idpat:upui:1234567.098765.*",
]
NO_SCHEMES = [
    "urn:epc:id:cpi:0614141.123ABC.0123", "urn:epc:id:cpi:0614141.123abc.1", "urn:epc:id:cpi:0614141.123ABC.1234567890123", "urn:epc:id:cpi:0614141..1",
    "urn:epc:id:cpi:061414112345.0123456789012345678.1", "urn:epc:id:upui:1234567.09876.51qIgY", "urn:epc:id:upui:1234567.098765.",
    "urn:epc:id:usdod:CAGEI.5678", "urn:epc:id:usdod:CAGEY.05", "urn:epc:id:adi:2S194..",
    "urn:epc:id:bic:CSQU3054384", "urn:epc:id:bic:CSQX3054383", "urn:epc:id:imovn:9176188",
    "urn:epc:id:gid:1.2", "urn:epc:id:sgtin:0614141.81234",
    "urn:epc:idpat:cpi:0614141.123ABC.1", "urn:epc:id:cpi:0614141.123ABC.*", "urn:epc:tag:cpi-96:0.0614141.12345.1",
]


@pytest.mark.usefixtures("program_of_module")
def test_other_schemes() -> None:
    """Valid EPCs of schemes without a kind are not translated, which is no fault; what is no identifier of the standard is rejected."""
    for target, options in (("link", {}), ("uri", {"gcp": 7})):
        for text in OTHER_SCHEMES, NO_SCHEMES:
            data = "[%s]" % ",".join(EVENT % each for each in text)
            done = tdl.epcis(data, target, **options)  # type: ignore[arg-type]
            assert (done.text, done.counts.untranslated + done.counts.rejected) == (data, len(text))
            wanted = [(number, "epcList", each, "reading") for number, each in enumerate(text, 1)] if text is NO_SCHEMES else []
            assert [tuple(row) for row in done.rejected] == wanted if target == "link" else True


def test_other_schemes_in_words(module: Environment) -> None:
    """The command counts them, with the status 0."""
    status, output, said = run(module, "epcis", "--to", "link", given=(EVENT % OTHER_SCHEMES[0]).encode())
    wanted = "1 event, 1 identifier: 0 translated, 0 in this form before, 1 not translated, 0 neither EPC nor Digital Link, 0 rejected\n"
    assert (status, output.decode(), said) == (0, EVENT % OTHER_SCHEMES[0], wanted)


def test_list_of_a_divided_identifier(module: Environment, tmp_path: Path) -> None:
    """The list is the same for each number of processes, whatever other event has the identifier that markup divides."""
    divided, note = f"<epc>{ITEM[:9]}<!-- a -->{ITEM[9:]}</epc>".format(1), f"<note>{'x' * (1 << 20)}</note>"
    texts = (divided, note + f"<epc>{ITEM.format(1)}</epc>")
    data = XML % "".join(f"<ObjectEvent><epcList>{text}</epcList></ObjectEvent>" for text in texts)
    lists = []
    for jobs in 1, 2:
        assert run(module, "epcis", "--to", "link", "--list", tmp_path / "list", "-j", jobs, given=data.encode())[0] == 1
        lists.append((tmp_path / "list").read_text())
    assert lists == [f"identifier\n{LINK.format(1)}\n{LINK.format(1)}\n"] * 2


# ---------------------------------------------------------------------------------------------------------------------------------- in Python


@pytest.mark.usefixtures("program_of_module")
@pytest.mark.parametrize("name", ["epcis2.jsonld", "epcis2.xml", "epcis1.xml"])
def test_in_python(name: str, module: Environment, tmp_path: Path) -> None:
    """A text, its bytes, its path and its file are translated as the command does, with the same counts."""
    data = filled(EVENTS / name)
    (tmp_path / name).write_bytes(data)
    status, output, said = run(module, "epcis", "--to", "link", tmp_path / name)
    with open(tmp_path / name, "rb") as file:
        found = [tdl.epcis(data, "link"), tdl.epcis(tmp_path / name, "link"), tdl.epcis(file, "link", processes=2)]
    if name != "epcis1.xml":
        assert tdl.epcis(data.decode(), "link").text == output.decode()
    assert status == 0 and [each.text for each in found] == [output] * 3
    counts = found[0].counts
    assert f"{counts.events} events, {counts.identifiers} identifiers: {counts.translated} translated, {counts.same} in this form" in said
    assert [each.counts for each in found] == [counts] * 3 and not found[0].rejected
    assert tdl.epcis(output, "uri", gcp=7).text == data


@pytest.mark.usefixtures("program_of_module")
def test_lines_in_python() -> None:
    """Events come one at a time, as texts or bytes, and what is none has its reason."""
    taken: list[int] = []

    def sent() -> Iterator[Any]:
        for number, text in enumerate((EVENT % ITEM.format(1), (EVENT % ITEM.format(2)).encode(), "x", EVENT % "urn:epc:id:sgtin:1", b"\xff", "\ud800")):
            taken.append(number)
            yield text

    came = tdl.epcis_lines(sent(), "link")
    assert taken == []
    first = next(came)
    assert (first.text, first.counts.translated, first.rejected, taken) == (EVENT % LINK.format(1), 1, (), [0])
    rest = list(came)
    assert [each.text for each in rest] == [(EVENT % LINK.format(2)).encode(), "x", EVENT % "urn:epc:id:sgtin:1", b"\xff", "\ud800"]
    assert [[row.reason for row in each.rejected] for each in rest] == [[], ["json"], ["reading"], ["json"], ["json"]]
    assert [each.text for each in tdl.epcis_lines(sent(), "link", batch=4)] == [first.text, *(each.text for each in rest)]


@pytest.mark.usefixtures("program_of_module")
def test_wrong_calls() -> None:
    """Wrong options and documents raise errors that say what is wrong."""
    calls: tuple[tuple[Callable[[], object], str], ...] = (
        (lambda: tdl.epcis("{}", "hex"), "to is link or uri"), (lambda: tdl.epcis("{}", "link", gcp=7), "options of uri"),
        (lambda: tdl.epcis("{}", "uri", stem="https://a.example"), "option of link"), (lambda: tdl.epcis("{}", "link"), "not an EPCIS document"),
        (lambda: tdl.epcis(JSON % "{,}", "link"), "line 1, column 52"), (lambda: tdl.epcis_lines([], "link", batch=0), "at least one"),
    )
    for call, why in calls:
        with pytest.raises(ValueError, match=why):
            call()
    with pytest.raises(TypeError, match="iterable"):
        tdl.epcis_lines("{}", "link")
