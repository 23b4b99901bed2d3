"""`python3 -m tdl epcis`: EPCIS documents between URIs and links.

The documents of checks/events have each event type in both formats, with a name where an identifier stands; identifiers.txt there has each
identifier as a URI and as a link. So the wanted bytes of a translation are the same document with the other column.
"""
import os
import re
import signal
import subprocess
import sys
from contextlib import suppress
from functools import partial
from pathlib import Path
from time import sleep
from typing import Any, Callable, Iterable, Iterator, Optional, Sequence

import pytest

from tools import events
from tools.common import QUIET, Word, begun, children_of, stat_of, there, told
from tools.repository import TOP
from tools.tests import same

Ask = Callable[..., tuple[int, bytes, str]]
DOCUMENTS = TOP / "checks" / "events"
ITEM = "urn:epc:id:sgtin:0614141.107346.2017"
LINK = "https://id.gs1.org/01/10614141073464/21/2017"
STEM = "https://shop.example/a"
JSON, XML = '{"type":"EPCISDocument","epcisBody":{"eventList":[%s]}}', "<EPCISDocument><EPCISBody><EventList>%s</EventList></EPCISBody></EPCISDocument>"
EVENT = '{"epcList":["%s"]}'
QUERIED = '{"epcisBody":{"queryResults":{"resultsBody":{"eventList":[%s]}}},"x":[]}'
OBJECT = "<ObjectEvent><epcList>%s</epcList></ObjectEvent>"
MEBIBYTE = 1 << 20
# what a document is that is not well-formed or not EPCIS: where, and a word of why
BAD = {
    JSON % (EVENT % ITEM + ",," + EVENT % ITEM): ("line 1, column 104:", "Expecting value"),
    JSON % (EVENT % ITEM + ","): ("line 1, column 104:", "Expecting value"),
    JSON % ("," + EVENT % ITEM): ("line 1, column 51:", "Expecting value"),
    JSON % (EVENT % ITEM + "\n " + EVENT % ITEM): ("line 2, column 2:", "Expecting ',' delimiter"),
    JSON % '\n{"a":"\t"}': ("line 2, column 7:", "Invalid control character"),
    JSON % '\n{"a":NaN}': ("line 2, column 6:", "NaN is not JSON"),
    JSON % '{"a":[1,\n-Infinity]}': ("line 2, column 1:", "-Infinity is not JSON"),
    JSON % '{"parentID":"a",\n"parentID":"b"}': ("line 2, column 15:", 'two members "parentID"'),
    JSON % '{"a":"\\x"}': ("line 1, column 57:", "escape"),
    JSON % '{"a":"\udcff"}': ("line 1, column 57:", "not UTF-8"),
    JSON % ("[" * 100_000): ("line 1, column ", "too many arrays"),
    (JSON % (EVENT % ITEM))[:60]: ("line 1, column 61:", "Expecting ':' delimiter"),
    (JSON % (EVENT % ITEM))[:-1]: ("line 1, column ", "Expecting"),
    JSON % (EVENT % ITEM) + "\nx": ("line 2, column 1:", "Extra data"),
    '{"epcisBody":{"eventList":[]},\n"epcisBody":{}}': ("line 2, column 15:", 'two members "epcisBody"'),
    '{"a":1,}': ("line 1, column 8:", "Expecting"),
    '{"a":1}': ("line 1, column 1:", "not an EPCIS document"),
    "[1]": ("line 1, column 2:", "not an EPCIS document"),
    "": ("line 1, column 1:", "neither JSON nor XML"),
    XML % "\n<ObjectEvent>": ("line 2, column 16:", "mismatched tag"),
    XML % "\n<x:a/>": ("line 2, column 1:", "unbound prefix"),
    XML % "\n<a>&auml;</a>": ("line 2, column 4:", "undefined entity"),
    XML % '\n<a b="&auml;"/>': ("line 2, column 1:", "undefined entity"),
    (XML % "")[:30]: ("line 1, column 27:", "unclosed token"),
    XML % "" + "\n<a/>": ("line 2, column 1:", "junk"),
    '<!DOCTYPE a [<!ENTITY b "c">]>\n' + XML % "<a>&b;</a>": ("line 1, column ", "document type"),
    "<?xml version='1.0' encoding='windows-1252'?>" + XML % "": ("line 1, column 1:", "encoding windows-1252"),
    "<html/>": ("line 1, column 1:", "the root is html"),
}
# what an identifier is that has no translation to a link: the reason, or none if it is not of GS1
REJECTED: dict[str, Optional[str]] = {
    "urn:epc:id:sgtin:0614141.107346.": "reading",
    "urn:epc:id:cpi:0614141.123ABC.0123": "reading",
    "urn:epc:id:cpi:0614141.123ABC.123456789": None,
    "urn:epc:id:upui:1234567.098765.51qIgY": None,
    "urn:epc:tag:sgtin-96:3.0614141.812345.6789": "reading",
    "urn:epc:idpat:sgtin:0614141.112345.5.*": "reading",
    "urn:epc:idpat:grai:4012345.55555.5.*": "reading",
    "urn:epc:idpat:sgtin:*.*.*": "reading",
    "urn:epc:class:lgtin:0614141.1": "reading",
    "https://id.gs1.org/01/10614141073465/21/1": "check 19",
    "https://id.gs1.org/01/10614141073464/21/" + "1" * 21: "length 37",
    "https://shop.example/products/7": None,
    "urn:uuid:0d5a0f1e-0b7e-4b7a-9d0b-1f9f9f0b9d0a": None,
    "urn:epcglobal:cbv:bt:0614141073467:1152": None,
}
# likewise of a link to a URI with a company prefix of seven digits
REJECTED_LINKS: dict[str, Optional[str]] = {
    "https://id.gs1.org/01/10614141073464/10/A/21/1": "extra 10",
    "https://id.gs1.org/01/10614141073464/21/1?17=261231": "extra 17",
    "https://id.gs1.org/01/10614141073464/22/A": "extra 22",
    "https://id.gs1.org/401/ABC": "hold gcp char",
    "https://id.gs1.org/00/106141412345678909": "check 19",
}
# the ways in which a document becomes the one with the other column: its column, the wanted one and the words
WAYS: dict[str, tuple[int, int, Sequence[Word]]] = {"link": (0, 1, ()), "uri": (1, 0, ("--gcp", 7))}
every_document = pytest.mark.parametrize("path", sorted(DOCUMENTS.glob("epcis*")), ids=lambda path: str(path.name))


@pytest.fixture
def ask(module: dict[str, str]) -> Ask:
    """A function that runs the command over some input, and returns the status, the output and the errors."""
    def asked(*words: Word, given: bytes = b"") -> tuple[int, bytes, str]:
        command = told([sys.executable, "-m", "tdl", "epcis", *words])
        done = subprocess.run(command, input=given, capture_output=True, env=module, check=False)
        return done.returncode, done.stdout, done.stderr.decode("utf-8", "replace")

    return asked


def identifiers() -> list[list[str]]:
    """Returns the columns of identifiers.txt."""
    lines = (DOCUMENTS / "identifiers.txt").read_text("ascii").splitlines()
    return [line.split() for line in lines if not line.startswith("#")]


def filled(path: Path, column: int, stem: str = events.STEM) -> bytes:
    """Returns a document with its identifiers in one form."""
    text = path.read_bytes().decode("latin-1")
    for name, *forms in identifiers():
        text = text.replace(f"@{name}@", forms[column].replace(events.STEM, stem))
    return text.encode("latin-1")


@every_document
@pytest.mark.parametrize("form", WAYS)
@pytest.mark.parametrize("jobs", (1, 3))
def test_translates_each_event_type(ask: Ask, path: Path, form: str, jobs: int) -> None:
    column, other, words = WAYS[form]
    status, output, said = ask("--to", form, "-j", jobs, *words, given=filled(path, column))
    assert status == 0, said
    same(filled(path, other), output)


@every_document
@pytest.mark.parametrize("form", WAYS)
def test_keeps_what_has_the_form_already(ask: Ask, path: Path, form: str) -> None:
    _, other, words = WAYS[form]
    status, output, said = ask("--to", form, *words, given=filled(path, other))
    assert status == 0 and " 0 translated" in said, said
    same(filled(path, other), output)


@every_document
def test_writes_links_with_a_stem(ask: Ask, path: Path) -> None:
    status, output, said = ask("--to", "link", "--stem", STEM, given=filled(path, 0))
    assert status == 0, said
    same(filled(path, 1, STEM), output)


@every_document
def test_lists_of_documents_that_name_the_same_things_are_equal(ask: Ask, path: Path, tmp_path: Path) -> None:
    links = {forms[1] for name, *forms in identifiers() if f"@{name}@" in path.read_text("latin-1")}
    lists = []
    for column, asked in (0, "--to link"), (0, "--to uri"), (1, "--to link"), (1, "--to uri --gcp 7 -j 2"):
        status, output, said = ask(*asked.split(), "--list", tmp_path / "list.csv", given=filled(path, column))
        assert (status, output) == (0, b""), said
        lists.append((tmp_path / "list.csv").read_text("ascii"))
        assert lists[-1] == lists[0], asked
    assert {line for line in lists[0].splitlines()[1:] if line.startswith(events.STEM)} == links


@pytest.mark.parametrize("jobs", (1, 2))
@pytest.mark.parametrize("form, rows, words", (("link", REJECTED, ()), ("uri", REJECTED_LINKS, ("--gcp", 7))), ids=("link", "uri"))
def test_names_what_it_rejects(ask: Ask, tmp_path: Path, form: str, rows: dict[str, Optional[str]], words: Sequence[Word], jobs: int) -> None:
    given = (JSON % ",\n".join(EVENT % text for text in rows)).encode()
    wanted = [f"{number},epcList,{text},{reason}" for number, (text, reason) in enumerate(rows.items(), 1) if reason]
    status, output, said = ask("--to", form, "--rejected", tmp_path / "why.csv", "-j", jobs, *words, given=given)
    assert (tmp_path / "why.csv").read_text("utf-8").splitlines() == ["event,field,text,reason", *wanted]
    assert (status, output) == (1, given)
    assert said.endswith(f" {len(wanted)} rejected\n")


@pytest.mark.parametrize("text, row", (
    pytest.param(XML % (OBJECT % f"<epc>{ITEM[:9]}<!-- a -->{ITEM[9:]}</epc>"), f"{ITEM},markup", id="a comment within an identifier"),
    pytest.param(JSON % EVENT.replace("%s", "urn:epc:\\ud800"), "urn:epc:\\ud800,reading", id="half a surrogate pair"),
))
def test_names_what_is_not_text(ask: Ask, tmp_path: Path, text: str, row: str) -> None:
    status, output, _ = ask("--to", "link", "--rejected", tmp_path / "why.csv", given=text.encode())
    assert (tmp_path / "why.csv").read_text().splitlines()[1] == f"1,epcList,{row}"
    assert (status, output.decode()) == (1, text)


def test_takes_company_prefixes_from_a_list(ask: Ask, tmp_path: Path) -> None:
    given = (JSON % (EVENT % LINK)).encode()
    assert ask("--to", "uri", "--rejected", tmp_path / "why.csv", given=given)[0] == 1
    assert f"1,epcList,{LINK},missing gcp" in (tmp_path / "why.csv").read_text("utf-8").splitlines()
    (tmp_path / "prefixes.json").write_text('{"version":1,"prefixes":[{"prefix":"0614141","length":7}]}')
    assert ask("--to", "uri", "--prefixes", tmp_path / "prefixes.json", given=given)[1].decode() == JSON % (EVENT % ITEM)


@pytest.mark.parametrize("given, wanted", (
    (JSON % (EVENT % ITEM.replace(":", "\\u003a")), JSON % (EVENT % LINK)),
    (JSON % f'{{"a":"{ITEM}","epcList":["{ITEM}","{ITEM}"],"b":["\\"{ITEM}"]}}', JSON % f'{{"a":"{ITEM}","epcList":["{LINK}","{LINK}"],"b":["\\"{ITEM}"]}}'),
    (JSON % f'{{"a":"{ITEM}","epcList":["{ITEM}"],"b":"{ITEM}"}}', JSON % f'{{"a":"{ITEM}","epcList":["{LINK}"],"b":"{ITEM}"}}'),
    ("\ufeff \n" + JSON % (EVENT % ITEM), "\ufeff \n" + JSON % (EVENT % LINK)),
    (f'{{"epcList":["{ITEM}"],"type":"ObjectEvent"}}', f'{{"epcList":["{LINK}"],"type":"ObjectEvent"}}'),
    (JSON % "" + "\n", JSON % "" + "\n"),
    (QUERIED % (EVENT % ITEM), QUERIED % (EVENT % LINK)),
    (XML % (OBJECT % f"<epc>{ITEM.replace(':', '&#x3a;')}</epc>"), XML % (OBJECT % f"<epc>{LINK}</epc>")),
    (XML % (OBJECT % "<epc>https://a.example/01/10614141073464?17=261231&amp;10=A</epc>"),
     XML % (OBJECT % "<epc>https://id.gs1.org/01/10614141073464/10/A?17=261231</epc>")),
    (XML % (OBJECT % f"<epc><x/>{ITEM}</epc>"), XML % (OBJECT % f"<epc><x/>{ITEM}</epc>")),
), ids=("escape", "repeated", "other fields", "byte order mark", "one event", "no event", "query", "reference", "reordered", "child"))
def test_reads_each_spelling(ask: Ask, given: str, wanted: str) -> None:
    assert ask("--to", "link", given=given.encode())[1].decode() == wanted


@pytest.mark.parametrize("text, place, why", ((text, *fault) for text, fault in BAD.items()), ids=(f"{number}" for number, _ in enumerate(BAD)))
@pytest.mark.parametrize("jobs", (1, 2))
def test_names_the_place_that_is_not_well_formed(ask: Ask, tmp_path: Path, text: str, place: str, why: str, jobs: int) -> None:
    names: list[Word] = ["-o", tmp_path / "out", "--rejected", tmp_path / "why", "--list", tmp_path / "list"]
    status, output, said = ask("--to", "link", "-j", jobs, *names, given=text.encode("utf-8", "surrogateescape"))
    assert (status, output, os.listdir(tmp_path)) == (2, b"", [])
    assert place in said and why in said and said.count("\n") == 1, said


@pytest.mark.parametrize("words, status, why", (
    ("--to link --gcp 7", 2, "--gcp goes with --to uri"),
    ("--to uri --stem https://a.example", 2, "--stem goes with --to link"),
    ("--to link --stem ftp://a", 2, "stem is http"),
    ("--to uri --gcp 13", 2, "gcp is a number from 1 to 12"),
    ("--to link -o a --list a", 2, "name the same file"),
    ("--to link -j 0", 2, "the number of processes"),
    ("--to hex", 2, "invalid choice"),
    ("--to link /not/there", 4, "/not/there"),
    ("--to link --tables /not/there", 4, "/not/there"),
    ("--to link --tables /dev/null", 3, "the file of --tables is rejected"),
))
def test_names_what_is_wrong_with_its_arguments(ask: Ask, words: str, status: int, why: str) -> None:
    got, _, said = ask(*words.split(), given=(JSON % "").encode())
    assert got == status and why in said and "Traceback" not in said, said


@pytest.mark.parametrize("count", (5_000, pytest.param(100_000, marks=pytest.mark.whole)))
@pytest.mark.parametrize("kind", events.FORMATS)
@pytest.mark.parametrize("source, target, more", (("uri", "link", ()), ("link", "uri", ("--gcp", 7))), ids=("link", "uri"))
def test_translates_generated_events(ask: Ask, tmp_path: Path, count: int, kind: str, source: str, target: str, more: Sequence[Word]) -> None:
    texts = {form: "".join(events.document(kind, form, count)).encode() for form in events.FORMS}
    written = []
    for jobs in 1, 4:
        paths = {option: tmp_path / f"{option.strip('-')}{jobs}" for option in ("-o", "--list", "--rejected")}
        status, _, said = ask("--to", target, "-j", jobs, *more, *(word for pair in paths.items() for word in pair), given=texts[source])
        assert status == 0 and f"{count:,} events" in said, said
        same(texts[target], paths["-o"].read_bytes())
        written.append([path.read_bytes() for path in paths.values()])
    assert written[0] == written[1]


def descendants(number: int) -> list[int]:
    """Returns the processes that a process started, and those that these started."""
    with suppress(OSError):
        return [each for child in children_of(number) for each in (child, *descendants(child))]
    return []


def is_alive(number: int) -> bool:
    """Returns whether a process runs, and is not only waited for."""
    with suppress(OSError):
        return stat_of(number)[0] != "Z"
    return False


@pytest.mark.parametrize("jobs", (1, 3))
@pytest.mark.parametrize("number", (signal.SIGKILL, signal.SIGTERM, signal.SIGINT), ids=lambda number: str(number.name))
def test_leaves_nothing_if_it_is_killed(module: dict[str, str], tmp_path: Path, number: signal.Signals, jobs: int) -> None:
    pieces = "".join(events.document("json", "uri", 8_000)).encode()
    words: list[Word] = ["--to", "link", "-j", jobs, "-o", tmp_path / "out", "--list", tmp_path / "list"]
    # (a job in the background of a shell ignores SIGINT, and hands that down)
    own = None if number == signal.SIGKILL else partial(signal.signal, number, signal.SIG_DFL)
    how: dict[str, Any] = {"stdin": subprocess.PIPE, "stderr": subprocess.DEVNULL, "preexec_fn": own, "env": module}
    with begun(sys.executable, "-m", "tdl", "epcis", *words, **how) as running:
        # (it takes more than a pipe holds, so it has read and translated events when all are written)
        there(running.stdin).write(pieces[:-3])
        started = descendants(running.pid)
        running.send_signal(number)
        # (Python handles a signal that comes just before a read after that read)
        with suppress(BrokenPipeError):
            there(running.stdin).close()
        running.wait()
    while any(map(is_alive, started)):
        sleep(0.05)
    assert started and os.listdir(tmp_path) == []


def peak(module: dict[str, str], pieces: Iterable[bytes]) -> tuple[int, float]:
    """Returns the status of a run over pieces of a document, and the most memory that it held, in MiB."""
    with begun(sys.executable, "-m", "tdl", "epcis", "--to", "link", env=module, stdin=subprocess.PIPE, **QUIET) as running:
        for piece in pieces:
            there(running.stdin).write(piece)
        # (what wait4 tells counts this process too, of which a child begins as a copy)
        most = there(re.search(r"^VmHWM:\s+(\d+) kB$", Path(f"/proc/{running.pid}/status").read_text(), re.M))
        there(running.stdin).close()
    return running.returncode, int(most[1]) * 1024 / MEBIBYTE


def large(kind: str, size: int) -> Iterator[bytes]:
    """Yields the pieces of a document of so many bytes, whose events have long notes."""
    note, text = "a note that stays. " * 500, ""
    for piece in events.document(kind, "uri", size // (len(note) + 500), note):
        text += piece
        if len(text) > MEBIBYTE:
            yield text.encode()
            text = ""
    yield text.encode()


@pytest.mark.parametrize("size, most", ((10**8, 90), pytest.param(10**9, 150, marks=pytest.mark.whole)))
@pytest.mark.parametrize("kind", events.FORMATS)
def test_memory_does_not_grow_with_the_document(module: dict[str, str], kind: str, size: int, most: int) -> None:
    status, used = peak(module, large(kind, size))
    assert status == 0 and used <= most, f"{used:.0f} MiB"


@pytest.mark.whole
@pytest.mark.parametrize("kind", events.FORMATS)
def test_memory_of_many_events(module: dict[str, str], kind: str) -> None:
    status, used = peak(module, (piece.encode() for piece in events.document(kind, "uri", 400_000)))
    assert status == 0 and used <= 100, f"{used:.0f} MiB"
