"""The parts of an EPCIS document: cut anywhere, read in pieces of any size, and limited alike, they have the same identifiers.

These need no program. What the standard library's ElementTree finds in a document of XML, and a decoder of JSON in one of JSON, is what is wanted.
"""
import io
import json
import random
from pathlib import Path
from typing import Any, BinaryIO, Iterator, Optional
from xml.etree import ElementTree

import pytest

from tdl.errors import Wrong
from tdl.events import document, json_source, json_text, json_walk, parts, xml_locator, xml_source
from tdl.events.lines import lines_of

EVENTS = Path(__file__).resolve().parent.parent / "checks" / "events"
ITEM = "urn:epc:id:sgtin:0614141.107346.{}"
SPACES = ("", "urn:epcglobal:epcis:xsd:2")
MODULES = (document, json_source, json_text, json_walk, parts, xml_locator, xml_source)
JSON = '{"type":"EPCISDocument","epcisBody":{"eventList":[%s]}}'
XML = "<EPCISDocument><EPCISBody><EventList>%s</EventList></EPCISBody></EPCISDocument>"
# a document's text with a mark for each identifier; the identifiers with the numbers of their events and their fields; and the number of events
Found = tuple[bytes, list[tuple[str, int, str]], int]


class Slow(io.BufferedIOBase):
    """A stream that gives at most so many bytes at once."""

    def __init__(self, data: bytes, size: int) -> None:
        self._data, self._size = io.BytesIO(data), size

    def read(self, size: Any = -1) -> bytes:
        """Returns what comes next."""
        return self._data.read(min(size, self._size))


def set_all(monkeypatch: pytest.MonkeyPatch, name: str, value: int) -> None:
    """Sets a constant of the parts in each module that has it."""
    for module in MODULES:
        if hasattr(module, name):
            monkeypatch.setattr(module, name, value)
        if name == "LARGEST" and hasattr(module, "SURE"):
            monkeypatch.setattr(module, "SURE", value // 4)


def found_in(data: bytes, is_inline: bool, stream: Optional[Any] = None) -> Found:
    """What the parts of a document have together."""
    source: BinaryIO = stream or io.BytesIO(data)
    text, names, events = b"", [], 0
    for part in document.parts_of(source, is_inline):
        located = part.located()
        pieces = [located.kept[0]] + [piece for raw, kept in zip(located.raw, located.kept[1:]) for piece in (f"\0{raw}\0", kept)]
        text += "".join(pieces).encode(located.codec)
        names += [(name, events + event, field) for name, event, field, _ in located.found]
        events += located.events
    return text, names, events


def fault_of(data: bytes, is_inline: bool) -> str:
    """Why a document is rejected, or nothing."""
    try:
        found_in(data, is_inline)
    except Wrong as wrong:
        return str(wrong)
    return ""


def named(dice: random.Random, is_bare: bool = False) -> str:
    """Attributes that bind prefixes or change the default namespace, or none."""
    default = dice.choice(['xmlns=""', 'xmlns="http://vendor.example/"', 'xmlns="urn:epcglobal:epcis:xsd:2"', ""])
    prefix = dice.choice(['xmlns:p="http://vendor.example/"', 'xmlns:p="urn:epcglobal:epcis:xsd:2"', 'xmlns:\u00e9="http://other.example/&amp;"', ""])
    return "".join(f" {word}" for word in ((prefix,) if is_bare else (default, prefix)) if word)


def event(dice: random.Random, number: int) -> str:
    """An event, or another element in its place, with foreign elements before and within it."""
    epcs = f"<epcList{named(dice)}><epc>{ITEM.format(number)}</epc></epcList>"
    name = dice.choice(["vendorEvent", "ObjectEvent", "note"])
    foreign = dice.choice(["", f"<{name}{named(dice)}>{epcs}</{name}>", "<!-- - -->", "<?and this?>", "<p:x xmlns:p='http://a.example/'/>"])
    inner = dice.choice([epcs, f"{foreign}{epcs}", f"{epcs}{foreign}", f"<extension>{epcs}</extension>"])
    whole = f"<ObjectEvent{named(dice)}>{inner}</ObjectEvent>"
    return f"{foreign}{dice.choice([whole, f'<extension>{whole}</extension>'])}" + " " * dice.randrange(300)


def xml_document(dice: random.Random) -> bytes:
    """A document in XML whose namespaces change at any place."""
    head = dice.choice(["<EPCISDocument%s>", '<EPCISDocument xmlns="urn:epcglobal:epcis:xsd:2"%s>']) % named(dice, True)
    events = "".join(event(dice, number) for number in range(30))
    lists = dice.choice(["<EventList%s>" % named(dice), '<e:EventList xmlns:e="urn:epcglobal:epcis:xsd:2"%s>' % named(dice)])
    end = "</e:EventList>" if lists.startswith("<e:") else "</EventList>"
    return f"{head}<EPCISBody>{lists}{events}{end}</EPCISBody></EPCISDocument>".encode()


def within(element: ElementTree.Element, *path: str) -> Iterator[ElementTree.Element]:
    """The elements at the end of a path of EPCIS, which have its namespace or none."""
    if not path:
        yield element
        return
    for child in element:
        space, _, local = str(child.tag)[1:].partition("}") if str(child.tag).startswith("{") else ("", "", str(child.tag))
        if space in SPACES and local == path[0]:
            yield from within(child, *path[1:])
        if space in SPACES and local == "extension" and path[0] in ("ObjectEvent", "epcList"):
            yield from within(child, *path)


@pytest.mark.parametrize("seed", range(60))
def test_namespaces_at_every_place(seed: int, monkeypatch: pytest.MonkeyPatch) -> None:
    """Each part has exactly the namespaces that are in force where it begins."""
    data = xml_document(random.Random(seed))
    wanted = sorted(str(it.text) for it in within(ElementTree.fromstring(data), "EPCISBody", "EventList", "ObjectEvent", "epcList", "epc"))
    whole = found_in(data, True)
    assert sorted(name for name, _, _ in whole[1]) == wanted
    for size in (1, 200, 700):
        set_all(monkeypatch, "CHUNK", size)
        assert found_in(data, False) == whole
        assert found_in(data, True) == whole


def filled(path: Path) -> bytes:
    """A document of checks/events with its identifiers as URIs."""
    text = path.read_bytes().decode("latin-1")
    for line in (EVENTS / "identifiers.txt").read_text("ascii").splitlines():
        if not line.startswith("#"):
            name, uri, _ = line.split()
            text = text.replace(f"@{name}@", uri)
    return text.encode("latin-1")


NUMBERS = '{"type":"EPCISDocument","schemaVersion":2.0,"a":-1.5e+10,"b":[1E-2,0,-0.0],"c":true,"epcisBody":{"eventList":[{"q":12.50},{"q":1e2}]},"d":3.25e1}'
SMALL = [*sorted(EVENTS.glob("epcis*")), "numbers", "escapes"]


@pytest.mark.parametrize("which", SMALL, ids=lambda it: str(getattr(it, "name", it)))
def test_pieces_of_any_size(which: Any, monkeypatch: pytest.MonkeyPatch) -> None:
    """A document that is read in pieces of 1 to 64 bytes, and cut into parts of some hundred, is as one that is read at once."""
    escapes = '\ufeff {"epcisHeader":{"x":"\\ud83d\\ude00\\\\"},"epcisBody":{"eventList":[{"epcList":["urn:epc:id:\\u0073gtin:0614141.107346.\u20ac"]}]}} \n'
    data = filled(which) if isinstance(which, Path) else (NUMBERS if which == "numbers" else escapes).encode()
    whole = found_in(data, True)
    assert whole[2] == len(whole_events(data)) if data.lstrip(b"\xef\xbb\xbf ")[:1] == b"{" else whole[2] > 4
    set_all(monkeypatch, "CHUNK", 300)
    for size in range(1, 65):
        for is_inline in (True, False):
            assert found_in(data, is_inline, Slow(data, size)) == whole, f"pieces of {size} bytes"


def whole_events(data: bytes) -> list[Any]:
    """The events of a document in JSON."""
    return list(json.loads(data.decode("utf-8-sig"))["epcisBody"]["eventList"])


@pytest.mark.parametrize("text", ['{"type":"EPCISDocument","schemaVersion":2.,"epcisBody":{}}', '{"epcisBody":1e}', '{"epcisBody":-}', '{"epcisBody":01}', "[2.]"])
def test_wrong_numbers_stay_wrong(text: str) -> None:
    """What is no number is none in pieces of any size, and is told alike."""
    wanted = fault_of(text.encode(), True)
    assert "not JSON" in wanted or "not an EPCIS document" in wanted
    for size in range(1, 10):
        with pytest.raises(Wrong) as raised:
            found_in(b"", True, Slow(text.encode(), size))
        assert str(raised.value) == wanted


def nested(depth: int) -> str:
    """Arrays in one another."""
    return "[" * depth + "]" * depth


@pytest.mark.parametrize(
    "form, deepest",
    [(JSON % '{"type":"ObjectEvent","a":%s}', 255), (JSON % "%s", 256), ('{"epcisBody":%s}', 255), ('{"epcisBody":{"eventList":[],"a":%s}}', 254),
     ('{"a":%s,"epcisBody":{}}', 255), ('{"type":"ObjectEvent","epcList":%s}', 255), ('{"a":["]",{"b":%s}],"epcisBody":{}}', 253)],
)
def test_depth_in_json(form: str, deepest: int) -> None:
    """Arrays and objects nest 256 deep, from an event's or the document's on, for each number of processes; one more is a fault with its place."""
    for is_inline in (True, False):
        assert fault_of((form % nested(deepest)).encode(), is_inline) == ""
        for depth in (deepest + 1, 500, 980, 5_000):
            place = form.index("%s") + deepest + 1
            wanted = f"line 1, column {place}: too many arrays and objects in one another, more than 256"
            assert fault_of((form % nested(depth)).encode(), is_inline) == wanted, depth


def sized(size: int, kind: str) -> str:
    """An event of so many bytes, with a character of two and of three bytes."""
    head, tail = ('{"type":"ObjectEvent","a":"\u00e9', '"}') if kind == "json" else ("<ObjectEvent>\u20ac", "</ObjectEvent>")
    return head + "x" * (size - len((head + tail).encode())) + tail


@pytest.mark.parametrize("is_inline", [True, False])
@pytest.mark.parametrize("form", [JSON, "[%s]", "%s", XML])
def test_size_of_an_event(form: str, is_inline: bool, monkeypatch: pytest.MonkeyPatch) -> None:
    """An event has at most so many bytes, exactly, and nothing else has this limit."""
    set_all(monkeypatch, "CHUNK", 256)
    set_all(monkeypatch, "LARGEST", 4_096)
    kind = "xml" if form == XML else "json"
    assert fault_of((form % sized(4_096, kind)).encode(), is_inline) == ""
    for size in (4_097, 4_400, 9_000):
        assert "the event that begins" in fault_of((form % sized(size, kind)).encode(), is_inline)


OTHERS = {
    "master data": '{"epcisHeader":{"epcisMasterData":{"vocabularyList":[{"vocabularyElementList":[%s]}]}},"epcisBody":{"eventList":[]}}'
    % ",".join('{"id":"urn:epc:id:sgln:0614141.00777.0"}' for _ in range(400)),
    "white space before": " " * 9_000 + JSON % "{}",
    "white space between events": JSON % ("{}" + "\n" * 9_000 + "," + "\n" * 9_000 + "{}"),
    "white space within": JSON % "" + " " * 9_000,
    "a member": '{"a":"%s","epcisBody":{"eventList":[{}]},"b":"%s"}' % ("x" * 9_000, "y" * 9_000),
    "a member of the body": '{"epcisBody":{"a":"%s","eventList":[{}],"b":"%s"}}' % ("x" * 9_000, "y" * 9_000),
    "white space in XML": XML % (" " * 9_000 + "<ObjectEvent/>" + " " * 9_000 + "<ObjectEvent/>"),
    "a text in XML": XML.replace("<EPCISBody>", "<a>" + "x" * 9_000 + "</a><EPCISBody>") % "<ObjectEvent/>",
    "CDATA between events": XML % ("<ObjectEvent/><![CDATA[" + "<a>" * 9_000 + "]]><ObjectEvent/>"),
}


@pytest.mark.parametrize("is_inline", [True, False])
@pytest.mark.parametrize("text", OTHERS.values(), ids=OTHERS)
def test_size_of_all_else(text: str, is_inline: bool, monkeypatch: pytest.MonkeyPatch) -> None:
    """Only an event, and in XML a tag or a comment, has a limit."""
    whole = found_in(text.encode(), True)
    set_all(monkeypatch, "CHUNK", 256)
    set_all(monkeypatch, "LARGEST", 4_096)
    assert found_in(text.encode(), is_inline) == whole


EMPTY = XML.replace("%s", "")


@pytest.mark.parametrize("where", [XML % "<ObjectEvent/>%s<ObjectEvent/>", EMPTY.replace("<EPCISBody>", "%s<EPCISBody>"), "%s" + EMPTY])
@pytest.mark.parametrize("what", ["<!--%s-->", "<?a %s?>"])
def test_size_of_a_tag(where: str, what: str, monkeypatch: pytest.MonkeyPatch) -> None:
    """A tag or a comment that is too long is a fault for each number of processes, at one place."""
    set_all(monkeypatch, "CHUNK", 256)
    set_all(monkeypatch, "LARGEST", 4_096)
    data = (where % (what % ("x" * 9_000))).encode()
    faults = {fault_of(data, is_inline) for is_inline in (True, False)}
    assert len(faults) == 1 and "the tag or comment that begins here" in faults.pop()


def test_memory_of_master_data(monkeypatch: pytest.MonkeyPatch) -> None:
    """Master data comes in parts, however much it is."""
    set_all(monkeypatch, "CHUNK", 256)
    sizes = [sum(map(len, part.located().kept)) for part in document.parts_of(io.BytesIO(OTHERS["master data"].encode()), True)]
    assert len(sizes) > 20 and max(sizes) < 700


def test_lines_as_a_document() -> None:
    """Events a line have the identifiers of the same events in a document, with and without escapes."""
    events = [json.dumps(each) for each in whole_events(filled(EVENTS / "epcis2.jsonld"))]
    located, refused, count = lines_of("\n".join(events).encode())
    wanted = found_in((JSON % ",".join(events)).encode(), True)
    assert (count, refused, located.events) == (len(events), [], len(events))
    assert [(name, number, field) for name, number, field, _ in located.found] == wanted[1]
    assert "".join(raw + kept for raw, kept in zip([""] + located.raw, located.kept)) == "\n".join(events)


@pytest.mark.parametrize(
    "line, reason",
    [("x", "json"), ("{}", "event"), ("[]", "event"), ('{"type":"ObjectEvent"} x', "json"), ("\udcff", "json"), ('{"type":"ObjectEvent","a":NaN}', "json"),
     ('{"type":"ObjectEvent","a":1,"a":2}', "json"), ('{"type":"ObjectEvent","a":%s}' % nested(256), "json"), ('{"type":"Object"}', "event")],
)
def test_lines_that_are_left(line: str, reason: str) -> None:
    """A line that is neither an event nor a document is left as it is, and has its number and a reason."""
    good = f'{{"type":"ObjectEvent","epcList":["{ITEM.format(1)}"]}}'
    text = f"{good}\r\n\n{line}\n{good}"
    located, refused, count = lines_of(text.encode("utf-8", "surrogateescape"))
    assert [(row.event, row.reason) for row in refused] == [(3, reason)]
    assert ([number for _, number, _, _ in located.found], located.events, count) == ([1, 4], 2, 4)
    assert "".join(raw + kept for raw, kept in zip([""] + located.raw, located.kept)) == text


ROOTS = {
    "an array of events": '[{"type":"ObjectEvent","epcList":["%s"]}]',
    "an array of none": "[ ]",
    "QueryResults in JSON": '{"queryName":"q","resultsBody":{"eventList":[{"epcList":["%s"]}]}}',
    "queryResults": '{"queryResults":{"resultsBody":{"eventList":[{"epcList":["%s"]}]}}}',
    "QueryResults": '<q:QueryResults xmlns:q="urn:epcglobal:epcis-query:xsd:1"><queryName>q</queryName><resultsBody><EventList><ObjectEvent><epcList>'
    "<epc>%s</epc></epcList></ObjectEvent></EventList></resultsBody></q:QueryResults>",
}
SOAP = '<s:Envelope xmlns:s="%s"><s:Header/><s:Body>{}</s:Body></s:Envelope>'
ROOTS["QueryResults in SOAP 1.1"] = (SOAP % "http://schemas.xmlsoap.org/soap/envelope/").format(ROOTS["QueryResults"])
ROOTS["QueryResults in SOAP 1.2"] = (SOAP % "http://www.w3.org/2003/05/soap-envelope").format(ROOTS["QueryResults"])
ROOTS["a document in SOAP"] = (SOAP % "http://www.w3.org/2003/05/soap-envelope").format(
    "<EPCISQueryDocument><EPCISBody>" + ROOTS["QueryResults"] + "</EPCISBody></EPCISQueryDocument>")


@pytest.mark.parametrize("is_inline", [True, False])
@pytest.mark.parametrize("text", ROOTS.values(), ids=ROOTS)
def test_roots(text: str, is_inline: bool) -> None:
    """The roots of documents: arrays of events, answers to queries, and SOAP around them."""
    data = text.replace("%s", ITEM.format(1)).encode()
    has_event = "%s" in text
    assert found_in(data, is_inline)[1:] == ([(ITEM.format(1), 1, "epcList")] * has_event, int(has_event))


def test_rules_of_sensors() -> None:
    """`bizRules` of sensors are translated as `dataProcessingMethod` is."""
    sensor = '{"sensorElementList":[{"sensorMetadata":{"bizRules":"urn:epc:id:gdti:0614141.06012.1234"}}]}'
    element = "<ObjectEvent><sensorElementList><sensorElement><sensorMetadata bizRules='urn:epc:id:gdti:0614141.06012.1234'/>"
    element += "</sensorElement></sensorElementList></ObjectEvent>"
    for text in (JSON % sensor, XML % element):
        assert found_in(text.encode(), True)[1] == [("urn:epc:id:gdti:0614141.06012.1234", 1, "bizRules")]


def test_parameters_of_queries_stay() -> None:
    """What a query asks for is no event, and stays as it is."""
    poll = "<Poll><params><param><name>MATCH_epc</name><value><value>%s</value></value></param></params></Poll>"
    poll = f"<EPCISQueryDocument><EPCISBody>{poll}</EPCISBody></EPCISQueryDocument>"
    query = '{"type":"EPCISQueryDocument","epcisBody":{"query":{"MATCH_epc":["%s"]}}}'
    for text in (poll, query):
        assert found_in((text % ITEM.format(1)).encode(), True)[1:] == ([], 0)
