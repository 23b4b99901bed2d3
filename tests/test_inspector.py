"""The inspector's page in a headless Chromium: what it shows is what the program answers.

Each of CASES is typed into the page, at 1280 and 390 pixels, light and dark in turn: for each of the six forms that reads it the page has
to show the program's answers in all forms, or its reasons; for each that does not, its reason, and the byte of the mark in the sentence.
What has a setting is tried in all four. Nothing is loaded from elsewhere, nothing is stored, and the browser complains of nothing.
"""
import csv
import io
import json
import os
import re
import subprocess
import sys
import xml.etree.ElementTree as xml
from concurrent.futures import ThreadPoolExecutor
from itertools import cycle
from pathlib import Path
from typing import Any, Iterable, Iterator

import pytest

from tools import pace
from tools.browser import browser_path
from tools.common import Word, printed, there, told
from tools.debian import lack
from tools.page import SET, SETTLED, Options, Page, inspector
from tools.repository import TOP
from tools.tests import leave_out

# the words of a command line, and a line
Asked = tuple[tuple[str, ...], str]

READ_FORMS = ["raw", "bracketed", "hex", "tag", "pure", "link"]
FORMS = [*READ_FORMS, "canon"]
HEEDED: dict[str, list[str]] = {"canon": [], "raw": ["keys_only"], "bracketed": ["keys_only"], "link": ["keys_only", "stem"], "pure": ["keys_only", "gcp"]}
HEEDED.update({form: ["keys_only", "gcp", "filter", "encoding"] for form in ("hex", "tag")})
SETTINGS = [(1_280, "light"), (390, "dark"), (1_280, "dark"), (390, "light")]
LEAST_WIDTH, PADDING = 320, 16
# the milliseconds that 2,000 and 50,000 lines may take on a machine as tools/pace.py knows it, and how often they are tried
LIMITS, TRIES = {2_000: 1_500, 50_000: 12_000}, 8
MOST_ROWS = 100
TEXT_RATIO, EDGE_RATIO, TARGET = 4.5, 3, 24
LABEL, BITS = "(01)80614141123458(21)6789", "3074257BF7194E4000001A85"
WRONG_LINK = "https://shop.example/01/09506000134353/10/ABC"
SCRIPT = "<script>document.title='wrong'</script><img src=x onerror=\"document.title='wrong'\">"

# What is typed, and the controls that are set.
CASES: list[tuple[str, Options]] = [
    (LABEL, {"gcp": "7", "filter": "3"}),
    (LABEL, {}),
    (LABEL, {"gcp": "7"}),
    (LABEL, {"gcp": "7", "filter": "1", "encoding": "sgtin-198", "stem": "https://shop.example/r"}),
    (f"{LABEL}(17)261231(10)A\\(B", {"gcp": "7", "filter": "1"}),
    (f"{LABEL}(17)261231", {"gcp": "7", "filter": "1", "keys_only": True}),
    (BITS, {}),
    ("3174257BF4499602D2000000", {}),
    ("3634257BF7194E60C28600000000000000000000000000000000", {"encoding": "sgtin-198"}),
    ("urn:epc:tag:sgtin-96:3.0614141.812345.6789", {}),
    ("urn:epc:id:sgtin:0614141.812345.6789", {"filter": "2"}),
    ("urn:epc:id:sgtin:0614141.812345.a%2Fb%22", {"filter": "2"}),
    ("urn:epc:id:giai:0614141.A%26B", {"filter": "0"}),
    ("urn:epc:id:sgln:0614141.00001.0", {"filter": "0"}),
    ("0180614141123458216789", {}),
    ("]C10109506000134352" "10ABC^21X1", {}),
    ("0109506000134352" "10ABC<GS>17261231", {}),
    ("0109506000134352" "10ABC\x1d21X1", {}),
    ("(8003)00614141000012ABC", {"gcp": "7", "filter": "1"}),
    ("https://shop.example/fr/01/9506000134352/10/A%2F7?17=261231&linkType=all#top", {"stem": "http://a.example"}),
    ("https://shop.example/414/0614141000012/254/0", {"gcp": "7", "filter": "1"}),
    (WRONG_LINK, {}),
    ("https://shop.example/products/7", {}),
    ("https://shop.example/01/80614141123458?10=A%2", {}),
    ("(01)8061414112345(21)6789", {}),
    ("(17)261331", {}),
    ("(01)80614141123458(00)106141412345678908", {}),
    ("(414)0614141000012(254)4(254)5", {}),
    ("(01)80614141123458(21)é x", {}),
    ("(01)80614141123458x(", {}),
    ("30742", {}),
    ("3074257BF7194E4000001AG5", {}),
    ("30" * 65, {}),
    ("urn:epc:id:sgtin:0614141.812345", {}),
    ("a" * 3_000, {}),
    ("(17)261231", {}),
    ("(401)ABC", {"gcp": "7", "filter": "1"}),
    ("(01)80614141123458", {"gcp": "7", "filter": "1"}),
    (LABEL, {"gcp": "3", "filter": "1"}),
    ("(01)80614141123458(21)ABC", {"gcp": "7", "filter": "1", "encoding": "sgtin-96"}),
    (f"(01)80614141123458(10){SCRIPT}", {}),
    ("(01)80614141123458(10)<b>x</b>", {}),
    ("(01)80614141123458(10)a\0b", {}),
    ("0180614141123458" "10a\0b", {}),
    ("(01)09506000134352(3201)002756", {}),
    ("(01)09506000134352(3201)002756", {"tables": "food"}),
    ("0109506000134352" "3553000001", {}),
    ("(01)09506000134352(3922)1250(8008)26123112(8200)http://a.example", {}),
]

# The first words of all reasons (docs/CLI.md, 'Lines'), each of which some case has.
REASONS = {"long", "odd", "full", "digit", "reading", "http", "path", "bracket", "unknown", "escape", "length", "char", "check", "date", "repeat", "key", "keys"}
REASONS |= {"kind", "extra", "missing", "option", "hold"}

# What the marks, the sentences, the readings and the bits of some cases are.
SHOWN: list[tuple[str, Options, str, list[str]]] = [
    (LABEL, {"gcp": "7"}, ".reading .elements tbody tr:first-child small", ["indicator digit", "company prefix", "item reference", "check digit"]),
    (LABEL, {"gcp": "7"}, ".reading .elements tbody tr:first-child .value", ["8", "0614141", "12345", "8"]),
    (LABEL, {}, ".reading .elements tbody tr:first-child .value", ["8", "061414112345", "8"]),
    (LABEL, {}, ".reading .elements td:nth-child(2)", ["GTIN", "SERIAL"]),
    (LABEL, {"gcp": "7", "filter": "1"}, "#status", ["Read as label text: (01) GTIN and (21) SERIAL, written in 7 of 7 forms."]),
    (LABEL, {}, "#filter option:nth-child(3)", ["1: point of sale item"]),
    ("(00)106141412345678908", {"gcp": "7"}, ".reading .elements small", ["extension digit", "company prefix", "serial reference", "check digit"]),
    ("(00)106141412345678908", {}, "#filter option:nth-child(3)", ["1: reserved"]),
    (BITS, {}, ".bits th[scope=row]", ["header", "filter value", "partition value", "company prefix", "indicator digit and item reference", "serial"]),
    (BITS, {}, ".bits td.number", ["8", "3", "3", "24", "20", "38"]),
    (BITS, {}, ".bits tr:nth-child(2) td:last-child", ["3: reserved"]),
    ("(01)09506000134352(17)261231(3103)001250", {}, ".meaning", ["31 December 2026", "1.250 kg"]),
    ("(01)09506000134352(11)260231", {}, ".remark", ["February has no 31st."]),
    ("(01)09506000134352(3932)9781250(3922)0995", {}, ".meaning", ["9.95 in the local currency", "EUR 12.50"]),
    ("(01)09506000134352(3922)1250(8008)26123112(8200)http://a.example", {}, ".elements td:nth-child(2)", ["GTIN", "PRICE", "PROD TIME", "PRODUCT URL"]),
    (WRONG_LINK, {}, ".rejected:only-child .sentence", ["At byte 37: the check digit of (01) GTIN must be 2, not 3. check 21"]),
    (WRONG_LINK, {}, ".rejected:only-child .error", ["3"]),
    ("https://a.example/01/80614141123458?10=A%2", {}, ".rejected:only-child .error", ["%2"]),
    ("(01)80614141123458(21)a b", {}, ".rejected:only-child .error", [" "]),
    ("(01)80614141123458(10)a\0b", {}, ".rejected:only-child .error", ["byte 0"]),
    ("(17)261331", {}, ".rejected:only-child .error", ["13"]),
    ("(00)106141412345678908", {}, ".needed label", ["Company prefix length"]),
    ("(00)106141412345678908", {"gcp": "7"}, ".needed label", ["Filter value"]),
]
# The fields of a code by key type, with what they are composed to; the others are samples of the page.
COMPOSED: dict[str, tuple[dict[str, str], str]] = {
    "sgtin": ({"lead": "8", "reference": "12345", "serial": "6789"}, "(01)80614141123458(21)6789"),
    "sscc": ({"lead": "1", "reference": "234567890"}, "(00)106141412345678908"),
    "sgln": ({"reference": "1", "serial": "A7"}, "(414)0614141000012(254)A7"),
    "grai": ({"reference": "00001", "serial": "ABC"}, "(8003)00614141000012ABC"),
    "giai": ({"reference": "A-17"}, "(8004)0614141A-17"),
    "gdti": ({"reference": "00001", "serial": "X1"}, "(253)0614141000012X1"),
    "gsrn": ({"reference": "0000000007"}, "(8018)061414100000000076"),
    "gsrnp": ({"reference": "0000000007"}, "(8017)061414100000000076"),
    "sgcn": ({"reference": "00001", "serial": "42"}, "(255)061414100001242"),
    "itip": ({"lead": "8", "reference": "12345", "serial": "6789", "piece": "1", "total": "2"}, "(8006)806141411234580102(21)6789"),
}
NAMES = ["A code, or many, one on each line", "Tables", "Company prefix length", "Filter value", "Encoding", "Link domain", "Drop other elements", "Open a file"]
READ = """(() => {
  const told = (it) => it.classList.contains("lacking") ? `no ${it.querySelector(".reason").textContent}` : `ok ${it.querySelector(".text").textContent}`;
  const forms = (it) => Object.fromEntries([...it.querySelectorAll(".form")].map((row) => [row.dataset.form, told(row)]));
  const marks = (it) => [...it.querySelectorAll("mark")].map((mark) => [Number(mark.dataset.byte), mark.textContent]);
  return {
    readings: Object.fromEntries([...document.querySelectorAll(".reading")].map((it) => [it.dataset.form, forms(it)])),
    errors: Object.fromEntries([...document.querySelectorAll(".rejected")].map(
      (it) => [it.dataset.form, [it.querySelector(".reason").textContent, it.querySelector(".text").textContent]])),
    marks: [...document.querySelectorAll(".rejected")].map((it) => [it.dataset.form, it.querySelector(".sentence").textContent, marks(it)]),
  };
})()"""
# The pixel at which the content ends that no box of its own scrolls; the page keeps PADDING of them free on each side.
RIGHT = """Math.max(...[...document.querySelectorAll('main *')].filter((it) => it.checkVisibility() && !it.closest('.scroll *, .unseen, svg *'))
  .map((it) => it.getBoundingClientRect().right))"""
# The least contrasts of texts, of edges of controls with either side of them, and of placeholders, each with the element that has it.
CONTRASTS = """(() => {
  const light = (color) => {
    const [r, g, b] = color.match(/[\\d.]+/g).map((it) => it / 255).map((it) => it <= 0.04045 ? it / 12.92 : ((it + 0.055) / 1.055) ** 2.4);
    return 0.2126 * r + 0.7152 * g + 0.0722 * b;
  };
  const ground = (it) => {
    const color = getComputedStyle(it).backgroundColor;
    return /, 0\\)$/.test(color) && it.parentElement ? ground(it.parentElement) : color;
  };
  const ratio = (one, other) => {
    const [low, high] = [light(one), light(other)].sort((a, b) => a - b);
    return (high + 0.05) / (low + 0.05);
  };
  const all = [...document.querySelectorAll("main *")].filter((it) => it.checkVisibility() && !it.closest("svg *, .unseen, option"));
  const texts = all.filter((it) => [...it.childNodes].some((one) => one.nodeType === 3 && one.data.trim()));
  const edged = all.filter((it) => it.matches("textarea, select, button, .button, input"));
  const fields = all.filter((it) => it.placeholder);
  // (a control in the colour of its edge, as a checked box, needs its contrast only with what is around it)
  const sides = (it) => [ground(it), ground(it.parentElement)].filter((one) => one !== getComputedStyle(it).borderTopColor);
  const edge = (it) => Math.min(...sides(it).map((one) => ratio(getComputedStyle(it).borderTopColor, one)));
  const least = (some, of) => Math.min(...some.map(of));
  return {
    texts: least(texts, (it) => ratio(getComputedStyle(it).color, ground(it))),
    edges: least(edged, edge),
    placeholders: least(fields, (it) => ratio(getComputedStyle(it, "::placeholder").color, ground(it))),
  };
})()"""
# The visible controls and links that are smaller than TARGET, with their sizes, and the number of all.
TARGETS = """(() => {
  const all = [...document.querySelectorAll("main :is(a, button, input, select, textarea, summary)")].filter((it) => it.checkVisibility() && !it.closest(".unseen"));
  const small = all.map((it) => [it.id || it.textContent.trim(), it.getBoundingClientRect()]).filter(([, {width, height}]) => width < %d || height < %d);
  return [small.map(([name, {width, height}]) => `${name}: ${width} by ${height}`), all.length];
})()""" % (TARGET, TARGET)
# The tables whose parts are no longer laid out as a table.
TABLES = """[...document.querySelectorAll("main table")].filter((it) => it.checkVisibility()).flatMap((it) => [
  [it, "table"], ...[...it.querySelectorAll("tr")].map((row) => [row, "table-row"]), ...[...it.querySelectorAll("th, td")].map((cell) => [cell, "table-cell"]),
]).filter(([it, display]) => getComputedStyle(it).display !== display).map(([it]) => it.outerHTML.slice(0, 80))"""
DROP = """(lines) => {
  const dropped = new DataTransfer();
  dropped.items.add(new File([lines], "lines.txt", {type: "text/plain"}));
  document.querySelector("main").dispatchEvent(new DragEvent("drop", {bubbles: true, cancelable: true, dataTransfer: dropped}));
}"""


def tables_of(options: Options) -> Path:
    """Returns the file of the tables that are chosen."""
    return TOP / "tables" / f"{options.get('tables', 'gs1')}.json"


def words_of(form: str, target: str, options: Options) -> tuple[str, ...]:
    """Returns the command line of a translation with the options that its target heeds."""
    named: dict[str, str] = {"gcp": "--gcp", "filter": "--filter", "encoding": "--encoding", "stem": "--stem"}
    words = [word for name in HEEDED[target] if name in options for word in ([named[name], options[name]] if name in named else ["--keys-only", "yes"])]
    return ("translate", form, target, *words, "--tables", str(tables_of(options)))


def line_of(form: str, text: str) -> str:
    """Returns the line that the page asks for."""
    return text.replace("^", "\x1d").replace("<GS>", "\x1d") if form == "raw" else text


def seen(text: str) -> str:
    """Returns a text as the page shows it."""
    return text.replace("\x1d", "FNC1").replace("\0", "byte 0")


class Answers:
    """What the program answers, asked for many lines at a time."""

    def __init__(self, program: Path) -> None:
        self._program = program
        self._found: dict[Asked, str] = {}

    def ask(self, wanted: Iterable[Asked]) -> None:
        """Asks what is not known of these pairs of command line and line."""
        lines: dict[tuple[str, ...], list[str]] = {}
        for words, line in wanted:
            if (words, line) not in self._found:
                lines.setdefault(words, []).append(line)

        def answers(words: tuple[str, ...]) -> Iterable[tuple[str, str]]:
            sent = "".join(f"{line}\r\n" for line in lines[words]).encode()
            ran = subprocess.run([self._program, *words], input=sent, stdout=subprocess.PIPE, check=False)
            return zip(lines[words], ran.stdout.decode("ascii").split("\n"))

        with ThreadPoolExecutor(os.cpu_count()) as pool:
            for words, found in zip(lines, pool.map(answers, lines)):
                self._found.update({(words, line): answer for line, answer in found})

    def __getitem__(self, asked: Asked) -> str:
        self.ask([asked])
        return self._found[asked]


def wanted(answers: Answers, cases: list[tuple[str, Options]]) -> list[dict[str, Any]]:
    """Returns what the page has to show of each case."""
    first = [[(words_of(form, "canon", {"tables": options.get("tables", "gs1")}), line_of(form, text)) for form in READ_FORMS] for text, options in cases]
    answers.ask([pair for pairs in first for pair in pairs])
    reads = [[form for form, pair in zip(READ_FORMS, pairs) if answers[pair].startswith("ok ")] for pairs in first]
    answers.ask([(words_of(form, target, options), line_of(form, text)) for (text, options), forms in zip(cases, reads) for form in forms for target in FORMS])
    found = []
    for (text, options), forms, pairs in zip(cases, reads, first):
        readings = {form: {target: seen(answers[words_of(form, target, options), line_of(form, text)]) for target in FORMS} for form in forms}
        errors = {form: [answers[pair][3:], seen(pair[1])] for form, pair in zip(READ_FORMS, pairs) if form not in forms}
        found.append({"readings": readings, "errors": errors})
    return found


def reasons(want: dict[str, Any]) -> Iterator[str]:
    """Yields the first words of the reasons that the page has to show of a text."""
    yield from (reason.split(" ")[0] for reason, _ in want["errors"].values())
    yield from (answer.split(" ")[1] for forms in want["readings"].values() for answer in forms.values() if answer.startswith("no "))


def wrong_marks(text: str, marks: Any) -> list[Any]:
    """Returns the marks that do not begin at the byte that their sentence names, or hold other bytes."""
    found = []
    for form, sentence, of_form in marks:
        line = line_of(form, text).encode()
        named = [int(number) for number in re.findall(r"\d+", " ".join(re.findall(r"(?:[Aa]t|from) bytes? ([0-9]+(?:(?:,| and) [0-9]+)*)", sentence)))]
        if of_form and named != [byte for byte, _ in of_form]:
            found.append((form, sentence, of_form))
        found += [(form, byte, word) for byte, word in of_form if "byte" not in word and seen(line[byte:].decode("utf-8", "replace"))[: len(word)] != word]
    return found


# The page


@pytest.fixture(scope="module")
def answers(program: Path) -> Answers:
    """What the program answers."""
    return Answers(program)


@pytest.fixture(scope="module")
def wants(answers: Answers) -> list[dict[str, Any]]:
    """What the page has to show of each case."""
    return wanted(answers, CASES)


@pytest.fixture(scope="module")
def opened(module: dict[str, str]) -> Iterator[Page]:
    """The page in a browser."""
    if not browser_path():
        leave_out(f"needs {lack('chromium')}")
    with inspector(module, there(browser_path())) as page:
        for domain in ("Network", "Log", "Runtime", "Page", "DOM"):
            page.browser.call(f"{domain}.enable")
        yield page


@pytest.fixture(params=SETTINGS[:1], ids=lambda setting: f"{setting[0]} {setting[1]}")
def page(request: pytest.FixtureRequest, opened: Page) -> Iterator[Page]:
    """The page, opened anew in a setting. It loads nothing from elsewhere and stores nothing, and the browser complains of nothing."""
    opened.browser.events.clear()
    opened.set(*request.param)
    opened.open()
    yield opened
    events = opened.browser.events
    loaded = [it["params"]["request"]["url"] for it in events if it["method"] == "Network.requestWillBeSent"]
    assert loaded and [it for it in loaded if not it.startswith((opened.address, "about:", "blob:"))] == []
    stores = ["localStorage.length", "sessionStorage.length", "document.cookie.length", "indexedDB.databases().then((it) => it.length)"]
    stores.append("caches.keys().then((it) => it.length)")
    assert opened.value(f"Promise.all([{', '.join(stores)}])") == [0] * 5
    assert [it["params"] for it in events if it["method"] in ("Log.entryAdded", "Runtime.exceptionThrown", "Runtime.consoleAPICalled")] == []


def settings(rows: Iterable[Any]) -> pytest.MarkDecorator:
    """Returns the mark of a test of these settings."""
    return pytest.mark.parametrize("page", list(rows), indirect=True, ids=lambda setting: f"{setting[0]} {setting[1]}")


each_setting = settings(SETTINGS)


def test_the_cases_have_each_reason(wants: list[dict[str, Any]]) -> None:
    assert {word for want in wants for word in reasons(want)} == REASONS


@pytest.mark.parametrize("page, number", [(setting, number) for setting, number in zip(cycle(SETTINGS), range(len(CASES)))], indirect=["page"],
                         ids=[f"{number}" for number in range(len(CASES))])
def test_shows_what_the_program_answers(page: Page, wants: list[dict[str, Any]], number: int) -> None:
    text, options = CASES[number]
    page.enter(text, options)
    got = page.value(READ)
    assert wrong_marks(text, got.pop("marks")) == []
    assert got == wants[number]


@pytest.mark.parametrize("text, options, selector, texts", SHOWN, ids=[f"{number} {row[2]}" for number, row in enumerate(SHOWN)])
def test_shows_parts(page: Page, text: str, options: Options, selector: str, texts: list[str]) -> None:
    page.enter(text, options)
    assert page.texts(selector) == texts


@pytest.mark.parametrize("text", (f"(01)80614141123458(10){SCRIPT}", f"{SCRIPT}\n{SCRIPT}\n{LABEL}"), ids=("a label", "lines"))
def test_nothing_of_a_text_becomes_html(page: Page, text: str) -> None:
    page.enter(text, {})
    assert page.value("document.querySelectorAll('#result script, #result img, #result b').length") == 0
    assert page.value("document.title") == "tdl inspector"


@pytest.mark.parametrize("text, options", [*(CASES[number] for number in (3, 15, 17, 28, -5)), (f"{LABEL}\n{BITS}", {"target": "pure"})], ids=range(6))
def test_what_is_shown_comes_back_from_the_address_bar(page: Page, text: str, options: Options) -> None:
    page.enter(text, options)
    shown, fragment = page.value("document.getElementById('result').textContent"), page.value("location.hash")
    page.open(fragment)
    assert page.value("document.getElementById('result').textContent") == shown


def test_the_keyboard_reaches_each_control(page: Page) -> None:
    """Each control is reached by Tab, and a button leads to the control that a form needs."""
    page.open("#text=(00)106141412345678908")
    page.value("document.getElementById('text').focus()")
    reached = []
    for _ in range(20):
        page.browser.press("Tab", 9)
        reached.append(page.value("document.activeElement.id || document.activeElement.textContent"))
    controls = ["open", "tables", "gcp", "filter", "encoding", "stem", "keys_only", "Compose a code from its fields"]
    copies = ["Copy scanner output", "Copy label text", *["Choose the company prefix length"] * 3, "Copy GS1 Digital Link", "Copy canonical link"]
    downloads = ["Download SVG of the GS1 DataMatrix", "Download SVG of the QR Code"]
    assert reached[:18] == [*controls, *copies, *downloads, "Why the other forms do not read it"], "what Tab reaches"
    page.value("document.querySelector('.lacking button').focus()")
    page.browser.press("Enter", 13)
    assert page.value("document.activeElement.id") == "gcp", "where the button leads"
    page.browser.press("ArrowDown", 40)
    page.wait(f"document.getElementById('gcp').value === '1' && {SETTLED}")


def test_each_example_is_read(page: Page) -> None:
    """Each example that the page offers is read, but those that show an error."""
    page.open()
    links = page.value("[...document.querySelectorAll('#examples a')].map((it) => [it.getAttribute('href'), it.dataset.key ?? ''])")
    keys = sorted(row["code"] for row in json.loads(tables_of({}).read_bytes())["ais"] if row["role"] == "key")
    assert sorted(key for _, key in links if key) == keys, "the keys of the examples"
    for fragment, key in links:
        page.value(f"location.hash = {json.dumps(fragment)}; undefined")
        page.wait(f"document.getElementById('text').value !== '' && {SETTLED}")
        if key:
            assert page.value("document.querySelector('.elements tbody tr')?.dataset.code") == key, f"the key of {fragment}"
        page.value("location.hash = ''; undefined")
        page.wait(f"document.getElementById('text').value === '' && {SETTLED}")


def test_a_small_file_that_is_chosen_comes_into_the_field(page: Page, tmp_path: Path) -> None:
    """A small file that is chosen comes into the field."""
    (tmp_path / "few.txt").write_text(f"{LABEL}\r\n{BITS}\r\n", "ascii")
    root = page.browser.call("DOM.getDocument")["root"]["nodeId"]
    node = page.browser.call("DOM.querySelector", nodeId=root, selector="#file")["nodeId"]
    page.browser.call("DOM.setFileInputFiles", files=[str(tmp_path / "few.txt")], nodeId=node)
    page.wait(f"document.getElementById('text').value !== '' && document.querySelector('.lines') && {SETTLED}")
    assert page.value("document.getElementById('text').value") == f"{LABEL}\n{BITS}", "the text of a file"


SYMBOLS = ((0, "gs1-datamatrix.svg", "]d2", "raw"), (1, "qr-code.svg", "]Q1", "link"))
SYMBOLIZED = "(01)09506000134352(10)ABC(21)X1"


@each_setting
@pytest.mark.parametrize("place, file, mark, form", SYMBOLS, ids=("DataMatrix", "QR Code"))
def test_a_symbol_is_downloaded_as_svg(page: Page, tmp_path: Path, place: int, file: str, mark: str, form: str) -> None:
    page.enter(SYMBOLIZED, {})
    drawn = page.downloaded(tmp_path, f".symbol:nth-child({place + 1}) a", file)
    assert xml.fromstring(drawn).tag == "{http://www.w3.org/2000/svg}svg"


@each_setting
@pytest.mark.needs("ZXingReader")
@pytest.mark.parametrize("place, file, mark, form", SYMBOLS, ids=("DataMatrix", "QR Code"))
def test_a_reader_reads_a_symbol(page: Page, answers: Answers, tmp_path: Path, place: int, file: str, mark: str, form: str) -> None:
    page.enter(SYMBOLIZED, {})
    picture = tmp_path / "symbol.png"
    picture.write_bytes(page.picture_of(f".symbol:nth-child({place + 1}) svg"))
    read = printed("ZXingReader", picture)
    assert mark in read and answers[words_of("bracketed", form, {}), SYMBOLIZED][3:].encode().hex(" ").upper() in read


def csv_of_module(module: dict[str, str], path: Path, texts: list[str]) -> list[tuple[str, ...]]:
    """Returns the rows that `python3 -m tdl csv` writes for texts."""
    path.write_text("".join(f"{text}\n" for text in ["text", *texts]), "ascii")
    words: list[Word] = [sys.executable, "-m", "tdl", "csv", "-c", "text", "--from", "bracketed", "--tables", tables_of({}), path]
    done = subprocess.run(told(words), env=module, stdout=subprocess.PIPE, stderr=subprocess.DEVNULL)
    return [tuple(row) for row in csv.reader(io.StringIO(done.stdout.decode("utf-8"), newline=""))][1:]


@each_setting
def test_a_set_that_has_an_unknown_identifier_is_named(page: Page) -> None:
    """A set that has an unknown identifier is named, and taken by its button."""
    text = "(01)09506000134352(3201)002756"
    page.enter(text, {})
    buttons = [f"Use the set {name}" for name in ("measures", "food", "healthcare", "logistics")]
    assert page.texts(".rejected:only-child .use-set") == buttons, "the buttons of sets"
    page.click(".rejected:only-child .use-set:nth-child(2)")
    page.wait(f"document.getElementById('tables').value === 'food' && document.querySelector('.reading') && {SETTLED}")
    assert page.texts(".meaning") == ["275.6 lb"], "the weight by the set food"
    assert page.value("location.hash").endswith("&tables=food"), "the set in the address bar"
    offered = ["gs1", "measures", "food", "healthcare", "logistics", "built-in"]
    assert page.value("[...document.getElementById('tables').options].map((it) => it.value)") == offered, "the sets that are offered"


@each_setting
def test_a_code_is_composed_of_its_fields(page: Page) -> None:
    """A code is composed of each key type's fields; a wrong field is named."""
    page.open()
    page.click("#composing summary")
    for kind, (fields, text) in COMPOSED.items():
        compose(page, kind, {"prefix": "0614141", **fields}, "0")
        page.wait(f"document.getElementById('text').value === {json.dumps(text)} && document.querySelector('.reading') && {SETTLED}")
        asked = ["document.getElementById('gcp').value", "document.getElementById('filter').value", "document.querySelectorAll('.form.lacking').length"]
        shown = page.value(f"[{', '.join(asked)}]")
        assert shown == ["7", "0", 0], f"what is filled in for {kind}"
    assert page.texts("#compose_told") == ["The company prefix has 7 digits; the check digit is 8."], "what the form says"
    compose(page, "sgtin", {"prefix": "0614141", "lead": "8", "reference": "123456", "serial": "1"}, "1")
    page.wait("document.getElementById('compose_told').textContent.includes('must')")
    asked = ["document.getElementById('compose_told').textContent", "document.activeElement.id", "document.activeElement.getAttribute('aria-invalid')"]
    wants = ["The item reference must be at most 5 digits after this company prefix.", "compose_reference", "true"]
    assert page.value(f"[{', '.join(asked)}]") == wants, "a reference that is too long"
    meanings = ["0: all others", "1: point of sale item", "2: full case", "3: reserved", "4: inner pack", "5: reserved", "6: unit load"]
    meanings.append("7: unit inside a trade item")
    assert page.texts("#compose_filter option") == meanings, "the filter values of a GTIN"


def compose(page: Page, kind: str, fields: dict[str, str], filter_value: str) -> None:
    """Fills the form of a key type and submits it."""
    page.value(f"""(({{kind, fields, filter}}) => {{
      const control = (name) => document.getElementById(`compose_${{name}}`);
      control("kind").value = kind;
      control("kind").dispatchEvent(new Event("change", {{bubbles: true}}));
      for (const [name, value] of Object.entries(fields)) control(name).value = value;
      control("filter").value = filter;
      document.getElementById("compose").requestSubmit();
    }})({json.dumps({"kind": kind, "fields": fields, "filter": filter_value})})""")


@each_setting
def test_a_button_copies_the_bytes_of_a_form(page: Page, answers: Answers) -> None:
    """The button beside a form copies its bytes, by the keyboard too, and says so itself."""
    page.browser.call("Browser.grantPermissions", permissions=["clipboardReadWrite", "clipboardSanitizedWrite"], origin=page.address.rstrip("/"))
    text, button = "(01)09506000134352(10)ABC(21)X1", ".form[data-form=raw] button"
    page.enter(text, {})
    assert page.texts(button) == ["Copy scanner output"], "the name of the button"
    page.value(f"document.querySelector('{button}').focus()")
    page.browser.press("Enter", 13)
    page.wait(f"document.querySelector('{button}').textContent !== 'Copy scanner output'")
    assert page.texts(button) == ["Copied scanner output"], "what the button says"
    assert f"ok {page.value('navigator.clipboard.readText()')}" == answers[words_of("bracketed", "raw", {}), text], "the copied text"
    page.wait(f"document.querySelector('{button}').textContent === 'Copy scanner output'")


@each_setting
def test_controls_have_names_and_tables_are_tables(page: Page) -> None:
    """Each control has a name for a screen reader, tables are tables, and results are announced."""
    page.browser.call("Accessibility.enable")
    page.enter(f"{LABEL}\n(17)261331", {})
    tree = tree_of(page)
    named = {"textbox", "combobox", "checkbox", "button", "link", "table", "region"}
    assert [role for role, name in tree if role in named and not name] == [], "controls without a name"
    assert [name for name in [*NAMES, "Answer lines as", "Only rejected lines"] if name not in [it for _, it in tree]] == [], "the names of the controls"
    heads = ["Reason", "Lines", "Show", "Line", "Text", "Form", "Answer or reason"]
    assert [name for role, name in tree if role == "columnheader"] == heads, "the heads of the lines"
    page.enter(LABEL, {"gcp": "7", "filter": "1"})
    tree = tree_of(page)
    roles = [role for role, _ in tree]
    assert [name for role, name in tree if role == "table"] == ["The elements", "The fields of the tag bits"], "the tables"
    assert [name for role, name in tree if role == "columnheader"] == ["AI", "Title", "Value", "Field", "Bits", "Width", "Value"], "the heads"
    assert (roles.count("row"), roles.count("rowheader")) == (10, 8), "the rows and their heads"
    symbols = [f"GS1 DataMatrix of {LABEL}", "QR Code of https://id.gs1.org/01/80614141123458/21/6789"]
    assert [name for role, name in tree if role in ("image", "img")] == symbols, "the symbols"
    assert "status" in roles, "where results are announced"
    page.browser.call("Accessibility.disable")


def tree_of(page: Page) -> list[tuple[str, str]]:
    """Returns the roles and names of the accessibility tree."""
    nodes = page.browser.call("Accessibility.getFullAXTree")["nodes"]
    return [(it["role"]["value"], it.get("name", {}).get("value", "")) for it in nodes if not it["ignored"]]


@each_setting
def test_no_sideways_scrolling_contrasts_and_targets(page: Page) -> None:
    """No sideways scrolling, contrasts, sizes of targets, and tables that stay tables."""
    none: Options = {}
    for text, options in [("", none), CASES[0], CASES[1], CASES[21], CASES[-6], (f"{LABEL}\n{WRONG_LINK}", none)]:
        page.enter(text, options)
        page.value("document.querySelectorAll('details').forEach((it) => { it.open = true; })")
        for width in (LEAST_WIDTH, page.width):
            page.size(width)
            right = page.value(RIGHT)
            assert right <= width - PADDING, f"the width of {text!r} in {width}"
            assert page.value("document.documentElement.scrollWidth") == width, f"no scrolling to the side of {text!r} in {width}"
        found = page.value(CONTRASTS)
        least = {"texts": TEXT_RATIO, "edges": EDGE_RATIO, "placeholders": TEXT_RATIO}
        assert {name: found[name] for name in least if (found[name] or 0) < least[name]} == {}, f"the contrasts of {text!r}"
        small, count = page.value(TARGETS)
        assert (small, count > 10) == ([], True), f"the targets of {text!r}"
        assert page.value(TABLES) == [], f"the tables of {text!r}"
        page.value("document.querySelectorAll('details').forEach((it) => { it.open = false; })")


@each_setting
def test_a_dropped_file_of_50000_lines(page: Page) -> None:
    """A dropped file of 50,000 lines is shown at once; only the rows in view are in the page."""
    lines = "\n".join(f"(01)80614141123458(21){number}" if number % 5 else f"(01)80614141123459(21){number}" for number in range(50_000))
    assert milliseconds(page, f"({DROP})({json.dumps(lines)})", 50_000) < limit(50_000)
    assert page.texts("#status")[0].startswith("50,000 lines: 40,000 answered, 10,000 rejected."), "the sentence"
    assert page.texts("#held_name") == ["lines.txt: 50,000 lines"], "the name of the file"
    assert page.value(f"document.querySelectorAll('.lines tbody tr').length < {MOST_ROWS}"), "that few rows are in the page"
    assert page.value("document.querySelector('.lines').getAttribute('aria-rowcount')") == "50001", "the number of rows that is told"
    page.value("(() => { const box = document.querySelector('.window'); box.scrollTop = box.scrollHeight; })()")
    page.wait("document.querySelector('.lines tr[data-line=\"50000\"]') !== null")
    assert page.value(f"document.querySelectorAll('.lines tbody tr').length < {MOST_ROWS}"), "that few rows are in the page at its end"
    page.click("#only_rejected")
    assert page.texts("#shown_count") == ["10,000 of 50,000 lines shown"], "only rejected lines"
    page.click("#drop")
    page.wait(f"{SETTLED} && !document.querySelector('.lines')")
    assert page.value("document.getElementById('held').hidden"), "that the file is removed"


@each_setting
def test_2000_lines(page: Page, program: Path, module: dict[str, str], tmp_path: Path) -> None:
    """2,000 lines are answered as the program answers them; reasons are counted, and only rejected lines shown."""
    texts = [f"(01)80614141123458(21){number}" if number % 10 else f"(17)26133{number % 7}" for number in range(2_000)]
    assert milliseconds(page, f"({SET})({json.dumps({'text': chr(10).join(texts)})})", 2_000) < limit(2_000)
    answers = printed(program, "canon", "bracketed", "--tables", tables_of({}), input="\n".join(texts)).split("\n")[:-1]
    given = page.downloaded(tmp_path, "a[download='lines.csv']", "lines.csv").decode("utf-8")
    rows = [(row["text"], row["text_link"], row["text_reason"]) for row in csv.DictReader(io.StringIO(given, newline=""))]
    assert rows == csv_of_module(module, tmp_path / "texts.csv", texts), "the CSV of 2,000 lines"
    assert [f"no {reason}" if reason else f"ok {answer}" for _, answer, reason in rows] == answers, "the answers to 2,000 lines"
    rejected = sum(line.startswith("no ") for line in answers)
    assert page.texts("#status") == [f"2,000 lines: {2_000 - rejected:,} answered, {rejected} rejected."], "the sentence"
    counts = "[...document.querySelectorAll('.reasons tbody tr')].map((it) => [it.dataset.reason, it.cells[1].textContent])"
    assert page.value(counts) == [["date", str(rejected)]], "the counts by reason"
    page.click("#only_rejected")
    assert page.texts("#shown_count") == [f"{rejected} of 2,000 lines shown"], "only rejected lines"
    assert page.value("document.querySelector('.lines tr.wrong').dataset.line") == "1", "the first rejected line"
    page.click("#only_rejected")
    page.click(".reasons button")
    pressed = page.value("document.querySelector('.reasons button').ariaPressed")
    assert [page.texts("#shown_count"), pressed] == [[f"{rejected} of 2,000 lines shown"], "true"], "the lines of a reason"
    page.enter(f"{LABEL}\nurn:epc:id:sgtin:0614141.812345.6789", {"target": "hex", "gcp": "7", "filter": "3"})
    assert page.texts(".lines .answer") == [BITS, BITS], "lines as tag bits"


def limit(count: int) -> float:
    """Returns the milliseconds that so many lines may take here, next to what else is at work."""
    return LIMITS[count] * pace.clock(1)


def milliseconds(page: Page, change: str, count: int) -> float:
    """Returns how long a change of the page takes, at the best of some tries."""
    times: list[float] = []
    # (other work on the machine may slow down some of them)
    while len(times) < TRIES and min(times, default=LIMITS[count]) >= LIMITS[count]:
        page.enter("", {})
        times.append(page.value(f"""(async () => {{
          const began = performance.now();
          {change};
          document.getElementById("result").setAttribute("aria-busy", "true");
          await new Promise((done) => {{
            const watch = new MutationObserver(() => {{ if ({SETTLED}) {{ watch.disconnect(); done(); }} }});
            watch.observe(document.getElementById("result"), {{attributes: true}});
          }});
          await new Promise(requestAnimationFrame);
          document.body.getBoundingClientRect();
          return performance.now() - began;
        }})()"""))
    return min(times)
