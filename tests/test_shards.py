"""shard/tdl-shard behind real HAProxy and nginx: each reply is that of one process over the whole linkset, unsharded.

Linksets of 60,000 links over tables/builtin.json and tables/gs1.json are split, and 20,000 requests are asked of both proxies and of one unsharded
`tdl serve`; each of four single edits of the routing gives other replies. A new linkset in another number of shards is put in place under load.
tdl-shard accepts a document if and only if `tdl check` does. With --whole there are more linksets, one of 200,001 links, whose keys four unsharded
processes share, and a million links are split.
"""
import json
import os
import random
import re
import shutil
import signal
import socket
import subprocess
from collections import Counter
from concurrent.futures import ProcessPoolExecutor, ThreadPoolExecutor
from pathlib import Path
from threading import Event, Thread
from time import sleep
from typing import IO, Any, Callable, Iterator, NamedTuple, Optional, Sequence, Union

import pytest

from tools import common
from tools.common import HOST, PATIENCE, QUIET, Process, Word, begun, end, there, until
from tools.fronts import listens, nginx_words
from tools.measures import check_digit, costs
from tools.repository import TOP

# a code and its value; method, target and fields; status, `Location`, type and body
Pair = tuple[str, str]
Linkset = dict[str, list[dict[str, Any]]]
Request = tuple[str, str, dict[str, str]]
Reply = tuple[int, str, str, str]
Difference = tuple[Request, Any, Any]

SHARD, CLIENTS = TOP / "shard/tdl-shard", 4
REQUESTS, EDITED, ITEMS = 20_000, 1_000, 60_000
STEM = "https://id.gs1.org"
LINKSET, TEXT = "application/linkset+json", "application/linkset"
DESCRIPTION = '{"resolverRoot":"https://id.example"}'
CHARACTERS = "!\"%&'()*+,-./0123456789:;<=>?ABCDEFGHIJKLMNOPQRSTUVWXYZ_abcdefghijklmnopqrstuvwxyz"
PLAIN = set("0123456789ABCDEFGHIJKLMNOPQRSTUVWXYZabcdefghijklmnopqrstuvwxyz-._")
# signs that a path may have as they are (RFC 3986, section 3.3)
BARE = PLAIN | set("!'()*+,:;=")
LANGUAGES = ["en", "de", "de-AT", "fr", "ja"]
RELATIONS = ["gs1:defaultLink", "gs1:pip", "https://ref.gs1.org/voc/epil", "related"]

# Linksets and requests


class Tables:
    """The application identifiers of a table document."""

    def __init__(self, name: str) -> None:
        self.path = TOP / "tables" / f"{name}.json"
        self.rows = {row["code"]: row for row in json.loads(self.path.read_text("utf-8"))["ais"]}
        self.keys = [code for code, row in self.rows.items() if row["role"] == "key"]

    def listed(self, key: str) -> list[str]:
        """Returns the qualifiers of a key."""
        return list(self.rows[key].get("qualifiers", []))

    def draw(self, code: str, chance: random.Random) -> str:
        """Draws a value of a code."""
        return "".join(drawn_part(part, chance) for part in self.rows[code]["parts"])


def bounds_of(part: str) -> tuple[int, int]:
    """Returns the least and the greatest number of characters of a part."""
    if part in ("zero", "date"):
        return (1, 1) if part == "zero" else (6, 6)
    most = int(there(re.search(r"\d+", part))[0])
    return (0 if part.endswith("?") else 1, most) if ".." in part else (most, most)


def drawn_part(part: str, chance: random.Random) -> str:
    """Draws a text of a part."""
    least, most = bounds_of(part)
    count = chance.randint(least, most)
    if part == "zero":
        return "0"
    if part == "date":
        return f"{chance.randint(0, 99):02}{chance.randint(1, 12):02}{chance.randint(0, 31):02}"
    if part.startswith("x"):
        # (lots and serials are often named like codes)
        if most >= 20 and chance.random() < 0.2:
            return chance.choice(["01", "10", "21", "22", "414", "8004", "00", "a/01/b", "0", "007", "%30"])
        return "".join(chance.choice(CHARACTERS if chance.random() < 0.2 else "ABC123") for _ in range(min(count, 12)))
    digits = "".join(chance.choice("0123456789") for _ in range(count))
    if not part.endswith("c"):
        return digits
    zeros = chance.choice([0, 0, 1, 2, 6])
    digits = ("0" * zeros + digits[zeros:])[:-1]
    return f"{digits}{check_digit(digits)}"


def escaped(text: str) -> str:
    """Returns the text as canonical links have it."""
    return "".join(sign if sign in PLAIN else f"%{ord(sign):02X}" for sign in text)


def drawn_target(key: str, listed: list[str], number: int, chance: random.Random) -> dict[str, Any]:
    """Draws a target of a context."""
    target: dict[str, Any] = {"href": f"https://example.com/{number}"}
    if chance.random() < 0.2:
        target["href"] += f"?k={{{key}}}" + "".join(f"&q{code}={{{code}}}" for code in listed[:2])
    if chance.random() < 0.3:
        target["hreflang"] = chance.sample(LANGUAGES, chance.randint(1, 2))
    if chance.random() < 0.2:
        target["title"] = f"Item {number}"
    return target


def drawn_context(tables: Tables, number: int, chance: random.Random, keys: list[Pair], taken: set[Pair]) -> tuple[list[Pair], dict[str, Any]]:
    """Draws a context, of a key that has others or is not one of those taken."""
    key = chance.choice(keys) if keys and chance.random() < 0.3 else None
    if key is None:
        while key is None or key in taken:
            code = "01" if chance.random() < 0.5 else chance.choice(tables.keys)
            key = (code, tables.draw(code, chance))
        keys.append(key)
    listed = tables.listed(key[0])
    parts = [key] + [(code, tables.draw(code, chance)) for code in listed if chance.random() < 0.3]
    anchor = "".join(f"/{code}/{escaped(value)}" for code, value in parts)
    context: dict[str, Any] = {"anchor": anchor if chance.random() < 0.5 else STEM + anchor}
    for relation in dict.fromkeys([RELATIONS[0], *chance.sample(RELATIONS, chance.randint(0, 1))]):
        context[relation] = [drawn_target(key[0], listed, number, chance) for _ in range(chance.choice([1, 1, 1, 2]))]
    return parts, context


def drawn_linkset(tables: Tables, links: int, chance: random.Random, taken: set[Pair]) -> tuple[Linkset, list[list[Pair]]]:
    """Draws a linkset of so many links or a few more, and takes its keys; returns it with the pairs of its anchors."""
    contexts: list[dict[str, Any]] = []
    anchors: list[list[Pair]] = []
    keys: list[Pair] = []
    count = 0
    while count < links:
        parts, context = drawn_context(tables, len(contexts), chance, keys, taken)
        contexts.append(context)
        anchors.append(parts)
        count += sum(len(targets) for name, targets in context.items() if name != "anchor")
    taken.update(keys)
    return {"linkset": contexts}, anchors


def spelled(value: str, chance: random.Random) -> str:
    """Returns a spelling of a value in a path: signs may be escaped that need not be."""
    often = chance.choice([0, 0, 0, 0.3])
    hexes = chance.choice(["%{:02X}", "%{:02x}"])
    return "".join(sign if sign in BARE and chance.random() >= often else hexes.format(ord(sign)) for sign in value)


def drawn_target_path(tables: Tables, anchors: list[list[Pair]], chance: random.Random) -> str:
    """Draws the path of a request: of an anchor, and what may stand around it."""
    parts = list(chance.choice(anchors))
    if chance.random() < 0.15:
        parts = [(code := chance.choice(tables.keys), tables.draw(code, chance))]
    key, value = parts[0]
    if tables.rows[key].get("short") and chance.random() < 0.7:
        short = next((length for length in (8, 12, 13) if not value[:14 - length].strip("0")), 14)
        parts[0] = (key, value[14 - chance.choice([short, 14]):])
    if chance.random() < 0.4:
        known = dict(parts)
        parts = parts[:1] + [(code, known.get(code) or tables.draw(code, chance)) for code in tables.listed(key) if code in known or chance.random() < 0.4]
    if chance.random() < 0.03:
        parts.insert(1, parts.pop())
    if chance.random() < 0.03:
        parts[0] = (key, value[:-1] + chance.choice("0123456789"))
    before = chance.choice(["", "", "", "/x", "/a/b", "/01/09506000134352", "/01", "/10/01", "//y"])
    path = before + "".join(f"/{code}/{spelled(text, chance)}" for code, text in parts)
    return path + (chance.choice(["/", "/x", "/01", "/10/A/10/B"]) if chance.random() < 0.03 else "")


def drawn_request(tables: Tables, anchors: list[list[Pair]], chance: random.Random) -> Request:
    """Draws a request: its method, target and fields."""
    if chance.random() < 0.03:
        target = chance.choice(["/", "/x", "/01", "/.well-known/gs1resolver", "/10/A", "/index.html?01=1", "/a/b/c"])
    else:
        target = drawn_target_path(tables, anchors, chance)
    query = [part for part, share in (
        ("17=261231", 0.1), ("x=1", 0.1), (f"linkType={chance.choice(['all', 'linkset', 'gs1:pip', 'gs1%3Aepil', 'related', 'no'])}", 0.3),
        ("10=L1", 0.05), ("01=1", 0.01), ("99999=1", 0.01)) if chance.random() < share]
    target += f"?{chance.choice('&;').join(query)}" if query else ""
    fields = {}
    if chance.random() < 0.2:
        fields["Accept"] = chance.choice([LINKSET, TEXT, f"text/html, {TEXT};q=0.5, {LINKSET}", "*/*", f"{LINKSET}, {TEXT}"])
    if chance.random() < 0.4:
        fields["Accept-Language"] = chance.choice(["de", "en;q=0.5, DE", "fr, en;q=0.8", "de;q=0", "*", "ja-JP, de", "en , fr;q=1.0"])
    method = chance.choices(["GET", "HEAD", "DELETE"], [90, 9, 1])[0]
    return method, target, fields


# Asking


class Client:
    """A connection that is kept, and opened again after the peer has ended it."""

    def __init__(self, port: int) -> None:
        self.port = port
        self.stream: Optional[IO[bytes]] = None

    def open(self) -> None:
        """Opens the connection."""
        self.end()
        self.socket = socket.create_connection((HOST, self.port), timeout=PATIENCE)
        self.socket.setsockopt(socket.IPPROTO_TCP, socket.TCP_NODELAY, 1)
        self.stream = self.socket.makefile("rb")

    def end(self) -> None:
        """Ends the connection."""
        if self.stream:
            self.stream.close()
            self.socket.close()
        self.stream = None

    def ask(self, method: str, target: str, fields: dict[str, str]) -> tuple[Reply, Optional[str]]:
        """Returns status, `Location`, type and body of the reply, and its `Vary`."""
        head = "".join(f"{name}: {value}\r\n" for name, value in {"Host": "id.example", **fields}.items())
        is_kept = self.stream is not None
        if not is_kept:
            self.open()
        stream = there(self.stream)
        try:
            self.socket.sendall(f"{method} {target} HTTP/1.1\r\n{head}\r\n".encode("latin-1"))
            line = stream.readline()
        except ConnectionError:
            line = b""
        if not line and is_kept:
            self.end()
            return self.ask(method, target, fields)
        got = {}
        while (row := stream.readline().strip()):
            name, _, value = row.decode("latin-1").partition(":")
            got[name.lower()] = value.strip()
        body = b"" if method == "HEAD" else stream.read(int(got.get("content-length", 0)))
        status = int(line.split()[1])
        if got.get("connection") == "close":
            self.end()
        is_own = status in (400, 405)
        return (status, got.get("location", ""), "" if is_own else got.get("content-type", ""), "" if is_own else body.decode("utf-8")), got.get("vary")


def ask_some(port: int, requests: list[Request]) -> list[tuple[Reply, Optional[str]]]:
    """Asks requests over one connection, and returns the replies."""
    client = Client(port)
    try:
        return [client.ask(*request) for request in requests]
    finally:
        client.end()


def ask_all(port: int, requests: list[Request], clients: int = CLIENTS) -> list[tuple[Reply, Optional[str]]]:
    """Asks requests over some connections, and returns the replies in order."""
    size = -(-len(requests) // clients)
    with ProcessPoolExecutor(clients) as pool:
        parts = pool.map(ask_some, [port] * clients, [requests[first:first + size] for first in range(0, size * clients, size)])
        return [reply for part in parts for reply in part]


def differences(requests: list[Request], wanted: list[Reply], replies: list[tuple[Reply, Optional[str]]], vary: Optional[str]) -> list[Difference]:
    """Returns each request whose reply, or its `Vary`, is wrong, with the wanted reply and the one that came."""
    return [(request, want, got) for request, want, (got, varies) in zip(requests, wanted, replies)
            if got != want or vary and want[0] != 400 and varies != vary]


# What runs


def free_ports(count: int) -> int:
    """Returns the first of so many ports in a row that nothing listens at."""
    while True:
        first = random.randrange(20_000, 30_000)
        opened = []
        try:
            for port in range(first, first + count):
                opened.append(socket.create_server((HOST, port)))
            return first
        except OSError:
            continue
        finally:
            for listener in opened:
                listener.close()


class Service:
    """Processes that are started together and ended together."""

    def __init__(self) -> None:
        self.processes: list[tuple[Process, list[Word], int]] = []

    def start(self, words: Sequence[Word], port: int) -> Process:
        """Starts a process that will listen at a port."""
        process = begun(*words, stdin=subprocess.DEVNULL, **QUIET)
        self.processes.append((process, [*words], port))
        return process

    def restart(self) -> None:
        """Kills the first process, and starts it again a moment later."""
        process, words, port = self.processes.pop(0)
        process.kill()
        process.wait()
        sleep(0.3)
        self.start(words, port)

    def wait(self) -> None:
        """Waits until all listen."""
        silent = [port for _, _, port in self.processes if not listens(port, HOST, PATIENCE)]
        if silent:
            raise OSError(f"nothing listens at port {silent[0]}")

    def end(self) -> None:
        """Ends all."""
        for process, *_ in self.processes:
            process.terminate()
        for process, *_ in self.processes:
            end(process)
        self.processes = []

    def __enter__(self) -> "Service":
        return self

    def __exit__(self, *_: object) -> None:
        self.end()


def run(program: Union[str, Path], *words: Word, **how: Any) -> tuple[int, str]:
    """Runs the splitter, and returns its status and what it prints."""
    return common.run(SHARD, *words, env={**os.environ, "TDL": str(program)}, **how)


def serve_words(program: Path, links: Path, port: int, tables: Path) -> list[Word]:
    """Returns the command line of a process."""
    words: list[Word] = [program, "serve", "--tables", tables, "--links", links, "--templates", "yes"]
    return [*words, "--describe", links.parent.parent / "describe.json", "--count", "1000000", "--listen", f"{HOST}:{port}"]


def start_shards(service: Service, program: Path, folder: Path, tables: Path) -> None:
    """Starts the processes of a folder as shards.json names them."""
    for shard in json.loads((folder / "shards.json").read_text("ascii"))["files"]:
        service.start(serve_words(program, folder / shard["file"], shard["port"], tables), shard["port"])


def haproxy_words(room: Path) -> list[Word]:
    """Returns the command line of HAProxy."""
    return ["haproxy", "-W", "-db", "-f", room / "haproxy.cfg"]


PROXIES: dict[str, tuple[str, Callable[[Path], list[Word]], signal.Signals]] = {
    "haproxy": ("haproxy.cfg", haproxy_words, signal.SIGUSR2),
    "nginx": ("nginx.conf", nginx_words, signal.SIGHUP),
}
# four single edits of each proxy's routing: what stands there once or more, and what is written in its place
EDITS = {
    "haproxy": [
        ("the prefix before the key path", "'^.*/((", "'^/(("),
        ("the qualifiers", "[^/]*)*\\$'", "[^/]*){0}\\$'"),
        ("escapes", ",url_dec", ""),
        ("leading zeros", "+)/0*'", "+)/'"),
    ],
    "nginx": [
        ("the prefix before the key path", '"~^[^?#]*/(', '"~^/('),
        ("the qualifiers", "[^/?#]*)*(", "[^/?#]*){0}("),
        ("escapes", "return 418;", ""),
        ("leading zeros", ")/0*(", ")/("),
    ],
}


def ask_proxy(name: str, room: Path, text: str, requests: list[Request]) -> list[tuple[Reply, Optional[str]]]:
    """Starts a proxy with a configuration, and returns its replies."""
    configuration, words, _ = PROXIES[name]
    (room / configuration).write_text(text, "ascii")
    port = int(there(re.search(rf"(?:bind|listen) {HOST}:(\d+)", text))[1])
    with Service() as service:
        service.start(words(room), port)
        service.wait()
        return ask_all(port, requests)


def first_of(found: Sequence[Difference], count: int) -> str:
    """Returns what the first difference is, and the number of all."""
    if not found:
        return ""
    (method, target, fields), want, got = found[0]
    return f"{len(found)} of {count} replies differ, the first of {method} {target} {fields}\n  wanted {str(want)[:600]}\n  got    {str(got)[:600]}"


def make(program: Path, room: Path, tables: Tables, linksets: list[Linkset], shards: Union[int, str], name: str = "shards") -> Path:
    """Writes linksets and splits them; returns the folder."""
    paths = [room / f"{name}-{number}.json" for number in range(len(linksets))]
    for path, linkset in zip(paths, linksets):
        path.write_text(json.dumps(linkset), "utf-8")
    (room / "describe.json").write_text(DESCRIPTION, "ascii")
    first, folder = free_ports(64), room / name
    words: list[Word] = ["--shards", shards, "--out", folder, "--tables", tables.path, "--first-port", first, "--front-port", first + 63]
    status, printed = run(program, *words, *paths)
    assert status == 0 and re.fullmatch(rf"shards \d+ links {count_of(linksets)} most \d+\n", printed), printed
    return folder


def count_of(linksets: list[Linkset]) -> int:
    """Returns the number of links."""
    return sum(len(targets) for linkset in linksets for context in linkset["linkset"] for name, targets in context.items() if name != "anchor")


def halves(linksets: list[Linkset]) -> list[Linkset]:
    """Returns all contexts as two linksets."""
    contexts = [context for linkset in linksets for context in linkset["linkset"]]
    return [{"linkset": contexts[: len(contexts) // 2]}, {"linkset": contexts[len(contexts) // 2 :]}]


def unsharded(program: Path, room: Path, tables: Tables, linksets: list[Linkset], requests: list[Request]) -> list[Reply]:
    """Returns the replies of unsharded processes, one for each linkset. No key has links in two of them, so the one that finds some tells."""
    room.mkdir()
    (room / "describe.json").write_text(DESCRIPTION, "ascii")
    every = []
    for number, linkset in enumerate(linksets):
        links, port = room / f"{number}" / "links.json", free_ports(1)
        links.parent.mkdir()
        links.write_text(json.dumps(linkset), "utf-8")
        with Service() as service:
            service.start(serve_words(program, links, port, tables.path), port)
            service.wait()
            every.append([reply for reply, _ in ask_all(port, requests, 1)])
    return [next((reply for reply in replies if reply[0] != 404), replies[0]) for replies in zip(*every)]


class Sharded(NamedTuple):
    """Running shards of a linkset, with requests and the wanted replies."""

    room: Path
    folder: Path
    requests: list[Request]
    wanted: list[Reply]

    def ask(self, proxy: str, text: str, requests: list[Request]) -> list[tuple[Reply, Optional[str]]]:
        """Starts a proxy with a configuration, and returns its replies."""
        return ask_proxy(proxy, self.room, text, requests)

    def configuration(self, proxy: str) -> str:
        """Returns the configuration of a proxy."""
        return (self.folder / PROXIES[proxy][0]).read_text("ascii")


@pytest.fixture(scope="module", params=[
    pytest.param(("builtin", 1, 1), marks=pytest.mark.xdist_group("shards 1"), id="builtin"),
    pytest.param(("gs1", 2, 1), marks=pytest.mark.xdist_group("shards 2"), id="gs1"),
    pytest.param(("builtin", 2, 1), marks=[pytest.mark.whole, pytest.mark.xdist_group("shards 3")], id="builtin again"),
    pytest.param(("gs1", 1, 4), marks=[pytest.mark.whole, pytest.mark.xdist_group("shards 4")], id="200,001 links"),
])
def sharded(request: pytest.FixtureRequest, program: Path, tmp_path_factory: pytest.TempPathFactory) -> Iterator[Sharded]:
    """Running shards of a linkset."""
    name, seed, parts = request.param
    room, tables, chance = tmp_path_factory.mktemp("shards"), Tables(name), random.Random(seed)
    taken: set[Pair] = set()
    drawn = [drawn_linkset(tables, ITEMS if parts == 1 else 50_001, chance, taken) for _ in range(parts)]
    linksets, anchors = [linkset for linkset, _ in drawn], [anchor for _, some in drawn for anchor in some]
    folder = make(program, room, tables, halves(linksets), 5 if parts == 1 else "auto")
    requests = [drawn_request(tables, anchors, chance) for _ in range(REQUESTS)]
    wanted = unsharded(program, room / "whole", tables, linksets, requests)
    with Service() as service:
        start_shards(service, program, folder, tables.path)
        service.wait()
        yield Sharded(room, folder, requests, wanted)


every_proxy = pytest.mark.parametrize("proxy", [pytest.param(proxy, marks=pytest.mark.needs(proxy)) for proxy in PROXIES])


def test_the_requests_have_replies_of_each_status(sharded: Sharded) -> None:
    kinds = Counter(want[0] for want in sharded.wanted)
    assert [status for status in (200, 300, 307, 400, 404, 405) if kinds[status] < REQUESTS // 200] == []


@every_proxy
def test_replies_are_those_of_one_process(sharded: Sharded, proxy: str) -> None:
    replies = sharded.ask(proxy, sharded.configuration(proxy), sharded.requests)
    assert not first_of(differences(sharded.requests, sharded.wanted, replies, "Accept, Accept-Language"), REQUESTS)


@pytest.mark.parametrize("proxy, old, new", [
    pytest.param(proxy, old, new, id=f"{proxy} without {what}", marks=pytest.mark.needs(proxy)) for proxy, edits in EDITS.items() for what, old, new in edits
])
def test_an_edit_of_the_routing_gives_other_replies(sharded: Sharded, proxy: str, old: str, new: str) -> None:
    text, requests = sharded.configuration(proxy), sharded.requests[:EDITED]
    assert old in text
    found = differences(requests, sharded.wanted, sharded.ask(proxy, text.replace(old, new), requests), None)
    assert len(found) > len(requests) // 100


# A new linkset


class Load:
    """A client that asks until it is ended, each time over a new connection, and keeps the replies that are neither of two."""

    def __init__(self, port: int, requests: list[Request], allowed: list[list[Reply]]) -> None:
        self.port, self.requests, self.allowed = port, requests, allowed
        self.count, self.ended = 0, Event()
        self.wrong: list[Difference] = []
        self.thread = Thread(target=self.ask, daemon=True)
        self.thread.start()

    def ask(self) -> None:
        """Asks one request after the other."""
        while not self.ended.is_set():
            number = self.count % len(self.requests)
            try:
                reply: Union[Reply, str] = ask_some(self.port, [self.requests[number]])[0][0]
            except (OSError, ValueError, IndexError) as error:
                reply = repr(error)
            if reply not in [wanted[number] for wanted in self.allowed]:
                self.wrong.append((self.requests[number], [wanted[number] for wanted in self.allowed], reply))
            self.count += 1

    def end(self) -> None:
        """Ends the load."""
        self.ended.set()
        self.thread.join()


@every_proxy
def test_a_new_linkset_under_load(program: Path, tmp_path: Path, proxy: str) -> None:
    """It comes in another number of shards, with no reply lost and none wrong."""
    chance, tables = random.Random(3), Tables("gs1")
    linkset, anchors = drawn_linkset(tables, 4_000, chance, set())
    later: Linkset = {"linkset": [{**context, "related": [{"href": "https://example.com/new"}]} for context in linkset["linkset"]]}
    requests = [drawn_request(tables, anchors, chance) for _ in range(2_000)]
    both = [unsharded(program, tmp_path / name, tables, [one], requests) for name, one in (("before", linkset), ("after", later))]
    old, new = make(program, tmp_path, tables, halves([linkset]), 3, "old"), make(program, tmp_path, tables, halves([later]), 5, "new")
    # (the new configuration listens where the old one does)
    configuration, words, reload = PROXIES[proxy]
    port = there(re.search(rf"(?:bind|listen) {HOST}:(\d+)", (old / configuration).read_text("ascii")))[1]
    text = re.sub(rf"(bind|listen) {HOST}:\d+", rf"\1 {HOST}:{port}", (new / configuration).read_text("ascii"))
    (new / configuration).write_text(text, "ascii")
    with Service() as front, Service() as before, Service() as after:
        start_shards(before, program, old, tables.path)
        before.wait()
        replace(proxy, tmp_path, old)
        process = front.start(words(tmp_path), int(port))
        front.wait()
        load = [Load(int(port), requests, both) for _ in range(3)]
        sleep(1)
        if proxy == "haproxy":
            before.restart()
        start_shards(after, program, new, tables.path)
        after.wait()
        replace(proxy, tmp_path, new)
        process.send_signal(reload)
        sleep(2)
        before.end()
        sleep(1)
        for one in load:
            one.end()
        asked, wrong = sum(one.count for one in load), [found for one in load for found in one.wrong]
        assert not first_of(wrong, asked) and asked > 100
        assert not first_of(differences(requests, both[1], ask_all(int(port), requests), None), len(requests))


def replace(name: str, room: Path, folder: Path) -> None:
    """Puts a folder's configuration in place of the running one by a rename."""
    configuration = PROXIES[name][0]
    shutil.copy(folder / configuration, room / f"{configuration}.new")
    (room / f"{configuration}.new").rename(room / configuration)


# What the splitter prints


def one(anchor: str, count: int = 1, relation: str = "gs1:pip") -> Linkset:
    """Returns a linkset of one context."""
    return {"linkset": [{"anchor": anchor, relation: [{"href": f"https://a.example/{number}"} for number in range(count)]}]}


ITEM = "/01/09506000134352"
# linksets or their text, further words, the status, and what is printed
REJECTED: list[tuple[list[Union[Linkset, dict[str, Any], str]], list[str], int, str]] = [
    ([one(ITEM), one("/01/09506000134353")], [], 3, "tdl-shard: 1.json: /linkset/0/anchor: check 1: '/01/09506000134353'; correct the anchor\n"),
    ([one("https://a.example/01/1")], [], 3, "tdl-shard: 0.json: /linkset/0/anchor: length 18: 'https://a.example/01/1'; correct the anchor\n"),
    ([one("/10/A")], [], 3, "tdl-shard: 0.json: /linkset/0/anchor: path: '/10/A'; correct the anchor\n"),
    ([one(f"{ITEM}?17=261231")], [], 3, f"tdl-shard: 0.json: /linkset/0/anchor: attributes: '{ITEM}?17=261231'; correct the anchor\n"),
    ([one(f"{ITEM}#\n")], [], 3, "tdl-shard: 0.json: /linkset/0/anchor: a line break, or more than 2,048 bytes; shorten the anchor\n"),
    ([{"linkset": [{"gs1:pip": []}]}], [], 3, "tdl-shard: 0.json: /linkset/0: a context is an object with the text `anchor`; add it\n"),
    (['{"linkset": [{"anchor": "/01/09506000134352", "a": [{"href": ""}]}]}'], [], 3,
     "tdl-shard: 0.json: /linkset/0/a/0: `href` is not a text of 1 to 2,048 visible ASCII characters; correct it\n"),
    (['{"linkset": [\n  {"anchor": NaN}]}'], [], 3, "tdl-shard: 0.json: line 2, column 3: invalid JSON: NaN is not JSON; correct the linkset\n"),
    (['{"linkset": [{]}'], [], 3,
     "tdl-shard: 0.json: line 1, column 15: invalid JSON: Expecting property name enclosed in double quotes; correct the linkset\n"),
    (['{"linkset": [] "x": 1}'], [], 3, "tdl-shard: 0.json: line 1, column 16: } is expected; correct the linkset\n"),
    (['{"linkset": [], "x": "\\ud800"}'], [], 3, "tdl-shard: 0.json: outside the contexts: refused links json syntax; correct the linkset\n"),
    (['{}'], [], 3, "tdl-shard: 0.json: line 1, column 3: the member `linkset` is missing; correct the linkset\n"),
    (['{"linkset": []} x'], [], 3, "tdl-shard: 0.json: line 1, column 17: the text continues after the linkset; correct the linkset\n"),
    ([one(ITEM, 65_537)], ["--shards", "1"], 3,
     "tdl-shard: shard 0 of 1 has 65,537 links and 2,282,744 bytes, above 100% of a store's 65,536 and 16,777,216, of which 65,537 links at "
     f"'{ITEM}'; name more shards, or `--shards auto`\n"),
    ([one(ITEM, 59_000)], ["--shards", "auto"], 3,
     "tdl-shard: shard 103 of 999 has 59,000 links and 2,053,949 bytes, above 90% of a store's 65,536 and 16,777,216, of which 59,000 links at "
     f"'{ITEM}'; all links of a key go to one shard, so remove some of them\n"),
    ([one(ITEM)], ["--out", "."], 5, "tdl-shard: . exists; name a new folder by --out\n"),
    ([one(ITEM)], ["--out", "no/new"], 5, "tdl-shard: no/new: No such file or directory; make room there, or name another folder by --out\n"),
    ([one(ITEM)], ["--tables", "0.json"], 3, "tdl-shard: 0.json: not a table document; try `tdl check --tables 0.json`\n"),
    ([one(ITEM)], ["--first-port", "8080"], 2, "tdl-shard: 2 shards have no ports from 8080 on beside 8080; name others by --first-port\n"),
    ([one(ITEM)], ["no.json"], 4, "tdl-shard: no.json: No such file or directory; name a linkset that can be read\n"),
]


# pieces of documents: values, members beside the contexts, and what is put into the text
VALUES = ["1e999", "1e-999", "9" * 400, "9" * 5_000, "-0", "01", "1.", '"\\ud800"', '"\\ud83d\\ude00"', '"\\u+123"', '"\t"', '"\x7f"', "NaN", "-Infinity", "tru",
          "[" * 126 + "]" * 126, "[" * 127 + "]" * 127, "{}", '[{"":1,"":2}]']
SPLICES = ["", '"', "{", "}", "[", "]", ",", ":", " ", "\\", "0", "null", "\ufeff", "\u00a0", '"linkset":[],', '"anchor":"/01/1",', '"a":[{}],', '"a":1,']


def documents(chance: random.Random) -> Iterator[str]:
    """Yields documents that differ little from linksets, some of which are linksets."""
    whole = '{"linkset":[{"anchor":"/01/09506000134352","a":[{"href":"x","title":"y"}],"b":[{"href":"z"}]}]}'
    bad = whole.replace("4352", "4353")
    yield from (f'{{"linkset":[],"x":{value}}}' for value in VALUES)
    yield from (whole.replace('"y"', value) for value in VALUES)
    yield from (f'{{"linkset":{first},"l\\u0069nkset":{second}}}' for first in ("5", bad[11:-1], "[]") for second in ("5", "[]", bad[11:-1], whole[11:-1]))
    yield from (whole.replace('"/01/09506000134352"', f'"/{"x" * size}/01/09506000134352"') for size in (2_009, 2_010, 2_027, 2_028, 2_029))
    for _ in range(60):
        place = chance.randint(0, len(whole))
        yield whole[:place] + chance.choice(SPLICES) + whole[place + chance.randint(0, 2):]


def test_accepts_the_documents_that_check_accepts(program: Path, tmp_path: Path) -> None:
    texts = list(dict.fromkeys(documents(random.Random(4))))

    def is_accepted(number: int) -> bool:
        path = tmp_path / f"alike-{number}.json"
        path.write_text(texts[number], "utf-8")
        return run(program, "--shards", "1", "--out", tmp_path / f"alike-{number}", path)[0] == 0

    def is_checked(number: int) -> bool:
        return subprocess.run([program, "check", "--links", tmp_path / f"alike-{number}.json"], stdout=subprocess.DEVNULL).returncode == 0

    with ThreadPoolExecutor(os.cpu_count()) as pool:
        split, checked = (list(pool.map(each, range(len(texts)))) for each in (is_accepted, is_checked))
    assert [text[:200] for text, one, other in zip(texts, split, checked) if one != other] == []
    assert 20 < sum(checked) < len(texts) - 20


@pytest.mark.parametrize("linksets, words, status, text", [pytest.param(*case, id=f"{number}") for number, case in enumerate(REJECTED)])
def test_names_what_it_rejects(program: Path, tmp_path: Path, linksets: list[Any], words: list[str], status: int, text: str) -> None:
    names = [f"{index}.json" for index in range(len(linksets))]
    for name, linkset in zip(names, linksets):
        (tmp_path / name).write_text(linkset if isinstance(linkset, str) else json.dumps(linkset, separators=(",", ":")), "utf-8")
    # (of two options with one name the last counts)
    assert run(program, "--shards", "2", "--out", "new", *names, *words, cwd=tmp_path) == (status, text)
    assert sorted(path.name for path in tmp_path.iterdir()) == names


def test_splits_the_example(program: Path, tmp_path: Path) -> None:
    assert run(program, "--shards", "2", "--out", tmp_path / "example", TOP / "examples/keys.json") == (0, "shards 2 links 9 most 7\n")
    names = sorted(path.name for path in (tmp_path / "example").glob("*"))
    assert names == ["haproxy.cfg", "nginx.conf", "shard-000.json", "shard-001.json", "shards.json"]


def test_finds_the_fewest_shards(program: Path, tmp_path: Path) -> None:
    words: list[Word] = ["--shards", "auto", "--out", tmp_path / "auto", TOP / "examples/keys.json", TOP / "examples/links.json"]
    assert run(program, *words) == (0, "shards 1 links 12 most 12\n")


def test_names_a_program_that_is_missing(tmp_path: Path) -> None:
    wanted = (70, "tdl-shard: /absent/tdl: No such file or directory; put tdl on the PATH, or name it by $TDL\n")
    assert run("/absent/tdl", "--shards", "2", "--out", tmp_path / "none", TOP / "examples/keys.json") == wanted


def test_names_a_number_of_shards_that_is_out_of_range(program: Path, tmp_path: Path) -> None:
    status, printed = run(program, "--shards", "1000", "--out", tmp_path / "none", TOP / "examples/keys.json")
    assert status == 2 and "'1000' is not a number from 1 to 999" in printed


def test_progress_is_shown_only_on_a_terminal(module: dict[str, str], tmp_path: Path) -> None:
    words: list[Word] = [SHARD, "--shards", "2", "--out", tmp_path / "shown", TOP / "examples/keys.json"]
    shown, terminal = os.openpty()
    done = subprocess.run(common.told(words), env=module, stdout=subprocess.PIPE, stderr=terminal)
    text = os.read(shown, 65_536).decode("ascii")
    os.close(shown)
    os.close(terminal)
    lines = ("read 8 contexts", "wrote shard 1 of 2", "wrote shard 2 of 2", "checked shard 1 of 2", "checked shard 2 of 2", "")
    assert (done.returncode, text) == (0, "".join(f"\r\x1b[K{line}" for line in lines))


def test_leaves_nothing_if_it_is_ended_while_shards_are_checked(program: Path, module: dict[str, str], tmp_path: Path) -> None:
    waits = tmp_path / "tdl"
    waits.write_text(f'#!/bin/sh\n{{ [ "$1" = canon ] || [ "$3" = /dev/stdin ]; }} && exec {program} "$@"\ntouch {tmp_path}/checks\nexec sleep 60\n', "ascii")
    waits.chmod(0o755)
    words: list[Word] = [SHARD, "--shards", "2", "--out", tmp_path / "new", TOP / "examples/keys.json"]
    process = begun(*words, env={**module, "TDL": str(waits)}, stderr=subprocess.DEVNULL)
    assert until((tmp_path / "checks").exists, PATIENCE)
    assert len(os.listdir(tmp_path)) == 3
    process.terminate()
    assert process.wait(PATIENCE) == 130
    assert sorted(os.listdir(tmp_path)) == ["checks", "tdl"]


@pytest.mark.whole
def test_splits_a_million_links_within_two_minutes_and_a_gibibyte(module: dict[str, str], tmp_path: Path) -> None:
    path = tmp_path / "million.json"
    with open(path, "w", encoding="ascii") as file:
        file.write('{"linkset":[')
        for number in range(1_000_000):
            digits = f"09506{number:08}"
            target = f'{{"href":"https://example.com/{number}","title":"Item {number}","type":"text/html"}}'
            file.write(f'{"," if number else ""}{{"anchor":"/01/{digits}{check_digit(digits)}","gs1:pip":[{target}]}}')
        file.write("]}")
    spent = costs([SHARD, "--shards", "16", "--out", tmp_path / "million", path], env=module)
    assert spent.output.startswith("shards 16 links 1000000 ") and spent.wall < 120 and spent.memory < 1024, spent
