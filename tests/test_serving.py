"""`tdl serve`, asked by sockets and by curl as clients do: each reply, its counts, peers that break off, are slow or send too much, a server that is
stopped and continued, and one whose descriptors run short.
"""
import os
import resource
import signal
import socket
import struct
import subprocess
from contextlib import contextmanager, suppress
from pathlib import Path
from time import monotonic, sleep
from typing import Any, Callable, Iterable, Iterator, NamedTuple

import pytest

from tools.common import HOST, PATIENCE, PIPES, Process, begun, free_port, stat_of, until
from tools.tests import same

# the seconds after which the server leaves a peer that says nothing
QUIET = 10
# how often the server is stopped as it reads and as it writes, clients that send more than is read behind a last head, those that send
# more than 1,000 heads, and requests that wait for a peer that stops reading
STOPS, LONG_STOPS, CLOSINGS, LONG_CLOSINGS, BEHIND = 200, 20, 1_000, 100, 100
MANY = ",".join(f'{{"href":"https://a.example/{number:02000}"}}' for number in range(1_500))
LINKS = (
    f'{{"linkset":[{{"anchor":"/01/00000000000017","x":[{MANY}]}},'
    '{"anchor":"https://id.gs1.org/01/09506000134352","gs1:defaultLink":[{"href":"https://example.com/p"}],'
    '"gs1:pip":[{"href":"https://example.com/pip"}]},{"anchor":"/01/09506000134352/10/ABC","gs1:defaultLink":'
    '[{"href":"https://example.com/lot"}]},{"anchor":"/414/0614141000012","gs1:defaultLink":[{"href":"https://a.example/1"},'
    '{"href":"https://a.example/2"}]},{"anchor":"/01/00000000000024","gs1:defaultLink":'
    '[{"href":"https://example.com/en","hreflang":["en"]},{"href":"https://example.com/de","hreflang":["de","de-AT"]}]},'
    '{"anchor":"/01/00000000000031","gs1:defaultLink":[{"href":"https://shop.example/p/{01}?s={21}"}]}]}'
)
DESCRIPTION = '{"resolverRoot":"https://id.example"}'
CHOICES = (
    '{"linkset":[{"anchor":"https://id.gs1.org/414/0614141000012","https://ref.gs1.org/voc/defaultLink":'
    '[{"href":"https://a.example/1"},{"href":"https://a.example/2"}]}]}'
)
LOT = (
    '{"linkset":[{"anchor":"https://id.gs1.org/01/09506000134352/10/ABC","https://ref.gs1.org/voc/defaultLink":'
    '[{"href":"https://example.com/lot"}]}]}'
)
LANGUAGES = (
    '{"linkset":[{"anchor":"https://id.gs1.org/01/00000000000024","https://ref.gs1.org/voc/defaultLink":'
    '[{"href":"https://example.com/en","hreflang":["en"]},{"href":"https://example.com/de","hreflang":["de","de-AT"]}]}]}'
)
LOT_TEXT = (
    '<https://example.com/lot>; rel="https://ref.gs1.org/voc/defaultLink"; anchor="https://id.gs1.org/01/09506000134352/10/ABC"'
)
JSON, LINKSET, TEXT = "application/json", "application/linkset+json", "application/linkset"
TO_LOT, TO_ITEM = "Location: https://example.com/lot", "Location: https://example.com/p"
MANY_PATH = "/01/00000000000017?linkType=all"
LOT_PATH, ITEM_PATH, PLACE_PATH = "/01/09506000134352/10/ABC/21/X1", "/01/09506000134352", "/414/0614141000012/254/9"
LANGUAGE_PATH, LANGUAGE = "/01/00000000000024", "Accept-Language: "


def reply(status: str, *fields: str, body: str = "", kind: str = "", closes: bool = False, is_head: bool = False) -> bytes:
    """Returns the bytes of a reply."""
    lines = [f"HTTP/1.1 {status}", *fields, *([f"Content-Type: {kind}"] if kind else [])]
    lines += [f"Content-Length: {len(body)}", *(["Connection: close"] if closes else []), "", ""]
    return ("\r\n".join(lines) + ("" if is_head else body)).encode("ascii")


def head(path: str, *fields: str, method: str = "GET") -> bytes:
    """Returns the bytes of a request."""
    return "\r\n".join([f"{method} {path} HTTP/1.1", "Host: id.example", *fields, "", ""]).encode("ascii")


REDIRECT = reply("307 Temporary Redirect", TO_LOT)
MISSING = reply("404 Not Found")
BROKEN = reply("400 Bad Request", closes=True)
CLOSING = reply("307 Temporary Redirect", TO_LOT, closes=True)
LONG = head(MANY_PATH) * 2 + head(MANY_PATH, "Connection: close")

# What curl is asked, and the bytes that it has to print.
BY_CURL: list[tuple[str, list[str], bytes]] = [
    ("a lot with a link of its own", [LOT_PATH], REDIRECT),
    ("another relation", [f"{LOT_PATH}?linkType=gs1:pip"], reply("307 Temporary Redirect", "Location: https://example.com/pip")),
    ("two links to choose from", [PLACE_PATH], reply("300 Multiple Choices", body=CHOICES, kind=LINKSET)),
    ("no link", ["/01/80614141123458"], MISSING),
    ("a wrong check digit", ["/01/09506000134353"], reply("400 Bad Request")),
    ("another method", ["-X", "DELETE", LOT_PATH], reply("405 Method Not Allowed", "Allow: GET, HEAD")),
    ("a head alone", ["-I", ITEM_PATH], reply("307 Temporary Redirect", TO_ITEM)),
    ("a head alone of a document", ["-I", PLACE_PATH], reply("300 Multiple Choices", body=CHOICES, kind=LINKSET, is_head=True)),
    ("a linkset by linkType", ["/01/9506000134352/10/ABC?linkType=linkset"], reply("200 OK", body=LOT, kind=LINKSET)),
    ("a linkset by Accept", ["-H", f"Accept: text/html, {LINKSET};q=0.9", "/01/09506000134352/10/ABC"],
     reply("200 OK", body=LOT, kind=LINKSET)),
    ("a linkset as text by Accept", ["-H", f"Accept: {TEXT}, {LINKSET}", "/01/09506000134352/10/ABC"],
     reply("200 OK", body=LOT_TEXT, kind=TEXT)),
    ("a linkset as text by linkType and Accept", ["-H", f"Accept: {TEXT}", "/01/09506000134352/10/ABC?linkType=all"],
     reply("200 OK", body=LOT_TEXT, kind=TEXT)),
    ("a template with a serial number", ["/01/00000000000031/21/A%2FB"],
     reply("307 Temporary Redirect", "Location: https://shop.example/p/00000000000031?s=A%2FB")),
    ("a template without one", ["/01/00000000000031"],
     reply("307 Temporary Redirect", "Location: https://shop.example/p/00000000000031?s=")),
    ("a link in the language of the most weight", ["-H", f"{LANGUAGE}en;q=0.5, DE", LANGUAGE_PATH],
     reply("307 Temporary Redirect", "Location: https://example.com/de")),
    ("a link in a language that another field names",
     ["-H", f"{LANGUAGE}fr", "-H", f"{LANGUAGE}en;q=0.8", LANGUAGE_PATH],
     reply("307 Temporary Redirect", "Location: https://example.com/en")),
    ("a language that no link has", ["-H", f"{LANGUAGE}en-GB", LANGUAGE_PATH],
     reply("300 Multiple Choices", body=LANGUAGES, kind=LINKSET)),
    ("a linkset whatever the language", ["-H", f"{LANGUAGE}de", f"{LANGUAGE_PATH}?linkType=all"],
     reply("200 OK", body=LANGUAGES, kind=LINKSET)),
    ("the description", ["/.well-known/gs1resolver"], reply("200 OK", body=DESCRIPTION, kind=JSON)),
    ("two requests on one connection", [LOT_PATH, ITEM_PATH, "-w", "%{num_connects} connects\\n"],
     REDIRECT + b"1 connects\n" + reply("307 Temporary Redirect", TO_ITEM) + b"0 connects\n"),
    ("the end that the client asks for", ["-H", "Connection: close", LOT_PATH],
     reply("307 Temporary Redirect", TO_LOT, closes=True)),
    ("HTTP/1.0", ["-0", LOT_PATH], reply("307 Temporary Redirect", TO_LOT, closes=True)),
]
# What is sent in these pieces, the sending then ended, and the bytes that have to come.
BY_SOCKET: list[tuple[str, list[bytes], bytes]] = [
    ("one head in one piece", [head(LOT_PATH)], REDIRECT),
    ("a head byte by byte", [bytes([byte]) for byte in head(ITEM_PATH)], reply("307 Temporary Redirect", TO_ITEM)),
    ("three heads in one piece", [head(LOT_PATH) + head("/x") + head(ITEM_PATH, method="HEAD")],
     REDIRECT + MISSING + reply("307 Temporary Redirect", TO_ITEM)),
    ("heads behind one that ends the connection", [head("/x", "Connection: close") + head(LOT_PATH)],
     reply("404 Not Found", closes=True)),
    ("a connection without a byte", [], b""),
    ("an end in mid-head", [head(LOT_PATH) + b"GET /01/0950"], REDIRECT + BROKEN),
    ("a head with a body", [head(LOT_PATH, "Content-Length: 1") + b"x"], BROKEN),
    ("bytes that are no head", [b"\x16\x03\x01 hello\r\n\r\n"], BROKEN),
    ("8,192 bytes without an empty line", [b"GET /" + b"x" * 8187], BROKEN),
    ("1,001 heads", [head("/x") * 1001], MISSING * 999 + reply("404 Not Found", closes=True)),
]


class Server(NamedTuple):
    """A server, and its port."""

    process: Process
    port: int

    def connected(self) -> socket.socket:
        """Returns a connection, once the server listens."""
        end = monotonic() + PATIENCE
        while True:
            try:
                return socket.create_connection((HOST, self.port), timeout=QUIET + PATIENCE)
            except ConnectionRefusedError:
                if self.process.poll() is not None or monotonic() > end:
                    raise
                sleep(0.02)

    def asked(self, *pieces: bytes) -> bytes:
        """Returns what comes for these pieces, the sending then ended."""
        with self.connected() as connection:
            connection.setsockopt(socket.IPPROTO_TCP, socket.TCP_NODELAY, 1)
            # (the server may end the connection before all is sent)
            with suppress(OSError):
                for piece in pieces:
                    connection.sendall(piece)
                connection.shutdown(socket.SHUT_WR)
            return all_of(connection)

    def stop_and_continue(self) -> None:
        """Stops the process, and lets it go on once it is stopped."""
        os.kill(self.process.pid, signal.SIGSTOP)
        until(lambda: stat_of(self.process.pid)[0] == "T", PATIENCE, 0.001)
        os.kill(self.process.pid, signal.SIGCONT)

    def ended(self) -> tuple[int, str, str]:
        """Returns the status, the output and the errors of a server that ends."""
        output, error = self.process.communicate(timeout=PATIENCE)
        return self.process.returncode, output.decode(), error.decode()


Start = Callable[..., Server]


@contextmanager
def started(program: Path, folder: Path, *words: str, listen: str = "", **how: Any) -> Iterator[Server]:
    """Starts a server for a block."""
    port = free_port()
    process = begun(program, "serve", *words, "--listen", listen or f"{HOST}:{port}", cwd=folder, **{**PIPES, **how})
    try:
        yield Server(process, port)
    finally:
        process.kill()
        process.communicate()


@pytest.fixture(scope="module")
def folder(tmp_path_factory: pytest.TempPathFactory) -> Path:
    """A folder with links and a description."""
    made = tmp_path_factory.mktemp("serving")
    (made / "l").write_text(LINKS, "ascii")
    (made / "d").write_text(DESCRIPTION, "ascii")
    return made


@pytest.fixture(scope="module")
def server(program: Path, folder: Path) -> Iterator[Server]:
    """A server for any number of connections."""
    with started(program, folder, "--links", "l", "--templates", "yes", "--describe", "d", "--count", "1000000") as serving:
        yield serving


def all_of(connection: socket.socket) -> bytes:
    """Returns what comes up to the end of a connection; a reset behind the last byte counts as its end."""
    got = b""
    with suppress(ConnectionResetError):
        while more := connection.recv(65536):
            got += more
    return got


@pytest.mark.parametrize("pieces, wanted", [pytest.param(*case, id=name) for name, *case in BY_SOCKET])
def test_replies_by_a_socket(server: Server, pieces: list[bytes], wanted: bytes) -> None:
    same(wanted, server.asked(*pieces))


@pytest.mark.needs("curl")
@pytest.mark.parametrize("words, wanted", [pytest.param(*case, id=name) for name, *case in BY_CURL])
def test_replies_by_curl(server: Server, words: list[str], wanted: bytes) -> None:
    words = [f"http://{HOST}:{server.port}{word}" if word.startswith("/") else word for word in words]
    command = ["curl", "-q", "-s", "-i", "--globoff", "--noproxy", "*", "--max-time", str(PATIENCE), *words]
    server.connected().close()
    same(wanted, subprocess.run(command, capture_output=True).stdout)


def reset(server: Server, sent: bytes) -> None:
    """Sends this, and resets the connection a moment later."""
    with server.connected() as connection:
        connection.sendall(sent)
        sleep(0.5)
        connection.setsockopt(socket.SOL_SOCKET, socket.SO_LINGER, struct.pack("ii", 1, 0))


def test_counts_what_is_served_and_what_fails(program: Path, folder: Path) -> None:
    """A peer that resets in mid-head, one that goes in the midst of long replies, and one that says nothing are faults; the next are answered."""
    with started(program, folder, "--links", "l", "--count", "5") as server:
        same(REDIRECT, server.asked(head(LOT_PATH)))
        reset(server, b"GET /01/0950")
        reset(server, head(MANY_PATH) * 3)
        with server.connected() as connection:
            begun = monotonic()
            assert all_of(connection) == b""
            assert monotonic() - begun > QUIET - 1
        same(REDIRECT, server.asked(head(LOT_PATH)))
        assert server.ended() == (0, "served 5 faults 3\n", "")


def stopped_reading(server: Server) -> bytes:
    """Returns what comes for a head of which one half is sent before the process is stopped, and one half after that."""
    sent = head(LOT_PATH, "Connection: close")
    with server.connected() as connection:
        connection.sendall(sent[:20])
        sleep(0.01)
        server.stop_and_continue()
        connection.sendall(sent[20:])
        return all_of(connection)


def stopped_writing(server: Server) -> bytes:
    """Returns what comes of a long reply, as whose writer the process is stopped before the peer reads."""
    with server.connected() as connection:
        connection.sendall(LONG)
        # (a write that took something answers that at the first stop; the next one has taken nothing)
        for _ in range(3):
            sleep(0.02)
            server.stop_and_continue()
        return all_of(connection)


def narrow(server: Server, sent: bytes) -> bytes:
    """Returns what comes for heads that are all sent before anything is read, through a window of some thousand bytes."""
    with socket.socket() as connection:
        connection.setsockopt(socket.SOL_SOCKET, socket.SO_RCVBUF, 4096)
        connection.settimeout(QUIET + PATIENCE)
        connection.connect((HOST, server.port))
        # (the server may end the connection before all is sent)
        with suppress(OSError):
            connection.sendall(sent)
        return all_of(connection)


def lost(wanted: bytes, replies: Iterable[bytes]) -> int:
    """Returns how many replies did not come whole."""
    return sum(reply != wanted for reply in replies)


def test_loses_no_request_if_it_is_stopped_as_it_reads(server: Server) -> None:
    assert lost(CLOSING, (stopped_reading(server) for _ in range(STOPS))) == 0


def test_loses_no_request_if_it_is_stopped_as_it_writes(server: Server) -> None:
    assert lost(server.asked(LONG), (stopped_writing(server) for _ in range(LONG_STOPS))) == 0


def test_loses_no_request_before_heads_that_it_does_not_read(server: Server) -> None:
    sent = head(LOT_PATH) * 200 + head("/x", "Connection: close") + head(LOT_PATH) * 400
    server.connected().close()
    assert lost(REDIRECT * 200 + reply("404 Not Found", closes=True), (narrow(server, sent) for _ in range(CLOSINGS))) == 0


def test_loses_no_request_of_1600_heads_in_one_piece(server: Server) -> None:
    server.connected().close()
    assert lost(MISSING * 999 + reply("404 Not Found", closes=True), (narrow(server, head("/x") * 1_600) for _ in range(LONG_CLOSINGS))) == 0


def test_loses_no_request_behind_a_peer_that_stops_reading(server: Server) -> None:
    with server.connected() as stalled:
        stalled.sendall(head(MANY_PATH) * 3)
        sleep(0.5)
        assert lost(CLOSING, (server.asked(head(LOT_PATH, "Connection: close")) for _ in range(BEHIND))) == 0


def test_leaves_a_peer_whose_head_comes_slowly(server: Server) -> None:
    with server.connected() as connection:
        begun, is_open = monotonic(), True
        connection.settimeout(0.5)
        while is_open and monotonic() - begun < QUIET + PATIENCE:
            with suppress(TimeoutError):
                try:
                    connection.sendall(b"x")
                    is_open = bool(connection.recv(65536))
                except ConnectionError:
                    is_open = False
        assert not is_open and monotonic() - begun > QUIET - 1


def short(program: Path, folder: Path, **how: Any) -> Any:
    """Starts a server that can open its linkset and its listener, but no connection: that would be the sixth descriptor."""
    hard = resource.getrlimit(resource.RLIMIT_NOFILE)[1]
    return started(program, folder, "--links", "l", "--count", "1", preexec_fn=lambda: resource.setrlimit(resource.RLIMIT_NOFILE, (5, hard)), **how)


def test_answers_once_there_is_a_descriptor(program: Path, folder: Path) -> None:
    with short(program, folder) as server, server.connected() as connection:
        connection.sendall(head(LOT_PATH, "Connection: close"))
        connection.settimeout(1)
        with pytest.raises(TimeoutError):
            connection.recv(1)
        resource.prlimit(server.process.pid, resource.RLIMIT_NOFILE, resource.getrlimit(resource.RLIMIT_NOFILE))
        connection.settimeout(PATIENCE)
        same(CLOSING, all_of(connection))
        assert server.ended() == (0, "served 1 faults 0\n", "")


def test_ends_after_a_minute_without_descriptors(program: Path, folder: Path) -> None:
    with short(program, folder) as server:
        told = f'tdl: cannot accept connections at "{HOST}:{server.port}": Too many open files (os error 24)\n'
        assert server.ended() == (4, "", told)


def test_a_port_that_is_taken(program: Path, folder: Path) -> None:
    with socket.socket() as listener:
        listener.bind((HOST, 0))
        listener.listen()
        taken = f"{HOST}:{listener.getsockname()[1]}"
        with started(program, folder, "--links", "l", "--count", "1", listen=taken) as server:
            assert server.ended() == (4, "", f'tdl: cannot accept connections at "{taken}": Address already in use (os error 98)\n')


@pytest.mark.parametrize("links, listen, wanted", (
    ("l", "nowhere", (4, "", 'tdl: cannot accept connections at "nowhere": invalid socket address\n')),
    ("d", "", (3, "refused links json lacks /linkset\n", "")),
    ("missing", "", (4, "", 'tdl: cannot read "missing": No such file or directory (os error 2)\n')),
), ids=("no address", "no linkset", "no file"))
def test_what_it_cannot_open(program: Path, folder: Path, links: str, listen: str, wanted: tuple[int, str, str]) -> None:
    with started(program, folder, "--links", links, "--count", "1", listen=listen) as server:
        assert server.ended() == wanted
