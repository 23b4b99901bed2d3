"""The unit's processes behind the shipped fronts, and clients that ask them: what tests/test_fronts.py tries of nginx and HAProxy.

Each request has a TLS connection of its own. It is lost if its reply does not come whole.
"""
import asyncio
import os
import re
import shlex
import signal
import socket
import socketserver
import ssl
from contextlib import suppress
from pathlib import Path
from threading import Event, Thread
from time import sleep
from typing import Any, Callable, Optional, Sequence, cast

from tools.common import QUIET, Process, Word, begun, run, there, until

Address = tuple[str, int]
Pems = tuple[Path, Path, Path]
# the status and the fields, or nothing if it did not come whole
Reply = Optional[tuple[int, dict[str, str]]]

HOST, SECONDS, MOST_OPEN, PATIENCE = "127.0.0.1", 60, 50, 8
UNIT, EXAMPLES = "lib/systemd/system/tdl@.service", "usr/share/doc/tdl/examples"
SHIPPED_PORTS, ENDED = (8081, 8082, 8083, 8084), "/ended"


def listens(port: int, address: str = HOST, seconds: float = SECONDS) -> bool:
    """Waits until something listens at a port, and returns whether it does."""
    def is_open() -> bool:
        with socket.socket() as asked:
            return not asked.connect_ex((address, port))

    return until(is_open, seconds)


def setting(root: Path, name: str) -> str:
    """Returns the value of a setting of the unit."""
    return there(re.search(rf"^{name}=(.*)$", (root / UNIT).read_text("ascii"), re.MULTILINE))[1]


def command_of(root: Path, port: int, listen: Address, links: Path, divisor: int = 1, count: Optional[int] = None) -> tuple[list[str], dict[str, str]]:
    """Returns the unit's command for a port, and its environment; `listen` takes the address's place, and the unit's count is divided, or
    `count` is in its place."""
    line = setting(root, "ExecStart").replace(":%i", f":{listen[1]}").replace("%i", str(port)).replace("%%", "%").replace("$$", "$")
    line = line.replace("/usr/bin/", f"{root}/usr/bin/").replace("/etc/tdl/links.json", str(links))
    line = re.sub(r"\$\(\((.*)\)\)", str(count) if count else rf"$(((\1) / {divisor}))", line)
    return shlex.split(line), dict(re.findall(r'"(\w+)=(.*?)"', setting(root, "Environment"))) | {"TDL_ADDRESS": listen[0]}


class Service:
    """A process of the unit, which is started again whenever it ends, as the unit says."""

    def __init__(
        self, command: list[str], environment: dict[str, str], pause: float, prevented: set[int], before: Sequence[str] = (), noted: Optional[Path] = None
    ) -> None:
        self.command, self.environment, self.pause, self.prevented = [*before, *command], environment, pause, prevented
        self.ended, self.starts, self.noted = Event(), 0, noted
        self.process: Optional[Process] = None
        self.thread = Thread(target=self.keep, daemon=True)
        self.thread.start()

    def keep(self) -> None:
        """Starts the process again and again, and notes its number, or that it failed."""
        while not self.ended.is_set():
            process = self.process = begun(*self.command, env=self.environment, **QUIET)
            self.starts += 1
            self.note(str(process.pid))
            if process.wait() in self.prevented:
                self.note("failed")
                while self.noted and self.noted.read_text() == "failed" and not self.ended.is_set():
                    sleep(0.02)
            sleep(self.pause)

    def note(self, text: str) -> None:
        """Notes a text for the stand-in of systemctl."""
        if self.noted:
            beside = self.noted.with_suffix(".new")
            beside.write_text(text)
            beside.replace(self.noted)

    @property
    def pid(self) -> int:
        """Returns the number of the process that was started last."""
        return there(self.process).pid

    def kill(self, number: signal.Signals = signal.SIGKILL) -> None:
        """Sends the process a signal."""
        there(self.process).send_signal(number)

    def await_starts(self, count: int) -> None:
        """Waits until the process was started so many times: the requests may all be answered before the pause is over."""
        until(lambda: self.starts >= count, SECONDS)

    def stop(self) -> None:
        """Ends the process for good."""
        self.ended.set()
        # (it may just be started again)
        while self.thread.is_alive():
            if self.process:
                self.process.kill()
            self.thread.join(0.05)


def service(root: Path, port: int, links: Path, listen: Optional[Address] = None, divisor: int = 1, count: Optional[int] = None, **how: Any) -> Service:
    """Starts a process of the unit for a port, which listens there or at the address `listen`."""
    command, named = command_of(root, port, listen or (HOST, port), links, divisor, count)
    prevented = {int(status) for status in setting(root, "RestartPreventExitStatus").split()}
    return Service(command, os.environ | named, float(setting(root, "RestartSec").removesuffix("ms")) / 1000, prevented, **how)


def certificate(room: Path) -> Pems:
    """Makes a certificate: the file of the certificate, that of the key, and one of both."""
    words: list[Word] = ["openssl", "req", "-x509", "-newkey", "ec", "-pkeyopt", "ec_paramgen_curve:P-256", "-nodes", "-days", "2", "-subj", "/CN=id.example"]
    run(*words, "-keyout", room / "key.pem", "-out", room / "certificate.pem")
    (room / "both.pem").write_bytes((room / "certificate.pem").read_bytes() + (room / "key.pem").read_bytes())
    return room / "certificate.pem", room / "key.pem", room / "both.pem"


def with_addresses(text: str, addresses: list[str], front: int, plain: Optional[int] = None) -> str:
    """Returns a front's configuration with these addresses in place of the first processes', and without the others. It listens at a port,
    and without TLS at another."""
    lines = []
    for line in text.splitlines():
        found = re.search(r"127\.0\.0\.1:808(\d)", line)
        if found and int(found[1]) > len(addresses):
            continue
        lines.append(line.replace(found[0], addresses[int(found[1]) - 1]) if found else line)
    text = "\n".join(lines) + "\n"
    more = (f" listen {HOST}:{plain};", f"    bind {HOST}:{plain}\n") if plain else ("", "")
    text = text.replace("listen 443 ssl;", f"listen {HOST}:{front} ssl;{more[0]}")
    return re.sub(r"bind :443 (.*\n)", rf"bind {HOST}:{front} \1{more[1]}", text)


def nginx_words(room: Path, more: str = "") -> list[Word]:
    """Returns the command line of nginx over the configuration nginx.conf of a folder."""
    places = "".join(f"{name}_temp_path {room}/{name};" for name in ("client_body", "proxy", "fastcgi", "uwsgi", "scgi"))
    user = "user root;" if not os.geteuid() else ""
    whole = f"{user} pid {room}/nginx.pid; error_log {room}/nginx.log; worker_rlimit_nofile 16384; events {{ worker_connections 8192; }}"
    (room / "whole.conf").write_text(f"{whole} http {{ access_log off; {places} {more} include {room}/nginx.conf; }}", "ascii")
    return ["nginx", "-e", room / "nginx.log", "-c", room / "whole.conf", "-g", "daemon off;"]


def nginx(room: Path, main: str, more: str = "") -> Process:
    """Starts nginx in a folder over a configuration of its own."""
    (room / "nginx.conf").write_text(main, "ascii")
    return begun(*nginx_words(room, more), **QUIET)


def start_nginx(root: Path, room: Path, addresses: list[str], front: int, pems: Pems, plain: Optional[int] = None) -> Process:
    """Starts nginx with the shipped configuration."""
    shipped = with_addresses((root / EXAMPLES / "nginx.conf").read_text("ascii"), addresses, front, plain)
    return nginx(room, shipped.replace("/etc/ssl/id.example.pem", str(pems[0])).replace("/etc/ssl/id.example.key", str(pems[1])))


def start_haproxy(root: Path, room: Path, addresses: list[str], front: int, pems: Pems, plain: Optional[int] = None) -> Process:
    """Starts HAProxy with the shipped configuration."""
    shipped = with_addresses((root / EXAMPLES / "haproxy.cfg").read_text("ascii"), addresses, front, plain)
    # (its socket of a name is the machine's)
    shipped = shipped.replace("abns@tdl", f"abns@tdl-{front}").replace("/etc/ssl/id.example.pem", str(pems[2]))
    (room / "haproxy.cfg").write_text(shipped, "ascii")
    return begun("haproxy", "-db", "-f", room / "haproxy.cfg", **QUIET)


def context() -> ssl.SSLContext:
    """Returns what a client needs to speak TLS to a front with a certificate of its own."""
    made = ssl.create_default_context()
    made.check_hostname, made.verify_mode = False, ssl.CERT_NONE
    return made


def request(path: str, fields: Sequence[str] = (), body: bytes = b"") -> bytes:
    """Returns the bytes of a request."""
    length = [f"Content-Length: {len(body)}"] if body else []
    return "\r\n".join([f"GET {path} HTTP/1.1", "Host: id.example", "Connection: close", *fields, *length, "", ""]).encode("ascii") + body


def direct(port: int, sent: bytes) -> Reply:
    """Returns the reply of a process to a request that no front has handed on."""
    return asyncio.run(ask(port, sent, None))


def reply_of(got: bytes) -> Reply:
    """Returns the status and the fields of a whole reply, or `None`."""
    head, end, body = got.partition(b"\r\n\r\n")
    first, *lines = head.decode("latin-1").split("\r\n")
    fields = {name.lower(): value.strip() for name, _, value in (line.partition(":") for line in lines)}
    is_whole = end and len(body) == int(fields.get("content-length", -1))
    return (int(first.split()[1]), fields) if is_whole else None


async def ask(front: int, sent: bytes, tls: Optional[ssl.SSLContext], ready: Optional["Barrier"] = None) -> Reply:
    """Sends a request over a connection of its own, once all are `ready`, and returns its reply, or `None`."""
    got = b""
    try:
        if ready:
            await ready.opening.acquire()
        try:
            reader, writer = await asyncio.open_connection(HOST, front, ssl=tls)
        finally:
            if ready:
                ready.opening.release()
        if ready:
            await ready.wait()
        writer.write(sent)
        got = await asyncio.wait_for(reader.read(), SECONDS)
        writer.close()
    except (OSError, asyncio.TimeoutError, asyncio.IncompleteReadError):
        pass
    return reply_of(got) if got else None


async def paced(front: int, sent: bytes, rate: int, doing: Callable[[], object]) -> list[Reply]:
    """Asks `rate` times a second at most, and `MOST_OPEN` at once, until `doing` has returned, and returns the replies."""
    tls, asked, work, room = context(), [], asyncio.create_task(asyncio.to_thread(doing)), asyncio.Semaphore(MOST_OPEN)
    while not work.done():
        await room.acquire()
        asked.append(asyncio.create_task(ask(front, sent, tls)))
        asked[-1].add_done_callback(lambda _: room.release())
        await asyncio.sleep(1 / rate)
    await work
    return await asyncio.gather(*asked)


async def next_reply(reader: asyncio.StreamReader) -> Reply:
    """Returns the status and the fields of the next reply on a connection that is kept, or `None`."""
    async def reply() -> Reply:
        head = await reader.readuntil(b"\r\n\r\n")
        length = there(re.search(rb"\r\ncontent-length: (\d+)", head.lower()))
        return reply_of(head + await reader.readexactly(int(length[1])))

    with suppress(OSError, asyncio.TimeoutError, asyncio.IncompleteReadError, LookupError):
        return await asyncio.wait_for(reply(), SECONDS)
    return None


async def kept(front: int, sent: bytes, count: int, told: Callable[[int], object], doing: Optional[Callable[[], object]] = None) -> list[Reply]:
    """Asks so many times, and until `doing` has returned, over `MOST_OPEN` connections, a request at a time on each, and returns the
    replies; `told` gets their number."""
    tls, asked = context(), iter(range(1, 1 << 32))
    replies: list[Reply] = []
    work = asyncio.create_task(asyncio.to_thread(doing or (lambda: None)))

    async def client() -> None:
        writer = None
        while next(asked) <= count or not work.done():
            reply = None
            with suppress(OSError):
                if not writer:
                    reader, writer = await asyncio.open_connection(HOST, front, ssl=tls)
                writer.write(sent)
                reply = await next_reply(reader)
            replies.append(reply)
            told(len(replies))
            if writer and (not reply or reply[1].get("connection") == "close"):
                writer.close()
                writer = None

    await asyncio.gather(work, *(client() for _ in range(MOST_OPEN)))
    return replies


async def at_once(front: int, sent: bytes, count: int, is_plain: bool = False) -> list[Reply]:
    """Opens so many connections, sends on all of them at once, or after `PATIENCE` on those that are open, and returns the replies."""
    tls, ready = None if is_plain else context(), Barrier(count)
    return await asyncio.gather(*(ask(front, sent, tls, ready) for _ in range(count)))


class Barrier:
    """What so many tasks wait for, until the last of them does, or `PATIENCE` is over: a front ends connections that are idle."""

    def __init__(self, count: int) -> None:
        # (few at a time shake hands, so that none of them waits long for its own)
        self.left, self.event, self.opening = count, asyncio.Event(), asyncio.Semaphore(MOST_OPEN)
        asyncio.get_running_loop().call_later(PATIENCE, self.event.set)

    async def wait(self) -> None:
        """Waits for the others."""
        self.left -= 1
        if not self.left:
            self.event.set()
        await self.event.wait()


def lost(replies: Sequence[Reply], status: int) -> int:
    """Returns how many replies did not come whole, or with another status."""
    return sum(reply is None or reply[0] != status for reply in replies)


class Ending(socketserver.ThreadingTCPServer):
    """Stands in for a process that ends while it answers a request for ENDED, after more than half a second; others get 404."""

    daemon_threads, allow_reuse_address = True, True

    def __init__(self) -> None:
        super().__init__((HOST, 0), EndingAnswer)
        self.asked = 0
        Thread(target=self.serve_forever, daemon=True).start()


class EndingAnswer(socketserver.StreamRequestHandler):
    """The answer of such a process."""

    def handle(self) -> None:
        """Ends the connection, or answers."""
        head = b"".join(iter(self.rfile.readline, b"\r\n"))
        if head.startswith(f"GET {ENDED}".encode("ascii")):
            cast(Ending, self.server).asked += 1
            sleep(0.7)
        else:
            self.wfile.write(b"HTTP/1.1 404 Not Found\r\nContent-Length: 0\r\nConnection: close\r\n\r\n")


def slow_reader(front: int, sent: bytes) -> ssl.SSLSocket:
    """Sends a request, and returns the connection, whose reply is hardly read."""
    plain = socket.socket()
    plain.setsockopt(socket.SOL_SOCKET, socket.SO_RCVBUF, 4096)
    plain.connect((HOST, front))
    secured = context().wrap_socket(plain)
    secured.sendall(sent)
    return secured
