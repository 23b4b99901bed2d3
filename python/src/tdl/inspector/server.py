"""The server of the page, at 127.0.0.1 and only for this machine.

It serves the files of page/ and answers questions, each a JSON object that the page posts. It answers no other site that a browser shows:
host and origin of a request must be its own. The page loads nothing from elsewhere.
"""
from __future__ import annotations

import http.client
import json
import webbrowser
from http import HTTPStatus
from http.server import BaseHTTPRequestHandler, ThreadingHTTPServer
from pathlib import Path
from typing import Optional

from ..errors import FilesRejected, ProgramError
from .analysis import Inspector
from .questions import Question

HOST = "127.0.0.1"
PAGE = Path(__file__).resolve().parent / "page"
FILES = {
    "/": ("page.html", "text/html; charset=utf-8"),
    "/page.css": ("page.css", "text/css; charset=utf-8"),
    **{f"/{name}.js": (f"{name}.js", "text/javascript; charset=utf-8") for name in ("page", "make", "text", "lines", "compose")},
    "/icon.svg": ("icon.svg", "image/svg+xml"),
}
POLICY = (
    "default-src 'none'; script-src 'self'; style-src 'self'; img-src 'self'; connect-src 'self'; base-uri 'none'; form-action 'none'; "
    "frame-ancestors 'none'; require-trusted-types-for 'script'; trusted-types 'none'"
)
HEADERS = {
    "Content-Security-Policy": POLICY,
    "X-Content-Type-Options": "nosniff",
    "Referrer-Policy": "no-referrer",
    "Cross-Origin-Opener-Policy": "same-origin",
    "Cross-Origin-Resource-Policy": "same-origin",
    "Cache-Control": "no-store",
}
MOST_BYTES, MOST_DIGITS, PATIENCE = 8_388_608, 18, 5
JSON = "application/json"


class Handler(BaseHTTPRequestHandler):
    """One connection of a browser."""

    protocol_version = "HTTP/1.1"
    server_version, sys_version = "tdl", ""
    timeout = 60
    server: "Server"

    def do_GET(self) -> None:
        """Replies with a file of the page, or with the choices of its controls."""
        name, sort = FILES.get(self.path, ("", ""))
        if self._is_own() and self.path == "/choices":
            self._tell(HTTPStatus.OK, self.server.inspector.choices())
        elif not self._is_own() or not name:
            self._reply(HTTPStatus.NOT_FOUND, b"", "text/plain")
        else:
            self._reply(HTTPStatus.OK, (PAGE / name).read_bytes(), sort)

    def do_POST(self) -> None:
        """Replies with the answer to a question."""
        length = self.headers.get("Content-Length", "")
        is_json = self.headers.get_content_type() == JSON
        if not self._is_own() or self.path not in ("/inspect", "/compose") or not is_json or not (length.isascii() and length.isdigit()):
            self.close_connection = True
            self._reply(HTTPStatus.FORBIDDEN, b"", "text/plain")
        elif len(length) > MOST_DIGITS or int(length) > MOST_BYTES:
            self.close_connection = True
            self._tell(HTTPStatus.REQUEST_ENTITY_TOO_LARGE, {"error": "This is more than the page takes. Use python3 -m tdl csv."})
        else:
            self._answer(self.rfile.read(int(length)))

    def _answer(self, body: bytes) -> None:
        try:
            asked, inspector = json.loads(body), self.server.inspector
            self._tell(HTTPStatus.OK, inspector.inspect(Question.of(asked)) if self.path == "/inspect" else inspector.compose(dict(asked)))
        except (FilesRejected, ProgramError, OSError, MemoryError) as error:
            self._tell(HTTPStatus.INTERNAL_SERVER_ERROR, {"error": str(error)})
        except (ValueError, TypeError, RecursionError) as error:
            self._tell(HTTPStatus.BAD_REQUEST, {"error": str(error)})

    def _is_own(self) -> bool:
        """Returns whether a request is for this server and comes from its page."""
        hosts = [f"{name}:{self.server.server_port}" for name in (HOST, "localhost")]
        origin = self.headers.get("Origin")
        return self.headers.get("Host") in hosts and (origin is None or origin in [f"http://{host}" for host in hosts])

    def _tell(self, status: HTTPStatus, told: object) -> None:
        self._reply(status, json.dumps(told).encode("ascii"), JSON)

    def _reply(self, status: HTTPStatus, body: bytes, sort: str) -> None:
        self.send_response(status)
        closing = {"Connection": "close"} if self.close_connection else {}
        for name, value in {**HEADERS, **closing, "Content-Type": sort, "Content-Length": str(len(body))}.items():
            self.send_header(name, value)
        self.end_headers()
        self.wfile.write(body)

    def log_message(self, format: str, *words: object) -> None:
        """Logs nothing: what is inspected stays with the user."""


class Server(ThreadingHTTPServer):
    """The server with the inspector that answers."""

    daemon_threads = True

    def __init__(self, port: int, inspector: Inspector) -> None:
        super().__init__((HOST, port), Handler)
        self.inspector = inspector

    @property
    def address(self) -> str:
        """Returns the page's address."""
        return address_of(self.server_port)

    def handle_error(self, request: object, client_address: object) -> None:
        """Prints nothing: a browser may go away at any time."""


def address_of(port: int) -> str:
    """Returns the address of the page at a port."""
    return f"http://{HOST}:{port}/"


def is_served(port: int) -> bool:
    """Returns whether an inspector serves the page at a port already."""
    connection = http.client.HTTPConnection(HOST, port, timeout=PATIENCE)
    try:
        connection.request("GET", "/choices")
        return connection.getresponse().getheader("Server", "").startswith(Handler.server_version)
    except (OSError, http.client.HTTPException):
        return False
    finally:
        connection.close()


def _server_at(port: int, inspector: Inspector) -> Server:
    """Returns a server at a port. Raises `OSError` with a remedy if the port cannot be used."""
    try:
        return Server(port, inspector)
    except OSError as error:
        raise OSError(f"port {port} cannot be used ({error.strerror}): name another by --port") from error


def serve(
    port: int, *, tables: Optional[str] = None, prefixes: Optional[str] = None, program: Optional[str] = None, is_opened: bool = False
) -> None:
    """Serves the page until it is interrupted, and prints its address. Port 0 is any that is free. Opens a browser if `is_opened`."""
    inspector = Inspector(tables=tables, prefixes=prefixes, program=program)
    try:
        with _server_at(port, inspector) as server:
            print(f"{server.address} shows what a code says; Ctrl-C ends it", flush=True)
            if is_opened:
                webbrowser.open(server.address)
            server.serve_forever()
    except KeyboardInterrupt:
        print()
    finally:
        inspector.close()
