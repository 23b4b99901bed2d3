"""A headless Chromium that is driven over its debugging port, by Python's standard library."""
import base64
import http.client
import json
import os
import shutil
import socket
import struct
import subprocess
import tempfile
from pathlib import Path
from typing import Any, Optional

from tools.common import QUIET, begun, end, until

SECONDS = 900
NAMES = ["chromium", "chromium-browser", "google-chrome"]
FLAGS = ["--headless=new", "--remote-debugging-port=0", "--no-first-run", "--disable-gpu", "--hide-scrollbars", "--disable-extensions"]
FLAGS += ["--disable-background-networking", "--disable-component-update", "--disable-sync", "--disable-default-apps", "--disable-dev-shm-usage"]
FLAGS += ["--host-resolver-rules=MAP * ~NOTFOUND, EXCLUDE 127.0.0.1"]
TEXT, CLOSE, PING, PONG = 1, 8, 9, 10


def browser_path() -> Optional[str]:
    """The path of a Chromium, or None where there is none."""
    return next(filter(None, map(shutil.which, NAMES)), None)


class WebSocket:
    """The client's side of a WebSocket (RFC 6455) that carries texts."""

    def __init__(self, port: int, path: str) -> None:
        self._socket = socket.create_connection(("127.0.0.1", port), SECONDS)
        key = base64.b64encode(os.urandom(16)).decode("ascii")
        head = f"GET {path} HTTP/1.1\r\nHost: 127.0.0.1:{port}\r\nUpgrade: websocket\r\nConnection: Upgrade\r\n"
        self._socket.sendall(f"{head}Sec-WebSocket-Key: {key}\r\nSec-WebSocket-Version: 13\r\n\r\n".encode("ascii"))
        self._stream = self._socket.makefile("rb")
        first = self._stream.readline()
        if b" 101 " not in first:
            raise ConnectionError(f"no WebSocket: {first!r}")
        while self._stream.readline() not in (b"\r\n", b""):
            pass

    def send(self, text: str, kind: int = TEXT) -> None:
        """Sends a text in one frame, masked as a client's frames are."""
        content, mask = text.encode("utf-8"), os.urandom(4)
        size = len(content)
        length = struct.pack("!B", 128 | size) if size < 126 else struct.pack("!BH", 254, size) if size < 65_536 else struct.pack("!BQ", 255, size)
        key = (mask * (size // 4 + 1))[:size]
        masked = (int.from_bytes(content, "big") ^ int.from_bytes(key, "big")).to_bytes(size, "big")
        self._socket.sendall(bytes([128 | kind]) + length + mask + masked)

    def receive(self) -> str:
        """The next text, of however many frames."""
        text = b""
        while True:
            first, second = self._stream.read(2)
            size = second & 127
            if size > 125:
                size = int.from_bytes(self._stream.read(2 if size == 126 else 8), "big")
            content, kind = self._stream.read(size), first & 15
            if kind == CLOSE:
                raise ConnectionError("the browser closed the connection")
            if kind == PING:
                self.send(content.decode("utf-8"), PONG)
            elif kind != PONG:
                text += content
                if first & 128:
                    return text.decode("utf-8")

    def close(self) -> None:
        """Ends the connection."""
        self._stream.close()
        self._socket.close()


class Browser:
    """One page of a Chromium of its own, which ends with it. `events` holds what the browser said of its own accord."""

    def __init__(self, path: str) -> None:
        self._folder = tempfile.mkdtemp()
        rights = ["--no-sandbox"] if os.geteuid() == 0 else []
        words = [path, *FLAGS, *rights, f"--user-data-dir={self._folder}", "about:blank"]
        self._process = begun(*words, stdin=subprocess.DEVNULL, **QUIET)
        self.events: list[Any] = []
        self._count = 0
        try:
            port = self._port()
            self._socket = WebSocket(port, self._page(port))
        except BaseException:
            self._end()
            raise

    def _port(self) -> int:
        """The port that the browser has chosen."""
        file = Path(self._folder, "DevToolsActivePort")
        until(lambda: self._process.poll() is not None or file.exists() and len(file.read_text("ascii").split()) > 1, SECONDS)
        if self._process.poll() is not None or not file.exists():
            raise ConnectionError("the browser does not start")
        return int(file.read_text("ascii").split()[0])

    def _page(self, port: int) -> str:
        """The path of the page's WebSocket."""
        def pages() -> list[str]:
            asked = http.client.HTTPConnection("127.0.0.1", port, timeout=SECONDS)
            asked.request("GET", "/json/list")
            with asked.getresponse() as told:
                return [it["webSocketDebuggerUrl"] for it in json.loads(told.read()) if it["type"] == "page"]

        return until(pages, SECONDS)[0].split(str(port), 1)[1]

    def call(self, method: str, **named: Any) -> Any:
        """What a method of the debugging protocol answers."""
        self._count += 1
        self._socket.send(json.dumps({"id": self._count, "method": method, "params": named}))
        while True:
            told = json.loads(self._socket.receive())
            if told.get("id") != self._count:
                self.events.append(told)
            elif "error" in told:
                raise RuntimeError(f"{method}: {told['error']['message']}")
            else:
                return told["result"]

    def value(self, expression: str) -> Any:
        """The value of a JavaScript expression, after it where it is a promise."""
        told = self.call("Runtime.evaluate", expression=expression, returnByValue=True, awaitPromise=True, userGesture=True)
        if "exceptionDetails" in told:
            raise RuntimeError(told["exceptionDetails"].get("exception", {}).get("description", str(told)))
        return told["result"].get("value")

    def wait(self, expression: str) -> None:
        """Waits until a JavaScript expression is true."""
        if not until(lambda: self._holds(expression), SECONDS, 0.01):
            raise TimeoutError(expression)

    def _holds(self, expression: str) -> bool:
        """Returns whether a JavaScript expression is true; it is not while a page goes and the next one comes."""
        try:
            return bool(self.value(expression))
        except RuntimeError:
            return False

    def press(self, key: str, code: int) -> None:
        """Presses a key and lets go of it."""
        text = {"text": "\r"} if key == "Enter" else {"text": " "} if key == " " else {}
        self.call("Input.dispatchKeyEvent", type="keyDown", key=key, code=key, windowsVirtualKeyCode=code, **text)
        self.call("Input.dispatchKeyEvent", type="keyUp", key=key, code=key, windowsVirtualKeyCode=code)

    def picture(self, width: int, height: int) -> bytes:
        """A picture of the page, as the bytes of a PNG."""
        return self.clip({"x": 0, "y": 0, "width": width, "height": height, "scale": 1})

    def clip(self, box: dict[str, float]) -> bytes:
        """A picture of a part of the page, as the bytes of a PNG."""
        return base64.b64decode(self.call("Page.captureScreenshot", format="png", clip=box, captureBeyondViewport=True)["data"])

    def _end(self) -> None:
        end(self._process)
        shutil.rmtree(self._folder, ignore_errors=True)

    def __enter__(self) -> "Browser":
        return self

    def __exit__(self, *_: object) -> None:
        self._socket.close()
        self._end()
