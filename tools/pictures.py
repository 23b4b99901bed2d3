"""The pictures of docs/, which `bin/docs --pictures` writes: a PNG (ISO/IEC 15948) of true colours as one of a palette of 256."""
import json
import struct
import subprocess
import sys
import zlib
from collections import Counter
from itertools import chain
from typing import Callable, Iterator

from tools.browser import Browser, browser_path
from tools.common import begun, ending, there
from tools.repository import PROGRAM, TOP, of_module

# the fragment of each picture, and the parts of the page that it leaves out
PICTURES = {
    "label": ("#text=(01)80614141123458(21)6789&gcp=7&filter=1", "h1, #question, #status, details, .copy, .reading > .list ~ *"),
    "error": ("#text=https://shop.example/01/09506000134353/10/ABC", "details"),
}
WIDTH, HEIGHT = 940, 800
SETTLED = "document.getElementById('result')?.getAttribute('aria-busy') === 'false'"
SIGNATURE, SIZE, COLORS = b"\x89PNG\r\n\x1a\n", 3, 256


def chunks(png: bytes) -> Iterator[tuple[bytes, bytes]]:
    """The chunks of a PNG: name and content."""
    at = len(SIGNATURE)
    while at < len(png):
        (size,) = struct.unpack_from("!I", png, at)
        yield png[at + 4 : at + 8], png[at + 8 : at + 8 + size]
        at += size + 12


def paeth(left: int, above: int, corner: int) -> int:
    """The predictor of filter 4."""
    guess = left + above - corner
    return min((abs(guess - left), 0, left), (abs(guess - above), 1, above), (abs(guess - corner), 2, corner))[2]


PREDICTORS: dict[int, Callable[[int, int, int], int]] = {
    0: lambda left, above, corner: 0,
    1: lambda left, above, corner: left,
    2: lambda left, above, corner: above,
    3: lambda left, above, corner: (left + above) // 2,
    4: paeth,
}


def lines_of(png: bytes) -> Iterator[bytes]:
    """The lines of a PNG of 8 bits a channel, red, green and blue, without interlace: bytes each."""
    found = list(chunks(png))
    width, height, depth, kind, _, _, interlace = struct.unpack("!IIBBBBB", found[0][1])
    if (depth, kind, interlace) != (8, 2, 0):
        raise ValueError("a picture of another sort")
    raw = zlib.decompress(b"".join(content for name, content in found if name == b"IDAT"))
    step, above = width * SIZE, bytes(width * SIZE)
    for place in range(height):
        filtered = raw[place * (step + 1) : (place + 1) * (step + 1)]
        line, predictor = bytearray(filtered[1:]), PREDICTORS[filtered[0]]
        for at in range(step if filtered[0] else 0):
            left, corner = (line[at - SIZE], above[at - SIZE]) if at >= SIZE else (0, 0)
            line[at] = (line[at] + predictor(left, above[at], corner)) & 255
        above = bytes(line)
        yield above


def with_palette(png: bytes) -> bytes:
    """The same picture with its 256 most frequent colours, each other drawn in the nearest of them."""
    lines = [[line[at : at + SIZE] for at in range(0, len(line), SIZE)] for line in lines_of(png)]
    counted = Counter(chain.from_iterable(lines))
    palette = [color for color, _ in counted.most_common(COLORS)]
    nearest = {color: min(range(len(palette)), key=lambda it: sum((a - b) ** 2 for a, b in zip(color, palette[it]))) for color in counted}
    packed = zlib.compress(b"".join(b"\0" + bytes(nearest[color] for color in line) for line in lines), 9)
    head = struct.pack("!IIBBBBB", len(lines[0]), len(lines), 8, 3, 0, 0, 0)
    parts = ((b"IHDR", head), (b"PLTE", b"".join(palette)), (b"IDAT", packed), (b"IEND", b""))
    return SIGNATURE + b"".join(struct.pack("!I", len(content)) + name + content + struct.pack("!I", zlib.crc32(name + content)) for name, content in parts)


def pictures(browser: Browser, address: str) -> Iterator[tuple[str, bytes]]:
    """Yields the name of each picture of the page at an address, and the picture."""
    browser.call("Emulation.setEmulatedMedia", features=[{"name": "prefers-color-scheme", "value": "light"}])
    for name, (fragment, hidden) in PICTURES.items():
        browser.call("Emulation.setDeviceMetricsOverride", width=WIDTH, height=HEIGHT, deviceScaleFactor=1, mobile=False)
        browser.call("Page.navigate", url="about:blank")
        browser.wait("location.href === 'about:blank'")
        browser.call("Page.navigate", url=address + fragment)
        browser.wait(f"document.readyState === 'complete' && {SETTLED}")
        browser.value(f"document.querySelectorAll({json.dumps(hidden)}).forEach((it) => {{ it.hidden = true; }})")
        height = browser.value("document.querySelector('main').offsetHeight")
        browser.call("Emulation.setDeviceMetricsOverride", width=WIDTH, height=height, deviceScaleFactor=1, mobile=False)
        yield name, with_palette(browser.picture(WIDTH, height))


def main() -> int:
    """Writes the pictures, as the built program answers, and returns the status."""
    words = [sys.executable, "-m", "tdl", "inspect", "--port", "0", "--no-open"]
    with ending(begun(*words, env=of_module(PROGRAM), stdout=subprocess.PIPE, text=True)) as server:
        with Browser(there(browser_path())) as browser:
            for name, picture in pictures(browser, there(server.stdout).readline().split(" ")[0]):
                (TOP / "docs" / f"inspector-{name}.png").write_bytes(picture)
    return 0
