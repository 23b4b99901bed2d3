"""page: the inspector's page in a headless Chromium, for tests and for the pictures of docs/."""
import json
import subprocess
import sys
from contextlib import contextmanager
from pathlib import Path
from typing import Any, Iterator

from tools.browser import SECONDS, Browser
from tools.common import begun, ending, there, until

Options = dict[str, Any]
HEIGHT = 800
SET = """(asked) => {
  for (const name of ["tables", "gcp", "filter", "encoding", "stem", "target"]) {
    document.getElementById(name).value = asked[name] ?? document.getElementById(name).dataset.usual ?? "";
  }
  document.getElementById("keys_only").checked = asked.keys_only ?? false;
  const field = document.getElementById("text");
  field.value = asked.text;
  field.dispatchEvent(new Event("input", {bubbles: true}));
}"""
SETTLED = "document.getElementById('result')?.getAttribute('aria-busy') === 'false'"


class Page:
    """The page, and how a user drives it."""

    def __init__(self, browser: Browser, address: str) -> None:
        self.browser, self.address, self.width = browser, address, 0
        self.value, self.wait = browser.value, browser.wait

    def enter(self, text: str, options: Options) -> None:
        """Types a text, sets the controls, and waits for the answer."""
        # (the page offers the encodings of a text that it has read)
        for _ in range(2 if "encoding" in options else 1):
            self.value(f"({SET})({json.dumps({'text': text, **options})})")
            self.wait(SETTLED)

    def texts(self, selector: str) -> Any:
        """Returns the texts of the elements that a selector finds."""
        return self.value(f"[...document.querySelectorAll({json.dumps(selector)})].map((it) => it.textContent)")

    def click(self, selector: str) -> None:
        """Clicks an element as a user does."""
        self.value(f"document.querySelector({json.dumps(selector)}).click()")

    def open(self, fragment: str = "") -> None:
        """Opens the page anew."""
        self.browser.call("Page.navigate", url="about:blank")
        self.wait("location.href === 'about:blank'")
        self.browser.call("Page.navigate", url=self.address + fragment)
        self.wait(f"document.readyState === 'complete' && {SETTLED}")

    def size(self, width: int, height: int = HEIGHT) -> None:
        """Gives the page another size."""
        self.browser.call("Emulation.setDeviceMetricsOverride", width=width, height=height, deviceScaleFactor=1, mobile=False)

    def set(self, width: int, mode: str) -> None:
        """Gives the page a width, and the light or the dark mode."""
        self.width = width
        self.size(width)
        self.browser.call("Emulation.setEmulatedMedia", features=[{"name": "prefers-color-scheme", "value": mode}])

    def picture_of(self, selector: str) -> bytes:
        """Returns a picture of an element, as the bytes of a PNG."""
        box = self.value(f"""(() => {{
          const it = document.querySelector({json.dumps(selector)});
          it.scrollIntoView();
          const {{x, y, width, height}} = it.getBoundingClientRect();
          return {{x: x + scrollX, y: y + scrollY, width, height, scale: 3}};
        }})()""")
        return self.browser.clip(box)

    def downloaded(self, folder: Path, selector: str, file: str) -> bytes:
        """Returns the bytes that a link downloads."""
        self.browser.call("Browser.setDownloadBehavior", behavior="allow", downloadPath=str(folder))
        self.click(selector)
        # (the browser reserves the name by an empty file, and renames the whole one to it)
        path = folder / file
        until(lambda: path.exists() and path.stat().st_size, SECONDS)
        return path.read_bytes()


@contextmanager
def inspector(module: dict[str, str], path: str) -> Iterator[Page]:
    """Starts the inspector and a browser of its own for a block."""
    words = [sys.executable, "-m", "tdl", "inspect", "--port", "0", "--no-open"]
    with ending(begun(*words, env=module, stdout=subprocess.PIPE, text=True)) as server:
        address = there(server.stdout).readline().split(" ")[0]
        with Browser(path) as browser:
            yield Page(browser, address)
