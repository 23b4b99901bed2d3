"""What the tests of `python3 -m tdl links` have in common: runs of it, and items."""
import json
import subprocess
from pathlib import Path
from typing import Any, NamedTuple, Union

PYTHON = "/usr/bin/python3"
ITEM, PAGE = "/01/09506000134352", "https://shop.example/p"


class Run(NamedTuple):
    """How a run ended: its status, its output, and its lines of errors."""

    status: int
    output: str
    told: list[str]


class Links:
    """The command in a folder of its own."""

    def __init__(self, program: Path, module: dict[str, str], folder: Path) -> None:
        self.program, self.module, self.folder = program, module, folder

    def put(self, name: str, content: Union[str, bytes, dict[str, Any]]) -> str:
        """Writes a file of the folder, and returns its name."""
        text = json.dumps(content) if isinstance(content, dict) else content
        (self.folder / name).write_bytes(text.encode("utf-8") if isinstance(text, str) else text)
        return name

    def run(self, *words: str) -> Run:
        """Runs the command in the folder."""
        done = subprocess.run([PYTHON, "-m", "tdl", "links", *words], cwd=self.folder, env=self.module, capture_output=True)
        return Run(done.returncode, done.stdout.decode("utf-8"), done.stderr.decode("utf-8").splitlines())

    def linkset(self, content: Union[str, bytes], *words: str, name: str = "table.csv") -> Any:
        """Returns the relations of each anchor of the linkset that a table becomes, or what is told of a table that becomes none."""
        ran = self.run(self.put(name, content), *words)
        return {context.pop("anchor"): context for context in json.loads(ran.output)["linkset"]} if ran.output else ran.told


def linkset_of(anchors: dict[str, dict[str, list[dict[str, Any]]]]) -> dict[str, Any]:
    """Returns a linkset of anchors with their relations."""
    return {"linkset": [{"anchor": anchor, **relations} for anchor, relations in anchors.items()]}
