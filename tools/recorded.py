"""recorded: the first commands of the documents, with the answers that stand there; tests/test_documents.py holds both against the program."""
import re
from itertools import islice, takewhile
from typing import Iterator

from tools.repository import TOP

DOCUMENTS = {"README.md": 1, "docs/TUTORIAL.md": 4}
COMMAND = re.compile(r" *\$ (printf '[^']*' \| )?(?:bin/)?(tdl [^|<>]*(?: < examples/\S+)?)")


def commands() -> list[tuple[str, list[str]]]:
    """Returns commands that anyone can type, each with its recorded answers, and the documents that record them."""
    return [pair for document, most in DOCUMENTS.items() for pair in islice(commands_of(document), most)]


def commands_of(document: str) -> Iterator[tuple[str, list[str]]]:
    """Yields the commands of a document that give `tdl` lines, each with its answers."""
    lines = [line.strip() for line in (TOP / document).read_text("utf-8").splitlines()]
    for place, line in enumerate(lines):
        found = COMMAND.fullmatch(line)
        if found and (found[1] or "<" in line):
            yield f"{found[1] or ''}bin/{found[2]}", list(takewhile(lambda text: text and text[0] not in "$`", lines[place + 1 :]))
