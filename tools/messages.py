"""The messages of the program as docs/MESSAGES.md explains them, and the manual page that is made of it."""
import re
import textwrap
from typing import Iterator, Optional

from tools.repository import TOP

DOCUMENT = TOP / "docs" / "MESSAGES.md"
TEXT = re.compile(r"(?:([0-9,]+) times )?`([^`]*)`")
# where the packages have the documents
SITE = "/usr/share/doc/tdl/html"
HEAD = """.Dd $Mdocdate: November 29 2026 $
.Dt TDL-MESSAGES 7
.Os
.Sh NAME
.Nm tdl-messages
.Nd what each message of tdl means, and what to do
.Sh DESCRIPTION
"""


def cells_of(line: str) -> list[str]:
    """The cells of a row of a table."""
    return [cell.strip() for cell in re.split(r"(?<!\\)\|", line)[1:-1]]


def is_row(cells: list[str]) -> bool:
    """Whether these are the cells of a message: its text, an example, its meaning, and what to do."""
    return len(cells) == 4 and bool(re.match(r"`(?:no|refused|row|warning:) ", cells[0]))


def rows() -> Iterator[tuple[str, Optional[tuple[list[str], str]]]]:
    """The messages of the document, each with its example: the arguments and the text, or nothing. Those of tables show a cell instead."""
    for line in DOCUMENT.read_text("utf-8").splitlines():
        cells = cells_of(line)
        if is_row(cells):
            texts = [] if cells[0].startswith(("`row ", "`warning: ")) else TEXT.findall(cells[1])
            content = "".join(text * int(times.replace(",", "") or 1) for times, text in texts[1:])
            yield cells[0].strip("`"), (texts[0][1].split(" "), content) if texts else None


def plain(text: str) -> str:
    """A text of the document as lines of a manual page, each sentence on lines of its own."""
    text = re.sub(r"\[([^]]*)\]\([^)]*\)", r"\1", text).replace("`", "").replace("\\", "\\e")
    text = re.sub(r"(?:docs/)?\b([A-Z]+)\.md", rf"{SITE}/docs/\1.html", text)
    lines = [line for sentence in re.split(r"(?<=[.;:]) (?=[A-Z])", text) for line in textwrap.wrap(sentence, 76, break_on_hyphens=False)]
    return "\n".join(f"\\&{line}" if line.startswith((".", "'")) else line for line in lines)


def page() -> str:
    """The manual page tdl-messages(7)."""
    lines: list[str] = []
    paragraph: list[str] = []
    is_list = False

    def end() -> None:
        nonlocal is_list
        if paragraph:
            lines.extend([".Pp", plain(" ".join(paragraph))] if lines and not lines[-1].startswith(".S") else [plain(" ".join(paragraph))])
            paragraph.clear()
        if is_list:
            lines.append(".El")
            is_list = False

    for line in DOCUMENT.read_text("utf-8").splitlines()[2:]:
        cells = cells_of(line) if line.startswith("|") else []
        if is_row(cells):
            if not is_list:
                end()
                lines.append(".Bl -tag -width Ds")
                is_list = True
            lines += [f".It Li {plain(cells[0])}", plain(cells[2]), plain(cells[3])]
        elif line.startswith("## "):
            end()
            lines.append(f".Sh {plain(line[3:]).upper()}")
        elif line.strip() and not cells:
            if is_list:
                end()
            paragraph.append(line.strip())
        elif not line.strip() and paragraph:
            end()
    end()
    return HEAD + "\n".join(lines) + "\n.Sh SEE ALSO\n.Xr tdl 1\n"
