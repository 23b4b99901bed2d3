"""texts: the texts of the program that bin/tdl prints itself, as its sources have them: the help with its parts, the version, and the usage line."""
import re
from functools import cache

from tools.common import there
from tools.repository import CRATES

# a constant whose value is one literal; the escapes in it are those of `ESCAPES`
CONSTANT = re.compile(r'^(?:pub(?:\([a-z]+\))? )?const (\w+): &(?:str|\[u8\]) =\s+b?"((?:[^"\\]|\\.)*)";$', re.MULTILINE)
ESCAPES = {"\\n": "\n", '\\"': '"', "\\\\": "\\"}
HELP, USAGE = CRATES / "tdl" / "src" / "text.rt", CRATES / "tdl_run" / "src" / "runner.rt"


def constants(source: str) -> dict[str, str]:
    """Returns the text of each constant of a source whose value is one literal."""
    return {name: re.sub(r"\\.", lambda escape: ESCAPES[str(escape[0])], text) for name, text in CONSTANT.findall(source)}


@cache
def usage_line() -> str:
    """Returns the usage line of the program."""
    return constants(USAGE.read_text("utf-8"))["USAGE"].removesuffix("\n")


@cache
def commands() -> set[str]:
    """Returns the first words of the commands."""
    return {row.split()[0] for row in there(re.fullmatch("usage: tdl (.*), then .*", usage_line()))[1].split(" | ")}


def asked_text(arguments: list[str]) -> str:
    """Returns the text that --help, --version, or a command and --help ask for, or nothing if there are other arguments."""
    pieces = constants(HELP.read_text("utf-8"))
    version = pieces.pop("VERSION")
    if arguments == ["--version"]:
        return version
    if arguments == ["--help"]:
        return "".join(pieces.values())
    if len(arguments) == 2 and arguments[1] == "--help" and arguments[0] in commands():
        return pieces[arguments[0].upper()] + (pieces["FORMS"] if arguments[0] in ("canon", "translate") else "")
    return ""
