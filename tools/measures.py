"""What bench/ measures with: the program, lines of trade items in all forms, links of them, and what a run costs."""
import argparse
import random
import subprocess
import sys
import time
from dataclasses import dataclass
from pathlib import Path
from typing import Any, Optional, Sequence

from tools import library, repository
from tools.common import Word, parser, spent, told
from tools.repository import PROGRAM

TDL = str(PROGRAM)
FORMS = ("hex", "tag", "pure", "raw", "bracketed", "link")
PREFIX_BITS = {12: 40, 11: 37, 10: 34, 9: 30, 8: 27, 7: 24, 6: 20}


def arguments(described: Optional[str], **numbers: tuple[str, int]) -> argparse.Namespace:
    """Returns the arguments of a measurement: PROGRAM, with its whole path, and numbers, each with its option and default. Ends if there is
    no such program."""
    asked = parser(described)
    asked.add_argument("program", nargs="?", type=Path, default=PROGRAM, metavar="PROGRAM")
    for name, (option, default) in numbers.items():
        asked.add_argument(option, dest=name, type=int, default=default, metavar="N")
    given = asked.parse_args()
    given.program = given.program.resolve()
    if not repository.is_program(given.program):
        asked.exit(2, f"{Path(sys.argv[0]).name}: there is no program {given.program}\n")
    return given


def libtdl() -> Path:
    """Returns the folder of libtdl. Ends if there is none."""
    try:
        return library.named_or_current()
    except library.Unbuilt as why:
        sys.exit(f"there is no libtdl: {why}")


def check_digit(digits: str) -> int:
    """The check digit of digits (GS1 General Specifications, section 7.9)."""
    return -sum(int(digit) * (3, 1)[i % 2] for i, digit in enumerate(reversed(digits))) % 10


def digits(count: int) -> str:
    """So many digits by chance."""
    return "".join(random.choice("0123456789") for _ in range(count))


def company_prefixes() -> list[str]:
    """Company prefixes of all seven lengths, of which none begins another."""
    return [f"{i:03}" + digits(n - 3) for i, n in enumerate(list(PREFIX_BITS) * 100)]


def lines_of(prefixes: list[str], count: int) -> dict[str, bytes]:
    """So many lines of the same trade items in each form."""
    forms: dict[str, list[str]] = {form: [] for form in FORMS}
    for k in range(count):
        prefix = random.choice(prefixes)
        n = len(prefix)
        rest = digits(13 - n)
        bits = (0x30 << 3 | 3) << 3 | 12 - n
        bits = (bits << PREFIX_BITS[n] | int(prefix)) << 44 - PREFIX_BITS[n] | int(rest)
        gtin = rest[0] + prefix + rest[1:]
        gtin += str(check_digit(gtin))
        forms["hex"].append(f"{bits << 38 | k:024X}")
        forms["tag"].append(f"urn:epc:tag:sgtin-96:3.{prefix}.{rest}.{k}")
        forms["pure"].append(f"urn:epc:id:sgtin:{prefix}.{rest}.{k}")
        forms["raw"].append(f"01{gtin}1726123110L{k % 1000}\x1d21{k}")
        forms["bracketed"].append(f"(01){gtin}(17)261231(10)L{k % 1000}(21){k}")
        forms["link"].append(f"https://shop.example/a/01/{gtin}/10/L{k % 1000}/21/{k}?17=261231")
    return {form: "\n".join(lines).encode() + b"\n" for form, lines in forms.items()}


def path_of(i: int) -> str:
    """The path of a trade item of a number."""
    item = f"09506{i:08}"
    return f"/01/{item}{check_digit(item)}"


@dataclass
class Costs:
    """The wall time and the processor time of a run in seconds, its peak memory in MiB, its status, and what it wrote."""

    wall: float
    processor: float
    memory: float
    status: int
    output: str
    errors: list[str]


def costs(words: Sequence[Word], given: bytes = b"", **how: Any) -> Costs:
    """Runs a command, and returns what it costs."""
    began, before = time.perf_counter(), spent()
    done = subprocess.run(["/usr/bin/time", "-f", "%M", *told(words)], input=given, capture_output=True, check=False, **how)
    *errors, memory = done.stderr.decode().splitlines()
    return Costs(time.perf_counter() - began, spent() - before, int(memory) / 1024, done.returncode, done.stdout.decode(), errors)
