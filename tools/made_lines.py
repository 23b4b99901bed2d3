"""made_lines: lines of each form, made from the rows of a table document by the numbers of `random`: about half of them have a meaning, the
others have a place changed."""
import random
from typing import Any, Callable

from tools.measures import check_digit

Row = dict[str, Any]
Tables = dict[str, Any]

LINES = 2_000
DIGITS = "0123456789"
UPPER = "ABCDEFGHIJKLMNOPQRSTUVWXYZ"
CHARACTERS = "!\"%&'()*+,-./" + DIGITS + ":;<=>?" + UPPER + "_" + UPPER.lower()
PLAIN = set(DIGITS + UPPER + UPPER.lower() + "-._")
ESCAPED = "\"%&/<>?"
PREDEFINED = {"00", "01", "02", "03", "04", "20", "41", *map(str, range(11, 20)), *map(str, range(31, 37))}


def drawn(alphabet: str, count: int) -> str:
    """So many characters of an alphabet."""
    return "".join(random.choice(alphabet) for _ in range(count))


def between(least: int, most: int) -> int:
    """A number in these bounds, which it often is."""
    return random.choice([least, most, random.randint(least, most), random.randint(least, most)])


def number(most: int) -> int:
    """A number from 0 to the greatest, of any size."""
    return random.choice([0, most, random.randint(0, most), random.randint(0, most >> random.randint(0, most.bit_length()))])


def bits_of(item: list[Any]) -> str:
    """A word of an item of tag bits."""
    name, *rest = item
    if name == "lit":
        return str(rest[0])
    if name == "fill":
        return "0" * int(random.choice(rest))
    if name == "numpad":
        return f"{number(min(10 ** rest[2], 2 ** rest[1]) - 1):0{rest[1]}b}"
    if name == "num":
        return f"{number(rest[2]):0{rest[1]}b}"
    if name == "numstr":
        return f"{int('1' + drawn(DIGITS, between(1, rest[2]))):0{rest[1]}b}"
    text = drawn(CHARACTERS, between(rest[1], rest[2]))
    return "".join(f"{ord(c):07b}" for c in text).ljust(rest[3], "0")


def text_of(item: list[Any]) -> str:
    """A word of an item of a text level."""
    name, *rest = item
    if name == "lit":
        return str(rest[0])
    if name == "pad":
        return drawn(DIGITS, rest[1])
    if name == "int":
        return str(number(rest[1]))
    if name == "digits":
        return drawn(DIGITS, between(rest[1], rest[2]))
    text = drawn(CHARACTERS, between(rest[1], rest[2]))
    return "".join(f"%{ord(c):02X}" if c in ESCAPED else c for c in text)


def part_of(part: str) -> str:
    """A text of a part of a value."""
    if part == "zero":
        return "0"
    if part == "date":
        return f"{drawn(DIGITS, 2)}{random.randint(1, 12):02}{random.randint(0, 31):02}"
    size = part.strip("nxc?.")
    alphabet = DIGITS if part[0] == "n" else CHARACTERS
    if ".." in part:
        return drawn(alphabet, between(0 if part[-1] == "?" else 1, int(size)))
    if part[-1] != "c":
        return drawn(DIGITS, int(size))
    digits = drawn(DIGITS, int(size) - 1)
    return f"{digits}{check_digit(digits)}"


def value_of(row: Row) -> str:
    """A value of a row, or its text that stands for none."""
    return str(row["none"]) if "none" in row and random.random() < 0.5 else "".join(map(part_of, row["parts"]))


def elements(rows: list[Row]) -> list[list[tuple[str, str]]]:
    """A key with some of its qualifiers, and some attributes, as pairs of a code and a value."""
    key = random.choice([row for row in rows if row["role"] == "key"])
    qualifiers: list[str] = key.get("qualifiers", [])
    listed = [row for row in rows if row["code"] in qualifiers and random.random() < 0.5]
    listed.sort(key=lambda row: qualifiers.index(row["code"]))
    others = random.sample([row for row in rows if row["role"] == "attribute"], random.randint(0, 3))
    return [[(row["code"], value_of(row)) for row in chosen] for chosen in ([key] + listed, others)]


def hex_line(tables: Tables) -> str:
    bits = "".join(map(bits_of, random.choice(tables["binary"])["items"]))
    digits = "".join(f"{int(bits[i:i + 4].ljust(4, '0'), 2):X}" for i in range(0, len(bits), 4))
    return random.choice([digits, digits, digits.lower()])


def uri_line(level: str) -> Callable[[Tables], str]:
    return lambda tables: "".join(map(text_of, random.choice(tables[level])["items"]))


def raw_line(tables: Tables) -> str:
    pairs = [pair for some in elements(tables["ais"]) for pair in some]
    random.shuffle(pairs)
    ends = [end if code[:2] in PREDEFINED else "\x1d" for (code, _), end in zip(pairs, random.choices(["", "\x1d"], k=len(pairs)))]
    if random.random() < 0.7:
        ends[-1] = ""
    front = random.choice(["", "", "]C1", "]e0", "]d2", "]Q3", "\x1d"])
    return front + "".join(code + value + end for (code, value), end in zip(pairs, ends))


def bracketed_line(tables: Tables) -> str:
    pairs = [pair for some in elements(tables["ais"]) for pair in some]
    random.shuffle(pairs)
    return "".join(f"({code})" + value.replace("(", "\\(") for code, value in pairs)


def link_line(tables: Tables) -> str:
    path, query = elements(tables["ais"])
    front = random.choice(["http://a", "https://id.gs1.org", "HTTPS://shop.example:8080/x/01/y"])
    stem = front + "".join(f"/{code}/{escaped(value)}" for code, value in path)
    parts = [f"{code}={escaped(value)}" for code, value in query] + random.choice([[], [], ["linkType=all"], ["x"]])
    random.shuffle(parts)
    return stem + ("?" + random.choice("&;").join(parts) if parts else "") + random.choice(["", "", "#f"])


def escaped(value: str) -> str:
    """A value as a link has it; some characters that need no escape have one, too."""
    return "".join(c if c in PLAIN and random.random() < 0.95 else f"%{ord(c):02x}" for c in value)


FORMS = {
    "hex": hex_line,
    "tag": uri_line("tag"),
    "pure": uri_line("pure"),
    "raw": raw_line,
    "bracketed": bracketed_line,
    "link": link_line,
}


def changed(line: str) -> str:
    """A line with one place changed."""
    at = random.randrange(len(line))
    sort = random.randrange(6)
    if sort == 0:
        return line[:at]
    if sort == 1:
        return line[:at] + line[at + 1:]
    if sort == 2:
        return line[:at] + line[at:] + line[at:]
    sign = chr(random.choice([*range(32, 127), 29, 29, 0, 13, 200]))
    if sort == 3:
        return line[:at] + sign + line[at:]
    return line[:at] + (random.choice(DIGITS + "/.()") if sort == 4 else sign) + line[at + 1:]


def lines_of(form: str, tables: Tables) -> list[str]:
    """The lines of a form."""
    lines = [FORMS[form](tables) for _ in range(LINES - 2)]
    return [changed(line) if random.random() < 0.5 else line for line in lines] + ["", "1" * 2_049]
