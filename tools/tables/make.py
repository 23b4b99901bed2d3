"""Makes the documents of tables/ (docs/TABLES.md, 'The table document') and the titles that the inspector shows.

The kinds and the options come from kinds.txt, the application identifiers of the built-in tables from builtin.txt, and those of the sets from
gs1.txt, which says which set has which. epcis.json has the built-in rows, and the kinds that only EPCIS events name. With --check nothing is
written; each file that differs from what is made is named, and the status is 1 if there is one. With --out one document is written: the
identifiers of a set, and those of --with, but those of --without.
"""
import argparse
import json
import sys
from pathlib import Path
from typing import Any, Iterator, Optional

from tools.repository import MODULE, TOP


Row = dict[str, Any]
Rows = dict[str, Row]
Item = list[Any]
Kind = tuple[str, int, str, str, str, tuple[int, ...]]

HERE = TOP / "tables"
SETS = {"gs1": "g", "measures": "m", "food": "f", "healthcare": "h", "logistics": "l"}
# the first words of the lines of kinds that a document has
OF_TAGS, OF_EVENTS = ("kind",), ("kind", "event")

MOST_ROWS, MOST_BYTES = 256, 2_097_152


def columns(name: str) -> Iterator[tuple[list[str], str]]:
    """Yields the columns of each line of a source that has any, and its remark, which begins with #."""
    for line in (HERE / f"{name}.txt").read_text("utf-8").splitlines():
        before, _, remark = line.partition(" # ")
        words = before.split()
        if words and words[0] != "#":
            yield words, remark


def rows_of(codes: str, parts: str, role: str, *more: str) -> Rows:
    """Returns the rows of application identifiers of a line, by their codes."""
    first, _, last = codes.partition("-")
    row: Row = {"parts": parts.split(","), "role": role}
    qualifiers = [word for word in more if word.isdigit()]
    if qualifiers:
        row["qualifiers"] = qualifiers
    if "short" in more:
        row["short"] = True
    nones = [word.removeprefix("none=") for word in more if word.startswith("none=")]
    if nones:
        row["none"] = nones[0]
    every = (f"{code:0{len(first)}}" for code in range(int(first), int(last or first) + 1))
    return {code: {"code": code} | row for code in every}


def listed() -> tuple[Rows, dict[str, str], dict[str, str], dict[str, str]]:
    """Returns the list of gs1.txt: the rows by their codes, the letters of their sets, their titles, and why a code is in no set."""
    rows: Rows = {}
    letters: dict[str, str] = {}
    titles: dict[str, str] = {}
    unset: dict[str, str] = {}
    for (codes, sets, _, _, parts, *how), remark in columns("gs1"):
        if parts == "-":
            unset[codes] = remark
            continue
        found = rows_of(codes, parts, *how)
        rows |= found
        letters |= dict.fromkeys(found, sets)
        titles |= dict.fromkeys(found, remark) if remark != "-" else {}
    return rows, letters, titles, unset


def identifiers(name: str) -> Rows:
    """Returns the rows of the built-in tables, or of a set, by their codes."""
    if name in SETS:
        rows, letters, _, _ = listed()
        return {code: row for code, row in rows.items() if SETS[name] in letters[code]}
    return {code: row for words, _ in columns(name) for code, row in rows_of(*words).items()}


def named(text: str) -> Rows:
    """Returns the rows that a choice names: a code, the first digits of some, or a range A-B, separated by commas."""
    rows, _, _, unset = listed()
    chosen: Rows = {}
    for word in filter(None, text.split(",")):
        first, _, last = word.partition("-")
        found = {code: row for code, row in rows.items() if (first <= code <= last and len(code) == len(first) if last else code.startswith(word))}
        if not found:
            sys.exit(f"make: {word}: {unset.get(word, 'not in tables/gs1.txt')}")
        chosen |= found
    return chosen


def composed(name: str, added: str, removed: str) -> Rows:
    """Returns the rows of a set with those that are added, in the order of the list, and without those that are removed."""
    chosen, less = identifiers(name) | named(added), named(removed)
    kept = [code for code, row in less.items() if row["role"] != "attribute"]
    if kept:
        sys.exit(f"make: {kept[0]} is a {less[kept[0]]['role']}: each set has the keys and their qualifiers")
    return {code: row for code, row in listed()[0].items() if code in chosen and code not in less}


def sources(sorts: tuple[str, ...] = OF_TAGS) -> tuple[dict[str, Kind], list[tuple[int, ...]], list[list[str]]]:
    """The kinds of these sorts by their names, the partitions, and the encodings."""
    kinds: dict[str, Kind] = {}
    partitions: list[tuple[int, ...]] = []
    encodings: list[list[str]] = []
    for (sort, *row), _ in columns("kinds"):
        if sort in sorts:
            name, key, lead, serial, size, characters, further = row
            lengths = () if further == "-" else tuple(map(int, further.split(",")))
            kinds[name] = (key, int(lead), "" if serial == "-" else serial, size, characters, lengths)
        elif sort == "partition":
            partitions.append(tuple(map(int, row)))
        elif sort == "encoding":
            encodings.append(row)
    return kinds, partitions, encodings


def rest_bits(name: str, left: int, room: int) -> Item:
    """The item of a rest of so many digits or characters, in the bits that the prefix leaves."""
    if name == "numpad":
        return [name, "rest", room, left] if left else ["lit", "0" * room]
    return [name, "rest", room, 2**room - 1] if name == "num" else [name, "rest", 1, left, room]


def serial_bits(text: str) -> list[Item]:
    """The items of a serial."""
    if text == "-":
        return []
    name, *words = text.split(",")
    numbers = list(map(int, words))
    return [["num", "serial", *numbers, 2 ** numbers[0] - 1] if name == "num" else [name, "serial", *numbers]]


def pieces(lengths: tuple[int, ...]) -> list[Item]:
    """The items of the piece and of the total, in bits."""
    if not lengths:
        return []
    digits, bits = lengths
    return [["numpad", "piece", bits, digits], ["numpad", "total", bits, digits]]


def end_bits(text: str) -> list[Item]:
    """The items at the end."""
    if text == "-":
        return []
    name, *numbers = text.split(",")
    return [["lit", "0" * int(numbers[0])]] if name == "zeros" else [[name, *map(int, numbers)]]


def as_text(item: Item) -> Item:
    """The item of a text level that has the values of an item of bits."""
    name, field, *numbers = item
    if name == "numpad":
        return ["pad", field, numbers[1]]
    if name == "numstr":
        return ["digits", field, 1, numbers[1]]
    return ["int", field, numbers[1]] if name == "num" else ["esc", field, *numbers[:2]]


def text_items(front: list[Item], digits: int, rest: Optional[Item], further: list[Item], serial: Optional[Item]) -> list[Item]:
    """The items of a URI: what stands in front of the prefix, the prefix, and what follows it behind dots."""
    behind: list[Item] = [["lit", "."], rest] if rest else []
    for item in further + ([serial] if serial else []):
        behind += [["lit", "."] if behind else ["lit", ".."], item]
    return front + [["pad", "gcp", digits]] + (behind or [["lit", "."]])


def tag_options() -> tuple[list[Row], list[Row]]:
    """The options of tag bits and those of tag URIs."""
    kinds, partitions, encodings = sources()
    binary: list[Row] = []
    tag: list[Row] = []
    for name, kind, header, width, how, serial, end in encodings:
        for value, digits, bits in partitions:
            row: Row = {"kind": kind, "encoding": name, "gcp": digits}
            rest = rest_bits(how, int(kinds[kind][3].lstrip("x")) - digits, int(width) - bits)
            further = pieces(kinds[kind][5])
            front: list[Item] = [["lit", f"{int(header, 16):08b}"], ["num", "filter", 3, 7], ["lit", f"{value:03b}"], ["numpad", "gcp", bits, digits]]
            binary.append(row | {"items": front + [rest] + further + serial_bits(serial) + end_bits(end)})
            front = [["lit", f"urn:epc:tag:{name}:"], ["int", "filter", 7], ["lit", "."]]
            text = next(map(as_text, serial_bits(serial)), None)
            behind = [as_text(item) for item in further]
            tag.append(row | {"items": text_items(front, digits, as_text(rest) if rest[0] != "lit" else None, behind, text)})
    return binary, tag


def pure_options(sorts: tuple[str, ...]) -> list[Row]:
    """The options of pure identity URIs of the kinds of these sorts."""
    kinds, partitions, _ = sources(sorts)
    pure: list[Row] = []
    for name, (_, _, _, size, characters, lengths) in kinds.items():
        for _, digits, _ in partitions:
            rest: Optional[Item] = ["pad", "rest", int(size) - digits] if size.isdigit() and int(size) > digits else None
            if size.startswith("x"):
                rest = ["esc", "rest", 1, int(size[1:]) - digits]
            serial: Optional[Item] = ["digits" if characters[0] == "d" else "esc", "serial", 1, int(characters.lstrip("d"))] if characters != "-" else None
            further = [as_text(item) for item in pieces(lengths)]
            items = text_items([["lit", f"urn:epc:id:{name}:"]], digits, rest, further, serial)
            pure.append({"kind": name, "encoding": "", "gcp": digits, "items": items})
    return pure


def document(rows: Rows, sorts: tuple[str, ...] = OF_TAGS) -> str:
    """Returns the text of a document with these application identifiers and the kinds of these sorts, a row to a line."""
    kinds = []
    for k, (key, lead, serial, _, _, lengths) in sources(sorts)[0].items():
        kinds.append({"name": k, "key": key, "lead": lead, "serial": serial, "fields": ["piece", "total"] if lengths else []})
    binary, tag = tag_options()
    arrays = {"ais": list(rows.values()), "kinds": kinds, "binary": binary, "tag": tag, "pure": pure_options(sorts)}
    members = ['"version": 2']
    for member, of_member in arrays.items():
        members.append(f'"{member}": [\n' + ",\n".join(map(json.dumps, of_member)) + "\n]")
    return "{\n" + ",\n".join(members) + "\n}\n"


def made() -> dict[Path, str]:
    """Returns the text of each file that is made, by its path."""
    files = {HERE / f"{name}.json": document(identifiers(name)) for name in ["builtin", *SETS]}
    files[HERE / "epcis.json"] = document(identifiers("builtin"), OF_EVENTS)
    files[MODULE / "tdl" / "inspector" / "titles.json"] = json.dumps(listed()[2], indent=1, ensure_ascii=False) + "\n"
    return files


def compose(path: str, rows: Rows) -> int:
    """Writes a document of one's own, and returns the status: 1 if it would be above a limit."""
    text = document(rows)
    for size, most, what in (len(rows), MOST_ROWS, "application identifiers"), (len(text), MOST_BYTES, "bytes"):
        print(f"{path}: {size:,} of at most {most:,} {what}" + (f", {size - most:,} too many: nothing is written" if size > most else ""))
        if size > most:
            return 1
    Path(path).write_text(text, "ascii")
    return 0


def count() -> None:
    """Prints the number of identifiers of the list and of each set, and why others are in none."""
    rows, letters, _, unset = listed()
    print(f"list {len(rows)}")
    for name in SETS:
        print(f"{name} {len(identifiers(name))}")
    unset |= {code: "no set names it" for code in rows if not set(letters[code]) & set(SETS.values())}
    print(f"none {len(unset)}")
    for code, reason in unset.items():
        print(f"  {code} {reason}")


def main() -> int:
    """Makes the files, compares or counts them, or composes one; returns the status."""
    parser = argparse.ArgumentParser("tables/make", description="make the table documents of tables/, or compose one of your own")
    what = parser.add_mutually_exclusive_group()
    what.add_argument("--check", action="store_true", help="compare the files with what is made, and write nothing")
    what.add_argument("--count", action="store_true", help="count the identifiers of the list and of each set")
    what.add_argument("--out", metavar="FILE", help="write a document of your own")
    parser.add_argument("--set", choices=SETS, default="gs1", help="the set that it begins with (gs1)")
    parser.add_argument("--with", metavar="CODES", default="", dest="added", help="add identifiers of gs1.txt, such as 3200-3295,7240")
    parser.add_argument("--without", metavar="CODES", default="", help="leave identifiers out, such as 43,8200: 43 is each that begins so")
    given = parser.parse_args()
    if given.out:
        return compose(given.out, composed(given.set, given.added, given.without))
    if given.count:
        count()
        return 0
    differ = 0
    for path, text in made().items():
        if not given.check:
            path.write_text(text, "utf-8")
        elif not path.exists() or path.read_text("utf-8") != text:
            differ = 1
            print(f"tables/make: {path.relative_to(HERE.parent)} is not what is made now")
    return differ
