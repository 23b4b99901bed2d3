"""docs/THEOREM.md, 'One label traced', shows the values that its definitions give, written a second time here; vectors and the program give them too.

Each value is computed by the definition that its row names, from the label, the tag and tables/builtin.json.
"""
import json
import re
from pathlib import Path
from typing import Any, Iterator, Optional
from urllib.parse import quote

import pytest

from tools import vectors
from tools.common import run
from tools.repository import TOP

Pair = tuple[str, str]
Elements = tuple[list[Pair], list[Pair], list[Pair]]
Derived = tuple[list[str], list[str]]

LABEL, TAG = "(01)80614141123458(21)6789", "3074257BF7194E4000001A85"
TABLES = json.loads((TOP / "tables" / "builtin.json").read_text("ascii"))
# the fields that `epc_of` names otherwise than tables do
NAMES = {"gcp": "prefix"}
ROW = re.compile(r"^\| [^|]* \| \[`(\w+)`\]\([^)]*\) \| ([^|]*) \|$", re.MULTILINE)


def code(*texts: str) -> str:
    """Texts as the page shows them."""
    return ", ".join(f"`{text}`" for text in texts)


def told(elements: Elements) -> str:
    """Elements as the page shows them: the key, the qualifiers and the attributes."""
    parts = zip(("key", "qualifiers", "attributes"), elements)
    return "; ".join(f"{name} {code(*map(' '.join, pairs))}" if pairs else f"no {name}" for name, pairs in parts)


def pairs_of_bracketed(text: str) -> list[Pair]:
    """`IsBracketed`, of values without brackets."""
    return re.findall(r"\((\d+)\)([^(]*)", text)


def elements_of(pairs: list[Pair]) -> Elements:
    """`identity_of_pairs`, of pairs with one key and no code twice."""
    rows = {row["code"]: row for row in TABLES["ais"]}
    (key,) = (pair for pair in pairs if rows[pair[0]]["role"] == "key")
    listed = rows[key[0]].get("qualifiers", [])
    qualifiers = [pair for named in listed for pair in pairs if pair[0] == named]
    return [key], qualifiers, sorted(pair for pair in pairs if pair != key and pair[0] not in listed)


def canonical_link(elements: Elements) -> str:
    """`canonical_link`."""
    key, qualifiers, attributes = elements
    path = "".join(f"/{named}/{quote(value, safe='')}" for named, value in key + qualifiers)
    query = "&".join(f"{named}={quote(value, safe='')}" for named, value in attributes)
    return "https://id.gs1.org" + path + (f"?{query}" if query else "")


def value_of(item: list[Any], word: str) -> Optional[str]:
    """`Word`: the value of an item's word of bits, or nothing if it is not one. A literal has the empty value."""
    sort, *_, most = item
    if sort == "lit":
        return "" if word == most else None
    number = int(word, 2)
    if sort == "num":
        return str(number) if number <= most else None
    return f"{number:0{most}}" if number < 10**most else None


def derivation(items: list[list[Any]], bits: str) -> Optional[Derived]:
    """`Derives`: the words of an option and their values, or nothing. Of options whose literals stand in the bits only `num` and `numpad`
    are known here, whose words have one length."""
    words: list[str] = []
    values: list[str] = []
    at = 0
    for item in items:
        if item[0] not in ("lit", "num", "numpad"):
            raise ValueError(f"the item {item} of an option that may derive the tag")
        size = len(item[1]) if item[0] == "lit" else item[2]
        word = bits[at : at + size]
        value = value_of(item, word) if len(word) == size else None
        if value is None:
            return None
        words, values, at = [*words, word], [*values, value], at + size
    return (words, values) if at == len(bits) else None


def one_derivation(bits: str) -> tuple[int, list[str], list[str]]:
    """`OneDerivation`: the number of the only option that derives the bits, its words and their values."""
    found = ((number, derivation(option["items"], bits)) for number, option in enumerate(TABLES["binary"]))
    ((number, (words, values)),) = ((number, derived) for number, derived in found if derived)
    return number, words, values


def laid_out(kind: dict[str, Any], fields: dict[str, str]) -> tuple[tuple[str, ...], Elements]:
    """`key_digits` in its three parts, and `lay` of a kind with a check digit and its serial in a separate element."""
    lead, rest = kind["lead"], fields["rest"]
    parts = rest[:lead], fields["prefix"], rest[lead:]
    digits = "".join(parts)
    total = sum(int(digit) * (3, 1)[place % 2] for place, digit in enumerate(reversed(digits)))
    return parts, ([(kind["key"], f"{digits}{-total % 10}")], [(kind["serial"], fields["serial"])], [])


def item_text(item: list[Any]) -> str:
    """An item as the calls of vectors write it."""
    return f"bits:{item[1]}" if item[0] == "lit" else f"{item[0]}:{item[2]}:{item[3]}"


def label_rows() -> Iterator[tuple[str, str]]:
    """The rows of the label."""
    pairs = pairs_of_bracketed(LABEL)
    elements = elements_of(pairs)
    link = canonical_link(elements)
    yield "lines_of", code(LABEL)
    yield "IsBracketed", code(*map(" ".join, pairs))
    yield "identity_of_pairs", told(elements)
    yield "canonical_link", code(link)
    yield "printed", code(f"ok {link}")


def tag_rows(number: int, words: list[str], values: list[str], fields: dict[str, str]) -> Iterator[tuple[str, str]]:
    """The rows of the tag."""
    option = TABLES["binary"][number]
    kind = next(it for it in TABLES["kinds"] if it["name"] == option["kind"])
    parts, elements = laid_out(kind, fields)
    yield "lines_of", code(TAG)
    yield "bits_of_hex", code(" ".join(words))
    yield "OneDerivation", f"{number}: " + code(*(" ".join(map(str, item)) for item in option["items"]))
    yield "Word", ", ".join(code(value) if value else "none" for value in values)
    yield "epc_of", ", ".join(f"{name} `{value}`" for name, value in {"encoding": option["encoding"], **fields}.items())
    yield "key_digits", code(*parts)
    yield "lay", told(elements)
    yield "canonical_link", code(canonical_link(elements))


NUMBER, WORDS, VALUES = one_derivation(f"{int(TAG, 16):0{4 * len(TAG)}b}")
OPTION = TABLES["binary"][NUMBER]
FIELDS = {NAMES.get(item[1], item[1]): value for item, value in zip(OPTION["items"], VALUES) if value}
LINK = canonical_link(elements_of(pairs_of_bracketed(LABEL)))
CALLS = {
    f"gs_grammar_level::read_bits {TAG} {' '.join(map(item_text, OPTION['items']))} | num:8:255": " ".join(["0", *(value or "\\e" for value in VALUES)]),
}
ANSWERS = [
    (LABEL, LINK, "canon bracketed"),
    (TAG, LINK, "canon hex"),
    (TAG, "urn:epc:tag:{encoding}:{filter}.{prefix}.{rest}.{serial}".format(**OPTION, **FIELDS), "translate hex tag"),
    (LABEL, TAG, f"translate bracketed hex --filter {FIELDS['filter']} --gcp {OPTION['gcp']}"),
]


def test_page() -> None:
    """The page shows these definitions and values, in this order."""
    section = (TOP / "docs" / "THEOREM.md").read_text("utf-8").split("\n## One label traced\n", 1)[1].split("\n## ", 1)[0]
    assert ROW.findall(section) == [*label_rows(), *tag_rows(NUMBER, WORDS, VALUES, FIELDS)]


def test_vectors() -> None:
    """A vector has the values of the tag."""
    known = dict(vectors.cases())
    assert {call: known.get(call) for call in CALLS} == CALLS


@pytest.mark.parametrize("line, answer, words", ANSWERS, ids=[words for _, _, words in ANSWERS])
def test_program(program: Path, line: str, answer: str, words: str) -> None:
    """The program prints the lines."""
    assert run(program, *words.split(), input=f"{line}\n") == (0, f"ok {answer}\n")
