"""Untidy cells, drawn with what has to become of them, by the rules of docs/TUTORIAL.md and the standards alone."""
import base64
import random
from typing import Callable, NamedTuple, Optional

STEM = "https://id.gs1.org"
# blanks that pages and word processors write
WIDE = ("\u00a0", "\u202f", "\u2007", "\u200b")
FORMS = ("link", "tag", "pure", "bracketed", "gtin", "sscc", "hex", "raw")


class Cell(NamedTuple):
    """A cell; its canonical link, or nothing and the reason; its form; and what was repaired."""

    text: str
    link: str
    form: str
    reason: str = ""
    repaired: str = ""


def checked(digits: str) -> str:
    """Returns digits with their check digit (GS1 General Specifications, section 7.9)."""
    return digits + str(-sum(int(digit) * (1 if place % 2 else 3) for place, digit in enumerate(reversed(digits))) % 10)


def unchecked(digits: str, dice: random.Random) -> str:
    """Returns a number with a wrong check digit."""
    return digits[:-1] + str((int(digits[-1]) + dice.randrange(1, 10)) % 10)


def number(dice: random.Random, size: int, first: str) -> str:
    """Returns a number of a size with a check digit. No element that raw reads before a key begins so: `first` has no 4, and 1, 2, 3 and 8
    come before digits that no such code has."""
    begin = dice.choice(first)
    begin += {"1": "0", "2": "3", "3": "0", "8": "9"}.get(begin, "")
    return checked(begin + "".join(dice.choice("0123456789") for _ in range(size - 1 - len(begin))))


def gtin(dice: random.Random, size: int, first: str = "123567890") -> str:
    """Returns a GTIN of a size that raw does not read."""
    return number(dice, size, first)


def sscc(dice: random.Random, first: str = "35679") -> str:
    """Returns an SSCC that raw does not read."""
    return checked(dice.choice(first) + "95" + "".join(dice.choice("0123456789") for _ in range(14)))


def tag(dice: random.Random) -> tuple[str, str, int]:
    """Returns an SGTIN-96 with the company prefix 0614141 (TDS 14.6.1.1), its GTIN, and its serial."""
    item, serial, indicator = dice.randrange(100_000), dice.randrange(2**38), dice.randrange(10)
    bits = (0x30 << 88) | (3 << 85) | (5 << 82) | (614_141 << 58) | ((indicator * 100_000 + item) << 38) | serial
    return f"{bits:024X}", checked(f"{indicator}0614141{item:05}"), serial


def of_gtin(bare: str) -> str:
    """Returns the link of a GTIN."""
    return f"{STEM}/01/{bare.zfill(14)}"


def grouped(text: str, size: int, between: str) -> str:
    """Returns a text in groups of a size."""
    return between.join(text[at : at + size] for at in range(0, len(text), size))


def tidy(form: str, dice: random.Random) -> Cell:
    """Returns a cell that its form reads as it stands."""
    bits, item, serial = tag(dice)
    linked = f"{of_gtin(item)}/21/{serial}"
    pure = f"0614141.{item[0]}{item[8:13]}.{serial}"
    if form == "gtin":
        bare = gtin(dice, dice.choice((8, 12, 13, 14)))
        return Cell(bare, of_gtin(bare), form)
    if form == "sscc":
        bare = sscc(dice)
        return Cell(bare, f"{STEM}/00/{bare}", form)
    texts = {
        "link": f"{dice.choice(('https', 'HTTPS', 'http'))}://shop.example/a/01/{item}/21/{serial}",
        "tag": f"urn:epc:tag:sgtin-96:3.{pure}",
        "pure": f"urn:epc:id:sgtin:{pure}",
        "bracketed": f"(01){item}(21){serial}",
        "hex": dice.choice((bits, bits.lower(), f"0x{bits}", grouped(bits, 4, " "), grouped(bits, 2, "-"))),
        "raw": dice.choice(("", "]C1", "]d2", "\x1d")) + f"01{item}21{serial}",
    }
    return Cell(texts[form], linked, form)


def wrong(dice: random.Random) -> Cell:
    """Returns a cell that no form reads, and that nothing repairs."""
    item, brief = gtin(dice, 13), f"{dice.randrange(1, 10)}{dice.choice('.,')}{dice.randrange(10**5):05}E+{dice.randrange(11, 18)}"
    false = unchecked(item, dice)
    return dice.choice((
        Cell(false, "", "gtin", "check 0"),
        Cell(unchecked(sscc(dice), dice), "", "sscc", "check 0"),
        Cell(brief, "", "", "rounded"),
        Cell(f"EAN {item}", "", "", "form"),
        Cell("urn:epc:idpat:sgtin:0614141.*.*", "", "", "form"),
        Cell("", "", "", "empty"),
        Cell(f"01{item.zfill(14)}21A{dice.choice(('<GS>', '|', '^]', '{GS}'))}10B", "", "raw", "fnc1?"),
        Cell(f"(01){unchecked(item, dice).zfill(14)}", "", "bracketed", "check 1"),
        Cell(dice.choice("2356"), "", "", "digits 1"),
    ))


def shortened(dice: random.Random, form: str) -> tuple[str, str]:
    """Returns a bare number without the zeros at its begin, and the whole one."""
    if form == "gtin":
        zeros = dice.choice((1, 2, 3))
        short = number(dice, 12 - zeros, "2356")
        return short, short.zfill(12)
    zeros = dice.choice((1, 2, 3))
    short = number(dice, 18 - zeros, "2356")
    return short, short.zfill(18)


def _spaced(text: str, between: str, dice: random.Random) -> str:
    at = sorted(dice.sample(range(1, len(text)), 2))
    return between.join((text[: at[0]], text[at[0] : at[1]], text[at[1] :]))


def repaired(dice: random.Random) -> Cell:
    """Returns a cell that can be repaired in one way."""
    form = dice.choice(("gtin", "sscc"))
    bare = gtin(dice, dice.choice((8, 12, 13, 14))) if form == "gtin" else sscc(dice)
    code = "01" if form == "gtin" else "00"
    link = f"{STEM}/{code}/{bare.zfill(14 if form == 'gtin' else 18)}"
    short, whole = shortened(dice, form)
    padded = f"{STEM}/{code}/{whole.zfill(14 if form == 'gtin' else 18)}"
    item = gtin(dice, 14, "23569")
    plain = tidy(dice.choice(FORMS), dice)
    ways: tuple[Callable[[], Cell], ...] = (
        lambda: Cell(short, padded, form, "", "zeros"),
        lambda: Cell(f"{bare}.0", link, form, "", "decimal"),
        lambda: Cell(f"{short}.0", padded, form, "", "decimal zeros"),
        lambda: Cell(f'="{plain.text}"', plain.link, plain.form, "", "formula"),
        lambda: Cell(f"'{plain.text}", plain.link, plain.form, "", "apostrophe"),
        lambda: Cell(f"{dice.choice(WIDE)}{plain.text}{dice.choice(WIDE)}", plain.link, plain.form, "", "blanks"),
        lambda: Cell(f"'{short}", padded, form, "", "apostrophe zeros"),
        lambda: Cell(f'="{short}"', padded, form, "", "formula zeros"),
        lambda: Cell(_spaced(bare, "-", dice), link, form, "", "hyphens"),
        lambda: Cell(_spaced(bare, dice.choice((" ", *WIDE)), dice), link, form, "", "blanks"),
        lambda: Cell(f"(0){sscc(dice, '3')}", "", "bracketed", "", "zeros"),
        lambda: Cell(f"(01) {item} (10) AB", f"{of_gtin(item)}/10/AB", "bracketed", "", "blanks"),
        lambda: Cell(f"(1){item}", of_gtin(item), "bracketed", "", "zeros"),
        lambda: Cell(f"({code}){short}", padded, "bracketed", "", "zeros"),
        lambda: Cell(f"01 {item[:7]} {item[7:]}", of_gtin(item), "raw", "", "blanks"),
    )
    found = dice.choice(ways)()
    return found if found.link else found._replace(link=f"{STEM}/00/{found.text[3:]}")


def doubtful(dice: random.Random) -> Cell:
    """Returns a cell that two forms read: a GTIN of a German company or a GINC; an SSCC or a GIAI; a tag of an ITIP or a GINC."""
    company = "".join(dice.choice("0123456789") for _ in range(9))
    # (a partition value of 4 begins with 1: 110 bits are 28 digits, and the last two bits are zeros)
    itip = (0x40 << 104) | (0 << 101) | (5 << 98) | (614_141 << 74) | (dice.randrange(10**6) << 54) | (1 << 47) | (2 << 40) | (dice.randrange(2**38) << 2)
    return dice.choice((
        Cell(checked(f"401{company}"), "", "", "ambiguous gtin raw"),
        Cell(unchecked(checked(f"401{company}"), dice), "", "", "ambiguous gtin raw"),
        Cell(checked(f"8004{company}"), "", "", "ambiguous gtin raw"),
        Cell(checked(f"8004{company}3950"), "", "", "ambiguous sscc raw"),
        Cell(f"{checked(f'8004{company[:3]}')}.0", "", "", "ambiguous gtin raw"),
        Cell(f"8004-{checked(f'8004{company}')[4:]}", "", "", "ambiguous gtin raw"),
        Cell(checked(f"11{dice.choice(('250131', '261224'))}401{company[:2]}"), "", "", "ambiguous gtin raw"),
        Cell(f"{itip:028X}", "", "", "ambiguous hex raw"),
    ))


def two_repairs(dice: random.Random) -> Optional[Cell]:
    """Returns a cell that is an element string without its first zero, or an SSCC without three of them."""
    for _ in range(200):
        text = "1" + checked("".join(dice.choice("0123456789") for _ in range(13)))
        if checked(text[:-1]) == text:
            return Cell(text, "", "", "ambiguous sscc raw")
    return None


def any_cell(dice: random.Random) -> Cell:
    """Returns a cell of any kind, with blanks around it at times."""
    kinds: tuple[Callable[[random.Random], Optional[Cell]], ...] = (lambda it: tidy(it.choice(FORMS), it), repaired, wrong, doubtful, two_repairs)
    found = dice.choices(kinds, (8, 8, 2, 2, 1))[0](dice) or wrong(dice)
    around = dice.choice(("", "", "", " ", "\t", "  "))
    return found._replace(text=around + found.text + around)


def as_base64(bits: str) -> str:
    """Returns hexadecimal digits in base64."""
    return base64.b64encode(bytes.fromhex(bits)).decode("ascii")
