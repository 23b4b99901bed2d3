"""examples/label.sh with zint, ZXing and zbar, on tags of several keys and serials.

Each reading has to name what the tag names, except the one that docs/TUTORIAL.md excepts: ZXing drops what follows a percent sign in a GS1
QR Code symbol of upper-case letters.
"""
from pathlib import Path

import pytest

from tools.common import printed, run
from tools.repository import TOP

pytestmark = pytest.mark.needs("zint", "ZXingReader", "zbarimg")
# tag URIs, and whether ZXing reads the QR Code symbol
TAGS = {
    "urn:epc:tag:sgtin-96:3.0614141.812345.6789": True,
    "urn:epc:tag:sgtin-198:3.0614141.812345.a%25B": True,
    "urn:epc:tag:sgtin-198:3.0614141.812345.A%25B": False,
    "urn:epc:tag:sgtin-198:3.0614141.812345.A(B": True,
    "urn:epc:tag:sgtin-198:3.0614141.812345.1'%22%2F%3F%26": True,
    "urn:epc:tag:sscc-96:3.0614141.1234567890": True,
}
READINGS = ["DATAMATRIX ZXing", "GS1_128 ZXing", "GS1_128 zbar", "QRCODE ZXing", "QRCODE zbar"]


def label(module: dict[str, str], bits: str, folder: Path) -> tuple[int, list[str]]:
    """Returns the status of the example for these bits, and what it prints."""
    status, text = run(TOP / "examples/label.sh", bits, folder, env=module)
    return status, text.splitlines()


@pytest.mark.parametrize("tag, is_read", TAGS.items())
def test_each_symbol_of_a_label_reads_back(program: Path, module: dict[str, str], tmp_path: Path, tag: str, is_read: bool) -> None:
    def answer(text: str, *words: str) -> str:
        return printed(program, *words, input=f"{text}\n").strip()[3:]

    bits = answer(tag, "translate", "tag", "hex")
    link, text = answer(bits, "canon", "hex"), answer(bits, "translate", "hex", "bracketed")
    cut = f"{link.rpartition('%25')[0]}%25"
    wanted = [f"ok {it} {link}" if is_read or it != "QRCODE ZXing" else f"no {it} {cut}" for it in READINGS]
    assert label(module, bits, tmp_path) == (0 if is_read else 1, [f"label {text}", *wanted])


def test_bits_of_no_tag(module: dict[str, str], tmp_path: Path) -> None:
    assert label(module, "30", tmp_path) == (1, ["label.sh: these bits are not those of a tag: 30"])
