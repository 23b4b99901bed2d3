"""QR Code symbols (ISO/IEC 18004) of a text, with the correction of level M."""
from __future__ import annotations

import re
from typing import Callable, Iterator, List, Optional, Tuple

from .correction import correction

POLYNOMIAL = 0x11D
# by version from 1 on: the codewords of correction of a block, and the number of blocks, of level M
CORRECTION = [10, 16, 26, 18, 24, 16, 18, 22, 22, 26, 30, 22, 22, 24, 24, 28, 28, 26, 26, 26, *[26, 28, 28, 28, 28], *[28] * 15]
BLOCKS = [1, 1, 1, 2, 2, 4, 4, 4, 5, 5, 5, 8, 9, 9, 10, 10, 11, 13, 14, 16, 17, 17, 18, 20, 21, 23, 25, 26, 28, 29, 31, 33, 35, 37, 38, 40, 43, 45, 47, 49]
LETTERS = "0123456789ABCDEFGHIJKLMNOPQRSTUVWXYZ $%*+-./:"
LEVEL, FORMAT, FORMAT_MASK, VERSION_WORD = 0, 0x537, 0x5412, 0x1F25
MASKS: List[Callable[[int, int], bool]] = [
    lambda row, column: (row + column) % 2 == 0,
    lambda row, column: row % 2 == 0,
    lambda row, column: column % 3 == 0,
    lambda row, column: (row + column) % 3 == 0,
    lambda row, column: (row // 2 + column // 3) % 2 == 0,
    lambda row, column: row * column % 2 + row * column % 3 == 0,
    lambda row, column: (row * column % 2 + row * column % 3) % 2 == 0,
    lambda row, column: ((row + column) % 2 + row * column % 3) % 2 == 0,
]
RUN, FINDER = re.compile("0{5,}|1{5,}"), re.compile("(?=10111010000|00001011101)")
Modules = List[List[Optional[bool]]]


def _centres(version: int) -> List[int]:
    """Returns the rows and columns of the centres of alignment patterns."""
    if version == 1:
        return []
    count, last = version // 7 + 2, version * 4 + 10
    step = 26 if version == 32 else (version * 4 + count * 2 + 1) // (count * 2 - 2) * 2
    return [6, *(last - step * place for place in reversed(range(count - 1)))]


def _room(version: int) -> int:
    """Returns the number of codewords of a version, of data and correction."""
    modules, count = (16 * version + 128) * version + 64, len(_centres(version))
    if count:
        modules -= (25 * count - 10) * count - 55 + (36 if version >= 7 else 0)
    return modules // 8


def _data_room(version: int) -> int:
    return _room(version) - CORRECTION[version - 1] * BLOCKS[version - 1]


def _bits(text: bytes, version: int) -> str:
    """Returns the bits of a text: its mode, its length and its characters."""
    group = 0 if version < 10 else 1 if version < 27 else 2
    letters = text.decode("latin-1")
    if all(letter in LETTERS for letter in letters):
        pairs = [letters[at : at + 2] for at in range(0, len(letters), 2)]
        values = [(LETTERS.index(it[0]) * 45 + LETTERS.index(it[1]), 11) if len(it) == 2 else (LETTERS.index(it), 6) for it in pairs]
        return f"0010{len(text):0{(9, 11, 13)[group]}b}" + "".join(f"{value:0{width}b}" for value, width in values)
    return f"0100{len(text):0{(8, 16, 16)[group]}b}" + "".join(f"{byte:08b}" for byte in text)


def _words(bits: str, room: int) -> List[int]:
    """Returns the codewords of data: the bits, an end, and pads in turn."""
    bits += "0" * min(4, room * 8 - len(bits))
    bits += "0" * (-len(bits) % 8)
    found = [int(bits[at : at + 8], 2) for at in range(0, len(bits), 8)]
    return found + [0xEC, 0x11] * ((room - len(found)) // 2) + [0xEC] * ((room - len(found)) % 2)


def _interleaved(words: List[int], version: int) -> Iterator[int]:
    """Yields the codewords of all blocks in turn, those of data first."""
    count, blocks = CORRECTION[version - 1], BLOCKS[version - 1]
    short, longer = divmod(len(words), blocks)
    data, at = [], 0
    for block in range(blocks):
        size = short + (block >= blocks - longer)
        data.append(words[at : at + size])
        at += size
    for place in range(short + 1):
        yield from (block[place] for block in data if place < len(block))
    ends = [correction(POLYNOMIAL, 0, count, block) for block in data]
    for place in range(count):
        yield from (end[place] for end in ends)


def _put(modules: Modules, row: int, column: int, pattern: List[str]) -> None:
    """Puts a pattern at a place; what lies outside is left out."""
    for down, line in enumerate(pattern):
        for right, module in enumerate(line):
            if 0 <= row + down < len(modules) and 0 <= column + right < len(modules):
                modules[row + down][column + right] = module == "1"


def _patterns(version: int) -> Modules:
    """Returns a symbol with its function patterns; the modules of data are None."""
    size = version * 4 + 17
    modules: Modules = [[None] * size for _ in range(size)]
    finder = ["0" * 9, "011111110", "010000010", *["010111010"] * 3, "010000010", "011111110", "0" * 9]
    for place in range(size):
        modules[6][place] = modules[place][6] = place % 2 == 0
    centres = _centres(version)
    for row in centres:
        for column in centres:
            if (row, column) not in ((6, 6), (6, size - 7), (size - 7, 6)):
                _put(modules, row - 2, column - 2, ["11111", "10001", "10101", "10001", "11111"])
    for row, column in ((-1, -1), (-1, size - 8), (size - 8, -1)):
        _put(modules, row, column, finder)
    _put_format(modules, 0)
    if version >= 7:
        bits = f"{version << 12 | _remainder(version, VERSION_WORD, 12):018b}"[::-1]
        for place, bit in enumerate(bits):
            row, column = divmod(place, 3)
            modules[row][size - 11 + column] = modules[size - 11 + column][row] = bit == "1"
    return modules


def _remainder(value: int, polynomial: int, bits: int) -> int:
    """Returns the bits that a code of Bose, Chaudhuri and Hocquenghem appends to a value."""
    value <<= bits
    while value.bit_length() > bits:
        value ^= polynomial << value.bit_length() - bits - 1
    return value


def _put_format(modules: Modules, mask: int) -> None:
    """Puts the level and the mask at both their places, and the dark module."""
    value, size = LEVEL << 3 | mask, len(modules)
    bits = f"{(value << 10 | _remainder(value, FORMAT, 10)) ^ FORMAT_MASK:015b}"[::-1]
    first = [*((row, 8) for row in (0, 1, 2, 3, 4, 5, 7)), (8, 8), *((8, column) for column in (7, 5, 4, 3, 2, 1, 0))]
    second = [*((8, size - 1 - place) for place in range(8)), *((size - 15 + place, 8) for place in range(8, 15))]
    for places in (first, second):
        for (row, column), bit in zip(places, bits):
            modules[row][column] = bit == "1"
    modules[size - 8][8] = True


def _places(modules: Modules) -> Iterator[Tuple[int, int]]:
    """Yields the modules of data in the order of their bits: two columns at a time, up and down."""
    size = len(modules)
    rights = [*range(size - 1, 6, -2), *range(5, 0, -2)]
    for turn, right in enumerate(rights):
        for row in range(size) if turn % 2 else reversed(range(size)):
            for column in (right, right - 1):
                if modules[row][column] is None:
                    yield row, column


def _penalty(rows: List[str]) -> int:
    """Returns how hard a symbol is to read: runs, blocks, what looks like a finder pattern, and a share of dark modules off one half."""
    size, total = len(rows), 0
    for line in [*rows, *map("".join, zip(*rows))]:
        total += sum(len(run) - 2 for run in RUN.findall(line)) + 40 * len(FINDER.findall(line))
    numbers, full = [int(row, 2) for row in rows], (1 << size - 1) - 1
    for upper, lower in zip(numbers, numbers[1:]):
        dark, light = upper & lower, ~(upper | lower)
        total += 3 * (bin(dark & dark >> 1 & full).count("1") + bin(light & light >> 1 & full).count("1"))
    share = sum(bin(number).count("1") for number in numbers) * 20 / (size * size)
    return total + 10 * int(abs(share - 10))


def symbol(text: bytes) -> Optional[List[List[bool]]]:
    """Returns the modules of the smallest symbol of a text, row by row, or None if it is too long for the largest."""
    version = next((it for it in range(1, 41) if len(_bits(text, it)) <= _data_room(it) * 8), None)
    if version is None:
        return None
    modules = _patterns(version)
    bits = "".join(f"{word:08b}" for word in _interleaved(_words(_bits(text, version), _data_room(version)), version))
    places = list(_places(modules))
    bits += "0" * (len(places) - len(bits))
    best: Tuple[int, List[str]] = (1 << 62, [])
    for mask, is_flipped in enumerate(MASKS):
        for (row, column), bit in zip(places, bits):
            modules[row][column] = (bit == "1") != is_flipped(row, column)
        _put_format(modules, mask)
        rows = ["".join("1" if module else "0" for module in row) for row in modules]
        best = min(best, (_penalty(rows), rows))
    return [[module == "1" for module in row] for row in best[1]]
