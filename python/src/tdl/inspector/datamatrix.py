"""GS1 DataMatrix symbols (ISO/IEC 16022, ECC 200): an element string, its function characters as the byte 29."""
from __future__ import annotations

from typing import Iterator, List, Optional, Set, Tuple

from .correction import correction

POLYNOMIAL = 0x12D
FNC1, PAD, SHIFT, GS = 232, 129, 235, 29
# the side of a symbol, its regions in a row, its codewords of data and of correction, and the blocks that they are divided into
SIZES = [
    (10, 1, 3, 5, 1), (12, 1, 5, 7, 1), (14, 1, 8, 10, 1), (16, 1, 12, 12, 1), (18, 1, 18, 14, 1), (20, 1, 22, 18, 1), (22, 1, 30, 20, 1),
    (24, 1, 36, 24, 1), (26, 1, 44, 28, 1), (32, 2, 62, 36, 1), (36, 2, 86, 42, 1), (40, 2, 114, 48, 1), (44, 2, 144, 56, 1), (48, 2, 174, 68, 1),
    (52, 2, 204, 84, 2), (64, 4, 280, 112, 2), (72, 4, 368, 144, 4), (80, 4, 456, 192, 4), (88, 4, 576, 224, 4), (96, 4, 696, 272, 4),
    (104, 4, 816, 336, 6), (120, 6, 1050, 408, 6), (132, 6, 1304, 496, 8),
]
# the modules of a codeword from its place on, the most significant bit first
SHAPE = [(-2, -2), (-2, -1), (-1, -2), (-1, -1), (-1, 0), (0, -2), (0, -1), (0, 0)]
Place = Tuple[int, int]


def codewords(text: bytes) -> List[int]:
    """Returns the codewords of an element string: two digits in one, any other ASCII character in one."""
    found, at = [FNC1], 0
    while at < len(text):
        pair = text[at : at + 2]
        if len(pair) == 2 and pair.isdigit():
            found.append(130 + int(pair))
            at += 2
            continue
        found += [FNC1] if text[at] == GS else [text[at] + 1] if text[at] < 128 else [SHIFT, text[at] - 127]
        at += 1
    return found


def _padded(words: List[int], room: int) -> List[int]:
    """Returns the words with pads up to the room of a symbol: the first as it is, the others by a pseudo-random sequence."""
    found = [*words, *([PAD] if len(words) < room else [])]
    while len(found) < room:
        value = PAD + 149 * (len(found) + 1) % 253 + 1
        found.append(value if value <= 254 else value - 254)
    return found


def _with_correction(words: List[int], count: int, blocks: int) -> List[int]:
    """Returns the words and, interleaved, the correction of each block."""
    ends = [correction(POLYNOMIAL, 1, count // blocks, words[block::blocks]) for block in range(blocks)]
    return words + [end[place] for place in range(count // blocks) for end in ends]


def _corner(row: int, column: int, side: int) -> List[Place]:
    """Returns the modules of the word of a corner, or none if no such word comes at this place of the walk."""
    last = side - 1
    below, left = [(0, last - 1), (0, last), (1, last), (2, last), (3, last)], [(last - 2, 0), (last - 1, 0), (last, 0)]
    if (row, column) == (side, 0):
        return [(last, 0), (last, 1), (last, 2), *below]
    if (row, column) == (side - 2, 0) and side % 4:
        return [*left, (0, last - 3), (0, last - 2), (0, last - 1), (0, last), (1, last)]
    if (row, column) == (side - 2, 0) and side % 8 == 4:
        return [*left, *below]
    if (row, column) == (side + 4, 2) and side % 8 == 0:
        return [(last, 0), (last, last), (0, last - 2), (0, last - 1), (0, last), (1, last - 2), (1, last - 1), (1, last)]
    return []


def _wrapped(row: int, column: int, side: int) -> Place:
    """Returns the place of a module of a word that reaches over the edge of the mapping."""
    if row < 0:
        row, column = row + side, column + 4 - (side + 4) % 8
    if column < 0:
        row, column = row + 4 - (side + 4) % 8, column + side
    return row, column


def _walk(side: int) -> Iterator[List[Place]]:
    """Yields the modules of each codeword of a square mapping, in the order of the codewords."""
    taken: Set[Place] = set()
    row, column = 4, 0
    while row < side or column < side:
        corner = _corner(row, column, side)
        if corner:
            taken.update(corner)
            yield corner
        for step, turn in ((-2, (1, 3)), (2, (3, 1))):
            is_inside = True
            while is_inside:
                if 0 <= row < side and 0 <= column < side and (row, column) not in taken:
                    word = [_wrapped(row + down, column + right, side) for down, right in SHAPE]
                    taken.update(word)
                    yield word
                row, column = row + step, column - step
                is_inside = row >= 0 and column < side if step < 0 else row < side and column >= 0
            row, column = row + turn[0], column + turn[1]


def symbol(text: bytes) -> Optional[List[List[bool]]]:
    """Returns the modules of the smallest square symbol of an element string, row by row, or None if it is too long for the largest."""
    words = codewords(text)
    found = next((it for it in SIZES if it[2] >= len(words)), None)
    if found is None:
        return None
    size, regions, room, count, blocks = found
    inner = size // regions - 2
    side = inner * regions
    mapping = [[False] * side for _ in range(side)]
    for word, places in zip(_with_correction(_padded(words, room), count, blocks), _walk(side)):
        for bit, (row, column) in enumerate(places):
            mapping[row][column] = bool(word >> 7 - bit & 1)
    if side * side % 8:
        mapping[side - 1][side - 1] = mapping[side - 2][side - 2] = True
    return [[_module(row, column, inner, mapping) for column in range(size)] for row in range(size)]


def _module(row: int, column: int, inner: int, mapping: List[List[bool]]) -> bool:
    """Returns a module of a symbol: of a finder pattern at the edges of each region, else of the mapping."""
    (down, y), (right, x) = divmod(row, inner + 2), divmod(column, inner + 2)
    if x == 0 or y == inner + 1:
        return True
    if y == 0:
        return x % 2 == 0
    if x == inner + 1:
        return y % 2 == 1
    return mapping[down * inner + y - 1][right * inner + x - 1]
