"""Codewords for the correction of errors (Reed and Solomon), of Data Matrix and QR Code symbols."""
from __future__ import annotations

from functools import lru_cache
from typing import List, Sequence, Tuple


@lru_cache(maxsize=2)
def _tables(polynomial: int) -> Tuple[List[int], List[int]]:
    """Returns the powers of 2 in the field of 256 elements of a polynomial, and the exponent of each element."""
    powers, exponents, value = [1] * 512, [0] * 256, 1
    for exponent in range(255):
        powers[exponent] = powers[exponent + 255] = value
        exponents[value] = exponent
        value = value << 1 ^ (polynomial if value & 128 else 0)
    return powers, exponents


@lru_cache(maxsize=64)
def _generator(polynomial: int, first: int, count: int) -> List[int]:
    """Returns the coefficients after the first of the polynomial whose roots are `count` powers of 2 from `first` on."""
    powers, exponents = _tables(polynomial)
    found = [1]
    for root in range(first, first + count):
        shifted = [*found, 0]
        for place, value in enumerate(found):
            shifted[place + 1] ^= powers[exponents[value] + root] if value else 0
        found = shifted
    return found[1:]


def correction(polynomial: int, first: int, count: int, words: Sequence[int]) -> List[int]:
    """Returns the `count` codewords that correct these words."""
    powers, exponents = _tables(polynomial)
    generator, rest = [exponents[it] for it in _generator(polynomial, first, count)], [0] * count
    for word in words:
        factor = word ^ rest[0]
        rest = [*rest[1:], 0]
        if factor:
            shift = exponents[factor]
            rest = [value ^ powers[exponent + shift] for value, exponent in zip(rest, generator)]
    return rest
