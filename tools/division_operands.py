"""Operands of divisions, found by what their quotient is or by what the steps give."""

from __future__ import annotations

import random
from fractions import Fraction
from itertools import pairwise

import model
from model import NEAR, ZERO, Finite, Number
from operands import ONES, TOP_BIT, any_finite, any_signed, bits, number

DIGITS = (11, 17, 23, 29)
REMAINDERS = (15, 21, 27)

Pair = tuple[Number, Number]


def results(p: Number, d: Number, *wanted: int) -> list[Number]:
    """The values after these steps, none of which is the last."""
    done = model.steps(p, d, NEAR, 64)
    return [done[k - 1] for k in wanted]


def any_pair(chance: random.Random, reach: int) -> Pair:
    """A dividend and a divisor with exponents of at most this magnitude."""
    return any_finite(chance, -reach, reach), any_finite(chance, -reach, reach)


def pair(chance: random.Random, dividend: int, divisor: int) -> Pair:
    """Operands of either sign with these significands."""
    return (Finite(chance.random() < 0.5, chance.randint(-99, 99), dividend),
            Finite(chance.random() < 0.5, chance.randint(-99, 99), divisor))


def exactly(chance: random.Random, quotient: int) -> Pair:
    """Operands of either sign whose quotient is this, times a power of two."""
    divisor = bits(chance, chance.randint(1, 65 - quotient.bit_length()))
    divisor >>= max((quotient * divisor).bit_length() - 64, 0)
    p = number(quotient * divisor, chance.randint(-99, 99))
    return any_signed(chance, p), any_signed(chance, number(divisor, chance.randint(-99, 99)))


def close(chance: random.Random, length: int, rest: int) -> Pair:
    """Operands of either sign whose quotient is an odd Q of this many bits, times a power of two, and
    rest / (Q x D) of that beyond it, where D is the significand of the divisor.  The rest is odd."""
    while True:
        divisor = bits(chance, 64) | 1
        k = length - chance.randint(0, 1)
        whole = -rest * pow(divisor, -1, 2**k) % 2**k | 2**(length - 1)
        dividend, left = divmod(whole * divisor + rest, 2**k)
        if left == 0 and TOP_BIT <= dividend <= ONES:
            break
    assert whole % 2 and whole.bit_length() == length
    part = Fraction(dividend << k, divisor) / whole - 1
    assert part == Fraction(rest, whole * divisor) and abs(part) * 2**(length + 62) <= abs(rest)
    return pair(chance, dividend, divisor)


def vanishing(chance: random.Random, digits: int) -> Pair:
    """Operands of either sign whose remainder is zero after so many digits and not before."""
    least, most = ((1, 24), (25, 48), (49, 64))[digits - 1]
    while True:
        p, d = exactly(chance, bits(chance, chance.randint(least, most)) | 1)
        *before, last = results(p, d, *REMAINDERS[:digits])
        if last is ZERO and ZERO not in before:
            return p, d


def with_signs(chance: random.Random, signs: tuple[bool, ...]) -> Pair:
    """Operands whose four digits have these signs.  A digit has the sign of the one before where
    that one falls short of the quotient: some zeros stand between the two."""
    while True:
        quotient = bits(chance, 24)
        for before, negative in pairwise(signs[:3]):
            digit = bits(chance, 24)
            space = 8 if negative == before else 0
            quotient = (quotient << space + 24) + (digit if negative == signs[0] else -digit)
        divisor = bits(chance, 64)
        dividend = quotient * divisor
        dividend = (dividend >> dividend.bit_length() - 64) + chance.randint(0, 1)
        p, d = pair(chance, dividend, divisor)
        p = p._replace(negative=d.negative != signs[0])
        digits = results(p, d, *DIGITS)
        if ZERO not in digits and tuple(digit.negative for digit in digits) == signs:
            return p, d


def first_rounded(chance: random.Random, far: bool) -> Pair:
    """Operands of either sign whose first digit is rounded by nearly a unit, or by nearly none."""
    while True:
        divisor = bits(chance, 64)
        (reciprocal,) = results(number(1, 0), number(divisor, 0), 6)
        factor = reciprocal.significand >> 32
        if factor % 2 == 0:
            continue
        for excess in range(1, 1_000):
            high = (excess if far else -excess) * pow(factor, -1, 2**40) % 2**40
            if 2**31 <= high < 2**32:
                return pair(chance, high << 32 | chance.getrandbits(32), divisor)
