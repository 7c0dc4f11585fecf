"""Cases of add, subtract and multiply."""

from __future__ import annotations

import random
from itertools import count, cycle, product
from math import isqrt
from typing import Iterator, NamedTuple

import requests
from model import AWAY, DOWN, EXACT, NEAR, STICKY, TRUNC, UP, ZERO, Finite, Number
from operands import (
    HIGHEST, LARGEST_WORD, LOWEST, ONES, TOP_BIT, UNFIT, any_finite, any_signed, arguments_text,
    bits, marked_text, negated, number, signed,
)

MODES = (TRUNC, AWAY, NEAR, STICKY, UP, DOWN, EXACT)
OPERATIONS = {"add": requests.add_with_side, "sub": requests.subtract_with_side,
              "mul": requests.multiply_with_side}


class Case(NamedTuple):
    """An operation's word, a mode code, a precision and two operands."""

    operation: str
    code: int
    precision: int
    first: Number
    second: Number

    @property
    def text(self) -> str:
        """The fields of the case."""
        return f"{self.operation} {arguments_text(*self[1:])}"

    @property
    def answer(self) -> str:
        """What the model answers."""
        operation = OPERATIONS[self.operation]
        return marked_text(operation(self.first, self.second, self.code, self.precision))


def giving(operation: str, whole: int, power: int) -> tuple[Number, Number]:
    """Operands whose exact sum, difference or product is whole x 2^power."""
    if operation == "mul":
        return number(whole, 7), number(1, power - 7)
    length = abs(whole).bit_length()
    cut = max(length - 64, length // 2)
    low = whole % 2**cut
    high, low = number(whole - low, power), number(low, power)
    return high, negated(low) if operation == "sub" else low


def able(turn: int, whole: int) -> str:
    """An operation that can give this whole number; each in turn."""
    choices = ("add", "sub", "mul") if abs(whole) <= ONES else ("add", "sub")
    return choices[turn % len(choices)]


# ---------------------------------------------------------------------------
# Kinds of case
# ---------------------------------------------------------------------------

def document_values(chance: random.Random) -> Iterator[Case]:
    """The known values of document 01 that are sums, differences or products."""
    one = number(1, 0)
    for mode in MODES:
        yield Case("mul", mode, 64, number(1, HIGHEST), number(1, 1))
    for n in (1, 63, 64):
        yield Case("add", EXACT, n, one, number(1, -64))
    for eighths, n in ((12, 1), (10, 2), (14, 2), (11, 2), (11, 1)):
        x = number(eighths, -3)
        for negative in (False, True):
            y = signed(x, negative)
            yield Case("add", NEAR, n, y, ZERO)
            yield Case("sub", NEAR, n, ZERO, y)
            yield Case("mul", NEAR, n, y, one)


def codes_and_precisions(chance: random.Random) -> Iterator[Case]:
    """Every code and some beyond, with precisions at and beyond both ends."""
    codes = (*range(9), 255, 2**31, LARGEST_WORD)
    precisions = (0, 1, 2, 63, 64, 65, 66, 128, 2**31, LARGEST_WORD)
    operations = cycle(OPERATIONS)
    for code, n in product(codes, precisions):
        yield Case(next(operations), code, n, any_finite(chance, -2, 2), any_finite(chance, -2, 2))


def every_precision(chance: random.Random) -> Iterator[Case]:
    """Every precision in every mode, on near operands."""
    operations = cycle(OPERATIONS)
    for n, mode in product(range(1, 65), MODES):
        yield Case(next(operations), mode, n, any_finite(chance, -3, 3), any_finite(chance, -3, 3))


def order_of_refusals(chance: random.Random) -> Iterator[Case]:
    """Unfit operands in one place and in both, with good and bad codes and precisions."""
    unfit = (Finite(False, 0, TOP_BIT - 1), Finite(True, 3, 0), Finite(False, 65_537, TOP_BIT),
             Finite(True, -65_536, ONES), Finite(False, 2**31 - 1, ONES), Finite(True, -2**31, 1))
    operands = (ZERO, Finite(False, HIGHEST, ONES), Finite(True, LOWEST, TOP_BIT), *unfit)
    tasks = ((NEAR, 64), (EXACT, 1), (7, 24), (UP, 0), (LARGEST_WORD, 65))
    operations = cycle(OPERATIONS)
    for first, second in product(operands, repeat=2):
        for code, n in tasks:
            yield Case(next(operations), code, n, first, second)


def unfit_alone(chance: random.Random) -> Iterator[Case]:
    """Each way of being unfit, in each place, for each operation."""
    for x, operation, negative in product(UNFIT, OPERATIONS, (False, True)):
        other = any_finite(chance, -1, 1)
        yield Case(operation, NEAR, 53, signed(x, negative), other)
        yield Case(operation, DOWN, 1, other, signed(x, negative))


def zeros(chance: random.Random) -> Iterator[Case]:
    """Zero first, second and in both places."""
    for operation, mode in product(OPERATIONS, MODES):
        yield Case(operation, mode, chance.randint(1, 64), ZERO, ZERO)
        for negative in (False, True):
            x = signed(number(bits(chance, 64), chance.randint(-99, 99)), negative)
            yield Case(operation, mode, chance.randint(1, 64), x, ZERO)
            yield Case(operation, mode, chance.randint(1, 64), ZERO, x)


def exponents_apart(chance: random.Random) -> Iterator[Case]:
    """Sums and differences whose exponents are a few, 64, 128 or as many as can be apart."""
    apart = (*range(4), *range(60, 69), *range(124, 132), 70_000, HIGHEST - LOWEST)
    either = (False, True)
    modes = cycle(MODES)
    for d, operation, differ, swapped in product(apart, ("add", "sub"), either, either):
        some = (bits(chance, 64), bits(chance, 64))
        for large, small in ((TOP_BIT, ONES), (ONES, TOP_BIT), some):
            base = LOWEST if d > 1_000 else chance.randint(-200, 200)
            x = Finite(chance.random() < 0.5, base + d, large)
            y = Finite(x.negative != differ, base, small)
            n = chance.choice((64, 64, 64, 63, 24, 1))
            yield Case(operation, next(modes), n, *((y, x) if swapped else (x, y)))


def far_operands(chance: random.Random) -> Iterator[Case]:
    """A tiny operand far below a number that n bits hold, or that lies at a tie."""
    turns = count()
    for mode, n, d in product(MODES, (1, 53, 63, 64), (128, 129, 200, HIGHEST - LOWEST)):
        whole = bits(chance, n) if n == 64 or next(turns) % 2 else 2 * bits(chance, n) + 1
        large = number(whole << 64 - whole.bit_length(), LOWEST + d - 63)
        large = any_signed(chance, large)
        tiny = Finite(chance.random() < 0.5, LOWEST, chance.choice((TOP_BIT, ONES)))
        yield Case("add", mode, n, large, tiny)
        yield Case("sub", mode, n, negated(tiny), large)


def cancellation(chance: random.Random) -> Iterator[Case]:
    """Differences that are zero, one bit, or the last bits of their operands."""
    modes = cycle(MODES)
    for _ in range(14):
        x = any_finite(chance, -60_000, 60_000)
        yield Case("sub", next(modes), chance.randint(1, 64), x, x)
        yield Case("add", next(modes), chance.randint(1, 64), x, negated(x))
        s = x.significand - (x.significand == ONES)
        x, y = x._replace(significand=s), x._replace(significand=s + 1)
        yield Case("sub", next(modes), chance.randint(1, 64), x, y)
        power = number(1 if x.negative else -1, x.exponent)
        yield Case("add", next(modes), chance.randint(1, 64), power,
                   Finite(x.negative, x.exponent - 1, ONES))
    for left in range(1, 64):
        x = any_finite(chance, -9, 9)
        y = x._replace(significand=x.significand ^ chance.getrandbits(left))
        yield Case("sub", next(modes), chance.randint(1, 64), x, y)


def ties(chance: random.Random) -> Iterator[Case]:
    """An exact half over an even and an odd whole number, and a little above and below it."""
    turns = count()
    for n, odd in product(range(1, 65), (0, 1)):
        whole = bits(chance, n) & ~1 | (odd if n > 1 else 1)
        fraction = max(63 - n, 20)
        half = (2 * whole + 1) << fraction
        tasks = ((half, NEAR), (half - 1, NEAR), (half + 1, NEAR), (half, MODES[next(turns) % 7]))
        for value, mode in tasks:
            value = -value if chance.random() < 0.5 else value
            operation = able(next(turns), value)
            yield Case(operation, mode, n, *giving(operation, value, chance.randint(-500, 500)))


def ties_across_words(chance: random.Random) -> Iterator[Case]:
    """A half of the last of 64 bits and its neighbours, added to a number and taken from it."""
    larges = (TOP_BIT, TOP_BIT + 1, ONES - 1)
    smalls = (number(ONES, -1), *(number(TOP_BIT + k, 0) for k in range(4)))
    modes = cycle(MODES)
    for d, large, small, differ in product((63, 64, 65), larges, smalls, (False, True)):
        x = number(large, d)
        negative = chance.random() < 0.5
        first, second = signed(x, negative), signed(small, negative != differ)
        yield Case("add", NEAR, 64, first, second)
        yield Case("sub", next(modes), 64, negated(second), first)


def product_ties(chance: random.Random) -> Iterator[Case]:
    """Products of odd whole numbers, with one bit more than the precision."""
    for n in range(3, 65):
        length = chance.randint(2, n - 1)
        x = bits(chance, length) | 1
        least, most = -(-2**n // x), (2**(n + 1) - 1) // x
        y = chance.randint(least, most - 1) | 1
        first, second = number(x, 5), number(y, -5)
        yield Case("mul", NEAR, (x * y).bit_length() - 1, first, negated(second))


def carries(chance: random.Random) -> Iterator[Case]:
    """n ones and a fraction: the least, a half, the largest."""
    fractions = (1, 2**19, 2**20 - 1)
    turns = count()
    few = product((1, 8, 53, 64), MODES, (1, -1), fractions)
    every = ((n, MODES[n % 6], chance.choice((1, -1)), fractions[n % 3]) for n in range(1, 65))
    for n, mode, sign, fraction in (*few, *every):
        value = sign * (((2**n - 1) << 20) + fraction)
        operation = able(next(turns), value)
        yield Case(operation, mode, n, *giving(operation, value, chance.randint(-500, 500)))


def range_ends(chance: random.Random) -> Iterator[Case]:
    """Products with exponents around both ends, some with a carry over the end."""
    exponents = (HIGHEST - 1, HIGHEST, HIGHEST + 1, LOWEST + 1, LOWEST, LOWEST - 1, LOWEST - 2)
    shapes = ((TOP_BIT, 64), (ONES, 64), (ONES, 24), (TOP_BIT + 1, 63))
    for e, (significand, n), mode in product(exponents, shapes, MODES):
        first = Finite(chance.random() < 0.5, e // 2, significand)
        second = Finite(chance.random() < 0.5, e - e // 2, TOP_BIT)
        yield Case("mul", mode, n, first, second)


def range_ends_of_sums(chance: random.Random) -> Iterator[Case]:
    """Sums and differences around both ends, some with a carry over the end."""
    top, under = Finite(False, HIGHEST, ONES), Finite(False, HIGHEST - 1, ONES)
    half = Finite(False, HIGHEST - 64, TOP_BIT)
    low = Finite(False, LOWEST, TOP_BIT)
    pairs = ((top, half), (top, negated(half)), (top, low), (top, top), (under, under),
             (under, number(1, HIGHEST - 64)), (number(1, HIGHEST), number(1, HIGHEST)),
             (low._replace(significand=ONES), negated(low)),
             (number(1, LOWEST + 1), negated(low._replace(significand=TOP_BIT + 1))),
             (low._replace(significand=TOP_BIT + 1), negated(low)),
             (number(3, LOWEST), negated(number(1, LOWEST + 1))))
    for (x, y), mode, n in product(pairs, MODES, (64, 24)):
        negative = chance.random() < 0.5
        x, y = signed(x, negative), signed(y, negative)
        if chance.random() < 0.5:
            yield Case("add", mode, n, x, y)
        else:
            yield Case("sub", mode, n, y, negated(x))


def exact_claims(chance: random.Random) -> Iterator[Case]:
    """Values of k significant bits, claimed to have k, one less, and 64."""
    turns = count()
    for k in range(1, 128):
        value = chance.choice((1, -1)) * (bits(chance, k) | 1)
        for n in sorted({min(k, 64), max(min(k, 65) - 1, 1), 64}):
            operation = able(next(turns), value)
            yield Case(operation, EXACT, n, *giving(operation, value, chance.randint(-500, 500)))


def claims_outside(chance: random.Random) -> Iterator[Case]:
    """Exact claims with no working exponent, with too many bits, and with both."""
    for negative, n in product((False, True), (1, 63, 64)):
        for e in (HIGHEST, HIGHEST + 1, LOWEST, LOWEST - 1, 2 * HIGHEST, 2 * LOWEST):
            x = Finite(negative, e // 2, bits(chance, 64) | 1)
            yield Case("mul", EXACT, n, x, Finite(False, e - e // 2, TOP_BIT))
            yield Case("mul", EXACT, n, x, Finite(False, e - e // 2, bits(chance, 64) | 1))


def products(chance: random.Random) -> Iterator[Case]:
    """Products of 127 and of 128 bits, among them the nearest to 2^127 on both sides."""
    root = isqrt(2**127)
    pairs = [(TOP_BIT, TOP_BIT), (TOP_BIT, ONES), (ONES, ONES), (TOP_BIT + 1, TOP_BIT + 1),
             (root, root), (root, root + 1), (root + 1, root + 1), (ONES, TOP_BIT + 1)]
    pairs += [(bits(chance, 64), bits(chance, 64)) for _ in range(8)]
    for (x, y), mode in product(pairs, MODES):
        first = Finite(chance.random() < 0.5, chance.randint(-99, 99), x)
        second = Finite(chance.random() < 0.5, chance.randint(-99, 99), y)
        yield Case("mul", mode, 64, first, second)
        yield Case("mul", mode, chance.randint(1, 63), second, first)


def directed(chance: random.Random) -> Iterator[Case]:
    """Up and down on negative and positive values."""
    operations = cycle(OPERATIONS)
    for mode, negative, _ in product((UP, DOWN), (False, True), range(24)):
        x = signed(number(bits(chance, 64), -63), negative)
        y = any_signed(chance, number(bits(chance, 64), chance.randint(-99, -70)))
        yield Case(next(operations), mode, chance.randint(1, 64), x, y)


def sticky(chance: random.Random) -> Iterator[Case]:
    """Sticky over an even and an odd whole number, with a fraction and without."""
    for n, odd, sign in product((1, 2, 24, 32, 63, 64), (0, 1), (1, -1)):
        whole = bits(chance, n) & ~1 | (odd if n > 1 else 1)
        large = number(sign * whole, 0)
        yield Case("add", STICKY, n, large, ZERO)
        yield Case("add", STICKY, n, large, number(1, -chance.randint(2, 130)))
        yield Case("sub", STICKY, n, large, number(sign, -chance.randint(2, 60_000)))


def anything(chance: random.Random) -> Iterator[Case]:
    """Operands from all over the working range."""
    for _ in range(300):
        x, y = any_finite(chance, LOWEST, HIGHEST), any_finite(chance, LOWEST, HIGHEST)
        if chance.random() < 0.4:
            near = x.exponent + chance.randint(-140, 140)
            y = y._replace(exponent=min(max(near, LOWEST), HIGHEST))
        operation = chance.choice(("add", "sub", "mul", "mul"))
        yield Case(operation, chance.choice(MODES), chance.randint(1, 64), x, y)


KINDS = (
    document_values, codes_and_precisions, every_precision, order_of_refusals, unfit_alone, zeros,
    exponents_apart, far_operands, cancellation, ties, ties_across_words, product_ties, carries,
    range_ends, range_ends_of_sums, exact_claims, claims_outside, products, directed, sticky,
    anything,
)


# Lines that are not a case, the first of them empty: a field is missing, one too many, too large
# or ill made.
NO_CASES = """
zero
add
rem 2 64 zero zero
Add 2 64 zero zero
adds 2 64 zero zero
 add 2 64 zero zero
add  2 64 zero zero
add 2 64  zero zero
add 2 64 zero  zero
add 2 64 zerozero
add 2 64 zero
add 2 64 zero zero zero
add 2 64 zero zero x
add 2 zero zero
add -2 64 zero zero
add 2 +64 zero zero
add 0x2 64 zero zero
add 4294967296 64 zero zero
mul 2 4294967296 zero zero
mul 2 99999999999999999999999 zero zero
sub 2 64 8000000000000000 0 zero
sub 2 64 +8000000000000000 0 zero
sub 2 64 + 800000000000000 0 zero
sub 2 64 + 80000000000000000 0 zero
sub 2 64 + C000000000000000 0 zero
sub 2 64 + 800000000000000g 0 zero
sub 2 64 * 8000000000000000 0 zero
mul 2 64 + 8000000000000000 zero
mul 2 64 + 8000000000000000 +1 zero
mul 2 64 + 8000000000000000 --1 zero
mul 2 64 zero + 8000000000000000 - 1
mul 2 64 zero + 8000000000000000 -
mul 2 64 zero + 8000000000000000
mul 2 64 zero + 8000000000000000 1.
add 2 64 + 8000000000000000 2147483648 zero
add 2 64 zero + 8000000000000000 -2147483649
add 2 64 zero + 8000000000000000 -99999999999999999999999
"""
