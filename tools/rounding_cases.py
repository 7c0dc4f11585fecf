"""Cases of a number rounded by itself."""

from __future__ import annotations

import random
from itertools import product
from typing import Iterator, NamedTuple

import requests
from model import EXACT, NEAR, ZERO, Finite, Number
from operands import (
    HIGHEST, LARGEST_WORD, LOWEST, ONES, TOP_BIT, UNFIT, any_finite, any_signed, bits,
    marked_text, number, number_text, signed,
)

MODES = range(EXACT + 1)
SIGNS = (False, True)


class Case(NamedTuple):
    """A mode code, a precision and a number."""

    code: int
    precision: int
    number: Number

    @property
    def text(self) -> str:
        """The fields of the case."""
        return f"round {self.code} {self.precision} {number_text(self.number)}"

    @property
    def answer(self) -> str:
        """What the model answers."""
        return marked_text(requests.round_number_with_side(self.number, self.code, self.precision))


# ---------------------------------------------------------------------------
# Kinds of case
# ---------------------------------------------------------------------------

def document_roundings(chance: random.Random) -> Iterator[Case]:
    """The known values of document 01 that are roundings: 3/2, 5/4, 7/4 and 11/8."""
    for eighths, n in ((12, 1), (10, 2), (14, 2), (11, 2), (11, 1)):
        for negative in SIGNS:
            yield Case(NEAR, n, signed(number(eighths, -3), negative))


def tasks_and_operands(chance: random.Random) -> Iterator[Case]:
    """Precisions at and beyond both ends, with zero, fit and unfit numbers."""
    precisions = (0, 1, 2, 63, 64, 65, 66, 128, 2**31, LARGEST_WORD)
    for mode, n in product(MODES, precisions):
        for x in (ZERO, any_finite(chance, -2, 2), chance.choice(UNFIT)):
            yield Case(mode, n, x)
    for x, mode in product(UNFIT, MODES):
        yield Case(mode, 53, any_signed(chance, x))


def every_rounding(chance: random.Random) -> Iterator[Case]:
    """Every precision in every mode: below, at and above a half, over an even and an odd number."""
    for n, mode in product(range(1, 65), MODES):
        whole = bits(chance, n)
        below = 64 - n
        fractions = (0, 1, 2**below - 1, 2**below // 2, 2**below // 2 + 1, 2**below // 2 - 1)
        fraction = chance.choice(fractions) % 2**below
        x = number(whole << below | fraction, chance.randint(-500, 500))
        yield Case(mode, n, any_signed(chance, x))
        yield Case(mode, n, any_finite(chance, LOWEST, HIGHEST))


def exponent_ends(chance: random.Random) -> Iterator[Case]:
    """Both ends of the working range: a carry over the highest exponent, and the lowest kept."""
    for e, s, n, mode in product((LOWEST, HIGHEST), (TOP_BIT, ONES), (1, 24, 63, 64), MODES):
        yield Case(mode, n, Finite(chance.random() < 0.5, e, s))


KINDS = (document_roundings, tasks_and_operands, every_rounding, exponent_ends)


# Lines that are not a case: a mode code names no task, or a field is missing, one too many or ill made.
NO_CASES = """\
round
round 2 64
round 2 zero
round 7 64 zero
round 4294967295 64 zero
round 4294967296 64 zero
round -2 64 zero
round 2 4294967296 zero
round 2 64 zero zero
round 2 64 zero 0
round 2 64  zero
round  2 64 zero
round2 64 zero
rounds 2 64 zero
Round 2 64 zero
round 2 64 8000000000000000 0
round 2 64 + 8000000000000000
round 2 64 + 8000000000000000 2147483648
"""
