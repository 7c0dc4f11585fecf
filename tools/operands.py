"""Numbers for the cases, and numbers and refusals as the lines have them."""

from __future__ import annotations

import random

import model
from model import ZERO, Finite, Number, Refused
from requests import ABOVE, BELOW, EQUAL, Rounded

LOWEST, HIGHEST = model.WORKING[0], model.WORKING[-1]
TOP_BIT = 2**63
ONES = 2**64 - 1
LARGEST_WORD = 2**32 - 1
MARKS = {BELOW: "below", EQUAL: "exact", ABOVE: "above"}
# Each way of being unfit: by the top bit, and by the exponent.
UNFIT = (*(Finite(False, 0, s) for s in (0, 1, TOP_BIT >> 1, TOP_BIT - 1)),
         *(Finite(False, e, TOP_BIT)
           for e in (-2**31, LOWEST - 2, LOWEST - 1, HIGHEST + 1, HIGHEST + 2, 2**31 - 1)))


def number_text(x: Number) -> str:
    """A number as a line has it."""
    if x is ZERO:
        return "zero"
    return f"{'-' if x.negative else '+'} {x.significand:016x} {x.exponent}"


def arguments_text(code: int, precision: int, first: Number, second: Number) -> str:
    """A mode code, a precision and two operands as a line has them."""
    return f"{code} {precision} {number_text(first)} {number_text(second)}"


def refusal_text(refusal: Refused) -> str:
    """A refusal as a line has it."""
    return f"refused {refusal.number}"


def answer_text(answer: Number | Refused) -> str:
    """A number or a refusal as a line has it."""
    return refusal_text(answer) if isinstance(answer, Refused) else number_text(answer)


def marked_text(answer: Rounded | Refused) -> str:
    """A number with where it lies against the exact result, or a refusal, as a line has it."""
    if isinstance(answer, Refused):
        return refusal_text(answer)
    return f"{number_text(answer.number)} {MARKS[answer.side]}"


def number(whole: int, power: int) -> Number:
    """whole x 2^power, whole having at most 64 significant bits."""
    if whole == 0:
        return ZERO
    magnitude = abs(whole)
    excess = magnitude.bit_length() - 64
    significand = magnitude >> excess if excess > 0 else magnitude << -excess
    assert excess <= 0 or significand << excess == magnitude
    return Finite(whole < 0, power + excess + 63, significand)


def negated(x: Number) -> Number:
    """-x."""
    return x if x is ZERO else x._replace(negative=not x.negative)


def signed(x: Number, negative: bool) -> Number:
    """x, or -x where negative is set."""
    return negated(x) if negative else x


def any_signed(chance: random.Random, x: Number) -> Number:
    """x or -x."""
    return signed(x, chance.random() < 0.5)


def any_finite(chance: random.Random, lowest: int, highest: int) -> Finite:
    """A number of either sign with an exponent from lowest to highest."""
    significand = chance.getrandbits(64) | TOP_BIT
    if chance.random() < 0.3:
        significand &= ONES << chance.randrange(64) | TOP_BIT
    return Finite(chance.random() < 0.5, chance.randint(lowest, highest), significand)


def bits(chance: random.Random, length: int) -> int:
    """A whole number of this many bits."""
    return chance.getrandbits(length) | 1 << length - 1
