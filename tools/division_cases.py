"""Cases of division: quotients, and the values after single steps."""

from __future__ import annotations

import random
from itertools import combinations, cycle, product
from typing import Iterator, NamedTuple

import model
import requests
from division_operands import (
    DIGITS, REMAINDERS, any_pair, close, exactly, first_rounded, pair, results, vanishing,
    with_signs,
)
from model import AWAY, DOWN, NEAR, STICKY, TRUNC, UP, ZERO, Finite, Number, Refused
from operands import (
    HIGHEST, LARGEST_WORD, LOWEST, ONES, TOP_BIT, UNFIT, answer_text, any_finite, any_signed,
    arguments_text, bits, marked_text, number, refusal_text, signed,
)
from requests import ABOVE, BELOW, EQUAL, Rounded

MODES = (TRUNC, AWAY, NEAR, STICKY, UP, DOWN)
SIGNS = (False, True)
LAST_STEP = 32
STEPS = range(1, LAST_STEP + 1)
LEAST, MOST = model.ADMISSIBLE[0], model.ADMISSIBLE[-1]
# Each way of not being admissible; the last six are working numbers.
NOT_ADMISSIBLE = (*UNFIT, *(Finite(False, e, TOP_BIT)
                            for e in (LOWEST, LEAST - 2, LEAST - 1, MOST + 1, MOST + 2, HIGHEST)))


class Quotient(NamedTuple):
    """A mode code, a precision, a dividend and a divisor."""

    code: int
    precision: int
    dividend: Number
    divisor: Number

    @property
    def text(self) -> str:
        """The fields of the case."""
        return f"div {arguments_text(*self)}"

    @property
    def answer(self) -> str:
        """What the model answers."""
        return marked_text(requests.divide_with_side(self.dividend, self.divisor, self.code,
                                                     self.precision))


class Step(NamedTuple):
    """A wanted step, a mode code, a precision, a dividend and a divisor."""

    wanted: int
    code: int
    precision: int
    dividend: Number
    divisor: Number

    @property
    def text(self) -> str:
        """The fields of the case."""
        return f"step {self.wanted} {arguments_text(*self[1:])}"

    @property
    def answer(self) -> str:
        """What the model answers."""
        return answer_text(model.step(self.wanted, self.dividend, self.divisor, self.code,
                                      self.precision))


Case = Quotient | Step


def any_task(chance: random.Random) -> tuple[int, int]:
    """A mode and a precision."""
    return chance.choice(MODES), chance.randint(1, 64)


# ---------------------------------------------------------------------------
# Kinds of case: what document 01 names
# ---------------------------------------------------------------------------

def document_quotients(chance: random.Random) -> Iterator[Case]:
    """P1 to P8 and P10 of document 01, the ends of its exponents, and how a divider goes astray."""
    third = number(0xAAAA_AAAA_AAAA_AAAB, -65)
    lower_third = number(0xAAAA_AAAA_AAAA_AAAA, -65)
    known = (
        (NEAR, 64, 1, 3, third, ABOVE), (TRUNC, 64, 1, 3, lower_third, BELOW),
        (STICKY, 64, 1, 3, third, ABOVE), (UP, 1, 1, 3, number(1, -1), ABOVE),
        (UP, 1, -1, 3, number(-1, -2), ABOVE), (NEAR, 1, 3, 2, number(2, 0), ABOVE),
        (NEAR, 2, 5, 4, number(1, 0), BELOW), (NEAR, 2, 7, 4, number(2, 0), ABOVE),
        (NEAR, 64, 0, -5, ZERO, EQUAL),
        # Rounding twice, and up taken as away.
        (NEAR, 2, 11, 8, number(3, -1), ABOVE), (NEAR, 1, 11, 8, number(1, 0), BELOW),
        (UP, 1, 1, -3, number(-1, -2), ABOVE), (DOWN, 1, -1, 3, number(-1, -1), BELOW),
        (AWAY, 1, -1, 3, number(-1, -1), BELOW),
    )
    one, least, most = number(1, 0), number(1, LEAST), number(1, MOST)
    ends = (
        (least, one, least), (number(1, LEAST - 1), one, Refused(3)),
        (one, least, number(1, -LEAST)), (one, number(1, LEAST - 1), Refused(4)),
        (most, one, most), (number(1, MOST + 1), one, Refused(3)),
        (one, most, number(1, -MOST)), (one, number(1, MOST + 1), Refused(4)),
        (most, least, number(1, 32_830)), (least, most, number(1, -32_830)),
    )
    wanted = {Quotient(mode, n, number(p, 0), number(d, 0)): Rounded(x, side)
              for mode, n, p, d, x, side in known}
    wanted |= {Quotient(NEAR, 64, p, d): x if isinstance(x, Refused) else Rounded(x, EQUAL)
               for p, d, x in ends}
    for case, x in wanted.items():
        assert case.answer == marked_text(x)
        yield case
        yield Step(LAST_STEP, *case)


def document_steps(chance: random.Random) -> Iterator[Case]:
    """P9 of document 01, the seeds, and steps that c(t) without 2^-31 would change."""
    for k, entry in ((0, 255), (6, 244), (127, 128)):
        for e, negative in product((LEAST, 0, MOST), SIGNS):
            case = Step(1, NEAR, 64, number(1, 0), Finite(negative, e, 128 + k << 56))
            assert case.answer == answer_text(Finite(negative, -1 - e, entry << 56))
            yield case
    for divisor in (3, 5, 7, *(bits(chance, 64) for _ in range(12))):
        p, d = any_finite(chance, -9, 9), number(divisor, 0)
        for s, t in ((1, 3), (4, 5)):
            x, y = map(model.value_of, results(p, d, s, t))
            assert results(p, d, t + 1) != [model.round_value(x * (2 - y), TRUNC, 32)]
            yield Step(t + 1, *any_task(chance), p, d)


# ---------------------------------------------------------------------------
# Kinds of case: refusals
# ---------------------------------------------------------------------------

def codes_and_precisions(chance: random.Random) -> Iterator[Case]:
    """Every code and some beyond, with precisions at and beyond both ends."""
    codes = (*range(9), 255, 2**31, LARGEST_WORD)
    precisions = (0, 1, 2, 63, 64, 65, 66, 128, 2**31, LARGEST_WORD)
    for code, n in product(codes, precisions):
        yield Quotient(code, n, *any_pair(chance, 2))
        yield Step(chance.choice(STEPS), code, n, *any_pair(chance, 2))


def step_numbers(chance: random.Random) -> Iterator[Case]:
    """Steps that there are not, in every mode."""
    numbers = (0, 33, 34, 63, 64, 255, 256, 257, 2**16 + 1, 2**31, 2**31 + 32, LARGEST_WORD)
    for wanted, mode in product(numbers, MODES):
        case = Step(wanted, mode, chance.randint(1, 64), *any_pair(chance, 9))
        assert case.answer == refusal_text(Refused(6))
        yield case


def not_admissible(chance: random.Random) -> Iterator[Case]:
    """Each way of not being admissible, in each place."""
    for x, negative in product(NOT_ADMISSIBLE, SIGNS):
        x, other = signed(x, negative), any_finite(chance, -1, 1)
        for row, operands in ((3, (x, other)), (4, (other, x)), (3, (x, x))):
            for case in (Quotient(*any_task(chance), *operands),
                         Step(chance.choice(STEPS), *any_task(chance), *operands)):
                assert case.answer == refusal_text(Refused(row))
                yield case


def zero_dividends(chance: random.Random) -> Iterator[Case]:
    """Zero divided in every mode, and every step of it."""
    for mode, negative in product(MODES, SIGNS):
        d = signed(any_finite(chance, -99, 99), negative)
        case = Quotient(mode, chance.randint(1, 64), ZERO, d)
        assert case.answer == marked_text(Rounded(ZERO, EQUAL))
        yield case
    for wanted, reach in product(STEPS, (9, MOST)):
        case = Step(wanted, *any_task(chance), ZERO, any_finite(chance, -reach, reach))
        assert wanted < 9 or case.answer == answer_text(ZERO)
        yield case


def zero_divisors(chance: random.Random) -> Iterator[Case]:
    """Zero as the divisor in every mode, and for every step."""
    dividends = (ZERO, number(1, 0), number(-5, 0), Finite(False, MOST, ONES), number(-1, LEAST))
    quotients = (Quotient(mode, chance.randint(1, 64), p, ZERO)
                 for mode, p in product(MODES, dividends))
    steps = (Step(wanted, *any_task(chance), chance.choice(dividends), ZERO) for wanted in STEPS)
    for case in (*quotients, *steps):
        assert case.answer == refusal_text(Refused(5))
        yield case


def order_of_refusals(chance: random.Random) -> Iterator[Case]:
    """Every set of rows 1 to 6 that can apply at once: the lowest is returned."""
    bad = ((6, 0, 0, number(1, MOST + 1)), (7, 65, 33, number(-1, LEAST - 1)),
           (LARGEST_WORD, LARGEST_WORD, LARGEST_WORD, Finite(False, 0, TOP_BIT - 1)))
    met = set()
    for choice in product((0, 1), (0, 2), (0, 3), (0, 4, 5), (0, 6)):
        rows = {row for row in choice if row}
        met |= set(combinations(sorted(rows), 2))
        for bad_code, bad_precision, bad_step, unfit in bad:
            code = bad_code if 1 in rows else chance.choice(MODES)
            n = bad_precision if 2 in rows else chance.randint(1, 64)
            p = unfit if 3 in rows else any_finite(chance, 0, 9)
            d = unfit if 4 in rows else ZERO if 5 in rows else any_finite(chance, 0, 9)
            wanted = bad_step if 6 in rows else chance.choice(STEPS)
            cases = [Step(wanted, code, n, p, d)]
            if 6 not in rows:
                cases.append(Quotient(code, n, p, d))
            for case in cases:
                assert not rows or case.answer == refusal_text(Refused(min(rows)))
                yield case
    assert met == set(combinations(range(1, 7), 2)) - {(4, 5)}


# ---------------------------------------------------------------------------
# Kinds of case: quotients
# ---------------------------------------------------------------------------

def exact_quotients(chance: random.Random) -> Iterator[Case]:
    """Quotients that n bits hold and n - 1 bits do not, in every mode."""
    for n, mode in product(range(1, 65), MODES):
        p, d = exactly(chance, bits(chance, n) | 1)
        exact = model.value_of(p) / model.value_of(d)
        assert model.value_of(model.divide(p, d, mode, n)) == exact
        assert n == 1 or model.value_of(model.divide(p, d, mode, n - 1)) != exact
        yield Quotient(mode, n, p, d)


def ties(chance: random.Random) -> Iterator[Case]:
    """Quotients in the middle between two numbers of n bits, over an even and an odd one."""
    others = cycle((TRUNC, AWAY, STICKY, UP, DOWN))
    for n, odd in product(range(1, 64), (0, 1)):
        whole = bits(chance, n) & ~1 | odd if n > 1 else 1
        p, d = exactly(chance, 2 * whole + 1)
        middle = model.value_of(p) / model.value_of(d)
        below, above = (model.value_of(model.divide(p, d, mode, n)) for mode in (TRUNC, AWAY))
        assert below != above and below + above == 2 * middle
        yield Quotient(NEAR, n, p, d)
        yield Quotient(next(others), n, p, d)


def close_quotients(chance: random.Random) -> Iterator[Case]:
    """Quotients that miss a number of n bits, or the middle between two, by as little as can be: by
    at most 2^-66 of it from 4 bits on."""
    others = cycle((TRUNC, AWAY, STICKY, UP, DOWN))
    for length, rest in product(range(1, 66), (1, -1)):
        if length <= 64:
            p, d = close(chance, length, rest)
            for mode in (NEAR, next(others), next(others)):
                yield Quotient(mode, length, p, d)
            yield Quotient(next(others), 64, *close(chance, length, rest))
        if length >= 2:
            p, d = close(chance, length, rest)
            for mode in (NEAR, next(others)):
                yield Quotient(mode, length - 1, p, d)


def close_in_every_mode(chance: random.Random) -> Iterator[Case]:
    """Such quotients of 64 bits in every mode, with their last digits and the sums."""
    for length, rest, _ in product((64, 65), (1, -1), range(6)):
        p, d = close(chance, length, rest)
        for mode in MODES:
            yield Quotient(mode, 64, p, d)
        for wanted in (23, 29, 30, 31):
            yield Step(wanted, *any_task(chance), p, d)


def carries(chance: random.Random) -> Iterator[Case]:
    """Quotients below a power of two that rounding away raises to it, as their first digit.  With
    64 bits there is none."""
    modes = cycle((NEAR, AWAY, UP, DOWN, TRUNC, STICKY))
    for n in range(1, 64):
        divisor = bits(chance, 64) | 2**40
        less = chance.randint(1, 2**min(63 - n, 38))
        p, d = pair(chance, divisor - less, divisor)
        away, digit = model.divide(p, d, AWAY, n), results(p, d, 11)[0]
        assert p.significand < d.significand and away.significand == digit.significand == TOP_BIT
        for mode in (next(modes), next(modes)):
            yield Quotient(mode, n, p, d)
        yield Step(11, next(modes), n, p, d)


def exponent_ends(chance: random.Random) -> Iterator[Case]:
    """Exponents at both ends of the admissible range and in its middle, in every pair."""
    exponents = (LEAST, LEAST + 1, -1, 0, 1, MOST - 1, MOST)
    significands = (TOP_BIT, ONES, 0xAAAA_AAAA_AAAA_AAAB)
    for e, f in product(exponents, repeat=2):
        for s in (chance.choice(significands), bits(chance, 64)):
            p = any_signed(chance, Finite(False, e, s))
            d = any_signed(chance, Finite(False, f, chance.choice(significands)))
            yield Quotient(*any_task(chance), p, d)


# ---------------------------------------------------------------------------
# Kinds of case: steps
# ---------------------------------------------------------------------------

def table_edges(chance: random.Random) -> Iterator[Case]:
    """Both edges of every interval of the seed table as divisors: the seed, a later step of the
    reciprocal and a quotient."""
    later = cycle((2, 3, 4, 5, 6))
    for k in range(128):
        for edge in (128 + k << 56, (129 + k << 56) - 1):
            d = any_signed(chance, Finite(False, chance.randint(-99, 99), edge))
            seed = Finite(d.negative, -1 - d.exponent, model.table_entry(k) << 56)
            assert abs(model.value_of(seed) * model.value_of(d) - 1) < 2**-8 + 2**-9
            case = Step(1, *any_task(chance), any_finite(chance, -9, 9), d)
            assert case.answer == answer_text(seed)
            yield case
            yield Step(next(later), *any_task(chance), any_finite(chance, -9, 9), d)
            yield Quotient(*any_task(chance), any_finite(chance, -9, 9), d)


def every_step(chance: random.Random) -> Iterator[Case]:
    """Every step, on operands of all sorts.  Some divisors, times 24 bits, are 2^87 + 1 or 2^87 - 1;
    the remainders of a power of two are then as small as can be."""
    repeating = (0xEBFF_FFF8_A000_003B, 0xF61B_D32A_CF15_A2B7, 0x8524_924D_4DB6_DB8F)
    significands = (TOP_BIT, TOP_BIT + 1, ONES, ONES - 1, 0xAAAA_AAAA_AAAA_AAAB,
                    0xFFFF_FFFF_0000_0000, 0xFFFF_FFFE_FFFF_FFFF, 0x8000_0000_FFFF_FFFF,
                    0xFFFF_FF00_0000_0001)
    assert all(0 in ((2**87 + 1) % d, (2**87 - 1) % d) for d in repeating)
    pairs = [(number(1, 0), number(3, 0)), (number(11, 0), number(-8, 0))]
    pairs += [pair(chance, TOP_BIT, d) for d in repeating]
    pairs += [pair(chance, chance.choice(significands), d) for d in significands]
    pairs += [any_pair(chance, 99) for _ in range(10)]
    for p, d in pairs:
        task = any_task(chance)
        for wanted in STEPS:
            yield Step(wanted, *task, p, d)


def steps_at_the_ends(chance: random.Random) -> Iterator[Case]:
    """Every step, on operands with exponents at the ends of the admissible range."""
    for e, f in product((LEAST, MOST), repeat=2):
        task = any_task(chance)
        p, d = any_finite(chance, e, e), any_finite(chance, f, f)
        for wanted in STEPS:
            yield Step(wanted, *task, p, d)


def halves(chance: random.Random) -> Iterator[Case]:
    """Divisors whose halves are as small or large as can be: the halves and what they go into."""
    highs = (2**31, 2**31 + 1, 2**32 - 1, chance.getrandbits(31) | 2**31)
    for high, low in product(highs, (0, 1, 2**31, 2**32 - 1)):
        p, d = pair(chance, bits(chance, 64), high << 32 | low)
        assert (results(p, d, 8) == [ZERO]) == (low == 0)
        for wanted in (2, 7, 8, 12, 13, 14, 15, 19, 25):
            yield Step(wanted, *any_task(chance), p, d)
        yield Quotient(*any_task(chance), p, d)


def vanishing_remainders(chance: random.Random) -> Iterator[Case]:
    """Remainders that are zero after one, two and three digits: every step from the last digit on."""
    for digits, _ in product((1, 2, 3), range(6)):
        p, d = vanishing(chance, digits)
        for wanted in range(REMAINDERS[digits - 1] - 4, LAST_STEP + 1):
            yield Step(wanted, *any_task(chance), p, d)
        for mode in MODES:
            yield Quotient(mode, chance.randint(1, 64), p, d)


def signs_of_digits(chance: random.Random) -> Iterator[Case]:
    """Every pattern of signs that the four digits can have: the digits, their sums, a quotient."""
    for signs in product(SIGNS, repeat=4):
        p, d = with_signs(chance, signs)
        for wanted in (*DIGITS, 30, 31):
            yield Step(wanted, *any_task(chance), p, d)
        yield Quotient(*any_task(chance), p, d)


def first_digits(chance: random.Random) -> Iterator[Case]:
    """First digits rounded by nearly a unit, and by nearly none: they, remainders and a quotient."""
    for far, _ in product((False, True), range(10)):
        p, d = first_rounded(chance, far)
        s, high, digit = map(model.value_of, results(p, d, 6, 10, 11))
        units = abs(digit - s * high) / model.power_of_two(model.exponent_of(digit) - 23)
        assert 1 - units < 2**-28 if far else units < 2**-28
        for wanted in (11, 15, 17, 21):
            yield Step(wanted, *any_task(chance), p, d)
        yield Quotient(*any_task(chance), p, d)


# ---------------------------------------------------------------------------
# Kinds of case: both
# ---------------------------------------------------------------------------

def every_precision(chance: random.Random) -> Iterator[Case]:
    """Every precision in every mode: a quotient and a step."""
    for n, mode in product(range(1, 65), MODES):
        yield Quotient(mode, n, *any_pair(chance, 3))
        yield Step(chance.choice(STEPS), mode, n, *any_pair(chance, 3))


def anything(chance: random.Random) -> Iterator[Case]:
    """Operands from all over the admissible range."""
    for _ in range(200):
        p, d = any_finite(chance, LEAST, MOST), any_finite(chance, LEAST, MOST)
        yield Quotient(*any_task(chance), p, d)
        yield Step(chance.choice(STEPS), *any_task(chance), p, d)


KINDS = (
    document_quotients, document_steps, codes_and_precisions, step_numbers, not_admissible,
    zero_dividends, zero_divisors, order_of_refusals, exact_quotients, ties, close_quotients,
    close_in_every_mode, carries, exponent_ends, table_edges, every_step, steps_at_the_ends, halves,
    vanishing_remainders, signs_of_digits, first_digits, every_precision, anything,
)


# Lines that are not a case: the wanted step is missing, in the wrong place or ill made, a word is
# none, or a field is missing, one too many or too large.
NO_CASES = """\
div
div2 64 zero zero
div 2 64 zero
div 2 64 zero zero zero
div 32 2 64 zero zero
div 2 64 zero / zero
div  2 64 zero zero
 div 2 64 zero zero
Div 2 64 zero zero
divide 2 64 zero zero
div -2 64 zero zero
div 4294967296 64 zero zero
div 2 4294967296 zero zero
div 2 64 + 8000000000000000 0
div 2 64 + 8000000000000000 2147483648 + 8000000000000000 0
div 2 64 + 8000000000000000 0 + 800000000000000 0
step
step 32
step32 2 64 zero zero
step 2 64 zero zero
step 2 64 zero zero 32
step 32 2 64 zero
step 32 2 64 zero zero 32
step 32 2 64 zero zero zero
step 32 div 2 64 zero zero
step  32 2 64 zero zero
 step 32 2 64 zero zero
Step 32 2 64 zero zero
steps 32 2 64 zero zero
step -1 2 64 zero zero
step +1 2 64 zero zero
step 0x1 2 64 zero zero
step 1. 2 64 zero zero
step zero 2 64 zero zero
step 4294967296 2 64 zero zero
step 99999999999999999999999 2 64 zero zero
step 32 4294967296 64 zero zero
step 32 2 4294967296 zero zero
step 32 2 64 + 8000000000000000 zero
step 32 2 64 zero + 8000000000000000 -2147483649
"""
