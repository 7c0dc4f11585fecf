"""Rates asked for: those of a block's vans, even and uneven ones at every mode and many precisions,
each refusal, and lines that are no call."""

from __future__ import annotations

import random
from itertools import product
from typing import Iterator

from depot_cases import RATES
from depot_calls import Calls
from model import AWAY, DOWN, EXACT, NEAR, STICKY, TRUNC, UP, ZERO, Record, Refused
from operands import LARGEST_WORD, number
from requests import ABOVE, BELOW, EQUAL, Rounded

MODES = (TRUNC, AWAY, NEAR, STICKY, UP, DOWN)
PRECISIONS = (1, 2, 24, 32, 53, 63, 64)
UNKNOWN = (EXACT, 7, LARGEST_WORD)
IMPRECISE = (0, 65, LARGEST_WORD)


def vans_of_a_block(chance: random.Random) -> Iterator[Calls]:
    """Which rates of the vans in a block came out even, on both sides, and that of a parked one."""
    calls = Calls()
    records = [Record(1, 0, 1000, 500, 90_000), Record(2, 7, 7, 40, 0), Record(3, 0, 2000, 500, 0),
               Record(4, 5, 8, 1, 0), Record(5, 0, 7, 0, 0)]
    calls.load(calls.due(records))
    wanted = {1: (EQUAL, EQUAL), 3: (EQUAL, EQUAL), 4: (BELOW, ABOVE), 5: (EQUAL, EQUAL)}
    for record in records:
        answers = [calls.rate(record.fuel, record.distance, mode, 64) for mode in (DOWN, UP)]
        if record.van == 2:
            assert answers == [Refused(5)] * 2
        else:
            assert tuple(answer.side for answer in answers) == wanted[record.van]
    calls.ask()
    yield calls


def known_rates(chance: random.Random) -> Iterator[Calls]:
    """Rates whose answers are written down here."""
    calls = Calls()
    wanted = (
        (1, 3, NEAR, 64, number(0xAAAA_AAAA_AAAA_AAAB, -65), ABOVE),
        (1, 3, TRUNC, 64, number(0xAAAA_AAAA_AAAA_AAAA, -65), BELOW),
        (3, 2, NEAR, 1, number(2, 0), ABOVE), (3, 2, DOWN, 2, number(3, -1), EQUAL),
        (1, 4, UP, 1, number(1, -2), EQUAL), (0, 5, UP, 64, ZERO, EQUAL),
        (LARGEST_WORD, 1, DOWN, 32, number(LARGEST_WORD, 0), EQUAL),
        (LARGEST_WORD, 1, DOWN, 31, number(LARGEST_WORD - 1, 0), BELOW),
        (LARGEST_WORD, 1, UP, 31, number(2**32, 0), ABOVE),
    )
    for *arguments, x, side in wanted:
        assert calls.rate(*arguments) == Rounded(x, side)
    yield calls


def every_mode(chance: random.Random) -> Iterator[Calls]:
    """The ends of fuel and distance, by every mode and many precisions."""
    calls = Calls()
    for rate, mode, precision in product(RATES, MODES, PRECISIONS):
        calls.rate(*rate, mode, precision)
    yield calls


def even_or_not(chance: random.Random) -> Iterator[Calls]:
    """Rates of just so many bits, asked for to as many bits and to one less."""
    calls = Calls()
    for mode, bits in product(MODES, (2, 3, 17, 31, 32)):
        whole = chance.getrandbits(bits) | 1 | 1 << (bits - 1)
        distance = 1 << chance.randint(0, 31)
        assert calls.rate(whole, distance, mode, bits).side == EQUAL
        assert calls.rate(whole, distance, mode, bits - 1).side != EQUAL
    yield calls


def any_rates(chance: random.Random) -> Iterator[Calls]:
    """Fuel and distance of any size."""
    calls = Calls()
    for mode in MODES * 20:
        fuel, distance = (chance.getrandbits(chance.randint(1, 32)) for _ in range(2))
        calls.rate(fuel, max(distance, 1), mode, chance.randint(1, 64))
    yield calls


def refused_rates(chance: random.Random) -> Iterator[Calls]:
    """Each row alone and with those above it; a rate of nothing over nothing."""
    calls = Calls()
    for code, precision, distance in product((NEAR, *UNKNOWN), (64, *IMPRECISE), (3, 0)):
        answer = calls.rate(1, distance, code, precision)
        row = 1 if code in UNKNOWN else 2 if precision in IMPRECISE else 5 if distance == 0 else None
        assert isinstance(answer, Rounded) if row is None else answer == Refused(row)
    assert calls.rate(0, 0, NEAR, 64) == Refused(5)
    yield calls


NO_CALLS = """\
rate
rate 2
rate 2 64
rate 2 64 1
rate 2 64 1 3 5
rate 4294967296 64 1 3
rate 2 4294967296 1 3
rate 2 64 4294967296 3
rate 2 64 1 4294967296
rate 2 64 -1 3
rate 2 64 one 3
rates 2 64 1 3
Rate 2 64 1 3
"""


def no_calls(chance: random.Random) -> Iterator[Calls]:
    """Lines that are no call of a rate."""
    calls = Calls()
    for line in NO_CALLS.splitlines():
        calls.no_call(line)
    yield calls


KINDS = (
    vans_of_a_block, known_rates, every_mode, even_or_not, any_rates, refused_rates, no_calls,
)
