"""Sequences of calls of a depot whose state is handed in: each clause of fitness on both sides."""

from __future__ import annotations

import random
from itertools import product
from typing import Iterator

import model
import rules
from depot_blocks import SOME_DAMAGED, moved_record, parked_record
from depot_calls import Calls
from make_blocks import random_record
from model import LAST_BLOCK, LAST_COUNT, ZERO, Finite
from operands import LARGEST_WORD, ONES, TOP_BIT, number

MOST = model.MOST_RECORDS
# For each clause of fitness, states on its fit side and on its unfit side.
FIT = (
    dict(moved=MOST), dict(parked=MOST), dict(moved=1, parked=MOST - 1),
    dict(moved=MOST - 1, parked=1), dict(moved=2048, parked=2048), dict(moved=1, over=1),
    dict(parked=1, over=1), dict(moved=MOST, over=MOST), dict(moved=7, parked=5, over=12),
    dict(blocks=LAST_BLOCK), dict(blocks=LAST_BLOCK, closed=True), dict(blocks=205, closed=True),
    dict(blocks=LARGEST_WORD, closed=True), dict(closed=True), dict(blocks=LAST_BLOCK - 1),
    dict(last_van=LARGEST_WORD), dict(blocks=3, last_van=0),
)
UNFIT = (
    dict(moved=MOST + 1), dict(parked=MOST + 1), dict(moved=1, parked=MOST),
    dict(moved=MOST, parked=1), dict(moved=2049, parked=2048), dict(moved=LARGEST_WORD),
    dict(parked=LARGEST_WORD), dict(moved=LARGEST_WORD, parked=LARGEST_WORD),
    dict(moved=LARGEST_WORD, parked=1), dict(moved=1, parked=LARGEST_WORD),
    dict(moved=2**31, parked=2**31), dict(over=1), dict(moved=1, over=2), dict(parked=1, over=2),
    dict(over=LARGEST_WORD),
    dict(moved=MOST, over=MOST + 1), dict(moved=7, parked=5, over=13),
    dict(moved=MOST + 1, over=MOST + 1), dict(blocks=205), dict(blocks=206), dict(blocks=2**16),
    dict(blocks=LARGEST_WORD), dict(blocks=205, over=1),
)
FIT_SUMS = (
    ZERO, *(Finite(False, e, s) for e in (-64, -63, 0, 63, 64) for s in (TOP_BIT, ONES)),
)
UNFIT_SUMS = (
    *(Finite(False, e, TOP_BIT) for e in (-2**31, -65_535, -66, -65, 65, 66, 65_536, 2**31 - 1)),
    *(Finite(True, e, TOP_BIT) for e in (-65, -64, 0, 64, 65)),
    *(Finite(False, e, s) for e in (0, 64) for s in (0, 1, TOP_BIT >> 1, TOP_BIT - 1)),
    Finite(False, -65, ONES), Finite(False, 65, ONES), Finite(True, 0, 0),
)


def judged(chance: random.Random, **fields) -> Calls:
    """A state handed in, a block that is due, and figures asked for before and after."""
    calls = Calls()
    calls.hand_in(**fields)
    calls.ask()
    van = min(calls.depot.last_van + 1, LARGEST_WORD)
    calls.load(calls.due([random_record(chance, van, "mixed")]))
    calls.ask()
    return calls


def fit_states(chance: random.Random) -> Iterator[Calls]:
    """States on the fit side of each clause."""
    for fields in FIT:
        calls = judged(chance, **fields)
        assert rules.is_fit(calls.states[0])
        yield calls
    for low, high in (*((x, ZERO) for x in FIT_SUMS), *((ZERO, x) for x in FIT_SUMS)):
        calls = judged(chance, moved=9, low_sum=low, high_sum=high)
        assert rules.is_fit(calls.states[0])
        yield calls


def unfit_states(chance: random.Random) -> Iterator[Calls]:
    """States on the unfit side of each clause."""
    sums = [(x, ZERO) for x in UNFIT_SUMS] + [(ZERO, x) for x in UNFIT_SUMS]
    for fields in (*UNFIT, *(dict(moved=9, low_sum=low, high_sum=high) for low, high in sums)):
        calls = judged(chance, **fields)
        assert [offer.row for offer in calls.offers] == [3] and calls.asked == [3, 3]
        yield calls


def left_unfit(chance: random.Random) -> Iterator[Calls]:
    """Fit states that a lawful block makes unfit, by their vans or by a sum; then another block."""
    ends = dict(moved=9, low_sum=Finite(False, 64, ONES), high_sum=Finite(False, 64, ONES))
    for fields, records in (
            (dict(moved=MOST), [moved_record(1)]), (dict(parked=MOST), [parked_record(1)]),
            (dict(moved=MOST - 19), [moved_record(van) for van in range(1, 21)]),
            (dict(parked=MOST - 19, over=9), [parked_record(van, 90_001) for van in range(1, 21)]),
            (ends, [moved_record(1, 1, LARGEST_WORD)]), (ends, [moved_record(1, LARGEST_WORD, 1)]),
            (ends, [moved_record(van, LARGEST_WORD, 1) for van in range(1, 21)])):
        calls = Calls()
        calls.hand_in(**fields)
        calls.ask()
        assert calls.load(calls.due(records)) is None and not rules.is_fit(calls.depot)
        calls.ask()
        assert calls.load(calls.due([moved_record(100)])) == 3
        yield calls


def figures_of_states(chance: random.Random) -> Iterator[Calls]:
    """Figures of any fit sums and moved counts, the low sum above the high one among them."""
    calls = Calls()
    for moved in (0, 1, 2, 3, 10, 205, 4_095, MOST):
        for _ in range(6):
            low, high = (Finite(False, chance.randint(-64, 64), chance.getrandbits(64) | TOP_BIT)
                         for _ in range(2))
            calls.hand_in(moved=moved, low_sum=low, high_sum=high)
            calls.ask()
    yield calls


def last_block(chance: random.Random) -> Iterator[Calls]:
    """Blocks 203 and 204 with each count, after a state handed in."""
    for blocks, count in product((LAST_BLOCK - 1, LAST_BLOCK), (1, 15, 16, 17, 19, 20)):
        calls = Calls()
        calls.hand_in(blocks=blocks, last_van=80, moved=40, parked=40, over=3,
                      low_sum=number(1, 2), high_sum=number(1, 2))
        taken = calls.load(calls.next_block(chance, count))
        assert taken == (15 if blocks == LAST_BLOCK and count > LAST_COUNT else None)
        calls.ask()
        calls.load(calls.next_block(chance, 1))
        yield calls


def anything(chance: random.Random) -> Iterator[Calls]:
    """Blocks that are due or damaged, parts of blocks, questions and states in any order."""
    for _ in range(20):
        calls = Calls()
        for _ in range(7):
            block = calls.next_block(chance, chance.choice((1, 13, 20, 20, 20, 20)))
            kind = chance.randrange(8)
            if kind < 3:
                calls.load(block)
            elif kind < 6:
                for piece in chance.choice(SOME_DAMAGED)(chance, [block]):
                    calls.load(piece)
            elif kind == 6:
                calls.ask()
            else:
                calls.hand_in(closed=False, blocks=chance.randrange(204),
                              moved=chance.randrange(2_000))
        calls.ask()
        yield calls


KINDS = (fit_states, unfit_states, left_unfit, figures_of_states, last_block, anything)
