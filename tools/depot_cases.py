"""Sequences of calls of a depot with blocks that nothing damaged: vans, rates and speeds at their
ends, full depots, and some blocks refused for their vans or count; and lines that are no call."""

from __future__ import annotations

import random
from itertools import permutations, product
from typing import Callable, Iterator

import rules
from depot_blocks import SAMPLE, blocks_of, moved_record, parked_record
from depot_calls import Calls
from make_blocks import STYLES, random_record, random_records
from model import FULL_COUNT, LAST_BLOCK, LAST_COUNT, Record
from operands import LARGEST_WORD, number

SPEEDS = (0, 1, 89_999, 90_000, 90_001, 90_002, LARGEST_WORD)
# Fuel and distance: both ends, a whole rate, and rates that no significand holds.
RATES = ((0, 1), (0, LARGEST_WORD), (LARGEST_WORD, 1), (1, LARGEST_WORD), (1, 1), (1, 3),
         (LARGEST_WORD, LARGEST_WORD), (LARGEST_WORD - 1, LARGEST_WORD), (LARGEST_WORD, 3),
         (2**31, 1), (1, 2**31))


def document_depot(chance: random.Random) -> Iterator[Calls]:
    """The example of document 01, and figures asked of a depot that took nothing."""
    calls = Calls()
    assert calls.ask() == 17
    calls.load(calls.due(SAMPLE))
    three_eighths = number(3, -3)
    assert rules.figures(calls.depot) == (three_eighths, three_eighths)
    calls.ask()
    yield calls


def sound_depots(chance: random.Random) -> Iterator[Calls]:
    """Depots of one to three blocks in every style, with figures asked for after each block."""
    for style, vans in product(STYLES, (1, 19, 20, 21, 40, 57)):
        calls = Calls()
        for block in blocks_of(random_records(chance, vans, style)):
            assert calls.load(block) is None
            calls.ask()
        yield calls


def rates(chance: random.Random) -> Iterator[Calls]:
    """Each rate alone, and the ends in pairs, in both orders."""
    alone = [(rate,) for rate in RATES]
    for taken in (*alone, *permutations(RATES[:5], 2)):
        calls = Calls()
        calls.load(calls.due([moved_record(van, *rate) for van, rate in enumerate(taken, 1)]))
        calls.ask()
        yield calls


def speeds(chance: random.Random) -> Iterator[Calls]:
    """Each speed with a van that moved and with one that was parked."""
    for speed in SPEEDS:
        for record in (moved_record(1, speed=speed), parked_record(1, speed)):
            calls = Calls()
            calls.load(calls.due([record]))
            assert calls.depot.over == (speed > 90_000)
            calls.ask()
            yield calls


def figures_of_nothing(chance: random.Random) -> Iterator[Calls]:
    """Figures of depots whose vans were all parked, or burnt nothing, and of both with one more."""
    for record in (parked_record, lambda van: moved_record(van, 0)):
        calls = Calls()
        for count in (FULL_COUNT, FULL_COUNT, 5):
            calls.ask()
            calls.load(calls.following(count, record))
        calls.ask()
        yield calls
        calls = Calls()
        calls.load(calls.following(FULL_COUNT, record))
        calls.ask()
        calls.load(calls.due([record(21), moved_record(22)]))
        calls.ask()
        yield calls


def vans(chance: random.Random) -> Iterator[Calls]:
    """The lowest and the highest van, after which no van is lawful; vans around the last one."""
    calls = Calls()
    assert calls.load(calls.due([moved_record(0)])) == 16
    assert calls.load(calls.due([moved_record(1), moved_record(1)])) == 16
    rising = [moved_record(van) for van in (*range(1, FULL_COUNT), LARGEST_WORD)]
    assert calls.load(calls.due(rising)) is None
    for van in (0, 1, 2**31, LARGEST_WORD - 1, LARGEST_WORD):
        assert calls.load(calls.due([moved_record(van)])) == 16
        calls.ask()
    yield calls
    for last in (1, 2**16 - 1, 2**31 - 1, 2**31, LARGEST_WORD - 1):
        calls = Calls()
        calls.hand_in(last_van=last)
        assert calls.load(calls.due([parked_record(last - 1)])) == 16
        assert calls.load(calls.due([parked_record(last)])) == 16
        assert calls.load(calls.due([parked_record(last + 1)])) is None
        yield calls


def full_depots(chance: random.Random) -> Iterator[Calls]:
    """Every block that a depot can take, with any rates; with the highest rates, for the highest
    vans."""
    calls = Calls()
    fill(calls, lambda van: random_record(chance, van, "mixed"))
    yield calls
    calls = Calls()
    calls.hand_in(last_van=LARGEST_WORD - (LAST_BLOCK + 1) * FULL_COUNT)
    fill(calls, lambda van: moved_record(van, LARGEST_WORD, 1, 90_001))
    yield calls


def fill(calls: Calls, record: Callable[[int], Record]) -> None:
    """Offers 204 full blocks, block 204 with 17 records, with 20 and with 16, and one block more;
    asks for figures now and then."""
    for _ in range(LAST_BLOCK):
        assert calls.load(calls.following(FULL_COUNT, record)) is None
        if calls.depot.blocks % 12 == 0:
            calls.ask()
    for count in (LAST_COUNT + 1, FULL_COUNT):
        assert calls.load(calls.following(count, record)) == 15
        calls.ask()
    assert calls.load(calls.following(LAST_COUNT, record)) is None
    calls.ask()
    assert calls.load(calls.following(1, record)) == 13
    calls.ask()


# Lines that are no call: a word is none, or a field is missing, one too many, ill made or too
# large.
NO_CALLS = """\

Fresh
 fresh
fresh 0
freshly
load
load512
load -1
load +1
load  512
load 512 512
load 0x200
load zero
load 1025
load 4294967295
load 4294967296
Load 512
asked
ask 1
 ask
figures
blocks
blocks 0
blocks 0 0
blocks 0 open
blocks 0 shut 0
blocks 0 0 0
blocks open 0
blocks 0 open 0 0
blocks 0 openclosed 0
blocks 4294967296 open 0
blocks 0 open 4294967296
blocks -1 open 0
vans
vans 0 0
vans 0 0 0 0
vans 4294967296 0 0
vans 0 4294967296 0
vans 0 0 4294967296
vans 0 0 -1
vans zero 0 0
sums
sums zero
sums zero zero zero
sums 0 0
sums + 8000000000000000 0
sums zero + 8000000000000000
sums zero + 800000000000000 0
sums zero + 8000000000000000 2147483648
sums - zero zero
"""


def no_calls(chance: random.Random) -> Iterator[Calls]:
    """Lines that are no call, for a depot that has taken a block."""
    calls = Calls()
    calls.load(calls.next_block(chance))
    for line in NO_CALLS.splitlines():
        calls.no_call(line)
    yield calls


KINDS = (
    document_depot, sound_depots, rates, speeds, figures_of_nothing, vans, full_depots, no_calls,
)
