"""Sequences of calls of a depot in both editions: bytes 6 and 7, sixth fields, blocks of another
edition than the first one's, and states handed in with any edition; and lines that are no call."""

from __future__ import annotations

import random
import struct
from dataclasses import replace
from itertools import product
from typing import Iterator

import model
import rules
from damage_cases import damaged_depot
from depot_blocks import (
    EDITION, END, SAMPLE, SIXTH, SOME_DAMAGED, START, VAN, blocks_of, flipped, moved_record,
    parked_record, place, with_check,
)
from depot_calls import Calls
from make_blocks import STYLES, put, put_word, random_records
from model import FULL_COUNT, LAST_BLOCK, LAST_COUNT, Record
from operands import LARGEST_WORD, number
from requests import EDITIONS, seal

# What may stand in bytes 6 and 7; only the first two are editions.
HEADERS = (0, 1, 2, 255, 256, 257, 65_535)
# What a state may remember.
REMEMBERED = (0, 1, 2, 7, 255, 256, 65_536, 65_537, 2**31, 2**31 + 1, LARGEST_WORD)


def with_edition(block: bytes, edition: int) -> bytes:
    """The block with other bytes 6 and 7, its records as they were and its check right again."""
    return put(block, EDITION, struct.pack("<H", edition))


def begun(chance: random.Random, edition: int) -> Calls:
    """A depot that has taken a full block of an edition."""
    calls = Calls()
    assert calls.load(calls.next_block(chance, edition=edition)) is None
    return calls


def document_editions(chance: random.Random) -> Iterator[Calls]:
    """The example of document 01 in edition 1: its own figures."""
    calls = Calls()
    calls.load(calls.due(SAMPLE, 1))
    assert rules.figures(calls.depot) == (number(3, -3), number(3, -3))
    calls.ask()
    yield calls


def same_records(chance: random.Random) -> Iterator[Calls]:
    """The same records in each edition, in every style: the states differ in the edition alone."""
    for style, vans in product(STYLES, (19, 45)):
        records = random_records(chance, vans, style)
        left = []
        for edition in EDITIONS:
            calls = Calls()
            for block in blocks_of(records, edition):
                assert calls.load(block) is None
            calls.ask()
            left.append(calls.depot)
            yield calls
        assert left[0] == replace(left[1], edition=0) and left[1].edition == 1


def headers(chance: random.Random) -> Iterator[Calls]:
    """Every value of bytes 6 and 7 over the records of each edition, for a depot that has taken no
    block and for one of each edition: with a van that moved, and with parked vans, whose sixth field
    is the same in both."""
    for edition, record in product(EDITIONS, (moved_record, parked_record)):
        for known in (None, *EDITIONS):
            for header in HEADERS:
                calls = Calls() if known is None else begun(chance, known)
                van = calls.depot.last_van + 1
                row = calls.load(with_edition(calls.due([record(van)], edition), header))
                sound = header == edition or record is parked_record
                wanted = (15 if header not in EDITIONS else
                          21 if known not in (None, header) else None if sound else 16)
                assert row == wanted
                yield calls


def one_bit(chance: random.Random) -> Iterator[Calls]:
    """Each bit of bytes 6 and 7 alone, over the records of each edition: only the lowest is an
    edition."""
    for edition in EDITIONS:
        calls = Calls()
        block = calls.due([moved_record(1, distance=7)], edition)
        for bit in range(16):
            wanted = 15 if bit > 0 else None if edition == 1 else 16
            if wanted is not None:
                assert calls.load(with_edition(block, 1 << bit)) == wanted
        assert calls.load(block) is None
        yield calls


def first_refused(chance: random.Random) -> Iterator[Calls]:
    """A first block that is refused by each row is not remembered: one of the other edition is
    taken, and then no more of the first."""
    for edition in EDITIONS:
        other = 1 - edition
        for row in (9, 14, 15, 16):
            calls = Calls()
            block = calls.next_block(chance, edition=edition)
            assert calls.load(refused(block, row)) == row and calls.depot.edition == 0
            assert calls.load(calls.next_block(chance, edition=other)) is None
            assert calls.load(calls.next_block(chance, 5, edition)) == 21
            assert calls.load(calls.next_block(chance, 5)) is None
            calls.ask()
            yield calls


def refused(block: bytes, row: int) -> bytes:
    """The block with what this row refuses, its number, edition and records as they were but for
    that."""
    return {9: block[:511], 14: flipped(block, 40), 15: put(block, 507, b"\1"),
            16: put_word(block, place(0, VAN), 0)}[row]


def kept(chance: random.Random) -> Iterator[Calls]:
    """States that remember an edition, with no block taken and with one, or are closed or unfit: each
    refusal leaves it, whatever the block's edition; then a block is taken, whatever vans and counts
    the state says, unless the edition is another one after a block."""
    for known, edition, blocks in product((0, 1, 7), EDITIONS, (0, 1)):
        clash = blocks > 0 and known != edition
        calls = Calls()
        calls.hand_in(edition=known, blocks=blocks, last_van=80, moved=9, parked=4, over=3)
        calls.ask()
        for row in (9, 14, 15, 16):
            wanted = 21 if clash and row == 16 else row
            assert calls.load(refused(calls.next_block(chance, 2, edition), row)) == wanted
        calls.hand_in(closed=True)
        assert calls.load(calls.next_block(chance, 2, edition)) == 13
        calls.hand_in(closed=False, over=14)
        assert calls.load(calls.next_block(chance, 2, edition)) == 3 == calls.ask()
        calls.hand_in(over=3)
        assert calls.depot.edition == known
        row = calls.load(calls.next_block(chance, 2, edition))
        assert row == (21 if clash else None)
        assert calls.depot.edition == (known if clash else edition)
        yield calls


def pairs(chance: random.Random) -> Iterator[Calls]:
    """Another edition, or one that is none, in a block that is wrong by one or two things more."""
    for known in EDITIONS:
        calls = begun(chance, known)
        for edition in (1 - known, 2):
            block = calls.next_block(chance, 3, edition)
            backwards = put(block, place(1, START), struct.pack("<2I", 9, 8))
            wrong = (put_word(block, place(0, VAN), calls.depot.last_van), backwards,
                     put_word(block, place(2, SIXTH), 5))
            for other in wrong:
                assert calls.load(other) == (15 if edition == 2 else 21)
            assert calls.load(put_word(block, 0, 7)) == 15
            assert calls.load(put(backwards, 507, b"\1")) == 15
        yield calls


def later_blocks(chance: random.Random) -> Iterator[Calls]:
    """Blocks of the other edition before each block behind the first, and of the right one after
    it; then behind the one that closes, which says 13."""
    for edition in EDITIONS:
        calls = Calls()
        for count in (FULL_COUNT, FULL_COUNT, 7):
            if calls.depot.blocks > 0:
                assert calls.load(calls.next_block(chance, count, 1 - edition)) == 21
                calls.ask()
            assert calls.load(calls.next_block(chance, count, edition)) is None
        assert calls.load(calls.next_block(chance, 1, 1 - edition)) == 13
        calls.ask()
        yield calls


def last_block(chance: random.Random) -> Iterator[Calls]:
    """Block 204 in each edition after each, with as many records as it may have, and with one more,
    which is 15."""
    for known, edition in product(EDITIONS, repeat=2):
        calls = Calls()
        calls.hand_in(blocks=LAST_BLOCK, last_van=80, edition=known)
        assert calls.load(calls.next_block(chance, LAST_COUNT + 1, edition)) == 15
        wrong = put_word(calls.next_block(chance, LAST_COUNT, edition), place(9, SIXTH), 5)
        assert calls.load(wrong) == (16 if known == edition else 21)
        row = calls.load(calls.next_block(chance, LAST_COUNT, edition))
        assert row == (None if known == edition else 21)
        yield calls


def sixth_fields(chance: random.Random) -> Iterator[Calls]:
    """In edition 1 the sixth field of the first and of the last record: the distance with each byte
    changed, one more, one less, zero, other sums of start and end; and what is left of the distance
    where the odometer ends below its start."""
    for index in (0, FULL_COUNT - 1):
        calls = begun(chance, 1)
        first = calls.depot.last_van + 1
        records = [Record(first + i, 4_000 + i, 74_000 + 2 * i, 1, 0) for i in range(FULL_COUNT)]
        block = calls.due(records)
        right, distance = records[index], records[index].distance
        for byte in range(4):
            for bits in (0x10, 0x80):
                assert calls.load(seal(flipped(block, place(index, SIXTH) + byte, bits))) == 16
        for other in (0, distance - 1, distance + 1, right.fuel, right.start, right.end,
                      right.start + right.end, -distance, LARGEST_WORD):
            assert calls.load(put_word(block, place(index, SIXTH), other)) == 16
        for start, end in ((1, 0), (9, 4), (LARGEST_WORD, 0)):
            for other in (0, start - end, end - start, end, start):
                words = put(block, place(index, START), struct.pack("<2I", start, end))
                assert calls.load(put_word(words, place(index, SIXTH), other)) == 16
        for van in (0, right.van - 1):
            assert calls.load(put_word(block, place(index, VAN), van)) == 16
        assert calls.load(block) is None
        calls.ask()
        yield calls
    for start, end in ((0, LARGEST_WORD), (0, 0), (LARGEST_WORD, LARGEST_WORD), (1, LARGEST_WORD)):
        calls = Calls()
        block = calls.due([Record(1, start, end, 1, 1)], 1)
        assert calls.load(put_word(block, place(0, END), end ^ 1)) == 16
        assert calls.load(put_word(block, place(0, SIXTH), end - start + 1)) == 16
        assert calls.load(put_word(block, place(0, VAN), 0)) == 16
        assert calls.load(block) is None
        calls.ask()
        yield calls


def tails(chance: random.Random) -> Iterator[Calls]:
    """Bytes behind the last record in each edition, that of the next sixth field among them."""
    for edition in EDITIONS:
        calls = begun(chance, edition)
        block = calls.next_block(chance, 4, edition)
        for at in (place(4), *range(place(4, SIXTH), place(5)), 507):
            assert calls.load(put(block, at, b"\1")) == 15
        assert calls.load(block) is None
        yield calls


def handed_in(chance: random.Random) -> Iterator[Calls]:
    """States that remember any edition, before the first block and after it: all are fit, and before
    the first block what they remember plays no part."""
    for known, blocks, edition in product(REMEMBERED, (0, 1, 7), EDITIONS):
        calls = Calls()
        calls.hand_in(edition=known, blocks=blocks)
        assert rules.is_fit(calls.depot)
        row = calls.load(calls.next_block(chance, 3, edition))
        assert row == (21 if blocks and known != edition else None)
        assert calls.depot.edition == (known if row else edition)
        calls.ask()
        yield calls


def own_edition(chance: random.Random) -> Iterator[Calls]:
    """A block of an edition that is none, for a state that remembers just that one: 15 all the
    same."""
    for known, blocks in product(HEADERS[2:], (0, 1)):
        calls = Calls()
        calls.hand_in(edition=known, blocks=blocks)
        assert calls.load(with_edition(calls.due([parked_record(1)], 0), known)) == 15
        yield calls


def figures_of_states(chance: random.Random) -> Iterator[Calls]:
    """Figures of states that remember any edition, and a rate asked for in between: they play no
    part."""
    calls = Calls()
    for known in REMEMBERED:
        calls.hand_in(edition=known, blocks=chance.choice((0, 3)), moved=9,
                      low_sum=number(chance.randrange(1, 99), 0), high_sum=number(99, 0))
        assert calls.ask() is None
        calls.rate(chance.randrange(99), 7, 2, 53)
    yield calls


def sets_of_rows(chance: random.Random) -> Iterator[Calls]:
    """Every set of the rows 3, 9, 13, 14, 15, 21 and 16 that apply at once, for a depot of either
    edition: the first in this order is answered."""
    for unfit, short, closed, check, layout, clash, record in product((False, True), repeat=7):
        calls = begun(chance, chance.choice(EDITIONS))
        calls.hand_in(over=21 if unfit else 1, closed=closed)
        edition = calls.depot.edition ^ clash
        block = calls.next_block(chance, 2, edition)
        if record:
            block = put_word(block, place(1, VAN), 0)
        if layout:
            block = put(block, 507, b"\1")
        if check:
            block = with_check(block, model.right_check(block) + 1)
        if short:
            block = chance.choice((block[:511], block + b"\0"))
        rows = zip((unfit, short, closed, check, layout, clash, record),
                   (3, 9, 13, 14, 15, 21, 16))
        assert calls.load(block) == next((row for applies, row in rows if applies), None)
        yield calls


def damaged(chance: random.Random) -> Iterator[Calls]:
    """Depots of edition 1 with each damage that the reference makes."""
    for damage in SOME_DAMAGED:
        yield damaged_depot(chance, damage, 1)


# Lines that are no call: the edition is missing, one too many, ill made or too large.
NO_EDITIONS = """\
edition
edition1
edition  1
edition -1
edition 1 1
edition one
edition 4294967296
Edition 1
editions 1
"""


def no_editions(chance: random.Random) -> Iterator[Calls]:
    """Lines that are no call, for a depot of edition 1."""
    calls = begun(chance, 1)
    for line in NO_EDITIONS.splitlines():
        calls.no_call(line)
    yield calls


KINDS = (
    document_editions, same_records, headers, one_bit, first_refused, kept, pairs, later_blocks,
    last_block, sixth_fields, tails, handed_in, own_edition, figures_of_states, sets_of_rows, damaged,
    no_editions,
)
