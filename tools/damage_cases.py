"""Sequences of calls of a depot with blocks that are damaged or not lawful."""

from __future__ import annotations

import random
import struct
from itertools import product
from typing import Iterator

import model
from depot_blocks import (
    EDITION, END, FUEL, SIXTH, SOME_DAMAGED, SPEED, START, VAN, Damage, blocks_of, exchanged,
    flipped, moved_record, place, with_check,
)
from depot_calls import Calls
from make_blocks import put, put_word, random_records
from model import FULL_COUNT, Record
from operands import LARGEST_WORD
from requests import seal


def damaged_depot(chance: random.Random, damage: Damage, edition: int = 0) -> Calls:
    """A depot with blocks of an edition that the reference damages. A refused block is followed by
    the right one."""
    calls = Calls()
    blocks = blocks_of(random_records(chance, 50, "mixed"), edition)
    for piece in damage(chance, blocks):
        if calls.load(piece) and calls.depot.blocks < len(blocks):
            calls.ask()
            calls.load(blocks[calls.depot.blocks])
    calls.ask()
    return calls


def damaged_depots(chance: random.Random) -> Iterator[Calls]:
    """Depots with each damage that the reference makes."""
    for damage, _ in product(SOME_DAMAGED, range(2)):
        yield damaged_depot(chance, damage)


def header_fields(chance: random.Random) -> Iterator[Calls]:
    """Each byte of the number, the count and the edition changed, the check right again; a block
    with no record; the tail of each of two blocks at its ends and within."""
    for count in (7, FULL_COUNT):
        calls = Calls()
        calls.load(calls.next_block(chance))
        block = calls.next_block(chance, count)
        for at in (0, 1, 2, 3, 5, 6, 7):
            for bits in (1, 0x80):
                wanted = 21 if (at, bits) == (EDITION, 1) else 15
                assert calls.load(seal(flipped(block, at, bits))) == wanted
        for other in (0, FULL_COUNT + 1, 255, LARGEST_WORD >> 16):
            assert calls.load(put(block, 4, struct.pack("<H", other))) == 15
        assert calls.load(calls.due([])) == 15
        for other in (0, 2, 204, LARGEST_WORD):
            assert calls.load(put_word(block, 0, other)) == 15
        for at in (place(count), place(count) + 3, 504, 507):
            assert calls.load(put(block, at, b"\x80")) == 15
        assert calls.load(block) is None
        calls.ask()
        yield calls


def record_fields(chance: random.Random) -> Iterator[Calls]:
    """The rules of the first, a middle and the last record broken one at a time, the check right
    again: the van, the odometer, each byte of the sixth field. Fuel and speed have no rule."""
    for index in (0, 8, FULL_COUNT - 1):
        calls = Calls()
        calls.load(calls.next_block(chance))
        block = calls.next_block(chance)
        last = calls.depot.last_van if index == 0 else model.records_of(block)[index - 1].van
        for van in (0, last, last - 1):
            assert calls.load(put_word(block, place(index, VAN), van)) == 16
        for start, end in ((1, 0), (LARGEST_WORD, LARGEST_WORD - 1), (LARGEST_WORD, 0), (2**31, 1)):
            words = struct.pack("<2I", start, end)
            assert calls.load(put(block, place(index, START), words)) == 16
        for byte in range(4):
            assert calls.load(seal(flipped(block, place(index, SIXTH) + byte, 0x10))) == 16
        more = put_word(block, place(index, FUEL), chance.getrandbits(32))
        assert calls.load(put_word(more, place(index, SPEED), chance.getrandbits(32))) is None
        calls.ask()
        yield calls


def changed_bytes(chance: random.Random) -> Iterator[Calls]:
    """Every byte of the header, of the first and the last record and of the check, and some of the
    tail, changed by one bit, the check as it was; every bit of the check."""
    calls = Calls()
    calls.load(calls.next_block(chance))
    block = calls.next_block(chance, 5)
    regions = (range(8), range(place(0), place(1)), range(place(4), place(5)),
               (place(5), 300, 506, 507), range(508, 512))
    for at in (at for region in regions for at in region):
        assert calls.load(flipped(block, at, 1 << chance.randrange(8))) == 14
    (check,) = struct.unpack_from("<I", block, 508)
    for bit in range(32):
        assert calls.load(with_check(block, check ^ 1 << bit)) == 14
    assert calls.load(block) is None
    calls.ask()
    yield calls


def checks(chance: random.Random) -> Iterator[Calls]:
    """Checks at both ends of a word; other sums in their place; words that change places."""
    for wanted in (0, 1, LARGEST_WORD, LARGEST_WORD - 1, 2**31):
        calls = Calls()
        records = calls.records(chance, FULL_COUNT - 1, "extreme")
        block = calls.due([*records, moved_record(LARGEST_WORD, speed=0)])
        speed = (model.right_check(block) - wanted) % 2**32
        block = put_word(block, place(19, SPEED), speed)
        assert model.words_of(block)[127] == wanted
        total = sum(model.words_of(block)[:127])
        others = (total, -total, wanted + 1, wanted - 1, ~(total % 2**32 + (total >> 32)),
                  int.from_bytes(block[508:], "big"))
        for other in others:
            if other % 2**32 != wanted:
                assert calls.load(with_check(block, other)) == 14
        assert calls.load(block) is None
        calls.ask()
        yield calls
    calls = Calls()
    block = calls.due([Record(1, 10, 20, 30, 40), *(moved_record(van) for van in range(2, 21))])
    for first, second in ((START, END), (VAN, SIXTH), (SIXTH, SPEED)):
        assert calls.load(exchanged(block, place(0, first), place(0, second))) == 16
    assert calls.load(exchanged(block, 0, 4)) == 15
    assert calls.load(exchanged(block, place(0, FUEL), place(0, SPEED))) is None
    calls.ask()
    yield calls


def lengths(chance: random.Random) -> Iterator[Calls]:
    """Parts of a block, and blocks with bytes more."""
    calls = Calls()
    calls.load(calls.next_block(chance))
    block = calls.next_block(chance, 3)
    for length in (0, 1, 2, 4, 8, 24, 80, 127, 256, 488, 507, 508, 509, 510, 511):
        assert calls.load(block[:length]) == 9
    for length in (513, 514, 516, 536, 592, 1_023, 1_024):
        assert calls.load(block.ljust(length, b"\0")) == 9
    assert calls.load(block + block) == 9
    assert calls.load(block) is None
    assert calls.load(block[:511]) == 9
    calls.ask()
    yield calls


def sets_of_rows(chance: random.Random) -> Iterator[Calls]:
    """Every set of the rows 3, 9 and 13 to 16 that apply at once: the lowest is answered. Row 15
    applies by the edition 256, to which row 21 applies too."""
    for unfit, short, closed, check, layout, record in product((False, True), repeat=6):
        calls = Calls()
        calls.load(calls.next_block(chance))
        calls.hand_in(over=21 if unfit else 1, closed=closed)
        block = calls.next_block(chance, 2)
        if record:
            block = put_word(block, place(1, SIXTH), 1)
        if layout:
            block = put(block, 7, b"\1")
        if check:
            block = with_check(block, model.right_check(block) + 1)
        if short:
            block = chance.choice((block[:511], block + b"\0"))
        rows = zip((unfit, short, closed, check, layout, record), (3, 9, 13, 14, 15, 16))
        applying = [row for applies, row in rows if applies]
        assert calls.load(block) == min(applying, default=None)
        calls.ask()
        yield calls


def every_count(chance: random.Random) -> Iterator[Calls]:
    """Every count from 1 to 20. Before the block: the same with a byte in its tail, with the last
    record left to the tail, and with a record of zeros more. After it: the next one."""
    for count in range(1, FULL_COUNT + 1):
        calls = Calls()
        block = calls.next_block(chance, count)
        assert calls.load(put(block, place(count), b"\1")) == 15
        assert calls.load(put(block, 4, struct.pack("<H", count - 1))) == 15
        more = calls.load(put(block, 4, struct.pack("<H", count + 1)))
        assert more == (15 if count == FULL_COUNT else 16)
        assert calls.load(block) is None
        calls.ask()
        after = calls.load(calls.next_block(chance, 1))
        assert after == (None if count == FULL_COUNT else 13)
        yield calls


KINDS = (
    damaged_depots, every_count, header_fields, record_fields, changed_bytes, checks, lengths,
    sets_of_rows,
)
