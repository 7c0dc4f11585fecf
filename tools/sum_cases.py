"""Sequences of calls of a depot with blocks whose words have sums at their ends, and with each word
left out of the sum, counted twice or turned round."""

from __future__ import annotations

import random
import struct
from typing import Iterator, Sequence

import model
from depot_blocks import FUEL, SPEED, place, with_check
from depot_calls import Calls
from make_blocks import put_word
from model import FULL_COUNT, Record
from operands import LARGEST_WORD
from requests import EDITIONS, MOST_SUM, check_from_sum, plain_sum

WORDS = 127
# How often 2^32 goes into a sum: to the most that any sum has, and to those that a block which is taken
# can have by its fuels and speeds.
CARRIES = (1, 2, 3, 4, 7, 8, 15, 16, 31, 32, 63, 64, 100, 125, MOST_SUM >> 32)
CARRIES_TAKEN = (1, 2, 7, 31, 39)
# A word whose bytes are all different.
MARKED_WORD = 0x01020304


def block_of(words: Sequence[int], check: int) -> bytes:
    """The block of these words and a check."""
    return struct.pack("<128I", *words, check)


def words_with(total: int) -> list[int]:
    """Words with this sum: largest ones, then what is left, then zeros."""
    whole, left = divmod(total, LARGEST_WORD)
    words = [LARGEST_WORD] * whole + [left] + [0] * WORDS
    assert sum(words) == total and not any(words[WORDS:])
    return words[:WORDS]


def offered(calls: Calls, words: Sequence[int], row: int) -> None:
    """Offers a block of these words: with its check, which this row refuses for another reason, with
    the checks beside it, with the sum itself and with the carries added in, which are wrong."""
    total = sum(words)
    check = check_from_sum(total)
    assert calls.load(block_of(words, check)) == row
    for other in {total, check + 1, check - 1, check_from_sum(total + (total >> 32))}:
        if other % 2**32 != check:
            assert calls.load(with_check(block_of(words, 0), other)) == 14


def ends_of_sums(chance: random.Random) -> Iterator[Calls]:
    """All words largest, all zero, and sums of k × 2^32 and one less: no such block is laid out, so a
    right check is told from a wrong one by 15."""
    totals = {MOST_SUM, 0, *(k * 2**32 - less for k in CARRIES for less in (0, 1))}
    calls = Calls()
    for total in sorted(totals):
        offered(calls, words_with(total), 15)
    yield calls


def sums_taken(chance: random.Random) -> Iterator[Calls]:
    """Blocks with sums of k × 2^32 and one less that are taken, in each edition."""
    for edition in EDITIONS:
        for carries in CARRIES_TAKEN:
            for less in (0, 1):
                calls = Calls()
                block = calls.due([record_of(chance, van) for van in range(1, FULL_COUNT + 1)], edition)
                block = with_sum(block, carries * 2**32 - less)
                assert plain_sum(block) == carries * 2**32 - less
                assert model.words_of(block)[WORDS] == (0 if less else LARGEST_WORD)
                assert calls.load(with_check(block, model.words_of(block)[WORDS] + 1)) == 14
                assert calls.load(block) is None
                calls.ask()
                yield calls


def record_of(chance: random.Random, van: int) -> Record:
    """A record without fuel and speed."""
    start = chance.randrange(2**20)
    return Record(van, start, start + chance.randrange(2**20), 0, 0)


def with_sum(block: bytes, total: int) -> bytes:
    """The block with its fuels and speeds such that its words have this sum."""
    for at in (place(index, field) for field in (SPEED, FUEL) for index in range(FULL_COUNT)):
        block = put_word(block, at, min(total - plain_sum(block), LARGEST_WORD))
    return block


def each_word(chance: random.Random) -> Iterator[Calls]:
    """Each word alone: its check, and the checks without it, with it twice and with its bytes turned
    round, which are wrong."""
    calls = Calls()
    for at in range(WORDS):
        words = [0] * WORDS
        words[at] = MARKED_WORD
        assert calls.load(block_of(words, check_from_sum(MARKED_WORD))) == 15
        turned = int.from_bytes(MARKED_WORD.to_bytes(4, "big"), "little")
        wrong = (0, 2 * MARKED_WORD, turned) if at in (0, 1, WORDS - 1) else (0,)
        for total in wrong:
            assert calls.load(block_of(words, check_from_sum(total))) == 14
    yield calls


KINDS = (ends_of_sums, sums_taken, each_word)
