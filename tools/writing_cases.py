"""Sequences of calls of the writer of blocks: document 01's example, a list as long as can be,
refusals, numbers of vans around a block's, lists of any vans, both editions and others, and lines that
are no call."""

from __future__ import annotations

import random
from dataclasses import replace
from itertools import product
from typing import Iterator, Sequence

from depot_blocks import SAMPLE, moved_record, parked_record
from edition_cases import NO_EDITIONS
from make_blocks import STYLES, random_record, random_records
from model import BLOCK_BYTES, FULL_COUNT, MOST_RECORDS, Record
from operands import LARGEST_WORD, number
from requests import EDITIONS
from rules import figures
from writing_calls import MOST_BYTES, MOST_NUMBERS, VAN_FIELDS, Calls, fields_of, room_for

# An output this much longer than the blocks has a whole piece and a part of one behind them.
LONGER = BLOCK_BYTES + 7
MOST_LAWFUL = VAN_FIELDS * MOST_RECORDS
# Editions that are none; the lowest byte or the two lowest of some are those of one.
OTHER_EDITIONS = (2, 3, 255, 256, 257, 65_535, 65_536, 65_537, 2**31, LARGEST_WORD)


def written_again(calls: Calls, numbers: int, length: int) -> None:
    """Writes the first numbers of the list, which no row refuses, and loads them."""
    assert calls.write(numbers, length) is None
    assert calls.load().depot.blocks * BLOCK_BYTES == room_for(numbers)


def rising_vans(chance: random.Random, count: int) -> list[int]:
    """Vans from the lowest to the highest, the two highest among them."""
    between = chance.sample(range(2, LARGEST_WORD - 1), count - 3)
    return [1, *sorted(between), LARGEST_WORD - 1, LARGEST_WORD]


def document_sample(chance: random.Random) -> Iterator[Calls]:
    """The vans of document 01's example: their block, and the figures that it prints."""
    calls = Calls(fields_of(SAMPLE))
    for length in (BLOCK_BYTES, BLOCK_BYTES + 3):
        written_again(calls, len(calls.fields), length)
        depot = calls.loads[-1].depot
        assert (depot.moved, depot.parked, depot.over) == (2, 1, 1)
        assert figures(depot) == (number(3, -3), number(3, -3))
    yield calls


def no_vans(chance: random.Random) -> Iterator[Calls]:
    """A list of no numbers, with the output before it gone."""
    calls = Calls([])
    calls.load()
    for length in (0, 40):
        written_again(calls, 0, length)
    yield calls


def longest_list(chance: random.Random) -> Iterator[Calls]:
    """A list with as many vans as a depot takes, one more with the highest number, and three after
    it, where no van is lawful: from none of its numbers to all of them."""
    vans = rising_vans(chance, MOST_RECORDS + 1)
    ends = [Record(vans[0], 0, *[LARGEST_WORD] * 3), Record(vans[1], 0, 0, 0, 0),
            Record(vans[2], *[LARGEST_WORD] * 4)]
    after = [random_record(chance, van, "mixed") for van in (LARGEST_WORD, 1, 0)]
    records = [*ends, *(random_record(chance, van, "mixed") for van in vans[3:]), *after]
    calls = Calls(fields_of(records))
    assert len(calls.fields) == MOST_NUMBERS
    for length in (0, 1, BLOCK_BYTES):
        written_again(calls, 0, length)
    for numbers in (1, 4):
        for length in (0, LONGER):
            assert calls.write(numbers, length) == 18
    for numbers in (5, 100, 105, 20_400, MOST_LAWFUL):
        room = room_for(numbers)
        assert calls.write(numbers, room - 1) == 20
        for length in (room, room + LONGER):
            written_again(calls, numbers, length)
    written_again(calls, MOST_LAWFUL, MOST_BYTES)
    for more in (1, 4, 5, 6, 9, 10, 11, 20):
        room = room_for(MOST_LAWFUL + more)
        for length in (40, room - 1, room, MOST_BYTES):
            assert calls.write(MOST_LAWFUL + more, length) == (18 if more % VAN_FIELDS else 19)
    yield calls


def partial_vans(chance: random.Random) -> Iterator[Calls]:
    """Numbers that are no whole vans, with lawful and with unlawful vans, and outputs long enough
    and too short."""
    lawful = random_records(chance, FULL_COUNT + 1, "mixed")
    for records in (lawful, [lawful[0]._replace(van=0), *lawful[1:]]):
        calls = Calls(fields_of(records))
        for numbers, length in product((1, 4, 6, 101), (0, 40, BLOCK_BYTES)):
            assert calls.write(numbers, length) == 18
        assert calls.load().row == 14
        yield calls


def with_fault(records: Sequence[Record], index: int, **fields: int) -> list[Record]:
    """The records with other fields in one of them."""
    return [*records[:index], records[index]._replace(**fields), *records[index + 1:]]


def faults(records: Sequence[Record], index: int) -> Iterator[list[Record]]:
    """The records with each fault of the one with this index: van 0, a van that is not above the
    one before, and an odometer that runs backwards."""
    yield with_fault(records, index, van=0)
    if index > 0:
        before = records[index - 1].van
        yield with_fault(records, index, van=before)
        yield with_fault(records, index, van=before - 1)
    start = max(records[index].start, 1)
    yield with_fault(records, index, start=start, end=start - 1)
    yield with_fault(records, index, start=LARGEST_WORD, end=0)


def wrong_records(chance: random.Random) -> Iterator[Calls]:
    """One van unlawful: the first, the last of a block, the first of the next one, the last of all.
    The vans before it are lawful."""
    records = random_records(chance, 30, "ordinary")
    numbers, room = VAN_FIELDS * len(records), room_for(VAN_FIELDS * len(records))
    for index in (0, FULL_COUNT - 1, FULL_COUNT, len(records) - 1):
        for faulty in faults(records, index):
            calls = Calls(fields_of(faulty))
            for length in (40, room - 1, room + LONGER):
                assert calls.write(numbers, length) == 16
            written_again(calls, VAN_FIELDS * index, room + LONGER)
            yield calls
    for faulty in faults(records[:1], 0):
        calls = Calls(fields_of(faulty))
        for length in (0, BLOCK_BYTES):
            assert calls.write(VAN_FIELDS, length) == 16
        yield calls


def lawful_ends(chance: random.Random) -> Iterator[Calls]:
    """Vans right after each other, the lowest and the highest van, parked vans, and the ends of the
    other fields; an output too short by a byte and by all."""
    ends = (0, LARGEST_WORD)
    middle = [Record(2 + i, *fields) for i, fields in enumerate(product(ends, repeat=4))
              if fields[0] <= fields[1]]
    one = [parked_record(LARGEST_WORD)]
    two = [parked_record(1), moved_record(LARGEST_WORD)]
    for records in (one, two, [two[0], *middle, parked_record(LARGEST_WORD - 1, 90_001), two[1]]):
        calls = Calls(fields_of(records))
        numbers = len(calls.fields)
        for length in (0, BLOCK_BYTES - 1):
            assert calls.write(numbers, length) == 20
        written_again(calls, numbers, BLOCK_BYTES)
        yield calls


def counts_of_vans(chance: random.Random) -> Iterator[Calls]:
    """As many vans as a block or two have, one less and one more, into outputs just long enough
    and longer."""
    for vans in (1, 19, 20, 21, 39, 40, 41):
        calls = Calls(fields_of(random_records(chance, vans, "mixed")))
        numbers = len(calls.fields)
        for length in (room_for(numbers), room_for(numbers) + LONGER):
            written_again(calls, numbers, length)
        yield calls


def any_lists(chance: random.Random) -> Iterator[Calls]:
    """Lists of any vans in every style, some with a fault, into outputs of any length."""
    for style, faulty in product(STYLES, (False, False, True)):
        records = random_records(chance, chance.randint(1, 65), style)
        index = chance.randrange(len(records))
        if faulty:
            records = chance.choice(list(faults(records, index)))
        calls = Calls(fields_of(records))
        numbers = len(calls.fields)
        for length in (chance.randrange(room_for(numbers)),
                       room_for(numbers) + chance.randrange(3 * BLOCK_BYTES)):
            calls.write(numbers, length)
            calls.load()
        some = chance.randrange(numbers)
        calls.write(some, room_for(some) + chance.randrange(BLOCK_BYTES))
        yield calls


def document_editions(chance: random.Random) -> Iterator[Calls]:
    """Document 01's example in each edition, and in those that are none, one after the other; there
    with a number too few as well, which is 15 before 18."""
    calls = Calls(fields_of(SAMPLE))
    for edition in (1, *OTHER_EDITIONS, 0):
        calls.ask_for(edition)
        if edition in EDITIONS:
            written_again(calls, len(calls.fields), BLOCK_BYTES + 3)
            assert figures(calls.loads[-1].depot) == (number(3, -3), number(3, -3))
        else:
            for numbers in (len(calls.fields), len(calls.fields) - 1):
                assert calls.write(numbers, BLOCK_BYTES) == 15
    yield calls


def same_vans(chance: random.Random) -> Iterator[Calls]:
    """Lists of any vans in every style, and of vans with the longest distances, in both editions:
    the depots differ in the edition alone."""
    longest = [Record(van, van % 2, LARGEST_WORD - van // 2, van, 0) for van in range(1, 23)]
    for records in (*(random_records(chance, 41, style) for style in STYLES), longest):
        calls = Calls(fields_of(records))
        for edition in EDITIONS:
            calls.ask_for(edition)
            written_again(calls, len(calls.fields), room_for(len(calls.fields)) + 1)
        first, second = (load.depot for load in calls.loads)
        assert first == replace(second, edition=0) and second.edition == 1
        yield calls


def lists_in_edition_1(chance: random.Random) -> Iterator[Calls]:
    """In edition 1 no vans, into any output, which edition 2 refuses; parts of a van; each fault of the first van, of the last
    of a block and of the first of the next one; and an output too short by a byte, just long enough,
    and longer by a whole piece."""
    calls = Calls([])
    for edition in (1, 2):
        calls.ask_for(edition)
        for length in (0, 40):
            assert calls.write(0, length) == (None if edition == 1 else 15)
    yield calls
    records = random_records(chance, FULL_COUNT + 2, "ordinary")
    calls = Calls(fields_of(records))
    numbers, room = len(calls.fields), room_for(len(calls.fields))
    calls.ask_for(1)
    for rest in (1, 2, 3, 4):
        assert calls.write(numbers - rest, room) == 18
    assert calls.write(numbers, room - 1) == 20
    for length in (room, room + LONGER):
        written_again(calls, numbers, length)
    yield calls
    for index in (0, FULL_COUNT - 1, FULL_COUNT):
        for faulty in faults(records, index):
            calls = Calls(fields_of(faulty))
            calls.ask_for(1)
            assert calls.write(numbers, room) == 16
            yield calls


def one_bit(chance: random.Random) -> Iterator[Calls]:
    """Each bit of an edition alone, for no vans: only the lowest is an edition."""
    calls = Calls([])
    for bit in range(32):
        calls.ask_for(1 << bit)
        assert calls.write(0, 0) == (15 if bit > 0 else None)
    yield calls


def sets_of_rows(chance: random.Random) -> Iterator[Calls]:
    """Every set of the rows 15, 18, 19, 16 and 20 that apply at once, those without 15 in edition 1:
    the first in this order is answered. As many vans as a depot takes in edition 1."""
    records = [random_record(chance, van, "mixed") for van in range(1, MOST_RECORDS + 3)]
    for backwards in (False, True):
        if backwards:
            records[2] = records[2]._replace(start=9, end=8)
        calls = Calls(fields_of(records))
        for unknown, partial, many, short in product((False, True), repeat=4):
            calls.ask_for(chance.choice(OTHER_EDITIONS) if unknown else 1)
            numbers = (MOST_LAWFUL + VAN_FIELDS if many else 4 * VAN_FIELDS) + 3 * partial
            length = room_for(numbers) - short if many else 40 if short else BLOCK_BYTES
            rows = zip((unknown, partial, many, backwards, short), (15, 18, 19, 16, 20))
            wanted = next((row for applies, row in rows if applies), None)
            assert calls.write(numbers, length) == wanted
        if not backwards:
            calls.ask_for(1)
            written_again(calls, MOST_LAWFUL, room_for(MOST_LAWFUL))
        yield calls


# Lines that are no call, for a list of ten numbers: a word is none, a field is missing, one too
# many, ill made or too large.
NO_CALLS = """\

list
list -1
list +1
list  1
list1
list 1 1
list one
list 20501
list 4294967295
list 4294967296
lists 0
List 0
 list 0
write
write 10
write 10 512 0
write 10 -1
write -1 512
write ten 512
write 10 0x200
write 11 512
write 10 106497
write 4294967295 512
write 10 4294967295
write 4294967296 512
write 10 4294967296
write  10 512
write 10512
writes 10 512
Write 10 512
load 1
load 512
loaded
Load
 load
"""


def no_editions(chance: random.Random) -> Iterator[Calls]:
    """Lines that are no call, and leave the edition; a new list is written in edition 0."""
    calls = Calls(fields_of(random_records(chance, 2, "ordinary")))
    calls.ask_for(1)
    for line in NO_EDITIONS.splitlines():
        calls.no_call(line)
    written_again(calls, len(calls.fields), BLOCK_BYTES)
    yield calls
    calls = Calls(fields_of(random_records(chance, 2, "ordinary")))
    written_again(calls, len(calls.fields), BLOCK_BYTES)
    yield calls


def no_calls(chance: random.Random) -> Iterator[Calls]:
    """Lines that are no call, and leave the list and the output; a list that lacks a byte, at the
    end of the input."""
    calls = Calls(fields_of(random_records(chance, 2, "ordinary")))
    calls.write(5, BLOCK_BYTES)
    for line in NO_CALLS.splitlines():
        calls.no_call(line)
    calls.load()
    calls.write(10, BLOCK_BYTES)
    calls.no_call("list 3", bytes(11))
    yield calls


# The kind with the list that is cut off stands last.
KINDS = (
    document_sample, no_vans, longest_list, partial_vans, wrong_records, lawful_ends,
    counts_of_vans, any_lists, document_editions, same_vans, lists_in_edition_1, one_bit,
    sets_of_rows, no_editions, no_calls,
)
