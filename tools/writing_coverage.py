"""Counts what the sequences of the writer's calls cover, and asserts what they have to."""

from __future__ import annotations

from collections import Counter
from itertools import chain, combinations, product

import model
from model import BLOCK_BYTES, FULL_COUNT, LAST_BLOCK, MOST_RECORDS, Record
from operands import LARGEST_WORD
from requests import EDITIONS, edition_of, sixth_field
from writing_calls import VAN_FIELDS, Calls, Load, Write, fields_of, pattern, room_for, vans_in

# The rows in document 02's order, by which the first that applies is answered.
ROWS = (15, 18, 19, 16, 20)
# What is asserted: how often each row refuses, and how many lists are written.
LEAST_REFUSALS, LEAST_WRITTEN = 10, 40


def rows_of(write: Write) -> list[int]:
    """All rows that apply to a list and an output; a part of a van behind the whole ones counts for
    row 18 alone."""
    numbers, vans = len(write.fields), vans_in(write.fields)
    applying = (write.edition not in EDITIONS, numbers % VAN_FIELDS != 0, len(vans) > MOST_RECORDS,
                not model.records_are_good(vans, 0), len(write.output) < room_for(numbers))
    return [row for row, applies in zip(ROWS, applying) if applies]


def check_writes(writes: list[Write]) -> Counter:
    """How often each row refused: every set of rows applies somewhere, and its first is answered.
    The bytes that are not written are those of the pattern."""
    applying = {tuple(rows_of(write)) for write in writes}
    assert applying == {rows for n in range(len(ROWS) + 1) for rows in combinations(ROWS, n)}
    for write in writes:
        assert write.row == next(iter(rows_of(write)), None)
        kept = 0 if write.row else room_for(len(write.fields))
        assert write.output[kept:] == pattern(len(write.output))[kept:]
    counts = Counter(write.row for write in writes)
    assert set(counts) == {None, *ROWS}
    assert all(counts[row] >= LEAST_REFUSALS for row in ROWS) and counts[None] >= LEAST_WRITTEN
    return counts


def check_editions(writes: list[Write]) -> None:
    """Each edition written; each of the others refused for whole vans and for a part of one."""
    seen = {(write.edition, len(write.fields) % VAN_FIELDS != 0, write.row) for write in writes}
    assert all((edition, False, None) in seen for edition in EDITIONS)
    others = {2, 255, 256, 257, 65_535, 65_536, 65_537, LARGEST_WORD}
    assert all((edition, partial, 15) in seen for edition, partial in product(others, (False, True)))


def check_records(records: list[Record]) -> None:
    """The lowest and the highest value of each field, and vans that moved or not, over or not,
    among the records written."""
    for values in zip(*(record[1:VAN_FIELDS] for record in records)):
        assert {0, LARGEST_WORD} <= set(values)
    assert {1, LARGEST_WORD} <= {record.van for record in records}
    assert {(True, True), (True, False), (False, True), (False, False)} == {
        (record.moved, record.speed > model.SPEED_LIMIT) for record in records}


def check_loads(loads: list[Load]) -> None:
    """The blocks written are taken in their edition, and their records are the list; a piece of the
    pattern is not taken, by an open depot or a closed one. Depots with no block, with one, and with
    the most."""
    for (edition, fields, output, refused), depot, row in loads:
        size = depot.blocks * BLOCK_BYTES
        assert size == (0 if refused else room_for(len(fields)))
        blocks = [output[at:at + BLOCK_BYTES] for at in range(0, size, BLOCK_BYTES)]
        taken = list(chain.from_iterable(model.records_of(block) for block in blocks))
        assert refused or fields_of(taken) == fields
        assert all(edition_of(block) == edition for block in blocks)
        assert all(record.sixth == sixth_field(record, edition) for record in taken)
        behind = len(output) - size >= BLOCK_BYTES
        assert row == (None if not behind else 13 if depot.closed else 14)
    stops = {(load.depot.blocks, load.depot.closed, load.row) for load in loads}
    assert {(0, False, None), (0, False, 14), (1, True, 13), (1, False, 14)} <= stops
    assert {(LAST_BLOCK, False, None), (LAST_BLOCK, False, 14)} <= stops
    assert {(LAST_BLOCK + 1, True, None), (LAST_BLOCK + 1, True, 13)} <= stops


def summary(sequences: list[Calls]) -> str:
    """What the sequences have, in one line; all that is asserted holds of them."""
    writes = [write for calls in sequences for write in calls.writes]
    loads = [load for calls in sequences for load in calls.loads]
    counts = check_writes(writes)
    check_editions(writes)
    written = [vans_in(write.fields) for write in writes if write.row is None]
    assert {0, 1, FULL_COUNT - 1, FULL_COUNT, FULL_COUNT + 1, MOST_RECORDS} <= {*map(len, written)}
    check_records(list(chain.from_iterable(written)))
    check_loads(loads)
    return (f"{len(sequences)} lists, {len(writes)} writes, {counts[None]} written, refused "
            f"{', '.join(f'{row}: {counts[row]}' for row in ROWS)}; {len(loads)} loads")
