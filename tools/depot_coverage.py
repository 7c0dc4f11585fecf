"""Counts what the sequences of a depot's calls cover, and asserts what they have to."""

from __future__ import annotations

from collections import Counter
from itertools import chain, combinations, product

import model
import rules
from depot_calls import Calls, Offer, Rate
from model import BLOCK_BYTES, FULL_COUNT, LAST_BLOCK, LAST_COUNT, Record, Refused
from operands import LARGEST_WORD, MARKS
from requests import ABOVE, BELOW, EDITIONS, State, edition_of

# The rows of a load in their order, by which the first that applies is answered.
LOADING_ROWS = (3, 9, 13, 14, 15, 21, 16)
ASKING_ROWS = (3, 17)
RATE_ROWS = (1, 2, 5)
# What is asserted: blocks offered, sequences, and how often each row refuses and each rule of a
# block's layout and of its records is the only one broken.
LEAST_OFFERS, LEAST_SEQUENCES, LEAST_REFUSALS, LEAST_BROKEN = 400, 60, 10, 5
# How often each row refuses a rate.
LEAST_RATES_REFUSED = 2


def rows_of(offer: Offer) -> set[int]:
    """All rows that apply to a block offered; rows 14 to 16 and 21 only to one of the right
    length."""
    depot, block, _ = offer
    rows = set()
    if not rules.is_fit(depot):
        rows.add(3)
    if depot.closed:
        rows.add(13)
    if len(block) != BLOCK_BYTES:
        return rows | {9}
    if model.words_of(block)[127] != model.right_check(block):
        rows.add(14)
    if broken_layout(depot, block):
        rows.add(15)
    if depot.blocks > 0 and edition_of(block) != depot.edition:
        rows.add(21)
    if model.block_count(block) <= FULL_COUNT and broken_records(depot, block):
        rows.add(16)
    return rows


def broken_layout(depot: State, block: bytes) -> set[str]:
    """The rules of layout that a block breaks."""
    count = model.block_count(block)
    tail = block[8 + model.RECORD_BYTES * count:508]
    broken = {"number": model.block_number(block) != depot.blocks,
              "count": not 1 <= count <= model.most_records(depot.blocks),
              "edition": edition_of(block) not in EDITIONS, "tail": any(tail)}
    return {rule for rule in broken if broken[rule]}


def broken_records(depot: State, block: bytes) -> set[str]:
    """The rules of records that a block breaks."""
    records, broken, edition = model.records_of(block), set(), edition_of(block)
    earlier = [depot.last_van, *(record.van for record in records)]
    for last, record in zip(earlier, records):
        if record.van <= last:
            broken.add("van")
        if record.end < record.start:
            broken.add("odometer")
        if record.sixth != (max(record.end - record.start, 0) if edition == 1 else 0):
            broken.add("sixth")
    return broken


def broken_clauses(depot: State) -> set[str]:
    """The clauses of fitness that a state breaks."""
    vans = depot.moved + depot.parked
    broken = {"vans": vans > model.MOST_RECORDS, "over": depot.over > vans,
              "blocks": depot.blocks > LAST_BLOCK and not depot.closed,
              "low sum": not model.sum_is_fit(depot.low_sum),
              "high sum": not model.sum_is_fit(depot.high_sum)}
    return {clause for clause in broken if broken[clause]}


def refused(offers: list[Offer]) -> Counter:
    """How many blocks each row refused."""
    return Counter(offer.row for offer in offers if offer.row)


def check_refusals(offers: list[Offer], asked: list[int | None]) -> None:
    """Every row, alone and with each other one, of which the first is answered; the rules of row 15
    and 16 one by one, those of row 16 in both editions."""
    assert all(refused(offers)[row] >= LEAST_REFUSALS for row in LOADING_ROWS)
    assert all(asked.count(row) >= LEAST_REFUSALS for row in ASKING_ROWS)
    applying = [(rows_of(offer), offer.row) for offer in offers]
    assert all(row == next((row for row in LOADING_ROWS if row in rows), None)
               for rows, row in applying)
    for pair in combinations(LOADING_ROWS, 2):
        # A block of the wrong length has nothing for rows 14 to 16 and 21 to judge.
        if pair[0] != 9 or pair[1] == 13:
            assert any(rows.issuperset(pair) and row == pair[0] for rows, row in applying), pair
    layouts = Counter(chain.from_iterable(alone(broken_layout(offer.depot, offer.block))
                                          for offer in offers if offer.row == 15))
    assert len(layouts) == 4 and min(layouts.values()) >= LEAST_BROKEN, layouts
    for edition in EDITIONS:
        records = Counter(chain.from_iterable(
            alone(broken_records(offer.depot, offer.block)) for offer in offers
            if offer.row == 16 and edition_of(offer.block) == edition))
        assert len(records) == 3 and min(records.values()) >= LEAST_BROKEN, records


def alone(broken: set[str]) -> set[str]:
    """The rule that is broken, if it is the only one."""
    return broken if len(broken) == 1 else set()


def check_records(records: list[Record]) -> None:
    """Vans, rates and speeds at their ends, among the records taken."""
    assert {1, LARGEST_WORD} <= {record.van for record in records}
    rates = {(record.fuel, record.distance) for record in records}
    assert {(0, 1), (0, LARGEST_WORD), (LARGEST_WORD, 1), (1, LARGEST_WORD)} <= rates
    assert {(speed, moved) for speed in (90_000, 90_001) for moved in (False, True)} <= {
        (record.speed, record.moved) for record in records}


def check_last_block(offers: list[Offer]) -> None:
    """Block 204 with 16 and with 17 records after 204 blocks, and a block after the 205th."""
    last = {(model.block_count(offer.block), offer.row) for offer in offers
            if offer.depot.blocks == LAST_BLOCK and offer.depot.moved + offer.depot.parked == 4_080}
    assert {(LAST_COUNT, None), (LAST_COUNT + 1, 15)} <= last
    assert any(offer.depot.blocks == LAST_BLOCK + 1 and offer.row == 13 for offer in offers)


def check_editions(offers: list[Offer]) -> None:
    """Blocks of each edition, and of others, offered to a depot with a block and without one, which
    remembers either edition or another; such a block where the depot remembers just its edition;
    vans that moved and vans that were parked."""
    seen = {(min(offer.depot.blocks, 1), offer.depot.edition, edition_of(offer.block), offer.row)
            for offer in offers if len(offer.block) == BLOCK_BYTES}
    for taken, known, edition in product((0, 1), (0, 1, 7), EDITIONS):
        clash = taken and known != edition
        assert (taken, known, edition, 21 if clash else None) in seen, (taken, known, edition)
    for edition in (2, 255, 256, 257):
        states = ((0, 0), (1, 0), (1, 1), (0, edition), (1, edition))
        assert all((*state, edition, 15) in seen for state in states), edition
    taken = [offer.block for offer in offers if offer.row is None]
    assert {(edition_of(block), record.moved) for block in taken
            for record in model.records_of(block)} == set(product(EDITIONS, (False, True)))


def check_states(states: list[State]) -> None:
    """Each clause of fitness at its last fit and its first unfit values, and broken alone."""
    broken = Counter(chain.from_iterable(alone(broken_clauses(state)) for state in states))
    assert len(broken) == 5 and min(broken.values()) >= 2, broken
    counts = {(state.moved, state.parked, state.over) for state in states}
    assert {(4_096, 0, 0), (4_097, 0, 0), (0, 4_096, 0), (0, 4_097, 0)} <= counts
    assert {(7, 5, 12), (7, 5, 13)} <= counts
    blocks = {(state.blocks, state.closed) for state in states}
    assert {(204, False), (205, False), (205, True)} <= blocks
    assert {(LARGEST_WORD, False), (LARGEST_WORD, True)} <= blocks
    for sums in ([state.low_sum for state in states], [state.high_sum for state in states]):
        ends = {(x.negative, x.exponent, x.significand >= 2**63) for x in sums if x}
        assert {(False, e, True) for e in (-65, -64, 64, 65)} <= ends
        assert {(True, 0, True), (False, 0, False), (False, 64, False)} <= ends


def check_rates(rates: list[Rate]) -> Counter:
    """How often each row refused a rate, and how often one lay below, at or above the exact one:
    every row, and every mark in every mode that can give it."""
    answers = [rate.answer for rate in rates]
    counts = Counter(x.number if isinstance(x, Refused) else MARKS[x.side] for x in answers)
    assert set(counts) == {*RATE_ROWS, *MARKS.values()}
    assert all(counts[row] >= LEAST_RATES_REFUSED for row in RATE_ROWS), counts
    marks = {(rate.code, x.side) for rate, x in zip(rates, answers) if not isinstance(x, Refused)}
    # A rate is not negative: trunc and down give none above, away and up none below.
    assert marks == {(mode, side) for mode in range(model.EXACT) for side in MARKS
                     if (mode, side) not in {(model.TRUNC, ABOVE), (model.DOWN, ABOVE),
                                             (model.AWAY, BELOW), (model.UP, BELOW)}}
    return counts


def summary(sequences: list[Calls]) -> str:
    """What the sequences have, in one line; all that is asserted holds of them."""
    offers = [offer for calls in sequences for offer in calls.offers]
    asked = [row for calls in sequences for row in calls.asked]
    states = [state for calls in sequences for state in calls.states]
    taken = [offer for offer in offers if offer.row is None]
    assert len(offers) >= LEAST_OFFERS and len(sequences) >= LEAST_SEQUENCES
    check_refusals(offers, asked)
    check_records([record for offer in taken for record in model.records_of(offer.block)])
    check_last_block(offers)
    check_editions(offers)
    check_states(states)
    rates = [rate for calls in sequences for rate in calls.rates]
    marks = check_rates(rates)
    blocks = ", ".join(f"{row}: {refused(offers)[row]}" for row in LOADING_ROWS)
    figures = ", ".join(f"{row}: {asked.count(row)}" for row in ASKING_ROWS)
    return (f"{len(sequences)} sequences, {len(offers)} blocks offered, {len(taken)} taken, "
            f"refused {blocks}; {len(asked)} times figures asked for, {asked.count(None)} given, "
            f"refused {figures}; {len(states)} states handed in; {len(rates)} rates asked for, "
            f"{', '.join(f'{mark}: {marks[mark]}' for mark in MARKS.values())}, "
            f"refused {', '.join(f'{row}: {marks[row]}' for row in RATE_ROWS)}")
