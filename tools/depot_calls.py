"""Sequences of calls of a depot, and what the model answers to each."""

from __future__ import annotations

import random
from dataclasses import replace
from typing import Callable, NamedTuple, Optional, Sequence

import model
import rules
from make_blocks import random_record
from model import Figures, Number, Record, Refused
from operands import marked_text, number_text, refusal_text
from requests import FRESH, Rounded, State, make_block, rate_with_side


class Part(NamedTuple):
    """A part of a state that one line hands in: its word, and the model's names of its fields."""

    word: str
    fields: tuple[str, ...]

    def text(self, depot: State) -> str:
        """The part as a line has it."""
        return " ".join((self.word, *(field_text(getattr(depot, name)) for name in self.fields)))


def field_text(value: bool | int | Number) -> str:
    """A field of a state as a line has it."""
    if isinstance(value, bool):
        return "closed" if value else "open"
    return str(value) if isinstance(value, int) else number_text(value)


def figures_text(answer: Figures | Refused) -> str:
    """Figures, or their refusal, as a line has them."""
    if isinstance(answer, Refused):
        return refusal_text(answer)
    return f"low {number_text(answer.low)} high {number_text(answer.high)}"


PARTS = (Part("blocks", ("blocks", "closed", "last_van")),
         Part("vans", ("moved", "parked", "over")),
         Part("sums", ("low_sum", "high_sum")),
         Part("edition", ("edition",)))


def state_text(depot: State) -> str:
    """A state as it is printed: an edition of 0 is not."""
    return " ".join(part.text(depot) for part in PARTS if part.word != "edition" or depot.edition)


class Line(NamedTuple):
    """A line of the input, and the bytes behind it."""

    text: str
    content: bytes = b""


class Offer(NamedTuple):
    """A block offered: the state before, its bytes, and the row if it was refused."""

    depot: State
    block: bytes
    row: Optional[int]


class Rate(NamedTuple):
    """A rate asked for."""

    fuel: int
    distance: int
    code: int
    precision: int

    @property
    def answer(self) -> Rounded | Refused:
        """What the model answers."""
        return rate_with_side(self.fuel, self.distance, self.code, self.precision)


class Calls:
    """Calls one after the other from a fresh depot, their answers, and the state after them."""

    def __init__(self) -> None:
        self.depot = FRESH
        self.given: list[Line] = []
        self.wanted: list[str] = []
        self.offers: list[Offer] = []
        self.states: list[State] = []
        self.asked: list[Optional[int]] = []
        self.rates: list[Rate] = []
        self._answered(Line("fresh"), "fit")

    def _answered(self, line: Line, answer: str) -> None:
        """Adds a line, its answer, and the state that it leaves."""
        self.given.append(line)
        self.wanted += [answer, state_text(self.depot)]

    def hand_in(self, **fields) -> None:
        """Hands in the state with other fields, by a line for each part that differs."""
        other = replace(self.depot, **fields)
        parts = [part for part in PARTS if part.text(other) != part.text(self.depot)]
        for part in parts:
            values = {name: getattr(other, name) for name in part.fields}
            self.depot = replace(self.depot, **values)
            fit = rules.is_fit(self.depot)
            self._answered(Line(part.text(other)), "fit" if fit else "unfit")
        assert self.depot == other
        if parts:
            self.states.append(other)

    def load(self, block: bytes) -> Optional[int]:
        """Offers a block; the row if it is refused."""
        before = self.depot
        refusal, self.depot = rules.load_block(before, block)
        text, row = (refusal_text(refusal), refusal.number) if refusal else ("taken", None)
        self.offers.append(Offer(before, block, row))
        self._answered(Line(f"load {len(block)}", block), text)
        return row

    def ask(self) -> Optional[int]:
        """Asks for figures; the row if they are refused."""
        answer = rules.figures(self.depot)
        row = answer.number if isinstance(answer, Refused) else None
        self.asked.append(row)
        self._answered(Line("ask"), figures_text(answer))
        return row

    def rate(self, *arguments: int) -> Rounded | Refused:
        """Asks for the rate of fuel over a distance, by a mode code and a precision."""
        rate = Rate(*arguments)
        self.rates.append(rate)
        self._answered(Line(f"rate {rate.code} {rate.precision} {rate.fuel} {rate.distance}"),
                       marked_text(rate.answer))
        return rate.answer

    def no_call(self, text: str) -> None:
        """A line that is no call."""
        self._answered(Line(text), "not a call")

    def due(self, records: Sequence[Record], edition: Optional[int] = None) -> bytes:
        """The block that is due, with these records, in the depot's own edition if no other is
        named."""
        return make_block(self.depot.blocks, records,
                          self.depot.edition if edition is None else edition)

    def records(self, chance: random.Random, count: int, style: str = "mixed") -> list[Record]:
        """Records that the depot may take next: their vans rise from its last one."""
        room = (2**32 - 1 - self.depot.last_van) // max(count, 1)
        assert room > 0
        van, records = self.depot.last_van, []
        for _ in range(count):
            van += chance.randint(1, min(room, chance.choice((1, 9, 1_000_000))))
            records.append(random_record(chance, van, style))
        return records

    def next_block(self, chance: random.Random, count: int = model.FULL_COUNT,
                   edition: Optional[int] = None) -> bytes:
        """The block that is due, with as many records that the depot may take."""
        return self.due(self.records(chance, count), edition)

    def following(self, count: int, record: Callable[[int], Record]) -> bytes:
        """The block that is due, with the records of the vans right after the last one."""
        first = self.depot.last_van + 1
        return self.due([record(van) for van in range(first, first + count)])
