"""Sequences of calls of the writer of blocks, and what the model answers to each."""

from __future__ import annotations

import struct
from typing import NamedTuple, Optional, Sequence

import rules
from depot_calls import Line, figures_text
from model import BLOCK_BYTES, FULL_COUNT, Record
from operands import refusal_text
from requests import FRESH, State, write_blocks

VAN_FIELDS = 5
# The most numbers of a list and the most bytes of an output that the program has room for.
MOST_NUMBERS, MOST_BYTES = 20_500, 106_496
# The most bytes that are printed, and how many of them to a line.
MOST_PRINTED, LINE_BYTES = 1_100, 32


def fields_of(records: Sequence[Record]) -> list[int]:
    """The numbers of these vans."""
    return [field for record in records for field in record[:VAN_FIELDS]]


def vans_in(fields: Sequence[int]) -> list[Record]:
    """The whole vans in a list of numbers."""
    vans = len(fields) // VAN_FIELDS
    return [Record(*fields[VAN_FIELDS * i:VAN_FIELDS * (i + 1)]) for i in range(vans)]


def room_for(numbers: int) -> int:
    """How many bytes the blocks of the whole vans in so many numbers have."""
    return BLOCK_BYTES * -(-(numbers // VAN_FIELDS) // FULL_COUNT)


def pattern(length: int) -> bytes:
    """What an output of this length holds before it is written: no zeros, and a period that does
    not divide a block."""
    return bytes(1 + i % 251 for i in range(length))


def fnv1a(data: bytes) -> int:
    """The 64-bit hash FNV-1a."""
    value = 0xCBF2_9CE4_8422_2325
    for byte in data:
        value = (value ^ byte) * 0x100_0000_01B3 % 2**64
    return value


# The hash's own test values.
assert fnv1a(b"") == 0xCBF2_9CE4_8422_2325 and fnv1a(b"foobar") == 0x8594_4171_F739_67E8


def output_lines(output: bytes) -> list[str]:
    """An output as the program prints it."""
    if len(output) > MOST_PRINTED:
        return [f"bytes {len(output)} fnv1a {fnv1a(output):016x}"]
    places = range(0, len(output), LINE_BYTES)
    return [f"bytes {len(output)}", *(output[at:at + LINE_BYTES].hex() for at in places)]


class Write(NamedTuple):
    """A list written: the edition, its numbers, what the output holds afterwards, and the row if it
    was refused."""

    edition: int
    fields: list[int]
    output: bytes
    row: Optional[int]


class Load(NamedTuple):
    """The output of a write loaded: the depot afterwards, and the row that refused a piece, if one
    did."""

    write: Write
    depot: State
    row: Optional[int]


class Calls:
    """Calls one after the other from a list that is brought, with no output yet and edition 0, and
    their answers."""

    def __init__(self, fields: Sequence[int]) -> None:
        self.fields = list(fields)
        self.edition = 0
        self.last = Write(0, [], b"", None)
        self.given: list[Line] = []
        self.wanted: list[str] = []
        self.writes: list[Write] = []
        self.loads: list[Load] = []
        count = len(self.fields)
        assert count <= MOST_NUMBERS
        self._answered(Line(f"list {count}", struct.pack(f"<{count}I", *self.fields)),
                       f"list {count}")

    def _answered(self, line: Line, *answers: str) -> None:
        """Adds a line and its answers."""
        self.given.append(line)
        self.wanted += answers

    def ask_for(self, edition: int) -> None:
        """Asks for an edition from here on."""
        self.edition = edition
        self._answered(Line(f"edition {edition}"), f"edition {edition}")

    def write(self, numbers: int, length: int) -> Optional[int]:
        """Writes the first numbers of the list into so many bytes; the row if it is refused."""
        assert numbers <= len(self.fields) and length <= MOST_BYTES
        fields = self.fields[:numbers]
        refusal, output = write_blocks(fields, pattern(length), self.edition)
        text, row = (refusal_text(refusal), refusal.number) if refusal else ("written", None)
        self.last = Write(self.edition, fields, output, row)
        self.writes.append(self.last)
        self._answered(Line(f"write {numbers} {length}"), text, *output_lines(output))
        return row

    def load(self) -> Load:
        """Loads the whole pieces of the last output, up to one that is refused."""
        depot, row = FRESH, None
        for end in range(BLOCK_BYTES, len(self.last.output) + 1, BLOCK_BYTES):
            refusal, depot = rules.load_block(depot, self.last.output[end - BLOCK_BYTES:end])
            if refusal:
                row = refusal.number
                break
        load = Load(self.last, depot, row)
        self.loads.append(load)
        self._answered(Line("load"), f"taken {depot.blocks}" + (f" refused {row}" if row else ""),
                       f"vans {depot.moved} {depot.parked} {depot.over}",
                       figures_text(rules.figures(depot)))
        return load

    def no_call(self, text: str, content: bytes = b"") -> None:
        """A line that is no call."""
        self._answered(Line(text, content), "not a call")
