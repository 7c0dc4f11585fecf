"""Records and blocks for the calls of a depot, sound and damaged."""

from __future__ import annotations

import random
import struct
from typing import Callable

import model
from make_blocks import DAMAGES, edition_blocks
from model import Record

# The vans of document 01's example.
SAMPLE = (Record(1, 0, 1000, 500, 90_000), Record(2, 7, 7, 40, 0), Record(3, 0, 2000, 500, 90_001))
# Where the edition stands in a block, and the fields of a record in it.
EDITION = 6
VAN, START, END, FUEL, SPEED, SIXTH = range(0, 24, 4)
# A damage: the pieces in place of some blocks, picked by chance.
Damage = Callable[[random.Random, list[bytes]], list[bytes]]
# The damages that the reference makes to some of the blocks offered.
SOME_DAMAGED = tuple(damage for name, damage in DAMAGES.items()
                     if name not in ("none", "empty", "overfull-last"))


def moved_record(van: int, fuel: int = 1, distance: int = 3, speed: int = 50_000) -> Record:
    """A record of a van that moved from the odometer's zero."""
    return Record(van, 0, distance, fuel, speed)


def parked_record(van: int, speed: int = 0) -> Record:
    """A record of a van that was parked."""
    return Record(van, 7, 7, 40, speed)


def place(index: int, field: int = 0) -> int:
    """Where a field of the record with this index stands in a block."""
    return 8 + model.RECORD_BYTES * index + field


def blocks_of(records: list[Record], edition: int = 0) -> list[bytes]:
    """The blocks of these records."""
    return edition_blocks(records, lambda i: edition)


def flipped(block: bytes, at: int, bits: int = 1) -> bytes:
    """The block with other bits in one byte, its check as it was."""
    return block[:at] + bytes([block[at] ^ bits]) + block[at + 1:]


def with_check(block: bytes, check: int) -> bytes:
    """The block with another check."""
    return block[:508] + struct.pack("<I", check % 2**32)


def exchanged(block: bytes, first: int, second: int) -> bytes:
    """The block with two words in each other's place: its check stays right."""
    words = list(model.words_of(block))
    words[first // 4], words[second // 4] = words[second // 4], words[first // 4]
    return struct.pack("<128I", *words)
