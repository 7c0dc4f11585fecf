"""Cases of reading codes and of writing numbers into buffers."""

from __future__ import annotations

import random
from itertools import product
from typing import Iterator, NamedTuple

import model
from model import BINARY64, DOUBLE_EXTENDED, ZERO, Finite, Format, Number, Refused
from operands import (
    HIGHEST, LOWEST, ONES, TOP_BIT, UNFIT, answer_text, any_finite, any_signed, bits, number,
    number_text, refusal_text,
)

FORMATS = (DOUBLE_EXTENDED, BINARY64)
SIGNS = (False, True)
LENGTHS = (0, 1, 7, 8, 9, 10, 11, 16)


def bytes_text(content: bytes) -> str:
    """A code or a buffer as a line has it."""
    return content.hex() or "-"


class Reading(NamedTuple):
    """A code to read."""

    form: Format
    code: bytes

    @property
    def text(self) -> str:
        """The fields of the case."""
        return f"read{self.form.length} {bytes_text(self.code)}"

    @property
    def answer(self) -> str:
        """What the model answers."""
        return answer_text(model.read_code(self.form, self.code))


class Writing(NamedTuple):
    """A number to write, and what the buffer holds before."""

    form: Format
    number: Number
    buffer: bytes

    @property
    def text(self) -> str:
        """The fields of the case."""
        return f"write{self.form.length} {bytes_text(self.buffer)} {number_text(self.number)}"

    @property
    def answer(self) -> str:
        """What the model answers, and what the buffer holds afterwards."""
        refusal, content = model.write_code(self.form, self.number, self.buffer)
        word = refusal_text(refusal) if refusal else "written"
        return f"{word} {bytes_text(content)}"


Case = Reading | Writing


# ---------------------------------------------------------------------------
# Codes and buffers
# ---------------------------------------------------------------------------

def code(form: Format, negative: bool, field: int, stored: int) -> bytes:
    """The code with these parts."""
    whole = (negative << form.field_bits | field) << form.stored_bits | stored
    return whole.to_bytes(form.length, "little")


def stored_top(form: Format, field: int) -> int:
    """The stored top bit of a number with this field."""
    return TOP_BIT if form.top_bit_stored and field else 0


def fraction_bits(form: Format) -> int:
    """The bits of a significand below its top one."""
    return form.precision - 1


def any_code(chance: random.Random, form: Format, lowest: int, highest: int) -> bytes:
    """The code of a number, with a field from lowest to highest."""
    field = chance.randint(lowest, highest)
    fraction = chance.getrandbits(fraction_bits(form))
    return code(form, chance.random() < 0.5, field, stored_top(form, field) | fraction)


def any_buffer(chance: random.Random, length: int) -> bytes:
    """A buffer filled with one byte that is not 0, or with several."""
    if chance.random() < 0.3:
        return bytes([chance.choice((0x01, 0x55, 0xAA, 0xFF))] * length)
    return bytes(chance.randint(1, 255) for _ in range(length))


def written(chance: random.Random, form: Format, x: Number) -> Writing:
    """The case of writing x into a buffer of the right length."""
    return Writing(form, x, any_buffer(chance, form.length))


# ---------------------------------------------------------------------------
# Kinds of case: codes to read
# ---------------------------------------------------------------------------

def boundary_fields(chance: random.Random) -> Iterator[Case]:
    """The fields at each end and around the bias, with no bit, one bit and every bit of the
    fraction; a stored top bit set and clear."""
    for form, negative in product(FORMATS, SIGNS):
        width = fraction_bits(form)
        fractions = (0, *(1 << k for k in range(width)), 2**width - 1)
        tops = (0, TOP_BIT) if form.top_bit_stored else (0,)
        middle, last = form.bias, form.all_ones
        fields = (0, 1, 2, middle - 1, middle, middle + 1, last - 2, last - 1, last)
        for field, top, fraction in product(fields, tops, fractions):
            yield Reading(form, code(form, negative, field, top | fraction))


def codes_below_normal(chance: random.Random) -> Iterator[Case]:
    """Field 0 with every leading bit: alone, with every lower bit, and with some."""
    for form, negative in product(FORMATS, SIGNS):
        for k in range(fraction_bits(form)):
            leading = 1 << k
            lowers = (0, leading - 1, chance.getrandbits(k), chance.getrandbits(k))
            for lower in dict.fromkeys(lowers):
                yield Reading(form, code(form, negative, 0, leading | lower))


def codes_of_no_number(chance: random.Random) -> Iterator[Case]:
    """Infinities, quiet and signalling not-a-numbers, and negative zero; in double-extended these
    with a clear top bit too, and a top bit that is wrong for its field."""
    for form, negative in product(FORMATS, SIGNS):
        quiet = 1 << fraction_bits(form) - 1
        payloads = (1, quiet - 1, *(chance.getrandbits(40) | 1 for _ in range(6)))
        tops = (0, TOP_BIT) if form.top_bit_stored else (0,)
        for top in tops:
            for fraction in (0, quiet, *payloads, *(quiet | payload for payload in payloads)):
                yield Reading(form, code(form, negative, form.all_ones, top | fraction))
        yield Reading(form, code(form, negative, 0, 0))
    for negative, _ in product(SIGNS, range(60)):
        fraction = chance.getrandbits(63)
        yield Reading(DOUBLE_EXTENDED, code(DOUBLE_EXTENDED, negative, 0, TOP_BIT | fraction))
        field = chance.randrange(1, DOUBLE_EXTENDED.all_ones)
        yield Reading(DOUBLE_EXTENDED, code(DOUBLE_EXTENDED, negative, field, fraction))


def lengths_to_read(chance: random.Random) -> Iterator[Case]:
    """Every length, with the front or the back of what would be a number, a field of all ones, a
    negative zero, every bit or no bit."""
    for form, length in product(FORMATS, LENGTHS):
        codes = (any_code(chance, form, 1, form.all_ones - 1), any_code(chance, form, 0, 0),
                 code(form, True, form.all_ones, 0), code(form, True, form.all_ones, 1),
                 code(form, True, 0, 0), b"\xff" * form.length, bytes(form.length))
        fronts = [(2 * content)[:length] for content in codes]
        backs = [(2 * content)[2 * form.length - length:] for content in codes]
        for content in dict.fromkeys(fronts + backs):
            yield Reading(form, content)


def random_codes(chance: random.Random) -> Iterator[Case]:
    """Any bits, and numbers from all over the format."""
    for form in FORMATS:
        for _ in range(300):
            yield Reading(form, chance.randbytes(form.length))
            yield Reading(form, any_code(chance, form, 0, form.all_ones - 1))


# ---------------------------------------------------------------------------
# Kinds of case: numbers to write
# ---------------------------------------------------------------------------

def kept_bits(form: Format, exponent: int) -> int:
    """How many bits of a significand the format holds at this exponent; none below its reach."""
    return max(form.precision - max(form.lowest - exponent, 0), 0)


def held(chance: random.Random, kept: int) -> int:
    """A significand whose last set bit is the last one kept, or the top one where none is."""
    return (bits(chance, kept) | 1) << 64 - kept if kept else TOP_BIT


def exponent_edges(chance: random.Random) -> Iterator[Case]:
    """Every exponent from the last one below the format's reach to its normal numbers, and around
    its highest: the top bit alone, with the last bit kept, with the first bit dropped, and more."""
    for form in FORMATS:
        exponents = (*range(form.lowest - form.precision - 1, form.lowest + 2), -1, 0, 1,
                     form.highest - 1, form.highest, form.highest + 1, form.highest + 2)
        for e, negative in product(exponents, SIGNS):
            kept = kept_bits(form, e)
            last_kept, first_dropped = 2**64 >> kept & ONES, TOP_BIT >> kept
            significands = (TOP_BIT, TOP_BIT | last_kept, TOP_BIT | first_dropped, ONES,
                            TOP_BIT | -last_kept & ONES, held(chance, kept),
                            held(chance, kept) | first_dropped)
            for s in dict.fromkeys(significands):
                yield written(chance, form, Finite(negative, e, s))


def working_ends(chance: random.Random) -> Iterator[Case]:
    """Both ends of the working range, and powers of two far from what the formats reach."""
    exponents = (LOWEST, LOWEST + 1, -40_000, -16_500, 16_500, 40_000, HIGHEST - 1, HIGHEST)
    for form, e, negative in product(FORMATS, exponents, SIGNS):
        for s in (TOP_BIT, ONES):
            yield written(chance, form, Finite(negative, e, s))


def trailing_zeros(chance: random.Random) -> Iterator[Case]:
    """Every number of zeros at a significand's end, at normal exponents and a little below."""
    for form, zeros in product(FORMATS, range(64)):
        exponents = (form.lowest, form.highest, chance.randint(form.lowest, form.highest),
                     form.lowest - 1, form.lowest - chance.randint(2, form.precision - 1))
        for e in exponents:
            for s in (TOP_BIT | 1 << zeros, (bits(chance, 64 - zeros) | 1) << zeros):
                yield written(chance, form, any_signed(chance, Finite(False, e, s)))


def lengths_to_write(chance: random.Random) -> Iterator[Case]:
    """Every length, with zero, numbers that have a code, numbers that have none, unfit numbers."""
    for form, length in product(FORMATS, LENGTHS):
        good = (number(1, 0), number(1, form.lowest), number(1, form.lowest - 9))
        none = (number(1, form.highest + 1), number(1, form.lowest - form.precision),
                number(ONES, form.lowest - 70))
        yield Writing(form, ZERO, any_buffer(chance, length))
        for x in (*good, *none, *UNFIT):
            yield Writing(form, any_signed(chance, x), any_buffer(chance, length))


def numbers_held(chance: random.Random) -> Iterator[Case]:
    """Numbers that a format holds, normal and below."""
    for form, _ in product(FORMATS, range(150)):
        normal = chance.randint(form.lowest, form.highest)
        below = chance.randint(form.lowest - form.precision + 1, form.lowest - 1)
        for e in (normal, below):
            significand = held(chance, chance.randint(1, kept_bits(form, e)))
            yield written(chance, form, any_signed(chance, Finite(False, e, significand)))


def numbers_around(chance: random.Random) -> Iterator[Case]:
    """Any numbers in a format's range and a little beyond; binary64 holds few of them."""
    for form, _ in product(FORMATS, range(150)):
        reach = form.lowest - form.precision
        yield written(chance, form, any_finite(chance, reach - 9, form.lowest + 9))
        yield written(chance, form, any_finite(chance, reach - 999, form.highest + 999))


# ---------------------------------------------------------------------------
# Kinds of case: both
# ---------------------------------------------------------------------------

def document_codes(chance: random.Random) -> Iterator[Case]:
    """The known values of document 01 that are codes."""
    three_eighths = bytes.fromhex("3fd8000000000000")[::-1]
    one = bytes.fromhex("3fff8000000000000000")[::-1]
    yield Reading(BINARY64, three_eighths)
    yield Reading(DOUBLE_EXTENDED, one)
    yield written(chance, BINARY64, number(3, -3))
    yield written(chance, DOUBLE_EXTENDED, number(1, 0))
    for sign, power in product((1, -1), (-16_445, -16_446)):
        yield written(chance, DOUBLE_EXTENDED, number(sign, power))


def written_back(chance: random.Random) -> Iterator[Case]:
    """Codes of numbers, normal and below: read, written back, and written in the other format."""
    others = {DOUBLE_EXTENDED: BINARY64, BINARY64: DOUBLE_EXTENDED}
    for form, _ in product(FORMATS, range(60)):
        for highest in (0, form.all_ones - 1):
            content = any_code(chance, form, 0, highest)
            x = model.read_code(form, content)
            assert not isinstance(x, Refused)
            yield Reading(form, content)
            yield written(chance, form, x)
            yield written(chance, others[form], x)


KINDS = (
    document_codes, boundary_fields, codes_below_normal, codes_of_no_number, lengths_to_read,
    random_codes, exponent_edges, working_ends, trailing_zeros, lengths_to_write, numbers_held,
    numbers_around, written_back,
)


# Lines that are not a case: a word is none, a digit is missing, in upper case or none at all, a byte
# is one too many, or a number is missing or ill made.
NO_CASES = """\
read8
read8-
read8 --
read8 - -
read8  -
read8 zero
read8 0
read8 000000000000f03
read8 000000000000f03ff
read8 000000000000F03F
read8 000000000000f03g
read8 g00000000000f03f
read8 0x0000000000f03f
read8 00000000 0000f03f
read8  000000000000f03f
read8 000000000000f03f zero
read8 000000000000f03fx
read8 -000000000000f03f
read9 000000000000f03f
read 000000000000f03f
Read8 000000000000f03f
read80 000000000000f03f
read10 0000000000000080ff3f00000000000000
read10 0000000000000080ff3f0000000000000000000000000000000000000000000000000000
write8
write8 -
write8 zero
write8 -zero
write8 --zero
write8 - zero zero
write8 - 8000000000000000 0
write8 + 8000000000000000 0
write8 5555555555555555
write8 5555555555555555zero
write8 5555555555555555  zero
write8 5555555555555555 one
write8 555555555555555 zero
write8 555555555555555A zero
write8 5555555555555555 + 800000000000000 0
write8 5555555555555555 + 8000000000000000
write8 5555555555555555 + 8000000000000000 2147483648
write8 5555555555555555 + 8000000000000000 0 0
write9 555555555555555555 zero
write 5555555555555555 zero
write10 5555555555555555555555555555555555 zero
write10 5555555555555555555555555555555555 + 8000000000000000 0
"""
