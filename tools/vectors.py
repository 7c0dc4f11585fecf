"""Makes the input of the programs `known`, `known_depot` and `known_writing`, and what they must
print.

    python3 tools/vectors.py FOLDER

FOLDER holds the reference model and its maker of blocks, model.py, requests.py and make_blocks.py.
A program's input goes to the file stdin of its crate, the model's answers to the file stdout.  The
cases of `known` are lines of 80 bytes; so are the calls of the other two, each with the bytes that
it offers behind it.  The same files come out of every run.
"""

from __future__ import annotations

import random
import sys
from pathlib import Path
from types import ModuleType
from typing import Sequence

if len(sys.argv) != 2:
    sys.exit("usage: python3 tools/vectors.py FOLDER, which holds model.py, requests.py and "
             "make_blocks.py")
ROOT = Path(__file__).resolve().parent.parent
sys.dont_write_bytecode = True
sys.path.insert(0, sys.argv[1])

import arithmetic_cases
import code_cases
import damage_cases
import depot_cases
import depot_coverage
import division_cases
import edition_cases
import mark_coverage
import rate_cases
import rounding_cases
import state_cases
import writing_cases
import writing_coverage

WIDTH = 80
FAMILIES = (arithmetic_cases, rounding_cases, code_cases, division_cases)
DEPOT_FAMILIES = (depot_cases, damage_cases, state_cases, rate_cases, edition_cases)
WRITING_FAMILIES = (writing_cases,)


def padded(text: str) -> bytes:
    """A line of the input: the text, spaces, a newline."""
    assert len(text) < WIDTH, text
    return text.ljust(WIDTH - 1).encode("ascii") + b"\n"


def write(crate: str, given: list[bytes], wanted: list[str]) -> None:
    """Writes the two files of a crate."""
    folder = ROOT / "crates" / crate
    (folder / "stdin").write_bytes(b"".join(given))
    (folder / "stdout").write_text("".join(line + "\n" for line in wanted), encoding="ascii")


def known() -> None:
    """Makes the cases of `known` and prints how many of each kind there are."""
    every = []
    for kind in (kind for family in FAMILIES for kind in family.KINDS):
        cases = [(case.text, case.answer) for case in kind(random.Random(kind.__name__))]
        every += cases
        print(f"{len(cases):5} {kind.__module__} {kind.__name__}")
    mark_coverage.check(every)
    given, wanted = [padded(text) for text, _ in every], [answer for _, answer in every]
    lines = [line for family in FAMILIES for line in family.NO_CASES.splitlines()]
    given += [padded(line) for line in lines]
    wanted += ["not a case"] * len(lines)
    print(f"{len(lines):5} not a case\n{len(given):5} in all")
    write("known", given, wanted)


def known_calls(crate: str, families: Sequence[ModuleType], coverage: ModuleType) -> None:
    """Makes the calls of a program and prints how many of each kind there are."""
    sequences = []
    for kind in (kind for family in families for kind in family.KINDS):
        made = list(kind(random.Random(kind.__name__)))
        sequences += made
        print(f"{sum(len(calls.given) for calls in made):5} {kind.__module__} {kind.__name__}")
    lines = [line for calls in sequences for line in calls.given]
    print(f"{len(lines):5} in all: {coverage.summary(sequences)}")
    write(crate, [padded(line.text) + line.content for line in lines],
          [text for calls in sequences for text in calls.wanted])


if __name__ == "__main__":
    known()
    known_calls("known_depot", DEPOT_FAMILIES, depot_coverage)
    known_calls("known_writing", WRITING_FAMILIES, writing_coverage)
