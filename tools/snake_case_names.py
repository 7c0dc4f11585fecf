#!/usr/bin/env python3
"""Brings the repository's own definitions, fields and lemmas to snake case, in its Rattle and antt files and its
edits: python3 tools/snake_case_names.py, at the top of the repository. It was run once, by the
port that docs/PORT.md tells of.

A name is turned where an antt file of the repository declares it. Names that a proof shares with what the
checker generates stay (`tie.NAME`)."""

import collections
import re
import sys
from pathlib import Path

DECLARED = re.compile(r"^[ \t]*(?:(?:pub|abbrev|unfoldable)[ \t]+)*([a-z][\w'-]*)(?:[ \t]+[\w'-]+)*[ \t]*:(?!=)", re.M)
TOKEN = re.compile(r"(?<![\w'-])[^\W\d_][\w'-]*")

# Where the plain turn would meet another name, this one: mostly a lemma on the definition of that name.
TURNED = {
    "block-count": "block_count_least", "book-row": "book_row_is", "digit-step": "digit_step_is",
    "equal-code": "equal_code_is", "exponent-bits": "exponent_bits_are", "goes-up": "goes_up_is",
    "is-admissible": "admissible_is", "is-edition": "an_edition", "last-van": "last_van_is",
    "less-sign": "less_sign_is", "most-records": "most_records_are", "quotient-of": "quotient_of_is",
    "rate-of": "rate_of_is", "record-bytes": "record_bytes_are", "records-bytes": "records_bytes_are",
    "refined-word": "refined_word_is", "zero-code": "zero_code_is",
}

# Lemmas that have the plain turn of a definition already, by the crate that they stand in.
LEMMAS = {
    "arithmetic/proofs/Laws/Operands.antt": {"last_bit": "last_bit_is"},
    "codes": {"all_ones": "all_ones_are"},
    "steps/proofs/Laws/Divided.antt": {"last_step": "last_step_is"},
    "steps/proofs/Theorem.antt": {"last_step": "last_step_is"},
}


def snake(name: str) -> str:
    name = re.sub(r"(?<=[a-z0-9'])([A-Z])", lambda m: "_" + m.group(1).lower(), name)
    return re.sub(r"-+", "_", name).strip("_")


def files(top: Path) -> list[Path]:
    kept = [p for p in sorted((top / "crates").rglob("*"))
            if p.suffix in (".antt", ".rt", ".edit") and "out" not in p.relative_to(top).parts]
    return kept


def names_to_turn(top: Path) -> dict[str, str]:
    declared: dict[str, set[Path]] = collections.defaultdict(set)
    generated: set[str] = set()
    for path in files(top):
        if path.suffix != ".antt":
            continue
        text = path.read_text()
        generated |= set(re.findall(r"\btie\.([\w'-]+)", text))
        for m in DECLARED.finditer(text):
            declared[m.group(1)].add(path)
    return {n: TURNED.get(n, snake(n)) for n in declared if snake(n) != n and n not in generated}


def lemmas_of(path: Path, top: Path) -> dict[str, str]:
    place = str(path.relative_to(top / "crates"))
    own = [turn for where, turn in LEMMAS.items() if place == where or place.startswith(where + "/")]
    return own[0] if own and path.suffix == ".antt" else {}


def turned(m: re.Match[str], own: dict[str, str]) -> str:
    """What stands for a name. Behind a dot, a name of TURNED is the step of a call, and has the function's name."""
    name = m.group(0)
    if name in TURNED and name != "is-edition" and m.string[m.start() - 1:m.start()] == ".":
        return snake(name)
    return own.get(name, name)


def main() -> int:
    top = Path.cwd()
    turn = names_to_turn(top)
    if "--list" in sys.argv:
        for old, new in sorted(turn.items()):
            print(old, new)
        return 0
    for path in files(top):
        text = path.read_text()
        own = turn | lemmas_of(path, top)
        new = TOKEN.sub(lambda m: turned(m, own), text)
        if new != text:
            path.write_text(new)
    return 0


if __name__ == "__main__":
    raise SystemExit(main())
