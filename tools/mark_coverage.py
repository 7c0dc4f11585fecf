"""Asserts that the cases of `known` have every mark that a rounding can have, and no other."""

from __future__ import annotations

from model import AWAY, DOWN, EXACT, NEAR, STICKY, TRUNC, UP

# The first words of the cases that round.
ROUNDING = ("add", "sub", "mul", "div", "round")
SIGNS = ("+", "-")


def marks_of(mode: int, sign: str) -> set[str]:
    """The marks that a result of this sign can have in a mode."""
    nearer, further = ("below", "above") if sign == "+" else ("above", "below")     # to zero
    uneven = {TRUNC: {nearer}, AWAY: {further}, NEAR: {nearer, further}, STICKY: {nearer, further},
              UP: {"above"}, DOWN: {"below"}, EXACT: set()}
    return {"exact"} | uneven[mode]


def check(cases: list[tuple[str, str]]) -> None:
    """Asserts it of these lines and their answers."""
    seen = {token: set() for token in ROUNDING}
    for text, answer in cases:
        token, mode, *_ = text.split()
        if token in ROUNDING and not answer.startswith("refused"):
            sign, *_, mark = answer.split()
            seen[token].add((int(mode), sign, mark))
    for token in ROUNDING:
        modes = range(EXACT if token == "div" else EXACT + 1)
        wanted = {(mode, sign, mark) for mode in modes for sign in SIGNS
                  for mark in marks_of(mode, sign)}
        assert seen[token] == wanted | {(mode, "zero", "exact") for mode in modes}, token
