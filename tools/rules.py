"""The model under the rules in force: document 01's, as the requests that have landed change them."""

from __future__ import annotations

import requests
from model import Figures, Lent, Refused
from requests import State

RULES = requests.rules_after(3)


def is_fit(state: State) -> bool:
    """Whether a depot's state is fit."""
    return requests.state_is_fit(state, RULES)


def load_block(state: State, block: bytes) -> Lent:
    """What loading a block answers and leaves."""
    return requests.load_block(state, block, RULES)


def figures(state: State) -> Figures | Refused:
    """What asking for figures answers."""
    return requests.figures(state, RULES)
