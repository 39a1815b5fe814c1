"""What the program prints, beside plain programs that follow the definitions with no cleverness.

Each module has `fault_of(luck, folder)`: it draws a network, asks the program, and returns what is wrong, or None.
`tests/oracles` runs them. They share nothing with the proved sources but the definitions' words: a definition that does
not say what is meant would differ from them.
"""
from __future__ import annotations

import importlib
import random

from support.checks import count, say

# The oracles, each with its share of the networks that the gate tries: those that ask the program most have fewer.
SHARES = {"rows": 100, "compact": 100, "landmark": 60, "blocks": 50, "ways": 2, "tables": 80, "ranges": 100, "figures": 50, "as_json": 40, "runs": 150, "beside": 30}


def compare(name: str, first: int, networks: int, folder: str) -> None:
    """Count a check for each of so many networks, each of which is drawn from a seed of its own.

    Parameters
    ----------
    name : str
        The oracle, a module of this package.
    first : int
        The seed of the first network; each further one has the next seed.
    networks : int
        The number of networks.
    folder : str
        Where files may be written.
    """
    oracle = importlib.import_module(f"oracle.{name}")
    say(f"{name}: {networks} networks, seeds {first} to {first + networks - 1}")
    for seed in range(first, first + networks):
        try:
            fault = oracle.fault_of(random.Random(f"{name} {seed}"), folder)
        except Exception as error:  # what the program printed is no text of the kind that was asked for
            fault = f"{type(error).__name__}: {error}"
        count(f"{name}, seed {seed} (tests/oracles --seed {seed} --networks 1 {name})", fault)
