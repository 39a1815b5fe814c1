"""Agents and controllers on a clock of their own, under faults by chance, as support/fleet_sim.py says; `tests/fleet_sim`."""
from __future__ import annotations

from support.driver import drive
from support.marks import alone, slow


@alone
@slow
def test_fleet_sim() -> None:
    """Of 10,000 runs none mixes two plans, and wrong bodies are found."""
    drive("fleet_sim")
