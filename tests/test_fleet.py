"""A fleet in real packets, under faults; `tests/fleet` runs it. There is a test for each run of the gate in support/fleet.py."""
from __future__ import annotations

import os
import sys
from typing import Callable

from support.driver import drive
from support.marks import root, slow
from support.places import TOP

sys.path.insert(0, os.path.join(TOP, "python"))
from support.fleet import GATE  # noqa: E402


def case_of(name: str) -> Callable[[], None]:
    """Return the test that has a run of the gate."""
    def test() -> None:
        drive("fleet", name)

    test.__doc__ = f"The run {name}."
    return root(slow(test))


for _name in GATE:
    globals()[f"test_{_name.replace('-', '_')}"] = case_of(_name)
