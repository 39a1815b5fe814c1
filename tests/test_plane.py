"""The plane in XDP, as support/plane.py tests it; `tests/plane` runs it."""
from __future__ import annotations

from support.driver import drive
from support.marks import alone, root, slow, within


@alone
@root
@slow
@within(1500)
def test_plane() -> None:
    """The loader, the look-up of each label in the kernel, and real packets."""
    drive("plane")
