"""The built program beside the plain programs of tests/oracle, on networks by chance; `tests/oracles` runs the same."""
from __future__ import annotations

import oracle
from support.marks import built, slow

pytestmark = [built]


@slow
def test_oracles(scratch: str) -> None:
    """Each oracle tries its share of the networks that the gate tries."""
    for name, networks in oracle.SHARES.items():
        oracle.compare(name, 1, networks, scratch)
