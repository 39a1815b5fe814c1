"""Rows beside their script: `check --whole` beside a plain program, over right and bent traces."""
from __future__ import annotations

import concurrent.futures
import os

from oracle.beside import whole_fault
from support.checks import count, say
from support.limits import DEFAULT_CAPACITY, PACKETS
from support.marks import built
from support.route import expect, put, run

pytestmark = [built]

WHOLE_RIGHT, WHOLE_LIVE, WHOLE_BENT = 200, 20, 2_000  # right traces of sim and of live, and bent ones of sim


def test_whole() -> None:
    """Rows beside their script: right traces of `sim` and `live` have no finding, and bent ones that of a plain program."""
    each = WHOLE_BENT // WHOLE_RIGHT
    with concurrent.futures.ThreadPoolExecutor(os.cpu_count()) as pool:
        told = list(pool.map(lambda seed: whole_fault(seed, each), range(WHOLE_RIGHT)))
        told += list(pool.map(lambda seed: whole_fault(seed, 0, "live"), range(WHOLE_LIVE)))
    for fault, _ in told:
        count("a trace beside its script", fault)
    seen = [name for _, found in told for name in found]
    for name in ("NeverInjected", "NotYetInstalled", "NeverDown", "NeverRetired", "NeverFull", "none"):
        count(f"bent traces with {name}", None if seen.count(name) > 9 else f"{seen.count(name)} of {len(seen)}")
    say("bent traces: " + ", ".join(f"{seen.count(name)} {name}" for name in sorted(set(seen))))


def test_whole_of_most() -> None:
    """Of as many rows as a run can have the last has no packet, or one step off the limit all of them have one."""
    net, rows = put("whole/net", "a b\n"), [f"{i} 1 a b 1 delivered a b\n" for i in range(PACKETS)]
    for packets, told, status in ((PACKETS, f"ok {PACKETS}\n", 0), (PACKETS - 1, f"finding {PACKETS + 1} NeverInjected\n", 1)):
        script = "".join("inject a b\n" + ("drain\n" if i % DEFAULT_CAPACITY == DEFAULT_CAPACITY - 1 else "") for i in range(packets))
        files = [net, put("whole/script", script), put("whole/trace", "trace 1\n" + "".join(rows))]
        expect(f"{PACKETS} rows of {packets} packets", run(["check", "--whole", *files]), told.encode(), b"", status)
