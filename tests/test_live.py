"""Live runs of networks that change, whose traces `check` judges."""
from __future__ import annotations

import random
import subprocess
import time
from typing import List, Optional, Tuple

from support.checks import count, say
from support.limits import CAPACITY, NET_NODES, PACKETS, RESTAMPS
from support.marks import built
from support.networks import Links, busy, grid, ring
from support.route import brief, differs, put, run

pytestmark = [built]


LIVE_SECONDS = 10  # how long the section of live runs goes on


def live_fault(options: List[str], topology: str, lines: List[str]) -> Optional[str]:
    """What is wrong with a live run of a script, and with the check of its trace."""
    files = [put("live/topology", topology), put("live/script", "\n".join(lines) + "\n")]
    output, faults, status = run(["live", *options, *files], stdin=subprocess.DEVNULL)
    if status != 0:
        return f"status {status}, faults {brief(faults)}"
    told = [line.split(" ") for line in faults.decode().splitlines()]
    if any(len(line) != 3 or line[0] != "refused" for line in told):
        return f"faults {brief(faults)}"
    not_done = {int(line[1]) for line in told}
    sent = [line.split()[1:] for at, line in enumerate(lines, 1) if line.startswith("inject") and at not in not_done]
    if not sent or len(sent) > PACKETS or max(not_done, default=0) > len(lines):
        return f"{len(sent)} packets are accepted"
    rows = [line.split(" ") for line in output.decode().splitlines()]
    versioned = "--restamps" in options
    if rows[0] != ["trace", "2" if versioned else "1"]:
        return f"the first line is {rows[0]}"
    ends = [[row[0], *(row[1:3] if versioned else row[2:4])] for row in rows[1:]]
    if ends != [[str(i), *pair] for i, pair in enumerate(sent)]:
        return f"{len(ends)} rows for {len(sent)} accepted packets, or not each of them once"
    shared = [word for at, word in enumerate(options) if "--restamps" not in options[max(at - 1, 0) : at + 1]]
    files.append(put("live/trace", output))
    return differs(run(["check", *shared, *files]), (f"ok {len(sent)}\n".encode(), b"", 0))


def test_live() -> None:
    side = int(min(NET_NODES, 256) ** 0.5)
    wide, middle, small = grid(side), grid(8), grid(4)
    around: Tuple[str, List[str], Links] = (ring(64, 0, 1)[0], [f"n{i}" for i in range(64)], [])
    kinds: List[Tuple[str, Tuple[str, List[str], Links], List[str], bool, int]] = [
        ("a ring under a tree", around, ["--kind", "tree", "--capacity", str(CAPACITY)], False, 64),
        ("a grid under shortest ways", wide, [], False, 97),
        ("a grid that changes", middle, ["--kind", "compact"], True, 41),
        ("a grid that changes, with restamps", small, ["--restamps", str(RESTAMPS), "--capacity", "4"], True, 500),
        ("a small grid with full channels", small, ["--capacity", "1"], True, 30),
    ]
    for number, (name, (topology, nodes, links), options, changes, per_drain) in enumerate(kinds):
        begun, turn, fault = time.monotonic(), 0, None
        while not fault and (turn == 0 or time.monotonic() - begun < LIVE_SECONDS / len(kinds)):
            luck = random.Random(1000 * number + turn)
            fault = live_fault(options, topology, busy(luck, nodes, links, changes, per_drain))
            turn += 1
        count(f"live runs of {name}", fault and f"turn {turn}: {fault}")
        say(f"live runs of {name}: {turn}")
