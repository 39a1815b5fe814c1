#!/usr/bin/env python3
"""Runs random scripts in `route live` and judges each trace by `route check`.

    soak.py [RUNS [FIRST]]

RUNS runs, 1,000 if that isn't said, from that of number FIRST on, 0 if that isn't said. The program is that of the
variable BENTZOLU_ROUTE, else crates/route/out/route.

Outside the gate: it wants python3 and the built program. Each run has a connected random graph, a kind, a limit on
restamps, a room of the queues, and a script of injections, drains, changes of links, installs and retirements.
"""
from __future__ import annotations

import os
import pathlib
import random
import subprocess
import sys
import tempfile
from typing import Any

PROGRAM = os.environ.get("BENTZOLU_ROUTE", pathlib.Path(__file__).parent / "../../crates/route/out/route")
RUNS, FIRST = (int(word) for word in [*sys.argv[1:3], *["1000", "0"][len(sys.argv) - 1:]])
SECONDS = 300  # the most that a run may take


def graph(nodes: Any) -> Any:
    links = [(u, random.randrange(u)) for u in range(1, nodes)]
    for _ in range(random.randrange(nodes)):
        u, v = random.sample(range(nodes), 2)
        if (u, v) not in links and (v, u) not in links:
            links.append((u, v))
    return links


def script(nodes: Any, links: Any) -> Any:
    lines, epoch = [], 1
    for _ in range(random.randrange(5, 60)):
        chance = random.random()
        if chance < 0.6:
            lines.append(f"inject n{random.randrange(nodes)} n{random.randrange(nodes)}")
        elif chance < 0.8:
            u, v = random.choice(links)
            lines.append(f"{random.choice(['down', 'up'])} n{u} n{v}")
        elif chance < 0.88:
            lines.append(f"install {random.choice(['tree', 'shortest', 'compact'])} n{random.randrange(nodes)}")
            epoch += 1
        elif chance < 0.94:
            lines.append(f"retire {random.randrange(1, epoch + 1)}")
        else:
            lines.append("drain")
    return lines + random.choice([[], ["drain"]])


packets = 0
fates: dict[Any, Any] = {}
with tempfile.TemporaryDirectory() as folder:
    topology, lines, trace = (pathlib.Path(folder) / name for name in ("topology", "script", "trace"))
    for run in range(FIRST, FIRST + RUNS):
        random.seed(run)
        nodes = random.randrange(2, 12)
        links = graph(nodes)
        topology.write_text("".join(f"n{u} n{v} {random.randrange(1, 9)}\n" for u, v in links))
        steps = script(nodes, links)
        lines.write_text("".join(line + "\n" for line in steps))
        restamps = random.randrange(4)
        words = ["--format", "edgelist", "--kind", random.choice(["tree", "shortest", "compact"]), "--root", f"n{random.randrange(nodes)}",
                 "--capacity", str(random.choice([1, 2, 16]))]
        how: dict[str, Any] = {"capture_output": True, "text": True, "timeout": SECONDS}
        live = subprocess.run([PROGRAM, "live", *words, "--restamps", str(restamps), topology, lines], **how)
        trace.write_text(live.stdout)
        refused = {int(line.split()[1]) for line in live.stderr.splitlines()}
        accepted = [step.split()[1:] for place, step in enumerate(steps, 1) if step.startswith("inject") and place not in refused]
        rows = [line.split() for line in live.stdout.splitlines()[1:]]
        ends = [row[1:3] if restamps else row[2:4] for row in rows]
        judged = subprocess.run([PROGRAM, "check", *words, topology, lines, trace], **how)
        if live.returncode or judged.stdout != f"ok {len(accepted)}\n" or ends != accepted or [int(row[0]) for row in rows] != list(range(len(rows))):
            sys.exit(f"run {run}: {live.returncode} {live.stderr} {judged.stdout} {judged.stderr}")
        packets += len(rows)
        for row in rows:
            fate = row[4 if restamps else 5]
            fates[fate] = fates.get(fate, 0) + 1
print(f"{RUNS} runs, {packets} packets, each trace ok: {fates}")
