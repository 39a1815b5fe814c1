#!/usr/bin/env python3
"""Runs packets by a tour over random networks, and holds their ways to `route check` and `route walk`.

    tours.py [--count N] [--seed S] [--least NODES] [--most NODES]

N runs, 300 if that isn't said, from that of number S on, 0 if that isn't said; the same number gives the same run. Each
has a network of 100 to 1,000 nodes, of a family of networks.py, with weights of one, few, so that ways tie, or many; the
kind compact and a tour; packets of epoch 1, and of an epoch 2 from another root. A run passes where `route check` finds
nothing in the trace, all packets are in it and are delivered, and the hops and the weight of each are those that
`route walk` prints for its epoch. Each run that fails is reported, and the last line is `N passed, M failed`.

Outside the gate: it wants python3 and the built program, which the variable BENTZOLU_ROUTE names, else
crates/route/out/route.
"""
from __future__ import annotations

import argparse
import os
import pathlib
import random
import subprocess
import sys
import tempfile
from typing import Any

sys.dont_write_bytecode = True
import networks  # noqa: E402

PROGRAM = os.environ.get("BENTZOLU_ROUTE", pathlib.Path(__file__).parent / "../crates/route/out/route")
PACKETS = 3  # of each epoch
SECONDS = 600  # the most that a call may take
BY_TOUR = ["--format", "edgelist", "--kind", "compact", "--numbering", "tour"]


def network(luck: Any, size: Any) -> Any:
    """Links of a connected network of about so many nodes."""
    side = max(2, int(size ** 0.5))
    random.seed(luck.random())
    return luck.choice([
        lambda: networks.ring(size),
        lambda: networks.grid(side, side),
        lambda: networks.torus(side, side),
        lambda: networks.clos(8, size - 8),
        lambda: networks.scalefree(size, luck.randint(1, 3)),
        lambda: networks.random_network(size, size + luck.randrange(3 * size)),
        lambda: networks.random_network(size, size + luck.randrange(3 * size)),
    ])()[1]


def call(*words: Any) -> Any:
    done = subprocess.run([PROGRAM, *words], capture_output=True, text=True, timeout=SECONDS)
    return done.stdout if done.returncode == 0 and not done.stderr else f"status {done.returncode}: {done.stdout}{done.stderr}"


def walked(topology: Any, root: Any, start: Any, end: Any) -> list[Any]:
    """The weight and the hops of a walk, as words."""
    head, *nodes = call("walk", *BY_TOUR, "--root", root, "--from", start, "--to", end, topology).splitlines()
    return [head.split()[-1], *(line.split()[0] for line in nodes)]


def wrong(luck: Any, least: Any, most: Any, folder: Any) -> Any:
    """What is wrong with a run, or nothing."""
    links = network(luck, luck.randint(least, most))
    names = list(dict.fromkeys(name for link in links for name in link))
    heaviest = luck.choice([1, 3, 65_535])
    topology, script, trace = (folder / name for name in ("topology", "script", "trace"))
    topology.write_text("".join(f"{u} {v} {luck.randint(1, heaviest)}\n" for u, v in links))
    roots = luck.sample(names, 2)
    ends = [luck.sample(names, 2) for _ in range(2 * PACKETS)]
    injected = [f"inject {u} {v}\n" for u, v in ends]
    script.write_text("".join([*injected[:PACKETS], f"install compact {roots[1]}\nlearn 2\n", *injected[PACKETS:], "drain\n"]))
    words = [*BY_TOUR, "--root", roots[0]]
    trace.write_text(call("sim", *words, topology, script))
    judged = call("check", *words, topology, script, trace)
    if judged != f"ok {len(ends)}\n":
        return f"check tells {judged!r}"
    for row, (place, (u, v)) in zip(trace.read_text().splitlines()[1:], enumerate(ends)):
        epoch = 1 + place // PACKETS
        weight, *hops = walked(topology, roots[epoch - 1], u, v)
        if row.split() != [str(place), str(epoch), u, v, weight, "delivered", *hops]:
            return f"{len(names)} nodes: the row {row!r}, and the walk {' '.join(hops)} of weight {weight}"
    return None


words = argparse.ArgumentParser(description=__doc__.splitlines()[0])
for name, default in (("--count", 300), ("--seed", 0), ("--least", 100), ("--most", 1_000)):
    words.add_argument(name, type=int, default=default)
given = words.parse_args()
failed = 0
with tempfile.TemporaryDirectory() as place:
    for run in range(given.seed, given.seed + given.count):
        fault = wrong(random.Random(run), given.least, given.most, pathlib.Path(place))
        if fault:
            failed += 1
            print(f"run {run}: {fault}", flush=True)
print(f"{given.count - failed} passed, {failed} failed")
sys.exit(failed > 0)
