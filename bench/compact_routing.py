#!/usr/bin/env python3
"""Kind landmark on the networks of Krioukov, Fall and Yang ("Compact routing on Internet-like graphs", INFOCOM 2004).

    compact_routing.py [--nodes N] [--networks T] [--pairs P] [--landmarks K]

Their graphs are scale-free: of about 10,000 nodes, with degrees drawn by a power law of exponent 2.1. On these the scheme of Thorup
and Zwick with stretch 3 has paths of a mean stretch of about 1.1 and tables of about 50 entries. Their text fixes neither seeds nor
how ends are joined. Here each node draws its degree, from 1 to the greatest that one of N nodes is expected to reach, ends are
joined at random, circles and second links are dropped, and the largest part is kept. Degrees of T networks are drawn from seeds 1
to T. Landmarks are the program's default, or K. The mean of stretches is over P pairs that are drawn, walked along the plan's rows.

The program is that of BENTZOLU_ROUTE, else crates/route/out/route.
"""
from __future__ import annotations

import argparse
import bisect
import os
import pathlib
import random
import statistics
import subprocess
import tempfile
from typing import Any

TOP = pathlib.Path(__file__).resolve().parents[1]
PROGRAM = os.environ.get("BENTZOLU_ROUTE") or str(TOP / "crates/route/out/route")
EXPONENT = 2.1
HEADS = ("network", "nodes", "links", "mean stretch", "share of shortest", "entries or intervals a node", "greatest row", "mean distance")
THEIRS = ("theirs", "about 10,000", "", "about 1.1", "", "about 50", "", "")


def degrees(luck: Any, nodes: Any) -> list[Any]:
    """The degree of each node by the power law, up to the greatest that one of so many is expected to have."""
    most = round(nodes ** (1 / (EXPONENT - 1)))
    total, below = 0.0, []
    for degree in range(1, min(most, nodes - 1) + 1):
        total += degree**-EXPONENT
        below.append(total)
    return [bisect.bisect_left(below, luck.random() * total) + 1 for _ in range(nodes)]


def network(luck: Any, nodes: Any) -> list[Any]:
    """The links of the largest part, each from the lesser node to the greater."""
    ends = [u for u, degree in enumerate(degrees(luck, nodes)) for _ in range(degree)]
    luck.shuffle(ends)
    links = {(min(u, v), max(u, v)) for u, v in zip(ends[::2], ends[1::2]) if u != v}
    near: dict[Any, Any] = {}
    for u, v in links:
        near.setdefault(u, []).append(v)
        near.setdefault(v, []).append(u)
    best: set[Any] = set()
    seen = set()
    for u in near:
        if u not in seen:
            part = set(distances(near, u))
            seen |= part
            best = max(best, part, key=len)
    return sorted(link for link in links if link[0] in best)


def distances(near: Any, source: Any) -> Any:
    """The number of links to each node that a node has a path to."""
    far, ahead = {source: 0}, [source]
    for u in ahead:
        for v in near[u]:
            if v not in far:
                far[v] = far[u] + 1
                ahead.append(v)
    return far


def rows_of(text: Any) -> Any:
    """By node its label, the starts of its intervals, and their neighbours."""
    found = {}
    for line in text.splitlines()[1:]:
        name, label, *row = line.split(" ")
        found[name] = int(label), list(map(int, row[::2])), row[1::2]
    return found


def walked(rows: Any, source: Any, target: Any) -> Any:
    """The number of links of the walk between two nodes by their rows."""
    label, at, count = rows[target][0], source, 0
    while at != target:
        _, starts, heads = rows[at]
        at, count = heads[bisect.bisect_right(starts, label) - 1], count + 1
    return count


def measured(seed: Any, words: Any) -> tuple[int, int, Any, Any, Any, Any, Any]:
    """The figures of a network: nodes, links, mean stretch of pairs, share of pairs with a shortest path, intervals, distance."""
    luck = random.Random(f"compact routing {seed}")
    links = network(luck, words.nodes)
    near: dict[Any, Any] = {}
    for u, v in links:
        near.setdefault(f"n{u}", []).append(f"n{v}")
        near.setdefault(f"n{v}", []).append(f"n{u}")
    with tempfile.NamedTemporaryFile("w", suffix=".edgelist", encoding="ascii") as file:
        file.writelines(f"n{u} n{v} 1\n" for u, v in links)
        file.flush()
        chosen = [] if words.landmarks is None else [f"--landmarks={words.landmarks}"]
        done = subprocess.run([PROGRAM, "plan", "--kind", "landmark", *chosen, file.name], capture_output=True, text=True, check=True)
    rows, names, ratios, far = rows_of(done.stdout), list(near), [], []
    for source in luck.sample(names, max(1, words.pairs // 100)):
        away = distances(near, source)
        for target in luck.sample([name for name in names if name != source], min(100, len(names) - 1)):
            far.append(away[target])
            ratios.append(walked(rows, source, target) / away[target])
    lengths = [len(starts) for _, starts, _ in rows.values()]
    shortest = sum(ratio == 1 for ratio in ratios) / len(ratios)
    return len(near), len(links), statistics.mean(ratios), shortest, statistics.mean(lengths), max(lengths), statistics.mean(far)


def main() -> None:
    words = argparse.ArgumentParser(description=__doc__, formatter_class=argparse.RawDescriptionHelpFormatter)
    words.add_argument("--nodes", type=int, default=10_000)
    words.add_argument("--networks", type=int, default=3)
    words.add_argument("--pairs", type=int, default=20_000)
    words.add_argument("--landmarks", type=int)
    found = words.parse_args()
    for row in (HEADS, THEIRS):
        print(" | ".join(row))
    for seed in range(1, found.networks + 1):
        nodes, links, mean, shortest, length, most, far = measured(seed, found)
        print(f"seed {seed} | {nodes:,} | {links:,} | {mean:.3f} | {shortest:.2f} | {length:.1f} | {most:,} | {far:.2f}", flush=True)


if __name__ == "__main__":
    main()
