#!/usr/bin/env python3
"""A model of what `route plan` costs: processor time and memory as nodes, links and starts grow, fitted, and what it says of
larger networks.

    bench/model.py [--turns N] [--most NODES] [--program PATH] [FAMILY ..]

Each family below is planned at 1,024, 2,048, .. nodes, on one thread, by turns; the least processor time of the turns and
the greatest resident set count. Fitted are, by least squares of the relative errors, no coefficient below 0:

    seconds   = search * n * (n + 2m) + start * s + link * (n + m)      search is one for each family, the others are shared
    megabytes = base + start * s + link * (n + m) + node * n
    s         = k * n^e for each family, on logarithms

for n nodes, m links and s starts of all rows. A search goes over n nodes and 2m arcs once a sweep, for sixteen nodes at once:
so `search` is the sweeps of the family, by the cost of one step. The residual is the greatest relative error of the fit.
A fit on few sizes says of larger ones only that nothing else sets in; where caches end it does. Five minutes at most on a
machine that is otherwise idle. Outside the gate: it wants GNU time and the built program.
"""
from __future__ import annotations

import argparse
import math
import os
import pathlib
import subprocess
import sys
import tempfile
from typing import Any

BENCH = pathlib.Path(__file__).resolve().parent
MOST_LINKS = 131_072  # of a topology; a hypercube of 32,768 nodes has more, and is left out


def torus(n: Any) -> list[Any]:
    rows = 1 << (n.bit_length() - 1) // 2
    return ["torus", rows, n // rows]


FAMILIES = {
    "random, weights": (["--weights"], lambda n: ["random", n, 4 * n]),
    "random": (["--units"], lambda n: ["random", n, 4 * n]),
    "torus, weights": (["--weights"], torus),
    "hypercube": (["--units"], lambda n: ["hypercube", n.bit_length() - 1]),
    "scale-free": (["--units"], lambda n: ["scalefree", n, 2]),
    "tree": (["--units"], lambda n: ["tree", n]),
    "path": (["--units"], lambda n: ["path", n]),
    "star": (["--units"], lambda n: ["star", n]),
}


# Least squares


def solved(rows: Any, right: Any) -> list[Any]:
    """The solution of a square system, by elimination."""
    rows = [row + [value] for row, value in zip(rows, right)]
    for i in range(len(rows)):
        pivot = max(range(i, len(rows)), key=lambda k: abs(rows[k][i]))  # type: ignore[no-any-return]
        rows[i], rows[pivot] = rows[pivot], rows[i]
        if rows[i][i] == 0:
            rows[i][i] = 1e-300
        for k in range(len(rows)):
            if k != i:
                by = rows[k][i] / rows[i][i]
                rows[k] = [x - by * y for x, y in zip(rows[k], rows[i])]
    return [row[-1] / row[i] for i, row in enumerate(rows)]


def fitted(rows: Any, right: Any) -> list[Any]:
    """The coefficients, none below 0, by which the rows give the right sides with the least squares of relative errors."""
    scaled = [[x / value for x in row] for row, value in zip(rows, right)]
    used = [j for j in range(len(rows[0])) if any(row[j] for row in rows)]
    while True:
        sizes = {j: max(row[j] for row in scaled) for j in used}
        columns = [[row[j] / sizes[j] for row in scaled] for j in used]
        normal = [[sum(x * y for x, y in zip(a, b)) for b in columns] for a in columns]
        found = dict(zip(used, solved(normal, [sum(a) for a in columns])))
        below = [j for j in used if found[j] < 0]
        if not below:
            return [found[j] / sizes[j] if j in found else 0.0 for j in range(len(rows[0]))]
        used.remove(min(below, key=lambda j: found[j]))  # type: ignore[no-any-return]


def product(row: Any, coefficients: Any) -> Any:
    return sum(x * y for x, y in zip(row, coefficients))


def residual(rows: Any, right: Any, coefficients: Any) -> Any:
    return max(abs(product(row, coefficients) / value - 1) for row, value in zip(rows, right))


# Runs


class Point:
    """What was measured of a network of a family."""

    def __init__(self, family: Any, nodes: Any, links: Any) -> None:
        self.family, self.nodes, self.links = family, nodes, links
        self.starts = 0
        self.seconds = math.inf
        self.megabytes = 0.0

    def time_terms(self, families: Any) -> list[Any]:
        searches = [self.nodes * (self.nodes + 2 * self.links) * (self.family == family) for family in families]
        return [*searches, self.starts, self.nodes + self.links]

    def memory_terms(self) -> list[Any]:
        return [1, self.starts, self.nodes + self.links, self.nodes]


def links_of(family: Any, n: Any) -> Any:
    """How many links a network of so many nodes has."""
    if family.startswith("random"):
        return 4 * n
    if family == "hypercube":
        return round(n * math.log2(n) / 2)
    return 2 * n if family.startswith(("torus", "scale-free")) else n - 1


def network(family: Any, n: Any, work: Any) -> tuple[Any, Any]:
    option, words = FAMILIES[family]
    file = f"{work}/{family}.{n}"
    with open(file, "w", encoding="ascii") as out:
        subprocess.run([sys.executable, str(BENCH / "networks.py"), *option, *map(str, words(n))], stdout=out, check=True)  # type: ignore[no-untyped-call]
    lines = [line.split() for line in pathlib.Path(file).read_text(encoding="ascii").splitlines() if line[0] != "#"]
    return file, Point(family, len({end for line in lines for end in line[:2]}), len(lines))


def measure(program: Any, file: Any, point: Any, work: Any) -> None:
    """One run; the first line of a plan gives its starts."""
    command = ["/usr/bin/time", "-o", f"{work}/time", "-f", "%U %S %M", program, "plan", "--format", "edgelist", "--threads", "1", file]
    with subprocess.Popen(command, stdout=subprocess.PIPE) as process:
        point.starts = int(process.stdout.readline().split()[3])  # type: ignore[union-attr]
        while process.stdout.read(1 << 20):  # type: ignore[union-attr]
            pass
    user, system, kilobytes = pathlib.Path(f"{work}/time").read_text(encoding="ascii").split()
    point.seconds = max(0.001, min(point.seconds, float(user) + float(system)))
    point.megabytes = max(point.megabytes, int(kilobytes) / 1024)


def points_of(families: Any, arguments: Any, work: Any) -> list[Any]:
    sizes = [n for n in (1024, 2048, 4096, 8192, 16384, 32768) if n <= arguments.most]
    made = [network(family, n, work) for family in families for n in sizes]
    made = [(file, point) for file, point in made if point.links <= MOST_LINKS]
    for _ in range(arguments.turns):
        for file, point in made:
            measure(arguments.program, file, point, work)
            print(".", end="", file=sys.stderr, flush=True)
    print(file=sys.stderr)
    return [point for _, point in made]


# What it says


def power(points: Any) -> tuple[Any, Any, Any]:
    """k and e of s = k * n^e, and the greatest relative error."""
    xs, ys = [math.log(p.nodes) for p in points], [math.log(max(1, p.starts)) for p in points]
    x, y = sum(xs) / len(xs), sum(ys) / len(ys)
    e = sum((a - x) * (b - y) for a, b in zip(xs, ys)) / sum((a - x) ** 2 for a in xs)
    k = math.exp(y - e * x)
    return k, e, max(abs(k * p.nodes**e / max(1, p.starts) - 1) for p in points)


def print_measured(points: Any) -> None:
    print("| network | nodes, links | starts | seconds of a processor | MB |\n|---|---|---|---|---|")
    for p in points:
        print(f"| {p.family} | {p.nodes:,}, {p.links:,} | {p.starts:,} | {p.seconds:.3g} | {p.megabytes:.0f} |")


def print_model(families: Any, points: Any) -> None:
    rows, right = [p.time_terms(families) for p in points], [p.seconds for p in points]
    times = fitted(rows, right)
    sizes, megabytes = [p.memory_terms() for p in points], [p.megabytes for p in points]
    memory = fitted(sizes, megabytes)
    print(f"\nseconds: {times[-2] * 1e9:.3g} ns a start, {times[-1] * 1e6:.3g} us a node or link, and a search as below;"
          f" greatest error {residual(rows, right, times):.0%}")
    print(f"megabytes: {memory[0]:.3g}, {memory[1] * 2**20:.3g} bytes a start, {memory[2] * 2**20:.3g} a node or link,"
          f" {memory[3] * 2**20:.3g} more a node; greatest error {residual(sizes, megabytes, memory):.0%}\n")
    large = (65_536, 1_048_576)
    print("| family | ps a node or arc of a search | starts | error | "
          + " | ".join(f"{n:,} nodes: starts, seconds, GB" for n in large) + " |\n|---|---|---|---|" + "---|" * len(large))
    for place, family in enumerate(families):
        k, e, error = power([p for p in points if p.family == family])
        told = []
        for n in large:
            p = Point(family, n, links_of(family, n))
            p.starts = k * n**e
            told.append(f"{p.starts:.2g}, {product(p.time_terms(families), times):.2g}, {product(p.memory_terms(), memory) / 1024:.2g}")
        print(f"| {family} | {times[place] * 1e12:.3g} | {k:.3g} n^{e:.2f} | {error:.0%} | " + " | ".join(told) + " |")


def main() -> None:
    parser = argparse.ArgumentParser(description=__doc__, formatter_class=argparse.RawDescriptionHelpFormatter)
    parser.add_argument("--turns", type=int, default=2)
    parser.add_argument("--most", type=int, default=16384, metavar="NODES")
    parser.add_argument("--program", default=os.environ.get("BENTZOLU_ROUTE", str(BENCH / "../crates/route/out/route")))
    parser.add_argument("families", nargs="*", metavar="FAMILY", help=", ".join(FAMILIES))
    arguments = parser.parse_args()
    if not os.access(arguments.program, os.X_OK):
        sys.exit(f"bench/model.py: no program at {arguments.program}")
    families = arguments.families or list(FAMILIES)
    with tempfile.TemporaryDirectory() as work:
        points = points_of(families, arguments, work)
    print_measured(points)
    print_model(families, points)


main()
