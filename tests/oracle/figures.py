"""The text of `compare`, by plain computations of the same figures.

Of each kind and order of labels it makes the full table and the canonical rows, follows each walk, and looks for a ring of
links that wait for each other. The labels are depth-first numbers, or those of the tour where that has fewer starts.
"""
from __future__ import annotations

import fractions
import os
from typing import Any

from oracle.landmark import Bound, fewest_for, most_linked, rows_of, walk_of
from oracle.rows import distances, from_links, graph, least_row, nearer, run

SWEEPS = 16
HEADS = "kind numbering intervals greatest-row bits mean-stretch worst-stretch dependencies"


def width(count: Any) -> Any:
    """The fewest bits that tell so many numbers apart."""
    return (count - 1).bit_length() if count else 0


def depth_first(ports: Any, root: Any) -> tuple[Any, Any]:
    """The nodes in the order of their labels, and each one's father."""
    order = []
    fathers: dict[Any, Any] = {}
    todo = [(root, None)]
    while todo:
        u, father = todo.pop()
        if u not in fathers:
            order.append(u)
            fathers[u] = father
            todo.extend((v, u) for v, _ in reversed(ports[u]))
    return order, fathers


def shortest_table(ports: Any, far: Any) -> dict[Any, Any]:
    return {u: {d: nearer(ports, far, u, d)[0] for d in ports if d != u} for u in ports}


def tree_table(ports: Any, fathers: Any) -> Any:
    """The next node of the tree's walk: the son that the destination is below, else the father."""
    table = {u: {d: fathers[u] for d in ports if d != u} for u in ports}
    for d in ports:
        below, u = d, fathers[d]
        while u is not None:
            table[u][d] = below
            below, u = u, fathers[u]
    return table


def compact_table(ports: Any, far: Any, order: Any) -> dict[Any, Any]:
    """Each node's first round with the fewest longest runs, and of each run the least port."""
    return {u: compact_ports(ports, far, order, u) for u in ports}


def compact_ports(ports: Any, far: Any, order: Any, u: Any) -> Any:
    count, own = len(order), order.index(u)
    may = {a: nearer(ports, far, u, order[a]) for a in range(count) if a != own}
    best = None
    for first in range(1, count):
        runs, place = [], 0
        while place < count:
            long = {v: longest_run(may, count, own + first + place, own, v) for v, _ in ports[u]}
            port = max(long, key=long.get)  # type: ignore[arg-type]
            runs.append((place, long[port], port))
            place += long[port]
        if best is None or len(runs) < len(best[1]):
            best = (first, runs)
    chosen = {}
    for place, long, port in best[1] if best else []:
        for i in range(place, min(place + long, count)):  # type: ignore[operator]
            label = (own + best[0] + i) % count  # type: ignore[index]
            if label != own:
                chosen[order[label]] = port
    return chosen


def longest_run(may: Any, count: Any, begin: Any, own: Any, port: Any) -> Any:
    """How many labels from one on, once round, may go by a port; a node's own goes with any."""
    for i in range(count):
        label = (begin + i) % count
        if label != own and port not in may[label]:
            return i
    return count


def tour_order(ports: Any, root: Any) -> Any:
    """The order by nearest from the root, shortened by sweeps of Croes."""
    nodes = list(ports)
    table = shortest_table(ports, {u: distances(ports, u) for u in ports})
    far = {a: {b: sum(table[u].get(a) != table[u].get(b) for u in nodes) for b in nodes} for a in nodes}
    order = [root]
    while len(order) < len(nodes):
        order.append(min((v for v in nodes if v not in order), key=lambda v: (far[order[-1]][v], nodes.index(v))))
    for _ in range(SWEEPS):
        for i in range(1, len(order)):
            for j in range(i + 1, len(order)):
                before, first, last, behind = order[i - 1], order[i], order[j], order[(j + 1) % len(order)]
                if far[before][last] + far[first][behind] < far[before][first] + far[last][behind]:
                    order[i:j + 1] = order[i:j + 1][::-1]
    return order


def has_ring(ports: Any, table: Any) -> bool:
    """Whether links wait for each other in a ring: those that wait for none are taken away until none is left."""
    waits: Any = {(u, v): set() for u in ports for v, _ in ports[u]}
    for u in ports:
        for d, v in table[u].items():
            if v != d:
                waits[u, v].add((v, table[v][d]))
    while True:
        free = {link for link, others in waits.items() if not others}
        if not free:
            return bool(waits)
        waits = {link: others - free for link, others in waits.items() if link not in free}


def landmark_table(ports: Any, far: Any, order: Any, stretch: Any) -> dict[Any, Any]:
    """The neighbour of each node for each other one, by landmarks: as many as by default, and the bound of this stretch."""
    bound = Bound(ports, far, most_linked(ports, order[0], fewest_for(len(order))), stretch)
    rows = rows_of(ports, order, bound)
    return {u: {d: walk_of(rows, order, u, d)[1] for d in order if d != u} for u in order}


class Plan:
    def __init__(self, ports: Any, far: Any, kind: Any, order: Any, fathers: Any) -> None:
        self.ports, self.far, self.order = ports, far, order
        self.table = landmark_table(ports, far, order, int(kind[9:])) if kind.startswith("landmark") else {"shortest": lambda: shortest_table(ports, far), "compact": lambda: compact_table(ports, far, order),  # type: ignore[no-untyped-call]
                      "tree": lambda: tree_table(ports, fathers)}[kind]()
        self.rows = {u: least_row(order, a, {b: self.table[u][d] for b, d in enumerate(order) if d != u}) for a, u in enumerate(order)}

    def starts(self) -> Any:
        return sum(map(len, self.rows.values()))

    def weight(self, u: Any, d: Any) -> Any:
        weight = 0
        while u != d:
            v = self.table[u][d]
            weight, u = weight + dict(self.ports[u])[v], v
        return weight

    def columns(self) -> str:
        pairs = [(u, d) for u in self.ports for d in self.ports if u != d]
        walks = [self.weight(u, d) for u, d in pairs]
        direct = [self.far[u][d] for u, d in pairs]
        stretches = ["-", "-"]
        if pairs:
            # the first of the pairs with the greatest stretch, as its walk and its distance are printed
            worst = max(range(len(pairs)), key=lambda i: fractions.Fraction(walks[i], direct[i]))
            stretches = [f"{sum(walks)}/{sum(direct)}", f"{walks[worst]}/{direct[worst]}"]
        label = width(len(self.ports))
        bits = sum(len(row) * (label + width(len(self.ports[u]))) for u, row in self.rows.items())
        ring = "cycle" if has_ring(self.ports, self.table) else "acyclic"
        return " ".join([str(self.starts()), str(max(map(len, self.rows.values()))), str(bits), *stretches, ring])


def comparison(ports: Any, root: Any, blocks: Any) -> str:
    far = {u: distances(ports, u) for u in ports}
    order, fathers = depth_first(ports, root)
    lines = [f"compare {len(ports)} {sum(map(len, ports.values())) // 2}", HEADS]
    for kind in ("shortest", "compact", "tree"):
        plan = Plan(ports, far, kind, order, fathers)
        lines.append(f"{kind} depth-first {plan.columns()}")
        if kind != "tree":
            other = Plan(ports, far, kind, tour_order(ports, root), fathers)
            lines.append(f"{kind} tour {(other if other.starts() < plan.starts() else plan).columns()}")
    for stretch in (150, 200, 300):
        lines.append(f"landmark-{stretch} blocks {Plan(ports, far, f'landmark-{stretch}', blocks, fathers).columns()}")
    tables = sum((len(ports) - 1) * width(len(ports[u])) for u in ports)
    return "".join(line + "\n" for line in [*lines, f"tables - - - {tables} - - -"])


def edges_text(links: Any) -> str:
    return "".join(f"n{u} n{v} {weight}\n" for u, v, weight in links)


def fault_of(luck: Any, folder: Any) -> Any:
    _, links = graph(luck)
    ports, text = (from_links(links), edges_text(links)) if links else ({"n0": []}, "n0\n")
    name = "net.edgelist" if links else "net.adjlist"
    with open(os.path.join(folder, name), "w", encoding="utf-8") as file:
        file.write(text)
    root = luck.choice([None, *ports])
    words = [*(["--root", root] if root else []), *luck.choice([[], ["--threads", "1"], ["--threads", "3"]])]
    # the labels of landmark plans are the program's own, which the oracle of these plans looks at
    blocks = run(["plan", "--order", "--kind", "landmark", *(["--root", root] if root else []), name], folder)[0].split()
    given, wanted = run(["compare", *words, name], folder), comparison(ports, root or next(iter(ports)), blocks)
    return None if given == (wanted, "", 0) else f"{text}from {root}: {given} in place of {wanted}"
