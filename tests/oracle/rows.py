"""Plans by an order of labels and by a tour, beside plain computations.

For kind shortest each row is what the least ports give; for kind compact each label has a port on a shortest way, and no
row could have fewer starts. Over a tour no kind has more starts than over depth-first numbers. The figures of `stats` are
those of the distances and of the walks.
"""
from __future__ import annotations

import heapq
import os
import subprocess
from typing import Any

from support.places import built_program



def run(words: Any, folder: Any) -> tuple[Any, Any, Any]:
    done = subprocess.run([built_program(), *words], capture_output=True, text=True, cwd=folder)
    return done.stdout, done.stderr, done.returncode


def graph(luck: Any) -> tuple[Any, list[Any]]:
    """A connected graph: each node's neighbours in the order of its links, with their weights."""
    nodes = luck.randrange(1, 25)
    links = {(luck.randrange(v), v) for v in range(1, nodes)}
    for _ in range(luck.randrange(2 * nodes)):
        u, v = luck.randrange(nodes), luck.randrange(nodes)
        if u != v and (v, u) not in links:
            links.add((u, v))
    links = list(links)  # type: ignore[assignment]
    luck.shuffle(links)
    most = luck.choice([1, 2, 9, 65_535])
    return nodes, [(u, v, luck.randrange(1, most + 1)) for u, v in links]


def from_links(links: Any) -> Any:
    """The names in the order of the text, and each one's neighbours and weights, by its ports."""
    ports: dict[Any, Any] = {}
    for u, v, weight in links:
        ports.setdefault(f"n{u}", []).append((f"n{v}", weight))
        ports.setdefault(f"n{v}", []).append((f"n{u}", weight))
    return ports


def distances(ports: Any, source: Any) -> Any:
    far, todo = {source: 0}, [(0, source)]
    while todo:
        weight, u = heapq.heappop(todo)
        if weight == far[u]:
            for v, step in ports[u]:
                if weight + step < far.get(v, weight + step + 1):
                    far[v] = weight + step
                    heapq.heappush(todo, (weight + step, v))
    return far


def nearer(ports: Any, far: Any, u: Any, d: Any) -> list[Any]:
    """The neighbours of u on shortest ways to d, by their ports."""
    return [v for v, step in ports[u] if step + far[v][d] == far[u][d]]


def least_row(order: Any, own: Any, choice: Any) -> list[Any]:
    """The starts of the row in which each label but the own has its neighbour."""
    count = len(order)
    labels = [(own + 1 + i) % count for i in range(count - 1)]
    if len({choice[label] for label in labels}) <= 1:
        return [(label, choice[label]) for label in labels[:1]]
    return sorted((label, choice[label]) for i, label in enumerate(labels) if choice[label] != choice[labels[i - 1]])


def fewest(labels: Any, tied: Any) -> Any:
    """The fewest runs of the labels, in cyclic order, such that the labels of each run share a neighbour."""
    best = len(labels)
    for first in range(len(labels)):
        runs = 0
        share: set[Any] = set()
        for i in range(len(labels)):
            here = tied[labels[(first + i) % len(labels)]]
            share &= here
            if not share:
                runs, share = runs + 1, set(here)
        best = min(best, runs)
    return best


def fault_of_rows(kind: Any, ports: Any, far: Any, order: Any, lines: Any) -> Any:
    if lines[0].split()[:3] != ["plan", kind, str(len(order))]:
        return f"its first line is {lines[0]}"
    label = {name: i for i, name in enumerate(order)}
    for line in lines[1:]:
        name, own, *words = line.split()
        if label[name] != int(own):
            return f"{name} has label {own}"
        row = list(zip(map(int, words[::2]), words[1::2]))
        tied = {d: set(nearer(ports, far, name, order[d])) for d in range(len(order)) if order[d] != name}
        if kind == "shortest":
            choice = {d: nearer(ports, far, name, order[d])[0] for d in tied}
            if row != least_row(order, int(own), choice):
                return f"{name} has the row {row}"
            continue
        labels = [(int(own) + 1 + i) % len(order) for i in range(len(order) - 1)]
        for d in labels:
            port = ([v for start, v in row if start <= d] or [v for _, v in row])[-1]
            if port not in tied[d]:
                return f"{name} sends {d} to {port}"
        if labels and len(row) != fewest(labels, tied):
            return f"{name} has {len(row)} starts in place of {fewest(labels, tied)}"
    if int(lines[0].split()[3]) != sum(len(line.split()) // 2 - 1 for line in lines[1:]):
        return f"its first line is {lines[0]}"
    return None


def fault_of(luck: Any, folder: Any) -> Any:
    nodes, links = graph(luck)
    if not links:
        return None
    ports = from_links(links)
    with open(os.path.join(folder, "net.edgelist"), "w", encoding="utf-8") as file:
        file.writelines(f"{names[0]} {names[1]} {names[2]}\n" for names in ((f"n{u}", f"n{v}", w) for u, v, w in links))
    order = list(ports)
    luck.shuffle(order)
    with open(os.path.join(folder, "order"), "w", encoding="utf-8") as file:
        file.writelines(luck.choice(["", "# by chance\n", "\n"]) + name + luck.choice(["\n", " \n", " # here\n"]) for name in order)
    far = {u: distances(ports, u) for u in ports}
    threads = ["--threads", str(luck.choice([1, 2, 4]))]
    for kind in ("shortest", "compact"):
        output, faults, status = run(["plan", "--kind", kind, "--numbering", "order", *threads, "net.edgelist"], folder)
        if (faults, status) != ("", 0):
            return f"{kind}: {status} {faults}"
        fault = fault_of_rows(kind, ports, far, order, output.splitlines())
        if fault:
            return f"{kind} by a file: {fault}"
        root = luck.choice(order)
        first = run(["plan", "--kind", kind, "--root", root, "net.edgelist"], folder)[0].splitlines()
        tour = run(["plan", "--kind", kind, "--root", root, "--numbering", "tour", *threads, "net.edgelist"], folder)[0].splitlines()
        named = [line.split()[0] for line in sorted(tour[1:], key=lambda line: int(line.split()[1]))]
        fault = fault_of_rows(kind, ports, far, named, tour)
        if fault or named[0] != root or int(tour[0].split()[3]) > int(first[0].split()[3]):
            return f"{kind} by a tour: {fault}, {named[0]} first, {tour[0]} beside {first[0]}"
        if tour != first and int(tour[0].split()[3]) == int(first[0].split()[3]):
            return f"{kind} by a tour: of two alike not the depth-first one"
        told = run(["stats", "--kind", kind, "--numbering", "order", "net.edgelist"], folder)[0].splitlines()
        every = sum(far[u][d] for u in ports for d in ports if u != d)
        if f"walks {every}" not in told or f"distances {every}" not in told:
            return f"{kind}: the figures are {told}"
    return None
