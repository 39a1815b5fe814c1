#!/usr/bin/env python3
"""Compares `route plan`, `walk`, `stats` and `draw` with a plain program over NetworkX, on random graphs of each kind of plan.

Outside the gate: it wants python3 with networkx, the built program, and Graphviz's dot to read some of the drawings.
"""
from __future__ import annotations

import fractions
import itertools
import json
import pathlib
import random
import subprocess
from typing import Any

import networkx as nx

PROGRAM = pathlib.Path(__file__).parent / "../crates/route/out/route"


class Plan:
    """A plan by the book: labels, a full table of next nodes, and the canonical rows of starts."""

    def __init__(self, graph: Any, kind: Any, root: Any) -> None:
        self.graph, self.kind = graph, kind
        self.names = list(graph)
        self.ports = {u: [v for v in graph[u] if v != u] for u in graph}
        self.distance = dict(nx.all_pairs_dijkstra_path_length(graph))
        self.order: list[Any] = []
        self.parent: dict[Any, Any] = {}
        self.visit(root)
        self.label = {u: place for place, u in enumerate(self.order)}
        self.table = {u: getattr(self, kind)(u) for u in graph}
        self.rows = {u: self.row(u) for u in graph}

    def visit(self, u: Any) -> None:
        self.order.append(u)
        for v in self.ports[u]:
            if v not in self.order:
                self.parent[v] = u
                self.visit(v)

    def tied(self, u: Any, d: Any) -> list[Any]:
        return [v for v in self.ports[u] if self.graph[u][v]["weight"] + self.distance[v][d] == self.distance[u][d]]

    def shortest(self, u: Any) -> dict[Any, Any]:
        return {d: self.tied(u, d)[0] for d in self.graph if d != u}

    def tree(self, u: Any) -> dict[Any, Any]:
        links = nx.Graph(self.parent.items())
        return {d: nx.shortest_path(links, u, d)[1] for d in self.graph if d != u}

    def compact(self, u: Any) -> Any:
        """The first round with the fewest longest runs; in each run the least port."""
        count, own = len(self.order), self.label[u]
        may = {a: self.tied(u, self.order[a]) for a in range(count) if a != own}
        best = None
        for first in range(1, count):
            place, runs = 0, []
            while place < count:
                begin = (own + first + place) % count
                lengths = [sum(1 for _ in itertools.takewhile(lambda i: (begin + i) % count == own or v in may[(begin + i) % count], range(count))) for v in self.ports[u]]
                longest = max(lengths)
                runs.append((place, longest, self.ports[u][lengths.index(longest)]))
                place += longest
            if best is None or len(runs) < len(best[1]):
                best = (first, runs)
        chosen = {}
        for place, longest, port in best[1] if best else []:
            for i in range(place, min(place + longest, count)):
                a = (own + best[0] + i) % count  # type: ignore[index]
                if a != own:
                    chosen[self.order[a]] = port
        return chosen

    def row(self, u: Any) -> list[Any]:
        count, own = len(self.order), self.label[u]
        around = [(own + i) % count for i in range(1, count)]
        hops = [self.table[u][self.order[a]] for a in around]
        starts = [(a, hop) for i, (a, hop) in enumerate(zip(around, hops)) if hop != hops[i - 1]]
        return sorted(starts or [(a, hop) for a, hop in zip(around[:1], hops[:1])])

    def intervals(self, u: Any) -> list[Any]:
        row = self.rows[u]
        return [(start, row[(i + 1) % len(row)][0], hop) for i, (start, hop) in enumerate(row)]

    def walk(self, a: Any, b: Any) -> Any:
        walk = [a]
        while walk[-1] != b:
            walk.append(self.table[walk[-1]][b])
        return walk

    def weight(self, walk: Any) -> Any:
        return sum(self.graph[x][y]["weight"] for x, y in zip(walk, walk[1:]))

    def plan_text(self) -> str:
        lines = [f"plan {self.kind} {len(self.names)} {sum(map(len, self.rows.values()))}"]
        lines += [" ".join([u, str(self.label[u])] + [f"{start} {hop}" for start, hop in self.rows[u]]) for u in self.names]
        return "".join(line + "\n" for line in lines)

    def walk_text(self, a: Any, b: Any) -> str:
        walk, address = self.walk(a, b), self.label[b]
        lines = [f"walk {self.kind} {a} {b} {address} {self.weight(walk)}"]
        for x, y in zip(walk, walk[1:]):
            (start, end, hop), = [m for m in self.intervals(x) if (m[0] <= address < m[1] if m[0] < m[1] else address >= m[0] or address < m[1])]
            assert hop == y
            lines.append(f"{x} {self.label[x]} {start} {end} {y} {self.graph[x][y]['weight']}")
        return "".join(line + "\n" for line in lines + [f"{b} {address}"])

    def stats_text(self) -> str:
        pairs = list(itertools.permutations(self.names, 2))
        walks = {pair: self.weight(self.walk(*pair)) for pair in pairs}
        distances = {pair: self.distance[pair[0]][pair[1]] for pair in pairs}
        greatest = max(self.names, key=lambda u: len(self.rows[u]))
        lines = [f"stats {self.kind} {len(self.names)}", f"links {sum(u != v for u, v in self.graph.edges)}"]
        lines += [f"starts {sum(map(len, self.rows.values()))}", f"entries {len(pairs)}", f"greatest-row {greatest} {len(self.rows[greatest])}"]
        lines += [f"walks {sum(walks.values())}", f"distances {sum(distances.values())}"]
        if pairs:
            a, b = max(pairs, key=lambda pair: fractions.Fraction(walks[pair], distances[pair]))
            lines.append(f"worst {a} {b} {walks[a, b]} {distances[a, b]}")
        return "".join(line + "\n" for line in lines)

    def field_text(self) -> str:
        """The lines of the compactness and of the bits."""
        lines, bits = [], lambda count: (count - 1).bit_length()
        counts = [(u, v, sum(hop == v for _, hop in self.rows[u])) for u in self.names for v in self.ports[u]]
        if counts:
            lines.append("compactness {} {} {}".format(*max(counts, key=lambda row: row[2])))  # type: ignore[no-any-return]
        rows = sum(len(self.rows[u]) * (bits(len(self.names)) + bits(len(self.ports[u]))) for u in self.names)  # type: ignore[no-untyped-call]
        lines.append(f"bits {rows} {sum((len(self.names) - 1) * bits(len(self.ports[u])) for u in self.names if self.ports[u])}")  # type: ignore[no-untyped-call]
        return "".join(line + "\n" for line in lines)

    def waiting(self) -> Any:
        """The directed links, each with an arc to those that it waits for."""
        waits = nx.DiGraph()
        for u, d in itertools.permutations(self.names, 2):
            v = self.table[u][d]
            if v != d:
                waits.add_edge((u, v), (v, self.table[v][d]))
        return waits

    def is_dependencies(self, line: Any) -> Any:
        """Whether the line says that no links wait for each other in a ring, or names such a ring."""
        waits, (_, what, *ring) = self.waiting(), line.split(" ")
        if what == "acyclic":
            return not ring and nx.is_directed_acyclic_graph(waits)
        links = list(zip(ring, ring[1:] + ring[:1]))
        return what == "cycle" and len(set(links)) == len(links) and all(waits.has_edge(a, b) for a, b in zip(links, links[1:] + links[:1]))

    def drawing(self, ends: Any) -> tuple[Any, Any]:
        walk = self.walk(*ends) if ends else []
        bold = {frozenset(step) for step in zip(walk, walk[1:])}
        nodes = [(u, f"{u} {self.label[u]}") for u in self.names]
        edges = []
        for u, v in self.graph.edges:
            if u != v:
                at = [" ".join(f"[{start},{end})" for start, end, hop in self.intervals(x) if hop == y) for x, y in ((u, v), (v, u))]
                edges.append((u, v, str(self.graph[u][v]["weight"]), *at, frozenset((u, v)) in bold))
        return nodes, edges


def quoted(text: Any) -> Any:
    return '"' + text.replace("\\", "\\\\").replace('"', '\\"') + '"'


def drawing_text(nodes: Any, edges: Any) -> str:
    lines = [f"  {quoted(u)} [label={quoted(label)}];" for u, label in nodes]
    lines += [f'  {quoted(u)} -- {quoted(v)} [label="{weight}", taillabel="{tail}", headlabel="{head}"{", style=bold" if bold else ""}];' for u, v, weight, tail, head, bold in edges]
    return "".join(line + "\n" for line in ["graph {", *lines, "}"])


def as_graphviz_reads(text: Any) -> tuple[list[Any], list[Any]]:
    """The labels, weights and intervals of a drawing, and which links are bold, by Graphviz."""
    read = json.loads(subprocess.run(["dot", "-Tjson0"], input=text, capture_output=True, text=True, check=True).stdout)
    names = {node["_gvid"]: node["name"] for node in read.get("objects", [])}
    edges = [(names[e["tail"]], names[e["head"]], e["label"], e.get("taillabel", ""), e.get("headlabel", ""), e.get("style") == "bold") for e in read.get("edges", [])]
    return [(node["name"], node["label"]) for node in read.get("objects", [])], sorted(edges)


def written(text: Any) -> Any:
    """As the drawing has it: Graphviz takes one backslash away before a quote, and leaves two as they are."""
    return text.replace("\\", "\\\\")


def random_graph() -> tuple[Any, str]:
    count = random.randint(1, 12)
    names = [random.choice(['n', 'a"', "b\\", '"', "&x;", "\\N", "<i>", "{}"]) + str(i) + random.choice(["", '"', "\\"]) for i in range(count)]
    graph = nx.Graph()
    tree = nx.random_labeled_tree(count, seed=random.randrange(10**9))
    pairs = list(tree.edges) + random.choices(list(itertools.product(range(count), repeat=2)), k=random.randint(0, 2 * count))
    random.shuffle(pairs)
    most = random.choice([1, 3, 65535])
    lines = [f"{names[u]} {names[v]} {random.randint(1, most)}\n" for u, v in pairs]
    for line in lines:
        u, v, weight = line.split()
        graph.add_edge(u, v, weight=int(weight))
    return graph, "".join(lines)


def route(words: Any, text: Any) -> Any:
    return subprocess.run([PROGRAM, *words, "-"], input=text, capture_output=True, text=True, check=True).stdout


random.seed(5)
cases = 0
for number in range(300):
    graph, text = random_graph()
    if not len(graph):
        continue
    root = random.choice(list(graph))
    for kind in ("tree", "shortest", "compact"):
        plan = Plan(graph, kind, root)
        words = ["--format", "edgelist", "--kind", kind, "--root", root]
        a, b = random.choices(plan.names, k=2)
        for ends in (None, (a, b)):
            shown = route(["draw", *words] + (["--from", a, "--to", b] if ends else []), text)
            assert shown == drawing_text(*plan.drawing(ends)), (words, text)
            if number % 10 == 0:
                nodes, edges = plan.drawing(ends)
                nodes = [(written(u), written(label)) for u, label in nodes]
                edges = [(written(u), written(v), *rest) for u, v, *rest in edges]
                assert as_graphviz_reads(shown) == (nodes, sorted(edges)), (words, text)
        assert route(["plan", *words], text) == plan.plan_text(), (words, text)
        assert route(["walk", *words, "--from", a, "--to", b], text) == plan.walk_text(a, b), (words, text)
        *figures, dependencies = route(["stats", *words], text).splitlines(keepends=True)
        assert "".join(figures) == plan.stats_text() + plan.field_text() and plan.is_dependencies(dependencies.rstrip("\n")), (words, text)
        cases += 1
print(f"{cases} plans of random graphs: rows, walks, figures and drawings agree")
