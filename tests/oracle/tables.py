"""What `prefixes` prints, by the definition and with no cleverness.

The fewest nested lines of a block of numbers are found by trying each port as that of the block; where several do, the
block has none of its own if what is above it serves, and else the one of the least port.
"""
from __future__ import annotations

import functools
import subprocess
from typing import Any

from support.places import built_program

UNREACHABLE = 1 << 20  # a port above all others


# ---- plans

def read_topology(text: Any, form: Any) -> dict[Any, Any]:
    """For each node, in order of appearance, its neighbours in order with the weights of the links."""
    graph: dict[Any, Any] = {}
    for line in text.splitlines():
        words = line.split("#")[0].split()
        if not words or (form == "edgelist" and len(words) == 1):
            continue
        pairs = [(words[0], words[1], int(float(words[2])))] if form == "edgelist" else [(words[0], w, 1) for w in words[1:]]
        graph.setdefault(words[0], {})
        for a, b, weight in pairs:
            graph.setdefault(b, {})
            graph[a][b] = graph[b][a] = weight
    return {a: {b: w for b, w in row.items() if b != a} for a, row in graph.items()}


def number(graph: Any, root: Any) -> tuple[Any, Any]:
    """The nodes in depth-first order, and the father of each."""
    order, father = [root], {root: None}
    while len(order) < len(graph):
        for at in reversed(order):
            outside = [b for b in graph[at] if b not in father]
            if outside:
                father[outside[0]] = at
                order.append(outside[0])
                break
    return order, father


def distances(graph: Any, source: Any) -> Any:
    far = {source: 0}
    for _ in graph:
        for a in list(far):
            for b, weight in graph[a].items():
                far[b] = min(far.get(b, UNREACHABLE * UNREACHABLE), far[a] + weight)
    return far


def plan_of(text: Any, form: Any, kind: Any, root: Any) -> tuple[Any, list[Any], dict[Any, Any], dict[Any, Any], Any]:
    """Names, labels, and for each node its neighbours in order and its neighbour to each label."""
    graph = read_topology(text, form)
    order, father = number(graph, root or next(iter(graph)))
    towards = {}
    if kind == "tree":
        for u in order:
            sons = {}
            for d in order:
                at, before = d, None
                while at is not None and at != u:
                    at, before = father[at], at
                sons[d] = None if d == u else before if at == u else father[u]
            towards[u] = [sons[d] for d in order]
    else:
        far = {d: distances(graph, d) for d in order}
        for u in order:
            towards[u] = [None if u == d else next(w for w in graph[u] if graph[u][w] + far[d][w] == far[d][u]) for d in order]
    return kind, list(graph), {u: i for i, u in enumerate(order)}, {u: list(graph[u]) for u in graph}, towards


def plan_from(text: Any, graph: Any) -> tuple[Any, Any, Any, dict[Any, Any], Any]:
    """The same from the text of `route plan`."""
    head, *lines = text.splitlines()
    names, labels, towards = [], {}, {}
    for line in lines:
        name, label, *row = line.split(" ")
        starts = list(zip(map(int, row[::2]), row[1::2]))
        names.append(name)
        labels[name] = int(label)
        ports = []
        for d in range(len(lines)):
            below = [to for start, to in starts if start <= d]
            ports.append(below[-1] if below else starts[-1][1] if starts else None)
        ports[int(label)] = None
        towards[name] = ports
    return head.split()[1], names, labels, {u: list(graph[u]) for u in names}, towards


# ---- tables

def bits_of(count: Any) -> Any:
    bits = 0
    while 2 ** bits < count:
        bits += 1
    return bits


def nested(wanted: Any, bits: Any) -> Any:
    """The fewest lines (value, length, port): wanted has the port of each number, None where any line serves or none."""
    ports = sorted(set(wanted) - {None})

    @functools.lru_cache(None)
    def below(height: Any, index: Any, port: Any) -> Any:
        """How few lines the two halves need together where the block is served by this port."""
        return least(height - 1, 2 * index, port) + least(height - 1, 2 * index + 1, port) if height else int(wanted[index] not in (None, port))

    @functools.lru_cache(None)
    def names(height: Any, index: Any) -> list[Any]:
        few = min(below(height, index, port) for port in ports)
        return [port for port in ports if below(height, index, port) == few]

    @functools.lru_cache(None)
    def free(height: Any, index: Any) -> bool:
        return all(port is None for port in wanted[index << height:(index + 1) << height])

    @functools.lru_cache(None)
    def least(height: Any, index: Any, above: Any) -> Any:
        if free(height, index):
            return 0
        few = below(height, index, names(height, index)[0]) + 1
        return min(few, below(height, index, above))

    lines = []

    def tell(height: Any, index: Any, above: Any) -> None:
        if free(height, index):
            return
        if above not in names(height, index):
            above = names(height, index)[0]
            lines.append((index << height, bits - height, above))
        if height:
            tell(height - 1, 2 * index, above)
            tell(height - 1, 2 * index + 1, above)

    tell(bits, 0, None)
    return lines


def disjoint(wanted: Any, bits: Any, count: Any) -> Any:
    """The fewest lines of which one holds each number below count with a port, and none a number from count on."""
    lines: list[Any] = []

    def tell(height: Any, index: Any) -> None:
        numbers = range(index << height, (index + 1) << height)
        ports = {wanted[x] for x in numbers if x < count} - {None}
        if len(ports) <= 1 and numbers[-1] < count:
            lines.extend((numbers[0], bits - height, port) for port in ports)
        elif height:
            tell(height - 1, 2 * index)
            tell(height - 1, 2 * index + 1)

    tell(bits, 0)
    return lines


def matches(lines: Any, x: Any, bits: Any) -> list[Any]:
    """The ports of the lines that hold x, the longest first."""
    held = [(length, port) for value, length, port in lines if x >> (bits - length) == value >> (bits - length)]
    return [port for _, port in sorted(held, reverse=True)]


def text_of(plan: Any, is_disjoint: Any) -> Any:
    kind, names, labels, neighbours, towards = plan
    count = len(names)
    bits = bits_of(count)
    out, total = [], 0
    for u in names:
        place = {name: i for i, name in enumerate(neighbours[u])}
        wanted = [None if to is None else place[to] for to in towards[u]]
        if is_disjoint:
            lines = disjoint(wanted, bits, count)
            assert all(matches(lines, x, bits) == [p] for x, p in enumerate(wanted) if p is not None)
            assert not any(matches(lines, x, bits) for x in range(count, 2 ** bits))
        else:
            last = UNREACHABLE if wanted[-1] is None else wanted[-1]
            wanted = wanted + [last] * (2 ** bits - count)
            lines = nested(wanted, bits)
            assert all(matches(lines, x, bits)[0] == p for x, p in enumerate(wanted) if p is not None)
        lines.sort(key=lambda line: (-line[1], line[0]))
        total += len(lines)
        goal = lambda port: "#" if port == UNREACHABLE else neighbours[u][port]
        out.append(" ".join([u, str(labels[u])] + [f"{value}/{length} {goal(port)}" for value, length, port in lines]))  # type: ignore[no-untyped-call]
    return "\n".join([f"prefixes {kind} {count} {bits} {total}"] + out) + "\n"


# ---- the program beside it

def run(words: Any, text: Any) -> Any:
    return subprocess.run([built_program(), *words, "-"], input=text, capture_output=True, text=True, check=True).stdout


def drawn(luck: Any, nodes: Any) -> Any:
    """The format and the text of a topology of so many nodes."""
    lines = [f"n{luck.randrange(i)} n{i} {luck.randint(1, 3)}" for i in range(1, nodes)]
    lines += [f"n{luck.randrange(nodes)} n{luck.randrange(nodes)} {luck.randint(1, 3)}" for _ in range(luck.randint(0, 2 * nodes))]
    return ("edgelist", "\n".join(lines) + "\n") if nodes > 1 else ("adjlist", "n0\n")


def fault_of(luck: Any, folder: Any) -> Any:
    """What is wrong with the tables of a plan by chance, nested and disjoint."""
    form, text = drawn(luck, luck.randint(1, 40))
    words = ["--format", form, "--kind", luck.choice(["tree", "shortest", "compact"])]
    plan = plan_from(run(["plan", *words], text), read_topology(text, form))
    if words[3] != "compact" and plan != plan_of(text, form, words[3], None):
        return f"{text}plan {words}: another plan"
    for extra in [], ["--disjoint"]:
        given, wanted = run(["prefixes", *extra, *words], text), text_of(plan, bool(extra))  # type: ignore[misc]
        if given != wanted:
            return f"{text}prefixes {extra} {words}: {given} in place of {wanted}"
    return None
