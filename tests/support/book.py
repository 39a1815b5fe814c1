"""Plans by the book, and readings of the texts that the program prints of plans."""
from __future__ import annotations

import heapq
from typing import Dict, Iterator, List, Optional, Tuple


Row = List[Tuple[int, str]]  # the starts of a node, each with the next node


class ByTheBook:
    """A network of a weighted edge list, and its plans by one Dijkstra's search for each destination."""

    def __init__(self, text: str) -> None:
        self.ports: Dict[str, Dict[str, int]] = {}
        for u, v, weight in (line.split() for line in text.splitlines() if not line.startswith("#")):
            self.ports.setdefault(u, {})[v] = int(weight)
            self.ports.setdefault(v, {})[u] = int(weight)
        self.names = list(self.ports)
        self.order: List[str] = []
        self.fathers: Dict[str, Optional[str]] = {}
        self.ends: Dict[str, int] = {}
        self.visit(self.names[0])
        self.labels = {name: label for label, name in enumerate(self.order)}
        self.nearer: Dict[Tuple[str, str], List[str]] = {}
        for d in self.names:
            weights = self.distances(d)
            for u in self.names:
                self.nearer[u, d] = [v for v, weight in self.ports[u].items() if weight + weights[v] == weights[u]]

    def visit(self, root: str) -> None:
        """Depth first: the order, the fathers, and how far each subtree goes."""
        open_, self.fathers[root] = [(root, iter(self.ports[root]))], None
        self.order.append(root)
        while open_:
            u, rest = open_[-1]
            v = next((v for v in rest if v not in self.fathers), None)
            if v is None:
                self.ends[u] = len(self.order)
                open_.pop()
            else:
                self.fathers[v] = u
                self.order.append(v)
                open_.append((v, iter(self.ports[v])))

    def distances(self, d: str) -> Dict[str, int]:
        weights: Dict[str, int] = {}
        frontier = [(0, d)]
        while frontier:
            weight, u = heapq.heappop(frontier)
            if u not in weights:
                weights[u] = weight
                for v, more in self.ports[u].items():
                    if v not in weights:
                        heapq.heappush(frontier, (weight + more, v))
        return weights

    def row(self, kind: str, u: str) -> Row:
        """The canonical row of a node: labels at which the next node changes."""
        own, count = self.labels[u], len(self.order)
        sons = [v for v in self.ports[u] if self.fathers[v] == u]
        hops: Row = []
        for label in [*range(own + 1, count), *range(own)]:
            if kind == "shortest":
                hops.append((label, self.nearer[u, self.order[label]][0]))
            else:
                hops.append((label, next((v for v in sons if self.labels[v] <= label < self.ends[v]), self.fathers[u] or "")))
        return sorted(item for i, item in enumerate(hops) if item[1] != hops[i - 1][1]) or hops[:1]

    def plan(self, kind: str) -> Iterator[str]:
        rows = {u: self.row(kind, u) for u in self.names}
        yield f"plan {kind} {len(rows)} {sum(map(len, rows.values()))}"
        for u, row in rows.items():
            yield " ".join([u, str(self.labels[u]), *(f"{label} {hop}" for label, hop in row)])

    def compact_fault(self, output: bytes) -> Optional[str]:
        """A row of a compact plan that sends a label to no node that is nearer; or nothing."""
        for line in output.decode().splitlines()[1:]:
            u, own, *words_ = line.split()
            starts = [(int(start), hop) for start, hop in zip(words_[::2], words_[1::2])]
            for label, d in enumerate(self.order):
                hop = [hop for start, hop in starts if start <= label] or [starts[-1][1]]
                if label != int(own) and hop[-1] not in self.nearer[u, d]:
                    return f"{u} sends {d} to {hop[-1]}"
        return None


def starts_in(output: bytes) -> int:
    """The number of starts that the first line of a plan, or the third of figures, gives."""
    lines = output[:1_000].split(b"\n")
    return int(lines[0].split()[3] if lines[0].startswith(b"plan") else lines[2].split()[1])


def ranges_of(plan: str) -> str:
    """The text of `ranges` by that of `plan`: a run of labels with one neighbour is a range, and the own label ends it."""
    head, *rows = (line.split() for line in plan.splitlines())
    lines = []
    for node, own, *starts in rows:
        pairs = [(int(start), to) for start, to in zip(starts[::2], starts[1::2])]
        held: List[Tuple[int, int, str]] = []
        for label in range(len(rows)):
            if label == int(own):
                continue
            to = next((to for start, to in reversed(pairs) if start <= label), pairs[-1][1])
            if held and held[-1][1:] == (label - 1, to):
                held[-1] = held[-1][0], label, to
            else:
                held.append((label, label, to))
        lines.append([node, own, *(word for start, end, to in held for word in (f"{start}-{end}", to))])
    count_ = sum(len(line) // 2 - 1 for line in lines)
    return "".join(" ".join(line) + "\n" for line in [["ranges", head[1], head[2], str(count_)], *lines])
