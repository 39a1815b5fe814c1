"""What nodes have to change between two plans of the same nodes.

    found = bentzolu.diff(old, new)
    found.nodes["a"].removed, found.nodes["a"].put
    bentzolu.patched(old, found) == new
"""
from __future__ import annotations

import json
from dataclasses import dataclass
from typing import Any, Dict, Hashable, Mapping, Tuple

from . import shown
from .arrays import bits_for
from .errors import FormatError
from .texts import SAME, Interval, NodePlan, Plan
from .typed import NodeNames


@dataclass(frozen=True)
class NodeDiff:
    """What a node changes: `before` and `label` are its labels, `removed` the starts that go, and `put` the starts that come or get
    another neighbour, each with it. `length` is the number of intervals of the new row."""

    node: Hashable
    before: int
    label: int
    removed: Tuple[int, ...]
    put: Tuple[Tuple[int, Hashable], ...]
    length: int


@dataclass(frozen=True)
class PlanDiff:
    """What changes from one plan to another: `kinds` are those of both, `size` is the number of nodes, and `nodes` has a `NodeDiff` for
    each node that changes."""

    kinds: Tuple[str, str]
    size: int
    nodes: Dict[Hashable, NodeDiff]

    @property
    def relabelled(self) -> int:
        """How many labels are new."""
        return sum(it.before != it.label for it in self.nodes.values())

    @property
    def removed(self) -> int:
        """How many starts go."""
        return sum(len(it.removed) for it in self.nodes.values())

    @property
    def put(self) -> int:
        """How many starts come or get another neighbour."""
        return sum(len(it.put) for it in self.nodes.values())

    def bits(self, ports: Mapping[Any, int]) -> int:
        """The bits that say the change: a count for each node that changes, and for each start that goes or comes a bit and the start,
        with a port where it comes; the whole row where that is shorter; and each new label.

        Parameters
        ----------
        ports : the number of ports of each node
        """
        label, total = bits_for(self.size), 0
        for node, it in self.nodes.items():
            port = bits_for(ports[node])
            pieces = len(it.removed) * (1 + label) + len(it.put) * (1 + label + port)
            total += 1 + label + min(pieces, it.length * (label + port)) + (label if it.before != it.label else 0)
        return total

    def text(self, names: NodeNames = SAME) -> str:
        """The changes as `diff_text` of the library writes them: `diff KIND KIND N CHANGED RELABELLED REMOVED PUT`, and for each node that
        changes a line `NODE WAS LABEL` with, by ascending starts, `- START` for what goes and `+ START NEIGHBOUR` for what comes.

        Parameters
        ----------
        names : what the nodes are called, as `names_of(graph)`; each node is its own name by default
        """
        lines = [f"diff {self.kinds[0]} {self.kinds[1]} {self.size} {len(self.nodes)} {self.relabelled} {self.removed} {self.put}"]
        for node, it in self.nodes.items():
            steps = [(start, f"- {start}") for start in it.removed] + [(start, f"+ {start} {names.name(to)}") for start, to in it.put]
            lines.append(" ".join([names.name(node), str(it.before), str(it.label), *(step for _, step in sorted(steps))]))
        return "\n".join(lines) + "\n"

    def json(self, names: NodeNames = SAME) -> str:
        """The same as JSON, a line for each node."""
        def said(value: Any) -> str:
            return json.dumps(value, separators=(",", ":"))
        head = {
            "diff": list(self.kinds), "nodes": self.size, "changed": len(self.nodes), "relabelled": self.relabelled,
            "removed": self.removed, "put": self.put,
        }
        rows = [
            said({
                "node": names.name(node), "was": it.before, "label": it.label, "remove": list(it.removed),
                "put": [{"start": start, "next": names.name(to)} for start, to in it.put],
            })
            for node, it in self.nodes.items()
        ]
        return said(head)[:-1] + ',"rows":[' + ",".join("\n" + row for row in rows) + "\n]}\n"

    def _repr_html_(self) -> str:
        heads = ("node", "label before", "label", "starts removed", "starts added or changed")
        rows = (
            (node, it.before, it.label, shown.joined(it.removed), shown.joined(f"{start} → {to}" for start, to in it.put))
            for node, it in self.nodes.items()
        )
        return str(shown.table(repr(self)[1:-1], heads, rows, len(self.nodes)))

    def __repr__(self) -> str:
        said = f"{len(self.nodes):,} of {self.size:,} nodes change, {self.relabelled:,} labels are new"
        return f"<PlanDiff: {said}, {self.removed:,} starts are removed, {self.put:,} added or changed>"


def others(old: Plan, new: Plan) -> str:
    """The first nodes that one of two plans has and the other has not."""
    gone = next((node for node in old.nodes if node not in new.nodes), None)
    come = next((node for node in new.nodes if node not in old.nodes), None)
    if gone is None:
        return f"{come} is in the new plan only"
    return f"{gone} is in the old plan only" + ("" if come is None else f", {come} in the new one only")


def diff(old: Plan, new: Plan) -> PlanDiff:
    """What changes from one plan to another.

    Raises
    ------
    FormatError
        where the plans are not of the same nodes
    """
    if set(old.nodes) != set(new.nodes):
        raise FormatError(f"the plans do not have the same nodes ({len(old.nodes):,} and {len(new.nodes):,} nodes): {others(old, new)}")
    found = {}
    for node, it in new.nodes.items():
        was = old.nodes[node]
        before, after = dict(zip(was.starts, was.neighbours)), dict(zip(it.starts, it.neighbours))
        removed = tuple(start for start in before if start not in after)
        put = tuple((start, to) for start, to in after.items() if start not in before or before[start] != to)
        if removed or put or was.label != it.label:
            found[node] = NodeDiff(node, was.label, it.label, removed, put, len(after))
    return PlanDiff((old.kind, new.kind), len(new.nodes), found)


def patched(old: Plan, found: PlanDiff) -> Plan:
    """The new plan, of the old one and what changes: each node needs its own row and its own part of the change alone."""
    nodes = {}
    for node, was in old.nodes.items():
        it = found.nodes.get(node)
        if it is None:
            nodes[node] = was
            continue
        row = dict(zip(was.starts, was.neighbours))
        for start in it.removed:
            del row[start]
        row.update(it.put)
        starts = sorted(row)
        nodes[node] = NodePlan(node, it.label, [Interval(start, end, row[start]) for start, end in zip(starts, starts[1:] + starts[:1])])
    return Plan(found.kinds[1], nodes)
