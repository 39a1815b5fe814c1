"""Drawings: the nodes' own names in a text for Graphviz, and a picture by matplotlib."""
from __future__ import annotations

import re
from typing import Any, Mapping, Sequence

from .texts import Interval, Plan
from .typed import Axes, Graph, NameTable

STATEMENT = re.compile(r'^  "((?:[^"\\]|\\.)*)" \[label="((?:[^"\\]|\\.)*) ([0-9]+)"')


def quoted(text: str) -> str:
    """A text between quotation marks of Graphviz."""
    return text.replace("\\", "\\\\").replace('"', '\\"').replace("\n", " ")


def renamed(dot: str, names: NameTable) -> str:
    """A drawing in which each node is shown by what it is in the graph; its identifier stays its name in `bentzolu`."""
    shown = {quoted(name): quoted(str(node)) for node, name in names.changed()}

    def line(text: str) -> str:
        found = STATEMENT.match(text)
        if not found or found[1] not in shown:
            return text
        return f'  "{found[1]}" [label="{shown[found[1]]} {found[3]}"' + text[found.end():]

    return "".join(line(text) + "\n" for text in dot.splitlines())


def spelled(interval: Interval) -> str:
    """An interval in the writing of `bentzolu draw`."""
    return f"[{interval.start},{interval.end})"


def onto(ax: Axes, graph: Graph, plan: Plan, path: Sequence[Any] = (), pos: Mapping[Any, Any] | None = None) -> None:
    """Draws a graph with its plan onto axes of matplotlib: labels beside names, and at each end of a link the intervals
    that its node serves there."""
    import networkx

    pos = networkx.spring_layout(graph, seed=1) if pos is None else pos
    bold = {frozenset(pair) for pair in zip(path, path[1:])}
    widths = [3.0 if frozenset(edge) in bold else 1.0 for edge in graph.edges]
    networkx.draw_networkx_edges(graph, pos, ax=ax, width=widths, edge_color="0.6")
    networkx.draw_networkx_nodes(graph, pos, ax=ax, node_size=120)
    named = {node: f"{node} {plan.nodes[node].label}" for node in graph}
    networkx.draw_networkx_labels(graph, pos, labels=named, ax=ax, font_size=8, verticalalignment="bottom")
    for node, found in plan.nodes.items():
        for to in dict.fromkeys(interval.to for interval in found.intervals):
            said = " ".join(spelled(interval) for interval in found.intervals if interval.to == to)
            x, y = (0.7 * a + 0.3 * b for a, b in zip(pos[node], pos[to]))
            ax.text(x, y, said, fontsize=6, ha="center", va="center", bbox={"fc": "white", "ec": "none", "pad": 0.5})
    ax.set_axis_off()
