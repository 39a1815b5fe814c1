"""Graphs of NetworkX as weighted edge lists of `bentzolu`."""
from __future__ import annotations

import math
import numbers
from fractions import Fraction
from typing import Any, Iterable, Iterator, Mapping

from .errors import DirectedGraphError, GraphError, MultigraphError, WeightError
from .names import Names
from .typed import Attributes, Graph, Node

MOST_WEIGHT = 65535


class Edges:
    """A graph of a list of edges `(u, v)` or `(u, v, weight)`, with what this package asks of a graph of NetworkX.

    Nodes come in the order in which the edges name them, and an edge that is named again takes the last weight.
    """

    def __init__(self, edges: Iterable[Any]) -> None:
        self._near: dict[Node, dict[Node, Attributes]] = {}
        for edge in edges:
            self._add(edge)

    def _add(self, edge: Any) -> None:
        try:
            u, v, *more = edge if not isinstance(edge, str) else ()
            hash((u, v))
        except (TypeError, ValueError):
            raise GraphError(f"{edge!r} is not an edge (u, v) or (u, v, weight)") from None
        if len(more) > 1:
            raise GraphError(f"the edge {edge!r} has more than two nodes and a weight")
        data = {} if not more else dict(more[0]) if isinstance(more[0], dict) else {"weight": more[0]}
        self._near.setdefault(u, {})[v] = data
        self._near.setdefault(v, {})[u] = data

    def is_directed(self) -> bool:
        return False

    def is_multigraph(self) -> bool:
        return False

    def __iter__(self) -> Iterator[Node]:
        return iter(self._near)

    def __getitem__(self, node: Node) -> Mapping[Node, Attributes]:
        return self._near[node]

    def edges(self, data: bool = True) -> Iterator[tuple[Node, Node, Attributes]]:
        """The edges with their attributes, each once, by the first of their nodes."""
        seen: set[Node] = set()
        for u, near in self._near.items():
            seen.add(u)
            yield from ((u, v, found) for v, found in near.items() if v == u or v not in seen)


def graph_of(given: Any) -> Graph:
    """A graph of NetworkX as it is, and a list of edges as a graph."""
    if hasattr(given, "is_directed"):
        return given
    if isinstance(given, dict) or not hasattr(given, "__iter__"):
        raise GraphError(
            f"{type(given).__name__} is not a graph: give a graph of NetworkX, the path of a file, "
            "or a list of edges (u, v) or (u, v, weight)"
        )
    return Edges(given)


def refuse_kinds(graph: Graph) -> None:
    """Refuses directed graphs and multigraphs."""
    if graph.is_directed():
        raise DirectedGraphError(
            "directed graphs are not supported: give G.to_undirected(), which keeps one weight where the two directions differ"
        )
    if graph.is_multigraph():
        raise MultigraphError(
            "multigraphs are not supported: give networkx.Graph(G), which keeps one of several edges and its weight"
        )


def as_fraction(weight: Any) -> Fraction | None:
    """A number, or a text of one, as an exact fraction by its decimal writing; None where it is no finite number."""
    try:
        if isinstance(weight, numbers.Rational):
            return Fraction(weight)
        return Fraction(str(float(weight)))
    except (TypeError, ValueError, OverflowError):
        return None


def factor_for(weights: list[Fraction]) -> int | None:
    """The least whole factor that makes all weights whole and at most 65,535, or None where there is none."""
    factor = 1
    for weight in weights:
        factor = math.lcm(factor, weight.denominator)
        if factor > MOST_WEIGHT:
            return None
    return factor if max(weights) * factor <= MOST_WEIGHT else None


def advice(weights: list[Any]) -> str:
    """How to make whole weights from 1 to 65,535 of these."""
    read = [None if isinstance(weight, (str, bytes)) else as_fraction(weight) for weight in weights]
    found = [weight for weight in read if weight is not None]
    if len(found) < len(read):
        return "every weight must be a number"
    if min(found) <= 0:
        return "no factor makes a weight of 0 or less positive: shift the weights, or leave these edges out"
    exact = factor_for(found)
    if exact is not None:
        return f"all weights times {exact} are whole: bentzolu.scaled(G, {exact})"
    factor = float(MOST_WEIGHT / max(found))
    factor = math.floor(factor) if factor >= 2 else float(f"{factor:.3g}") * 0.99
    return f"bentzolu.scaled(G, {factor:g}) multiplies and rounds, which can change the shortest paths"


def whole(weight: Any) -> int | None:
    """A weight as a whole number from 1 to 65,535, or None; a text is no weight."""
    found = None if isinstance(weight, (str, bytes)) else as_fraction(weight)
    if found is None or found.denominator != 1 or not 1 <= found <= MOST_WEIGHT:
        return None
    return int(found)


def weights_of(graph: Graph, weight: str | None) -> list[tuple[Node, Node, int]]:
    """The edges between two nodes as triples with a whole weight; an edge without the attribute has weight 1."""
    edges = [(u, v, 1 if weight is None else data.get(weight, 1)) for u, v, data in graph.edges(data=True) if u != v]
    found = []
    for u, v, given in edges:
        number = whole(given)
        if number is None:
            raise WeightError(
                f"the edge from {u!r} to {v!r} has weight {given!r}, but weights must be whole numbers from 1 to {MOST_WEIGHT}; "
                + advice([it for _, _, it in edges])
            )
        found.append((u, v, number))
    return found


def scaled(graph: Graph, factor: float | Fraction, weight: str = "weight") -> Graph:
    """A copy of a graph whose weights are multiplied by a factor and rounded, at least 1 each.

    An edge without the attribute stays without it, so it still has weight 1.

    Parameters
    ----------
    graph : graph of NetworkX
        The graph; what is asked of it is `copy` and `edges`.
    factor : number
        The factor.
    weight : str
        The attribute.

    Returns
    -------
    graph of NetworkX

    Raises
    ------
    WeightError
        If a weight, or the factor, is no number above 0.

    Examples
    --------
    >>> class Copied(Edges):
    ...     def copy(self):
    ...         return Copied([(u, v, dict(data)) for u, v, data in self.edges()])
    >>> list(scaled(Copied([("a", "b", 0.25)]), 4).edges())
    [('a', 'b', {'weight': 1})]
    """
    times = as_fraction(factor)
    if times is None:
        raise WeightError(f"the factor {factor!r} is not a number")
    copy = graph.copy()
    for _, _, data in copy.edges(data=True):
        if weight in data:
            exact = as_fraction(data[weight])
            if exact is None or exact <= 0:
                raise WeightError(f"a weight of {data[weight]!r} can't be scaled")
            data[weight] = max(1, round(exact * times))
    return copy


def edge_list(graph: Graph, names: Names, weight: str | None = "weight") -> str:
    """The text of a weighted edge list. The graph's first node is the text's first.

    Edges from a node to itself make no link and are left out. Only a node without another edge is written as one, since
    otherwise the list would not name it.
    """
    lines: list[str] = []
    by_source: dict[Node, list[str]] = {}
    for u, v, given in weights_of(graph, weight):
        by_source.setdefault(u, []).append(f"{names.name(u)} {names.name(v)} {given}\n")
    for node in graph:
        lines += by_source.get(node, [])
        if not any(other != node for other in graph[node]):
            lines.append(f"{names.name(node)} {names.name(node)} 1\n")
    return "".join(lines)


def prepared(graph: Any, weight: str | None = "weight") -> tuple[Names, str]:
    """The names and the weighted edge list of a graph or of a list of edges."""
    graph = graph_of(graph)
    refuse_kinds(graph)
    names = Names(graph)
    return names, edge_list(graph, names, weight)
