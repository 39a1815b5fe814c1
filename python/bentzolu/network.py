"""A network by places: nodes as numbers from 0, links as pairs of them, in the order in which `bentzolu` has both."""
from __future__ import annotations

import os
import pathlib
import warnings
from typing import Any, Dict, Hashable, List, NamedTuple, Optional, Tuple

from . import convert
from .errors import SweepError, TopologyWarning
from .sources import Topology, of_file, read_text, topology_of

Link = Tuple[int, int, int]  # the places of its nodes, and its weight


class Network(NamedTuple):
    """The nodes of a graph and their names in the order of their places, and the links between places."""

    nodes: Tuple[Hashable, ...]
    names: Tuple[str, ...]
    links: Tuple[Link, ...]


def text_of(topology: Any, depth: int = 4) -> str:
    """The weighted edge list of a topology; that of a file which `bentzolu` reads itself is made here. What was changed is warned of."""
    topology.warn(depth=depth)
    if not isinstance(topology.text, pathlib.Path):
        return str(topology.text)
    found = read_text(topology.text)
    edges, _, notes = convert.converted(found, convert.format_of(topology.text.name, found) or "adjlist", False, None)
    for note in notes[1:]:
        warnings.warn(note, TopologyWarning, stacklevel=depth)
    return str(edges)


def of_topology(topology: Any, depth: int = 5) -> Network:
    """The network of a topology, as `sources` makes it."""
    place: Dict[str, int] = {}
    links: Dict[Tuple[int, int], Link] = {}
    for line in text_of(topology, depth).splitlines():
        a, b, weight = line.split(" ")
        u, v = place.setdefault(a, len(place)), place.setdefault(b, len(place))
        if u != v:
            links[min(u, v), max(u, v)] = (u, v, int(weight))
    names = tuple(place)
    return Network(tuple(map(topology.names.node, names)), names, tuple(links.values()))


def network_of(graph: Any, weight: Optional[str] = "weight") -> Network:
    """The network of what all calls take for a graph.

    Parameters
    ----------
    graph : graph of NetworkX, list of edges `(u, v)` or `(u, v, weight)`, or path of a file
    weight : the edges' attribute that is the weight; None for 1 everywhere
    """
    return of_topology(topology_of(graph, weight), 6)


def network_of_file(path: "os.PathLike[str] | str", format: Optional[str], weight: Optional[str], largest: bool) -> Network:
    """The network of a file with the words of the command line."""
    topology: Topology = of_file(path, format, weight, largest)
    return of_topology(topology)


def order_of(network: Network, order: Any) -> List[int]:
    """The places of an order of all nodes; a path is that of a file with a name a line.

    Parameters
    ----------
    order : nodes, or a path as `pathlib.Path`

    Raises
    ------
    ValueError
        where it is no order of all nodes, each once
    """
    place: Dict[Hashable, int] = {node: i for i, node in enumerate(network.nodes)}
    if isinstance(order, os.PathLike):
        order = named_order(network, os.fspath(order))
    found = []
    for node in order:
        if node not in place:
            raise ValueError(f"the order has {node!r}, which is not a node of the network")
        found.append(place[node])
    if sorted(found) != list(range(len(network.nodes))):
        raise ValueError(f"the order has {len(found):,} nodes, but needs each of the {len(network.nodes):,} nodes once")
    return found


def named_order(network: Network, path: str) -> List[Hashable]:
    """The nodes of an order in a file, which has a name a line.

    Raises
    ------
    SweepError
        where the file can't be read, or a name in it is no node's
    """
    node = dict(zip(network.names, network.nodes))
    try:
        names = read_text(path).split()
    except OSError as error:
        raise SweepError(f"{path!r} is not depth-first, tour, keep or a readable file: {error.strerror}") from error
    for name in names:
        if name not in node:
            raise SweepError(f"{path} has {name!r}, which is not a node of the network")
    return [node[name] for name in names]
