"""What fails in a sweep: links, nodes, or several of these together."""
from __future__ import annotations

import itertools
from typing import Any, Dict, Hashable, Iterable, List, Optional, Tuple

from .errors import FailureError
from .measuring import Failure
from .network import Network

Item = Tuple[str, int]  # "link" and its number, or "node" and its place


class Finder:
    """Finds links and nodes of a network."""

    def __init__(self, network: Network) -> None:
        self.place: Dict[Hashable, int] = {node: i for i, node in enumerate(network.nodes)}
        self.link = {(min(u, v), max(u, v)): i for i, (u, v, _) in enumerate(network.links)}

    def node(self, found: Any) -> Optional[int]:
        """The place of a node, or None where it is none."""
        try:
            return self.place.get(found)
        except TypeError:
            return None

    def edge(self, found: Any) -> Optional[int]:
        """The number of a link, None where it is no pair of nodes; FailureError where no link joins the two."""
        if not isinstance(found, tuple) or len(found) != 2:
            return None
        u, v = map(self.node, found)
        if u is None or v is None:
            return None
        if (min(u, v), max(u, v)) not in self.link:
            raise FailureError(
                f"{found!r} is not a link of the network: a tuple of two nodes is the link between them; "
                f"for the failure of both nodes, give the list {list(found)!r}"
            )
        return self.link[min(u, v), max(u, v)]

    def item(self, found: Any) -> Optional[Item]:
        """A node or a link, or None where it is neither."""
        node = self.node(found)
        if node is not None:
            return "node", node
        edge = self.edge(found)
        return None if edge is None else ("link", edge)

    def failure(self, found: Any) -> Failure:
        """A failure of a link, a node, or what has several of these."""
        alone = self.item(found)
        items = [alone] if alone is not None else [self.part(part, found) for part in self.parts(found)]
        links = sorted({number for what, number in items if what == "link"})
        nodes = sorted({number for what, number in items if what == "node"})
        return tuple(links), tuple(nodes)

    @staticmethod
    def parts(found: Any) -> List[Any]:
        """The parts of what is neither a node nor a link."""
        if isinstance(found, (tuple, list, set, frozenset)) and found:
            return list(found)
        raise FailureError(f"{found!r} is not a failure: give a link or a node of the network, or a list of these")

    def part(self, part: Any, whole: Any) -> Item:
        it = self.item(part)
        if it is None:
            raise FailureError(f"the failure {whole!r} has {part!r}, which is neither a link nor a node of the network")
        return it


def failures_of(failures: Any, network: Network) -> List[Failure]:
    """Failures as numbers: `"links"`, `"nodes"`, a number k for each k links, or what has links, nodes and lists of these.

    Raises
    ------
    FailureError
        where there is something else, or a link that the network does not have
    """
    links, nodes = range(len(network.links)), range(len(network.nodes))
    if isinstance(failures, str):
        if failures == "links":
            return [((i,), ()) for i in links]
        if failures == "nodes":
            return [((), (u,)) for u in nodes]
        raise FailureError(f"{failures!r} is not a set of failures: give 'links', 'nodes', a number of links that fail together, or a list of failures")
    if isinstance(failures, bool) or not isinstance(failures, (int, Iterable)):
        raise FailureError(f"{failures!r} is not a set of failures: give 'links', 'nodes', a number of links that fail together, or a list of failures")
    if isinstance(failures, int):
        if not 1 <= failures <= len(links):
            raise FailureError(f"{failures} of {len(links):,} links can't fail together: give a number from 1 to {len(links):,}")
        return [(some, ()) for some in itertools.combinations(links, failures)]
    finder = Finder(network)
    return [finder.failure(it) for it in failures]


def spelled(failure: Failure, network: Network) -> Tuple[Any, ...]:
    """A failure as a tuple of links `(u, v)` and nodes of the graph."""
    links = [(network.nodes[network.links[i][0]], network.nodes[network.links[i][1]]) for i in failure[0]]
    return (*links, *(network.nodes[u] for u in failure[1]))


def written(failure: Failure, network: Network) -> List[Any]:
    """A failure as JSON has it: a link is a list of two names, and a node is a name."""
    links: List[Any] = [[network.names[network.links[i][0]], network.names[network.links[i][1]]] for i in failure[0]]
    return [*links, *(network.names[u] for u in failure[1])]
