"""Figures without each link beside those of `stats`, and texts that are none."""
import random
import unittest
from typing import Any
from fractions import Fraction

from common import bentzolu, needs_route, networkx
from bentzolu import FormatError, LinkFigures, read_link_failures, read_node_failures


def figures_of(graph: Any, kind: Any) -> Any:
    """The figures of the plan, by `stats`."""
    found = bentzolu.stats(graph, kind)
    worst = None if found.worst is None else Fraction(found.worst.walk, found.worst.distance)
    return LinkFigures(found.starts, found.greatest_row[1], found.bits.rows, found.stretch, worst, bool(found.dependencies))


class Failing(unittest.TestCase):
    @needs_route
    def test_graphs(self) -> None:
        draw = random.Random(1)
        for kind in ("shortest", "compact", "tree"):
            graph = networkx.Graph()
            graph.add_nodes_from(range(draw.randint(3, 9)))
            chosen: Any = {(draw.randrange(v), v) for v in range(1, len(graph))}
            chosen |= {tuple(sorted(draw.sample(range(len(graph)), 2))) for _ in graph}
            graph.add_weighted_edges_from((u, v, draw.randint(1, 9)) for u, v in sorted(chosen))
            found = bentzolu.link_failures(graph, kind)
            self.assertEqual((found.kind, found.intact), (kind, figures_of(graph, kind)))
            self.assertEqual({tuple(sorted(failure.link)) for failure in found.failures}, chosen)
            cut = {tuple(sorted(failure.link)) for failure in found.failures if failure.figures is None}
            self.assertEqual(cut, {tuple(sorted(link)) for link in networkx.bridges(graph)})

    @needs_route
    def test_ring(self) -> None:
        found = bentzolu.link_failures(networkx.cycle_graph(5))
        path = figures_of(networkx.path_graph(5), "shortest")
        self.assertEqual([failure.figures.stretch for failure in found.failures], [path.stretch] * 5)
        self.assertEqual(found.intact.ring, True)
        self.assertEqual({failure.figures.ring for failure in found.failures}, {False})

    @needs_route
    def test_nodes(self) -> None:
        found = bentzolu.node_failures(networkx.cycle_graph(5), root=2)
        path = figures_of(networkx.path_graph(4), "shortest")
        self.assertEqual(sorted(failure.node for failure in found.failures), list(range(5)))
        self.assertEqual({failure.figures.stretch for failure in found.failures}, {path.stretch})
        self.assertEqual((found.intact.ring, {failure.figures.ring for failure in found.failures}), (True, {False}))
        star = bentzolu.node_failures(networkx.star_graph(3), "tree")
        self.assertEqual([failure.figures is None for failure in star.failures], [True, False, False, False])
        self.assertEqual(star.failures[1].figures, figures_of(networkx.star_graph(2), "tree"))

    def test_texts(self) -> None:
        head = "each links tree 2 1 2 1 4 8/8 4/4 acyclic\n"
        for text in ("", "stats tree 2\n", "each links tree 2 1\n", head.replace("acyclic", "round"), head + "a b\n", head + "a b 1 2 3\n",
                     head + "a b 1 2 x 1/1 1/1 cycle\n"):
            with self.subTest(text=text), self.assertRaises(FormatError):
                read_link_failures(text)
        nodes = head.replace("links", "nodes")
        for text in ("", head, nodes + "a\n", nodes + "a 1 2 3\n", nodes + "a b empty\n"):
            with self.subTest(text=text), self.assertRaises(FormatError):
                read_node_failures(text)
        with self.assertRaises(FormatError):
            read_link_failures(nodes)
        self.assertIsNone(read_link_failures("each links tree 1 0 0 0 0 - - acyclic\n").intact.stretch)


if __name__ == "__main__":
    unittest.main()
