"""Graphs as edge lists, and what is refused of them."""
from __future__ import annotations

import unittest
from fractions import Fraction
from typing import Any

from common import bentzolu, needs_networkx, networkx
from bentzolu.graphs import prepared
from bentzolu.sources import line_of


def edge(weight: Any) -> Any:
    return networkx.Graph([("a", "b", {"weight": weight})])


@needs_networkx
class GraphsTest(unittest.TestCase):
    def test_edge_list(self) -> None:
        graph = networkx.Graph([((0, 0), "New York", {"weight": 3.0}), ("New York", 5)])
        self.assertEqual(prepared(graph)[1], "(0,0) New_York 3\nNew_York 5 1\n")
        self.assertEqual(prepared(graph, None)[1], "(0,0) New_York 1\nNew_York 5 1\n")

    def test_the_first_node_is_first_and_none_is_lost(self) -> None:
        graph = networkx.Graph()
        graph.add_nodes_from(["lone", "b", "a"])
        graph.add_edges_from([("a", "b"), ("a", "a")])
        self.assertEqual(prepared(graph)[1], "lone lone 1\nb a 1\n")
        self.assertEqual(prepared(networkx.path_graph(1))[1], "0 0 1\n")

    def test_kinds_of_graphs_are_refused(self) -> None:
        for made, error in [
            (networkx.DiGraph([(0, 1)]), bentzolu.DirectedGraphError), (networkx.MultiGraph([(0, 1)]), bentzolu.MultigraphError),
            (networkx.MultiDiGraph([(0, 1)]), bentzolu.DirectedGraphError),
        ]:
            for call in (bentzolu.plan, bentzolu.stats, bentzolu.draw, lambda graph: bentzolu.simulate(graph, [])):
                with self.assertRaises(error):
                    call(made)

    def test_lists_of_edges(self) -> None:
        for edges, text in [
            ([("a", "b"), ("b", "c", 4)], "a b 1\nb c 4\n"), ([(1, 2, {"weight": 3, "color": "red"}), [2, 3]], "1 2 3\n2 3 1\n"),
            (iter([("a", "b", 2), ("b", "a", 5), ("c", "a")]), "a b 5\na c 1\n"), ([("a", "a")], "a a 1\n"), ({("a", "b")}, "a b 1\n"),
            ([((0, 0), (0, 1))], "(0,0) (0,1) 1\n"), (["a b".split()], "a b 1\n"),
        ]:
            self.assertEqual(prepared(edges)[1], text)
        self.assertEqual(prepared([("a", "b", {"km": 3})], "km")[1], "a b 3\n")
        graph = networkx.gnm_random_graph(12, 30, seed=3)
        self.assertEqual(prepared(list(graph.edges))[1], prepared(networkx.Graph(list(graph.edges)))[1])

    def test_what_is_no_graph(self) -> None:
        for given in (7, None, {"a": ["b"]}, ["ab"], [("a",)], [("a", "b", 1, 2)], [7], [([], "b")], ["a b"], object()):
            with self.subTest(given), self.assertRaises(bentzolu.GraphError) as caught:
                bentzolu.plan(given)
            self.assertIsInstance(caught.exception, TypeError)

    def test_whole_weights_are_taken(self) -> None:
        for weight in (1, 65535, 3.0, Fraction(4, 2), True):
            self.assertEqual(prepared(edge(weight))[1], f"a b {int(weight)}\n")  # type: ignore[call-overload]

    def test_other_weights_are_refused(self) -> None:
        for weight in (0, -3, 65536, 2.5, float("nan"), float("inf"), "far", "3", None, 1e9, 1e-9, 1j):
            with self.subTest(weight), self.assertRaises(bentzolu.WeightError) as caught:
                bentzolu.plan(edge(weight))
            self.assertIsInstance(caught.exception, ValueError)
            self.assertIn(repr(weight), str(caught.exception))

    def test_advice(self) -> None:
        def advice(*weights: Any) -> tuple[Any, str]:
            graph = networkx.path_graph(len(weights) + 1)
            for i, weight in enumerate(weights):
                graph[i][i + 1]["weight"] = weight
            with self.assertRaises(bentzolu.WeightError) as caught:
                prepared(graph)
            return graph, str(caught.exception)

        for weights, factor in [((0.25, 2), 4), ((0.1, 0.2), 10), ((1.5, 2.25, 7), 4)]:
            graph, text = advice(*weights)
            self.assertIn(f"bentzolu.scaled(G, {factor})", text)
            made = bentzolu.scaled(graph, factor)
            self.assertEqual([it for _, _, it in made.edges(data="weight")], [weight * factor for weight in weights])
            self.assertEqual([it for _, _, it in graph.edges(data="weight")], list(weights))
        for weights in [(1e9, 3), (3.14159265, 2.71828), (70000, 65536)]:
            graph, text = advice(*weights)
            factor = float(text.split("bentzolu.scaled(G, ")[1].split(")")[0])  # type: ignore[assignment]
            prepared(bentzolu.scaled(graph, factor))
        self.assertIn("no factor makes", advice(1, -2)[1])

    def test_unknown_nodes(self) -> None:
        graph = networkx.path_graph(3)
        for call in (
            lambda: bentzolu.plan(graph, root=9), lambda: bentzolu.walk(graph, 0, "0"), lambda: bentzolu.simulate(graph, [("inject", 0, 7)]),
        ):
            with self.assertRaises(bentzolu.UnknownNodeError):
                call()  # type: ignore[no-untyped-call]

    def test_steps(self) -> None:
        names = bentzolu.Names([1, (0, 1), "New York"])
        for step, line in [
            (("inject", 1, (0, 1)), "inject 1 (0,1)"), (("drain",), "drain"), ("drain # all", "drain # all"), (("down", 1, "New York"), "down 1 New_York"),
            (("up", 1, "New York"), "up 1 New_York"), (("install", "compact", 1), "install compact 1"), (("retire", 3), "retire 3"),
            (("learn", 2), "learn 2"), (("take", 1, "inbox"), "take 1 inbox"), (("take", 1, "from", (0, 1)), "take 1 from (0,1)"),
            (("read", 1, 4), "read 1 4"), (("act", 1), "act 1"),
        ]:
            self.assertEqual(line_of(step, names), line)
        for step in [("inject", 1), ("fly", 1), ("take", 1), ("take", 1, "New York"), (), 7, "a\nb", ("drain", 1)]:  # type: ignore[assignment]
            with self.subTest(step), self.assertRaises(bentzolu.StepError):
                line_of(step, names)


if __name__ == "__main__":
    unittest.main()
