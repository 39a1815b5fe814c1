"""The program over graphs of NetworkX's generators, beside NetworkX's own shortest paths."""
from __future__ import annotations

import random
import unittest
from typing import Any

from common import bentzolu, graphs, needs_route, networkx

KINDS = ("shortest", "compact", "tree")


@needs_route
class RouteTest(unittest.TestCase):
    def over_graphs(self, look: Any) -> None:
        for name, graph in graphs():
            with self.subTest(name):
                look(graph, list(graph))

    def test_plans(self) -> None:
        self.over_graphs(self.look_at_plans)

    def look_at_plans(self, graph: Any, nodes: Any) -> None:
        distances = dict(networkx.all_pairs_dijkstra_path_length(graph))
        root = nodes[len(nodes) // 2]
        for kind in KINDS:
            plan = bentzolu.plan(graph, kind, root)
            self.assertEqual((plan.kind, set(plan.nodes)), (kind, set(nodes)))
            self.assertEqual(sorted(plan.labels.values()), list(range(len(nodes))))
            self.assertEqual(plan.labels[root], 0)
            used = set()
            for source in nodes:
                for target in nodes:
                    hops = list(zip(plan.path(source, target), plan.path(source, target)[1:]))
                    self.assertTrue(all(graph.has_edge(u, v) for u, v in hops))
                    used |= {frozenset(hop) for hop in hops}
                    if kind != "tree":
                        self.assertEqual(sum(graph[u][v].get("weight", 1) for u, v in hops), distances[source][target])
            if kind == "tree":
                self.assertEqual((len(used), plan.intervals), (len(nodes) - 1, 2 * (len(nodes) - 1)))

    def test_the_first_node_is_the_root(self) -> None:
        self.over_graphs(lambda graph, nodes: self.assertEqual(bentzolu.plan(graph).labels[nodes[0]], 0))

    def test_walks(self) -> None:
        self.over_graphs(self.look_at_walks)

    def look_at_walks(self, graph: Any, nodes: Any) -> None:
        chance, plan = random.Random(5), bentzolu.plan(graph, "compact")
        for source, target in [(chance.choice(nodes), chance.choice(nodes)) for _ in range(4)]:
            walk = bentzolu.walk(graph, source, target, "compact")
            self.assertEqual(walk.path, plan.path(source, target))
            self.assertEqual(walk.weight, networkx.dijkstra_path_length(graph, source, target))
            self.assertEqual((walk.source, walk.target, walk.address), (source, target, plan.labels[target]))
            for step in walk.steps[:-1]:
                self.assertIn(step.interval, plan.nodes[step.node].intervals)
                self.assertIn(walk.address, step.interval)

    def test_stats(self) -> None:
        self.over_graphs(self.look_at_stats)

    def look_at_stats(self, graph: Any, nodes: Any) -> None:
        total = sum(sum(row.values()) for _, row in networkx.all_pairs_dijkstra_path_length(graph))
        for kind in KINDS:
            stats, plan = bentzolu.stats(graph, kind), bentzolu.plan(graph, kind)
            self.assertEqual((stats.kind, stats.nodes, stats.links), (kind, len(nodes), graph.number_of_edges()))
            self.assertEqual((stats.starts, stats.entries, stats.distances), (plan.intervals, len(nodes) * (len(nodes) - 1), total))
            self.assertEqual(stats.greatest_row[1], max(len(it.intervals) for it in plan.nodes.values()))
            if kind == "tree":
                self.assertGreaterEqual(stats.walks, total)
            else:
                self.assertEqual(stats.walks, total)
            self.assertEqual(stats.worst is None, len(nodes) == 1)

    def test_runs_and_checks(self) -> None:
        self.over_graphs(self.look_at_runs)

    def look_at_runs(self, graph: Any, nodes: Any) -> None:
        chance = random.Random(6)
        pairs = [(chance.choice(nodes), chance.choice(nodes)) for _ in range(6)]
        steps = [("inject", *pair) for pair in pairs] + [("drain",), ("install", "compact", nodes[-1]), ("learn", 2), ("retire", 2)]
        steps += [("inject", *pair) for pair in pairs] + [("drain",), ("retire", 1)]
        run = bentzolu.simulate(graph, steps)
        self.assertEqual([(it.line, it.kind, it.step) for it in run.refused], [(len(steps), "Same", ("retire", 1))])
        self.assertEqual([(it.source, it.target, it.fate) for it in run.packets], [(*pair, "delivered") for pair in 2 * pairs])
        for i, packet in enumerate(run.packets):
            self.assertEqual(packet.epoch, 1 if i < 6 else 2)
            self.assertEqual(packet.weight, networkx.dijkstra_path_length(graph, packet.source, packet.target))
        self.check_round_trip(graph, steps, run)

    def check_round_trip(self, graph: Any, steps: Any, run: Any) -> None:
        for trace in (run, run.trace, run.packets):
            verdict = bentzolu.check(graph, steps, trace)
            self.assertEqual((verdict.ok, verdict.rows), (True, len(run.packets)))
        last = run.packets[-1]
        wrong = bentzolu.Packet(last.number, last.source, last.target, last.weight + 1, last.fate, last.link, last.segments)
        verdict = bentzolu.check(graph, steps, [*run.packets[:-1], wrong])
        self.assertEqual((verdict.ok, verdict.line, verdict.kind), (False, len(run.packets) + 1, "BadWeight"))

    def test_live_runs(self) -> None:
        self.over_graphs(self.look_at_live_runs)

    def look_at_live_runs(self, graph: Any, nodes: Any) -> None:
        steps = [("inject", nodes[0], nodes[-1]), ("install", "tree", nodes[-1]), ("inject", nodes[-1], nodes[0]), ("drain",)]
        run = bentzolu.live(graph, steps)
        self.assertEqual([packet.epoch for packet in run.packets], [1, 2])
        self.assertTrue(bentzolu.check(graph, steps, run))

    def test_restamps(self) -> None:
        graph = networkx.Graph()
        graph.add_weighted_edges_from([("u", "p", 1), ("u", "q", 1), ("p", "q", 9), ("q", "r", 1), ("q", "t", 9), ("p", "t", 1), ("q", "s", 1)])
        steps = [("inject", "u", "t"), ("take", "u", "inbox"), ("act", "u"), ("install", "shortest", "u"), ("retire", 2), ("drain",)]
        run = bentzolu.simulate(graph, steps, "tree", "u", restamps=1)
        self.assertEqual(run.trace, "trace 2\n0 u t 2 delivered #1 u p #2 p t\n")
        self.assertEqual([(it.epoch, it.hops) for it in run.packets[0].segments], [(1, ("u", "p")), (2, ("p", "t"))])
        self.assertTrue(bentzolu.check(graph, steps, run, "tree", "u"))
        self.assertTrue(bentzolu.check(graph, steps, run.packets, "tree", "u"))
        plain = bentzolu.simulate(graph, steps, "tree", "u")
        self.assertEqual((plain.packets[0].fate, plain.packets[0].hops), ("retired", ["u"]))

    def test_full_and_down(self) -> None:
        graph, tree = networkx.path_graph(3), {"kind": "tree", "root": 1}
        inject, send = ("inject", 0, 2), [("take", 0, "inbox"), ("act", 0)]
        run = bentzolu.simulate(graph, [inject, *send, inject, *send, ("drain",)], capacity=1, **tree)
        self.assertEqual([(it.fate, it.link) for it in run.packets], [("delivered", None), ("full", (0, 1))])
        run = bentzolu.simulate(graph, [("down", 1, 2), inject, ("drain",)], **tree)
        self.assertEqual([(it.fate, it.link) for it in run.packets], [("down", (1, 2))])

    def test_drawings(self) -> None:
        self.over_graphs(self.look_at_drawings)

    def look_at_drawings(self, graph: Any, nodes: Any) -> None:
        dot = bentzolu.draw(graph, "tree", source=nodes[0], target=nodes[-1])
        self.assertTrue(dot.startswith("graph {") and dot.endswith("}\n"))
        self.assertEqual(dot.count(" -- "), graph.number_of_edges())
        if len(nodes) > 1:
            self.assertIn("style=bold", dot)
        label = bentzolu.plan(graph, "tree").labels[nodes[-1]]
        self.assertIn(f'label="{nodes[-1]} {label}"', dot)

    def test_drawings_by_matplotlib(self) -> None:
        try:
            import matplotlib
        except ImportError:
            self.skipTest("there is no matplotlib")
        matplotlib.use("Agg")
        from matplotlib.figure import Figure

        ax = Figure().add_subplot()
        graph = networkx.petersen_graph()
        bentzolu.draw(graph, "compact", source=0, target=7, ax=ax)
        self.assertGreaterEqual(len(ax.texts), 10 + 2 * 15)

    def test_faults(self) -> None:
        apart = networkx.Graph([(0, 1), (2, 3)])
        apart.add_node("lone")
        for graph, kind in [(apart, "Disconnected"), (networkx.empty_graph(2), "Disconnected"), (networkx.Graph(), "Empty")]:
            with self.assertRaises(bentzolu.RouteError) as caught:
                bentzolu.plan(graph)
            self.assertEqual((caught.exception.status, caught.exception.kind), (1, kind))
        with self.assertRaises(bentzolu.RouteError) as caught:
            bentzolu.simulate(networkx.path_graph(3), [("drain",), "fly 0 1"])
        error = caught.exception
        self.assertEqual((error.status, error.about, error.line, error.kind, error.content), (1, "script", 2, "BadCommand", "fly 0 1"))
        with self.assertRaises(bentzolu.RouteError) as caught:
            bentzolu.plan(networkx.path_graph(3), kind="fastest")
        self.assertEqual((caught.exception.status, caught.exception.kind), (2, "usage"))


if __name__ == "__main__":
    unittest.main()
