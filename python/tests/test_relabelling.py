"""What changes between plans, and when a network is numbered anew."""
from __future__ import annotations

import random
import unittest
from typing import Any

from common import TOP, bentzolu, graphs, needs_route, networkx
from bentzolu.network import network_of
from bentzolu.relabelling import bits_of, ports_of

NSFNET = TOP / "examples/nsfnet.edgelist"


def edges_of(file: Any) -> list[Any]:
    net = network_of(file)
    return [(net.nodes[u], net.nodes[v], weight) for u, v, weight in net.links]


def connected(edges: Any) -> Any:
    graph = networkx.Graph([edge[:2] for edge in edges])
    return networkx.is_connected(graph)


@needs_route
class DiffTest(unittest.TestCase):
    def test_patched_is_the_new_plan(self) -> None:
        for name in ("petersen", "grid", "barbell"):
            graph = dict(graphs())[name]
            old = bentzolu.plan(graph, "compact")
            self.assertEqual(len(bentzolu.diff(old, old).nodes), 0)
            for edge in list(graph.edges)[::3]:
                left = graph.copy()
                left.remove_edge(*edge)
                if not networkx.is_connected(left):
                    continue
                new = bentzolu.plan(left, "compact")
                found = bentzolu.diff(old, new)
                self.assertEqual(bentzolu.patched(old, found), new)
                self.assertIn("<table>", found._repr_html_())
                before = {(node, *it) for node, row in old.nodes.items() for it in zip(row.starts, row.neighbours)}
                after = {(node, *it) for node, row in new.nodes.items() for it in zip(row.starts, row.neighbours)}
                self.assertEqual(found.put, len(after - before))
                self.assertEqual(found.removed, len({it[:2] for it in before} - {it[:2] for it in after}))
                self.assertEqual(set(found.nodes), {node for node in old.nodes if old.nodes[node] != new.nodes[node]})

    def test_kept_labels(self) -> None:
        keeper = bentzolu.Relabeller("compact", price=0)
        edges = edges_of(NSFNET)
        first = keeper.update(edges)
        self.assertEqual((first.diff, first.renumbered), (None, True))
        for edge in edges[:6]:
            step = keeper.update([it for it in edges if it != edge])
            self.assertEqual((step.diff.relabelled, step.renumbered, step.plan.labels), (0, False, first.plan.labels))

    def test_other_nodes(self) -> None:
        path = bentzolu.plan([("a", "b")])
        with self.assertRaisesRegex(bentzolu.FormatError, "same nodes"):
            bentzolu.diff(path, bentzolu.plan([("a", "c")]))
        keeper = bentzolu.Relabeller()
        keeper.update([("a", "b")])
        self.assertEqual(keeper.update([("a", "b"), ("b", "c")])[1:], (None, True))
        with self.assertRaisesRegex(bentzolu.RouteError, "2 parts"):
            keeper.update([("a", "a"), ("b", "c")])
        self.assertEqual(len(keeper.plan.nodes), 3)


@needs_route
class RuleTest(unittest.TestCase):
    def events(self, edges: Any, seed: Any, count: Any) -> Any:
        """Networks whose links fail and come back, and stay connected."""
        luck = random.Random(seed)
        up = list(edges)
        down: list[Any] = []
        found = [edges]
        while len(found) <= count:
            if down and luck.random() < 0.5:
                up.append(down.pop(luck.randrange(len(down))))
            else:
                edge = luck.choice(up)
                rest = [it for it in up if it != edge]
                if len({node for it in rest for node in it[:2]}) < 14 or not connected(rest):
                    continue
                up, down = rest, [*down, edge]
            found.append(sorted(up, key=edges.index))
        return found

    def test_near_the_best_of_all_choices(self) -> None:
        """The best is the least over all choices of when to number anew, by the prices of all plans of all orders."""
        edges = edges_of(NSFNET)
        for seed in (1, 2, 3):
            networks = self.events(edges, seed, 8)
            keeper = bentzolu.Relabeller("compact")
            steps = [keeper.update(it) for it in networks]
            ports = [ports_of(it, "weight") for it in networks]
            reached = sum(step.diff.bits(ports[at]) + bits_of(step.plan, ports[at]) for at, step in enumerate(steps) if at)
            tours = [keeper.made(it, None) for it in networks]
            kept = {(i, i): plan for i, plan in enumerate(tours)}
            best = {0: 0}
            for j in range(1, len(networks)):
                later: dict[Any, Any] = {}
                for i, price in best.items():
                    kept[i, j] = keeper.made(networks[j], sorted(tours[i].nodes, key=tours[i].labels.get))
                    for order in (i, j):
                        plan = kept[order, j]
                        sum_ = price + bentzolu.diff(kept[i, j - 1], plan).bits(ports[j]) + bits_of(plan, ports[j])
                        later[order] = min(sum_, later.get(order, sum_))
                best = later
            self.assertLessEqual(reached, 1.25 * min(best.values()), seed)

    def test_what_is_refused(self) -> None:
        for how in ({"kind": "tree"}, {"kind": "landmark"}, {"price": -1}, {"every": 0}, {"price": float("nan")}):
            with self.assertRaises(bentzolu.SweepError):
                bentzolu.Relabeller(**how)


if __name__ == "__main__":
    unittest.main()
