"""Kind landmark in all calls that take a kind, beside NetworkX's own shortest paths and the definition of its landmarks."""
from __future__ import annotations

import contextlib
import io
import os
import pathlib
import tempfile
import unittest
from fractions import Fraction
from typing import Any

from common import TOP, bentzolu, graphs, needs_route, networkx
from bentzolu import __main__ as program

NSFNET = str(TOP / "examples/nsfnet.edgelist")
RING = [("a", "b"), ("b", "c"), ("c", "d"), ("d", "e"), ("e", "a")]


def most_linked(graph: Any, nodes: Any, root: Any, count: Any) -> Any:
    """The root, and the nodes of most links, of as many the first of these nodes."""
    places = {node: place for place, node in enumerate(nodes)}
    links = {node: len(set(graph[node]) - {node}) for node in graph}
    others = sorted((node for node in graph if node != root), key=lambda node: (-links[node], places[node]))
    return (root, *others)[:count]


@needs_route
class LandmarksTest(unittest.TestCase):
    def test_plans_and_figures(self) -> None:
        for name, graph in graphs():
            nodes = list(graph)
            root, distance = nodes[len(nodes) // 2], dict(networkx.all_pairs_dijkstra_path_length(graph))
            for options in ({}, {"landmarks": 3, "stretch": 150}):
                with self.subTest(name, **options):  # type: ignore[arg-type]
                    self.look_at(graph, nodes, root, distance, options)

    def look_at(self, graph: Any, nodes: Any, root: Any, distance: Any, options: Any) -> None:
        plan, stats = (call(graph, "landmark", root, **options) for call in (bentzolu.plan, bentzolu.stats))
        count = next(k for k in range(1, len(nodes) + 1) if 4 * k * k >= len(nodes))
        self.assertEqual(stats.landmarks, most_linked(graph, plan.nodes, root, options.get("landmarks", count)))
        self.assertEqual((stats.most_stretch, plan.labels[root]), (options.get("stretch", 300), 0))
        walks, longest = 0, Fraction(1)
        for source in nodes:
            for target in (node for node in nodes if node != source):
                path = plan.path(source, target)
                weight = sum(graph[u][v].get("weight", 1) for u, v in zip(path, path[1:]))
                walks, longest = walks + weight, max(longest, Fraction(weight, distance[source][target]))
        self.assertEqual((stats.walks, stats.starts), (walks, plan.intervals))
        self.assertLessEqual(100 * longest, stats.most_stretch)
        self.assertEqual(stats.worst.stretch if stats.worst else 1, longest)

    def test_each_call(self) -> None:
        given = {"landmarks": 1, "stretch": 300}
        plan = bentzolu.plan(RING, "landmark", **given)
        self.assertEqual(plan.path("d", "b"), ["d", "e", "a", "b"])
        self.assertEqual(bentzolu.plan(RING, "landmark", landmarks=1, stretch=100).path("d", "b"), ["d", "c", "b"])
        whole = bentzolu.Options("landmark", **given)
        self.assertEqual(bentzolu.plan(RING, options=whole), plan)
        self.assertEqual(bentzolu.plan(RING, "landmark", words=("--landmarks", "1")), plan)
        self.assertEqual(bentzolu.compile_many([RING], "landmark", **given), [plan])
        self.assertEqual(bentzolu.walk(RING, "d", "b", options=whole).weight, 3)
        self.assertEqual(bentzolu.prefixes(RING, options=whole).path("d", "b"), plan.path("d", "b"))
        bentzolu.check_ranges(plan, bentzolu.ranges(RING, options=whole))
        self.assertEqual(bentzolu.draw(RING, source="d", target="b", options=whole).count("style=bold"), 3)

    def test_runs(self) -> None:
        steps = [("inject", "d", "b"), ("install", "landmark", "c"), ("learn", 2), ("inject", "e", "b"), ("drain",)]
        for kind in ("landmark", "shortest", "tree"):
            run = bentzolu.simulate(RING, steps, kind, landmarks=1, stretch=300)
            self.assertEqual([it.hops for it in run.packets], [["d", "e", "a", "b"] if kind == "landmark" else bentzolu.plan(RING, kind).path("d", "b"), ["e", "d", "c", "b"]])
            self.assertTrue(bentzolu.check(RING, steps, run, kind, landmarks=1, words=("--whole",)))
            if kind == "landmark":
                verdict = bentzolu.check(RING, steps, run, kind, landmarks=1, stretch=100)
                self.assertEqual((verdict.ok, verdict.kind), (False, "NotAPrefix"))
        run = bentzolu.live(RING, [it for it in steps if it[0] != "learn"], "landmark", landmarks=1)
        self.assertEqual([it.fate for it in run.packets], ["delivered", "delivered"])

    def test_over_time(self) -> None:
        line = bentzolu.Timeline([(0, RING), (1, [*RING, ("a", "c")]), (2, RING)])
        steps = line.steps("landmark", "b", mode="ahead")
        self.assertIn(("install", "landmark", "b"), steps)
        run = bentzolu.simulate(line.graph, steps, "landmark", "b", landmarks=2)
        self.assertEqual({it.fate for it in run.packets}, {"delivered"})
        self.assertTrue(bentzolu.check(line.graph, steps, run, "landmark", "b", landmarks=2))
        try:
            import numpy  # noqa: F401
        except ImportError:
            self.skipTest("there is no NumPy")
        rows = line.replay("landmark", root="b", landmarks=1, stretch=200)
        for row, edges in zip(rows, (RING, [*RING, ("a", "c")], RING)):
            there = [edge for edge in line.graph if frozenset(edge[:2]) in set(map(frozenset, edges))]  # type: ignore[arg-type]
            stats = bentzolu.stats([(u, u) for u in line.nodes] + there, "landmark", "b", landmarks=1, stretch=200)
            self.assertEqual((row.intervals, row.mean, row.fault), (stats.starts, stats.walks / 20, None))

    def test_refused(self) -> None:
        for named, said in (
            ({"kind": "landmark", "landmarks": 0}, "0 is not in 1..=65535"), ({"kind": "landmark", "landmarks": 65_536}, "65536 is not in 1..=65535"),
            ({"kind": "landmark", "stretch": 99}, "99 is not in 100..=300"), ({"kind": "landmark", "stretch": 301}, "301 is not in 100..=300"),
            ({"landmarks": 2}, "require '--kind landmark'"), ({"kind": "tree", "stretch": 200}, "require '--kind landmark'"),
            ({"kind": "landmark", "words": ("--numbering", "tour")}, "cannot be used with '--numbering'"),
        ):
            for call in (bentzolu.plan, bentzolu.stats, bentzolu.prefixes, bentzolu.ranges, bentzolu.draw):
                with self.subTest(call.__name__, **named), self.assertRaises(bentzolu.RouteError) as caught:  # type: ignore[arg-type]
                    call(RING, **named)
                self.assertEqual((caught.exception.status, caught.exception.kind), (2, "usage"))
                self.assertIn(said, str(caught.exception))
        for edges, kind in (([("a", "b"), ("c", "d")], "Disconnected"), ([], "Empty")):
            with self.assertRaises(bentzolu.RouteError) as caught:
                bentzolu.plan(edges, "landmark")
            self.assertEqual(caught.exception.kind, kind)
        run = bentzolu.simulate([("a", "b")], [("down", "a", "b"), ("install", "landmark", "a")], "landmark")
        self.assertEqual([(it.line, it.kind) for it in run.refused], [(2, "Disconnected")])

    def test_from_the_command_line(self) -> None:
        words = ["--kind", "landmark", "--landmarks", "2", "--stretch", "150", "--root", "Houston"]
        options = {"landmarks": 2, "stretch": 150}

        def said(*asked: Any) -> tuple[Any, Any, Any]:
            output = io.TextIOWrapper(io.BytesIO(), encoding="utf-8", write_through=True)
            with contextlib.redirect_stdout(output), contextlib.redirect_stderr(io.StringIO()) as faults:
                status = program.main([str(it) for it in asked])
            return status, output.buffer.getvalue().decode(), faults.getvalue()  # type: ignore[attr-defined]

        status, output, faults = said("plan", NSFNET, *words)
        self.assertEqual((status, bentzolu.read_plan(output), faults), (0, bentzolu.plan(NSFNET, "landmark", "Houston", **options), ""))
        stats = bentzolu.read_stats(said("stats", NSFNET, *words)[1])
        self.assertEqual((stats.landmarks, stats.most_stretch), (bentzolu.stats(NSFNET, "landmark", "Houston", landmarks=2).landmarks, 150))
        self.assertEqual(said("stats", NSFNET, "--stretch", "150")[0], 1)
        near = "PaloAlto,Boulder,AnnArbor"
        self.assertEqual(said("xdp", "table", "1", NSFNET, "--node", "SaltLakeCity", "--neighbours", near, *words)[0], 0)
        try:
            import numpy  # noqa: F401
        except ImportError:
            self.skipTest("there is no NumPy")
        with tempfile.TemporaryDirectory() as folder:
            path = pathlib.Path(folder, "rows")
            self.assertEqual(said("sweep", NSFNET, *words, "-o", path)[0], 0)
            rows = bentzolu.read_sweep(path)
            self.assertEqual((rows.kind, rows.numbering, rows.intact.intervals), ("landmark", "blocks", stats.starts))
            status, _, faults = said("sweep", NSFNET, *words[:-2], "-o", path)
            self.assertEqual((status, os.path.getsize(path) > 0), (1, True))
            self.assertIn("kind landmark --landmarks=2 --stretch=150, numbering blocks", faults)


if __name__ == "__main__":
    unittest.main()
