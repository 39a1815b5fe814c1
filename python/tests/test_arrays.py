"""Plans as arrays: the quick reader beside `read_plan`, weights beside NetworkX, rings beside `stats`."""
from __future__ import annotations

import importlib
import importlib.util
import pathlib
import tempfile
import unittest
from typing import Any

from common import TOP, bentzolu, graphs, needs_route, networkx
from bentzolu import arrays
from bentzolu.network import network_of

numpy: Any = importlib.import_module("numpy") if importlib.util.find_spec("numpy") else None

needs_numpy = unittest.skipIf(numpy is None, "there is no NumPy")


def numbered(net: Any) -> Any:
    """The edge list of a network whose nodes are called by their places, and with that the plan's text has numbers alone."""
    return "".join(f"{u} {u} 1\n" for u in range(len(net.nodes))) + "".join(f"{u} {v} {weight}\n" for u, v, weight in net.links)


@needs_numpy
class ReaderTest(unittest.TestCase):
    def test_a_text_of_numbers(self) -> None:
        found = arrays.read_rows("plan tree 3 4\n0 0 1 1\n1 1 2 2 0 0\n2 2 0 1\n")
        self.assertEqual([found.kind, *map(list, found[1:])], ["tree", [0, 1, 2], [0, 1, 2], [1, 2, 1], [0, 1, 1, 2], [1, 2, 0, 0], [1, 2, 0, 1]])
        self.assertEqual(list(arrays.read_rows("plan compact 1 0\n7 0\n").nodes), [7])

    def test_what_is_none(self) -> None:
        for text in ("", "walk a\n", "plan tree 3\n", "plan tree 2 2\n0 0 1 1\n", "plan tree 2 2\na 0 1 b\nb 1 0 a\n", "plan tree 1 1\n0 0 1\n",
                     "plan tree 1 0\n0 0", "plan tree 2 0\n1 0\n0 0\n", "plan tree 1 0\n0  0\n"):
            with self.assertRaises(bentzolu.FormatError, msg=text):
                arrays.read_rows(text)

    def test_long_texts_in_pieces(self) -> None:
        lines = [f"{u} {u} " + " ".join("0 1" for _ in range(40)) + "\n" for u in range(4000)]
        found = arrays.read_rows(f"plan tree 4000 160000\n{''.join(lines)}")
        self.assertEqual((len(found.start), int(found.nodes[-1]), int(found.length.min())), (160000, 3999, 40))


@needs_numpy
@needs_route
class PlansTest(unittest.TestCase):
    def test_beside_the_other_reader_networkx_and_stats(self) -> None:
        with tempfile.TemporaryDirectory() as folder:
            file = pathlib.Path(folder, "net.edgelist")
            for name, graph in graphs():
                net = network_of(graph)
                file.write_text(numbered(net))
                for kind in ("shortest", "tree"):
                    with self.subTest(name, kind=kind):
                        self.compare(net, bentzolu.plan(file, kind), bentzolu.stats(file, kind))

    def compare(self, net: Any, plan: Any, stats: Any) -> None:
        n = len(net.nodes)
        rows = arrays.read_rows(text_of(plan))
        self.assertEqual([int(it) for it in rows.label], [plan.nodes[str(u)].label for u in range(n)])
        self.assertEqual(list(zip(*map(list, (rows.owner, rows.start, rows.to)))), [
            (u, start, int(to)) for u in range(n) for start, to in zip(plan.nodes[str(u)].starts, plan.nodes[str(u)].neighbours)
        ])
        wiring = arrays.Wiring(n, net.links)
        arcs = arrays.next_arcs(rows, wiring, wiring.arcs_of(rows))
        found = arrays.walk_weights(arcs, wiring)
        if plan.kind == "tree":
            self.assertTrue((arrays.tree_weights(rows, arrays.to_root(rows, arcs), wiring) == found).all())
        else:
            graph = networkx.Graph()
            graph.add_nodes_from(range(n))
            graph.add_weighted_edges_from(net.links)
            wanted = dict(networkx.all_pairs_dijkstra_path_length(graph))
            self.assertEqual(found.tolist(), [[wanted[u][v] for v in range(n)] for u in range(n)])
        self.assertEqual(int(found.sum()), stats.walks)
        self.assertEqual(arrays.has_ring(arrays.waits(arcs, wiring), wiring), bool(stats.dependencies))
        self.assertEqual(arrays.bits_of(rows, wiring.degree), stats.bits.rows)

    def test_rings_of_the_examples(self) -> None:
        for name in ("abilene.edgelist", "grid8x8.adjlist", "hypercube64.adjlist", "petersen.adjlist"):
            for kind in ("compact", "tree"):
                rows = bentzolu.sweep(TOP / "examples" / name, [], kind)
                self.assertEqual(rows.intact.ring, bool(bentzolu.stats(TOP / "examples" / name, kind).dependencies), (name, kind))


def text_of(plan: Any) -> str:
    """The text of a plan whose nodes are called by their places."""
    lines = [f"plan {plan.kind} {len(plan.nodes)} {plan.intervals}\n"]
    for node, it in sorted(plan.nodes.items(), key=lambda pair: int(pair[0])):
        lines.append(" ".join([node, str(it.label), *(f"{start} {to}" for start, to in zip(it.starts, it.neighbours))]) + "\n")
    return "".join(lines)


if __name__ == "__main__":
    unittest.main()
