"""Sweeps: rows beside an independent loop, the file of rows, engines that end, and the words."""
from __future__ import annotations

import importlib
import importlib.util
import concurrent.futures
import contextlib
import io
import json
import os
import pathlib
import signal
import subprocess
import sys
import tempfile
import time
import unittest
from typing import Any
from unittest import mock

from common import ROUTE, TOP, bentzolu, needs_route, networkx
from bentzolu import __main__ as words, measuring, sweeping

numpy: Any = importlib.import_module("numpy") if importlib.util.find_spec("numpy") else None

needs_numpy = unittest.skipIf(numpy is None, "there is no NumPy")
NSFNET = TOP / "examples/nsfnet.edgelist"


def bare(rows: Any) -> list[Any]:
    """Rows without what they took."""
    return [row._replace(seconds=None) for row in rows]


def edges_of(graph: Any) -> list[Any]:
    return [(f"n{u}" if not isinstance(u, str) else u, f"n{v}" if not isinstance(v, str) else v, data.get("weight", 1)) for u, v, data in graph.edges(data=True)]


def networks() -> dict[Any, Any]:
    """Networks by name, as lists of edges in the order in which a file would have them."""
    nx = networkx
    weighed = nx.convert_node_labels_to_integers(nx.grid_2d_graph(3, 4))
    for i, (u, v) in enumerate(weighed.edges):
        weighed[u][v]["weight"] = 1 + i * 7 % 11
    made = {"petersen": nx.petersen_graph(), "weighed grid": weighed, "tree": nx.balanced_tree(2, 2), "lollipop": nx.lollipop_graph(4, 3)}
    return {name: edges_of(graph) for name, graph in made.items()}


class Plain:
    """The figures of a failure by plain loops over dictionaries, of plans and figures that the program makes of files."""

    def __init__(self, edges: Any, kind: Any, folder: Any, order: Any = None) -> None:
        self.edges, self.kind, self.folder = edges, kind, folder
        self.nodes = list(dict.fromkeys(node for edge in edges for node in edge[:2]))
        self.order = order
        graph = networkx.Graph()
        graph.add_weighted_edges_from(edges)
        self.distance = dict(networkx.all_pairs_dijkstra_path_length(graph))
        self.intact = self.planned((), ())
        if order == "keep":
            self.order = None
            tour = self.planned((), (), ("--numbering", "tour"))[0]
            self.order = sorted(tour.nodes, key=tour.labels.get)
            self.intact = self.planned((), ())

    def planned(self, lost: Any, gone: Any, more: Any = None) -> tuple[Any, Any, Any]:
        """The plan and the figures without some edges and nodes."""
        left = [it for it in self.edges if it not in lost and it[0] not in gone and it[1] not in gone]
        file = pathlib.Path(self.folder, "left.edgelist")
        file.write_text("".join(f"{u} {u} 1\n" for u in self.nodes if u not in gone) + "".join(f"{u} {v} {w}\n" for u, v, w in left))
        how = () if more is None else more
        if more is None and isinstance(self.order, list):
            order = pathlib.Path(self.folder, "left.order")
            order.write_text("".join(f"{u}\n" for u in self.order if u not in gone))
            how = ("--numbering", str(order))
        return bentzolu.plan(file, self.kind, words=how), bentzolu.stats(file, self.kind, words=how), left

    def weight(self, path: Any) -> Any:
        weights = {frozenset(edge[:2]): edge[2] for edge in self.edges}
        return sum(weights[frozenset(pair)] for pair in zip(path, path[1:]))

    def arcs(self, *plans: Any) -> Any:
        """Which links wait for which, over the walks of some plans."""
        waits = networkx.DiGraph()
        for plan in plans:
            for source in plan.nodes:
                for target in plan.nodes:
                    path = plan.path(source, target)
                    waits.add_edges_from(((a, b), (b, c)) for a, b, c in zip(path, path[1:], path[2:]))
        return waits

    def row(self, lost: Any, gone: Any) -> Any:
        alive = [node for node in self.nodes if node not in gone]
        graph = networkx.Graph()
        graph.add_nodes_from(alive)
        graph.add_edges_from(it[:2] for it in self.edges if it not in lost and it[0] not in gone and it[1] not in gone)
        sizes = [len(part) for part in networkx.connected_components(graph)]
        found = dict(parts=len(sizes), nodes=max(sizes), disconnected=sum(sizes) ** 2 - sum(size**2 for size in sizes))
        if len(sizes) > 1:
            return found
        plan, stats, _ = self.planned(lost, gone)
        old = self.intact[0]
        pairs = [(a, b) for a in alive for b in alive if a != b]
        after = {pair: self.weight(plan.path(*pair)) for pair in pairs}
        ratio = [after[pair] / self.distance[pair[0]][pair[1]] for pair in pairs]
        entries = {(node, start): to for node, it in plan.nodes.items() for start, to in zip(it.starts, it.neighbours)}
        before = {(node, start): to for node, it in old.nodes.items() if node in alive for start, to in zip(it.starts, it.neighbours)}
        found.update(
            intervals=stats.starts, greatest_row=stats.greatest_row[1], bits=stats.bits.rows, mean_stretch=sum(ratio) / len(ratio),
            worst_stretch=max(ratio), longer=sum(after[pair] > self.weight(old.path(*pair)) for pair in pairs),
            rerouted=sum(plan.path(*pair)[1] != old.path(*pair)[1] for pair in pairs),
            rows_changed=sum(plan.nodes[it]._key() != old.nodes[it]._key() for it in alive),
            removed=len(before.keys() - entries.keys()), put=sum(before.get(key) != to for key, to in entries.items()),
            ring=bool(stats.dependencies), ring_together=not networkx.is_directed_acyclic_graph(self.arcs(old, plan)),
        )
        return found


@needs_route
@needs_numpy
class RowsTest(unittest.TestCase):
    def setUp(self) -> None:
        folder = tempfile.TemporaryDirectory()
        self.addCleanup(folder.cleanup)
        self.folder = folder.name

    def file(self, edges: Any) -> Any:
        """A file of edges, which keeps their order."""
        path = pathlib.Path(self.folder, "whole.edgelist")
        path.write_text("".join(f"{u} {v} {w}\n" for u, v, w in edges))
        return path

    def compare(self, plain: Any, row: Any, lost: Any, gone: Any) -> None:
        wanted = plain.row(lost, gone)
        for name, value in wanted.items():
            if name == "mean_stretch":
                self.assertAlmostEqual(row.mean_stretch, value, 9)
            else:
                self.assertEqual(getattr(row, name), value, (name, row.name))
        self.assertIsNone(row.fault)

    def test_rows_beside_a_plain_loop(self) -> None:
        compared = 0
        for name, edges in networks().items():
            for kind, numbering in (("shortest", "depth-first"), ("compact", "keep"), ("tree", "depth-first"), ("landmark", "depth-first")):
                plain = Plain(edges, kind, self.folder, "keep" if numbering == "keep" else None)
                with self.subTest(name, kind=kind):
                    rows = bentzolu.sweep(self.file(edges), kind=kind, numbering=numbering)
                    for row, edge in zip(rows, edges):
                        self.assertEqual(row.failure, (edge[:2],))
                        self.compare(plain, row, [edge], [])
                        compared += 1
        self.assertGreater(compared, 160)

    def test_nodes_and_several_links(self) -> None:
        edges = networks()["weighed grid"]
        for kind in ("landmark", "compact"):
            plain = Plain(edges, kind, self.folder)
            nodes, file = plain.nodes, self.file(edges)
            rows = bentzolu.sweep(file, "nodes", kind)
            for node in (nodes[0], nodes[5], nodes[11]):
                self.compare(plain, next(row for row in rows if row.failure == (node,)), [], [node])
        both = [edges[0][:2], edges[7][:2]]
        row = bentzolu.sweep(file, [both], "compact")[0]
        self.compare(plain, row, [edges[0], edges[7]], [])
        row = bentzolu.sweep(file, [[nodes[4], edges[0][:2]]], "compact")[0]
        self.compare(plain, row, [edges[0]], [nodes[4]])

    def test_the_whole_network_is_as_stats_has_it(self) -> None:
        for kind in ("shortest", "compact", "tree", "landmark"):
            rows, stats = bentzolu.sweep(NSFNET, [], kind), bentzolu.stats(NSFNET, kind)
            self.assertEqual((rows.intact.intervals, rows.intact.bits, len(rows)), (stats.starts, stats.bits.rows, 0))
            self.assertEqual(rows.intact.worst_stretch, float(stats.worst.stretch))
            self.assertEqual(rows.intact.ring, bool(stats.dependencies))

    def test_order_chunks_and_pairs(self) -> None:
        whole = bare(bentzolu.sweep(NSFNET, kind="compact"))
        self.assertEqual([row.name for row in whole[:2]], ["Seattle-PaloAlto", "Seattle-SanDiego"])
        with concurrent.futures.ThreadPoolExecutor(2) as pool:
            for chunk in (1, 7, None):
                self.assertEqual(bare(bentzolu.sweep(NSFNET, kind="compact", executor=pool, chunk=chunk)), whole)
        some = [row.failure[0] for row in whole[::-3]]
        self.assertEqual([row.failure[0] for row in bentzolu.sweep(NSFNET, some)], some)
        self.assertEqual(len(bentzolu.sweep(TOP / "examples/petersen.adjlist", 2)), 105)

    def test_nodes_of_any_kind(self) -> None:
        graph = networkx.grid_2d_graph(2, 3)
        rows = bentzolu.sweep(graph, [(0, 0), ((0, 0), (0, 1)), [(1, 1), ((0, 0), (0, 1))]])
        self.assertEqual([row.failure for row in rows], [((0, 0),), (((0, 0), (0, 1)),), (((0, 0), (0, 1)), (1, 1))])
        self.assertEqual([row.name for row in rows], ["(0, 0)", "(0, 0)-(0, 1)", "(0, 0)-(0, 1) (1, 1)"])
        self.assertEqual(bentzolu.sweep([("a", "a")], "nodes")[0].parts, 0)
        self.assertEqual(bentzolu.sweep([("a", "b")], "nodes")[0].nodes, 1)
        self.assertEqual(bentzolu.sweep([("a", "b")])[0].disconnected, 2)

    def test_worst_and_tables(self) -> None:
        rows = bentzolu.sweep([*networks()["lollipop"]])
        self.assertTrue(rows.worst()[0].disconnected)
        self.assertEqual(rows.worst("bits", 1)[0].bits, max(row.bits for row in rows if row.bits is not None))
        self.assertIn("<table>", rows._repr_html_())
        with self.assertRaisesRegex(bentzolu.SweepError, "no figure 'badness'"):
            rows.worst("badness")
        with mock.patch.dict(sys.modules, {"pandas": None}), self.assertRaisesRegex(bentzolu.MissingPackageError, "python3-pandas"):
            rows.to_pandas()

    def test_pandas(self) -> None:
        try:
            import pandas
        except ImportError:
            self.skipTest("there is no pandas")
        rows = bentzolu.sweep(NSFNET)
        table = rows.to_pandas()
        self.assertIsInstance(table, pandas.DataFrame)
        self.assertEqual(list(table.bits), [row.bits for row in rows])


@needs_route
@needs_numpy
class FileTest(unittest.TestCase):
    def setUp(self) -> None:
        folder = tempfile.TemporaryDirectory()
        self.addCleanup(folder.cleanup)
        self.path = pathlib.Path(folder.name, "rows.jsonl")
        self.whole = bare(bentzolu.sweep(NSFNET))

    def sweep(self, **how: Any) -> Any:
        return bare(bentzolu.sweep(NSFNET, results=self.path, **how))

    def test_goes_on_behind_a_torn_line(self) -> None:
        self.assertEqual(self.sweep(), self.whole)
        lines = self.path.read_bytes().splitlines(True)
        self.assertEqual(len(lines), 23)
        for kept in (0, 1, 2, 9):
            self.path.write_bytes(b"".join(lines[:kept]) + lines[kept][: len(lines[kept]) // 2])
            with mock.patch.object(sweeping.measuring, "measured", side_effect=measuring.measured) as made:  # type: ignore[attr-defined]
                self.assertEqual(self.sweep(), self.whole)
            self.assertEqual(made.call_count, 21 if kept < 2 else 23 - kept)
            self.assertEqual(len(self.path.read_bytes().splitlines()), 23)
        found = bentzolu.read_sweep(self.path)
        self.assertEqual(bare(found), self.whole)
        self.assertEqual((found.kind, found.intact.bits), ("shortest", 464))

    def test_faults_are_made_again(self) -> None:
        with mock.patch.object(measuring.ByPlans, "row", autospec=True, side_effect=self.refused):
            found = bentzolu.sweep(NSFNET, results=self.path)
        self.assertEqual([len(found.faults), found.faults[0].failure], [1, (("Seattle", "PaloAlto"),)])
        self.assertIn("RouteError", found.faults[0].fault)
        self.assertEqual(self.sweep(), self.whole)
        self.assertEqual(len(self.path.read_bytes().splitlines()), 24)

    row = measuring.ByPlans.row

    @staticmethod
    def refused(maker: Any, failure: Any) -> Any:
        if failure == ((0,), ()):
            raise bentzolu.RouteError(3, "out of memory\n")
        return FileTest.row(maker, failure)

    def test_another_sweeps_file(self) -> None:
        self.sweep()
        before = self.path.read_bytes()
        for how in ({"kind": "compact"}, {"kind": "landmark", "stretch": 150}, {"numbering": "tour"}, {"root": "Houston"}, {"weight": None}):
            with self.assertRaisesRegex(bentzolu.ResultsError, "another sweep.*give another file"):
                self.sweep(**how)  # type: ignore[arg-type]
        self.assertEqual(self.path.read_bytes(), before)
        self.assertEqual(len(bentzolu.sweep(NSFNET, 1, results=self.path)), 21)

    def test_no_file_of_a_sweep(self) -> None:
        for text in ("a b\nb c\n", "no line", '{"failure":[]}\n', "[1]\n"):
            self.path.write_text(text)
            with self.assertRaisesRegex(bentzolu.ResultsError, "give another file"):
                self.sweep()
            self.assertEqual(self.path.read_text(), text)
        with self.assertRaisesRegex(bentzolu.ResultsError, "can't be opened"):
            bentzolu.sweep(NSFNET, results=self.path / "below")

    @unittest.skipUnless(os.path.exists("/dev/full"), "there is no /dev/full")
    def test_a_full_disk(self) -> None:
        with mock.patch("bentzolu.results.Results.begin"), self.assertRaisesRegex(bentzolu.ResultsError, "can't be written: No space") as caught:
            bentzolu.sweep(NSFNET, results="/dev/full")
        self.assertIsNotNone(caught.exception.rows.intact.bits)

    @unittest.skipIf(sys.platform == "win32", "no locks")
    def test_two_sweeps_of_one_file(self) -> None:
        self.sweep()
        with open(self.path, "rb") as file:
            there = os.fstat(file.fileno())
        with mock.patch("bentzolu.results.WRITTEN", {(there.st_dev, there.st_ino)}), self.assertRaisesRegex(bentzolu.ResultsError, "another sweep is writing"):
            self.sweep()
        code = "import fcntl, sys; file = open(sys.argv[1], 'r+b'); fcntl.lockf(file, fcntl.LOCK_EX); print('locked', flush=True); sys.stdin.read()"
        with subprocess.Popen([sys.executable, "-c", code, str(self.path)], stdin=subprocess.PIPE, stdout=subprocess.PIPE) as other:
            other.stdout.readline()  # type: ignore[union-attr]
            with self.assertRaisesRegex(bentzolu.ResultsError, "another sweep is writing"):
                self.sweep()
            other.stdin.close()  # type: ignore[union-attr]
        self.assertEqual(self.sweep(), self.whole)


class Fails(concurrent.futures.Executor):
    """Makes each task here; the first so many that are submitted fail, as tasks do whose worker died."""

    def __init__(self, times: Any, error: Any = OSError("gone")) -> None:
        self.times, self.error = times, error

    def submit(self, work: Any, *given: Any) -> Any:  # type: ignore[override]
        future: Any = concurrent.futures.Future()
        if self.times:
            self.times -= 1
            future.set_exception(self.error)
        else:
            future.set_result(work(*given))
        return future


@needs_route
@needs_numpy
class EngineTest(unittest.TestCase):
    def setUp(self) -> None:
        self.whole = bare(bentzolu.sweep(NSFNET))
        folder = tempfile.TemporaryDirectory()
        self.addCleanup(folder.cleanup)
        self.path = pathlib.Path(folder.name, "rows.jsonl")

    def test_tasks_that_fail_go_again(self) -> None:
        self.assertEqual(bare(bentzolu.sweep(NSFNET, executor=Fails(3), chunk=5)), self.whole)
        with self.assertRaisesRegex(bentzolu.SweepError, "failed 2 times.*OSError: gone") as caught:
            bentzolu.sweep(NSFNET, executor=Fails(100), chunk=20, retries=1)
        self.assertEqual(len(caught.exception.rows), 0)

    def test_an_executor_that_ended(self) -> None:
        broken = concurrent.futures.BrokenExecutor("a worker died")
        with self.assertRaisesRegex(bentzolu.SweepError, "the executor ended.*a worker died.*0 of 21 rows made") as caught:
            bentzolu.sweep(NSFNET, executor=Fails(1, broken), chunk=21)
        self.assertEqual(len(caught.exception.rows), 0)
        with self.assertRaisesRegex(bentzolu.SweepError, "20 of 21 rows made; they are in"):
            bentzolu.sweep(NSFNET, executor=Fails(1, broken), chunk=1, results=self.path)
        self.assertEqual(bare(bentzolu.sweep(NSFNET, results=self.path)), self.whole)
        closed = concurrent.futures.ThreadPoolExecutor(1)
        closed.shutdown()
        with self.assertRaisesRegex(bentzolu.SweepError, "the executor ended"):
            bentzolu.sweep(NSFNET, executor=closed)
        with self.assertRaisesRegex(bentzolu.SweepError, "the executor ended"):
            bentzolu.sweep(NSFNET, executor=lambda: Fails(100, broken), chunk=30)
        made = iter([Fails(1, broken), Fails(1, broken), Fails(0)])
        self.assertEqual(bare(bentzolu.sweep(NSFNET, executor=lambda: next(made), chunk=4)), self.whole)

    def test_a_worker_that_is_killed(self) -> None:
        pools: list[Any] = []

        class Killing(concurrent.futures.ProcessPoolExecutor):
            """Kills one of its own workers at its fifth task, the first time."""

            def submit(self, *given: Any) -> Any:  # type: ignore[override]
                future = super().submit(*given)
                self.count = getattr(self, "count", 0) + 1
                if self.count == 5 and len(pools) == 1:
                    os.kill(next(iter(self._processes)), signal.SIGKILL)
                return future

        def made() -> Any:
            pools.append(Killing(2))
            return pools[-1]

        found = bentzolu.sweep(NSFNET, executor=made, chunk=1, results=self.path)
        self.assertEqual(bare(found), self.whole)
        self.assertEqual(len(pools), 2)
        self.assertEqual(len(bentzolu.read_sweep(self.path)), 21)

    def test_processes(self) -> None:
        with concurrent.futures.ProcessPoolExecutor(2) as pool:
            self.assertEqual(bare(bentzolu.sweep(NSFNET, executor=pool)), self.whole)
            self.assertEqual(bare(bentzolu.sweep(NSFNET, executor=pool, chunk=2)), self.whole)


@needs_route
@needs_numpy
class RefusedTest(unittest.TestCase):
    def refused(self, error: Any, text: Any, *given: Any, **how: Any) -> None:
        with self.assertRaisesRegex(error, text):
            bentzolu.sweep(*given, **how)

    def test_failures(self) -> None:
        error = bentzolu.FailureError
        self.refused(error, r"\('Seattle', 'Houston'\) is not a link.*give the list", NSFNET, [("Seattle", "Houston")])
        self.refused(error, "'Oslo' is not a failure", NSFNET, ["Oslo"])
        self.refused(error, "'Oslo'.*neither a link nor a node", NSFNET, [["Seattle", "Oslo"]])
        for failures in ("edges", 0, 22, True, 2.5, [[]], [3]):
            self.refused(error, r"fail|neither", NSFNET, failures)

    def test_plans(self) -> None:
        error = bentzolu.SweepError
        self.refused(error, "not a kind of plan", NSFNET, kind="fast")
        self.refused(error, "'Oslo' is not a node", NSFNET, root="Oslo")
        self.refused(error, "not a numbering for a sweep", NSFNET, numbering="spiral")
        self.refused(error, "always numbered depth-first", NSFNET, kind="tree", numbering="keep")
        self.refused(error, "always numbered by its landmarks", NSFNET, kind="landmark", numbering="keep")
        self.refused(error, "stretch is of kind landmark alone", NSFNET, kind="compact", stretch=200)
        self.refused(error, "landmarks of 0 is none: give a number from 1 to 65,535", NSFNET, kind="landmark", landmarks=0)
        self.refused(error, "stretch of 301 is none: give a number from 100 to 300", NSFNET, kind="landmark", stretch=301)
        self.refused(error, "each of the 14 nodes once", NSFNET, numbering=["Seattle"])
        self.refused(error, "not a node of the network", NSFNET, numbering=["Oslo"])
        self.refused(error, "give a number of at least 1", NSFNET, chunk=0)
        self.refused(bentzolu.ProgramNotFoundError, "can't be run", NSFNET, program="/no/such/route")
        self.refused(bentzolu.BentzoluError, "2 parts", [("a", "b"), ("c", "d")])

    def test_an_order_and_a_root(self) -> None:
        nodes = bentzolu.sweep(NSFNET, [], numbering="keep")
        order = sorted(bentzolu.plan(NSFNET).nodes)
        rows = bentzolu.sweep(NSFNET, kind="compact", numbering=order)
        self.assertEqual((nodes.numbering, rows.numbering[:6], rows.faults), ("keep", "order ", []))
        self.assertEqual(len(bentzolu.sweep(NSFNET, "nodes", "tree", "Houston").faults), 0)

    def test_no_numpy(self) -> None:
        with mock.patch.dict(sys.modules, {"numpy": None}):
            self.refused(bentzolu.MissingPackageError, "a sweep needs the package numpy.*python3-numpy", NSFNET)

    def test_a_program_that_goes_away(self) -> None:
        with tempfile.TemporaryDirectory() as folder:
            program = pathlib.Path(folder, "route")
            program.write_text(f'#!/bin/sh\n[ -e "$0.used" ] && exit 9\ntouch "$0.used"\nexec {ROUTE} "$@"\n')
            program.chmod(0o700)
            found = bentzolu.sweep(NSFNET, program=program)
        self.assertEqual((len(found.faults), found.intact.bits), (21, 464))
        self.assertIn("status 9", found[0].fault)


@needs_route
@needs_numpy
class WordsTest(unittest.TestCase):
    def run_words(self, *given: Any) -> tuple[Any, Any, Any]:
        said, told = io.StringIO(), io.StringIO()
        with contextlib.redirect_stdout(said), contextlib.redirect_stderr(told):
            status = words.main([*map(str, given)])
        return status, said.getvalue(), told.getvalue()

    def test_sweep(self) -> None:
        with tempfile.TemporaryDirectory() as folder:
            path = pathlib.Path(folder, "rows.jsonl")
            status, said, told = self.run_words("sweep", NSFNET, "--jobs", 2, "--worst", 3, "-o", path)
            self.assertEqual((status, told, len(said.splitlines())), (0, "", 6), said)
            self.assertIn("SaltLakeCity-Boulder", said.splitlines()[2])
            self.assertEqual(json.loads(path.read_text().splitlines()[0])["links"], 21)
            self.assertEqual(self.run_words("sweep", NSFNET, "--worst", 3, "-o", path), (status, said, told))
            status, said, told = self.run_words("sweep", NSFNET, "-o", path, "--kind", "tree")
            self.assertEqual((status, said), (1, ""))
            self.assertRegex(told, "^bentzolu sweep: .* has the rows of another sweep")

    def test_what_is_refused(self) -> None:
        for given, text in (
            (("--failures", "edges"), "give links, nodes, or a number"), (("--jobs", 0), "give a number of at least 1"), (("--root", "Oslo"), "not a node"),
            (("--numbering", "/no/such/order"), "or a readable file"), (("--by", "badness"), "no figure"),
        ):
            status, _, told = self.run_words("sweep", NSFNET, *given)
            self.assertEqual(status, 1)
            self.assertRegex(told, f"^bentzolu sweep: .*{text}")

    def test_no_dask(self) -> None:
        with mock.patch.dict(sys.modules, {"distributed": None}):
            status, _, told = self.run_words("sweep", NSFNET, "--dask", "tcp://127.0.0.1:1")
        self.assertEqual((status, "python3-distributed" in told), (1, True))

    def test_other_formats(self) -> None:
        with tempfile.TemporaryDirectory() as folder:
            path = pathlib.Path(folder, "net.gml")
            networkx.write_gml(networkx.cycle_graph(5), path)
            status, said, _ = self.run_words("sweep", path, "--failures", 2)
            self.assertEqual((status, "10 failures, 10 of which" in said), (0, True), said)


@needs_route
@needs_numpy
class KilledTest(unittest.TestCase):
    def test_a_run_that_is_killed_and_called_again(self) -> None:
        """The rows are those of a run that was not killed."""
        network = TOP / "examples/petersen.adjlist"
        with tempfile.TemporaryDirectory() as folder:
            path = pathlib.Path(folder, "rows.jsonl")
            command = [sys.executable, "-m", "bentzolu", "sweep", str(network), "--failures", "2", "--jobs", "2", "-o", str(path)]
            process = subprocess.Popen(command, env=free_environment(), stdout=subprocess.DEVNULL, stderr=subprocess.DEVNULL)
            self.addCleanup(process.wait)
            self.addCleanup(process.kill)
            end = time.monotonic() + 60
            while process.poll() is None and time.monotonic() < end and not (path.exists() and path.read_bytes().count(b"\n") > 9):
                time.sleep(0.005)
            process.kill()
            process.wait()
            self.assertGreater(path.read_bytes().count(b"\n"), 9)
            self.assertEqual(bare(bentzolu.sweep(network, 2, results=path)), bare(bentzolu.sweep(network, 2)))


def free_environment() -> dict[Any, Any]:
    """The environment in which another process finds this package and the program."""
    return {**os.environ, "PYTHONPATH": str(TOP / "python"), "BENTZOLU_ROUTE": ROUTE or "", "PYTHONDONTWRITEBYTECODE": "1"}


def has(*modules: Any) -> bool:
    """Whether another process can import these."""
    return subprocess.run([sys.executable, "-c", f"import {', '.join(modules)}"], capture_output=True, check=False).returncode == 0


if __name__ == "__main__":
    unittest.main()
