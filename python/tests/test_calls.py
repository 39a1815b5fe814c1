"""What the calls take and give back: paths, lists of edges, sentences, tables for notebooks, and the commands."""
from __future__ import annotations

import contextlib
import io
import pathlib
import random
import tempfile
import time
import unittest
import warnings
from typing import Any

from common import TOP, bentzolu, graphs, needs_route, networkx
from bentzolu import __main__, inside, program
from bentzolu.texts import MOST_SHOWN
from bentzolu.traces import read_verdict

RING = "a b\nb c\nc d\nd a\n"
STEPS = [("inject", "a", "d"), ("install", "shortest", "a"), ("learn", 2), ("inject", "a", "d"), ("drain",)]


class Folder(unittest.TestCase):
    def setUp(self) -> None:
        folder = tempfile.TemporaryDirectory()
        self.addCleanup(folder.cleanup)
        self.folder = pathlib.Path(folder.name)

    def file(self, name: Any, text: Any) -> Any:
        path = self.folder / name
        path.write_text(text, encoding="utf-8")
        return path


@needs_route
class SourcesTest(Folder):
    """Graphs of NetworkX, lists of edges and files are one network."""

    def test_lists_of_edges(self) -> None:
        for _, graph in graphs():
            edges = [(u, v, data.get("weight", 1)) for u, v, data in graph.edges(data=True)]
            if edges:
                again = networkx.Graph()
                again.add_weighted_edges_from(edges)
                self.assertEqual(bentzolu.plan(edges, "compact"), bentzolu.plan(again, "compact"))

    def test_files(self) -> None:
        ring = self.file("ring.adjlist", RING)
        plan = bentzolu.plan(ring)
        self.assertEqual(plan.labels, {"a": 0, "b": 1, "c": 2, "d": 3})
        for given in (ring, str(ring), self.file("ring.txt", RING), self.file("ring.edgelist", "a b 1\nb c 1\nc d 1.0\nd a 1\n"),
                      self.file("ring.dot", "graph { a -- b -- c -- d -- a }"), self.file("ring.csv", "a,b\nb,c\nc,d\nd,a\n")):
            self.assertEqual(bentzolu.plan(given), plan)
            self.assertEqual(bentzolu.walk(given, "a", "c").path, plan.path("a", "c"))
            self.assertEqual(bentzolu.stats(given, root="b").greatest_row[0], "a")
            self.assertEqual(bentzolu.simulate(given, STEPS, "tree").packets[0].hops, ["a", "b", "c", "d"])
            self.assertTrue(bentzolu.names_of(given).name("a") == "a")
        self.assertEqual(bentzolu.plan(TOP / "examples/nsfnet.edgelist").labels["Seattle"], 0)

    def test_files_with_tuples_and_attributes(self) -> None:
        graph = networkx.grid_2d_graph(3, 3)
        for i, (u, v) in enumerate(graph.edges):
            graph[u][v]["weight"] = i + 1
        plan = bentzolu.plan(graph, "compact", (1, 1), weight=None)
        networkx.write_adjlist(graph, self.folder / "grid.adjlist")
        self.assertEqual(bentzolu.plan(self.folder / "grid.adjlist", "compact", (1, 1)).path((0, 0), (2, 2))[0], (0, 0))
        for name, write in [("grid.edges", networkx.write_edgelist), ("grid.lines", networkx.write_multiline_adjlist)]:
            write(graph, self.folder / name)
            got = bentzolu.stats(self.folder / name, "compact", (1, 1))
            self.assertEqual((got.links, got.distances), (12, bentzolu.stats(graph).distances))
            self.assertEqual(bentzolu.plan(self.folder / name, "compact", (1, 1), weight=None).labels, plan.labels)
            self.assertEqual(bentzolu.stats(self.folder / name, weight=None).distances, bentzolu.stats(graph, weight=None).distances)

    def test_weights_of_files(self) -> None:
        path = self.file("x.edgelist", "a b 7\nb c 2\n")
        self.assertEqual([bentzolu.walk(path, "a", "c", weight=weight).weight for weight in ("weight", None)], [9, 2])

    def test_scripts_and_traces_in_files(self) -> None:
        edges = [("a", "b"), ("b", "c"), ("c", "d"), ("d", "a")]
        script = self.file("x.script", "inject a d\nretire 1\ndrain\n")
        run = bentzolu.simulate(edges, script)
        self.assertEqual((run.packets[0].hops, run.refused[0].step, run.refused[0].kind), (["a", "d"], "retire 1", "Same"))
        self.assertEqual(bentzolu.check(edges, script, self.file("x.trace", run.trace)).rows, 1)

    def test_no_file(self) -> None:
        for call in (lambda: bentzolu.plan("nothing.edgelist"), lambda: bentzolu.simulate([("a", "b")], self.folder / "nothing"),
                     lambda: bentzolu.check([("a", "b")], [], self.folder / "nothing"), lambda: bentzolu.plan(self.folder)):
            with self.assertRaises(OSError):
                call()  # type: ignore[no-untyped-call]

    def test_nodes_of_a_file_are_strings(self) -> None:
        path = self.file("x.adjlist", "1 2\n")
        self.assertEqual(bentzolu.walk(path, "1", "2").path, ["1", "2"])
        for call in (lambda: bentzolu.walk(path, 1, 2), lambda: bentzolu.plan(path, root=1), lambda: bentzolu.simulate(path, [("inject", 1, 2)])):
            with self.assertRaisesRegex(bentzolu.UnknownNodeError, "strings, but 1 is not a string"):
                call()  # type: ignore[no-untyped-call]

    def test_names_that_look_like_options(self) -> None:
        path = self.file("-x.adjlist", "-a --kind\n--kind b\n")
        self.assertEqual(bentzolu.walk(path, "-a", "b", root="--kind").path, ["-a", "--kind", "b"])

    def test_warnings(self) -> None:
        with self.assertWarnsRegex(bentzolu.TopologyWarning, "each line has three words and ends in a number") as caught:
            bentzolu.plan(self.file("x.txt", "a b 1\nb c 2\n"))
        self.assertEqual(caught.filename, __file__)
        with self.assertWarnsRegex(bentzolu.TopologyWarning, "x.csv: csv: weights are multiplied by 2, exactly") as caught:
            bentzolu.simulate(self.file("x.csv", "a,b,1.5\nb,c,2\n"), [])
        self.assertEqual(caught.filename, __file__)
        with warnings.catch_warnings():
            warnings.simplefilter("error")
            for call in (bentzolu.plan, bentzolu.stats, bentzolu.draw, bentzolu.names_of, lambda given: bentzolu.live(given, [("drain",)])):
                call([("a", '"b'), ('"b', "c")])
                call(self.file("x.adjlist", RING))


@needs_route
class SentencesTest(unittest.TestCase):
    """Each refusal says why, with the graph's own nodes."""

    def fault(self, call: Any, *parts: Any) -> Any:
        with self.assertRaises(bentzolu.RouteError) as caught:
            call()
        for part in parts:
            self.assertIn(part, str(caught.exception))
        self.assertNotIn("bentzolu-", str(caught.exception))
        return caught.exception

    def test_graphs(self) -> None:
        apart = networkx.Graph([((0, 0), "New York"), (2, 3)])
        error = self.fault(lambda: bentzolu.plan(apart), "opening Disconnected: (0, 0) has no path to 2: the network has 2 parts")
        self.assertEqual((error.kind, error.text), ("Disconnected", "opening Disconnected\n"))
        self.assertEqual(error.sentence, "(0, 0) has no path to 2: the network has 2 parts, the largest of 2 nodes")
        self.fault(lambda: bentzolu.plan(networkx.Graph()), "opening Empty: no nodes")
        great = networkx.path_graph(1025)
        self.fault(lambda: bentzolu.simulate(great, []), "opening TooLarge: 1025 nodes; networks where packets travel have at most 1024")

    def test_scripts(self) -> None:
        ring = networkx.cycle_graph(4)
        error = self.fault(lambda: bentzolu.simulate(ring, [("inject", 0, 2), ("down", 0, 2)]), "script 2 UnknownLink (down 0 2): ", "0", "2")
        self.assertEqual((error.line, error.content), (2, "down 0 2"))
        self.fault(lambda: bentzolu.live(ring, "drain\nfly 0\n"), "script 2 BadCommand (fly 0): unknown command 'fly'")
        self.fault(lambda: bentzolu.live(ring, [("act", 0)]), "'act' is a command of 'sim' only")

    def test_files(self) -> None:
        with tempfile.NamedTemporaryFile("w", suffix=".edgelist") as file:
            file.write("a b 1\nb c 0\n")
            file.flush()
            self.fault(lambda: bentzolu.stats(file.name), "topology 2 BadWeight: ", f"{file.name}:2: ")
            self.fault(lambda: bentzolu.stats([("a", "b")], words=("--numbering", file.name)), "numbering 1 BadRow: ", file.name)

    def test_no_sentence_is_wanted(self) -> None:
        error = self.fault(lambda: bentzolu.plan(networkx.Graph(), words=("--no-explain",)), "opening Empty")
        self.assertIsNone(error.sentence)
        self.fault(lambda: bentzolu.plan(networkx.Graph(), words=("--explain",)), "opening Empty: no nodes")

    def test_words_that_are_not_understood(self) -> None:
        error = self.fault(lambda: bentzolu.plan([(1, 2)], words=("--frob",)), "--frob", "Usage")
        self.assertEqual((error.status, error.kind), (2, "usage"))

    def test_refused_steps(self) -> None:
        run = bentzolu.simulate(networkx.cycle_graph(4), [("inject", 0, 2), ("up", 0, 1), ("retire", 9), ("drain",)])
        self.assertEqual([(it.line, it.kind) for it in run.refused], [(2, "Same"), (3, "NoEpoch")])
        self.assertEqual(run.refused[0].sentence, "it changes nothing")
        self.assertTrue(all(it.sentence for it in run.refused))

    def test_findings(self) -> None:
        ring = networkx.cycle_graph(4)
        run = bentzolu.simulate(ring, [("inject", 0, 2), ("drain",)])
        verdict = bentzolu.check(ring, [("inject", 0, 2)], run.trace.replace(" 2 delivered", " 9 delivered"))
        self.assertEqual((verdict.ok, verdict.line, verdict.kind), (False, 2, "BadWeight"))
        self.assertIn("9", verdict.sentence)
        self.assertNotIn("bentzolu-", verdict.sentence)
        self.assertIsNone(bentzolu.check(ring, [], run).sentence)


@needs_route
class PrefixesTest(unittest.TestCase):
    def test_ways(self) -> None:
        for name, graph in graphs():
            nodes, chance = list(graph), random.Random(7)
            for kind in ("shortest", "tree"):
                plan = bentzolu.plan(graph, kind)
                for disjoint in (False, True):
                    with self.subTest((name, kind, disjoint)):
                        found = bentzolu.prefixes(graph, kind, disjoint=disjoint)
                        self.assertEqual((found.kind, found.labels, set(found.nodes)), (kind, plan.labels, set(nodes)))
                        for source, target in [(chance.choice(nodes), chance.choice(nodes)) for _ in range(8)]:
                            self.assertEqual(found.path(source, target), plan.path(source, target))

    def test_disjoint(self) -> None:
        found = bentzolu.prefixes(networkx.petersen_graph(), disjoint=True)
        for node in found.nodes.values():
            for label in set(range(10)) - {node.label}:
                self.assertEqual(sum(label in it for it in node.prefixes), 1)

    def test_entries_without_a_neighbour(self) -> None:
        found = bentzolu.prefixes([("a", "b"), ("b", "c")], "tree", "b")
        self.assertEqual(found.nodes["c"].prefixes, (bentzolu.Prefix(2, 1, 2, None), bentzolu.Prefix(0, 0, 2, "b")))
        self.assertIsNone(found.nodes["c"].to(3))
        self.assertEqual((found.bits, found.prefixes), (2, 5))


@needs_route
class FiguresTest(unittest.TestCase):
    def test_nodes_of_figures(self) -> None:
        graph = networkx.grid_2d_graph(4, 4)
        for kind in ("shortest", "compact", "tree", "landmark"):
            stats = bentzolu.stats(graph, kind)
            plan = bentzolu.plan(graph, kind)
            self.assertEqual((stats.further, stats.landmarks is None, stats.most_stretch), ({}, kind != "landmark", 300 if kind == "landmark" else None))
            port = stats.compactness
            self.assertEqual(sum(it.to == port.to for it in plan.nodes[port.node].intervals), port.intervals)
            self.assertEqual(port.intervals, max(max(map(len, it.by_neighbour().values())) for it in plan.nodes.values()))
            row = {node: (len(it), (graph.degree(node) - 1).bit_length()) for node, it in plan.nodes.items()}
            self.assertEqual(stats.bits, (sum(count * (4 + ports) for count, ports in row.values()), 15 * sum(ports for _, ports in row.values())))
            ring = stats.dependencies
            self.assertTrue(all(graph.has_edge(u, v) for u, v in zip(ring, ring[1:] + ring[:1])))
            self.assertTrue(kind in ("shortest", "landmark") or (ring == ()) == (kind == "tree"))
        self.assertEqual((bentzolu.stats([(1, 1)]).compactness, bentzolu.stats([(1, 1)]).worst), (None, None))


class TablesTest(unittest.TestCase):
    """Representations and tables of what was read, without the program."""

    def look_at_table(self, made: Any, *parts: Any) -> None:
        text = made._repr_html_()
        self.assertEqual((text[:7], text[-8:], text.count("<tr>"), text.count("<table>")), ("<table>", "</table>", text.count("</tr>"), 1))
        for part in parts:
            self.assertIn(part, text)

    def test_plans(self) -> None:
        plan = bentzolu.read_plan("plan shortest 4 8\na 0 1 b 3 d\n<b> 1 2 c 3 a\nd 3 0 a 2 c\nc 2 0 b 3 d\n".replace(" b", " <b>"))
        self.assertEqual(repr(plan), "<Plan shortest of 4 nodes: 8 intervals>")
        self.assertEqual(repr(plan.nodes["a"]), "<NodePlan 'a': label 0; [1,3) to '<b>', [3,1) to 'd'>")
        self.look_at_table(plan, "&lt;b&gt;", "[1,3) → &lt;b&gt; [3,1) → d")
        self.assertEqual((len(plan.nodes["a"]), bool(plan.nodes["a"]), plan.nodes["a"].starts), (2, True, (1, 3)))
        same = bentzolu.NodePlan("a", 0, plan.nodes["a"].intervals)
        self.assertEqual((same, hash(same)), (plan.nodes["a"], hash(plan.nodes["a"])))
        self.assertNotEqual(same, bentzolu.NodePlan("a", 0))
        self.assertNotEqual(same, 7)
        self.assertEqual([same.to(label) for label in range(4)], ["d", "<b>", "<b>", "d"])
        self.assertIsNone(bentzolu.NodePlan("a", 0).to(0))
        self.assertEqual(repr(bentzolu.NodePlan("a", 0)), "<NodePlan 'a': label 0; no interval>")
        for source, target in (("a", "z"), ("z", "a"), ([], "a")):
            with self.assertRaises(bentzolu.UnknownNodeError):
                plan.path(source, target)

    def test_great_plans(self) -> None:
        count = 20_000
        nodes = [f"n{i}" for i in range(100)]
        row = " ".join(f"{i} n{i % 99}" for i in range(count // 100))
        plan = bentzolu.read_plan(f"plan shortest 100 {count}\n" + "".join(f"{node} {i} {row}\n" for i, node in enumerate(nodes)))
        self.look_at_table(plan, "and 60 more", ".. and")
        self.assertIn(f"{count // 100 - MOST_SHOWN} more", repr(plan.nodes["n0"]))

    def test_a_great_plan_is_read_at_the_pace_of_its_numbers(self) -> None:
        """Reading a plan takes no more than 1.5 times what it takes to read its numbers alone, on a busy machine too."""
        count, degree = 2000, 4
        row = " ".join(f"{2 * i} n{i % degree}" for i in range(600))
        text = f"plan shortest {count} {600 * count}\n" + "".join(f"n{i} {i} {row}\n" for i in range(count))
        names = bentzolu.Names([f"n{i}" for i in range(count)])
        paces = []
        for _ in range(3):
            begun = time.process_time()
            plan = bentzolu.read_plan(text, names)
            took = time.process_time() - begun
            self.assertEqual(plan.intervals, 600 * count)
            begun = time.process_time()
            numbers = [int(word) for line in text.splitlines()[1:] for word in line.split()[2::2]]
            paces.append(took / (time.process_time() - begun))
            self.assertEqual(len(numbers), 600 * count)
        self.assertLess(min(paces), 1.5)

    def test_faulty_rows(self) -> None:
        for row in ("1 b 2", "x b", "1 b  d", "-1 b", "1.0 b", "² b"):
            with self.subTest(row), self.assertRaises(bentzolu.FormatError):
                bentzolu.read_plan(f"plan tree 1 1\na 0 {row}\n")
        with self.assertRaises(bentzolu.UnknownNodeError):
            bentzolu.read_plan("plan tree 1 1\na 0 0 z\n", bentzolu.Names(["a"]))

    def test_walks(self) -> None:
        walk = bentzolu.read_walk("walk shortest d f 5 2\nd 2 3 3 b 1\nb 1 4 2 f 1\nf 5\n")
        self.assertEqual(repr(walk), "<Walk shortest: 'd' 'b' 'f', weight 2>")
        self.look_at_table(walk, "Walk shortest to label 5, weight 2", "<td>[3,3)</td>")
        long = bentzolu.Walk("tree", 0, 99, 99, 99, tuple(bentzolu.WalkStep(i, i) for i in range(100)))
        self.assertEqual(repr(long).count(" "), 20)

    def test_runs(self) -> None:
        trace = "trace 2\n0 u t 13 delivered #1 u p q #2 q u p t\n1 u t 1 down p q #1 u p\n"
        version, packets = bentzolu.read_trace(trace)
        run = bentzolu.Run(version, packets, (bentzolu.Refused(3, "Same"),), trace)
        self.assertEqual(repr(run), "<Run of 2 packets: 1 delivered, 1 down; 1 step refused>")
        self.assertEqual(repr(bentzolu.Run(1, (), (), "trace 1\n")), "<Run of 0 packets: none>")
        self.look_at_table(run, "epoch 1: u p q; epoch 2: q u p t", "down p q")

    def test_figures(self) -> None:
        stats = bentzolu.read_stats(
            "stats tree 6\nlinks 7\nstarts 10\nentries 30\ngreatest-row q 4\nwalks 264\ndistances 64\nworst p t 18 1\ncompactness u p 1\n"
            "bits 48 35\ndependencies acyclic\n"
        )
        self.look_at_table(stats, "<td>48</td>", "264 / 64 = 4.125", "<td>none</td>")
        self.assertEqual(stats.dependencies, ())
        of_landmarks = bentzolu.read_stats(
            "stats landmark 3\nlinks 3\nstarts 4\nentries 6\ngreatest-row a 2\nwalks 8\ndistances 6\nlandmarks a c\nstretch 200\n"
        )
        self.assertEqual((of_landmarks.landmarks, of_landmarks.most_stretch), (("a", "c"), 200))
        self.look_at_table(of_landmarks, "<td>a c</td>", "200 percent")
        for bad in ("bits 1", "stretch", "stretch wide", "dependencies maybe", "greatest-row q", "worst a b 1 x", "links many"):
            with self.subTest(bad), self.assertRaises(bentzolu.FormatError):
                bentzolu.read_stats(f"stats tree 1\nlinks 0\nstarts 0\nentries 0\ngreatest-row a 0\nwalks 0\ndistances 0\n{bad}\n")

    def test_prefixes(self) -> None:
        found = bentzolu.read_prefixes("prefixes tree 3 2 5\na 1 0/0 b\nb 0 2/1 c 0/0 a\nc 2 2/1 # 0/0 b\n")
        self.assertEqual(repr(found), "<Prefixes tree of 3 nodes: 5 prefixes of at most 2 bits>")
        self.look_at_table(found, "2/1 → dropped 0/0 → b")
        self.assertEqual((found.path("a", "c"), found.labels), (["a", "b", "c"], {"a": 1, "b": 0, "c": 2}))
        prefix = found.nodes["b"].prefixes[0]
        self.assertEqual([label in prefix for label in range(6)], [False, False, True, True, False, False])
        for bad in ("prefixes tree 1 0 1\na 0\n", "prefixes tree 1 0\n", "prefixes tree 1 1 1\na 0 0/0\n", "prefixes tree 1 1 1\na 0 0 b\n", "prefixes x 1 1 1\na 0 0/x b\n"):
            with self.subTest(bad), self.assertRaises(bentzolu.FormatError):
                bentzolu.read_prefixes(bad)
        with self.assertRaisesRegex(bentzolu.FormatError, "no node '-'"):
            bentzolu.read_prefixes("prefixes tree 3 2 5\na 1 0/0 b\nb 0 2/1 c 0/0 a\nc 2 2/1 - 0/0 b\n")
        dash = bentzolu.read_prefixes("prefixes tree 3 2 5\n- 1 0/0 b\nb 0 2/1 c 0/0 -\nc 2 2/1 # 0/0 b\n")
        self.assertEqual((dash.path("c", "-"), dash.nodes["c"].to(3)), (["c", "b", "-"], None))

    def test_names(self) -> None:
        names = bentzolu.Names([0, (0, 1), "b"])
        self.assertEqual(repr(names), "<Names of 3 nodes: 0: '0', (0, 1): '(0,1)', 'b': 'b'>")
        self.assertEqual(str(names), '0\t0\n(0,1)\t"(0, 1)"\nb\t"b"')
        self.assertLess(len(repr(bentzolu.Names(range(5000)))), 300)

    def test_verdicts(self) -> None:
        self.assertEqual(read_verdict("finding 2 BadRow\n", "why").sentence, "why")

    def test_each_call_says_what_it_takes(self) -> None:
        for name in ("plan", "walk", "stats", "prefixes", "draw", "simulate", "live", "check", "names_of"):
            self.assertIn("Parameters\n", getattr(bentzolu, name).__doc__, name)
        for name in bentzolu.__all__:
            self.assertTrue(getattr(bentzolu, name).__doc__, name)


class CommandsTest(Folder):
    def call(self, *words: Any) -> tuple[Any, Any, Any]:
        output, faults = io.StringIO(), io.StringIO()
        with contextlib.redirect_stdout(output), contextlib.redirect_stderr(faults):
            try:
                status = __main__.main(list(map(str, words)))
            except SystemExit as ended:
                status = ended.code  # type: ignore[assignment]
        return status, output.getvalue(), faults.getvalue()

    def test_version(self) -> None:
        status, output, _ = self.call("--version")
        wanted = (0, f"bentzolu {bentzolu.__version__}", 3 if inside.library() else 2)
        self.assertEqual((status, output.splitlines()[0], len(output.splitlines())), wanted)

    def test_help(self) -> None:
        status, output, _ = self.call("--help")
        self.assertEqual(status, 0)
        for name, _, _ in __main__.COMMANDS:
            self.assertIn(name, output)
            self.assertEqual(self.call(name, "--help")[0], 0)
        self.assertEqual(self.call()[0], 2)
        self.assertEqual(self.call("fly")[0], 2)

    @needs_route
    def test_plan_and_stats(self) -> None:
        file, out = self.file("x.csv", "a b,c,1.5\nc,d,2\n"), self.folder / "out"
        status, output, faults = self.call("plan", file, "--kind", "tree", "--root", "c")
        self.assertEqual((status, output), (0, "plan tree 3 4\na_b 1 2 c\nc 0 1 a_b 2 d\nd 2 0 c\n"))
        self.assertEqual(faults, "bentzolu plan: x.csv: csv: weights are multiplied by 2, exactly\n")
        self.assertEqual(self.call("stats", file, "--weight", "1", "-o", out)[:2], (0, ""))
        self.assertEqual(bentzolu.read_stats(out.read_text()).distances, 8)
        output, faults = program.run(["plan"], [("topology", RING)])
        self.assertEqual((self.call("plan", self.file("x.adjlist", RING))[1], faults), (output, ""))
        order = self.file("order", "c\na\nb\nd\n")
        self.assertIn("\nc 0 ", self.call("plan", self.folder / "x.adjlist", "--numbering", order)[1])
        self.assertIn("bentzolu stats: ", self.call("stats", self.file("x.txt", "a b 1\nb c 1\n"))[2])

    @needs_route
    def test_refusals(self) -> None:
        for words, said in [
            (("plan", self.file("x.csv", "a,b\nc,d\n")), "--largest"), (("plan", self.file("x.adjlist", "a b\nc d\n")), "opening Disconnected: "),
            (("stats", self.folder / "nothing"), "nothing"), (("plan", self.folder / "x.adjlist", "--root", "z"), "no node 'z'"),
        ]:
            status, output, faults = self.call(*words)
            self.assertEqual((status, output), (1, ""))
            self.assertTrue(faults.startswith(f"bentzolu {words[0]}: "))
            self.assertIn(said, faults)
        self.assertEqual(self.call("plan", self.folder / "x.csv", "--largest")[0], 0)


if __name__ == "__main__":
    unittest.main()
