"""The library in this process: when it is taken, and that it answers as the program does; plans as arrays, and many plans."""
from __future__ import annotations

import os
import pathlib
import sys
import tempfile
import types
import unittest
from typing import Any, Iterator
from unittest import mock

from common import ROUTE, bentzolu, graphs, needs_networkx, needs_route, networkx
from bentzolu import inside, program

NAMED = os.environ.get(inside.VARIABLE)
needs_library = unittest.skipUnless(NAMED, f"{inside.VARIABLE} names no library")
PLAN = "plan shortest 3 4\na 0 1 b\nb 1 2 c 0 a\nc 2 0 b\n"


class ChoiceTest(unittest.TestCase):
    def chosen(self, environment: Any, program: Any = None, timeout: Any = None) -> Any:
        with mock.patch.dict(os.environ, environment):
            for name in (inside.VARIABLE, "BENTZOLU_ROUTE"):
                if name not in environment:
                    os.environ.pop(name, None)
            return inside.is_chosen(program, timeout)

    def test_what_asks_for_the_program_gets_it(self) -> None:
        self.assertTrue(self.chosen({}))
        self.assertFalse(self.chosen({}, program="route"))
        self.assertFalse(self.chosen({}, timeout=5))
        self.assertFalse(self.chosen({"BENTZOLU_ROUTE": "route"}))
        self.assertTrue(self.chosen({"BENTZOLU_ROUTE": "route", inside.VARIABLE: "library"}))
        self.assertFalse(self.chosen({inside.VARIABLE: "library"}, program="route"))

    def test_words_that_are_the_programs(self) -> None:
        takes = inside.takes
        self.assertTrue(takes(["plan", "--explain", "--kind", "tree"], [("topology", "a b\n")]))
        self.assertTrue(takes(["plan", "--numbering", "tour"], [("topology", pathlib.Path("net.adjlist"))]))
        self.assertTrue(takes(["sim", "--numbering=depth-first"], []))
        for words in (["live"], ["plan", "--help"], ["sim", "-V"], ["plan", "--numbering", "order", "-ntour"],
                      ["plan", "--numbering", "-"], ["plan", "--root=a\nb"], ["--version"]):
            self.assertFalse(takes(words, [("topology", "a b\n")]), words)
        self.assertFalse(takes(["plan"], [("topology", pathlib.Path("-"))]))

    def test_an_order_of_nodes_in_a_file(self) -> None:
        texts = [("topology", "a b\n")]
        for words in (["plan", "--numbering", "order"], ["stats", "--numbering=order"], ["plan", "-n", "order"], ["plan", "-norder"]):
            self.assertEqual(inside.order_of(words), "order")
            self.assertTrue(inside.takes(words, texts), words)
        self.assertFalse(inside.takes(["sim", "--numbering", "order"], [*texts, ("script", "drain\n")]))
        self.assertIsNone(inside.order_of(["plan", "-n", "tour"]))

    def test_an_order_is_the_text_after_the_topology(self) -> None:
        given = []
        library = types.SimpleNamespace(answer=lambda words, texts: given.append((words, texts)) or (0, b"", b""))  # type: ignore[func-returns-value]
        with tempfile.TemporaryDirectory() as folder, mock.patch.object(inside, "library", lambda: library):
            file = pathlib.Path(folder, "order")
            file.write_text("b\na\n")
            words = ["plan", "--numbering", str(file)]
            self.assertEqual(inside.answered(words, [("topology", "a b\n")], {}), (0, b"", b""))
            self.assertIsNone(inside.answered(["plan", "-n", f"{file}.not"], [("topology", "a b\n")], {}))
        self.assertEqual(given, [([*words, "--", "/bentzolu/topology"], [b"a b\n", b"b\na\n"])])

    def test_no_library(self) -> None:
        with mock.patch.dict(os.environ, {inside.VARIABLE: ""}):
            self.assertIsNone(inside.library())
            self.assertIsNone(inside.answered(["plan"], [("topology", "a b\n")], {}))
        with mock.patch.dict(os.environ, {inside.VARIABLE: "/no/such/library.so"}):
            with self.assertRaisesRegex(bentzolu.ProgramNotFoundError, "/no/such/library.so"):
                inside.library()


class ArraysTest(unittest.TestCase):
    def check(self, found: Any) -> None:
        self.assertEqual(list(found.starts), [1, 2, 0, 0])
        self.assertEqual(list(found.ports), [1, 2, 0, 1])
        self.assertEqual(list(found.rows), [0, 1, 3, 4])

    def test_a_plan_as_arrays(self) -> None:
        with mock.patch.dict(sys.modules, {"numpy": None}):
            found = bentzolu.read_plan(PLAN)
            self.check(found)
            self.assertEqual(found.starts.typecode, "q")
        self.assertEqual(found, bentzolu.read_plan(PLAN))

    def test_of_numpy_where_it_is_there(self) -> None:
        numpy = types.ModuleType("numpy")
        numpy.int64, numpy.array = "int64", lambda numbers, dtype: ("made by numpy", dtype, *numbers)  # type: ignore[attr-defined]
        with mock.patch.dict(sys.modules, {"numpy": numpy}):
            self.assertEqual(bentzolu.read_plan(PLAN).rows, ("made by numpy", "int64", 0, 1, 3, 4))


@needs_route
class ManyTest(unittest.TestCase):
    def test_many_plans(self) -> None:
        all_graphs = [graph for _, graph in graphs()]
        found = bentzolu.compile_many(all_graphs, "compact", jobs=3)
        self.assertEqual(found, [bentzolu.plan(graph, "compact") for graph in all_graphs])

    def test_progress(self) -> None:
        seen, tqdm = [], types.ModuleType("tqdm")

        def shown(plans: Any, unit: Any) -> Iterator[Any]:
            for it in plans:
                seen.append(unit)
                yield it

        tqdm.tqdm = shown  # type: ignore[attr-defined]
        two = [networkx.path_graph(3), networkx.path_graph(4)]
        with mock.patch.dict(sys.modules, {"tqdm": tqdm}):
            found = bentzolu.compile_many(two, progress=True)
        self.assertEqual((len(found), seen), (2, ["plan", "plan"]))
        with mock.patch.dict(sys.modules, {"tqdm": None}):
            self.assertEqual(bentzolu.compile_many(two, progress=True), found)

    def test_a_graph_that_is_refused(self) -> None:
        with self.assertRaisesRegex(bentzolu.RouteError, "Disconnected"):
            bentzolu.compile_many([networkx.path_graph(3), networkx.empty_graph(2), networkx.path_graph(3)])


@needs_library
@needs_networkx
class LibraryTest(unittest.TestCase):
    def test_no_program_is_started(self) -> None:
        with mock.patch.object(program, "started", side_effect=AssertionError):
            found = bentzolu.plan(networkx.petersen_graph(), "tree", 3)
            self.assertEqual((found.labels[3], found.intervals), (0, 18))
            self.assertEqual(len(bentzolu.compile_many([networkx.path_graph(3)] * 40, jobs=4)), 40)

    def test_an_answer_longer_than_the_room(self) -> None:
        library = inside.Library(NAMED)  # type: ignore[arg-type]
        words, given = ["plan", "net"], ["".join(f"n{i} n{i + 1}\n" for i in range(400)).encode()]
        whole = library.answer(words, given)
        with mock.patch.object(inside, "FIRST_ROOM", 16), mock.patch.object(inside, "FAULT_ROOM", 2):
            library = inside.Library(NAMED)  # type: ignore[arg-type]
            self.assertEqual(library.answer(words, given), whole)
            self.assertEqual(library.answer(words, [b"a"] )[0], 0)
            self.assertEqual(library.answer(words, [b"a b\nc d\n"]), (1, b"", b"opening Disconnected\n"))


@needs_library
@needs_route
class SameAnswersTest(unittest.TestCase):
    def told(self, call: Any, *words: Any, **options: Any) -> Any:
        """What a call answers, or what it raises."""
        try:
            found = call(*words, **options)
            return getattr(found, "trace", None), found
        except bentzolu.RouteError as error:
            return error.status, error.text, error.about, error.line, error.kind, error.content, error.sentence, str(error)

    def same(self, call: Any, *words: Any, **options: Any) -> Any:
        with mock.patch.object(program, "started", side_effect=AssertionError):
            own = self.told(call, *words, **options)
        self.assertEqual(own, self.told(call, *words, program=ROUTE, **options))
        return own

    def test_graphs(self) -> None:
        for name, graph in graphs():
            nodes = list(graph)
            steps = [("inject", nodes[0], nodes[-1]), ("install", "compact", nodes[-1]), ("retire", 7), ("drain",)]
            with self.subTest(name):
                for kind in ("shortest", "compact", "tree", "landmark"):
                    for call in (bentzolu.plan, bentzolu.stats, bentzolu.prefixes, bentzolu.ranges, bentzolu.draw):
                        self.same(call, graph, kind, nodes[-1])
                self.same(bentzolu.walk, graph, nodes[0], nodes[-1])
                _, run = self.same(bentzolu.simulate, graph, steps, capacity=2, restamps=1)
                self.same(bentzolu.check, graph, steps, run)
                self.same(bentzolu.check, graph, steps, run.trace.replace(" 1 ", " 2 ", 1))

    def test_faults(self) -> None:
        path = networkx.path_graph(3)
        self.same(bentzolu.plan, networkx.empty_graph(3))
        self.same(bentzolu.plan, path, "fastest")
        self.same(bentzolu.plan, path, words=("--numbering", "tour"))
        self.same(bentzolu.plan, path, "tree", words=("--numbering", "tour"))
        with tempfile.TemporaryDirectory() as folder:
            for order in ("2\n0\n1\n", "0\n1\n", "0\n0\n1\n", "0\n1\n3\n", ""):
                file = pathlib.Path(folder, "order")
                file.write_text(order)
                for kind in ("compact", "tree"):
                    self.same(bentzolu.plan, path, kind, words=("--numbering", str(file)))
                self.same(bentzolu.stats, path, words=(f"--numbering={file}",))
        self.same(bentzolu.simulate, path, "inject 0 9\n")
        self.same(bentzolu.simulate, path, "inject 0\n")
        self.same(bentzolu.check, path, [], "trace 1\n0 0 1\n")

    def test_files(self) -> None:
        with tempfile.TemporaryDirectory() as folder:
            for name, text in (("net.adjlist", "a b\nb c\n"), ("net.edgelist", "a b 3\nb c x\n"), ("none.adjlist", "# nothing\n"), ("net.wel", "a b 1\n")):
                file = pathlib.Path(folder, name)
                file.write_text(text)
                with self.subTest(name):
                    self.same(bentzolu.plan, file)


if __name__ == "__main__":
    unittest.main()
