"""What `route` prints becomes data: the worked examples of the program, and a program of the test that prints and ends as it is told."""
from __future__ import annotations

import os
import pathlib
import stat
import sys
import tempfile
import unittest
from fractions import Fraction
from typing import Any

from common import bentzolu, cases, needs_networkx, networkx
from bentzolu.errors import fault_of
from bentzolu.traces import read_verdict

PLAN = "plan tree 14 26\nSeattle 2 0 SanDiego 3 PaloAlto\n"
RUN = """trace 2
0 u t 13 delivered #1 u p q #2 q u p t
1 u t 1 down p q #1 u p
2 u t 0 left #3 u
"""


class OutputsTest(unittest.TestCase):
    def test_worked_examples(self) -> None:
        seen: dict[Any, Any] = {}
        for case in cases():
            sub, text = case["words"][0], case["stdout"]
            with self.subTest(case["name"]):
                if {"--order", "--json", "--steps"} & {*case["words"]}:
                    continue
                if sub == "plan" and text:
                    plan = bentzolu.read_plan(text)
                    self.assertEqual(sorted(plan.labels.values()), list(range(len(plan.nodes))))
                    for source in list(plan.nodes)[:40]:
                        for target in list(plan.nodes)[:40]:
                            self.assertEqual(plan.path(source, target)[-1], target)
                elif sub == "walk" and text:
                    walk = bentzolu.read_walk(text)
                    self.assertEqual((walk.path[0], walk.path[-1]), (walk.source, walk.target))
                    self.assertEqual(sum(step.weight for step in walk.steps[:-1]), walk.weight)
                    self.assertTrue(all(walk.address in step.interval for step in walk.steps[:-1]))
                elif sub == "stats" and text:
                    stats = bentzolu.read_stats(text)
                    self.assertEqual(stats.entries, stats.nodes * (stats.nodes - 1))
                    self.assertGreaterEqual(stats.walks, stats.distances)
                elif sub in ("sim", "live") and text:
                    version, packets = bentzolu.read_trace(text)
                    self.assertEqual(bentzolu.write_trace(packets, version=version), text)
                elif sub == "check" and text:
                    self.assertEqual(bool(read_verdict(text)), case["status"] == 0)
                elif case["status"] == 1 and not case["stderr"].startswith("numbering"):
                    about, line, kind = fault_of(1, case["stderr"])
                    self.assertNotEqual(kind, "unknown")
                    if about != "new":  # of a new topology some faults have a line
                        self.assertEqual(line is None, about not in ("topology", "script", "trace"))
                else:
                    continue
                seen[sub] = seen.get(sub, 0) + 1
        for sub in ("plan", "walk", "stats", "sim", "check"):
            self.assertGreater(seen.get(sub, 0), 4, sub)

    def test_plan(self) -> None:
        plan = bentzolu.read_plan("plan shortest 4 8\na 0 1 b 3 d\nb 1 2 c 3 a\nd 3 0 a 2 c\nc 2 0 b 3 d\n")
        self.assertEqual(plan.labels, {"a": 0, "b": 1, "d": 3, "c": 2})
        self.assertEqual(plan.nodes["b"].intervals, (bentzolu.Interval(2, 3, "c"), bentzolu.Interval(3, 2, "a")))
        self.assertEqual(plan.nodes["b"].to(0), "a")
        self.assertEqual(plan.path("b", "d"), ["b", "a", "d"])
        self.assertEqual(plan.intervals, 8)

    def test_all_labels(self) -> None:
        whole = bentzolu.Interval(2, 2, "a")
        self.assertTrue(all(label in whole for label in range(5)))

    def test_trace(self) -> None:
        version, packets = bentzolu.read_trace(RUN)
        self.assertEqual(version, 2)
        self.assertEqual(packets[0].hops, ["u", "p", "q", "u", "p", "t"])
        self.assertEqual([segment.epoch for segment in packets[0].segments], [1, 2])
        self.assertEqual((packets[1].fate, packets[1].link, packets[1].epoch), ("down", ("p", "q"), 1))
        self.assertEqual(bentzolu.write_trace(packets, version=2), RUN)

    def test_stats(self) -> None:
        stats = bentzolu.read_stats(
            "stats tree 6\nlinks 7\nstarts 10\nentries 30\ngreatest-row q 4\nwalks 264\ndistances 64\nworst p t 18 1\n"
            "compactness u p 1\nbits 48 35\ndependencies cycle u p q\nshade 3 of 8\n"
        )
        self.assertEqual((stats.worst.stretch, stats.stretch), (18, Fraction(33, 8)))
        self.assertEqual((stats.compactness, stats.bits), (("u", "p", 1), (48, 35)))
        self.assertEqual((stats.bits.rows, stats.bits.tables, stats.compactness.to), (48, 35, "p"))
        self.assertEqual((stats.dependencies, stats.further), (("u", "p", "q"), {"shade": ("3", "of", "8")}))

    def test_verdicts(self) -> None:
        self.assertEqual(read_verdict("ok 3\n"), bentzolu.Verdict(True, rows=3))
        self.assertEqual(read_verdict("finding 2 NotAtDestination\n"), bentzolu.Verdict(False, line=2, kind="NotAtDestination"))

    def test_faulty_outputs(self) -> None:
        for read, text in [
            (bentzolu.read_plan, ""), (bentzolu.read_plan, PLAN), (bentzolu.read_plan, "plan tree 1 1\na 0 1\n"),
            (bentzolu.read_walk, "walk tree a b 1 1\n"), (bentzolu.read_stats, "stats tree 3\nlinks 2\n"),
            (bentzolu.read_trace, "trace 3\n"), (bentzolu.read_trace, "trace 1\n0 1 a c 2 lost a b c\n"), (read_verdict, "fine\n"),
        ]:
            with self.subTest(text), self.assertRaises(bentzolu.FormatError):
                read(text)


@needs_networkx
class FaultsTest(unittest.TestCase):
    """A program of the test stands for `route`."""

    def setUp(self) -> None:
        folder = tempfile.TemporaryDirectory()
        self.addCleanup(folder.cleanup)
        self.folder = pathlib.Path(folder.name)

    def program(self, status: Any, output: str = "", faults: str = "") -> Any:
        path = self.folder / "program"
        path.write_text(f"#!{sys.executable}\nimport sys\nsys.stdout.write({output!r})\nsys.stderr.write({faults!r})\nsys.exit({status})\n")
        path.chmod(path.stat().st_mode | stat.S_IXUSR)
        return path

    def fault(self, status: Any, faults: Any, output: str = "") -> tuple[Any, Any, Any, Any, Any]:
        with self.assertRaises(bentzolu.RouteError) as caught:
            bentzolu.simulate(networkx.path_graph(3), [("drain",), ("act", 2)], program=self.program(status, output, faults))
        error = caught.exception
        self.assertEqual(error.text, faults)
        return error.status, error.about, error.line, error.kind, error.content

    def test_faults(self) -> None:
        self.assertEqual(self.fault(1, "topology 2 BadRow\n"), (1, "topology", 2, "BadRow", "1 2 1"))
        self.assertEqual(self.fault(1, "script 2 UnknownNode\n"), (1, "script", 2, "UnknownNode", "act 2"))
        self.assertEqual(self.fault(1, "script 2 UnknownNode: x.script: no node 'z'\n"), (1, "script", 2, "UnknownNode", "act 2"))
        self.assertEqual(self.fault(1, "opening Disconnected\n"), (1, "opening", None, "Disconnected", None))
        self.assertEqual(self.fault(1, "script too large\n"), (1, "script", None, "too large", None))
        self.assertEqual(self.fault(1, "output unwritable\n", "trace 1\n"), (1, "output", None, "unwritable", None))
        self.assertEqual(self.fault(2, "error: unexpected argument\n"), (2, None, None, "usage", None))
        self.assertEqual(self.fault(3, "out of memory\n"), (3, None, None, "NoMemory", None))
        self.assertEqual(self.fault(3, "no thread\n"), (3, None, None, "NoThread", None))
        self.assertEqual(self.fault(1, ""), (1, None, None, "unknown", None))

    def test_refused_steps(self) -> None:
        program = self.program(0, "trace 1\n", "refused 1 HandEmpty\nrefused 3 Same\n")
        steps = [("act", 0), ("drain",), ("retire", 1)]
        run = bentzolu.simulate(networkx.path_graph(2), steps, program=program)
        self.assertEqual([(it.line, it.kind, it.step) for it in run.refused], [(1, "HandEmpty", steps[0]), (3, "Same", steps[2])])

    def test_findings_are_no_error(self) -> None:
        verdict = bentzolu.check(networkx.path_graph(2), [], "trace 1\n", program=self.program(1, "finding 1 NotTrace\n"))
        self.assertEqual((bool(verdict), verdict.line, verdict.kind), (False, 1, "NotTrace"))

    def test_the_program_is_found(self) -> None:
        program, before = self.program(0), dict(os.environ)
        self.addCleanup(lambda: (os.environ.clear(), os.environ.update(before)))  # type: ignore[func-returns-value]
        os.environ["BENTZOLU_ROUTE"] = str(program)
        self.assertEqual(bentzolu.find_program(), str(program))
        self.assertEqual(bentzolu.find_program("elsewhere"), "elsewhere")
        del os.environ["BENTZOLU_ROUTE"]
        program.rename(self.folder / "bentzolu")
        os.environ["PATH"] = str(self.folder)
        self.assertEqual(bentzolu.find_program(), str(self.folder / "bentzolu"))

    def test_no_program(self) -> None:
        with self.assertRaises(bentzolu.ProgramNotFoundError):
            bentzolu.plan(networkx.path_graph(2), program=self.folder / "nothing")


if __name__ == "__main__":
    unittest.main()
