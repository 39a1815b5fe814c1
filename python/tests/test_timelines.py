"""Networks in time: shells of satellites, scripts that play changes of links, and figures of the plans."""
from __future__ import annotations

import importlib
import importlib.util
import concurrent.futures
import math
import unittest
from collections import Counter
from typing import Any

from common import bentzolu, needs_route

numpy: Any = importlib.import_module("numpy") if importlib.util.find_spec("numpy") else None

needs_numpy = unittest.skipIf(numpy is None, "there is no NumPy")
IRIDIUM = bentzolu.Shell(6, 11, 2, 86.4, 780, star=True)
SMALL = bentzolu.Shell(4, 6, 1, 80, 1200, star=True)


class ShellTest(unittest.TestCase):
    def test_links_across_the_join_are_as_long_as_others(self) -> None:
        for shell in (bentzolu.Shell(12, 10, 7, 53, 550), bentzolu.Shell(9, 8, 0, 60, 700)):
            inside, across = shell.inside(), shell.across()
            self.assertEqual((len(inside), len(across)), (len(shell.nodes), len(shell.nodes)))
            def longest(links: Any) -> Any:
                return max(math.dist(shell.place(a, at), shell.place(b, at)) for a, b in links for at in range(0, 6000, 300))
            join = [link for link in across if {link[0][0], link[1][0]} == {0, shell.planes - 1}]
            others = [link for link in across if link not in join]
            self.assertEqual(len(join), shell.satellites)
            self.assertAlmostEqual(longest(join) / longest(others), 1, 1)

    def test_a_star_has_a_seam(self) -> None:
        self.assertEqual((len(IRIDIUM.inside()), len(IRIDIUM.across())), (66, 55))
        self.assertEqual(len(bentzolu.Shell(2, 5).links()), 15)
        self.assertEqual(len(bentzolu.Shell(1, 2).links()), 1)

    def test_latitudes_and_periods(self) -> None:
        self.assertAlmostEqual(bentzolu.Shell(1, 4, 0, 53, 550).period / 60, 95.5, 1)
        self.assertAlmostEqual(IRIDIUM.latitude((0, 0), 0), 0)
        self.assertAlmostEqual(IRIDIUM.latitude((0, 0), IRIDIUM.period / 4), 86.4)
        for at in (0, 777):
            self.assertAlmostEqual(math.hypot(*IRIDIUM.place((3, 4), at)), 6371 + 780)

    def test_what_is_none(self) -> None:
        for given in ((0, 3), (1, 1), (3, 3, 0, 53, -1), (3, 3, 0, math.nan)):
            with self.assertRaises(bentzolu.GraphError):
                bentzolu.Shell(*given)


class TimelineTest(unittest.TestCase):
    def test_two_orbits_have_the_same_links(self) -> None:
        step = IRIDIUM.period / 50
        line = bentzolu.Timeline.of_shell(IRIDIUM, step, 2.01, 60)
        up, found = set(range(121)), {}
        number = {edge[:2]: i for i, edge in enumerate(line.graph)}
        for it in line:
            up = (up - {number[link] for link in it.down}) | {number[link] for link in it.up}
            self.assertEqual(len(up), it.links)
            found[round(it.time / step)] = frozenset(up)
        first = {at: state for at, state in found.items() if 0 < at <= 50}
        self.assertGreater(len(first), 20)
        for at, state in first.items():
            if at + 50 in found:
                self.assertEqual(found[at + 50], state)
        self.assertGreater(sum(at + 50 in found for at in first), 20)

    def test_of_networks(self) -> None:
        line = bentzolu.Timeline([(0, [("a", "b"), ("b", "c")]), (5, [("a", "b"), ("b", "c")]), (9, [("a", "b"), ("a", "c")])])
        self.assertEqual([it.time for it in line], [0, 9])
        self.assertEqual((line[0].down, line[1].down, line[1].up), ((("a", "c"),), (("b", "c"),), (("a", "c"),)))
        self.assertEqual(line.nodes, ["a", "b", "c"])
        for given, text in (
            ([], "needs a snapshot"), ([(1, [("a", "b")]), (1, [("a", "b")])], "ascend"), ([(0, [("a", "b", 1)]), (1, [("b", "a", 2)])], "weights 1 and 2"),
        ):
            with self.assertRaisesRegex(bentzolu.GraphError, text):
                bentzolu.Timeline(given)
        with self.assertRaisesRegex(bentzolu.StepError, "not a mode"):
            line.steps(mode="late")
        with self.assertRaisesRegex(bentzolu.GraphError, "step above 0"):
            bentzolu.Timeline.of_shell(SMALL, 0)

    def test_packets_of_the_caller(self) -> None:
        line = bentzolu.Timeline([(0, [("a", "b"), ("b", "c")])])
        steps = line.steps(inject=lambda at, luck: [("a", "c")], live=True)
        self.assertEqual(steps, [("install", "shortest", "a"), ("inject", "a", "c"), ("drain",)])


@needs_route
class PlayedTest(unittest.TestCase):
    LINE = bentzolu.Timeline.of_shell(SMALL, 60, 1, 55)

    def play(self, call: Any = bentzolu.simulate, restamps: Any = None, **how: Any) -> Any:
        steps = self.LINE.steps("compact", inject=6, **how)
        run = call(self.LINE.graph, steps, "compact", restamps=restamps)
        self.assertEqual(run.refused, ())
        verdict = bentzolu.check(self.LINE.graph, steps, run, "compact", words=("--whole",))
        self.assertTrue(verdict, verdict)
        return Counter(packet.fate for packet in run.packets)

    def test_ahead_loses_nothing(self) -> None:
        self.assertLess(len(self.LINE), 60)
        late, ahead = self.play(mode="reactive"), self.play(mode="ahead")
        self.assertGreater(late["down"], 0)
        self.assertEqual(set(ahead), {"delivered"})
        self.assertEqual(sum(ahead.values()), sum(late.values()))

    def test_retired_epochs_with_new_stamps(self) -> None:
        self.assertEqual(set(self.play(restamps=1, retire=True)), {"delivered"})

    def test_live(self) -> None:
        found = self.play(bentzolu.live, mode="ahead", live=True, most=6)
        self.assertGreater(found["delivered"], 60)
        self.assertEqual(set(found), {"delivered"})


@needs_route
@needs_numpy
class ReplayTest(unittest.TestCase):
    def test_rows(self) -> None:
        line = PlayedTest.LINE
        rows = line.replay("compact", "keep", most=8)
        self.assertEqual([row.time for row in rows], [it.time for it in line[:8]])
        self.assertEqual([row.fault for row in rows], [None] * 8)
        self.assertIsNone(rows[0].sent)
        edges = [edge for edge in line.graph if edge[:2] not in line[0].down]
        stats = bentzolu.stats(edges, "shortest")
        first = line.replay("shortest", most=1)[0]
        self.assertEqual((first.mean, first.links), (stats.walks / (24 * 23), len(edges)))
        anew = line.replay("compact", "depth-first", most=8)
        self.assertLess(sum(row.sent for row in rows[1:]), sum(row.sent for row in anew[1:]))
        with concurrent.futures.ThreadPoolExecutor(2) as pool:
            again = line.replay("compact", "keep", most=8, executor=pool)
        self.assertEqual([row._replace(seconds=0) for row in again], [row._replace(seconds=0) for row in rows])

    def test_parts(self) -> None:
        line = bentzolu.Timeline([(0, [("a", "b"), ("b", "c")]), (1, [("a", "b")]), (2, [("a", "b"), ("b", "c")])])
        rows = line.replay()
        self.assertEqual([row.fault for row in rows], [None, "2 unconnected parts, the largest of 2 nodes", None])
        self.assertEqual((rows[2].sent, rows[2].intervals), (None, 4))

    def test_an_executor_that_ended(self) -> None:
        closed = concurrent.futures.ThreadPoolExecutor(1)
        closed.shutdown()
        with self.assertRaisesRegex(bentzolu.SweepError, "the executor ended"):
            PlayedTest.LINE.replay(executor=closed)


if __name__ == "__main__":
    unittest.main()
