"""The ranges of a plan beside a plain search, label by label."""
from __future__ import annotations

import random
import unittest
from typing import Any

from common import bentzolu, graphs, needs_route
from bentzolu import FormatError, Interval, NodePlan, Plan, Range, check_ranges, read_ranges


def some_plan(draw: Any) -> Any:
    """A plan of rows by chance; whether they lead anywhere does not matter here."""
    count = draw.randint(1, 24)
    labels = draw.sample(range(count), count)
    nodes = {}
    for i, label in enumerate(labels):
        starts = sorted(draw.sample(range(count), draw.randint(1, min(count, 6)))) if count > 1 else []
        ends = starts[1:] + starts[:1]
        near = [f"n{draw.randrange(4)}" for _ in starts]
        nodes[f"n{i}"] = NodePlan(f"n{i}", label, tuple(map(Interval, starts, ends, near)))
    return Plan("shortest", nodes)  # type: ignore[arg-type]


def plain(plan: Any, node: Any) -> tuple[Any, ...]:
    """The ranges of a node, by a look at each label in turn."""
    found: list[Any] = []
    for label in range(len(plan.nodes)):
        to = None if label == plan.nodes[node].label else plan.nodes[node].to(label)
        if to is None:
            continue
        if found and found[-1][1] == label - 1 and found[-1][2] == to:
            found[-1][1] = label
        else:
            found.append([label, label, to])
    return tuple(Range(*it) for it in found)


def plain_of_all(plan: Any) -> dict[Any, Any]:
    return {node: plain(plan, node) for node in plan.nodes}


class Ranges(unittest.TestCase):
    def test_random_plans(self) -> None:
        draw = random.Random(59)
        for i in range(500):
            plan = some_plan(draw)
            with self.subTest(i):
                check_ranges(plan, plain_of_all(plan))

    def test_read(self) -> None:
        self.assertEqual(read_ranges("ranges tree 1 0\na 0\n"), {"a": ()})
        found = read_ranges("ranges tree 3 5\na 1 0-0 b 2-2 b\nb 0 1-1 a 2-2 c\nc 2 0-1 b\n")
        self.assertEqual(found, {"a": ((0, 0, "b"), (2, 2, "b")), "b": ((1, 1, "a"), (2, 2, "c")), "c": ((0, 1, "b"),)})
        self.assertEqual(found["a"][1], Range(first=2, last=2, to="b"))
        for wrong in (
            "", "plan tree 1 0\na 0\n", "ranges tree 2 0\na 0\n", "ranges tree 1 1\na 0\n", "ranges tree 1 0\na x\n", "ranges tree 1 1\na 0 1-2\n",
            "ranges tree 1 1\na 0 1-x b\n", "ranges tree 1 1\na 0 1 b\n", "ranges tree\na 0\n", "ranges tree 1 0\na\n",
        ):
            with self.subTest(wrong=wrong), self.assertRaises(FormatError):
                read_ranges(wrong)

    def test_documented_row(self) -> None:
        nodes = {f"n{i}": NodePlan(f"n{i}", i, ()) for i in range(14)}
        row = (Interval(0, 5, "PaloAlto"), Interval(5, 0, "Boulder"))
        nodes["n4"] = NodePlan("n4", 4, row)
        self.assertEqual(plain(Plan("tree", nodes), "n4"), ((0, 3, "PaloAlto"), (5, 13, "Boulder")))  # type: ignore[arg-type]

    def test_faults(self) -> None:
        plan = Plan("tree", {
            "a": NodePlan("a", 0, (Interval(0, 0, "b"),)), "b": NodePlan("b", 1, (Interval(0, 2, "a"), Interval(2, 0, "c"))),
            "c": NodePlan("c", 2, (Interval(1, 1, "b"),)),
        })
        right = plain_of_all(plan)
        self.assertEqual(right, {"a": ((1, 2, "b"),), "b": ((0, 0, "a"), (2, 2, "c")), "c": ((0, 1, "b"),)})
        for node, wrong in (
            ("a", ()), ("a", ((1, 1, "b"),)), ("a", ((1, 1, "b"), (2, 2, "b"))), ("a", ((1, 2, "c"),)), ("a", ((0, 2, "b"),)),
            ("a", ((1, 3, "b"),)), ("b", ((2, 2, "c"), (0, 0, "a"))), ("b", ((0, 1, "a"), (2, 2, "c"))), ("c", ((0, 1, "b"), (1, 1, "b"))),
        ):
            with self.subTest(node=node, wrong=wrong), self.assertRaises(FormatError):
                check_ranges(plan, {**right, node: tuple(Range(*it) for it in wrong)})
        with self.assertRaises(FormatError):
            check_ranges(plan, {"a": right["a"]})

    @needs_route
    def test_ranges_of_the_program(self) -> None:
        for name, graph in graphs():
            for kind in ("tree", "shortest", "compact"):
                with self.subTest(name, kind=kind):
                    plan = bentzolu.plan(graph, kind)
                    found = bentzolu.ranges(graph, kind)
                    self.assertEqual(found, plain_of_all(plan))
                    check_ranges(plan, found)


if __name__ == "__main__":
    unittest.main()
