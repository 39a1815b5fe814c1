"""What a lab is made of, without a namespace: topologies, scripts, words and verdicts."""
from __future__ import annotations

import contextlib
import io
import unittest
from typing import Any

import common
from bentzolu import __main__ as program
from bentzolu import check_ranges, lab, read_ranges
from bentzolu.lab import is_connected, order_of
from bentzolu.lab_check import Story, Way, findings, texts_of
from bentzolu.lab_judge import Judge
from bentzolu.lab_net import Network, links_of, without_link
from bentzolu.texts import read_plan

# A ring a b c d: epoch 1 is the tree a b c d, epoch 2 has the shortest ways.
TREE = read_plan("plan tree 4 6\na 0 0 b\nb 1 0 a 2 c\nc 2 0 b 3 d\nd 3 0 c\n")
SHORT = read_plan("plan shortest 4 8\na 0 1 b 3 d\nb 1 0 a 2 c\nc 2 0 b 3 d\nd 3 0 a 2 c\n")
RANGES = read_ranges("ranges shortest 4 8\na 0 1-2 b 3-3 d\nb 1 0-0 a 2-3 c\nc 2 0-1 b 3-3 d\nd 3 0-1 a 2-2 c\n")
RING = [("a", "b"), ("b", "c"), ("c", "d"), ("d", "a")]
PAIRS = [(0, 3), (3, 1), (1, 2)]


def judge(frames: Any, arrivals: Any, sent: Any = 1, **more: Any) -> Any:
    return Judge(list("abcd"), {1: TREE, 2: SHORT}, **more).judge(sent, PAIRS, frames, arrivals)


class Topologies(unittest.TestCase):
    def test_links(self) -> None:
        self.assertEqual(links_of("# of four\na b d\nb c a\nc d c # and so on\n", "adjlist"), [("a", "b"), ("a", "d"), ("b", "c"), ("c", "d")])
        self.assertEqual(links_of("a b 3\nb a 4\nb c 1\nc c 1\nd\n", "edgelist"), [("a", "b"), ("b", "c")])

    def test_without_a_link(self) -> None:
        self.assertEqual(without_link("a b d\nb c a\nc d\n", "adjlist", ("a", "b")), "a d\nb c\nc d\n")
        self.assertEqual(without_link("b a 3\nb c 1\nd e 2\n", "edgelist", ["a", "b"]), "b c 1\nd e 2\n")  # type: ignore[arg-type]
        self.assertTrue(is_connected("abcd", RING[1:]))  # type: ignore[no-untyped-call]
        self.assertFalse(is_connected("abcd", RING[2:]))  # type: ignore[no-untyped-call]

    def test_order(self) -> None:
        self.assertEqual(order_of(TREE), "a\nb\nc\nd\n")  # type: ignore[no-untyped-call]


class Scripts(unittest.TestCase):
    def test_elements(self) -> None:
        check_ranges(SHORT, RANGES)
        network = Network(SHORT, RING)
        elements = "element netdev bz ways { fd00:2::0 : goto mine, fd00:2::1-fd00:2::2 : goto to_2, fd00:2::3 : goto to_4 }"
        self.assertEqual(network.elements("a", RANGES, 2), elements)
        self.assertIn(f"add {elements}\n", network.install("a", RANGES, 2))
        self.assertIn(f"delete {elements}\n", network.retire("a", RANGES, 2))
        self.assertIn("set 0xfd000002\n", network.stamp("a", 2))

    def test_names(self) -> None:
        odd = read_plan("plan tree 2 2\n$(x) 0 0 b\nb 1 0 $(x)\n")
        network = Network(odd, [("$(x)", "b")])
        commands = [line for line in network.up().splitlines() if not line.startswith("#")]
        self.assertFalse([line for line in commands if "x)" in line])
        self.assertIn("netns add n1", commands)
        self.assertEqual(Network(TREE, RING).space("a"), "a")


class Verdicts(unittest.TestCase):
    def test_delivered(self) -> None:
        found = judge([(0, 255, 0, 1, 1), (0, 254, 1, 2, 1), (0, 253, 2, 3, 1)], [(0, 3)])
        self.assertEqual((found.packets, found.hops, found.lost, found.mixed), ({1: 1, 2: 0}, {1: 3, 2: 0}, 0, 0))
        found = judge([(0, 255, 0, 3, 2)], [(0, 3)])
        self.assertEqual((found.packets, found.pairs, found.lost), ({1: 0, 2: 1}, {1: set(), 2: {(0, 3)}}, 0))

    def test_lost(self) -> None:
        for frames, arrivals in (
            ([(0, 255, 0, 1, 1)], []), ([], []), ([(0, 255, 0, 3, 2)], [(0, 3), (0, 3)]), ([(0, 255, 0, 1, 1)], [(0, 1)]),
        ):
            found = judge(frames, arrivals)
            self.assertEqual((found.lost, found.mixed), (1, 0))

    def test_mixed(self) -> None:
        for frames in (
            [(0, 255, 0, 3, 1)], [(0, 255, 0, 1, 1), (0, 254, 1, 2, 2), (0, 253, 2, 3, 1)], [(0, 255, 0, 1, 2)], [(0, 255, 0, 3, 3)],
            [(0, 255, 0, 1, 1), (0, 253, 2, 3, 1)],
        ):
            self.assertEqual(judge(frames, [(0, 3)]).mixed, 1)

    def test_in_place(self) -> None:
        found = judge([(0, 255, 0, 3, 1)], [(0, 3)], in_place=True)
        self.assertEqual((found.packets, found.lost, found.mixed), ({1: 0, 2: 1}, 0, 0))
        found = judge([(0, 255, 0, 1, 1), (0, 254, 1, 0, 1)], [], in_place=True)
        self.assertEqual((found.lost, found.mixed), (1, 1))

    def test_down(self) -> None:
        for made in range(3):
            frames = [(0, 255, 0, 1, 1), (0, 254, 1, 2, 1)][:made]
            found = judge(frames, [], down=("c", "b"))
            self.assertEqual((found.over, found.lost, found.mixed), (0, 1, 0) if made == 0 else (1, 0, 0))
        self.assertEqual(judge([], [], down=("a", "b")).over, 1)
        self.assertEqual(judge([(0, 255, 0, 3, 2)], [], down=("a", "d")).lost, 1)


STORY = Story("a b 2\nb c 1\nc d 1\nd a 1\n", "edgelist", ("--kind", "tree", "--root", "a"), (("install shortest a",),), (1,))
WAYS = [Way(0, 1, ("a", "b", "c", "d"), "d", True), Way(2, 2, ("a", "d"), "d", True), Way(3, 1, ("a", "b"), "d", False)]


class Checked(unittest.TestCase):
    def test_texts(self) -> None:
        script, trace = texts_of(STORY, WAYS, {("a", "b"): 2, ("b", "a"): 2})
        self.assertEqual(script, "inject a d\ninstall shortest a\ninject a d\ninject a d\n")
        self.assertEqual(trace.splitlines()[1:], ["0 1 a d 4 delivered a b c d", "1 2 a d 1 delivered a d", "2 1 a d 2 left a b"])
        self.assertEqual(texts_of(STORY._replace(before=(9,)), WAYS[:1], {})[0], "inject a d\ninstall shortest a\n")
        twice = STORY._replace(changes=(("install shortest a",), ("install tree a",)), before=(1, 3))
        self.assertEqual(texts_of(twice, WAYS, {})[0], "inject a d\ninstall shortest a\ninject a d\ninstall tree a\ninject a d\n")

    @common.needs_route
    def test_findings(self) -> None:
        self.assertEqual(findings(STORY, WAYS), {})
        bad = [Way(4, 1, ("a", "d"), "d", True), Way(5, 2, ("a", "b"), "d", False), Way(6, 3, ("a", "d"), "d", True), Way(7, 1, ("a", "b"), "d", True)]
        mixed = [way for pair in zip(bad, (it._replace(number=it.number + 100) for it in [*WAYS, WAYS[0]])) for way in pair]
        found = {4: "NotAPrefix", 5: "NotAPrefix", 6: "UnknownEpoch", 7: "NotAtDestination"}
        self.assertEqual(findings(STORY, sorted(mixed)), found)
        early = findings(STORY._replace(before=(100,)), [Way(0, 2, ("a", "d"), "d", True)])
        self.assertEqual(early, {0: "NotYetInstalled"})

    @common.needs_route
    def test_beside_the_rows(self) -> None:
        story = STORY._replace(text="a b 1\nb c 1\nc d 1\nd a 1\n", before=(0,))
        frames = [(0, 255, 0, 1, 1), (0, 254, 1, 2, 1), (0, 253, 2, 3, 1), (3, 255, 0, 3, 2), (2, 255, 1, 0, 1), (5, 255, 1, 0, 2), (5, 254, 0, 3, 2)]
        said = [judge(frames, [(0, 3), (3, 3)], 6, story=it) for it in (None, story)]
        self.assertEqual(said[0], said[1])
        self.assertEqual((said[1].packets, said[1].mixed, said[1].lost), ({1: 1, 2: 1}, 2, 4))


class Words(unittest.TestCase):
    def test_bad_words(self) -> None:
        for words in (
            ["lab"], ["lab", "--kind", "best", "net"], ["lab", "--rate", "0", "net"], ["lab", "--seconds", "-1", "net"],
            ["lab", "--root", "a", "--numbering", "order", "net"], ["lab", "--in-place", "--down", "a", "b", "net"],
            ["lab", "--print", "--run", "bash", "net"], ["lab", "net", "net"], ["lab", "--kind", "landmark", "--to", "tree", "net"],
            ["lab", "--kind", "landmark", "--numbering", "order", "net"], ["lab", "--landmarks", "2", "net"], ["lab", "--stretch", "200", "net"],
        ):
            with self.subTest(words), contextlib.redirect_stderr(io.StringIO()), self.assertRaises(SystemExit) as ended:
                program.main(words)
            self.assertEqual(ended.exception.code, 2)

    @common.needs_route
    def test_landmarks(self) -> None:
        net = str(common.TOP / "examples/nsfnet.edgelist")
        for words, judged in (
            (["--kind", "landmark"], True), (["--kind", "landmark", "--to", "landmark"], True), (["--kind", "compact", "--to", "landmark"], None),
            (["--kind", "shortest", "--to", "landmark", "--landmarks", "2", "--stretch", "150", "--down", "Boulder", "Lincoln"], True),
        ):
            found = program.words().parse_args(["lab", "--root", "Houston", *words, net])
            made = lab.prepare(found)  # type: ignore[no-untyped-call]
            with self.subTest(words):
                self.assertEqual([made.plans[epoch].kind for epoch in (1, 2)], [found.kind, found.to])
                self.assertEqual(made.plans[1].labels, made.plans[2].labels)
                self.assertEqual(made.plans[1].labels["Houston"], 0)
                self.assertTrue(judged is None or (made.story is not None) == judged)
                self.assertIn("add element netdev", lab.printed(made))  # type: ignore[no-untyped-call]
        asked = ["lab", "--kind", "landmark", "--to", "landmark", "--landmarks", "4", "--down", "Pittsburgh", "Ithaca", net]
        with contextlib.redirect_stderr(io.StringIO()) as told:
            self.assertEqual(program.main(asked), 1)
        self.assertEqual(told.getvalue(), "lab: the two plans number the nodes differently\n")

    def test_no_topology(self) -> None:
        with contextlib.redirect_stderr(io.StringIO()) as told:
            self.assertEqual(program.main(["lab", "--print", "/nowhere/net"]), 1)
        self.assertEqual(told.getvalue(), "lab: /nowhere/net: No such file or directory\n")


if __name__ == "__main__":
    unittest.main()
