"""Nodes of any kind have names, one to one."""
from __future__ import annotations

import unittest

from common import bentzolu
from bentzolu.names import Names, is_fine


class NamesTest(unittest.TestCase):
    HARD = [
        1, "1", -1, "-1", (0, 1), "(0,1)", "(0, 1)", "New York", "New_York", "New\tYork", "", " ", "#", "##", "a#b", "Zürich", "Zurich",
        "東京", "大阪", "-", "--root", "%%", "_%%", "x" * 64, "x" * 65, "x" * 66, "é" * 40, 2.5, "True", frozenset([3]), b"ab",
        "a\nb", "a\x00b", "\u00a0", "drain", "inbox", "from", "~2", "1~2",
    ]

    def test_each_name_is_fine_and_leads_back(self) -> None:
        names = Names(self.HARD)
        self.assertEqual(len(names), len(self.HARD))
        self.assertEqual(len({name for _, name in names.items()}), len(self.HARD))
        for node in self.HARD:
            name = names.name(node)
            self.assertTrue(is_fine(name), (node, name))
            back = names.node(name)
            self.assertEqual(back, node)
            self.assertIs(type(back), type(node))

    def test_fine_names_stay(self) -> None:
        fine = ["a", "Houston", "0_1", "x" * 64, "a-b", "%", "%%%", "!", "~", '"', "\\", "drain"]
        for first in (fine, [7, "New York", *fine]):
            names = Names(first)  # type: ignore[arg-type]
            for name in fine:
                self.assertEqual(names.name(name), name)

    def test_whichever_comes_first_the_fine_name_stays(self) -> None:
        for nodes in ([1, "1"], ["1", 1]):
            names = Names(nodes)
            self.assertEqual(names.name("1"), "1")
            self.assertEqual(names.name(1), "1~2")

    def test_examples(self) -> None:
        names = Names(["New York", "Zürich", (0, 1), 7, -3, "%%", "-"])
        self.assertEqual([name for _, name in names.items()], ["New_York", "Zurich", "(0,1)", "7", "_-3", "_%%", "_-"])

    def test_many_of_one_name(self) -> None:
        nodes = ["x" * 64 + str(i) for i in range(300)]
        self.assertEqual(len({name for _, name in Names(nodes).items()}), 300)

    def test_unknown(self) -> None:
        names = Names(["a"])
        for call in (lambda: names.name("b"), lambda: names.name([]), lambda: names.node("b")):
            with self.assertRaises(bentzolu.UnknownNodeError):
                call()  # type: ignore[no-untyped-call]

    def test_table(self) -> None:
        self.assertEqual(Names(["Zürich", 7, (0, 1), "a"]).table(), 'Zurich\t"Zürich"\n7\t7\n(0,1)\t"(0, 1)"\na\t"a"\n')


if __name__ == "__main__":
    unittest.main()
