"""All kinds beside each other, numberings by name, and networks by family."""
from __future__ import annotations

import io
import contextlib
import pathlib
import tempfile
import unittest
from fractions import Fraction

from common import TOP, bentzolu, needs_route
from bentzolu import __main__, families
from bentzolu.texts import read_comparison

NSFNET = TOP / "examples/nsfnet.edgelist"
TEXT = ("compare 4 4\nkind numbering intervals greatest-row bits mean-stretch worst-stretch dependencies\n"
        "shortest depth-first 8 2 24 16/16 1/1 acyclic\ntree depth-first 6 2 18 20/16 3/1 acyclic\ntables - - - 12 - - -\n")


class TextTest(unittest.TestCase):
    def test_figures(self) -> None:
        found = read_comparison(TEXT)
        self.assertEqual((found.nodes, found.links, found.table_bits), (4, 4, 12))
        self.assertEqual(found.rows[1], ("tree", "depth-first", 6, 2, 18, Fraction(5, 4), Fraction(3), True))
        self.assertEqual((found.least().kind, found.least(most_stretch=1).kind), ("tree", "shortest"))
        self.assertIn("full tables", found._repr_html_())
        with self.assertRaisesRegex(ValueError, "no plan has a stretch"):
            found.least(0.5)

    def test_other_texts(self) -> None:
        for text in ("stats tree 2\n", TEXT.replace("tables", "sums"), TEXT.replace("20/16", "20"), TEXT.replace(" acyclic", "")):
            with self.assertRaises(bentzolu.FormatError):
                read_comparison(text)


@needs_route
class CompareTest(unittest.TestCase):
    def test_rows_are_those_of_stats(self) -> None:
        found = bentzolu.compare(NSFNET)
        self.assertEqual(found.table_bits, 338)
        for row in found.rows:
            kind, _, stretch = row.kind.partition("-")
            more = {"stretch": int(stretch)} if stretch else {"numbering": row.numbering}
            stats = bentzolu.stats(NSFNET, kind, **more)
            self.assertEqual((row.starts, row.bits, row.stretch), (stats.starts, stats.bits.rows, stats.stretch), row)
        for name, value in (("kind", "tree"), ("numbering", "tour"), ("stretch", 200)):
            with self.assertRaisesRegex(TypeError, "all kinds"):
                bentzolu.compare(NSFNET, **{name: value})

    def test_numbering(self) -> None:
        tour = bentzolu.plan(NSFNET, numbering="tour")
        self.assertEqual(tour, bentzolu.plan(NSFNET, words=("--numbering", "tour")))
        self.assertEqual(tour, bentzolu.plan(NSFNET, options=bentzolu.Options(numbering="tour")))
        with tempfile.TemporaryDirectory() as folder:
            order = pathlib.Path(folder, "order")
            order.write_text("".join(f"{node}\n" for node in tour.nodes), encoding="ascii")
            self.assertEqual(list(bentzolu.plan(NSFNET, numbering=order).labels.values()), list(range(14)))
        with self.assertRaises(bentzolu.RouteError):
            bentzolu.plan(NSFNET, numbering="no such file")


class FamiliesTest(unittest.TestCase):
    def test_families(self) -> None:
        numbers = {"random": "9 12", "hypercube": "3", "fattree": "4"}
        for family in families.FAMILIES:
            words = [family, *numbers.get(family, " ".join(["4"] * (len(families.numbers_of(family)) - 1) + ["3" if len(families.numbers_of(family)) > 1 else "4"])).split()]
            self.assertEqual(families.why_not(words), "", words)
            text = io.StringIO()
            with contextlib.redirect_stdout(text):
                self.assertEqual(__main__.main(["generate", "topology", *words]), 0)
            self.assertEqual(text.getvalue(), families.text(words))
            self.assertTrue(text.getvalue().startswith("# "))

    def test_refused(self) -> None:
        for words, said in (("gird 3 3", "did you mean 'grid'"), ("grid 3", "ROWS and COLUMNS; 1 number was given"), ("random 3 9", "has 2 to 3 links"),
                            ("scalefree 3 3", "fewer LINKS"), ("fattree 3", "even"), ("hypercube 60", "at most 131,072"), ("ring 2", "at least 3"),
                            ("path 1.5", "whole number")):
            self.assertIn(said, families.why_not(words.split()))


if __name__ == "__main__":
    unittest.main()
