"""Figures are drawn onto given axes; the words `plot`; the notebook's code."""
from __future__ import annotations

import contextlib
import io
import json
import os
import pathlib
import subprocess
import sys
import tempfile
import unittest
from typing import Any
from unittest import mock

from common import TOP, bentzolu, needs_route
from bentzolu import __main__ as words, figures
from test_sweeps import free_environment
from test_tutorial import BLOCK, sessions

try:
    import matplotlib
    import numpy

    matplotlib.use("Agg")
    import matplotlib.pyplot as plt
except ImportError:
    matplotlib = numpy = plt = None  # type: ignore[assignment]

needs_matplotlib = unittest.skipIf(plt is None, "there is no matplotlib, or no NumPy")
NSFNET = TOP / "examples/nsfnet.edgelist"


class MissingTest(unittest.TestCase):
    def test_a_sentence_where_matplotlib_is_missing(self) -> None:
        missing = {"matplotlib": None, "matplotlib.pyplot": None}
        with mock.patch.dict(sys.modules, missing), self.assertRaisesRegex(bentzolu.MissingPackageError, "needs the package matplotlib.*python3-matplotlib"):
            figures.axes(None)
        told = io.StringIO()
        with mock.patch.dict(sys.modules, missing), contextlib.redirect_stderr(told):
            self.assertEqual(words.main(["plot", "rows", str(NSFNET), "-o", "rows.png"]), 1)
        self.assertRegex(told.getvalue(), "^bentzolu plot: a picture needs the package matplotlib")


@needs_matplotlib
class AxesTest(unittest.TestCase):
    def setUp(self) -> None:
        self.figure, self.ax = plt.subplots()
        self.addCleanup(plt.close, self.figure)

    def drawn(self, ax: Any, x: Any, y: Any) -> None:
        self.assertIs(ax, self.ax)
        self.assertEqual((ax.get_xlabel(), ax.get_ylabel(), ax.get_title()), (x, y, ""))
        self.figure.canvas.draw()

    def test_rows(self) -> None:
        self.drawn(figures.plot_rows({"a": [1, 4, 4], "b": [2]}, self.ax), "intervals of a node", "share of nodes")
        line = self.ax.lines[0]
        self.assertEqual((list(line.get_xdata()), float(line.get_ydata()[-1])), ([1, 4, 4], 1))

    def test_sizes(self) -> None:
        points = {f"family {k}": [(64, 3 * k + 1), (16, 2)] for k in range(8)}
        self.drawn(figures.plot_sizes(points, self.ax, points), "nodes", "bits of a node")
        self.assertEqual(list(self.ax.lines[0].get_xdata()), [16, 64])
        self.assertEqual(len(self.ax.get_legend().get_texts()), 9)

    def test_stretch(self) -> None:
        self.drawn(figures.plot_stretch({"a": [1, 1, 1, 2], "b": [3.0, 1.5]}, self.ax), "stretch x", "share of ordered pairs above x")
        self.assertEqual(list(self.ax.lines[0].get_ydata())[0], 0.25)

    def test_tradeoff(self) -> None:
        points = {"keep": (1, 3), "renumber": (3, 1), "neither": (3, 3)}
        self.assertIs(figures.plot_tradeoff(points, self.ax), self.ax)
        filled = [line.get_markerfacecolor() for line in self.ax.lines[1:]]
        self.assertEqual([it == "none" for it in filled], [False, False, True])

    def test_the_current_axes(self) -> None:
        plt.figure(self.figure)
        self.assertIs(figures.plot_rows({"a": [1]}), self.ax)

    def test_nothing_to_draw(self) -> None:
        for call, given in ((figures.plot_rows, {}), (figures.plot_stretch, {"a": []}), (figures.plot_tradeoff, {}), (figures.plot_sizes, {"a": []})):
            with self.assertRaisesRegex(bentzolu.BentzoluError, "nothing to draw"):
                call(given, self.ax)  # type: ignore[operator]

    @needs_route
    def test_plans_sweeps_and_timelines(self) -> None:
        self.drawn(figures.plot_rows({"tree": bentzolu.plan(NSFNET, "tree")}, self.ax), "intervals of a node", "share of nodes")
        rows = bentzolu.sweep([("a", "b"), ("b", "c"), ("c", "a"), ("c", "d")])
        for what in figures.OF_SWEEPS:
            self.ax.clear()
            self.assertIs(rows.plot(self.ax, what), self.ax)
            self.figure.canvas.draw()
        self.ax.clear()
        rows.plot(self.ax, "links")
        self.assertEqual([it.get_text() for it in self.ax.get_yticklabels()][-1], "c-d")
        self.assertIn("50 % cut off", self.ax.texts[-1].get_text())
        with self.assertRaisesRegex(bentzolu.BentzoluError, "no figure 'pie'"):
            rows.plot(self.ax, "pie")
        with self.assertRaisesRegex(bentzolu.BentzoluError, "nothing to draw"):
            bentzolu.sweep(NSFNET, []).plot(self.ax)
        line = bentzolu.Timeline([(0, [("a", "b"), ("b", "c")]), (60, [("a", "b"), ("a", "c")])])
        self.ax.clear()
        self.drawn(line.plot({"tour": line.replay(numbering="tour")}, self.ax, "sent"), "minutes", "bits sent at a change")
        with self.assertRaisesRegex(bentzolu.SweepError, "no figure 'pie'"):
            line.plot(line.replay(), self.ax, "pie")


@needs_matplotlib
@needs_route
class WordsTest(unittest.TestCase):
    def setUp(self) -> None:
        folder = tempfile.TemporaryDirectory()
        self.addCleanup(folder.cleanup)
        self.folder = pathlib.Path(folder.name)
        self.rows = self.folder / "rows.jsonl"
        bentzolu.sweep(NSFNET, results=self.rows)

    def run_words(self, *given: Any) -> tuple[Any, Any]:
        told = io.StringIO()
        with contextlib.redirect_stderr(told):
            status = words.main(["plot", *map(str, given)])
        return status, told.getvalue()

    def test_pictures(self) -> None:
        for given, head in (
            (("rows", NSFNET, "--kind", "compact", "--numbering", "tour", "--numbering", "depth-first", "-o", "a.png"), b"\x89PNG"),
            (("sweep", self.rows, "-o", "b.svg"), b"<?xml"), (("stretch", self.rows, self.rows, "-o", "c.pdf"), b"%PDF"),
            (("sweep", self.rows, "--show", "bits", "-o", "d.png"), b"\x89PNG"),
        ):
            path = self.folder / given[-1]  # type: ignore[operator]
            self.assertEqual(self.run_words(*given[:-1], path), (0, ""))
            self.assertTrue(path.read_bytes().startswith(head), path)

    def test_what_is_refused(self) -> None:
        for given, text in (
            (("sweep", NSFNET, "-o", "a.png"), "not a file of a sweep"), (("sweep", self.rows, self.rows, "-o", "a.png"), "one sweep"),
            (("sweep", self.folder / "none", "-o", "a.png"), "No such file"), (("sweep", self.rows, "-o", "a.word"), "a.word can't be written"),
        ):
            status, told = self.run_words(*given[:-1], self.folder / given[-1])  # type: ignore[operator]
            self.assertEqual(status, 1)
            self.assertRegex(told, f"^bentzolu plot: .*{text}")


@needs_matplotlib
@needs_route
class NotebookTest(unittest.TestCase):
    def test_its_code_runs(self) -> None:
        path = TOP / "examples/failures.ipynb"
        cells = [cell for cell in json.loads(path.read_text(encoding="utf-8"))["cells"] if cell["cell_type"] == "code"]
        self.assertEqual((len(cells), [cell["outputs"] for cell in cells]), (6, [[]] * 6))
        names = {"__name__": "notebook"}
        self.addCleanup(plt.close, "all")
        self.addCleanup(os.chdir, os.getcwd())
        os.chdir(path.parent)
        with tempfile.TemporaryDirectory() as folder:
            names["FOLDER"] = folder
            for at, cell in enumerate(cells, 1):
                with contextlib.redirect_stdout(io.StringIO()):
                    exec(compile("".join(cell["source"]), f"{path.name}: cell {at}", "exec"), names)
        self.assertEqual(len(names["rows"]), 14)
        self.assertTrue(names["ax"].has_data())  # type: ignore[attr-defined]


@needs_matplotlib
@needs_route
class PageTest(unittest.TestCase):
    """docs/SWEEPS.md: what its commands after `$ ` print, and its lines of Python."""

    PAGE = TOP / "docs/SWEEPS.md"

    def setUp(self) -> None:
        folder = tempfile.TemporaryDirectory()
        self.addCleanup(folder.cleanup)
        self.folder = pathlib.Path(folder.name)
        (self.folder / "examples").symlink_to(TOP / "examples")
        (self.folder / "bin").mkdir()
        (self.folder / "bin/python3").symlink_to(sys.executable)
        (self.folder / "bin/bentzolu").symlink_to(os.path.abspath(bentzolu.find_program()))
        self.blocks = [[row[4:] for row in block.split("\n")] for block in BLOCK.findall(self.PAGE.read_text(encoding="utf-8"))]

    def test_commands(self) -> None:
        path = os.pathsep.join([str(self.folder / "bin"), os.environ["PATH"]])
        count = 0
        for command, shown in [it for rows in self.blocks for it in sessions(rows)]:
            done = subprocess.run(["sh", "-c", command], env={**free_environment(), "PATH": path}, capture_output=True, text=True, cwd=self.folder, check=False)
            said, rows = (done.stdout + done.stderr).splitlines(), [row for row in shown if row]
            if rows[-1:] == ["..."]:
                rows.pop()
                said = said[: len(rows)]
            self.assertEqual(said, rows, command)
            count += 1
        self.assertEqual(count, 7)
        self.assertTrue((self.folder / "worst.png").read_bytes().startswith(b"\x89PNG"))

    def test_lines_of_python(self) -> None:
        self.addCleanup(os.chdir, os.getcwd())
        os.chdir(self.folder)
        names = {"graph": [("a", "b"), ("b", "c"), ("c", "a")], "graphs": [[("a", "b"), ("b", "c"), ("c", "a")]] * 2, "bentzolu": bentzolu}
        pieces = ["\n".join(rows) for rows in self.blocks if any(row.startswith(("import ", "shell =", "keeper =")) for row in rows)]
        self.assertEqual(len(pieces), 3)
        for piece in pieces:
            try:
                with contextlib.redirect_stderr(io.StringIO()):
                    exec(compile(piece.replace("rows.to_pandas()", "rows"), self.PAGE.name, "exec"), names)
            finally:
                plt.close("all")
        self.assertEqual((len(names["rows"]), names["step"].renumbered), (74, False))


if __name__ == "__main__":
    unittest.main()
