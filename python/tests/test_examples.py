"""The examples in the docstrings, by the program; and that options given in any way are the same."""
from __future__ import annotations

import doctest
import importlib
import importlib.util
import pathlib
import unittest
from typing import Any

from common import bentzolu, needs_route

WITHOUT_PROGRAM = ("graphs", "label_ranges", "lines", "names", "texts", "xdp")
WITH_NUMPY = ("sweeping",)


def modules() -> list[Any]:
    """The modules of the package whose docstrings have examples."""
    folder = pathlib.Path(bentzolu.__file__).parent
    return sorted(path.stem for path in folder.glob("*.py") if "    >>> " in path.read_text(encoding="utf-8"))


CALLS = (
    "check", "check_ranges", "compile_many", "draw", "live", "names_of", "plan", "prefixes", "ranges", "read_plan", "read_prefixes",
    "read_ranges", "read_stats", "read_trace", "read_walk", "scaled", "simulate", "stats", "walk", "write_trace",
)
EDGES = [("a", "b"), ("b", "c"), ("c", "d"), ("d", "a")]
STEPS = [("inject", "a", "c"), ("install", "shortest", "a"), ("drain",)]


class Examples(unittest.TestCase):
    """Each example prints what is below it."""

    def tried(self, modules: Any) -> None:
        for name in modules:
            found = doctest.testmod(importlib.import_module(f"bentzolu.{name}"))
            with self.subTest(module=name):
                self.assertGreater(found.attempted, 0, f"bentzolu.{name} has no example")
                self.assertEqual(found.failed, 0)

    def test_without_program(self) -> None:
        self.assertLess(set(WITHOUT_PROGRAM + WITH_NUMPY), set(modules()))
        self.tried(WITHOUT_PROGRAM)

    @needs_route
    def test_with_program(self) -> None:
        self.tried(name for name in modules() if name not in WITHOUT_PROGRAM + WITH_NUMPY)

    @needs_route
    @unittest.skipUnless(importlib.util.find_spec("numpy"), "there is no NumPy")
    def test_with_numpy(self) -> None:
        self.tried(WITH_NUMPY)

    def test_each_call_has_one(self) -> None:
        for name in CALLS:
            with self.subTest(call=name):
                self.assertIn(">>> ", getattr(bentzolu, name).__doc__ or "")

    def test_package_is_typed(self) -> None:
        self.assertTrue(pathlib.Path(bentzolu.__file__).with_name("py.typed").exists())


class OneValue(unittest.TestCase):
    """Options as one value, by name and by place."""

    @needs_route
    def test_same_plan(self) -> None:
        wanted = bentzolu.plan(EDGES, "tree", "b", weight=None)
        self.assertEqual(bentzolu.plan(EDGES, options=bentzolu.Options(kind="tree", root="b", weight=None)), wanted)
        self.assertEqual(bentzolu.plan(EDGES, kind="tree", root="b", options=bentzolu.Options(weight=None)), wanted)
        self.assertEqual(bentzolu.plan(EDGES, "tree", options=bentzolu.Options(kind="compact", root="b")), wanted)
        self.assertEqual(bentzolu.compile_many([EDGES, EDGES], options=bentzolu.Options("tree", "b")), [wanted, wanted])

    @needs_route
    def test_runs(self) -> None:
        wanted = bentzolu.simulate(EDGES, STEPS, "tree", "a", 1, 2, 3)
        self.assertEqual(wanted.version, 2)
        given = bentzolu.Options(kind="tree", root="a", capacity=1, packets=2, restamps=3)
        self.assertEqual(bentzolu.simulate(EDGES, STEPS, options=given), wanted)
        self.assertTrue(bentzolu.check(EDGES, STEPS, wanted, options=bentzolu.Options("tree", "a")))

    def test_unknown(self) -> None:
        for call, more in ((bentzolu.plan, ()), (bentzolu.live, (STEPS,))):
            with self.assertRaisesRegex(TypeError, "'numbers' is not an option of this call, which takes kind, root, weight"):
                call(EDGES, *more, numbers=1)
        with self.assertRaisesRegex(TypeError, "'restamps' is not an option"):
            bentzolu.plan(EDGES, restamps=1)
