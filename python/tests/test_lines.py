"""Rows as lines: what the lines of each depth lead to, what is refused, and the words of the plane."""
from __future__ import annotations

import argparse
import contextlib
import io
import os
import pathlib
import random
import struct
import sys
import tempfile
import unittest
from typing import Any
from unittest import mock

from common import HAS_ROUTE, TOP

from bentzolu import __main__, lines, xdp, xdp_words
from bentzolu.lines import BYTES, LinesError, NO_WORD, Row
from bentzolu.texts import read_plan

PLAN = "plan tree 3 3\na 0 1 b\nb 1 2 c\nc 2 0 b\n"


def drawn(labels: Any, starts: Any, ports: Any, first: Any, seed: Any = 1) -> Any:
    """A row of so many starts, the first at `first`."""
    draw = random.Random(seed)
    chosen = [first, *sorted(draw.sample(range(first + 1, labels), starts - 1))]
    return Row(labels, labels // 2, tuple((start, i % ports) for i, start in enumerate(chosen)))


class Lines(unittest.TestCase):
    def led(self, row: Any, depth: Any) -> Any:
        """Compares where the lines lead with the row, at each label or at many."""
        table = lines.lines(row, 7)
        self.assertEqual(table[0][3], depth)
        self.assertTrue(all(len(line) == 32 and all(0 <= word <= NO_WORD for word in line) for line in table))
        for label in range(0, row.labels, 1 + row.labels // 400):
            self.assertEqual(lines.port_by_lines(table, label), row.port(label), (row.labels, len(row.words), label))
        return table

    def test_depths(self) -> None:
        for labels, starts, ports, depth, size in (
            (14, 2, 2, 0, 1), (16384, 1, 1, 0, 1), (16384, 16, 8, 0, 1), (16384, 17, 8, 1, 2), (16384, 512, 8, 1, 17), (16384, 513, 8, 2, 19),
            (16384, 1024, 300, 2, 34), (16384, 9000, 300, 2, 292), (16384, 9000, 8, BYTES, 129), (300, 250, 256, BYTES, 4), (300, 280, 257, 1, 10),
        ):
            with self.subTest(labels=labels, starts=starts):
                self.assertEqual(len(self.led(drawn(labels, starts, ports, 0), depth)), size)
                self.led(drawn(labels, starts, ports, 1), lines.lines(drawn(labels, starts, ports, 1), 7)[0][3])

    def test_every_start(self) -> None:
        self.assertEqual(len(lines.lines(Row(16384, 0, tuple((i, i % 1024) for i in range(16384))), 1)), 529)

    def test_head(self) -> None:
        table = lines.lines(drawn(16384, 600, 300, 0), 65535)
        self.assertEqual(table[0][:16], (65535, 16384, 8192, 2, 2, *[0] * 11))
        self.assertEqual(lines.lines(Row(1, 0, ()), 1), [(1, 1, 0, 0, 0, *[0] * 11, *[NO_WORD] * 16)])

    def test_below_the_first_start(self) -> None:
        row = Row(9, 0, ((3, 1), (5, 0)))
        self.assertEqual([row.port(label) for label in range(9)], [0, 0, 0, 1, 1, 0, 0, 0, 0])
        self.assertEqual(lines.lines(row, 1)[0][16:20], (0, 3 << 16 | 1, 5 << 16, NO_WORD))

    def test_text_and_bytes(self) -> None:
        table = lines.lines(drawn(16384, 600, 300, 1), 9)
        self.assertEqual(lines.read(lines.as_bytes(table)), table)
        self.assertEqual(lines.read(lines.as_text(table).encode()), table)
        self.assertEqual(lines.as_bytes(table)[:8], struct.pack("<II", 9, 16384))
        self.assertTrue(lines.as_text(table).startswith("00000009 00004000 "))

    def test_refused(self) -> None:
        good = ((0, 0), (5, 1))
        for row, epoch, said in (
            (Row(14, 4, ((5, 1), (0, 0))), 1, "ascend"), (Row(14, 4, ((0, 0), (0, 1))), 1, "ascend"), (Row(14, 4, ((0, 0), (14, 1))), 1, "ascend"),
            (Row(14, 14, good), 1, "its own label is one of them"), (Row(0, 0, ()), 1, "16,384 labels"), (Row(16385, 0, good), 1, "16,384 labels"),
            (Row(14, 4, ((0, 1024),)), 1, "a port is a number from 0 to 1023"), (Row(14, 4, good), 0, "an epoch is a number from 1 to 65535"),
            (Row(14, 4, good), 65536, "an epoch is a number from 1 to 65535"), (Row(16384, 4, tuple((0, 0) for _ in range(16385))), 1, "at most 16,384 starts"),
        ):
            with self.subTest(said=said), self.assertRaisesRegex(LinesError, said):
                lines.lines(row, epoch)
        for data in (b"", b"x", b"00000001\n", bytes(130), ("0000000g " * 32).strip().encode()):
            with self.subTest(data=data), self.assertRaises(LinesError):
                lines.read(data)
        with self.assertRaisesRegex(LinesError, "is not in the range"):
            lines.port_by_lines(lines.lines(Row(14, 4, good), 1), 14)
        with self.assertRaisesRegex(LinesError, "needs at least one start"):
            Row(1, 0, ()).port(0)

    def test_row_of(self) -> None:
        plan = read_plan(PLAN)
        self.assertEqual(xdp.row_at(plan, "b", ["a", "c"]), Row(3, 1, ((2, 1),)))
        self.assertEqual(xdp.row_at(plan, "b", ["c"]).text(), "3 1\n2 0\n")
        with self.assertRaisesRegex(LinesError, "which has no port"):
            xdp.row_at(plan, "b", ["a"])
        with self.assertRaisesRegex(xdp.PlaneError, "no node d"):
            xdp.row_at(plan, "d", [])


class Words(unittest.TestCase):
    def said(self, *words: Any) -> tuple[Any, Any, Any]:
        """The status, the output and what is said for words of `xdp`."""
        output, said = io.TextIOWrapper(io.BytesIO()), io.StringIO()
        with contextlib.redirect_stdout(output), contextlib.redirect_stderr(said):
            status = __main__.main(["xdp", *words])
            output.flush()
        return status, output.buffer.getvalue(), said.getvalue()  # type: ignore[attr-defined]

    def tool(self, script: Any) -> None:
        """A program that stands for the plane's."""
        folder = tempfile.TemporaryDirectory()
        self.addCleanup(folder.cleanup)
        path = pathlib.Path(folder.name, "tool")
        path.write_text("#!/bin/sh\n" + script)
        path.chmod(0o755)
        changed = mock.patch.dict(os.environ, {xdp.VARIABLE: str(path)})
        changed.start()
        self.addCleanup(changed.stop)

    def test_show(self) -> None:
        found = xdp.read_plane("node b mode xdp host bz0 own bz1 stamp 3\nport 0 a to1\nport 1 c to3 gone\nepoch 3 lines 1\n")
        self.assertEqual((found.node, found.mode, found.stamped, found.epochs), ("b", "xdp", 3, (3,)))
        self.assertEqual([(it.neighbour, it.is_gone) for it in found.ports], [("a", False), ("c", True)])
        for text in ("", "port 0 a to1\n", "something\n"):
            with self.assertRaises(xdp.PlaneError):
                xdp.read_plane(text)

    def test_sentences(self) -> None:
        self.tool('echo "bentzolu-xdp: no plane is up at $2: begin with \\`up\\`" >&2\nexit 1\n')
        self.assertEqual(self.said("--pins", "/p", "counts"), (1, b"", "bentzolu xdp: no plane is up at /p: begin with `up`\n"))
        self.assertEqual(self.said("stamp", "1")[0], 1)
        self.assertIn("give NEIGHBOUR=DEVICE", self.said("up", "--node", "a", "b")[2])

    def test_missing(self) -> None:
        with mock.patch.dict(os.environ, {xdp.VARIABLE: "/nowhere/bentzolu-xdp"}):
            self.assertIn("can't be run", self.said("counts")[2])
        with mock.patch.dict(os.environ, {"PATH": "/nowhere"}), mock.patch.object(xdp, "BUILT", pathlib.Path("/nowhere/bentzolu-xdp")):
            os.environ.pop(xdp.VARIABLE, None)
            self.assertIn("plane/make", self.said("counts")[2])

    def test_neighbours(self) -> None:
        with tempfile.TemporaryDirectory() as folder:
            for name, text in (("net.adjlist", "a b c\nd a\nb c\n"), ("net.edgelist", "a b 1\nc a 2\na d 3\n")):
                path = pathlib.Path(folder, name)
                path.write_text(text)
                found = xdp_words.neighbours_in(str(path), "a")
                self.assertEqual(found, ["b", "c", "d"])

    @unittest.skipUnless(HAS_ROUTE, "there is no program route")
    def test_table(self) -> None:
        net = str(TOP / "examples" / "nsfnet.edgelist")
        words = ("table", "1", net, "--node", "SaltLakeCity", "--kind", "tree", "--root", "Houston")
        status, text, said = self.said(*words)
        self.assertEqual((status, said), (0, ""))
        table = lines.read(text)
        self.assertEqual(lines.read(self.said(*words, "--binary")[1]), table)
        self.assertEqual(table[0][:5], (1, 14, 4, 0, 0))
        near = xdp_words.neighbours_in(net, "SaltLakeCity")
        self.assertEqual([near[lines.port_by_lines(table, label)] for label in (0, 5)], ["PaloAlto", "Boulder"])
        self.assertIn("no node Nowhere", self.said("table", "1", net, "--node", "Nowhere")[2])

    @unittest.skipUnless(HAS_ROUTE, "there is no program route")
    def test_install(self) -> None:
        """`install` gives the row of the plane's node, with the ports that the plane has."""
        self.tool('case $3 in show) printf "node SaltLakeCity mode tc host bz0 own bz1 stamp 0\\nport 0 Boulder x\\nport 1 PaloAlto y\\n" ;;\n'
                  '*) cat "$5" > "$2"; cat > "$2.lines" ;; esac\n')
        with tempfile.TemporaryDirectory() as folder:
            net, pins = str(TOP / "examples" / "nsfnet.edgelist"), f"{folder}/pins"
            status, _, said = self.said("--pins", pins, "install", "2", net, "--kind", "tree", "--root", "Houston")
            self.assertEqual((status, said), (0, ""))
            self.assertEqual(pathlib.Path(pins).read_text(), "14 4\n0 1\n5 0\n")
            self.assertEqual(lines.read(pathlib.Path(f"{pins}.lines").read_bytes())[0][:5], (2, 14, 4, 0, 0))
            self.assertIn("not to Houston", self.said("--pins", pins, "install", "2", net, "--node", "Houston")[2])

    def test_parser(self) -> None:
        parser = argparse.ArgumentParser()
        xdp_words.add_words(parser.add_subparsers())
        found = parser.parse_args(["xdp", "drained", "3", "/a", "/b"])
        self.assertEqual((found.word, found.epoch, found.more, found.pins), ("drained", 3, ["/a", "/b"], xdp.PINS))
        with contextlib.redirect_stderr(io.StringIO()), self.assertRaises(SystemExit):
            parser.parse_args(["xdp", "stamp"])


if __name__ == "__main__":
    sys.exit(unittest.main())  # type: ignore[arg-type]
