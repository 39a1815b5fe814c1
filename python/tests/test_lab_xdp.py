"""The lab's network over the plane in XDP: its scripts, and the hops of its events."""
from __future__ import annotations

import os
import pathlib
import subprocess
import sys
import tempfile
import unittest
from unittest import mock

import common  # noqa: F401

from bentzolu import lab_xdp, lines, xdp
from bentzolu.lab_net import LabError
from bentzolu.texts import read_plan

PLAN = "plan tree 3 4\na 0 1 b\nb 1 0 a 2 c\nc 2 0 b\n"


class Scripts(unittest.TestCase):
    def setUp(self) -> None:
        folder = tempfile.TemporaryDirectory()
        self.addCleanup(folder.cleanup)
        self.folder = pathlib.Path(folder.name)
        changed = mock.patch.dict(os.environ, {xdp.VARIABLE: str(self.folder / "bin" / "bentzolu-xdp")})
        changed.start()
        self.addCleanup(changed.stop)
        self.plan = read_plan(PLAN)
        self.network = lab_xdp.XdpNetwork(self.plan, [("a", "b"), ("b", "c")], "tc")

    def test_install(self) -> None:
        """The row and the lines of a node are given as documents of the shell."""
        script = self.network.install("b", self.network.rows_of(self.plan, None), 3)
        row, text = script.split("END\n")[0], script.split("<<'END'\n")[2].split("END\n")[0]
        self.assertEqual(row.splitlines()[1:], ["3 1", "0 0", "2 1"])
        self.assertEqual(lines.read(text.encode())[0][:5], (3, 3, 1, 0, 0))
        self.assertIn("/n2 install 3 /run/bentzolu-row-2 <<'END'", script)
        done = subprocess.run(["sh", "-n"], input=script + self.network.up(), text=True, capture_output=True, check=False)
        self.assertEqual((done.returncode, done.stderr), (0, ""))

    def test_up(self) -> None:
        script = self.network.up()
        self.assertIn("up tc b 1 bz0 bz1 a to1 02:00:00:00:00:01 c to3 02:00:00:00:00:03 <<'END'", script)
        self.assertNotIn("nft", script)
        self.assertEqual(self.network.size_of(self.plan), 4)
        self.assertTrue(self.network.drained(2).endswith("drained 2 /run/bentzolu-pins/n1 /run/bentzolu-pins/n2 /run/bentzolu-pins/n3\n"))

    def test_other_words(self) -> None:
        for script, words in ((self.network.stamp("a", 4), "stamp 4"), (self.network.retire("a", None, 4), "retire 4"),
                              (self.network.replace("a", self.plan, 1), "replace 1")):
            self.assertIn(f"--pins /run/bentzolu-pins/n1 {words} <<'END'", script)

    def test_object(self) -> None:
        with self.assertRaisesRegex(LabError, "plane/make"):
            self.network.probing()
        for at in ("lib/bentzolu", "bin"):  # of a package, and beside the program
            (self.folder / at).mkdir(parents=True)
            (self.folder / at / lab_xdp.OBJECT).touch()
            network = lab_xdp.XdpNetwork(self.plan, [("a", "b"), ("b", "c")], "tc")
            self.assertEqual(network.object, str(self.folder / at / lab_xdp.OBJECT))
            self.assertIn("up tc probe 0 a b", network.probing()["probe"])

    def test_frames(self) -> None:
        """Only what was forwarded is a hop; a port is a neighbour in the order of the links."""
        events = [(7, 1, 1, 1, 254, 0), (7, 1, 2, 0, 254, 1), (8, 2, 1, 0, 253, 0), (9, 2, 0, 0, 255, 3)]
        data = b"".join(lab_xdp.EVENT.pack(*event, 0) for event in events)
        self.assertEqual(self.network.frames(data), [(7, 254, 1, 2, 1), (8, 253, 1, 0, 2)])


if __name__ == "__main__":
    sys.exit(unittest.main())  # type: ignore[arg-type]
