"""docs/TUTORIAL.md, from its first line to its last: what its commands and its lines of Python print."""
from __future__ import annotations

import doctest
import os
import pathlib
import re
import subprocess
import tempfile
import unittest
from typing import Any

from common import ROUTE, TOP, needs_route

BLOCK = re.compile(r"(?<=\n\n)(?:    .*\n|\n(?=    ))+")
PAGE = TOP / "docs/TUTORIAL.md"


def sessions(rows: Any) -> Any:
    """The commands of a block after `$ `, each with the lines that it prints; a `...` after them stands for more."""
    found: list[Any] = []
    for row in rows:
        if row.startswith("$ "):
            found.append((re.sub(r"\s{3,}# .*$", "", row[2:]), []))
        elif found:
            found[-1][1].append(re.sub(r"\s{3,}# .*$", "", row))
    return found


@needs_route
class TutorialTest(unittest.TestCase):
    def setUp(self) -> None:
        folder = tempfile.TemporaryDirectory()
        self.addCleanup(folder.cleanup)
        self.addCleanup(os.chdir, os.getcwd())
        os.chdir(folder.name)
        programs = pathlib.Path(folder.name, "bin")
        programs.mkdir()
        (programs / "bentzolu").symlink_to(pathlib.Path(ROUTE).resolve())
        path = os.pathsep.join([str(programs), os.environ["PATH"]])
        self.environment = {**os.environ, "PATH": path, "PYTHONPATH": str(TOP / "python"), "BENTZOLU_ROUTE": ROUTE}
        self.names: dict[Any, Any] = {}

    def test_each_block(self) -> None:
        blocks = BLOCK.findall(PAGE.read_text(encoding="utf-8"))
        shell = python = 0
        for block in blocks:
            rows = [row[4:] for row in block.split("\n")]
            for command, shown in sessions(rows):
                self.look_at_command(command, shown)
                shell += 1
            if any(row.startswith(">>> ") for row in rows):
                self.look_at_python("\n".join(rows))
                python += 1
        self.assertGreater(shell, 9)
        self.assertGreater(python, 1)

    def look_at_command(self, command: Any, shown: Any) -> None:
        done = subprocess.run(["bash", "-c", command], env=self.environment, capture_output=True, text=True, timeout=60)
        printed = (done.stdout + done.stderr).splitlines()
        shown = [row for row in shown if row]
        if shown[-1:] == ["..."]:
            shown = shown[:-1]
            printed = printed[: len(shown)]
        self.assertEqual(printed, shown, command)

    def look_at_python(self, text: Any) -> None:
        test = doctest.DocTestParser().get_doctest(text, self.names, PAGE.name, str(PAGE), 0)
        said: list[Any] = []
        runner = doctest.DocTestRunner(optionflags=doctest.NORMALIZE_WHITESPACE)
        failed = runner.run(test, out=said.append, clear_globs=False).failed
        self.names.update(test.globs)
        self.assertEqual(failed, 0, "".join(said))


if __name__ == "__main__":
    unittest.main()
