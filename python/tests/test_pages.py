"""The lines of Python in docs/NETWORKX.md and in the READMEs of the package and the examples: they run, and print what is said."""
from __future__ import annotations

import ast
import contextlib
import io
import os
import pathlib
import re
import tempfile
import unittest
from typing import Any

from common import ROUTE, TOP, bentzolu, needs_route

BLOCK = re.compile(r"^```python\n(.*?)^```\n(?:\nIt prints\n\n((?:    [^\n]*\n)+))?", flags=re.M | re.S)


def numbers(text: Any) -> list[Any]:
    """The whole numbers of a text, without the commas between thousands."""
    return [int(word.replace(",", "")) for word in re.findall(r"\d[\d,]*(?:(?<=\d)\b)", text)]


def blocks(path: Any) -> Any:
    """The blocks of Python of a page, each with what the page says that it prints, or None."""
    return BLOCK.findall((TOP / path).read_text(encoding="utf-8"))


@needs_route
class PagesTest(unittest.TestCase):
    def setUp(self) -> None:
        folder = tempfile.TemporaryDirectory()
        self.addCleanup(folder.cleanup)
        self.addCleanup(os.chdir, os.getcwd())
        before = os.environ["PATH"]
        self.addCleanup(os.environ.__setitem__, "PATH", before)
        os.chdir(folder.name)
        pathlib.Path("bentzolu").symlink_to(pathlib.Path(ROUTE).resolve())
        os.environ["PATH"] = os.pathsep.join([folder.name, before])

    def printed(self, code: Any, names: Any) -> Any:
        """What a block prints."""
        output = io.StringIO()
        with contextlib.redirect_stdout(output):
            exec(compile(code, "block", "exec"), names)
        return output.getvalue()

    def test_networkx(self) -> None:
        """Each block of docs/NETWORKX.md, one after the other: its assertions hold, and it prints what is below it."""
        names: dict[Any, Any] = {}
        found = blocks("docs/NETWORKX.md")
        for code, said in found:
            wanted = "".join(line[4:] + "\n" for line in said.splitlines())
            self.assertEqual(self.printed(code, names), wanted)
        self.assertGreater(len(found), 2)
        self.assertTrue(any(said for _, said in found))

    def test_kinds(self) -> None:
        """What docs/NETWORKX.md says of other kinds: the assertion about walks holds for `shortest`, and not for `tree`."""
        first, walks, _ = (code for code, _ in blocks("docs/NETWORKX.md"))
        self.assertIn('"compact"', walks)
        names: dict[Any, Any] = {}
        self.printed(first, names)
        self.printed(walks.replace('"compact"', '"shortest"'), names)
        with self.assertRaises(AssertionError):
            self.printed(walks.replace('"compact"', '"tree"'), names)

    def test_package(self) -> None:
        """Each line of python/README.md runs; a value has the numbers, or the `True`, that the comment beside it names."""
        names, seen = {"bentzolu": bentzolu}, 0
        for code, _ in blocks("python/README.md"):
            lines = code.split("\n")
            for node in ast.parse(code).body:
                text = ast.get_source_segment(code, node)
                if not isinstance(node, ast.Expr):
                    exec(text, names)  # type: ignore[arg-type]
                    continue
                with contextlib.redirect_stdout(io.StringIO()):
                    value = eval(text, names)  # type: ignore[arg-type]
                note = lines[node.end_lineno - 1][node.end_col_offset:].partition("#")[2]  # type: ignore[operator]
                if numbers(note):
                    self.assertEqual(numbers(note), [int(it) for it in value], text)
                    seen += 1
                if "True" in note:
                    self.assertIs(value, True, text)
                    seen += 1
        self.assertGreater(seen, 2)

    def test_examples(self) -> None:
        """The lines of examples/README.md make the files of that folder again, byte for byte."""
        for code, _ in blocks("examples/README.md"):
            self.printed(code, {})
        made = sorted(path.name for path in pathlib.Path().iterdir() if path.name != "bentzolu")
        self.assertGreater(len(made), 4)
        for name in made:
            with self.subTest(file=name):
                self.assertEqual(pathlib.Path(name).read_bytes(), (TOP / "examples" / name).read_bytes())


if __name__ == "__main__":
    unittest.main()
