"""The annotations of the package, by `mypy --strict` as pyproject.toml configures it."""
from __future__ import annotations

import shutil
import subprocess
import tempfile
import unittest

from common import TOP

MYPY = shutil.which("mypy")


class Typed(unittest.TestCase):
    @unittest.skipIf(MYPY is None, "there is no mypy")
    def test_annotations(self) -> None:
        with tempfile.TemporaryDirectory() as folder:
            done = subprocess.run([MYPY, "--cache-dir", folder], cwd=TOP / "python", capture_output=True, text=True, timeout=600)  # type: ignore[list-item]
        self.assertEqual(done.returncode, 0, done.stdout + done.stderr)
