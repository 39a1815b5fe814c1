"""Runs a driver of tests/support in a process of its own, and counts its checks."""
from __future__ import annotations

import os
import subprocess
import sys

from support.checks import add
from support.places import TOP, built_program


def drive(name: str, *words: str) -> None:
    """Count the checks of a driver.

    Parameters
    ----------
    name : str
        Its file, without .py. It runs at the top of the repository, with python in PYTHONPATH and the program in BENTZOLU_ROUTE.
    *words : str
        The words of its command line.
    """
    environment = {**os.environ, "BENTZOLU_ROUTE": built_program(), "PYTHONPATH": os.path.join(TOP, "python"),
                   "PYTHONDONTWRITEBYTECODE": "1"}
    path = os.path.join(TOP, "tests", "support", f"{name}.py")
    done = subprocess.run([sys.executable, path, *words], cwd=TOP, env=environment, stdin=subprocess.DEVNULL, stdout=subprocess.PIPE,
                          stderr=subprocess.STDOUT, text=True, check=False)
    add(" ".join([name, *words]), done.stdout, done.returncode)
