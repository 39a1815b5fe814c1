"""The Python package, by its own tests in python/tests; `tests/python` runs it.

There is a test here for each module there, so that several run at a time. Each has a process of its own, under the python
that runs these tests: that is to have NetworkX, and NumPy for sweeps. What needs the program is not tried where that is not
built.
"""
from __future__ import annotations

import glob
import os
import subprocess
import sys
from typing import Callable

from support.checks import add, say
from support.places import TOP, built_program, why_no_program

FOLDER = os.path.join(TOP, "python", "tests")
SECONDS = 1_150  # that a module may take


def case_of(module: str) -> Callable[[], None]:
    """Return the test that runs a module's tests."""
    def test() -> None:
        environment = {**os.environ, "PYTHONDONTWRITEBYTECODE": "1"}
        if why_no_program():
            say(f"python: {why_no_program()}; what needs it is not tried")
        else:
            environment["BENTZOLU_ROUTE"] = built_program()
        command = [sys.executable, os.path.join(TOP, "tests", "support", "unittests.py"), module]
        done = subprocess.run(command, cwd=TOP, env=environment, stdin=subprocess.DEVNULL, stdout=subprocess.PIPE,
                              stderr=subprocess.PIPE, text=True, timeout=SECONDS, check=False)
        # Engines may still write to standard error when all tests are done: what is printed ends with the count.
        add(f"python/tests/{module}.py", f"{done.stderr}\n{done.stdout}", done.returncode)

    test.__doc__ = f"The tests of python/tests/{module}.py."
    return test


for _path in sorted(glob.glob(os.path.join(FOLDER, "test_*.py"))):
    _module = os.path.basename(_path)[:-3]
    globals()[f"test_{_module[5:]}"] = case_of(_module)
