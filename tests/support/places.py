"""Where things are: the repository, the built program, and the folder that a test writes to."""
from __future__ import annotations

import os
import shutil
import tempfile
from typing import List

TOP = os.path.dirname(os.path.dirname(os.path.dirname(os.path.abspath(__file__))))
BUILT = "crates/route/out/route"

_program: List[str] = []
_scratch: List[str] = []


def use_program(path: str) -> None:
    """Let the tests drive this program instead of the one that is built."""
    _program[:] = [os.path.abspath(path)]


def built_program() -> str:
    """Return the path of the program: the one that was named, else that of BENTZOLU_ROUTE, else the built one."""
    if _program:
        return _program[0]
    return os.path.abspath(os.environ.get("BENTZOLU_ROUTE") or os.path.join(TOP, BUILT))


def why_no_program() -> str:
    """Return why no test can drive the program, or an empty text."""
    path = built_program()
    return "" if os.access(path, os.X_OK) else f"there is no {path}: build it by (cd crates/route && rt run < stdin)"


def program() -> str:
    """Return the path by which the tests call the program.

    A program that is called bentzolu calls itself so; it is then called by a link `route`.
    """
    path = built_program()
    if not os.path.basename(path).startswith("bentzolu"):
        return path
    link = work("route")
    if not os.path.lexists(link):
        os.symlink(path, link)
    return link


def begin_scratch() -> str:
    """Make the folder of a test, which other users may look into."""
    _scratch[:] = [tempfile.mkdtemp(prefix="route-")]
    os.chmod(_scratch[0], 0o755)
    return _scratch[0]


def end_scratch() -> None:
    """Remove the folder of a test with all that is in it."""
    shutil.rmtree(_scratch.pop(), ignore_errors=True)


def work(*names: str) -> str:
    """Return a path in the folder of the test.

    Parameters
    ----------
    *names : str
        The names of folders and of the file there; with none it is the folder itself.
    """
    return os.path.join(_scratch[0], *names)
