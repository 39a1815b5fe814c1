"""The marks of tests, which stand for nothing where pytest is not installed.

`slow` takes more than half a minute, `root` wants root, `built` wants the built program, `alone` measures threads or
time, or uses all processors: it runs when no other test does. `within` says how many seconds a test may take.
"""
from __future__ import annotations

from typing import Any, Callable, TypeVar

Test = TypeVar("Test", bound=Callable[..., None])

try:
    import pytest
except ImportError:

    def slow(test: Test) -> Test:
        """Mark a test that takes long."""
        return test

    def within(seconds: int) -> Callable[[Test], Test]:
        """Mark a test with the seconds that it may take."""
        return slow

    root = built = alone = slow
else:
    slow: Any = pytest.mark.slow  # type: ignore[no-redef]
    within: Any = pytest.mark.within  # type: ignore[no-redef]
    root: Any = pytest.mark.root  # type: ignore[no-redef]
    built: Any = pytest.mark.built  # type: ignore[no-redef]
    alone: Any = pytest.mark.alone  # type: ignore[no-redef]
