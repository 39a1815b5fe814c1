"""Runs a module of python/tests by unittest: unittests.py MODULE. Its last line is `N passed, M failed, K skipped`."""
from __future__ import annotations

import io
import os
import sys
import unittest
from typing import Any

TOP = os.path.dirname(os.path.dirname(os.path.dirname(os.path.abspath(__file__))))


class Result(unittest.TextTestResult):
    """Counts the tests that passed; one with a subtest that failed did not."""

    def __init__(self, *words: Any, **options: Any) -> None:
        super().__init__(*words, **options)
        self.passed = 0

    def addSuccess(self, test: unittest.TestCase) -> None:  # noqa: N802
        """Count a test that passed."""
        super().addSuccess(test)
        self.passed += 1


def main(module: str) -> int:
    """Run the tests of a module; return the status."""
    sys.path[0] = os.path.join(TOP, "python", "tests")
    suite = unittest.defaultTestLoader.loadTestsFromName(module)
    report = io.StringIO()
    result = unittest.TextTestRunner(stream=report, verbosity=0, resultclass=Result).run(suite)
    assert isinstance(result, Result)
    for test, why in result.skipped:
        print(f"skipped: {test.id()}: {why}")
    print("" if result.wasSuccessful() else report.getvalue())
    failed = result.testsRun - result.passed - len(result.skipped)
    failed = max(failed, int(bool(result.failures or result.errors)))
    print(f"{result.passed} passed, {failed} failed, {len(result.skipped)} skipped")
    return 1 if failed else 0


if __name__ == "__main__":
    sys.exit(main(sys.argv[1]))
