"""Checks that are counted one by one: a test makes many, and goes on when one fails.

A check is a name and what is wrong, which is nothing where it passed. `pytest` and the runner without it begin
a tally before each test and take it afterwards; a test with a failed check failed.
"""
from __future__ import annotations

import re
from dataclasses import dataclass, field
from typing import List


@dataclass
class Tally:
    """The checks of one test.

    Attributes
    ----------
    passed : int
        The number of checks that passed.
    faults : list of str
        A line for each check that failed: its name, and what was wrong.
    skipped : int
        The number of checks that could not be made here.
    said : list of str
        Lines that are printed in any case.
    """

    passed: int = 0
    faults: List[str] = field(default_factory=list)
    skipped: int = 0
    said: List[str] = field(default_factory=list)


_tallies: List[Tally] = [Tally()]


def begin() -> None:
    """Begin the tally of a test."""
    _tallies[0] = Tally()


def taken() -> Tally:
    """Return the tally since `begin`."""
    return _tallies[0]


def count(name: str, fault: object) -> None:
    """Count one check.

    Parameters
    ----------
    name : str
        What is checked.
    fault : object
        What is wrong; the check passed where this is false, as None is.
    """
    if fault:
        _tallies[0].faults.append(f"{name}: {fault}")
    else:
        _tallies[0].passed += 1


def skip(name: str, why: str, checks: int = 1) -> None:
    """Count checks that cannot be made here.

    Parameters
    ----------
    name : str
        What is not checked.
    why : str
        What is missing here.
    checks : int
        The number of checks.
    """
    _tallies[0].skipped += checks
    _tallies[0].said.append(f"skipped: {name}: {why}")


def add(name: str, output: str, status: int) -> int:
    """Count the checks of another program.

    Parameters
    ----------
    name : str
        What it checks.
    output : str
        What it printed: lines of what is wrong, and as the last one `N passed, M failed` or that and `, K skipped`.
    status : int
        With which status it ended.

    Returns
    -------
    int
        The number of its checks; 0 where its last line is no such line, which is a failure.
    """
    *lines, last = output.splitlines() or [""]
    found = re.fullmatch(r"(\d+) passed, (\d+) failed(?:, (\d+) skipped)?", last)
    if not found:
        count(name, f"it ended with status {status}: {output[-2000:]}")
        return 0
    passed, failed, skipped = (int(it or 0) for it in found.groups())
    failed = max(failed, int(status != 0))
    _tallies[0].passed += passed
    _tallies[0].skipped += skipped
    _tallies[0].faults += [f"{name}: its lines say what"] * failed
    _tallies[0].said += [line for line in lines if line.strip()]
    return passed + failed + skipped


def say(text: str) -> None:
    """Print a line with the outcome of the test."""
    _tallies[0].said.append(text)
