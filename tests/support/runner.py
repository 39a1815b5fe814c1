"""Runs the tests of one part, with pytest where it is installed and without it elsewhere.

    runner.py PART [PROGRAM [SECTION ..]]

PART names modules in PARTS. PROGRAM is the built program to drive. A SECTION is the first word of tests: `cases`
runs `test_cases` and `test_cases_of_live`. With pytest, tests run on several processors where python3-pytest-xdist
is installed, and those that have to run alone run afterwards. Without it the same tests run one by one, without a limit
of time. The last line is `N passed, M failed` or that and `, K skipped`. The status is 0 where M is 0.
"""
from __future__ import annotations

import importlib
import importlib.util
import inspect
import os
import re
import subprocess
import sys
import tempfile
import time
import traceback
from typing import Callable, Dict, Iterator, List, Tuple

HERE = os.path.dirname(os.path.dirname(os.path.abspath(__file__)))
sys.path.insert(0, HERE)
sys.dont_write_bytecode = True
from support import checks, places, printed  # noqa: E402

PARTS = {
    "names": ["names", "wants", "cases"],
    "style": ["style"],
    "completions": ["completions"],
    "dataplane": ["dataplane"],
    "fleet": ["fleet"],
    "fleet_sim": ["fleet_sim"],
    "lab": ["lab"],
    "library": ["library", "release"],
    "page": ["page"],
    "program": ["examples", "inputs", "words", "outputs", "called", "documents", "front", "plans", "figures", "circles", "live",
                "whole", "steps", "sizes", "limits", "explained", "explained_inputs", "landmarks",
                "terminals"],
    "plane": ["plane"],
    "python": ["python"],
    "runs": ["runs", "runs_great"],
}
WANT_PROGRAM = {"program", "runs"}
QUICK = {"completions", "names"}  # of some seconds, which pytest would double
ALONE = {"dataplane", "fleet_sim", "lab", "library", "page", "plane", "runs"}  # whose tests all run alone
MOST = {"fleet": 4}  # processes that run tests of a part at a time, where 8 are too many
LAST = r"(\d+) passed, (\d+) failed(?:, (\d+) skipped)?"


def modules_of(part: str) -> List[str]:
    """Return the names of a part's modules."""
    return [f"test_{name}" for name in PARTS[part]]


def tests_of(module: str) -> Iterator[Tuple[str, Callable[..., None]]]:
    """Yield the tests of a module with their names, in the order of the text."""
    for name, test in list(vars(importlib.import_module(module)).items()):
        if name.startswith("test_") and inspect.isfunction(test):
            yield name, test


def is_chosen(name: str, sections: List[str]) -> bool:
    """Return whether a test is of one of these sections, or of any where there is none."""
    return not sections or any(name == f"test_{it}" or name.startswith(f"test_{it}_") for it in sections)


def without_pytest(part: str, sections: List[str]) -> Tuple[int, int, int]:
    """Run the tests of a part one by one; return how many checks passed, failed and were skipped."""
    sums = [0, 0, 0]
    for module in modules_of(part):
        for name, test in tests_of(module):
            if not is_chosen(name, sections):
                continue
            checks.begin()
            begun = time.monotonic()
            folder = places.begin_scratch()
            given = {"scratch": folder, "program": places.built_program()}
            try:
                test(**{word: given[word] for word in inspect.signature(test).parameters})
            except Exception:  # a test that stops is a failure, and the others go on
                checks.count(name, traceback.format_exc())
            finally:
                places.end_scratch()
            tally = checks.taken()
            for line in [*tally.said, *(f"wrong: {fault}" for fault in tally.faults)]:
                print(line)
            number = tally.passed + len(tally.faults)
            print(f"{name}: {number} checks, {time.monotonic() - begun:.1f} s", flush=True)
            sums = [sums[0] + tally.passed, sums[1] + len(tally.faults), sums[2] + tally.skipped]
    return sums[0], sums[1], sums[2]


def by_pytest(part: str, sections: List[str], marks: str, words: List[str]) -> Tuple[int, int, int]:
    """Run the tests of a part that have these marks by pytest; return what it counted."""
    command = [sys.executable, "-m", "pytest", "-qq", "-m", marks, *words]
    command += [f"--section={section}" for section in sections]
    command += [os.path.join(HERE, f"{module}.py") for module in modules_of(part)]
    counted = (0, 1, 0)
    environment: Dict[str, str] = {**os.environ, "BENTZOLU_ROUTE": places.built_program(), "PYTHONDONTWRITEBYTECODE": "1"}
    with subprocess.Popen(command, stdout=subprocess.PIPE, text=True, env=environment) as process:
        assert process.stdout is not None
        for line in process.stdout:
            last = re.fullmatch(LAST, line.strip())
            if last:
                counted = int(last[1]), int(last[2]), int(last[3] or 0)
            elif not re.fullmatch(r"(bringing up nodes\.\.\.)?\s*(\[ *\d+%\])?", line.strip()):
                print(line, end="", flush=True)
    return counted


def many_words(part: str) -> List[str]:
    """Return the words by which pytest runs tests of a part on several processors; none where it can't."""
    processors = len(os.sched_getaffinity(0))
    if processors == 1 or importlib.util.find_spec("xdist") is None:
        return []
    return ["-n", str(min(processors, MOST.get(part, 8))), "--dist", "worksteal" if has_worksteal() else "load"]


def has_worksteal() -> bool:
    """Return whether tests that wait for a worker can go to another one."""
    xdist = importlib.import_module("xdist")
    return tuple(int(word) for word in re.findall(r"\d+", xdist.__version__)[:2]) >= (3, 2)


def ran(part: str, sections: List[str]) -> Tuple[int, int, int]:
    """Run the tests of a part; return how many checks passed, failed and were skipped."""
    every = [name for module in modules_of(part) for name, _ in tests_of(module)] if sections else []
    for section in sections:
        if not any(is_chosen(name, [section]) for name in every):
            print(f"there is no section {section}: they are the first words of {' '.join(sorted(every))}")
            return 0, 1, 0
    if part in QUICK:
        return without_pytest(part, sections)
    if importlib.util.find_spec("pytest") is None:
        print("there is no pytest here, which packaging/test-packages installs: the tests run one by one", flush=True)
        return without_pytest(part, sections)
    many = [] if part in ALONE else many_words(part)
    runs = [by_pytest(part, sections, "not alone", many), by_pytest(part, sections, "alone", [])] if many else [
        by_pytest(part, sections, "alone or not alone", [])]
    return sum(run[0] for run in runs), sum(run[1] for run in runs), sum(run[2] for run in runs)


def ran_whole(part: str, sections: List[str]) -> Tuple[int, int, int]:
    """Run the tests of a part; where that is the whole program, also look for sentences that no test made it say."""
    if part != "program" or sections:
        return ran(part, sections)
    with tempfile.TemporaryDirectory(prefix="route-") as folder:
        os.environ[printed.PLACE] = os.path.join(folder, "printed")
        passed, failed, skipped = ran(part, sections)
        checks.begin()
        printed.check(os.environ.pop(printed.PLACE))
    tally = checks.taken()
    for fault in tally.faults:
        print(f"wrong: {fault}")
    print(f"sentences: {tally.passed + len(tally.faults)} checks", flush=True)
    return passed + tally.passed, failed + len(tally.faults), skipped


def main(words: List[str]) -> int:
    """Run the tests of a part, and print how many checks passed, failed and were skipped."""
    part, *rest = words
    if rest and part in WANT_PROGRAM:
        places.use_program(rest.pop(0))
    why = places.why_no_program() if part in WANT_PROGRAM else ""
    if why:
        print(f"wrong: the program: {why}")
    try:
        passed, failed, skipped = (0, 1, 0) if why else ran_whole(part, rest)
    except Exception:  # a module that can't be read
        traceback.print_exc(file=sys.stdout)
        passed, failed, skipped = 0, 1, 0
    print(f"{passed} passed, {failed} failed" + (f", {skipped} skipped" if skipped else ""))
    return 1 if failed else 0


if __name__ == "__main__":
    sys.exit(main(sys.argv[1:]))
