"""What pytest learns of these tests: fixtures, the program to drive, sections, limits of time, and the count of checks.

A test makes checks by `support.checks`, each of which is counted. A test without any is one check itself. The last line of
a run is `N passed, M failed` or that and `, K skipped`, in checks.
"""
from __future__ import annotations

import signal
import types
from typing import Any, Callable, Dict, Generator, Iterator, List, Optional, cast

import pytest

from support import checks, places
from support.runner import is_chosen

def hook(**how: bool) -> Callable[[Any], Any]:
    """Say how pytest calls a hook."""
    return cast(Callable[[Any], Any], pytest.hookimpl(**how))


SECONDS = 1_200  # that a test may take where it says nothing else
MARKS = {
    "slow": "takes more than half a minute",
    "root": "wants root",
    "built": "wants the built program",
    "alone": "measures threads or time, or uses all processors: it runs when no other test does",
    "within(seconds)": "may take so many seconds",
}
sums: Dict[str, int] = {"passed": 0, "failed": 0, "skipped": 0}


def pytest_addoption(parser: pytest.Parser) -> None:
    """Add the options of these tests."""
    parser.addoption("--program", help="the program to drive, in place of the built one")
    parser.addoption("--section", action="append", default=[], help="run the tests whose names begin with this word")


def pytest_configure(config: pytest.Config) -> None:
    """Name the marks, and note the program."""
    for name, meaning in MARKS.items():
        config.addinivalue_line("markers", f"{name}: {meaning}")
    if config.getoption("--program"):
        places.use_program(config.getoption("--program"))


def pytest_collection_modifyitems(config: pytest.Config, items: List[pytest.Item]) -> None:
    """Leave out tests of other sections, and skip those for which something is missing."""
    sections: List[str] = config.getoption("--section")
    chosen = [item for item in items if is_chosen(item.name.partition("[")[0], sections)]
    if len(chosen) < len(items):
        config.hook.pytest_deselected(items=[item for item in items if item not in chosen])
        items[:] = chosen
    why = places.why_no_program()
    for item in items:
        if why and item.get_closest_marker("built"):
            item.add_marker(pytest.mark.skip(reason=why))


@pytest.fixture(autouse=True)
def scratch() -> Iterator[str]:
    """Give the test a folder of its own, in which the program runs."""
    yield places.begin_scratch()
    places.end_scratch()


@pytest.fixture
def program() -> str:
    """Give the path of the built program."""
    why = places.why_no_program()
    if why:
        pytest.skip(why)
    return places.built_program()


@pytest.fixture
def network(scratch: str) -> str:
    """Give the path of a small network: a topology of three nodes in a row."""
    path = places.work("network")
    with open(path, "w", encoding="ascii") as file:
        file.write("a b\nb c\n")
    return path


def too_long(_number: int, _frame: Optional[types.FrameType]) -> None:
    """End a test that takes too long."""
    raise TimeoutError("the test took longer than it may")


@hook(hookwrapper=True)
def pytest_runtest_call(item: pytest.Item) -> Generator[None, None, None]:
    """Run a test with a tally of its own, and for no longer than it may take."""
    checks.begin()
    mark = item.get_closest_marker("within")
    before = signal.signal(signal.SIGALRM, too_long)
    signal.alarm(mark.args[0] if mark else SECONDS)
    yield
    signal.alarm(0)
    signal.signal(signal.SIGALRM, before)


@hook(hookwrapper=True)
def pytest_runtest_makereport(item: pytest.Item, call: pytest.CallInfo[None]) -> Generator[None, None, None]:
    """Let a test fail of which a check failed, and send its counts along."""
    outcome = yield
    report: pytest.TestReport = outcome.get_result()  # type: ignore[attr-defined]
    if report.when != "call":
        return
    tally, stopped = checks.taken(), report.failed
    if tally.faults:
        report.outcome = "failed"
        lines = "\n".join(f"wrong: {fault}" for fault in tally.faults)
        report.longrepr = f"{lines}\n{report.longreprtext}" if stopped else lines
    alone = int(not tally.passed and not tally.faults and not tally.skipped)  # a test that counts no checks is one
    report.user_properties += [
        ("passed", tally.passed + (alone if report.passed else 0)),
        ("failed", len(tally.faults) + int(stopped)),
        ("skipped", tally.skipped + int(report.skipped)),
        ("said", "\n".join(tally.said)),
    ]


class Summary:
    """Adds up the counts of all tests, and prints each test and the sum."""

    def __init__(self, config: pytest.Config) -> None:
        self.config = config

    def pytest_report_teststatus(self, report: pytest.TestReport) -> Optional[object]:
        """Print no letter for a test where little is to be printed."""
        quiet = self.config.get_verbosity() if hasattr(self.config, "get_verbosity") else self.config.option.verbose
        return (report.outcome, "", "") if quiet < 0 and not report.failed else None

    @hook(trylast=True)
    def pytest_runtest_logreport(self, report: pytest.TestReport) -> None:
        """Add the counts of a test."""
        name = report.nodeid.rpartition("::")[2]
        if report.when != "call":
            sums["failed"] += int(report.failed)
            sums["skipped"] += int(report.skipped)
            if report.skipped:
                self.line(f"skipped: {name}: {report.longreprtext or report.longrepr}")
            return
        told = dict(report.user_properties)
        for what in sums:
            sums[what] += int(str(told[what]))
        for line in str(told["said"]).splitlines():
            self.line(line)
        if self.config.option.verbose < 0:
            self.line(f"{name}: {int(str(told['passed'])) + int(str(told['failed']))} checks, {report.duration:.1f} s")

    def line(self, text: str) -> None:
        """Print a line beside what pytest prints."""
        reporter = self.config.pluginmanager.get_plugin("terminalreporter")
        reporter.ensure_newline()
        reporter.write_line(text)

    def pytest_sessionfinish(self, exitstatus: int) -> None:
        """Count a run that stopped as a failure."""
        if exitstatus not in (pytest.ExitCode.OK, pytest.ExitCode.TESTS_FAILED, pytest.ExitCode.NO_TESTS_COLLECTED):
            sums["failed"] += 1

    def pytest_unconfigure(self) -> None:
        """Print the sum as the last line."""
        skipped = f", {sums['skipped']} skipped" if sums["skipped"] else ""
        print(f"{sums['passed']} passed, {sums['failed']} failed{skipped}", flush=True)


@hook(trylast=True)
def pytest_sessionstart(session: pytest.Session) -> None:
    """Sum up in the process that gathers what the others report."""
    if not hasattr(session.config, "workerinput"):
        session.config.pluginmanager.register(Summary(session.config), "summary")
