"""The files of tests/golden/cases are the rows of crates/route_tests/data/cases.json, which the proved runner reads.

A diff of the files can be read: `tests/cases` writes the rows of them, and `tests/cases --split` the files of the rows.
"""
from __future__ import annotations

import os

from support import cases
from support.checks import count


def test_each_case() -> None:
    """Each file is one example and written in the one form, and each row of cases.json is the example of its file."""
    rows = cases.of_rows()
    files = cases.paths()
    count("tests/golden/cases: as many files as rows", None if len(files) == len(rows) else f"{len(files)} and {len(rows)}")
    for path, row in zip(files, rows):
        with open(path, encoding="ascii") as file:
            text = file.read()
        case = cases.read(text)
        wrong = "not in the form that tests/cases --split writes" if cases.written(case) != text else None
        count(os.path.relpath(path, cases.TOP), wrong or (None if case == row else "not its row of cases.json: run tests/cases"))
