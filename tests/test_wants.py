"""Wants of memory that the sources write by hand; `tests/names` runs it.

A contract cannot see that the allocator refused a growth, so a body that answers want of memory for nothing is proved. Each
place that makes such an answer is in tests/golden/wants with the reason why it is one. A new place, or one that is
gone, is reported here: whoever writes it says what was refused.
"""
from __future__ import annotations

import glob
import os
import re
from collections import Counter
from typing import Counter as Counts

from support.checks import count
from support.places import TOP

GOLDEN = "tests/golden/wants"
FUNCTION = r"\s*(?:pub(?:\(crate\))? )?(?:const )?fn (\w+)"
CONTRACT = r"(?://|(?:ensures|requires|invariant|ghost|where|use|pub use|assert)\b)"
ASKED = r"(?:AllocError|NoMemory)\)?\)?\s*=>\s*(?:Err\(|\{|return|out_of)"  # what a match hands on under the same name
MADE = (r"Err\(\(?(?:\w+::)*(?:AllocError|NoMemory)\b|map_err\(\|_\| \(?(?:\w+::)*(?:AllocError|NoMemory)|=> \w+::NoMemory"
        r"|^(?:\w+::)+NoMemory$|^AllocError$|return \w+::NoMemory|Some\((?:\w+::)*NoMemory")


def made() -> Counts[str]:
    """Count the answers of want of memory that are written by hand, by file and function."""
    found: Counts[str] = Counter()
    for path in sorted(glob.glob(os.path.join(TOP, "crates", "*", "src", "**", "*.rt"), recursive=True)):
        place = os.path.relpath(path, os.path.join(TOP, "crates"))
        if place.partition(os.sep)[0].endswith("_tests"):
            continue
        function = ""
        with open(path, encoding="utf-8") as file:
            for line in file:
                head, text = re.match(FUNCTION, line), line.strip()
                function = head[1] if head else function
                if re.match(CONTRACT, text) or "->" in text or "\u2261" in text or re.search(ASKED, text):
                    continue
                found[f"{place} {function}"] += bool(re.search(MADE, text))
    return +found


def test_wants() -> None:
    """Each answer of want of memory has its reason, and each reason its answer."""
    given: Counts[str] = Counter()
    with open(os.path.join(TOP, GOLDEN), encoding="utf-8") as file:
        for line in file:
            place, _, reason = line.rstrip("\n").partition(": ")
            given[place] += 1
            count(f"{GOLDEN}: {place}", None if reason else "no reason stands there")
    there = made()
    for place in sorted({*there, *given}):
        differs = f"{there[place]} in the sources, {given[place]} in {GOLDEN}: each wants its reason there"
        count(f"{place}: wants of memory", None if there[place] == given[place] else differs)
