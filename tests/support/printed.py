"""Keeps what the program said in the tests, and finds the sentences of its sources that no test made it say.

The runner names a file in the environment, to which each process of the tests appends the lines that it saw. When all tests
of the program have run, each part of a literal of the crate of sentences has to be in one of these lines, or in the
text of a test, or in UNREACHED with its reason.
"""
from __future__ import annotations

import glob
import os
import re
from typing import Dict, Iterator, Set, Tuple

from support.checks import count
from support.places import TOP

PLACE = "BENTZOLU_PRINTED"
SENTENCES = "crates/ir_explain/src/*.rt"
TOKENS = r"""//.*|b?'(?:[^'\\]|\\.)'|b"(?:[^"\\]|\\.)*"|"((?:[^"\\]|\\.)*)\""""  # comments, bytes, and texts
PLACEHOLDER = r"\{[^{}]*\}|\\n"

# Parts of sentences that no text of a user makes the program say.
MEMORY = "tests/refused-memory refuses each allocation; the program then says so without a sentence"
UNREACHED: Dict[str, str] = {
    "out of memory while checking the trace": MEMORY,
    "out of memory while reading the numbering": MEMORY,
    "out of memory while opening the topology": MEMORY,
    "out of memory while reading the script": MEMORY,
    "out of memory while reading the topology": MEMORY,
    "the hops leave the path of their epoch's plan, or end where the fate does not explain it":
        "each finding of this kind says where, but for want of memory",
    "the board has too few places for a reader of each node": "a board is opened with a reader for each node",
    "a new cell of the registry refused its plan": "the kit's cell does so where it was written before, and it is new",
    "it names no node": "a script's names are looked up before it is played",
    "it names no link": "a script's links are looked up before it is played",
    "the node is not an end of that link": "a script's links are looked up before it is played",
}

_seen: Set[bytes] = set()


def keep(faults: bytes) -> None:
    """Append sentences that this process has not seen before to the file of all processes."""
    path = os.environ.get(PLACE)
    if not path:
        return
    fresh = {line for line in faults.splitlines() if line.startswith(b"route: ")} - _seen
    _seen.update(fresh)
    if fresh:
        with open(path, "ab", buffering=0) as file:
            file.write(b"".join(line + b"\n" for line in fresh))


def parts() -> Iterator[Tuple[str, str]]:
    """Yield each part of a literal that has at least three letters, with its place in the sources."""
    for path in sorted(glob.glob(os.path.join(TOP, SENTENCES))):
        with open(path, encoding="utf-8") as file:
            lines = file.read().split("\n")
        for at, line in enumerate(lines, 1):
            for literal in re.findall(TOKENS, line):
                for part in re.split(PLACEHOLDER, literal):
                    if len(re.sub("[^A-Za-z]", "", part)) >= 3:
                        yield f"{os.path.basename(path)}:{at}", part


def tested() -> str:
    """Return the texts of the tests."""
    found = []
    for path in sorted(glob.glob(os.path.join(TOP, "tests", "test_*.py"))):
        with open(path, encoding="utf-8") as file:
            found.append(file.read())
    return "\n".join(found)


def check(path: str) -> None:
    """Count each sentence's part: whether a test made the program say it."""
    with open(path, encoding="utf-8", errors="backslashreplace") as file:
        said = file.read()
    texts, names = tested(), set()
    for place, part in parts():
        names.add(part.strip())
        there = part in said or part.strip() in texts or part.strip() in UNREACHED
        count(f"{place}: {part.strip()!r} is said in a test", None if there else "no test made the program say it")
    for part in UNREACHED:
        count(f"{part!r} is a part of a sentence", None if part in names else "no literal has it: it goes from UNREACHED")
