"""Labels that installs keep: `--numbering keep`, and the words that are refused beside it."""
from __future__ import annotations

import concurrent.futures
import os

from oracle.keeps import keeps_fault
from support.checks import count
from support.marks import built
from support.route import expect, put, refused, run

pytestmark = [built]

SEEDS = range(120)


def test_keeps() -> None:
    """Runs by chance beside the plans of their epochs."""
    with concurrent.futures.ThreadPoolExecutor(os.cpu_count()) as pool:
        for fault in pool.map(keeps_fault, SEEDS):
            count("a run that keeps labels", fault)


def test_words() -> None:
    """What keeps labels is of no tree and no landmarks, and of no other subcommand a word of its own."""
    net, script = put("keep/net", "a b\nb c\n"), put("keep/script", "inject a c\ndrain\n")
    for kind, sentence in (("tree", b"works only with '--numbering depth-first'"), ("landmark", b"cannot be used with '--numbering'")):
        output, faults, status = run(["sim", "--kind", kind, "--numbering", "keep", net, script])
        count(f"keep beside {kind}", None if (output, status) == (b"", 2) and sentence in faults else f"{status}: {faults!r}")
    refused("a file named keep that is not there", run(["plan", "--numbering", "keep", net]), "numbering unreadable")
    expect("a file named keep", run(["plan", "--order", "--numbering", put("keep/keep", "c\na\nb\n"), net]), b"c\na\nb\n", b"", 0)
    refused("a kind that is none", run(["sim", net, put("keep/best", "renumber best a\n")]), "script 1 BadCommand")
    refused("a root that is no node", run(["sim", net, put("keep/root", "renumber tree d\n")]), "script 1 UnknownNode")
