#!/usr/bin/env python3
"""Prints of how many nodes a plan of kind shortest makes the rows by searches of sixteen at a time, and of how many by one
search each, since their batch did not settle or went without: a row of Markdown for each network.

    batches.py [--program PATH] NETWORK ..

NETWORK is a family of networks.py with its numbers, as `random:1024:8192`, and after it `:weights` for random weights. The
built program runs on one thread under valgrind, which counts the calls of its functions by their names; that takes
fifty times as long as the plan. Outside the gate: it wants valgrind and the built program.
"""
from __future__ import annotations

import argparse
import os
import pathlib
import re
import subprocess
import sys
import tempfile
from typing import Any

BENCH = pathlib.Path(__file__).resolve().parent
ALONE, BATCH = "ir_plan::rows::searched_row", "ir_plan::batches::ways_from"


def calls(profile: Any) -> Any:
    """How often each function was called, by a profile of callgrind. A name is written in full where it comes first."""
    names: dict[Any, Any] = {}
    count: dict[Any, Any] = {}
    called = None
    for line in profile.splitlines():
        if line.startswith("cfn="):
            number, _, name = line[4:].partition(" ")
            names.setdefault(number, name)
            called = number
        elif line.startswith("fn="):
            number, _, name = line[3:].partition(" ")
            names.setdefault(number, name)
        elif line.startswith("calls=") and called:
            count[called] = count.get(called, 0) + int(line[6:].split()[0])
    found: dict[Any, Any] = {}
    for number, name in names.items():
        plain = re.sub(r"\W?\d+$", "", name) if "'" in name else name
        found[plain] = found.get(plain, 0) + count.get(number, 0)
    return found


def row(program: Any, name: Any, work: Any) -> list[Any]:
    words = name.split(":")
    weights = words[-1] == "weights"
    made = [sys.executable, str(BENCH / "networks.py"), "--weights" if weights else "--units", *words[: len(words) - weights]]
    network, profile = f"{work}/network", f"{work}/profile"
    with open(network, "w", encoding="ascii") as file:
        subprocess.run(made, stdout=file, check=True)
    plan = [program, "plan", "--format", "edgelist", "--threads", "1", network]
    counted = ["valgrind", "--tool=callgrind", f"--callgrind-out-file={profile}", *plan]
    subprocess.run(counted, stdout=subprocess.DEVNULL, stderr=subprocess.DEVNULL, check=True)
    found = calls(pathlib.Path(profile).read_text(encoding="utf-8", errors="replace"))
    with open(network, encoding="ascii") as file:
        nodes = len({end for line in file for end in line.split("#")[0].split()[:2]})
    alone = sum(count for function, count in found.items() if ALONE in function)
    batches = sum(count for function, count in found.items() if BATCH in function)
    if not batches:
        sys.exit(f"batches.py: {program} has no function {BATCH}, or {name} has too few nodes")
    return [" ".join(words), f"{nodes:,}", f"{batches:,}", f"{nodes - alone:,}", f"{alone:,}"]


def main() -> None:
    parser = argparse.ArgumentParser(description=__doc__, formatter_class=argparse.RawDescriptionHelpFormatter)
    parser.add_argument("--program", default=os.environ.get("BENTZOLU_ROUTE", str(BENCH / "../crates/route/out/route")))
    parser.add_argument("networks", nargs="+", metavar="NETWORK")
    arguments = parser.parse_args()
    print("| network | nodes | batches | rows by sixteen | rows by one |\n|---|---|---|---|---|")
    with tempfile.TemporaryDirectory() as work:
        for name in arguments.networks:
            print("| " + " | ".join(row(arguments.program, name, work)) + " |", flush=True)


if __name__ == "__main__":
    main()
