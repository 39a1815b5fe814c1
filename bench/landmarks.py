#!/usr/bin/env python3
"""Plans of kind landmark beside those of the other kinds, by turns: seconds of a processor and by the clock, and the greatest resident set.

    landmarks.py [--nodes N] [--links M] [--weights] [--threads T] [--turns K] [KIND ..]

The network is a random one. The text of a plan goes nowhere. Rows have the least seconds of all turns; the last column is over the
last kind. Under load seconds of a processor grow less than those by the clock.
"""
from __future__ import annotations

import argparse
import contextlib
import os
import pathlib
import random
import re
import subprocess
import sys
import tempfile
import time
from typing import Any

HERE = pathlib.Path(__file__).resolve().parent
sys.dont_write_bytecode = True
sys.path[:0] = [str(HERE.parent / "python"), str(HERE)]

import bentzolu  # noqa: E402


def random_text(nodes: int, links: int, has_weights: bool) -> str:
    """A weighted edge list of a random connected network."""
    luck = random.Random(2)
    found = {(luck.randrange(v), v) for v in range(1, nodes)}
    while len(found) < links:
        u, v = sorted((luck.randrange(nodes), luck.randrange(nodes)))
        if u != v:
            found.add((u, v))
    return "".join(f"n{u} n{v} {luck.randint(1, 100) if has_weights else 1}\n" for u, v in sorted(found))


def took(kind: str, threads: int, file: str) -> tuple[float, float, float]:
    """Seconds of a processor, seconds by the clock, and megabytes, of a plan."""
    began, size = time.perf_counter(), 0
    words: Any = [bentzolu.find_program(), "plan", "--kind", kind, "--format", "edgelist", "--threads", str(threads), "--quiet", file]
    with subprocess.Popen(words, stdout=subprocess.DEVNULL) as process:
        ended = 0
        while not ended:
            with contextlib.suppress(OSError, IndexError), open(f"/proc/{process.pid}/status", encoding="ascii") as status_file:
                size = max(size, int(re.findall(r"VmHWM:\s*(\d+) kB", status_file.read())[0]))  # of the program alone, not of what started it
            time.sleep(0.002)
            ended, status, used = os.wait4(process.pid, os.WNOHANG)
        process.returncode = os.waitstatus_to_exitcode(status)
    if process.returncode:
        raise SystemExit(f"{' '.join(map(str, words))}: status {process.returncode}")
    return used.ru_utime + used.ru_stime, time.perf_counter() - began, size / 1024


def main() -> None:
    words = argparse.ArgumentParser(description=(__doc__ or "").split("\n", maxsplit=1)[0])
    for name, number in (("nodes", 1_024), ("links", 8_192), ("threads", 1), ("turns", 3)):
        words.add_argument(f"--{name}", type=int, default=number)
    words.add_argument("--weights", action="store_true")
    words.add_argument("kinds", nargs="*", default=["landmark", "compact", "shortest"])
    given = words.parse_args()
    with tempfile.NamedTemporaryFile("w", suffix=".edgelist") as file:
        file.write(random_text(given.nodes, given.links, given.weights))
        file.flush()
        rows: dict[str, list[tuple[float, float, float]]] = {}
        for _ in range(given.turns):
            for kind in given.kinds:
                rows.setdefault(kind, []).append(took(kind, given.threads, file.name))
    least = {kind: [min(column) for column in zip(*turns)] for kind, turns in rows.items()}
    last = least[given.kinds[-1]]
    for kind, (used, clock, size) in least.items():
        print(f"{given.nodes}/{given.links}, {kind}: {used:.3f} s of a processor, {clock:.3f} s, {size:.0f} MB; {used / last[0]:.2f}, {clock / last[1]:.2f}, "
              f"{size / last[2]:.3f} of {given.kinds[-1]}", flush=True)


if __name__ == "__main__":
    main()
