#!/usr/bin/env python3
"""Draws the figures of README.md and docs/SWEEPS.md by `bentzolu.figures`: docs/sizes.png, docs/failures.png and docs/orbit.png.

    figures.py [NAME..]

makes those that are named, or all. It needs the program, NumPy and matplotlib; it takes about two minutes of one processor.
"""
from __future__ import annotations

import pathlib
import random
import sys
from typing import Any

HERE = pathlib.Path(__file__).resolve().parent
sys.dont_write_bytecode = True
sys.path[:0] = [str(HERE.parent / "python"), str(HERE.parent / "bench")]

import matplotlib  # noqa: E402

matplotlib.use("Agg")
import matplotlib.pyplot as plt  # noqa: E402

import bentzolu  # noqa: E402
import networks  # noqa: E402
from bentzolu import figures  # noqa: E402
from bentzolu.arrays import bits_for  # noqa: E402
from bentzolu.relabelling import bits_of, ports_of  # noqa: E402

FAMILIES = {
    "torus": ("depth-first", [("torus", k, k) for k in (4, 8, 16, 32)]),
    "hypercube": ("tour", [("hypercube", k) for k in (4, 6, 8, 9)]),
    "fat tree": ("tour", [("fattree", k) for k in (4, 8, 12, 16)]),
    "random, 4 links a node": ("tour", [("random", n, 4 * n) for n in (16, 64, 256, 512)]),
    "scale-free": ("tour", [("scalefree", n, 2) for n in (16, 64, 256, 512)]),
}


def made(family: Any, *numbers: Any) -> list[Any]:
    """The links of a network of bench/networks.py."""
    random.seed(1)
    return [link[:2] for link in networks.FAMILIES[family](*numbers)[1]]


def sizes() -> Any:
    """The bits of a node's row, and of its full table, over families of networks."""
    rows: dict[Any, Any] = {}
    tables: dict[Any, Any] = {}
    for label, (numbering, family) in FAMILIES.items():
        for words in family:  # type: ignore[attr-defined]
            graph = made(*words)
            ports = ports_of(graph, None)
            plan = bentzolu.plan(graph, "compact", words=("--numbering", numbering))
            n = len(ports)
            rows.setdefault(label, []).append((n, bits_of(plan, ports) / n))
            tables.setdefault(label, []).append((n, (n - 1) * sum(map(bits_for, ports.values())) / n))
    figure, ax = plt.subplots(figsize=(6.0, 3.8), layout="constrained")
    figures.plot_sizes(rows, ax, tables)
    return figure


def failures() -> Any:
    """The worst failures of NSFNET by name, and the stretch of all."""
    rows = bentzolu.sweep(HERE.parent / "examples/nsfnet.edgelist", kind="compact")
    figure, (left, right) = plt.subplots(1, 2, figsize=(9.6, 3.4), layout="constrained", width_ratios=(3, 2))
    rows.plot(left, "links")
    rows.plot(right, "stretch")
    return figure


def orbit() -> Any:
    """The rows of a shell of 66 satellites over an orbit, and what is sent at each change."""
    shell = bentzolu.Shell(6, 11, 2, 86.4, 780, star=True)
    line = bentzolu.Timeline.of_shell(shell, 60, 1, 60)
    rows = {label: line.replay("compact", how) for label, how in (("labels kept", "keep"), ("depth-first anew", "depth-first"), ("tour anew", "tour"))}
    figure, (left, right) = plt.subplots(1, 2, figsize=(9.6, 3.0), layout="constrained")
    line.plot(rows, left, "bits")
    line.plot(rows, right, "sent")
    for ax in (left, right):
        ax.legend(loc="lower center", bbox_to_anchor=(0.5, 1.0), ncol=3, frameon=False, fontsize=8)
    right.set_ylim(0)
    return figure


FIGURES = {"sizes": sizes, "failures": failures, "orbit": orbit}


def main() -> None:
    plt.rcParams.update({"font.size": 9, "axes.spines.top": False, "axes.spines.right": False})
    wanted = sys.argv[1:] or list(FIGURES)
    unknown = [name for name in wanted if name not in FIGURES]
    if unknown:
        sys.exit(f"figures.py: there is no figure {unknown[0]!r}: there are {', '.join(FIGURES)}")
    for name in wanted:
        figure = FIGURES[name]()
        figure.savefig(HERE / f"{name}.png", dpi=110, metadata={"Software": None})
        plt.close(figure)


if __name__ == "__main__":
    main()
