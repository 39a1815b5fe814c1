"""Compares ways in the kernel with those of the program: kernel_walks.py PROGRAM, in a mount namespace with an empty /run.

It puts plans of NSFNET of three kinds into network namespaces, prints what differs, and as its last line
`N passed, M failed`.
"""
from __future__ import annotations

import os
import sys

TOP = os.path.dirname(os.path.dirname(os.path.dirname(os.path.abspath(__file__))))
sys.path.insert(0, os.path.join(TOP, "bench", "kernel"))
from lab import Lab, Plan, stop_on_signals  # noqa: E402

TOPOLOGY, FORM = os.path.join(TOP, "examples", "nsfnet.edgelist"), "edgelist"


def main() -> int:
    """Compare all ways; return the status."""
    stop_on_signals()
    passed, failed = 0, 0
    try:
        words = ("--format", FORM, "--root", "Houston", "--kind")
        plans = [Plan(sys.argv[1], TOPOLOGY, *words, kind) for kind in ("tree", "shortest", "compact")]
        with Lab(TOPOLOGY, FORM) as lab:
            for epoch, plan in enumerate(plans, 1):
                lab.install(plan, epoch)
            for epoch, plan in enumerate(plans, 1):
                count, faults = lab.faults(plan, epoch)
                passed, failed = passed + count - len(faults), failed + len(faults)
                print("".join(f"{fault}\n" for fault in faults[:10]), end="")
    except Exception as fault:  # what could not be made or read is one failure
        print(fault)
        failed += 1
    print(f"{passed} passed, {failed} failed")
    return 1 if failed else 0


if __name__ == "__main__":
    sys.exit(main())
