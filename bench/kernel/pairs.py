"""All ordered pairs of a topology by traceroute, beside the walks of `route walk`, for each kind of plan.

Usage: pairs.py PROGRAM TOPOLOGY FORMAT [WORDS OF PLAN]; `run` calls it. Each kind is an epoch of its own, and all are
there at once. The status is above 0 where a way differs."""
from __future__ import annotations

import sys
import time

from lab import Lab, Plan, stop_on_signals


def main() -> None:
    stop_on_signals()
    program, topology, form, *words = sys.argv[1:]
    kinds = ("tree", "shortest", "compact")
    plans = [Plan(program, topology, "--format", form, "--kind", kind, *words) for kind in kinds]
    differ = 0
    start = time.monotonic()
    with Lab(topology, form) as lab:
        print(f"{topology}: {len(plans[0].label)} namespaces built in {time.monotonic() - start:.2f} s")
        for epoch, plan in enumerate(plans, 1):
            start = time.monotonic()
            lab.install(plan, epoch)
            took = time.monotonic() - start
            print(f"  epoch {epoch}: {plan.kind}, {plan.lines} lines installed in {took:.2f} s", flush=True)
        for epoch, plan in enumerate(plans, 1):
            start = time.monotonic()
            count, faults = lab.faults(plan, epoch)
            differ += len(faults)
            took = time.monotonic() - start
            went = f"{count - len(faults)} of {count} ordered pairs go, hop by hop, as route walk says"
            print(f"  {plan.kind}: {went}; {took:.1f} s", flush=True)
            for fault in faults[:5]:
                print("   ", fault)
    sys.exit(differ > 0)


if __name__ == "__main__":
    main()
