"""Runs the oracles: python3 tests/oracle [--large] [--networks N] [--seed SEED] [ORACLE ..]

Without words each oracle tries its share of the networks that the gate tries, some 760 in all. --large tries twenty times as many, from
a seed that the clock gives; --networks says how many of each oracle, --seed the seed of the first. The program is that of
BENTZOLU_ROUTE, else crates/route/out/route. The last line is `N passed, M failed`; the status is 0 where M is 0.
"""
import argparse
import concurrent.futures
import os
import sys
import time
from typing import List, Tuple

sys.path.insert(0, os.path.dirname(os.path.dirname(os.path.abspath(__file__))))
sys.dont_write_bytecode = True
import oracle  # noqa: E402
from support import checks, places  # noqa: E402

PART = 20  # networks that one process tries before it takes others


def tried(name: str, first: int, networks: int) -> Tuple[int, List[str], float]:
    """Try some networks; return how many checks passed, what failed, and how many seconds it took."""
    checks.begin()
    begun, folder = time.monotonic(), places.begin_scratch()
    oracle.compare(name, first, networks, folder)
    places.end_scratch()
    tally = checks.taken()
    return tally.passed, tally.faults, time.monotonic() - begun


def main() -> int:
    """Run the oracles that the command line names; return the status."""
    words = argparse.ArgumentParser(prog="tests/oracles", description=__doc__, formatter_class=argparse.RawDescriptionHelpFormatter)
    words.add_argument("--large", action="store_true")
    words.add_argument("--networks", type=int)
    words.add_argument("--seed", type=int)
    words.add_argument("oracles", nargs="*", choices=[[], *oracle.SHARES], metavar="ORACLE")
    found = words.parse_args()
    passed = failed = 0
    why = places.why_no_program()
    if why:
        print(f"oracles: {why}")
        failed = 1
    first = found.seed if found.seed is not None else int(time.time()) if found.large else 1
    with concurrent.futures.ProcessPoolExecutor(len(os.sched_getaffinity(0))) as pool:
        parts = []
        for name in [] if why else found.oracles or oracle.SHARES:
            many = found.networks or oracle.SHARES[name] * (20 if found.large else 1)
            parts.append((name, many, [pool.submit(tried, name, first + at, min(PART, many - at)) for at in range(0, many, PART)]))
        for name, many, its in parts:
            results = [it.result() for it in its]
            for fault in (fault for _, faults, _ in results for fault in faults):
                print(f"wrong: {fault}")
            print(f"{name}: {many} networks, seeds {first} to {first + many - 1}: {sum(it[2] for it in results):.1f} s", flush=True)
            passed, failed = passed + sum(it[0] for it in results), failed + sum(len(it[1]) for it in results)
    print(f"{passed} passed, {failed} failed")
    return 1 if failed else 0


if __name__ == "__main__":
    sys.exit(main())
