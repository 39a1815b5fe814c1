"""What `ranges` and `plan --order` print, by the definition and with no cleverness.

Going over the labels, one with the neighbour of the label before it goes into the range of that label. Where there are up to
eight nodes every set of fewer ranges is tried: none gives the neighbours.
"""
from __future__ import annotations

import itertools
from typing import Any

from oracle.tables import drawn, plan_from, read_topology, run


def ranges(towards: Any) -> Any:
    """The ranges (from, to, neighbour): towards has the neighbour to each label, None to the own one."""
    found: list[Any] = []
    for label, to in enumerate(towards):
        if to is None:
            continue
        if found and found[-1][1:] == (label - 1, to):
            found[-1] = (found[-1][0], label, to)
        else:
            found.append((label, label, to))
    return found


def tells(chosen: Any, towards: Any) -> bool:
    """Whether each label has a range, and all of its ranges its neighbour."""
    for label, to in enumerate(towards):
        if {it[2] for it in chosen if it[0] <= label <= it[1]} != ({to} - {None}):
            return False
    return True


def fewest(towards: Any) -> Any:
    """Whether no fewer ranges give the neighbours."""
    count, neighbours = len(towards), sorted(set(towards) - {None})
    spans = [(a, b) for a in range(count) for b in range(a, count)]
    every = [(a, b, to) for a, b in spans for to in neighbours if all(towards[x] == to for x in range(a, b + 1))]
    fewer = len(ranges(towards)) - 1
    return fewer < 0 or not any(tells(chosen, towards) for size in range(fewer + 1) for chosen in itertools.combinations(every, size))


def text_of(plan: Any) -> Any:
    kind, names, labels, _neighbours, towards = plan
    rows = {u: ranges(towards[u]) for u in names}
    assert all(tells(rows[u], towards[u]) for u in names)
    head = f"ranges {kind} {len(names)} {sum(map(len, rows.values()))}\n"
    return head + "".join(" ".join([u, str(labels[u]), *(f"{a}-{b} {to}" for a, b, to in rows[u])]) + "\n" for u in names)


def order_of(plan: Any) -> str:
    _kind, names, labels, _neighbours, _towards = plan
    return "".join(f"{u}\n" for u in sorted(names, key=labels.get))


def fault_of(luck: Any, folder: Any) -> Any:
    """What is wrong with the ranges and the order of a plan by chance."""
    nodes = luck.randint(1, luck.choice([8, 40, 40, 40]))
    form, text = drawn(luck, nodes)
    words = ["--format", form, "--kind", luck.choice(["tree", "shortest", "compact"])]
    plan = plan_from(run(["plan", *words], text), read_topology(text, form))
    for sub, wanted in (["ranges"], text_of(plan)), (["plan", "--order"], order_of(plan)):
        given = run([*sub, *words], text)
        if given != wanted:
            return f"{text}{sub} {words}: {given} in place of {wanted}"
    if nodes <= 8 and not all(fewest(towards) for towards in plan[4].values()):
        return f"{text}{words}: fewer ranges do"
    return None
