"""The steps of a run, `sim --steps`: by hand, and beside the traces of runs by chance."""
from __future__ import annotations

import concurrent.futures
import json
import os
from typing import Any, Dict, List

from oracle.steps import steps_fault
from support.checks import count
from support.marks import built
from support.route import expect, put, run

pytestmark = [built]

RING = "a b\nb c\nc d\nd a\n"

# The script of README: two packets from a to d, the second by shortest paths.
README = "inject a d\ninstall shortest a\ninject a d\ndrain\n"
README_STEPS = """steps 1
1 inject a d 0 1
2 install shortest a 2
3 inject a d 1 1
4 read a 1
4 take a inbox 0
4 act a 0 1 sent b
4 read b 1
4 take b from a 0
4 act b 0 1 sent c
4 read c 1
4 take c from b 0
4 act c 0 1 sent d
4 read d 1
4 take d from c 0
4 act d 0 1 delivered
4 take a inbox 1
4 act a 1 1 sent b
4 take b from a 1
4 act b 1 1 sent c
4 take c from b 1
4 act c 1 1 sent d
4 take d from c 1
4 act d 1 1 delivered
"""

# A packet that gets a new stamp at b, one that is lost at a link that is down, and lines that are refused.
CHANGES = "inject a c\ntake a inbox\nact a\n# the tree of the first epoch goes by b\ninstall tree c\nlearn 2\nlearn 9\nretire 2\nact a\ndown d a\nup b c\ninject a d\ndrain\n"
CHANGES_STEPS = """steps 1
1 inject a c 0 1
2 take a inbox 0
3 act a 0 1 sent b
5 install tree c 2
6 learn 2
7 refused NoEpoch learn 9
8 retire 2
9 refused HandEmpty act a
10 down a d
11 refused Same up b c
12 inject a d 1 2
"""


def as_json(text: str) -> List[Dict[str, Any]]:
    """The events of a text of steps, as the values of its JSON."""
    out: List[Dict[str, Any]] = []
    for line in text.splitlines()[1:]:
        number, name, *words = line.split(" ")
        if name == "refused":
            out.append({"line": int(number), "refused": words[0], "event": words[1:]})
            continue
        it: Dict[str, Any] = {"line": int(number), "event": name}
        if name == "inject":
            it.update({"from": words[0], "to": words[1], "packet": int(words[2]), "epoch": int(words[3])})
        elif name == "take":
            it.update({"node": words[0], "packet": int(words[-1])})
            it.update({"from": words[2]} if words[1] == "from" else {})
        elif name == "act":
            it.update({"node": words[0], "packet": int(words[1]), "epoch": int(words[2])})
            it["next" if words[3] == "sent" else "fate"] = words[4] if words[3] == "sent" else words[3]
            it.update({"link": words[4:]} if words[3] in ("down", "full") else {})
        elif name in ("install", "renumber"):
            it.update({"kind": words[0], "root": words[1], "epoch": int(words[2])})
        elif name == "read":
            it.update({"node": words[0], "version": int(words[1])})
        else:
            is_link = name in ("down", "up", "avoid", "heed")
            it["link" if is_link else "epoch"] = words if is_link else int(words[0])
        out.append(it)
    return out


def test_steps() -> None:
    """Scripts by hand: that of README, changes and refused lines, and one without a line."""
    net = put("steps/ring", RING)
    words = ["sim", "--steps", "--kind", "tree", net]
    expect("the steps of README", run([*words, put("steps/readme", README)]), README_STEPS.encode(), b"", 0)
    expect("the steps of no line", run([*words, put("steps/none", "")]), b"steps 1\n", b"", 0)
    output, faults, status = run([*words, "--restamps", "1", put("steps/changes", CHANGES)])
    lines = output.decode().splitlines(keepends=True)
    count("the lines of changes", None if "".join(lines[:12]) == CHANGES_STEPS and status == 0 else f"{status}: {output!r}")
    count("a new stamp", None if any(line.startswith("13 act b 0 2 ") for line in lines) else f"{output!r}")
    count("a lost packet", None if "13 act a 1 2 down a d\n" in lines or "delivered" in lines[-1] else f"{output!r}")
    count("refused lines", None if faults == b"refused 7 NoEpoch\nrefused 9 HandEmpty\nrefused 11 Same\n" else f"{faults!r}")


def test_steps_as_json() -> None:
    """The JSON of steps has the same words."""
    net = put("steps/ring", RING)
    for name, script in (("readme", README), ("changes", CHANGES), ("none", "")):
        words = ["sim", "--kind", "tree", "--restamps", "2", net, put(f"steps/{name}", script)]
        text, _, _ = run([*words, "--steps"])
        output, _, status = run([*words, "--steps", "--json"])
        want = {"steps": 1, "events": as_json(text.decode())}
        count(f"the JSON of steps, {name}", None if status == 0 and json.loads(output) == want else f"{output!r} of {text!r}")


def test_steps_by_chance() -> None:
    """Of 100 runs by chance: each packet's hops, read off the steps, are those of the trace, and so are its epochs and its fate."""
    with concurrent.futures.ThreadPoolExecutor(os.cpu_count()) as pool:
        for fault in pool.map(steps_fault, range(100)):
            count("steps beside their trace", fault)
