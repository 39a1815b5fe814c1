"""Worked examples: the rows of cases.json from files, from standard input and live, and as many epochs as there may be."""
from __future__ import annotations

import json
import os
import subprocess
from typing import Any, Dict, List, Optional

from support.checks import count, say
from support.limits import EPOCHS
from support.marks import built
from support.places import TOP
from support.route import NAMES, TEXTS, alike, expect, put, run
from support.saying import OK_SAID

pytestmark = [built]


def cut_texts(text: bytes, parts: int) -> List[bytes]:
    """The texts of one input, by the lines that are exactly %%; those that are missing are empty."""
    lines = text.split(b"\n")
    texts: List[bytes] = []
    while len(texts) < parts - 1:
        if b"%%" not in lines:
            texts.append(b"\n".join(lines))
            lines = []
            continue
        at = lines.index(b"%%")
        texts.append(b"".join(line + b"\n" for line in lines[:at]))
        lines = lines[at + 1 :]
    return texts + [b"\n".join(lines)]


def joined(texts: List[bytes]) -> Optional[bytes]:
    """One input of texts; none where a text but the last has a line %%, which would cut it in two."""
    if any(b"%%" in text.split(b"\n") for text in texts[:-1]):
        return None
    ended = [text if text == b"" or text.endswith(b"\n") else text + b"\n" for text in texts[:-1]]
    return b"".join(text + b"%%\n" for text in ended) + texts[-1]


def quiet(case: Dict[str, Any], texts: List[bytes]) -> bool:
    """Whether a live run of a simulation's example has the same trace: a few packets, and then a drain."""
    lines = [line.split()[:1] for line in texts[1].split(b"\n") if line.split()]
    few = len(lines) < 16 and "--capacity" not in case["words"] and "--packets" not in case["words"]
    drained = lines[-1:] == [[b"drain"]] or case["status"] == 1
    return few and drained and all(line in ([b"inject"], [b"drain"]) for line in lines)


def test_cases() -> None:
    with open(os.path.join(TOP, "crates/route_tests/data/cases.json"), encoding="utf-8") as file:
        rows = json.load(file)
    not_joined: List[str] = []
    for case in rows:
        words, sub = case["words"], case["words"][0]
        parts = 2 if sub == "diff" else TEXTS.get(sub, 1)
        inputs = [text.encode() for text in case["inputs"]]
        orders = inputs[parts:] if "order" in words else []
        inputs = inputs[:parts] if orders else inputs
        order = [put("case/order", text) for text in orders]
        options = [order[0] if word == "order" else word for word in words[1:] if word not in ("-", *NAMES)]
        texts = cut_texts(inputs[0], parts) if "-" in words else inputs
        whole = inputs[0] if "-" in words else joined(inputs)
        want = case["stdout"].encode(), case["stderr"].encode(), case["status"]
        files = [put(f"case/{name}", text) for name, text in zip(NAMES, texts)]
        alike(f"{case['name']}, from files", run([sub, *options, *files], stdin=subprocess.DEVNULL), want)
        if whole is None:
            not_joined.append(case["name"])
        else:
            alike(f"{case['name']}, from -", run([sub, *options, "-"], whole), want)
        if sub == "sim" and quiet(case, texts):
            alike(f"{case['name']}, live", run(["live", *options, *files]), want)
        if words == ["sim", "-"]:
            alike(f"{case['name']}, with no words", run([], inputs[0]), want)
    for name in not_joined:
        say(f"not as one input, since a line %% stands inside a text: {name}")
    count("there are examples", None if len(rows) >= 100 else f"there are {len(rows)}")
    with open(os.path.join(TOP, "crates/route_tests/stdout"), encoding="utf-8") as file:
        told, wanted = file.read(), f"{len(rows)} examples, 0 differ\n"
    count("what route_tests is to print counts them", None if told == wanted else f"{told!r} in place of {wanted!r}")


def test_epochs() -> None:
    """A packet of each of as many epochs as there may be over a ring: trees from two roots by turns, by which it goes the one or the
    other way. `check` knows each plan, and a sentence reports the last."""
    ring = put("epochs/ring", "a b\nb c\nc d\nd a\n")
    script, live, rows = [], [], []
    for epoch in range(1, EPOCHS + 1):
        packet = ["inject a d", "drain"]
        install = [f"install tree {'a' if epoch % 2 else 'c'}"] if epoch > 1 else []
        script += [*install, f"learn {epoch}", *packet]
        live += [*install, *packet]
        rows.append(f"{epoch - 1} {epoch} a d " + ("3 delivered a b c d" if epoch % 2 else "1 delivered a d"))
    files = [put(f"epochs/{name}", "\n".join(lines) + "\n") for name, lines in
             (("script", script), ("live", live), ("trace", ["trace 1", *rows]))]
    wanted = ("\n".join(["trace 1", *rows]) + "\n").encode()
    expect("sim of all epochs", run(["sim", "--kind", "tree", ring, files[0]]), wanted, b"", 0)
    expect("live of all epochs", run(["live", "--kind", "tree", ring, files[1]]), wanted, b"", 0)
    words_ = ["check", "--kind", "tree", "--explain", ring, files[0]]
    said = f"route: {OK_SAID.format(files[2])}\n"
    expect("check of all epochs", run([*words_, files[2]]), f"ok {EPOCHS}\n".encode(), said.encode(), 0)
    row = f"99 {EPOCHS} a d 3 delivered a b c d"
    wrong = put("epochs/wrong", "\n".join(["trace 1", *rows, row]) + "\n")
    told = f"'{row}': node 2 of the hops in epoch {EPOCHS} is 'b', but the plan of epoch {EPOCHS} forwards from 'a' to 'd'"
    expect("a row that leaves the plan of the last epoch", run([*words_, wrong]), f"finding {EPOCHS + 2} NotAPrefix\n".encode(),
           f"route: {wrong}:{EPOCHS + 2}: {told}\n".encode(), 1)
