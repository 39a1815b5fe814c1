"""What each node changes between two plans: put into the old rows the lines make the new ones, and no line is in vain."""
from __future__ import annotations

import json
import os
import random
from typing import Dict, List, Optional, Tuple

from support.checks import count
from support.marks import built
from support.places import TOP
from support.route import brief, expect, put, refused, run

pytestmark = [built]

Rows = Dict[str, Tuple[int, Dict[int, str]]]
NAMES = ["+", "-", "a", "b", "1", "x+y", "0", "z9", "Ab", "q", "w", "e", "r", "t", "u", "i"]
NSFNET = os.path.join(TOP, "examples", "nsfnet.edgelist")
RING, LINE = "a b\nb c\nc d\nd a\n", "a b\nb c\nc d\n"
CHANGED = "diff shortest shortest 4 3 0 3 2\na 0 0 - 3\nb 1 1 + 0 a - 3\nd 3 3 + 0 c - 1\n"


def network(luck: random.Random, names: List[str]) -> str:
    """An edge list of a connected network of these nodes, in an order by chance."""
    names = luck.sample(names, len(names))
    edges = [(names[at], names[luck.randrange(at)]) for at in range(1, len(names))]
    edges += [(one, other) for one, other in (luck.sample(names, 2) for _ in names)]
    luck.shuffle(edges)
    return "".join(f"{one} {other} {luck.choice((1, 1, 2, 5))}\n" for one, other in edges)


def rows_of(text: bytes) -> Rows:
    """For each node its label, and the neighbour at each start, of the text of a plan."""
    rows = {}
    for line in text.decode().splitlines()[1:]:
        name, label, *row = line.split()
        rows[name] = int(label), {int(start): to for start, to in zip(row[::2], row[1::2])}
    return rows


def steps_of(words: List[str]) -> List[Tuple[int, Optional[str]]]:
    """The starts of a line, each with the neighbour that it is put with, or None where it goes."""
    steps: List[Tuple[int, Optional[str]]] = []
    at = 0
    while at < len(words):
        goes = words[at] == "-"
        steps.append((int(words[at + 1]), None if goes else words[at + 2]))
        at += 2 if goes else 3
    return steps


def patched(row: Dict[int, str], steps: List[Tuple[int, Optional[str]]]) -> Optional[Dict[int, str]]:
    """A row with what a line removes and puts; None where one of its steps does nothing, or starts do not ascend."""
    row, last = dict(row), -1
    for start, to in steps:
        if start <= last or row.get(start) == to:
            return None
        last = start
        if to is None:
            del row[start]
        else:
            row[start] = to
    return row


def fault_of(text: bytes, old: Rows, new: Rows) -> Optional[str]:
    """What is wrong with the text of what changes between these rows."""
    head, *lines = [line.split() for line in text.decode().splitlines()]
    told = {line[0]: (line[1:3], steps_of(line[3:])) for line in lines}
    if [name for name in new if name in told] != [line[0] for line in lines]:
        return "the lines are not in the order of the new topology"
    for name, (label, row) in new.items():
        labels = [str(old[name][0]), str(label)]
        is_same = old[name] == new[name]
        if is_same != (name not in told) or (not is_same and (told[name][0] != labels or patched(old[name][1], told[name][1]) != row)):
            return f"{name}: {old[name]} with {told.get(name)} is not {new[name]}"
    goes = [to is None for _, steps in told.values() for _, to in steps]
    counts = [len(new), len(told), sum(was != label for (was, label), _ in told.values()), sum(goes), len(goes) - sum(goes)]
    return None if head[3:] == [str(it) for it in counts] else f"{counts} and not {head}"


def json_of(text: bytes) -> object:
    """The values that a text of what changes has as JSON."""
    head, *lines = [line.split() for line in text.decode().splitlines()]
    keys = ("nodes", "changed", "relabelled", "removed", "put")
    rows = [{
        "node": name, "was": int(was), "label": int(label), "remove": [start for start, to in steps_of(words) if to is None],
        "put": [{"start": start, "next": to} for start, to in steps_of(words) if to is not None],
    } for name, was, label, *words in lines]
    return {"diff": head[1:3], **dict(zip(keys, map(int, head[3:]))), "rows": rows}


def test_by_chance() -> None:
    """Networks by chance, of each kind and numbering: by the plans that `plan` prints of both."""
    luck = random.Random(83)
    for at in range(120):
        names = luck.sample(NAMES, luck.randrange(2, len(NAMES)))
        old, new = (put(f"diff/{name}.wel", network(luck, names)) for name in ("old", "new"))
        numbering = luck.choice(("depth-first", "tour", "keep"))
        kind = luck.choice(("shortest", "compact", "tree", "landmark") if numbering == "depth-first" else ("shortest", "compact"))
        first = ["plan", "--kind", kind, "--numbering", "tour" if numbering == "keep" else numbering]
        order = put("diff/order", run([*first, "--order", old])[0])
        second = [*first[:-1], order] if numbering == "keep" else first
        before, after = rows_of(run([*first, old])[0]), rows_of(run([*second, new])[0])
        words = ["diff", "--kind", kind, "--numbering", numbering]
        output, faults, status = run([*words, old, new])
        count(f"{at}, {kind}, {numbering}", f"status {status}, {brief(faults)}" if status != 0 else fault_of(output, before, after))
        data = run([*words, "--json", old, new])[0]
        count(f"{at}, as JSON", None if json.loads(data) == json_of(output) else brief(data))
        if numbering == "keep":
            count(f"{at}, labels kept", None if output.split()[5] == b"0" else brief(output))


def test_inputs() -> None:
    """Two files, one file and standard input, or both texts on standard input; formats by the files' names."""
    old, new, wel = put("diff/old.adjlist", RING), put("diff/new.adjlist", LINE), put("diff/new.edgelist", "a b 1\nb c 1\nc d 1\n")
    for words, data in (([old, new], ""), ([old, wel], ""), (["-", new], RING), ([old, "-"], LINE), (["-"], f"{RING}%%\n{LINE}"),
                        (["--numbering", "keep", old, new], ""), (["--root", "a", "--threads", "2", old, new], "")):
        expect(f"diff {words}", run(["diff", *words], data.encode()), CHANGED.encode(), b"", 0)
    same = run(["diff", "--json", old, old])
    expect("nothing changes", same, b'{"diff":["shortest","shortest"],"nodes":4,"changed":0,"relabelled":0,"removed":0,"put":0,"rows":[\n]}\n', b"", 0)
    for files in (["-", "-"], [old], [old, new, old]):
        count(f"diff {files} is refused", None if run(["diff", *files])[2] == 2 else "no usage")
    for words, said in ((["--kind", "tree", "--numbering", "keep"], b"'--kind tree' works only with '--numbering depth-first'"),
                        (["--kind", "landmark", "--numbering", "keep"], b"'--kind landmark' cannot be used with '--numbering'"),
                        (["--numbering", old], b"depth-first, tour, keep"), (["--stretch", "200"], b"require '--kind landmark'")):
        got = run(["diff", *words, old, new])
        count(f"diff {words}", None if got[2] == 2 and said in got[1] else brief(got[1]))
    put("keep", "c\nb\na\nd\n")
    expect("elsewhere keep is a file", run(["plan", "--order", "--numbering", "keep", old]), b"c\nb\na\nd\n", b"", 0)


def test_refused() -> None:
    """Each refusal by its line, and what `--explain` says of it."""
    old, new = put("diff/old.adjlist", RING), put("diff/new.adjlist", LINE)
    bad, apart, more, fewer = (put(f"diff/{name}.adjlist", text) for name, text in (
        ("bad", "a b\nb c\nc \x01\n"), ("apart", "a b\nc d\n"), ("more", "a b\nb c\nc d\nd e\n"), ("fewer", "a b\nb c\nc a\n")))
    for files, line, said in (
        ([bad, new], "topology 3 BadByte", f"{bad}:3: "), ([old, bad], "new 3 BadByte", f"{bad}:3: "),
        ([old, more], "new UnknownNode", f"{more}: no node 'e' in {old}: both networks need the same nodes"),
        ([old, fewer], "new Missing", f"{fewer}: 'd' of {old} is missing: both networks need the same nodes"),
        ([apart, new], "opening Disconnected", f"{apart}: 'a' has no path to 'c': the network has 2 parts, the largest of 2 nodes"),
        ([old, apart], "new Disconnected", f"{apart}: 'a' has no path to 'c': the network has 2 parts, the largest of 2 nodes"),
        ([old, "diff/none"], "new unreadable", "diff/none: no such file"), (["--root", "z", old, new], "opening NoNode", "--root: no node 'z'"),
    ):
        refused(f"diff {files}", run(["diff", *files]), line)
        got = run(["diff", "--explain", *files])
        count(f"diff {files}, explained", None if got[1].startswith(f"{line}\nroute: {said}".encode()) else brief(got[1]))


def test_nsfnet() -> None:
    """The example of the manual page's kind: a link of NSFNET goes, and few nodes change where labels are kept."""
    with open(NSFNET, encoding="ascii") as file:
        lines = [line for line in file if not line.startswith("Seattle PaloAlto ")]
    new = put("diff/nsfnet.edgelist", "".join(lines))
    kept = run(["diff", "--kind", "compact", "--numbering", "keep", NSFNET, new])[0]
    wanted = b"diff compact compact 14 3 0 2 3\nSeattle 0 0 + 1 SanDiego - 13\nPaloAlto 1 1 + 0 SanDiego\nAnnArbor 13 13 - 0 + 1 SaltLakeCity\n"
    count("labels kept", None if kept == wanted else brief(kept))
