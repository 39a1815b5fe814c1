"""Outputs and runs at their limits: the longest trace, its JSON, the greatest channels, all epochs, the figures of most nodes and links."""
from __future__ import annotations

import re
import resource
from typing import List, Optional

from support.checks import count
from support.limits import (
    ALONE_NODES, CAPACITY, CHANGES, EPOCHS, GRAPH_EDGES, GRAPH_NODES, GREAT_SECONDS, INPUT_BYTES, NET_LINKS, NET_NODES, PACKETS, RESTAMPS,
    TOUR_NODES,
)
from support.marks import alone, built, slow, within
from support.networks import all_pairs, crossing, row_of, with_chords
from support.route import Got, SOME, brief, expect, put, run
from test_sizes import Chain

pytestmark = [built]

ROOM = 32 << 20  # bytes of addresses: records take 9 MB and changes 4, records of 16 times the room 134, whole boards 67


def as_json(trace: str) -> bytes:
    """The JSON of a trace of delivered packets."""
    rows = [row.split(" ") for row in trace.splitlines()[1:]]
    hops = {row[2]: ",".join(f'"{name}"' for name in row[6:]) for row in rows[:2]}
    lines = [f'{{"id":{row[0]},"epoch":{row[1]},"from":"{row[2]}","to":"{row[3]}","weight":{row[4]},"fate":"{row[5]}",'
             f'"hops":[{hops[row[2]]}]}}' for row in rows]
    return ('{"trace":1,"packets":[\n' + ",\n".join(lines) + "\n]}\n").encode()


@slow
@within(600)
def test_limits_of_traces() -> None:
    """As many packets as there may be go over a chain of as many nodes as there may be: the trace is longer than any input."""
    topology, script, trace = crossing(NET_NODES, PACKETS, CAPACITY)
    words_ = ["--capacity", str(CAPACITY), put("limits/chain", topology), put("limits/script", script)]
    count("the trace", None if len(trace) > INPUT_BYTES else f"has {len(trace)} bytes")
    expect("the longest trace", run(["sim", *words_], seconds=GREAT_SECONDS), trace.encode(), b"", 0)
    expect("the longest trace, as JSON", run(["sim", "--json", *words_], seconds=GREAT_SECONDS), as_json(trace), b"", 0)


def test_limits_of_channels() -> None:
    """As many places of channels as there may be: of each link one channel each way, of each node an inbox."""
    net = put("limits/net", with_chords(NET_NODES, NET_LINKS))
    script = put("limits/one", "inject a n8\ndrain\n")
    for sub in ("sim", "live"):
        got = run([sub, "--capacity", str(CAPACITY), net, script])
        expect(f"the greatest channels, {sub}", got, b"trace 1\n0 1 a n8 1 delivered a n8\n", b"", 0)


@slow
def test_limits_of_epochs() -> None:
    """As many epochs as there may be over the greatest network, a packet in each, and an install more."""
    net = put("limits/net", with_chords(NET_NODES, NET_LINKS))
    lines = {"sim": ["inject a n8", "drain"], "live": ["inject a n8", "drain"]}
    for epoch in range(2, EPOCHS + 1):
        install = f"install {'compact' if epoch % 2 else 'shortest'} n{epoch}"
        lines["sim"] += [install, f"learn {epoch}", "inject a n8", "drain"]
        lines["live"] += [install, "inject a n8", "drain"]
    rows = "".join(f"{epoch - 1} {epoch} a n8 1 delivered a n8\n" for epoch in range(1, EPOCHS + 1))
    for sub, script in lines.items():
        script.append("install shortest a")
        got = run([sub, net, put(f"limits/{sub}", "\n".join(script) + "\n")])
        expect(f"all epochs of the greatest network, {sub}", got, f"trace 1\n{rows}".encode(),
               f"refused {len(script)} EpochsFull\n".encode(), 0)


def in_room(words: List[str]) -> Got:
    """The same as `run` where the program may have few addresses, used or not."""
    return run(words, preexec_fn=lambda: resource.setrlimit(resource.RLIMIT_AS, (ROOM, ROOM)))


def test_limits_of_room() -> None:
    """The most packets, with the most restamps, and the most changes of a board have the room that they can need, and not a multiple of it."""
    names = [f"n{i}" for i in range(ALONE_NODES)]
    ring = put("limits/ring", "".join(f"{name} {names[i - 1]}\n" for i, name in enumerate(names)))
    injects = [f"inject {names[i]} {names[i - 1]}\n" for i in range(ALONE_NODES)]
    rows = [f"{names[i]} {names[i - 1]} 1 delivered #1 {names[i]} {names[i - 1]}\n" for i in range(ALONE_NODES)]
    script = put("limits/packets", ("".join(injects) + "drain\n") * (PACKETS // ALONE_NODES))
    wanted = "trace 2\n" + "".join(f"{k} {rows[k % ALONE_NODES]}" for k in range(PACKETS))
    expect("room of the most packets", in_room(["sim", "--restamps", str(RESTAMPS), ring, script]), wanted.encode(), b"", 0)
    changes = put("limits/changes", "down n0 n1\nup n0 n1\n" * (CHANGES // 2) + "down n0 n1\n")
    expect("room of the most changes", in_room(["sim", ring, changes]), b"trace 1\n", b"", 0)


def figures_of_chain(nodes: int) -> List[str]:
    """The figures of a plan of shortest ways of a chain, but for its kind."""
    bits, walks = (nodes - 1).bit_length(), nodes * (nodes * nodes - 1) // 3
    own = 2 * bits + 2 * (nodes - 2) * (bits + 1)
    return [str(2 * (nodes - 1)), "2", str(own), f"{walks}/{walks}", "1/1", "acyclic"]


def chain_fault(nodes: int, got: Got) -> Optional[str]:
    """What is wrong with the comparison of a chain's plans, of more nodes than a tour has."""
    output, faults, status = got
    if status != 0 or faults != b"":
        return f"status {status}, faults {brief(faults)}"
    lines = output.decode().splitlines()
    wanted = [" ".join([*plan, *figures_of_chain(nodes)]) for plan in
              (("shortest", "depth-first"), ("shortest", "tour"), ("compact", "depth-first"), ("compact", "tour"), ("tree", "depth-first"))]
    if lines[0] != f"compare {nodes} {nodes - 1}" or lines[2:7] != wanted:
        return brief(output)
    tables = f"tables - - - {(nodes - 2) * (nodes - 1)} - - -"
    landmark = [re.fullmatch(r"landmark-(150|200|300) blocks \d+ \d+ \d+ (\d+)/\2 1/1 acyclic", line) for line in lines[7:10]]
    return None if all(landmark) and lines[10:] == [tables] else brief(output)


@alone
@slow
@within(1_200)
def test_limits_of_figures() -> None:
    """Two plans together, of as many nodes and of as many links as there may be, and all plans beside each other, of as many links and of
    a node more than tours have."""
    chain, row = put("limits/nodes", row_of(GRAPH_NODES)[1]), put("limits/row", row_of(TOUR_NODES + 1)[1])
    dense = put("limits/edges.edgelist", all_pairs(GRAPH_EDGES))
    wanted = "".join(f"{line}\n" for line in [*Chain(GRAPH_NODES, False).stats("tree"), "together acyclic"]).encode()
    got = run(["stats", "--kind", "tree", "--with", "tree", chain], seconds=GREAT_SECONDS)
    expect("figures with a second plan, of most nodes", got, wanted, b"", 0)
    wanted = run(["stats", "--kind", "tree", dense])[0] + b"together acyclic\n"
    expect("figures with a second plan, of most links", run(["stats", "--kind", "tree", "--with", "tree", dense]), wanted, b"", 0)
    expect("the comparison of most links", run(["compare", dense], seconds=GREAT_SECONDS), SOME, b"", 0)
    count("the comparison of a node more than tours have", chain_fault(TOUR_NODES + 1, run(["compare", row], seconds=GREAT_SECONDS)))
