"""The words of `python3 -m bentzolu xdp`: the plane in XDP of the node on which they are said."""
from __future__ import annotations

import argparse
import json
import os
import subprocess
import sys
from typing import Any, List, Optional, Tuple

from . import lines, xdp
from .options import add_detour, detour_words
from .xdp import KINDS, MODES, PINS, PlaneError

ABOUT = """Run the data plane of a node in XDP. BPF programs forward by one table for each epoch. Tables are installed, stamped and
retired under traffic. Every label of a new table is first checked in the kernel. This needs root, or CAP_SYS_ADMIN and
CAP_NET_ADMIN, and the program bentzolu-xdp, which plane/make builds. Exit status: 0 done; 1 refused, and the tables stay as
they were; 2 the arguments were not understood."""


def add_words(commands: Any) -> None:
    """Adds the words of `xdp` to a parser's commands."""
    parser = commands.add_parser("xdp", help="forward packets of a node in XDP, and change its tables under traffic", description=ABOUT)
    parser.add_argument("--pins", metavar="DIR", default=PINS, help=f"folder in a bpffs for the plane's maps (default: {PINS})")
    parts = parser.add_subparsers(dest="word", required=True, metavar="WORD")

    def add(name: str, act: Any, what: str) -> argparse.ArgumentParser:
        part: argparse.ArgumentParser = parts.add_parser(name, help=what, description=f"{what[0].upper()}{what[1:]}.")
        part.set_defaults(act=act)
        return part

    part = add("up", up, "load the plane, and attach it to the node's devices")
    part.add_argument("--node", metavar="A", required=True, help="name of this node")
    part.add_argument("--mode", choices=MODES, default="xdp", help="XDP in the driver (xdp, the default), XDP after the driver (generic), or tc")
    part.add_argument("--own", nargs=2, metavar=("HOST", "PLANE"), default=("bz0", "bz1"), help="ends of the node's own link (default: bz0 bz1)")
    part.add_argument("--object", metavar="FILE", help="object file of the BPF programs (default: the one next to bentzolu-xdp)")
    part.add_argument("ports", metavar="NEIGHBOUR=DEVICE[,MAC]", nargs="*",
                      help="one port for each neighbour, in the order of the topology; without MAC the hardware address is taken "
                      "from the kernel's table of neighbours")
    for name, act, what in (
        ("table", table, "print the lines of an epoch's table"),
        ("install", install, "add the table of an epoch, after every label is checked in the kernel"),
        ("check", install, "check every label of an epoch in the kernel"),
    ):
        part = add(name, act, what)
        part.add_argument("epoch", metavar="E", type=int, help="epoch, 1 to 65535")
        part.add_argument("topology", metavar="TOPOLOGY", help="topology file")
        part.add_argument("--node", metavar="A", required=name == "table", help="node (default: that of the plane)")
        part.add_argument("--kind", choices=KINDS, default="shortest", help="kind of the plan (default: shortest)")
        part.add_argument("--root", metavar="R", help="node from which labels are numbered (default: the first node)")
        part.add_argument("--numbering", metavar="HOW", help="depth-first (the default), tour, or a file that lists the nodes in order")
        add_detour(part)
        if name == "table":
            part.add_argument("--binary", action="store_true", help="print bytes instead of hexadecimal words")
            part.add_argument("--neighbours", metavar="B,C..", help="neighbours in the order of their ports (default: that of the topology)")
        else:
            part.add_argument("--lines", metavar="FILE", help="file with the table's lines, as `xdp table` prints them (default: they are made from the row)")
    for name, what in (("stamp", "stamp the node's own packets with an epoch"), ("retire", "remove the table of an epoch")):
        add(name, plain, what).add_argument("epoch", metavar="E", type=int, help="epoch")
    part = add("drained", plain, "wait until no packet of an epoch is under way, by the counters of the nodes")
    part.add_argument("epoch", metavar="E", type=int, help="epoch")
    part.add_argument("more", metavar="DIR", nargs="*", help="folders of the planes of all nodes, if they are on this machine (default: only this one)")
    for name, what in (("counts", "print what became of packets, by epoch"), ("show", "print the node, its ports and its epochs"),
                       ("down", "remove the plane")):
        add(name, plain, what)


def port_of(word: str) -> Tuple[str, str, str]:
    """The neighbour, the device and the hardware address of a word `NEIGHBOUR=DEVICE[,MAC]`."""
    neighbour, _, rest = word.partition("=")
    device, _, mac = rest.partition(",")
    if not neighbour or not device:
        raise PlaneError(f"{word!r} is not a port: give NEIGHBOUR=DEVICE or NEIGHBOUR=DEVICE,MAC")
    return neighbour, device, mac or mac_at(device)


def mac_at(device: str) -> str:
    """The one hardware address that the kernel knows of neighbours at a device."""
    try:
        done = subprocess.run(["ip", "-j", "neigh", "show", "dev", device], capture_output=True, check=False)
        found = {it["lladdr"] for it in json.loads(done.stdout or b"[]") if it.get("lladdr")}
    except (OSError, ValueError):
        found = set()
    if len(found) != 1:
        raise PlaneError(f"the kernel knows {len(found) or 'no'} hardware addresses at {device}: give the neighbour's address, as NEIGHBOUR={device},MAC")
    return str(found.pop())


def up(found: argparse.Namespace) -> int:
    """`up`."""
    words = [word for port in map(port_of, found.ports) for word in port]
    given = ["--object", found.object] if found.object else []
    xdp.call([*given, "up", found.mode, found.node, "0", *found.own, *words], b"", found.pins)
    return 0


def chosen(found: argparse.Namespace) -> List[str]:
    """The further words of `bentzolu plan`."""
    given = [f"--{name}={getattr(found, name)}" for name in ("root", "numbering") if getattr(found, name) is not None]
    return [*given, *detour_words(found.landmarks, found.stretch)]


def neighbours_in(topology: str, node: str) -> List[str]:
    """The neighbours of a node, in the order in which a topology's lines list them."""
    from .lab_net import links_of
    form = "edgelist" if topology.endswith((".edgelist", ".wel")) else "adjlist"
    with open(topology, encoding="utf-8", errors="replace") as file:
        links: Any = links_of(file.read(), form)
    return [b if a == node else a for a, b in links if node in (a, b)]


def table(found: argparse.Namespace) -> int:
    """`table`."""
    near = found.neighbours.split(",") if found.neighbours else neighbours_in(found.topology, found.node)
    made = lines.lines(xdp.row_at(xdp.plan_of(found.topology, found.kind, chosen(found)), found.node, near), found.epoch)
    sys.stdout.flush()
    sys.stdout.buffer.write(lines.as_bytes(made) if found.binary else lines.as_text(made).encode())
    return 0


def install(found: argparse.Namespace) -> int:
    """`install` and `check`."""
    there = xdp.read_plane(xdp.call(["show"], b"", found.pins))
    if found.node not in (None, there.node):
        raise PlaneError(f"the plane at {found.pins} belongs to {there.node}, not to {found.node}")
    plan = xdp.plan_of(found.topology, found.kind, chosen(found))
    row = xdp.row_at(plan, there.node, [port.neighbour for port in there.ports])
    data: Optional[bytes] = None
    if found.lines:
        with open(found.lines, "rb") as file:
            data = file.read()
    xdp.give(found.word, found.epoch, row, found.pins, data)
    return 0


def plain(found: argparse.Namespace) -> int:
    """The words that the program does as they are."""
    words = [found.word, *([str(found.epoch)] if "epoch" in found else []), *map(os.path.abspath, found.more if "more" in found else [])]
    print(xdp.call(words, b"", found.pins), end="")
    return 0
