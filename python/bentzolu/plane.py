"""Linux as a data plane: the table of nftables that a lab and a fleet's routers forward by, and what is read back of it.

The address of label L is fd00::L for programs; while a packet travels its second group is the tag of its epoch, which the
router of its source writes and that of its destination takes off. A router's own packets go out by the device bz0, come in
by its peer bz1, and get their tag there. All others are sent on by the elements of one map: the ranges of labels that a row
has, each under its tag.
"""
from __future__ import annotations

import ipaddress
from typing import Any, Dict, Iterable, List, Mapping, NamedTuple, Optional, Tuple

GROUP = 0xFD00  # the first group of all addresses
OWN_LINK = "02:00:00:01:00:01"  # the end of the link by which a node's own packets come in
LABEL_MASK = "ffff:0:ffff:ffff:ffff:ffff:ffff:ffff"
COMES_BACK = "rule add pref 10 iif bz1 blackhole"  # for `ip -6`: without the table a packet would go round bz0 and bz1


class Way(NamedTuple):
    """The way to a neighbour: the next hop's address, and the device."""

    via: str
    device: str


def address(label: int, tag: int = 0) -> str:
    """The address of a label: for programs without a tag, under way with one."""
    return f"{GROUP:x}:{tag:x}::{label:x}" if tag else f"{GROUP:x}::{label:x}"


def hardware(number: int) -> str:
    """The hardware address of a lab's node."""
    return f"02:00:00:00:{number >> 8:02x}:{number & 255:02x}"


def stamp_value(tag: int) -> str:
    """The first two groups of an address with a tag, as one number of nftables."""
    return f"0x{GROUP << 16 | tag:08x}"


def table(ways: Mapping[int, Optional[Way]], own: Optional[int] = None, mark: Optional[str] = None) -> List[str]:
    """The table without an element, as nftables reads it.

    Parameters
    ----------
    ways : mapping
        The ways to neighbours, by their numbers. What goes where there is None is dropped.
    own : int, optional
        The router's label, to be delivered whatever a packet's tag is; else an element of each tag says so.
    mark : str, optional
        The name of a chain that does nothing, by which the table is known again.
    """
    unstamp = f"@nh,192,32 set {stamp_value(0)} accept"  # I4: a packet's tag is taken off where it is delivered
    lines = ["table netdev bz {"]
    lines += [f"chain {mark} {{", "}"] if mark else []
    for number, way in ways.items():
        if way is None:
            lines += [f"chain to_{number} {{", "counter drop", "}"]
            continue
        lines += [f"chain to_{number} {{", f"iifname != bz1 ip6 hoplimit 1 {unstamp}"]
        lines += [f"fwd ip6 to {way.via} device {way.device}", "}"]
    lines += ["chain mine {", unstamp, "}", "chain stamp {", "}"]
    lines += ["map ways { type ipv6_addr : verdict; flags interval; }", "chain in {"]
    devices = ", ".join([*(way.device for way in ways.values() if way), "bz1"])
    lines.append(f"type filter hook ingress devices = {{ {devices} }} priority 0;")
    lines += [f"ip6 daddr != {GROUP:x}::/16 accept", "iifname bz1 jump stamp"]  # I4: it is written at the source alone
    if own is not None:
        lines.append(f"ip6 daddr & {LABEL_MASK} == {address(own)} goto mine")
    return [*lines, "ip6 daddr vmap @ways", "counter drop", "}", "}"]


def elements(tag: int, row: Iterable[Tuple[int, int, int]], own: Optional[int] = None) -> str:
    """The elements of a tag: of a row (first label, last one, the neighbour's number), and of the own label where given."""
    parts = [] if own is None else [f"{address(own, tag)} : goto mine"]
    for first, last, to in row:
        labels = address(first, tag) + (f"-{address(last, tag)}" if first < last else "")
        parts.append(f"{labels} : goto to_{to}")
    return "element netdev bz ways { " + ", ".join(parts) + " }"


def stamp(tag: int) -> List[str]:
    """From now on the router writes this tag into the packets of its own; 0: they end there."""
    lines = ["flush chain netdev bz stamp"]
    return [*lines, f"add rule netdev bz stamp @nh,192,32 set {stamp_value(tag)}"] if tag else lines


def ways_of(found: Mapping[str, Any]) -> Dict[int, Way]:
    """The ways of a table, by the neighbours' numbers, of what `nft -j list table netdev bz` prints."""
    rules = [item["rule"] for item in found["nftables"] if "rule" in item and item["rule"]["chain"].startswith("to_")]
    sent = {rule["chain"]: expr["fwd"] for rule in rules for expr in rule["expr"] if "fwd" in expr}
    return {int(chain[len("to_"):]): Way(str(it["addr"]), str(it["dev"])) for chain, it in sent.items()}


class Table(NamedTuple):
    """What a table has: rows of (first label, last one, chain) by tag, the tag that is stamped or 0, and the number of rules
    of each chain."""

    rows: Dict[int, Tuple[Tuple[int, int, str], ...]]
    stamped: int
    rules: Dict[str, int]


def read_table(found: Mapping[str, Any]) -> Table:
    """A table, of what `nft -j list table netdev bz` prints.

    Raises
    ------
    ValueError, KeyError, TypeError
        Where something is there that this module does not write.
    """
    rows: Dict[int, List[Tuple[int, int, str]]] = {}
    rules: Dict[str, int] = {}
    stamped = 0
    for item in found["nftables"]:
        if "chain" in item:
            rules.setdefault(item["chain"]["name"], 0)
        elif "map" in item:
            for key, verdict in item["map"].get("elem", []):
                tag, first, last = span_of(key)
                rows.setdefault(tag, []).append((first, last, verdict["goto"]["target"]))
        elif "rule" in item:
            chain = item["rule"]["chain"]
            rules[chain] = rules.get(chain, 0) + 1
            if chain == "stamp":
                stamped = item["rule"]["expr"][0]["mangle"]["value"] & 0xFFFF
    return Table({tag: tuple(sorted(row)) for tag, row in rows.items()}, stamped, rules)


def span_of(key: Any) -> Tuple[int, int, int]:
    """The tag and the labels of a key of the map: an address, a prefix or a range."""
    if isinstance(key, str):
        tag, label = parts_of(key)
        return tag, label, label
    if "prefix" in key:
        tag, label = parts_of(key["prefix"]["addr"])
        return tag, label, label + (1 << 128 - int(key["prefix"]["len"])) - 1
    (tag, first), (_, last) = map(parts_of, key["range"])
    return tag, first, last


def parts_of(text: str) -> Tuple[int, int]:
    """The tag and the label of an address."""
    value = int(ipaddress.IPv6Address(text))
    return value >> 96 & 0xFFFF, value & (1 << 96) - 1
