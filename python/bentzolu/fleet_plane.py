"""A router of Linux whose agent has the plane in XDP: a table for each tag in the kernel's maps, in place of one of nftables.

The program `bentzolu-xdp` puts tables there, each whole at one moment (I2), and asks the kernel for each label first. What is
there is read from the kernel, so an agent that starts anew goes on with what its router has.
"""
from __future__ import annotations

import json
import os
from typing import Iterable, List, Mapping, Sequence

from . import lines, xdp
from .fleet import Add, Held, Rebuild, Remove, Row, Stamp, Step
from .fleet_agent import KernelError
from .fleet_kernel import Linux, run

SLOTS = 64  # a tag stands in the slot of its remainder


class Plane(Linux):
    """The kernel of the router in whose network namespace this process is, with the plane in a mode of `xdp`."""

    def __init__(self, mode: str, pins: str = xdp.PINS) -> None:
        super().__init__()
        self.mode, self.pins = mode, pins

    def near(self) -> List[str]:
        """The neighbours by their ports, from 0: those whose devices are there."""
        return [name for name in self.member.ports if name not in self.missing]

    def say(self, words: Sequence[str], data: bytes = b"") -> str:
        """What the program prints; KernelError where it refuses something."""
        try:
            return xdp.call(words, data, self.pins)
        except xdp.PlaneError as fault:
            raise KernelError(f"{xdp.NAME}: {fault}") from None

    def up(self) -> None:
        """Loads the plane without a table, for the ports that the member has."""
        words = []
        for name in self.near():
            port = self.member.ports[name]
            if not port.mac:
                raise KernelError(f"the port to {name} has no hardware address, and a plane in XDP asks no neighbour for it: "
                                  f"enroll the ports with their MACs")
            words += [name, port.device, port.mac]
        self.say(["up", self.mode, self.mark(), str(self.member.number & 0xFFFF), "bz0", "bz1", *words])

    def is_whole(self, there: xdp.Plane) -> bool:
        """Whether a plane is the agent's: of this member and mode, with its ports, and with its programs where they were."""
        if (there.node, there.mode) != (self.mark(), self.mode) or any(port.is_gone for port in there.ports):
            return False
        if [port.neighbour for port in there.ports] != self.near():
            return False
        devices = {"bz1", *(port.device for port in there.ports)}
        found = json.loads(run(["ip", "-j", "link"]) or "[]")
        return self.mode == "tc" or all("xdp" in it for it in found if it["ifname"] in devices)

    def read(self) -> Held:
        """What the kernel has; the plane is loaded where there is none."""
        self.ask_neighbours()
        if not os.path.isdir(self.pins):
            self.up()
            return Held()
        try:
            there = xdp.read_plane(self.say(["show"]))
        except xdp.PlaneError as fault:
            raise KernelError(str(fault)) from None
        if not self.is_whole(there):
            return Held({}, there.stamped, 0, False)
        rows = {tag: self.row_there(tag) for tag in there.epochs}
        return Held(rows, there.stamped)

    def row_there(self, tag: int) -> Row:
        """The row of a tag, by the table that the kernel has."""
        try:
            return spans_of(lines.row_in(lines.read(self.say(["lines", str(tag)]).encode())), self.near())
        except (lines.LinesError, IndexError) as fault:
            raise KernelError(f"the table of the tag {tag} is none of this agent: {fault}") from None

    def do(self, act: Step, held: Held) -> None:
        """Makes a change of what is held. Each table comes whole, and goes whole.

        Raises
        ------
        KernelError
            Where the program or the kernel refuses it; then the tables are as they were, or some of the change is made, each
            table of it whole.
        """
        if isinstance(act, Rebuild):
            if os.path.isdir(self.pins):
                self.say(["down"])
            self.up()
            self.install(act.rows)
            if act.stamped:
                self.say(["stamp", str(act.stamped)])
        elif isinstance(act, Add):
            self.make_room(act.rows, held)
            self.install(act.rows)
        elif isinstance(act, Stamp):
            self.say(["stamp", str(act.tag)])
        else:
            assert isinstance(act, Remove)
            self.retire(act.tags)

    def make_room(self, tags: Iterable[int], held: Held) -> None:
        """Retires what stands in the slots of tags. A tag 64 epochs back, of which nobody else knows any more, may be stamped
        there still: then nothing is stamped until the next epoch is, and what the kernel has is looked at again."""
        for tag in tags:
            other = next((it for it in held.rows if it % SLOTS == tag % SLOTS), None)
            if other is None:
                continue
            if other == held.stamped:
                self.say(["stamp", "0"])
            self.retire([other])
            if other != tag:
                raise KernelError(f"the tag {other} had the place of the tag {tag}, which is free now")

    def install(self, rows: Mapping[int, Row]) -> None:
        """Adds the tables of rows by tag."""
        ports = {name: port for port, name in enumerate(self.near())}
        for tag, row in rows.items():
            try:
                xdp.give("install", tag, row_of_spans(self.member.label, row, ports), self.pins)
            except KeyError as fault:
                raise KernelError(f"a row goes to {fault}, to which this router has no port: enroll the topology of the routers") from None
            except (xdp.PlaneError, lines.LinesError) as fault:
                raise KernelError(f"{xdp.NAME}: {fault}") from None

    def retire(self, tags: Iterable[int]) -> None:
        """Removes the tables of tags."""
        for tag in tags:
            self.say(["retire", str(tag)])


def row_of_spans(own: int, row: Row, ports: Mapping[str, int]) -> lines.Row:
    """A row in numbers, of the ranges of its labels, of which all but the own one are in one; KeyError where a neighbour has
    no port.

    Examples
    --------
    >>> row_of_spans(1, ((0, 0, "b"), (2, 3, "b"), (4, 4, "c")), {"b": 0, "c": 1})
    Row(labels=5, own=1, words=((0, 0), (4, 1)))
    """
    words: List[tuple[int, int]] = []
    for first, _, to in row:
        if not words or words[-1][1] != ports[to]:
            words.append((first, ports[to]))
    return lines.Row(max([own, *(last for _, last, _ in row)]) + 1, own, tuple(words))


def spans_of(row: lines.Row, near: Sequence[str]) -> Row:
    """The ranges of labels of a row, of which none has the own one.

    Examples
    --------
    >>> spans_of(lines.Row(5, 1, ((0, 0), (4, 1))), ["b", "c"])
    ((0, 0, 'b'), (2, 3, 'b'), (4, 4, 'c'))
    """
    found = []
    for (start, port), end in zip(row.words, [*(start for start, _ in row.words[1:]), row.labels]):
        cut = [(start, row.own), (row.own + 1, end)] if start <= row.own < end else [(start, end)]
        found += [(first, past - 1, near[port]) for first, past in cut if first < past]
    return tuple(found)
