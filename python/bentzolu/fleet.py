"""Routers on many machines: keys, records, the tag rule, and what an agent and a controller do next, as functions of values.

etcd has what is wanted of all routers; an agent at each makes its kernel's epochs what etcd says, and reports to etcd what the
kernel has; of the controllers one leads, and takes an epoch from its plan to its stamp. Nothing here reads or writes:
`reconcile` answers an agent's next change of its kernel, `step` a controller's next write. docs/FLEET.md has the protocol.

No packet is ever routed by a mixture of two plans since these hold at each moment:

- I1, one meaning: the rows of an epoch are written by the one leader that raised the counter to it, before its commit, and
  never again.
- I2, whole rows: for each tag a kernel has nothing, or the whole row of one committed epoch.
- I3, one epoch a tag: while a router holds or stamps an epoch, or a packet of it is under way, no router holds another one
  of its tag.
- I4, stamped once: a packet's tag is written at its source, and taken off at its destination.

And none is lost, but over a link that is down or at a kernel that lost its table, since also these hold:

- L1: an epoch is stamped when all that its walks need hold its rows.
- L2: a row stays until every member stamps a later epoch, and the longest time under way is over.
"""
from __future__ import annotations

import json
import zlib
from dataclasses import dataclass, field
from functools import lru_cache
from typing import Any, Dict, FrozenSet, Iterable, List, Mapping, NamedTuple, Optional, Sequence, Set, Tuple, Union

from .errors import BentzoluError

ROOT = "/bentzolu/"
MOST_TAGS = 65535  # 16 bits, and 0 is no stamp
KINDS = ("tree", "shortest", "compact")
FEW_TAGS = 64  # with fewer a removal is told at once, since the tag may be wanted
MOST_COMMITS = 4  # epochs that are kept at once
MOST_ROWS, MOST_BYTES = 100, 400_000  # of one transaction; etcd takes 128 changes and 1.5 MiB

NET, ROWS, LIVE, MEMBERS, CONFIG, LEADER = (ROOT + it for it in ("net/", "rows/", "live/", "members/", "config/", "leader"))
TAGS, COUNTER, STAMP, FLOOR, REFUSED, EPOCHS = (NET + it for it in ("tags", "counter", "stamp", "floor", "refused", "epochs/"))
TOPOLOGY, FORM, ORDER, WANT = (CONFIG + it for it in ("topology", "form", "order", "want"))

Row = Tuple[Tuple[int, int, str], ...]  # the first label, the last one, and the neighbour
Link = Tuple[str, str]  # two nodes, in the order of their names


class FleetError(BentzoluError):
    """What a fleet can't go on with; the text says what to do."""


class UnknownRecord(FleetError):
    """A value below `/bentzolu/` that this version does not read."""


# Keys and values


def rows_key(node: str, epoch: int) -> str:
    """The key of a node's row; the node stands first, so that an agent's watch and its role are one range."""
    return f"{ROWS}{node}/{epoch}"


def link_of(one: str, other: str) -> Link:
    """The link between two nodes, as all parts write it."""
    return (one, other) if one < other else (other, one)


def tag_of(epoch: int, tags: int) -> int:
    """What packets of an epoch carry, from 1 to `tags`."""
    return 1 + (epoch - 1) % tags


def row_text(row: Iterable[Tuple[int, int, str]]) -> str:
    """A row as etcd has it, `0-3 PaloAlto 5-13 Boulder`."""
    return " ".join(f"{first}-{last} {to}" for first, last, to in row)


def read_row(text: str) -> Row:
    """The row of a text.

    Raises
    ------
    UnknownRecord
        Where the text is no row.
    """
    words, found = text.split(), []
    try:
        for span, to in zip(words[::2], words[1::2]):
            first, last = span.split("-")
            found.append((int(first), int(last), to))
    except ValueError:
        raise UnknownRecord(f"{text[:60]!r} is not a row: does the fleet's controller have another version?") from None
    if len(words) % 2:
        raise UnknownRecord(f"{text[:60]!r} is not a row: a range has no neighbour")
    return tuple(found)


def read_json(key: str, text: str) -> Dict[str, Any]:
    """The object of a key's text.

    Raises
    ------
    UnknownRecord
        Where it is none.
    """
    try:
        found = json.loads(text)
    except ValueError:
        found = None
    if not isinstance(found, dict):
        raise UnknownRecord(f"{key} has {text[:60]!r}, which is not a JSON object: correct it, or delete the key")
    return found


def read_number(key: str, text: str) -> int:
    """The whole number of a key's text; UnknownRecord where it is none."""
    if not (text.isascii() and text.isdigit()):
        raise UnknownRecord(f"{key} has {text[:60]!r}, which is not a number: correct it")
    return int(text)


def compact_json(value: Mapping[str, Any]) -> str:
    return json.dumps(value, separators=(",", ":"))


def kind_of(found: Mapping[str, Any]) -> str:
    """The kind of plan that an object names; ValueError where there is none."""
    if found["kind"] not in KINDS:
        raise ValueError(found["kind"])
    return str(found["kind"])


class Port(NamedTuple):
    """The way to a neighbour: its number, the device, the next hop there and, where it is known, its hardware address."""

    number: int
    device: str
    via: str
    mac: str = ""


@dataclass(frozen=True)
class Member:
    """A router: its number, its label, and its ports by neighbour."""

    number: int
    label: int
    ports: Mapping[str, Port]

    def text(self) -> str:
        """The value of `members/N`."""
        ports = {name: list(port) for name, port in self.ports.items()}
        return compact_json({"number": self.number, "label": self.label, "ports": ports})

    @staticmethod
    def read(key: str, text: str) -> Member:
        """The member of a value; UnknownRecord where it is none."""
        found = read_json(key, text)
        try:
            ports = {name: Port(int(it[0]), *map(str, it[1:])) for name, it in found["ports"].items()}
            return Member(int(found["number"]), int(found["label"]), ports)
        except (KeyError, TypeError, ValueError, AttributeError, IndexError):
            raise UnknownRecord(f"{key} is not a member: enroll the topology again by `fleet enroll`") from None


@dataclass(frozen=True)
class Record:
    """What an agent reports: its process, its machine, the epochs that its kernel holds as they were committed, further tags
    that are held, the epoch that is stamped or 0, the neighbours whose ports are down, what is wrong there in a sentence, and
    the greatest counter that the agent has seen."""

    boot: str
    host: str
    epochs: FrozenSet[int]
    other: FrozenSet[int]
    stamp: int
    down: FrozenSet[str]
    says: str = ""
    seen: int = 0

    def text(self) -> str:
        """The value of `live/N`."""
        found: Dict[str, Any] = {"boot": self.boot, "host": self.host, "epochs": sorted(self.epochs), "other": sorted(self.other),
                                 "stamp": self.stamp, "down": sorted(self.down), "seen": self.seen}
        if self.says:
            found["says"] = self.says
        return compact_json(found)

    @staticmethod
    def read(key: str, text: str) -> Record:
        """The record of a value; UnknownRecord where it is none."""
        found = read_json(key, text)
        try:
            return Record(str(found["boot"]), str(found.get("host", "")), frozenset(map(int, found["epochs"])),
                          frozenset(map(int, found["other"])), int(found["stamp"]), frozenset(map(str, found["down"])),
                          str(found.get("says", "")), int(found.get("seen", 0)))
        except (KeyError, TypeError, ValueError):
            raise UnknownRecord(f"{key} is not a record of an agent of this version: upgrade the older one") from None


@dataclass(frozen=True)
class Spec:
    """What a plan is for: its kind, the links that it goes without, the nodes that it makes leaves, and which topology."""

    kind: str
    without: Tuple[Link, ...] = ()
    cut: Tuple[str, ...] = ()
    topology: str = ""

    def text(self) -> str:
        """The value of `net/epochs/E`, the commit."""
        return compact_json({"kind": self.kind, "without": [list(it) for it in self.without], "cut": list(self.cut), "topology": self.topology})

    @staticmethod
    def read(key: str, text: str) -> Spec:
        """The plan's words of a value; UnknownRecord where it has none."""
        found = read_json(key, text)
        try:
            without = tuple(link_of(str(a), str(b)) for a, b in found["without"])
            return Spec(kind_of(found), without, tuple(map(str, found["cut"])), str(found.get("topology", "")))
        except (KeyError, TypeError, ValueError):
            raise UnknownRecord(f"{key} is not a commit of this version: upgrade the older controller") from None


@dataclass(frozen=True)
class Want:
    """What the operator wants: a kind, links to go without, and routers that are gone for good."""

    kind: str
    without: Tuple[Link, ...] = ()
    gone: FrozenSet[str] = frozenset()

    def text(self) -> str:
        """The value of `config/want`."""
        return compact_json({"kind": self.kind, "without": [list(it) for it in self.without], "gone": sorted(self.gone)})

    @staticmethod
    def read(key: str, text: str) -> Want:
        """What is wanted of a value; UnknownRecord where it says nothing."""
        found = read_json(key, text)
        try:
            without = tuple(sorted(link_of(str(a), str(b)) for a, b in found.get("without", [])))
            return Want(kind_of(found), without, frozenset(map(str, found.get("gone", []))))
        except (KeyError, TypeError, ValueError):
            raise UnknownRecord(f"{key} is not understood: write it by `fleet want`") from None


# Topologies, as far as a fleet looks at them


@dataclass(frozen=True, eq=False)
class Shape:
    """The nodes and links of a topology, and a short name of its text."""

    nodes: Tuple[str, ...]
    links: FrozenSet[Link]
    name: str = ""


def shape_of(text: str, form: str) -> Shape:
    """The nodes and links of a topology's text; `form` is `adjlist` or `edgelist`."""
    nodes: Dict[str, None] = {}
    links: Set[Link] = set()
    for line in text.splitlines():
        words = line.split("#", 1)[0].split()
        others = words[1:2] if form == "edgelist" else words[1:]
        nodes.update(dict.fromkeys([*words[:1], *others]))
        links.update(link_of(words[0], other) for other in others if other != words[0])
    return Shape(tuple(nodes), frozenset(links), f"{zlib.crc32(text.encode()):08x}")


@lru_cache(64)
def reaches_all(shape: Shape, without: FrozenSet[Link]) -> bool:
    """Whether the links of a topology connect all nodes without some of them."""
    return is_connected(shape.nodes, shape.links - without)


def is_connected(nodes: Sequence[str], links: Iterable[Link]) -> bool:
    """Whether links connect all nodes."""
    near: Dict[str, List[str]] = {node: [] for node in nodes}
    for one, other in links:
        near[one].append(other)
        near[other].append(one)
    reached: Set[str] = set()
    ahead = list(nodes[:1])
    while ahead:
        node = ahead.pop()
        if node not in reached:
            reached.add(node)
            ahead += near[node]
    return len(reached) == len(near)


@lru_cache(64)
def leaves_of(shape: Shape, without: FrozenSet[Link], absent: FrozenSet[str]) -> Tuple[Tuple[str, ...], FrozenSet[Link]]:
    """Which absent nodes can be leaves, and all links that a plan goes without then.

    A leaf keeps one link, so no walk crosses it. A node that the others need to reach each other can be none.
    """
    up, cut = shape.links - without, []
    for node in sorted(absent):
        mine = sorted(link for link in up if node in link)
        for stays in mine:
            left = up.difference(mine) | {stays}
            if is_connected(shape.nodes, left):
                cut.append(node)
                up = left
                break
    return tuple(cut), shape.links - up


# The agent


@dataclass(frozen=True)
class Said:
    """What etcd says to one agent: how many tags there are, the counter, the stamp, the floor, the commits, and its rows by
    epoch."""

    tags: int = MOST_TAGS
    stamp: int = 0
    floor: int = 0
    commits: FrozenSet[int] = frozenset()
    rows: Mapping[int, Row] = field(default_factory=dict)
    counter: int = 0

    def wanted(self) -> Dict[int, Tuple[int, Row]]:
        """For each tag the epoch and the row that the kernel is to have. I2: an epoch is wanted when its commit and its row
        are both here; a row that is missing is no older one."""
        return {tag_of(it, self.tags): (it, self.rows[it]) for it in sorted(self.commits) if it >= self.floor and it in self.rows}


@dataclass(frozen=True)
class Held:
    """What a kernel has: a row for each tag, the tag that it stamps or 0, the newest epoch that its agent has stamped, and
    whether its table is the agent's, or somebody's."""

    rows: Mapping[int, Row] = field(default_factory=dict)
    stamped: int = 0
    newest: int = 0
    is_ours: bool = True


class Rebuild(NamedTuple):
    """A table of the agent's own in place of what is there, in one transaction: these rows by tag, and this stamp."""

    rows: Mapping[int, Row]
    stamped: int


class Add(NamedTuple):
    """Rows by tag, each in place of what is held for its tag, in one transaction."""

    rows: Mapping[int, Row]
    epochs: Tuple[int, ...]


class Stamp(NamedTuple):
    """From now on the router's own packets carry this tag; 0: none, and they end here."""

    tag: int
    epoch: int


class Remove(NamedTuple):
    """Rows of tags that nobody wants."""

    tags: Tuple[int, ...]


Step = Union[Rebuild, Add, Stamp, Remove]


def reconcile(said: Said, held: Held) -> Optional[Step]:
    """An agent's next change of its kernel, or None where the kernel is as etcd says.

    First what is missing, then the stamp, last what is no longer wanted; each is one transaction of the kernel. So a start,
    a gap, a late event and a kernel that was flushed are one case.
    """
    wanted = said.wanted()
    if not held.is_ours:
        rows = {tag: row for tag, (_, row) in wanted.items()}
        return Rebuild(rows, held.stamped if held.stamped in rows else 0)
    differs = [tag for tag, (_, row) in wanted.items() if held.rows.get(tag) != row]
    if held.stamped in differs and held.stamped in held.rows:
        return Stamp(0, 0)  # I2: a tag that is stamped is never given another row; only a stranger's row can differ here
    if differs:
        return Add({tag: wanted[tag][1] for tag in differs}, tuple(wanted[tag][0] for tag in differs))  # I2: the whole row
    tag = tag_of(said.stamp, said.tags) if said.stamp else 0
    if tag in wanted and wanted[tag][0] == said.stamp and held.stamped != tag and said.stamp >= held.newest:
        return Stamp(tag, said.stamp)
    gone = tuple(sorted(tag for tag in held.rows if tag not in wanted and tag != held.stamped))  # L2: what is stamped stays
    return Remove(gone) if gone else None


def record_of(said: Said, held: Held, boot: str, host: str, down: Iterable[str], says: str = "", seen: int = 0) -> Record:
    """What an agent reports of its kernel."""
    wanted = said.wanted()
    epochs = {tag: epoch for tag, (epoch, row) in wanted.items() if held.rows.get(tag) == row}
    other = frozenset(tag for tag in held.rows if tag not in epochs)
    if held.stamped and held.stamped not in epochs:
        other |= {held.stamped}  # I3: a tag that is stamped is told even where its row is lost
    return Record(boot, host, frozenset(epochs.values()), other, epochs.get(held.stamped, 0), frozenset(down), says,
                  max(seen, said.counter, held.newest))


# The controller


class Begin(NamedTuple):
    """A new epoch: the counter goes to it from the old one, and its plan is made. Commits go that were never stamped, where
    there are too many; the stamp stays meanwhile."""

    epoch: int
    old: int
    spec: Spec
    stamp: int
    gone: Tuple[int, ...] = ()


class Drop(NamedTuple):
    """The plan that is being written is no longer wanted."""

    epoch: int


class Rows(NamedTuple):
    """Some rows of an epoch; with the last ones its commit."""

    epoch: int
    rows: Tuple[Tuple[str, str], ...]
    commit: Optional[Spec]


class Flip(NamedTuple):
    """Sources stamp this epoch from now on, in place of the old one."""

    epoch: int
    old: int


class Floor(NamedTuple):
    """The least epoch that is kept; the commits below go."""

    epoch: int
    old: int
    gone: Tuple[int, ...]


class Refuse(NamedTuple):
    """No plan could be made for these words; it is not tried again until others are wanted."""

    spec: Spec


class Collect(NamedTuple):
    """Rows of no commit go."""

    rows: Tuple[Tuple[str, int], ...]


Write = Union[Begin, Drop, Rows, Flip, Floor, Refuse, Collect]


@dataclass
class Work:
    """A plan that is being written. `rows` is None until it is made, and `is_refused` where it can't be."""

    epoch: int
    spec: Spec
    rows: Optional[List[Tuple[str, str]]] = None
    written: int = 0
    is_refused: bool = False


@dataclass
class Times:
    """The seconds that a controller lets pass: packets under way, an agent's absence, a link that came up."""

    grace: float = 0.3
    patience: float = 20.0
    hold: float = 1.0


@dataclass
class State:
    """What a controller knows: what it read, and since when some of it holds."""

    tags: int = MOST_TAGS
    counter: int = 0
    stamp: int = 0
    floor: int = 0
    commits: Dict[int, Spec] = field(default_factory=dict)
    members: Dict[str, Member] = field(default_factory=dict)
    live: Dict[str, Record] = field(default_factory=dict)
    rows: Dict[int, Set[str]] = field(default_factory=dict)
    config: Dict[str, str] = field(default_factory=dict)
    want: Optional[Want] = None
    shape: Optional[Shape] = None
    refused: str = ""
    unread: Dict[str, str] = field(default_factory=dict)
    work: Optional[Work] = None
    absent: Dict[str, float] = field(default_factory=dict)
    down: Dict[Link, Optional[float]] = field(default_factory=dict)
    least: int = 0
    least_since: float = 0.0
    next: int = 0
    next_since: float = 0.0

    def here(self) -> List[str]:
        """The members whose agents have a record."""
        return [name for name in self.members if name in self.live]

    def away(self) -> List[str]:
        """The members without a record, but for those that the operator says are gone."""
        gone = self.want.gone if self.want else frozenset()
        return [name for name in self.members if name not in self.live and name not in gone]

    def most(self) -> int:
        """How many epochs are kept at once: some tag stays free."""
        return min(MOST_COMMITS, max(1, self.tags - 1))


def learn(state: State, key: str, value: Optional[str]) -> None:
    """Takes a key's value, or that it went, into a controller's state.

    Raises
    ------
    UnknownRecord
        Where the value can't be read; the state is as it was.
    """
    if key.startswith(LIVE):
        learn_record(state, key[len(LIVE):], None if value is None else Record.read(key, value))
    elif key.startswith(ROWS):
        node, _, word = key[len(ROWS):].rpartition("/")
        held = state.rows.setdefault(read_number(key, word), set())
        (held.discard if value is None else held.add)(node)
        if not held:
            del state.rows[int(word)]
    elif key.startswith(MEMBERS):
        name = key[len(MEMBERS):]
        if value is None:
            state.members.pop(name, None)
        else:
            state.members[name] = Member.read(key, value)
    elif key.startswith(EPOCHS):
        epoch = read_number(key, key[len(EPOCHS):])
        if value is None:
            state.commits.pop(epoch, None)
        else:
            state.commits[epoch] = Spec.read(key, value)
    elif key == WANT:
        state.want = None if value is None else Want.read(key, value)
    elif key.startswith(CONFIG):
        state.config[key[len(CONFIG):]] = value or ""
        text, form = state.config.get("topology"), state.config.get("form")
        state.shape = shape_of(text, form) if text and form else None
    elif key == REFUSED:
        state.refused = value or ""
    elif key in (TAGS, COUNTER, STAMP, FLOOR):
        setattr(state, key[len(NET):], read_number(key, value) if value is not None else MOST_TAGS if key == TAGS else 0)


def learn_record(state: State, name: str, record: Optional[Record]) -> None:
    if record is None:
        state.live.pop(name, None)
        return
    state.live[name] = record
    for other in record.down:
        state.down[link_of(name, other)] = None


def notice(state: State, now: float, times: Times) -> None:
    """Brings up to date since when things hold that wait for time; `now` is in seconds of any clock that never goes back."""
    for name in state.members:
        if name in state.live:
            state.absent.pop(name, None)
        else:
            state.absent.setdefault(name, now)
    reported = {link_of(name, other) for name, record in state.live.items() for other in record.down}
    for link, up in list(state.down.items()):
        if link in reported:
            state.down[link] = None
        elif up is None:
            state.down[link] = now
        elif now - up >= times.hold:
            del state.down[link]
    least = least_stamp(state)
    if least != state.least:
        state.least, state.least_since = least, now
    if state.next <= state.counter or not is_tag_free(state, state.next):
        ahead = range(state.counter + 1, state.counter + 1 + min(state.tags, FEW_TAGS))
        state.next, state.next_since = next((it for it in ahead if is_tag_free(state, it)), 0), now


def least_stamp(state: State) -> int:
    """The least epoch that is stamped anywhere; 0 where some member is away or stamps what is not known. L2: the floor goes
    no further, but where four epochs are kept; then those that are away do not count."""
    gone = state.want.gone if state.want else frozenset()
    stamps = [state.live[name].stamp if name in state.live else 0 for name in state.members if name in state.live or name not in gone]
    if len(state.commits) >= state.most() and min(stamps, default=0) <= state.floor:
        stamps = [state.live[name].stamp for name in state.here()]
    return min(stamps, default=0)


def is_tag_free(state: State, epoch: int) -> bool:
    """I3: whether an epoch's tag is no router's, so that the epoch may begin. It has to hold for the grace, too, so that the
    packets with that tag have ended. Whoever is away may hold any tag that there was."""
    tag = tag_of(epoch, state.tags)
    if any(tag in record.other for record in state.live.values()):
        return False
    if epoch <= state.tags:
        return True
    if state.away() or any(tag_of(it, state.tags) == tag for it in state.commits):
        return False
    if state.floor <= epoch - state.tags and any(record.seen < state.counter for record in state.live.values()):
        return False  # the epoch before was withdrawn, and somebody may not know it yet
    return not any(tag_of(it, state.tags) == tag for record in state.live.values() for it in {*record.epochs, record.stamp} if it)


def spec_of(state: State, now: float, times: Times) -> Optional[Spec]:
    """What a plan is to be for now; None where nothing is wanted, or no plan reaches all nodes.

    Links that are down go before links that the operator wants out. An absent member is made a leaf when patience is over,
    one that is gone at once, where the others can do without it.
    """
    if state.want is None or state.shape is None:
        return None
    down = state.shape.links.intersection(state.down)
    for without in (state.shape.links.intersection(state.want.without) | down, down):
        if reaches_all(state.shape, without):
            late = frozenset(name for name, since in state.absent.items() if now - since >= times.patience)
            cut, _ = leaves_of(state.shape, without, late | state.want.gone.intersection(state.members))
            return Spec(state.want.kind, tuple(sorted(without)), cut, state.shape.name)
    return None


def needed(state: State, epoch: int) -> List[str]:
    """The members whose rows the walks of an epoch need: all but those that its plan cut. L1: these acknowledge it."""
    return [name for name in state.members if name not in state.commits[epoch].cut]


def has_acknowledged(state: State, name: str, epoch: int) -> bool:
    """Whether a member's record has an epoch."""
    return name in state.live and epoch in state.live[name].epochs


def step(state: State, now: float, times: Times) -> Tuple[Optional[Write], float]:
    """A controller's next write, or None, and the seconds until there may be one if nothing comes from etcd."""
    for epoch in sorted(state.commits, reverse=True):
        if epoch <= state.stamp:
            break
        if all(has_acknowledged(state, name, epoch) for name in needed(state, epoch)):
            return Flip(epoch, state.stamp), 0.0
    wait = 60.0
    if state.least > state.floor:
        rest = times.grace - (now - state.least_since)  # L2: the packets of what nobody stamps any more have ended
        if rest <= 0:
            return Floor(state.least, state.floor, tuple(sorted(it for it in state.commits if it < state.least))), 0.0
        wait = rest
    write, rest = next_of_change(state, now, times)
    if write is not None:
        return write, 0.0
    working = state.work.epoch if state.work else 0
    garbage = [(node, epoch) for epoch, nodes in state.rows.items() if epoch not in state.commits and epoch != working for node in nodes]
    if garbage:
        return Collect(tuple(sorted(garbage)[:MOST_ROWS])), 0.0
    return None, min(wait, rest, rest_of(state, now, times))


def next_of_change(state: State, now: float, times: Times) -> Tuple[Optional[Write], float]:
    """The next write that makes a plan for what is wanted."""
    spec = spec_of(state, now, times)
    newest = state.commits[max(state.commits)] if state.commits else None
    work = state.work
    if spec is None or spec == newest:
        return (Drop(work.epoch) if work else None), 60.0
    if work and work.spec == spec:
        return (Refuse(spec) if work.is_refused else rows_of(work) if work.rows is not None else None), 60.0
    if state.refused and state.refused == spec.text():
        return (Drop(work.epoch) if work else None), 60.0
    if is_beyond(state) or not state.next:
        return None, 60.0
    gone: Tuple[int, ...] = ()
    if len(state.commits) >= state.most():
        gone = tuple(sorted(it for it in state.commits if it > state.stamp)[:1])
        if not gone:
            return None, 60.0
    rest = times.grace - (now - state.next_since) if state.next > state.tags else 0.0  # I3: packets with the tag have ended
    return (Begin(state.next, state.counter, spec, state.stamp, gone), 0.0) if rest <= 0 else (None, rest)


def is_beyond(state: State) -> bool:
    """Whether some router knows an epoch above the counter: etcd was restored from a backup. I1: such an epoch is not begun
    again; `fleet restored` raises the counter above all."""
    return greatest(state) > state.counter


def greatest(state: State) -> int:
    """The greatest epoch that there was, as far as anybody knows. In the first round of tags a tag is an epoch."""
    found = [max(state.commits, default=0)]
    for record in state.live.values():
        found += [record.seen, record.stamp, max(record.epochs, default=0), max(record.other, default=0) if state.counter < state.tags else 0]
    return max(found)


def rows_of(work: Work) -> Rows:
    """The next rows of a plan, as many as one transaction takes."""
    assert work.rows is not None
    size, end = 0, work.written
    while end < len(work.rows) and end - work.written < MOST_ROWS and size < MOST_BYTES:
        size += len(work.rows[end][1]) + 100
        end += 1
    return Rows(work.epoch, tuple(work.rows[work.written:end]), work.spec if end == len(work.rows) else None)


def rest_of(state: State, now: float, times: Times) -> float:
    """The seconds until patience with an absent member, or the hold of a link, is over."""
    ends = [since + times.patience - now for since in state.absent.values()]
    ends += [up + times.hold - now for up in state.down.values() if up is not None]
    return min((it for it in ends if it > 0), default=60.0)


def some(names: Sequence[str]) -> str:
    """The first ones of names."""
    return ", ".join(names[:8]) + (f" and {len(names) - 8} more" if len(names) > 8 else "")


def waits(state: State) -> List[str]:
    """What a fleet waits for, in sentences."""
    said = [why for _, why in sorted(state.unread.items())]
    for epoch in sorted(state.commits, reverse=True):
        if epoch > state.stamp:
            late = [name for name in needed(state, epoch) if not has_acknowledged(state, name, epoch)]
            gone = [name for name in late if name not in state.live]
            if late:
                said.append(f"epoch {epoch} waits for {some(late)}" + (f"; no agent runs at {some(gone)}" if gone else ""))
            break
    behind = [name for name in state.here() if state.live[name].stamp < state.stamp]
    if behind:
        said.append(f"epoch {state.stamp} is not stamped yet by {some(behind)}")
    if state.away():
        said.append(f"no agent runs at {some(state.away())}: start it, or run `fleet gone` if the router is gone for good")
    if is_beyond(state):
        said.append("a record has an epoch above the counter: etcd was restored from a backup; stop the controllers, and run `fleet restored`")
    if state.refused:
        said.append(f"no plan could be made for {state.refused}: the controller's log says why")
    if not state.next and not state.away():
        said.append(f"all {state.tags} tags are in use by routers")
    if not state.members:
        said.append("nothing is enrolled yet: run `fleet enroll TOPOLOGY`")
    elif state.want is None:
        said.append("no plan is requested yet: run `fleet want`")
    if state.want and state.shape:
        if not reaches_all(state.shape, state.shape.links.intersection(state.down)):
            said.append("the links that are up do not connect all nodes: the plan stays as it is")
        if state.want.gone & set(state.live):
            said.append(f"{', '.join(sorted(state.want.gone & set(state.live)))} is running, but marked as gone: run `fleet gone --back`")
    said += [f"{name}: {record.says}" for name, record in sorted(state.live.items()) if record.says]
    return said
