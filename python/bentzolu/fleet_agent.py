"""The agent of one router: makes its kernel's epochs what etcd says, and reports to etcd what the kernel has.

It is a machine without a clock, a socket or a thread of its own: what comes is told it by its calls, and what it wants goes
to `Outside` and `Kernel`. `fleet_run` joins it to etcd and Linux, and a simulation to a world of its own.

A session is a lease, a reading of all keys at one revision, and a watch from the next one on. Whatever goes wrong ends the
session, and another one begins; the kernel goes on with what it has meanwhile.
"""
from __future__ import annotations

from dataclasses import dataclass, replace
from typing import Any, Dict, FrozenSet, Optional, Protocol, Sequence, Tuple

from . import fleet
from .errors import BentzoluError
from .fleet import Add, Held, Member, Rebuild, Record, Remove, Row, Said, Stamp, Step
from .fleet_calls import Answer, Call, Done, Event, Get, Grant, Keep, Modified, Put, Span, Txn, under


STRANGER = ("another program changed the table netdev bz: what is not the fleet's is taken out, and what lacks is added; "
            "give that program a table of its own, and start it before the agent where it flushes all")


class KernelError(BentzoluError):
    """A change that the kernel refused, or a port that is not there; the text says what to do."""


class Outside(Protocol):
    """What a machine may ask of the world. Answers come by the calls of the machine, with the number that it gave."""

    def now(self) -> float:
        """Seconds of a clock that never goes back."""

    def call(self, number: int, asked: Call, seconds: float) -> None:
        """Asks etcd: `answered` or `failed` comes, after so many seconds at most."""

    def watch(self, number: int, spans: Sequence[Span], revision: int) -> None:
        """Follows ranges from a revision on: `events` comes, and `failed` when it ends."""

    def forget(self, numbers: Sequence[int]) -> None:
        """Nothing more is to come of these."""

    def rotate(self) -> None:
        """The next endpoint of etcd, with new connections."""

    def wake(self, at: float) -> None:
        """`woken` is to come at a time; one that was asked for before is forgotten."""

    def tell(self, what: str, **about: Any) -> None:
        """A line of the log."""


class Kernel(Protocol):
    """A router's table. Each change is one transaction; KernelError where it is refused."""

    def open(self, member: Member) -> None:
        """Prepares the router for its number, label and ports, where it is not yet so."""

    def read(self) -> Held:
        """What there is."""

    def do(self, act: Step, held: Held) -> None:
        """Makes a change of what is held."""

    def says(self) -> str:
        """What is wrong with the router's ports, in a sentence, or nothing."""


def after(act: Step, held: Held) -> Held:
    """What a kernel holds after a change."""
    if isinstance(act, Rebuild):
        return Held(dict(act.rows), act.stamped, held.newest)
    if isinstance(act, Add):
        return replace(held, rows={**held.rows, **act.rows})
    if isinstance(act, Stamp):
        return replace(held, stamped=act.tag, newest=max(held.newest, act.epoch))
    return replace(held, rows={tag: row for tag, row in held.rows.items() if tag not in act.tags})


@dataclass
class AgentTimes:
    """Seconds: of the lease, between two signs of life, for one call, between two looks at the kernel, and until a removal
    is told that nobody waits for."""

    lease: int = 15
    probe: float = 2.0
    call: float = 2.0
    look: float = 30.0
    lazy: float = 5.0


class View:
    """What etcd said to an agent, and `said`, what follows from it."""

    def __init__(self, node: str) -> None:
        self.node, self.rows_at = node, f"{fleet.ROWS}{node}/"
        self.numbers: Dict[str, int] = {}
        self.commits: Dict[int, str] = {}
        self.rows: Dict[int, Row] = {}
        self.member: Optional[Member] = None

    def learn(self, key: str, value: Optional[str]) -> None:
        """Takes a key's value, or that it went; UnknownRecord where it can't be read."""
        if key.startswith(fleet.EPOCHS):
            self.put(self.commits, fleet.read_number(key, key[len(fleet.EPOCHS):]), value)
        elif key.startswith(self.rows_at):
            epoch = fleet.read_number(key, key[len(self.rows_at):])
            self.put(self.rows, epoch, None if value is None else fleet.read_row(value))
        elif key == fleet.MEMBERS + self.node:
            self.member = None if value is None else Member.read(key, value)
        elif key in (fleet.TAGS, fleet.COUNTER, fleet.STAMP, fleet.FLOOR):
            self.put(self.numbers, key, None if value is None else fleet.read_number(key, value))

    @staticmethod
    def put(place: Dict[Any, Any], name: Any, value: Any) -> None:
        if value is None:
            place.pop(name, None)
        else:
            place[name] = value

    def said(self) -> Said:
        """What is wanted of the kernel."""
        tags, counter, stamp, floor = (self.numbers.get(key, 0) for key in (fleet.TAGS, fleet.COUNTER, fleet.STAMP, fleet.FLOOR))
        return Said(tags or fleet.MOST_TAGS, stamp, floor, frozenset(self.commits), self.rows, counter)


class Agent:
    """The machine. `boot` names this process and no other one, `host` the router that it runs at."""

    def __init__(self, node: str, outside: Outside, kernel: Kernel, boot: str, host: str, times: Optional[AgentTimes] = None) -> None:
        self.node, self.outside, self.kernel, self.boot, self.host = node, outside, kernel, boot, host
        self.times = times or AgentTimes()
        self.key = fleet.LIVE + node
        self.phase, self.lease, self.count = "rest", 0, 0
        self.view, self.said = View(node), Said()
        self.held: Optional[Held] = None
        self.down: FrozenSet[str] = frozenset()
        self.asked: Dict[int, str] = {}
        self.written, self.told, self.telling = 0, None, None  # type: int, Optional[Record], Optional[Record]
        self.has_told = self.is_stopped = False
        self.due: Dict[str, float] = {}
        self.rests, self.began, self.seen = 0, 0.0, 0

    # what comes

    def start(self) -> None:
        """Begins."""
        self.begin()

    def answered(self, number: int, answer: Answer) -> None:
        """The answer to a call."""
        what = self.asked.pop(number, None)
        if what is None or self.is_stopped:
            return
        if what == "keep" or what == "lease":
            self.leased(what, answer)
        elif isinstance(answer, Done):
            {"read": self.has_read, "write": self.has_written, "other": self.has_found}[what](answer)
        self.sleep()

    def failed(self, number: int, why: str) -> None:
        """A call or a watch has failed."""
        if self.asked.pop(number, None) is not None and not self.is_stopped:
            self.lost(why)
            self.sleep()

    def events(self, number: int, found: Sequence[Event]) -> None:
        """Events of a watch, in the order of each of its ranges."""
        if number in self.asked and not self.is_stopped:
            self.learn([(it.key, it.value) for it in found])
            self.settle()
            self.sleep()

    def ports(self, down: FrozenSet[str]) -> None:
        """The neighbours whose ports are down now."""
        if down != self.down:
            self.outside.tell("ports", down=sorted(down))
            self.down = down
            self.write()
            self.sleep()

    def doubt(self) -> None:
        """Somebody changed the kernel's tables: it is looked at again, soon."""
        self.due["look"] = min(self.due.get("look", 1e18), self.outside.now() + 0.1)
        self.sleep()

    def woken(self) -> None:
        """The time that was asked for is there."""
        now = self.outside.now()
        for what in [what for what, at in self.due.items() if at <= now]:
            if what in self.due and not self.is_stopped:
                del self.due[what]
                getattr(self, f"do_{what}")()
        self.sleep()

    # what is due

    def sleep(self) -> None:
        if self.due:
            self.outside.wake(min(self.due.values()))

    def do_begin(self) -> None:
        self.begin()

    def do_keep(self) -> None:
        self.ask("keep", Keep(self.lease))

    def do_tell(self) -> None:
        self.write(is_due=True)

    def do_look(self) -> None:
        """Looks whether the kernel is as it is thought to be."""
        self.due["look"] = self.outside.now() + self.times.look
        if self.held is not None:
            try:
                found = self.kernel.read()
            except KernelError as fault:
                return self.lost(str(fault))
            if (found.rows, found.stamped, found.is_ours) != (self.held.rows, self.held.stamped, True):
                self.outside.tell("differs", tags=sorted(found.rows), stamped=found.stamped, why=STRANGER)
                self.held = replace(found, newest=self.held.newest)
                self.settle()
            self.write()  # what is wrong with the ports may have changed

    # a session

    def ask(self, what: str, asked: Call) -> None:
        self.count += 1
        self.asked[self.count] = what
        self.outside.call(self.count, asked, self.times.call)

    def begin(self) -> None:
        self.phase, self.began = "lease", self.outside.now()
        self.ask("lease", Keep(self.lease) if self.lease else Grant(self.times.lease))

    def leased(self, what: str, answer: Answer) -> None:
        """A lease was granted, or kept."""
        number = answer if isinstance(answer, int) else 0
        if what == "keep":
            if number == 0:
                self.lease = 0
                return self.lost("the lease has expired")
            self.due["keep"] = self.outside.now() + self.times.probe
            return None
        if self.lease and number == 0:
            self.lease = 0
            return self.begin()
        self.lease = self.lease or number
        self.phase = "read"
        spans = (under(fleet.NET), under(self.view.rows_at), (fleet.MEMBERS + self.node, None), (self.key, None))
        return self.ask("read", Txn((), tuple(Get(*span) for span in spans)))

    def has_read(self, answer: Done) -> None:
        """All keys at one revision."""
        *pairs, record = answer.found
        self.view, self.told, self.telling = View(self.node), None, None
        self.written = record[0].modified if record else 0
        if record and not self.has_told:
            other = self.record_in(record[0].value)
            if other and other.host != self.host:
                return self.lost(f"another agent has the name {self.node}, at {other.host}: give each router its own `node`; "
                                 f"if that one has stopped, wait until its lease ends")
        if not self.learn([(it.key, it.value) for part in pairs for it in part]):
            return None
        if self.view.member is None:
            return self.lost(f"etcd has no member {self.node}: `fleet enroll` names the routers, and `node` must be one of them")
        try:
            self.kernel.open(self.view.member)
            if self.held is None:
                self.held = self.kernel.read()
        except KernelError as fault:
            return self.lost(str(fault))
        self.phase = "on"
        now = self.outside.now()
        self.due.update(keep=now + self.times.probe, look=self.due.get("look", now + self.times.look))
        self.count += 1
        self.asked[self.count] = "watch"
        spans = (under(fleet.NET), under(self.view.rows_at), (fleet.MEMBERS + self.node, None))
        self.outside.watch(self.count, spans, answer.revision + 1)
        return self.settle()

    def lost(self, why: str) -> None:
        """Ends the session; the kernel goes on with what it has."""
        now = self.outside.now()
        self.rests = 0 if self.phase == "on" and now - self.began > 5 else min(self.rests + 1, 8)
        self.outside.tell("lost", why=why, lease=self.lease)
        self.outside.forget(list(self.asked))
        self.outside.rotate()
        self.asked.clear()
        self.due = {"begin": now + 0.1 * 1.5 ** self.rests, **{what: at for what, at in self.due.items() if what == "look"}}
        self.phase, self.telling = "rest", None

    def stop(self, why: str) -> None:
        """Ends for good; the kernel goes on with what it has."""
        self.outside.tell("stopped", why=why)
        self.outside.forget(list(self.asked))
        self.asked.clear()
        self.due.clear()
        self.is_stopped = True

    # what etcd says, and what the kernel is made

    def learn(self, pairs: Sequence[Tuple[str, Optional[str]]]) -> bool:
        """Takes pairs into the view, and answers whether all could be read. One that can't leaves the kernel as it is."""
        member = self.view.member
        try:
            for key, value in pairs:
                self.view.learn(key, value)
        except fleet.UnknownRecord as fault:
            self.lost(str(fault))
            return False
        self.said = self.view.said()
        self.seen = max(self.seen, self.said.counter)
        if member is not None and self.view.member != member and self.phase == "on":
            self.held = None
            self.lost("the member's ports have changed")
            return False
        return True

    def settle(self) -> None:
        """Makes the kernel what etcd says, or said last, a transaction each, and reports what it has after each."""
        while self.held is not None:
            act = reconcile(self.said, self.held)
            if act is None:
                break
            if isinstance(act, Stamp) and act.tag:  # before the first packet carries it: a kill can't lose this line
                self.outside.tell("stamping", epoch=act.epoch)
            try:
                self.kernel.do(act, self.held)
            except KernelError as fault:
                self.held = None  # what the kernel has is looked at again
                self.lost(str(fault))
                return
            self.held = after(act, self.held)
            what, about = told_of(act)
            self.outside.tell(what, **about)
            if not isinstance(act, Remove):
                self.write()
        self.write()

    def record(self) -> Record:
        """What the kernel has, for the controllers."""
        assert self.held is not None
        return fleet.record_of(self.said, self.held, self.boot, self.host, self.down, self.kernel.says(), self.seen)

    def write(self, is_due: bool = False) -> None:
        """Tells what the kernel has, where that was not told. One that only has less than was told waits a while, since
        mostly the next change reports it too; but not where tags are few."""
        if self.phase != "on" or self.held is None or self.telling is not None:
            return
        record = self.record()
        if self.told is not None and self.said.tags >= fleet.FEW_TAGS and replace(record, seen=self.told.seen) == self.told:
            record = self.told  # the counter alone is no news, but where a tag may be wanted
        if record == self.told:
            self.due.pop("tell", None)
            return
        if self.told is not None and not is_due and self.said.tags >= fleet.FEW_TAGS and is_less(record, self.told):
            self.due.setdefault("tell", self.outside.now() + self.times.lazy)
            return
        self.due.pop("tell", None)
        self.telling = record
        # A write that was given up may be carried out after later ones: so each is bound to the one before.
        write = Txn((Modified(self.key, self.written),), (Put(self.key, record.text(), self.lease),))
        self.ask("write", write)

    def has_written(self, answer: Done) -> None:
        """The record is there; or another one was, which is asked for, and meanwhile nothing is written."""
        if not answer.held:
            return self.ask("other", Txn((), (Get(self.key),)))
        told, self.telling = self.telling, None
        self.written, self.told, self.has_told = answer.revision, told, True
        if told is not None:
            self.outside.tell("told", epochs=sorted(told.epochs), stamp=told.stamp, down=sorted(told.down))
        return self.write()

    def has_found(self, answer: Done) -> None:
        """The record that was there in place of the one that was last written."""
        self.telling = None
        pairs = answer.found[0] if answer.found else ()
        other = self.record_in(pairs[0].value) if pairs else None
        if other and other.boot != self.boot and self.has_told:
            return self.stop(f"another agent has taken the name {self.node}, at {other.host}: give each router its own `node`")
        self.written = pairs[0].modified if pairs else 0
        return self.write()

    def record_in(self, text: str) -> Optional[Record]:
        try:
            return Record.read(self.key, text)
        except fleet.UnknownRecord:
            return None


reconcile = fleet.reconcile


def told_of(act: Step) -> Tuple[str, Dict[str, Any]]:
    """A change, as the log has it."""
    if isinstance(act, Add):
        return "installed", {"epochs": sorted(act.epochs)}
    if isinstance(act, Stamp):
        return "stamped", {"epoch": act.epoch}
    if isinstance(act, Remove):
        return "retired", {"tags": list(act.tags)}
    return "rebuilt", {"tags": sorted(act.rows)}


def is_less(record: Record, told: Record) -> bool:
    """Whether a record differs from the one that was told only in that it has less."""
    same = (record.stamp, record.down, record.says, record.boot) == (told.stamp, told.down, told.says, told.boot)
    return same and record.epochs <= told.epochs and record.other <= told.other
