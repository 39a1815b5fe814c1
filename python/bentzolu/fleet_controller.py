"""The controller: has plans made for what is wanted and for the links that are up, writes their rows to etcd, and takes each
epoch through commit, stamp and floor. Several may run: one leads, by a key under its lease.

It is a machine as the agent is. Each of its writes compares that it still leads, and what the next write of its kind would
change; so one that is carried out late, or twice, changes nothing. All that it does follows from what etcd says (and from
times since it leads), so another one goes on where it ended.
"""
from __future__ import annotations

from typing import Any, Dict, List, Optional, Protocol, Sequence, Tuple

from . import fleet
from .fleet import Begin, Collect, Drop, Flip, Floor, Refuse, Rows, Spec, State, Times, Work, Write
from .fleet_agent import Outside
from .fleet_calls import (
    Answer, Call, Change, Compare, Created, Delete, Done, Equals, Event, Get, Grant, Keep, Put, Txn, under,
)


MANY, TOGETHER = 64, 0.02  # members, and seconds
WAITS_AFTER = 1.0  # seconds from a look to the line of the log about what is waited for


class Planner(Protocol):
    """Who makes plans; `planned` or `unplanned` of the machine comes with the number that it gave."""

    def plan(self, number: int, spec: Spec, config: Dict[str, str]) -> None:
        """Makes the rows of a plan."""


class Controller:
    """The machine. `name` names this process and no other one."""

    def __init__(self, name: str, outside: Outside, planner: Planner, times: Optional[Times] = None, lease: int = 3, call: float = 2.0) -> None:
        self.name, self.outside, self.planner, self.times = name, outside, planner, times or Times()
        self.lease_seconds, self.call_seconds = lease, call
        self.phase, self.lease, self.led_since, self.count = "rest", 0, 0, 0
        self.state = State()
        self.asked: Dict[int, str] = {}
        self.writing: Optional[Write] = None
        self.planning = 0
        self.due: Dict[str, float] = {}
        self.rests = 0
        self.said: List[str] = []

    # what comes

    def start(self) -> None:
        """Begins."""
        self.begin()

    def answered(self, number: int, answer: Answer) -> None:
        """The answer to a call."""
        what = self.asked.pop(number, None)
        if what == "keep" or what == "lease":
            self.leased(what, answer)
        elif what is not None and isinstance(answer, Done):
            {"campaign": self.campaigned, "resign": self.resigned, "read": self.has_read, "write": self.has_written}[what](answer)
        self.sleep()

    def failed(self, number: int, why: str) -> None:
        """A call or a watch has failed."""
        if self.asked.pop(number, None) is not None:
            self.lost(why)
            self.sleep()

    def events(self, number: int, found: Sequence[Event]) -> None:
        """Events of a watch."""
        what = self.asked.get(number)
        if what == "leader" and any(it.value is None for it in found):
            self.forget(number)
            self.campaign()
        elif what == "watch":
            for it in found:
                self.learn(it.key, it.value)
            if len(self.state.members) <= MANY:
                self.advance()
            else:  # their records come one by one: it looks at some together
                self.due["advance"] = min(self.due.get("advance", 1e18), self.outside.now() + TOGETHER)
        self.sleep()

    def planned(self, number: int, rows: Sequence[Tuple[str, str]]) -> None:
        """The rows of a plan, as pairs of a node and its row."""
        if number == self.planning and self.state.work is not None:
            self.outside.tell("compiled", epoch=self.state.work.epoch, bytes=sum(len(row) for _, row in rows))
            self.state.work.rows = sorted(rows)
            self.advance()
            self.sleep()

    def unplanned(self, number: int, why: str) -> None:
        """No plan can be made; it is not tried again until another one is wanted."""
        if number == self.planning and self.state.work is not None:
            self.outside.tell("refused", epoch=self.state.work.epoch, why=why)
            self.state.work.is_refused = True
            self.advance()
            self.sleep()

    def woken(self) -> None:
        """The time that was asked for is there."""
        now = self.outside.now()
        for what in [what for what, at in self.due.items() if at <= now]:
            if what in self.due:
                del self.due[what]
                {"begin": self.begin, "keep": self.keep, "advance": self.advance, "waits": self.tell_waits}[what]()
        self.sleep()

    def sleep(self) -> None:
        if self.due:
            self.outside.wake(min(self.due.values()))

    # who leads

    def ask(self, what: str, asked: Call, seconds: Optional[float] = None) -> None:
        self.count += 1
        self.asked[self.count] = what
        self.outside.call(self.count, asked, seconds or self.call_seconds)

    def forget(self, number: int) -> None:
        del self.asked[number]
        self.outside.forget([number])

    def begin(self) -> None:
        self.phase = "lease"
        self.ask("lease", Keep(self.lease) if self.lease else Grant(self.lease_seconds))

    def keep(self) -> None:
        self.ask("keep", Keep(self.lease))

    def leased(self, what: str, answer: Answer) -> None:
        """A lease was granted, or kept."""
        number = answer if isinstance(answer, int) else 0
        if number == 0:
            self.lease = 0
            return self.lost("the lease has expired") if what == "keep" else self.begin()
        self.due["keep"] = self.outside.now() + self.lease_seconds / 3
        if what == "keep":
            return None
        self.lease = self.lease or number
        return self.campaign()

    def campaign(self) -> None:
        self.phase = "campaign"
        leader = Put(fleet.LEADER, self.name, self.lease)
        self.ask("campaign", Txn((Created(fleet.LEADER, 0),), (leader,), (Get(fleet.LEADER),)))

    def campaigned(self, answer: Done) -> None:
        """This one leads, or another one."""
        found = answer.found[0] if answer.found else ()
        if answer.held:
            self.led_since = answer.revision
        elif found and found[0].value == self.name:
            # I1: this one led, and gave up a write that may still be carried out; under another revision it never will be.
            return self.ask("resign", Txn((Created(fleet.LEADER, found[0].created),), (Delete(fleet.LEADER),)))
        else:
            self.phase = "follow"
            self.outside.tell("follows", leader=found[0].value if found else "")
            self.watch("leader", [(fleet.LEADER, None)], answer.revision + 1)
            return None
        self.phase = "read"
        self.outside.tell("leads", name=self.name)
        spans = [under(it) for it in (fleet.NET, fleet.LIVE, fleet.MEMBERS, fleet.CONFIG)]
        gets = [*(Get(*span) for span in spans), Get(*under(fleet.ROWS), keys_only=True)]
        return self.ask("read", Txn((Created(fleet.LEADER, self.led_since),), tuple(gets)), 10.0)

    def resigned(self, _: Done) -> None:
        """The key is free."""
        self.campaign()

    def watch(self, what: str, spans: Sequence[Tuple[str, Optional[str]]], revision: int) -> None:
        self.count += 1
        self.asked[self.count] = what
        self.outside.watch(self.count, spans, revision)

    def has_read(self, answer: Done) -> None:
        """All keys at one revision."""
        if not answer.held:
            return self.lost("another controller leads")
        self.state, self.writing, self.planning = State(), None, 0
        for pair in [pair for found in answer.found for pair in found]:
            self.learn(pair.key, pair.value)
        self.state.refused = ""  # who leads anew tries once more
        self.phase = "lead"
        self.watch("watch", [under(it) for it in (fleet.LIVE, fleet.MEMBERS, fleet.CONFIG)], answer.revision + 1)
        return self.advance()

    def lost(self, why: str) -> None:
        """Ends what it does, and begins anew; its lease is taken up again where it still runs."""
        self.rests = 0 if self.phase == "lead" else min(self.rests + 1, 8)
        self.outside.tell("lost", why=why, phase=self.phase)
        self.outside.forget(list(self.asked))
        self.outside.rotate()
        self.asked.clear()
        self.due = {"begin": self.outside.now() + 0.2 * 1.3 ** self.rests}
        self.phase, self.writing, self.planning, self.state = "rest", None, 0, State()

    # what it does

    def learn(self, key: str, value: Optional[str]) -> None:
        state = self.state
        down = set(state.down)
        try:
            fleet.learn(state, key, value)
            state.unread.pop(key, None)
        except fleet.UnknownRecord as fault:
            if state.unread.get(key) != str(fault):
                self.outside.tell("unread", key=key, why=str(fault))
            state.unread[key] = str(fault)
        for link in sorted(set(state.down) - down):
            self.outside.tell("down", link=link)

    def advance(self) -> None:
        """Does what is due next; one write at a time."""
        while self.phase == "lead" and self.writing is None:
            now = self.outside.now()
            fleet.notice(self.state, now, self.times)
            write, wait = step(self.state, now, self.times)
            if write is None:
                self.due["advance"] = now + max(wait, 0.001)
                break
            if isinstance(write, Drop):
                self.state.work, self.planning = None, 0
            else:
                self.write(write)
        if self.phase == "lead":
            self.due.setdefault("waits", self.outside.now() + WAITS_AFTER)

    def tell_waits(self) -> None:
        """What is waited for goes to the log, where it was not told last."""
        said = fleet.waits(self.state)
        for line in said:
            if line not in self.said:
                self.outside.tell("waits", why=line)
        self.said = said

    def write(self, write: Write) -> None:
        """A transaction of the one who leads."""
        compare, then = changes_of(self.state, write)
        self.writing = write
        self.ask("write", Txn((leads(self.led_since), *compare), then), 10.0)

    def has_written(self, answer: Done) -> None:
        """The write is done, or refused since something else is so than was thought."""
        write, self.writing = self.writing, None
        if not answer.held or write is None or isinstance(write, Drop):
            return self.lost("a write was refused: another controller leads, or has written")
        for change in changes_of(self.state, write)[1]:
            if isinstance(change, Put):
                self.learn(change.key, change.value)
            elif isinstance(change, Delete):
                self.learn(change.key, None)
        what, about = told_of(write)
        self.outside.tell(what, **about)
        if isinstance(write, Begin):
            self.state.work = Work(write.epoch, write.spec)
            self.planning = write.epoch
            self.planner.plan(write.epoch, write.spec, self.state.config)
        elif isinstance(write, Refuse):
            self.state.work = None
        elif isinstance(write, Rows) and self.state.work is not None:
            self.state.work.written += len(write.rows)
            if write.commit:
                self.state.work = None
        return self.advance()


step = fleet.step


def told_of(write: Write) -> Tuple[str, Dict[str, Any]]:
    """A write, as the log has it."""
    if isinstance(write, Begin):
        return "begun", {"epoch": write.epoch, "spec": write.spec.text()}
    if isinstance(write, Rows):
        return ("committed" if write.commit else "rows"), {"epoch": write.epoch, "rows": len(write.rows)}
    if isinstance(write, Flip):
        return "flipped", {"epoch": write.epoch}
    if isinstance(write, Floor):
        return "floor", {"epoch": write.epoch}
    if isinstance(write, Collect):
        return "collected", {"rows": len(write.rows)}
    if isinstance(write, Drop):
        return "dropped", {"epoch": write.epoch}
    return "refused", {"spec": write.spec.text()}


def leads(since: int) -> Compare:
    """The comparison that this one leads still. I1: whoever leads later has the key of another revision."""
    return Created(fleet.LEADER, since)


def is_value(key: str, number: int) -> Compare:
    """The comparison that a key has a number, or is not there for 0."""
    return Equals(key, str(number)) if number else Created(key, 0)


def changes_of(state: State, write: Write) -> Tuple[Tuple[Compare, ...], Tuple[Change, ...]]:
    """What a write compares beside that its writer leads, and what it changes."""
    if isinstance(write, Begin):
        gone = tuple(Delete(fleet.EPOCHS + str(it)) for it in write.gone)
        then: List[Change] = [Put(fleet.COUNTER, str(write.epoch)), *gone]  # I1: it never goes back
        then += [Delete(fleet.REFUSED)] if state.refused else []
        return (is_value(fleet.COUNTER, write.old), is_value(fleet.STAMP, write.stamp)), tuple(then)
    if isinstance(write, Rows):
        commit = fleet.EPOCHS + str(write.epoch)
        then = [Put(fleet.rows_key(node, write.epoch), row) for node, row in write.rows]
        then += [Put(commit, write.commit.text())] if write.commit else []
        return (is_value(fleet.COUNTER, write.epoch), Created(commit, 0)), tuple(then)  # I1: before its commit, by who began it
    if isinstance(write, Flip):
        there = Equals(fleet.EPOCHS + str(write.epoch), state.commits[write.epoch].text()) if write.epoch in state.commits else None
        return (is_value(fleet.STAMP, write.old), *([there] if there else [])), (Put(fleet.STAMP, str(write.epoch)),)
    if isinstance(write, Floor):
        gone = tuple(Delete(fleet.EPOCHS + str(it)) for it in write.gone)
        return (is_value(fleet.FLOOR, write.old),), (Put(fleet.FLOOR, str(write.epoch)), *gone)
    if isinstance(write, Refuse):
        return (), (Put(fleet.REFUSED, write.spec.text()),)
    assert isinstance(write, Collect)
    return (), tuple(Delete(fleet.rows_key(node, epoch)) for node, epoch in write.rows)
