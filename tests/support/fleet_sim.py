"""A fleet on a clock of its own, under faults by chance: `tests/fleet_sim` and tests/test_fleet_sim.py run it.

Agents and controllers as they are, over an etcd of dictionaries: calls that are lost, carried out late or twice, watches
out of step, agents and controllers that end between any two of their acts, routers that lose their tables, links that go
down, an etcd that is away. Packets travel hop by hop meanwhile. Of each run: no packet follows a mixture of two plans; none
is lost but over a link that is down, at a kernel that lost its table, or from a router that was away while four epochs went
by; and when the faults end, all routers stamp what is wanted. Then wrong bodies, each of which has to be found.

    fleet_sim.py [SEEDS [FIRST]]             10,000 seeds from 1 on, by default, and the wrong bodies
    fleet_sim.py --replay SEED [WRONG]       one run, with all that is told of it

It uses the standard library alone. The last line is `N passed, M failed`, and the status is 0 where M is 0.
"""
import contextlib
import heapq
import multiprocessing
import os
import random
import subprocess
import sys
import time
import traceback
from collections import Counter, deque
from functools import lru_cache

sys.dont_write_bytecode = True
sys.path.insert(0, os.path.join(os.path.dirname(os.path.dirname(os.path.dirname(os.path.abspath(__file__)))), "python"))
from bentzolu import fleet, fleet_agent, fleet_controller  # noqa: E402
from bentzolu.fleet_calls import Created, Done, Equals, Event, Get, Grant, Modified, Pair, Put, Txn  # noqa: E402

SEEDS, PART = 10_000, 100
CHAOS, HEAL, CALM = 10.0, 10.5, 2.0  # seconds of faults, until all that was late has come, and without any
GRACE, MOST_HOP = 0.5, 0.06
LEASE, PATIENCE, LATE = 4, 3.0, 6.0
fleet.MOST_ROWS = 2  # so that the rows of a plan come in several transactions

TOPOLOGIES = {
    "ring": "a b d\nb c\nc d\n",
    "chord": "a b e c\nb c\nc d\nd e\n",
    "house": "a b c\nb c d\nc e\nd e\n",
}


class Crash(Exception):
    """A process ends here."""


class Refused(Exception):
    """etcd refuses a call."""


# Plans: a plain way to make them, since what is tested here is how they come about


@lru_cache(None)
def plan_of(name, spec):
    """The rows of a plan, by node: for each label the neighbour."""
    shape = fleet.shape_of(TOPOLOGIES[name], "adjlist")
    _, without = fleet.leaves_of(shape, frozenset(spec.without), frozenset(spec.cut))
    near = {node: [] for node in shape.nodes}
    for a, b in sorted(shape.links - without):
        near[a].append(b)
        near[b].append(a)
    if spec.kind == "tree":
        seen, tree, ahead = set(), {node: [] for node in near}, [(None, shape.nodes[0])]
        while ahead:
            father, node = ahead.pop()
            if node not in seen:
                seen.add(node)
                if father:
                    tree[node].append(father)
                    tree[father].append(node)
                ahead += [(node, other) for other in near[node]]
        near = tree
    towards = {node: [None] * len(near) for node in near}
    for label, goal in enumerate(shape.nodes):
        ahead, far = deque([goal]), {goal: 0}
        while ahead:
            node = ahead.popleft()
            for other in near[node]:
                if other not in far:
                    far[other] = far[node] + 1
                    ahead.append(other)
                    towards[other][label] = node
    return towards


@lru_cache(None)
def rows_of(name, spec):
    """A plan as etcd has it: pairs of a node and the text of its row."""
    found = []
    for node, row in plan_of(name, spec).items():
        parts = []
        for label, to in enumerate(row):
            if to and parts and parts[-1][2] == to and parts[-1][1] == label - 1:
                parts[-1] = (parts[-1][0], label, to)
            elif to:
                parts.append((label, label, to))
        found.append((node, fleet.row_text(parts)))
    return found


@lru_cache(None)
def walk_of(name, spec, source, goal):
    towards, walk = plan_of(name, spec), [source]
    label = list(towards).index(goal)
    while walk[-1] != goal:
        walk.append(towards[walk[-1]][label])
    return walk


# etcd


class Store:
    """Keys with revisions and leases, changed at single moments, and streams that follow them."""

    def __init__(self, world):
        self.world, self.kv, self.revision, self.history = world, {}, 1, []
        self.leases, self.next, self.streams, self.down_until = {}, 100, [], 0.0

    def apply(self, call):
        if isinstance(call, Txn):
            return self.txn(call)
        now = self.world.now
        if isinstance(call, Grant):
            self.next += 1
            self.leases[self.next] = [call.seconds, now + call.seconds]
            self.world.at(now + call.seconds, self.expire, self.next)
            return self.next
        lease = self.leases.get(call.lease)
        if lease is None:
            return 0
        lease[1] = now + lease[0]
        return lease[0]

    def expire(self, number):
        lease = self.leases.get(number)
        if lease and self.world.now >= lease[1]:
            del self.leases[number]
            mine = [key for key, pair in self.kv.items() if pair.lease == number]
            self.revision += bool(mine)
            for key in mine:
                self.change(key, None)
        elif lease:
            self.world.at(lease[1], self.expire, number)

    def holds(self, it):
        pair = self.kv.get(it.key)
        if isinstance(it, Equals):
            return pair is not None and pair.value == it.value
        if isinstance(it, Created):
            return (pair.created if pair else 0) == it.revision
        assert isinstance(it, Modified)
        return (pair.modified if pair else 0) == it.revision

    def txn(self, call):
        held = all(map(self.holds, call.compare))
        changes, found = call.then if held else call.otherwise, []
        if any(isinstance(it, Put) and it.lease and it.lease not in self.leases for it in changes):
            raise Refused("requested lease not found")
        self.revision += any(not isinstance(it, Get) for it in changes)
        for it in changes:
            if isinstance(it, Get):
                keys = [it.key] if it.end is None else sorted(key for key in self.kv if key.startswith(it.key))
                found.append(tuple(self.kv[key] for key in keys if key in self.kv))
            elif isinstance(it, Put):
                self.change(it.key, it.value, it.lease)
            elif it.key in self.kv:
                self.change(it.key, None)
        return Done(held, self.revision, tuple(found))

    def change(self, key, value, lease=0):
        if value is None:
            del self.kv[key]
        else:
            was = self.kv.get(key)
            self.kv[key] = Pair(key, value, was.created if was else self.revision, self.revision, lease)
        event = Event(key, value, self.revision)
        self.history.append(event)
        for stream in self.streams:
            stream.take(event)
        self.world.stored(event)


class Stream:
    """A watch of several ranges; each is in order, and they are not in step."""

    def __init__(self, outside, number, spans, revision):
        self.outside, self.number = outside, number
        self.queues, self.is_due = [(key, end is None, []) for key, end in spans], False
        for event in outside.world.store.history:
            if event.revision >= revision:
                self.take(event)

    def take(self, event):
        key = event.key
        for front, is_whole, queue in self.queues:
            if key == front if is_whole else key.startswith(front):
                queue.append(event)
                if not self.is_due:
                    self.is_due = True
                    world = self.outside.world
                    world.at(world.now + world.luck.uniform(0.0005, 0.01), self.flush)

    def flush(self):
        self.is_due = False
        outside, world = self.outside, self.outside.world
        if outside.is_dead or self.number not in outside.streams:
            return
        waits = outside.cut_for()
        if waits > 0:
            self.is_due = True
            world.at(world.now + waits + 0.01, self.flush)
            return
        queues = [queue for _, _, queue in self.queues if queue]
        world.luck.shuffle(queues)
        for queue in queues:
            if world.luck.random() < 0.15:
                self.is_due = True
                continue
            events = queue[:]
            queue.clear()
            outside.deliver("events", self.number, events)
            if outside.is_dead or self.number not in outside.streams:
                return
        if self.is_due:
            world.at(world.now + world.luck.uniform(0.005, 0.3), self.flush)


class Outside:
    """One process's world: its way to etcd, its clock, and its end."""

    def __init__(self, world, name):
        self.world, self.name, self.is_dead, self.fuse = world, name, False, None
        self.machine, self.open, self.streams, self.cut_until, self.wakes = None, set(), {}, 0.0, None
        self.still_until, self.kept = 0.0, []

    def stand_still(self, until):
        if self.still_until <= self.world.now:
            self.still_until = until
            self.world.at(until, self.go_on)

    def go_on(self):
        """It goes on with all that came meanwhile, in its order."""
        kept, self.kept, self.still_until = self.kept, [], 0.0
        for what, words in kept:
            self.deliver(what, *words)

    def deliver(self, what, *words):
        if self.is_dead:
            return
        if self.still_until:
            self.kept.append((what, words))
            return
        try:
            getattr(self.machine, what)(*words)
        except Crash:
            self.world.ended(self)

    def burn(self):
        """A process may end at any of its acts."""
        if self.fuse is not None:
            self.fuse -= 1
            if self.fuse <= 0:
                raise Crash

    def cut_for(self):
        return max(self.cut_until, self.world.store.down_until) - self.world.now

    def now(self):
        return self.world.now

    def call(self, number, asked, seconds):
        self.burn()
        world, luck = self.world, self.world.luck
        self.open.add(number)
        if self.cut_for() > 0 or luck.random() < world.bad:
            if luck.random() < 0.6:  # it waits in a queue of TCP
                world.at(world.now + luck.uniform(0.05, LATE), self.late, asked)
            world.at(world.now + seconds, self.fail, number, "no answer")
        else:
            slow = LATE / 2 if luck.random() < world.bad else 0.01
            world.at(world.now + luck.uniform(0.0005, slow), self.arrive, number, asked, world.now + seconds)
        self.burn()

    def arrive(self, number, asked, end):
        world, luck = self.world, self.world.luck
        try:
            answer = world.store.apply(asked)
        except Refused as fault:
            world.at(world.now + 0.001, self.fail, number, str(fault))
            return
        if luck.random() < world.bad:
            world.at(world.now + luck.uniform(0, LATE), self.late, asked)
        if luck.random() < world.bad:
            world.at(end, self.fail, number, "no answer")
        else:
            world.at(world.now + luck.uniform(0.0005, 0.01), self.answer, number, answer)

    def late(self, asked):
        with contextlib.suppress(Refused):
            self.world.store.apply(asked)
            self.world.count["carried out late or twice"] += 1

    def answer(self, number, answer):
        if number in self.open:
            self.open.discard(number)
            self.deliver("answered", number, answer)

    def fail(self, number, why):
        if number in self.open or number in self.streams:
            self.forget([number])
            self.deliver("failed", number, why)

    def watch(self, number, spans, revision):
        self.burn()
        self.streams[number] = Stream(self, number, spans, revision)
        self.world.store.streams.append(self.streams[number])

    def forget(self, numbers):
        for number in numbers:
            self.open.discard(number)
            stream = self.streams.pop(number, None)
            if stream:
                self.world.store.streams.remove(stream)

    def rotate(self):
        pass

    def wake(self, at):
        if at != self.wakes:
            self.wakes = at
            self.world.at(at, self.woken, at)

    def woken(self, at):
        if at == self.wakes:
            self.wakes = None
            self.deliver("woken")

    def tell(self, what, **about):
        self.world.tell(self.name, what, about)

    def plan(self, number, spec, config):
        self.burn()
        world = self.world
        world.at(world.now + world.luck.uniform(0.002, 0.08), self.deliver, "planned", number, rows_of(world.topology, spec))


class Router:
    """A kernel, which outlives its agents. `epoch` is the one of its stamp, as its agent meant it."""

    def __init__(self, world, node):
        self.world, self.node, self.outside = world, node, None
        self.wipe()
        self.is_wiped = False

    def wipe(self):
        self.rows, self.stamped, self.epoch, self.is_wiped = {}, 0, 0, True

    def open(self, member):
        pass

    def says(self):
        return ""

    def read(self):
        return fleet.Held(dict(self.rows), self.stamped)

    def do(self, act, held):
        self.outside.burn()
        if isinstance(act, fleet.Add):
            self.add(act)
        elif isinstance(act, fleet.Stamp):
            self.stamped, self.epoch = act.tag, act.epoch
            self.is_wiped &= act.tag not in self.rows
        elif isinstance(act, fleet.Remove):
            for tag in act.tags:
                self.rows.pop(tag, None)
        self.outside.burn()

    def add(self, act):
        self.rows.update(act.rows)

    def to(self, tag, label):
        for first, last, to in self.rows.get(tag, ()):
            if first <= label <= last:
                return to
        return None


class World:
    """One run: everything that chance decides comes from its seed."""

    def __init__(self, seed, tags=None, told=None):
        self.luck, self.now, self.heap, self.serial, self.told = random.Random(seed), 0.0, [], 0, told
        self.topology = self.luck.choice(list(TOPOLOGIES))
        self.tags = tags or self.luck.choice([3, 4, 4, 5, 65535])
        self.bad, self.count, self.findings = self.luck.choice([0.0, 0.01, 0.03]), Counter(), []
        self.shape = fleet.shape_of(TOPOLOGIES[self.topology], "adjlist")
        self.nodes, self.links = list(self.shape.nodes), sorted(self.shape.links)
        self.label = {node: label for label, node in enumerate(self.nodes)}
        self.store, self.specs, self.forced, self.down, self.floor, self.floor_at = Store(self), {}, set(), set(), 0, 0.0
        self.routers = {node: Router(self, node) for node in self.nodes}
        self.agents, self.controllers, self.boots, self.is_chaos = {}, {}, 0, True
        pairs = {fleet.TAGS: str(self.tags), fleet.TOPOLOGY: TOPOLOGIES[self.topology], fleet.FORM: "adjlist",
                 fleet.WANT: fleet.Want("tree").text()}
        pairs.update({fleet.MEMBERS + node: fleet.Member(label + 1, label, {}).text() for node, label in self.label.items()})
        self.store.txn(Txn((), tuple(Put(*pair) for pair in pairs.items())))

    # the clock

    def at(self, when, act, *words):
        self.serial += 1
        heapq.heappush(self.heap, (when, self.serial, act, words))

    def run(self, end):
        heap, pop = self.heap, heapq.heappop
        while heap and heap[0][0] <= end:
            self.now, _, act, words = pop(heap)
            act(*words)
        self.now = end

    def tell(self, name, what, about):
        if self.told is not None:
            self.told.append((self.now, name, what, about))

    def find(self, what, *about):
        self.findings.append((round(self.now, 3), what, *about))
        self.tell("WORLD", what, about)

    # processes

    def start_agent(self, node):
        self.boots += 1
        outside = self.agents[node] = Outside(self, node)
        times = fleet_agent.AgentTimes(lease=LEASE, probe=1.2, call=1.0, look=4.0, lazy=2.0)
        outside.machine = fleet_agent.Agent(node, outside, self.routers[node], f"b{self.boots}", node, times)
        outside.machine.down = self.down_at(node)
        self.routers[node].outside = outside
        outside.deliver("start")

    def start_controller(self, i):
        self.boots += 1
        outside = self.controllers[i] = Outside(self, f"control{i}")
        times = fleet.Times(grace=GRACE, patience=PATIENCE, hold=0.5)
        outside.machine = fleet_controller.Controller(f"c{self.boots}", outside, outside, times, lease=2, call=1.0)
        outside.deliver("start")

    def ended(self, outside):
        self.tell(outside.name, "ends", {})
        self.count["ends"] += 1
        outside.is_dead = True
        outside.forget([*outside.open, *outside.streams])
        rest = self.luck.choice([0.01, 0.3, 1.5, 5.0]) if self.is_chaos else 0.01
        self.at(self.now + rest, self.again, outside)

    def again(self, outside):
        if self.agents.get(outside.name) is outside:
            self.start_agent(outside.name)
        for i in [i for i, it in self.controllers.items() if it is outside]:
            self.start_controller(i)

    def stored(self, event):
        """What etcd has now, for the judge."""
        if event.value is None:
            return
        if event.key.startswith(fleet.EPOCHS):
            self.specs.setdefault(int(event.key[len(fleet.EPOCHS):]), fleet.Spec.read(event.key, event.value))
            self.count["commits"] += 1
        elif event.key == fleet.STAMP:
            self.count["flips"] += 1
        elif event.key == fleet.FLOOR:
            self.floor, self.floor_at = int(event.value), self.now
            for node, router in self.routers.items():
                if fleet.LIVE + node not in self.store.kv and router.epoch < self.floor:
                    self.forced.add((node, router.epoch))

    # faults

    def down_at(self, node):
        return frozenset(a if b == node else b for a, b in self.down if node in (a, b))

    def fault(self):
        if not self.is_chaos:
            return
        luck, now = self.luck, self.now
        self.at(now + luck.expovariate(1.4), self.fault)
        what = luck.choice(FAULTS)
        self.tell("WORLD", what, {})
        node, i = luck.choice(self.nodes), luck.choice([1, 2])
        agent, controller = self.agents[node], self.controllers[i]
        if what == "agent" and not agent.is_dead:
            self.ended(agent)
        elif what == "agent at an act":
            agent.fuse = luck.randint(1, 6)
        elif what == "reboot" and not agent.is_dead:
            self.routers[node].wipe()
            self.ended(agent)
        elif what == "flush":
            self.routers[node].wipe()
            self.at(now + luck.choice([0.0, 0.1]), agent.deliver, "doubt")
        elif what == "cut":
            agent.cut_until = now + luck.choice([0.5, 2, 6, 9])
        elif what == "controller" and not controller.is_dead:
            self.ended(controller)
        elif what == "controller at an act":
            controller.fuse = luck.randint(1, 9)
        elif what == "still":
            luck.choice([agent, controller, controller]).stand_still(now + luck.choice([0.5, 2.5, 5]))
        elif what == "cut controller":
            controller.cut_until = now + luck.choice([0.5, 2, 5])
        elif what == "etcd":
            self.store.down_until = now + luck.choice([0.5, 2, 5])
            for stream in list(self.store.streams):
                self.at(now + luck.uniform(0, 0.1), stream.outside.fail, stream.number, "the connection ended")
        elif what == "link":
            link = luck.choice(self.links)
            if link not in self.down and fleet.is_connected(self.nodes, set(self.links) - self.down - {link}):
                self.set_link(link, True)
                self.at(now + luck.uniform(0.3, 5), self.set_link, link, False)

    def set_link(self, link, is_down):
        (self.down.add if is_down else self.down.discard)(link)
        for node in link:
            self.agents[node].deliver("ports", self.down_at(node))

    def want(self):
        if self.is_chaos:
            self.at(self.now + self.luck.uniform(0.3, 2.5), self.want)
        without = [self.luck.choice(self.links)] if self.luck.random() < 0.4 else []
        want = fleet.Want(self.luck.choice(["tree", "shortest"]), tuple(without))
        self.store.txn(Txn((), (Put(fleet.WANT, want.text()),)))

    # packets

    def packet(self):
        self.at(self.now + self.luck.expovariate(8), self.packet)
        source, goal = self.luck.sample(self.nodes, 2)
        router = self.routers[source]
        if router.stamped:
            self.count["packets"] += 1
            self.hop(router.stamped, router.epoch, goal, [source])

    def hop(self, tag, epoch, goal, way):
        router = self.routers[way[-1]]
        if way[-1] == goal:
            return self.judge(epoch, goal, way, None)
        to = router.to(self.tag_at(router, tag), self.label[goal])
        if to is None:
            return self.judge(epoch, goal, way, "no row")
        if fleet.link_of(way[-1], to) in self.down:
            return self.judge(epoch, goal, way, "link")
        way.append(to)
        if len(way) > 12:
            return self.judge(epoch, goal, way, "round")
        return self.at(self.now + self.luck.uniform(0.001, MOST_HOP), self.hop, tag, epoch, goal, way)

    @staticmethod
    def tag_at(router, tag):
        return tag

    def judge(self, epoch, goal, way, lost):
        spec = self.specs.get(epoch)
        walk = walk_of(self.topology, spec, way[0], goal) if spec else []
        if way != walk[:len(way)]:
            self.find("mixed", epoch, way, walk)
        if lost:
            self.count["lost"] += 1
            excused = lost == "link" or self.routers[way[-1]].is_wiped or (way[0], epoch) in self.forced
            if lost != "round" and (not excused or not self.is_chaos and self.now > CHAOS + HEAL):
                self.find("lost", lost, epoch, way, goal)

    # the whole

    def whole(self):
        for node in self.nodes:
            self.start_agent(node)
        for i in (1, 2):
            self.start_controller(i)
        self.at(1.0, self.packet)
        self.at(1.0, self.want)
        self.at(1.0, self.fault)
        self.run(CHAOS)
        self.is_chaos, self.bad, self.store.down_until = False, 0.0, 0.0
        for link in sorted(self.down):
            self.set_link(link, False)
        for outside in [*self.agents.values(), *self.controllers.values()]:
            outside.cut_until, outside.fuse = 0.0, None
        self.run(CHAOS + HEAL)
        self.want()
        self.run(CHAOS + HEAL + CALM)
        kv, want = self.store.kv, fleet.Want.read("", self.store.kv[fleet.WANT].value)
        stamp = int(kv[fleet.STAMP].value) if fleet.STAMP in kv else 0
        spec = self.specs.get(stamp)
        if spec is None or (spec.kind, spec.without, spec.cut) != (want.kind, want.without, ()):
            self.find("stuck", "what is wanted is not stamped", stamp, spec, want)
        late = [node for node, router in self.routers.items() if router.epoch != stamp]
        if late:
            self.find("stuck", "not stamped at", late)
        held = {node: sorted(router.rows) for node, router in self.routers.items()}
        if self.tags < fleet.FEW_TAGS and not late and any(rows != [fleet.tag_of(stamp, self.tags)] for rows in held.values()) and \
                self.floor == stamp and self.now - self.floor_at > 1.0:
            self.find("stuck", "old rows are left", held)
        return self


FAULTS = ["agent", "agent at an act", "agent at an act", "reboot", "flush", "cut", "cut", "controller", "controller at an act",
          "controller at an act", "cut controller", "still", "still", "etcd", "link", "link"]


# Wrong bodies


def wrong_rows_in_place(said, held, right=fleet.reconcile):
    """The newest row under the tag that is stamped."""
    wanted = said.wanted()
    if held.stamped and wanted and held.stamped in held.rows:
        row = max(wanted.values())[1]
        if held.rows[held.stamped] != row:
            return fleet.Add({held.stamped: row}, ())
        act = right(said, held)
        return None if isinstance(act, fleet.Add) and held.stamped in act.rows or act == fleet.Stamp(0, 0) else act
    return right(said, held)


def wrong_as_before(self):
    """A row that is not here is taken for the one before."""
    found = {}
    for epoch in sorted(self.commits):
        earlier = [it for it in self.rows if it <= epoch]
        if epoch >= self.floor and earlier:
            found[fleet.tag_of(epoch, self.tags)] = epoch, self.rows[max(earlier)]
    return found


def wrong_halves(self, act):
    """A row in two transactions."""
    for tag, row in act.rows.items():
        self.rows[tag] = row[: len(row) // 2]
        self.world.at(self.world.now + 0.05, self.rows.update, {tag: row})


def wrong_acknowledged(state, name, epoch, right=fleet.has_acknowledged):
    """One router is not asked."""
    return name == "b" or right(state, name, epoch)


def wrong_least(state):
    """The floor does not wait for members."""
    return state.stamp


def always(key):
    """A comparison that holds of anything."""
    return Created("/nothing/", 0)


def wrong_changes(state, write, right=fleet_controller.changes_of):
    """Writes that whoever led once may carry out."""
    return (), right(state, write)[1]


WRONG = {
    "I1: writes that compare nothing": [
        (fleet_controller, "leads", lambda since: always("")), (fleet_controller, "changes_of", wrong_changes),
        (fleet, "is_beyond", lambda state: False)],
    "I2: rows in place": [(fleet_agent, "reconcile", wrong_rows_in_place)],
    "I2: a missing key read as before": [(fleet.Said, "wanted", wrong_as_before)],
    "I2: a row in two transactions": [(Router, "add", wrong_halves)],
    "I3: no tag rule, three tags": [(fleet, "is_tag_free", lambda state, epoch: True)],
    "I4: stamped at each hop": [(World, "tag_at", staticmethod(lambda router, tag: router.stamped))],
    "L1: a flip without a needed router": [(fleet, "has_acknowledged", wrong_acknowledged)],
    "L2: a floor that waits for nobody": [(fleet, "least_stamp", wrong_least)],
    "L2: no grace": [(sys.modules[__name__], "GRACE", 0.0)],
    "records that compare nothing": [(fleet_agent, "Modified", lambda key, revision: always(key))],
}
MIXES = ("I1", "I2: rows", "I2: a missing", "I3", "I4")  # where a mixture has to be found, and no loss alone will do


@contextlib.contextmanager
def broken(name):
    """A wrong body in place of the right one."""
    was = [(place, word, place.__dict__[word]) for place, word, _ in WRONG.get(name, ())]
    for place, word, body in WRONG.get(name, ()):
        setattr(place, word, body)
    try:
        yield
    finally:
        for place, word, body in was:
            setattr(place, word, body)


def tags_for(name):
    return 3 if name and "three tags" in name else None


def run_part(words):
    """Some seeds: what was counted, and the first seeds that found something."""
    first, count, wrong = words
    total, found = Counter(), []
    for seed in range(first, first + count):
        try:
            with broken(wrong):
                world = World(seed, tags_for(wrong)).whole()
            total += world.count
            findings = world.findings
        except Exception:
            findings = [("it failed", traceback.format_exc(limit=-3))]
        total["runs"] += 1
        wanted = [it for it in findings if not wrong or not wrong.startswith(MIXES) or it[1] == "mixed"]
        if wanted:
            found.append((seed, wanted[0]))
            if wrong:
                break
    return first, wrong, total, found


def replay(seed, wrong):
    told = []
    with broken(wrong):
        world = World(seed, tags_for(wrong), told).whole()
    for at, name, what, about in told:
        print(f"{at:9.4f} {name}: {what} {about}")
    print(world.topology, world.tags, dict(world.count))
    for it in world.findings:
        print("found", *it)
    return 1 if world.findings else 0


def same_again():
    """A seed is the same run in any process: counts a check."""
    told = []
    for salt in ("1", "2"):
        command = [sys.executable, os.path.abspath(__file__), "--replay", "5"]
        told.append(subprocess.run(command, capture_output=True, text=True, check=False, env={**os.environ, "PYTHONHASHSEED": salt}).stdout)
    is_same = told[0] == told[1] and len(told[0].splitlines()) > 100
    print("a seed replays its run" if is_same else "A SEED DOES NOT REPLAY ITS RUN", flush=True)
    return is_same


def main():
    if sys.argv[1:2] == ["--replay"]:
        return replay(int(sys.argv[2]), next((it for it in WRONG if sys.argv[3:] and it.startswith(sys.argv[3])), None))
    seeds, first = (int(it) for it in [*sys.argv[1:3], SEEDS, 1][:2]) if len(sys.argv) == 2 else (int(it) for it in (sys.argv[1:3] or [SEEDS, 1]))
    start, total = time.monotonic(), Counter()
    passed = int(same_again())
    failed = 1 - passed
    parts = [(at, min(PART, first + seeds - at), None) for at in range(first, first + seeds, PART)]
    parts += [(1, 400, wrong) for wrong in WRONG]
    with multiprocessing.get_context("fork").Pool(max(1, min(len(os.sched_getaffinity(0)), 4))) as pool:
        for at, wrong, counted, found in pool.imap_unordered(run_part, parts):
            if wrong:
                passed, failed = passed + bool(found), failed + (not found)
                said = f"found at seed {found[0][0]}: {found[0][1][1]}" if found else "NOT FOUND in 400 seeds"
                print(f"{wrong}: {said}", flush=True)
                continue
            total += counted
            passed, failed = passed + (not found), failed + bool(found)
            for seed, finding in found[:3]:
                print(f"seed {seed}: {finding}; tests/fleet_sim --replay {seed}", flush=True)
    print(f"{total.pop('runs', 0)} runs in {time.monotonic() - start:.0f} s: " + ", ".join(f"{count} {what}" for what, count in sorted(total.items())))
    print(f"{passed} passed, {failed} failed")
    return 1 if failed else 0


if __name__ == "__main__":
    sys.exit(main())
