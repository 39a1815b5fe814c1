"""The loops of an agent and of a controller: their machines joined to etcd, to Linux, and to systemd."""
from __future__ import annotations

import asyncio
import json
import os
import pathlib
import signal
import socket
import sys
import time
import traceback
import uuid
from concurrent.futures import ThreadPoolExecutor
from typing import Any, Callable, Dict, List, Optional, Sequence, Tuple, Union

from . import fleet
from .errors import BentzoluError
from .fleet import Spec
from .fleet_agent import Agent, AgentTimes
from .fleet_calls import Call, Created, Delete, Event, Span, Txn
from .fleet_controller import Controller
from .fleet_etcd import Etcd, EtcdError
from .fleet_kernel import Changes, Linux, Ports
from .fleet_plans import rows_of

FAULTS = (EtcdError, OSError, EOFError, ValueError, KeyError)
READY = ("told", "leads", "follows")
LOCK = "/run/bentzolu/agent.lock"
LEAP = 5.0  # seconds by which a clock jumps


class Systemd:
    """What systemd is told, where it started this process."""

    def __init__(self) -> None:
        self.path = os.environ.get("NOTIFY_SOCKET", "")
        self.every = int(os.environ.get("WATCHDOG_USEC", "0")) / 3e6

    def say(self, text: str) -> None:
        """Says something, as `READY=1`."""
        if self.path:
            try:
                with socket.socket(socket.AF_UNIX, socket.SOCK_DGRAM) as sock:
                    sock.sendto(text.encode(), "\0" + self.path[1:] if self.path.startswith("@") else self.path)
            except OSError:
                pass  # systemd restarts who says nothing


class Log:
    """Lines on standard output: words, or objects of JSON with the seconds of a clock that never goes back."""

    def __init__(self, is_json: bool, name: str) -> None:
        self.is_json, self.name = is_json, name

    def __call__(self, what: str, **about: Any) -> None:
        if self.is_json:
            line = json.dumps({"t": round(time.monotonic(), 6), "name": self.name, "what": what, **about}, default=str)
        else:
            line = what + "".join(f" {name}={self.word(value)}" for name, value in about.items())
        print(line, flush=True)

    @staticmethod
    def word(value: Any) -> str:
        if isinstance(value, (list, tuple, set, frozenset)):
            return ",".join(map(str, value)) or "-"
        text = str(value)
        return repr(text) if " " in text else text


class Runner:
    """The world of one machine, on the running loop."""

    def __init__(self, etcd: Etcd, log: Callable[..., None]) -> None:
        self.etcd, self.log, self.machine = etcd, log, None  # type: Etcd, Callable[..., None], Union[None, Agent, Controller]
        self.loop = asyncio.get_running_loop()
        self.tasks: Dict[int, Tuple["asyncio.Task[None]", Optional[asyncio.TimerHandle]]] = {}
        self.waking: Optional[asyncio.TimerHandle] = None
        self.systemd, self.is_ready = Systemd(), False
        self.apart = time.time() - time.monotonic()
        self.threads = ThreadPoolExecutor(1)
        self.ended: "asyncio.Future[str]" = self.loop.create_future()

    def now(self) -> float:
        """Seconds of the loop's clock."""
        return self.loop.time()

    def end(self, why: str) -> None:
        """Ends the process, with a reason or without."""
        if not self.ended.done():
            self.ended.set_result(why)

    def guarded(self, act: Callable[..., None], *words: Any) -> None:
        """Calls the machine; what goes wrong there ends the process, and systemd starts it anew."""
        try:
            act(*words)
        except Exception:
            self.end("it failed: " + traceback.format_exc().strip().replace("\n", " | "))

    # calls

    def call(self, number: int, asked: Call, seconds: float) -> None:
        """Asks etcd."""
        timer = self.loop.call_later(seconds, self.expire, number, seconds)
        self.tasks[number] = self.loop.create_task(self.carry(number, asked)), timer

    async def carry(self, number: int, asked: Call) -> None:
        try:
            answer = await self.etcd.ask(asked)
        except FAULTS as fault:
            self.failed(number, self.sentence(fault))
            return
        if self.done(number) and self.machine is not None:
            self.guarded(self.machine.answered, number, answer)

    def sentence(self, fault: BaseException) -> str:
        """Why a call failed."""
        if isinstance(fault, EtcdError):
            return str(fault)
        return f"{self.etcd.endpoint} can't be asked: {fault or type(fault).__name__}"

    def done(self, number: int) -> bool:
        """Whether somebody waits for a call still; nobody does from now on."""
        task, timer = self.tasks.pop(number, (None, None))
        if timer is not None:
            timer.cancel()
        return task is not None

    def failed(self, number: int, why: str) -> None:
        """A call or a watch has failed."""
        if self.done(number) and self.machine is not None:
            self.guarded(self.machine.failed, number, why)

    def expire(self, number: int, seconds: float) -> None:
        """A call has no answer in time."""
        if number in self.tasks:
            self.tasks[number][0].cancel()
            self.failed(number, f"{self.etcd.endpoint} gave no answer within {seconds:g} s")

    def watch(self, number: int, spans: Sequence[Span], revision: int) -> None:
        """Follows ranges."""
        self.tasks[number] = self.loop.create_task(self.follow(number, spans, revision)), None

    async def follow(self, number: int, spans: Sequence[Span], revision: int) -> None:
        def take(events: List[Event]) -> None:
            if number in self.tasks and self.machine is not None:
                self.guarded(self.machine.events, number, events)
        try:
            await self.etcd.follow(spans, revision, take)
        except FAULTS as fault:
            self.failed(number, self.sentence(fault))

    def forget(self, numbers: Sequence[int]) -> None:
        """Nothing more is to come of these."""
        for number in numbers:
            task, timer = self.tasks.pop(number, (None, None))
            if timer is not None:
                timer.cancel()
            if task is not None:
                task.cancel()

    def rotate(self) -> None:
        """The next endpoint."""
        self.etcd.rotate()

    def wake(self, at: float) -> None:
        """Calls `woken` at a time."""
        if self.waking is not None:
            self.waking.cancel()
        self.waking = self.loop.call_at(at, self.woken)

    def woken(self) -> None:
        """The time is there."""
        self.waking = None
        self.look_at_clock()
        if self.machine is not None:
            self.guarded(self.machine.woken)

    def look_at_clock(self) -> None:
        """Tells that the clock of the day jumped, by which nothing here goes but the judgement of certificates."""
        apart = time.time() - time.monotonic()
        if abs(apart - self.apart) >= LEAP:
            self.log("clock", why=f"this machine's clock jumped by {apart - self.apart:+.0f} s, or the machine slept: set the clock right, since "
                                  f"certificates are judged by it; nothing else here goes by it")
        self.apart = apart

    def tell(self, what: str, **about: Any) -> None:
        """A line of the log; the first one that says that all is well goes to systemd."""
        self.log(what, **about)
        if what in READY and not self.is_ready:
            self.is_ready = True
            self.systemd.say("READY=1")
        if what == "stopped":
            self.end(str(about.get("why")))

    # plans, of a controller

    def plan(self, number: int, spec: Spec, config: Dict[str, str]) -> None:
        """Makes a plan in a thread of its own."""
        self.threads.submit(self.make, number, spec, dict(config))

    def make(self, number: int, spec: Spec, config: Dict[str, str]) -> None:
        machine = self.machine
        assert isinstance(machine, Controller)
        try:
            rows = rows_of(spec, config)
        except (BentzoluError, OSError, KeyError) as fault:
            self.loop.call_soon_threadsafe(self.guarded, machine.unplanned, number, str(fault))
        else:
            self.loop.call_soon_threadsafe(self.guarded, machine.planned, number, rows)

    # the process

    def feed(self) -> None:
        """Tells systemd that the loop runs, with etcd or without."""
        self.systemd.say("WATCHDOG=1")
        self.loop.call_later(self.systemd.every, self.feed)

    async def until_ended(self) -> str:
        """Runs the machine until a signal, or until it can't go on; answers why, or nothing."""
        for number in (signal.SIGTERM, signal.SIGINT):
            self.loop.add_signal_handler(number, self.end, "")
        self.loop.set_exception_handler(lambda _, about: self.end(f"it failed: {about.get('exception') or about.get('message')}"))
        if self.systemd.every > 0:
            self.feed()
        assert self.machine is not None
        self.guarded(self.machine.start)
        why = await self.ended
        self.systemd.say("STOPPING=1")
        self.forget(list(self.tasks))
        return why


def host_of() -> str:
    """A name of this router, or of this network namespace of it, that stays when its agent starts anew."""
    space = os.stat("/proc/self/ns/net").st_ino if os.path.exists("/proc/self/ns/net") else 0
    return f"{socket.gethostname()}:{space}"


def lock(path: str) -> Any:
    """The lock of the one agent of this router; FleetError where another one has it."""
    import fcntl
    try:
        pathlib.Path(path).parent.mkdir(parents=True, exist_ok=True)
        handle = open(path, "w", encoding="ascii")
    except OSError as fault:
        raise fleet.FleetError(f"the lock {path} can't be made ({fault.strerror}): give `lock` in the configuration") from None
    try:
        fcntl.flock(handle, fcntl.LOCK_EX | fcntl.LOCK_NB)
    except OSError:
        handle.close()
        raise fleet.FleetError(f"another agent runs on this router and holds {path}: stop it, or this one") from None
    return handle


async def run_agent(node: str, etcd: Etcd, log: Callable[..., None], times: AgentTimes, kernel: Linux) -> str:
    """Runs an agent until a signal; answers why it can't go on, or nothing. The kernel stays as it is."""
    runner = Runner(etcd, log)
    agent = runner.machine = Agent(node, runner, kernel, uuid.uuid4().hex[:12], host_of(), times)
    changes = Changes(agent.doubt)
    runner.loop.add_reader(changes.sock, changes.read)
    ports: List[Ports] = []

    def follow_ports() -> None:
        """Follows the ports that the member has, from its first reading on."""
        if ports:
            runner.loop.remove_reader(ports.pop().sock)
        ports.append(Ports(kernel, lambda down: runner.guarded(agent.ports, down)))
        runner.loop.add_reader(ports[0].sock, ports[0].read)

    kernel.opened = follow_ports
    return await runner.until_ended()


async def run_controller(name: str, etcd: Etcd, log: Callable[..., None], times: fleet.Times, lease: int) -> str:
    """Runs a controller until a signal; answers why it can't go on, or nothing."""
    runner = Runner(etcd, log)
    machine = runner.machine = Controller(f"{name}-{uuid.uuid4().hex[:8]}", runner, runner, times, lease)
    why = await runner.until_ended()
    if machine.phase == "lead":  # another one need not wait for the lease
        leader = Txn((Created(fleet.LEADER, machine.led_since),), (Delete(fleet.LEADER),))
        try:
            await asyncio.wait({asyncio.ensure_future(etcd.ask(leader))}, timeout=1.0)
        except FAULTS:
            pass
    return why


def run(work: Any) -> int:
    """Runs a loop to its end, and answers the status."""
    why: str = asyncio.run(work)
    if why:
        print(why, file=sys.stderr, flush=True)
    return 1 if why else 0
