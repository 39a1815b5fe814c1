"""The words of a fleet: `agent`, `controller`, and `fleet enroll`, `want`, `status`, `gone`, `restored`, `users`."""
from __future__ import annotations

import argparse
import asyncio
import configparser
import json
import os
import pathlib
import secrets
import socket
import sys
import time
from typing import Any, Callable, Coroutine, Dict, List, Optional, Sequence, Tuple, TypeVar

from . import fleet, plane
from .fleet import FleetError, Member, Port, State, Want
from .fleet_agent import AgentTimes
from .fleet_calls import Compare, Created, Done, Equals, Get, Put, Txn, under
from .fleet_etcd import Access, Etcd, EtcdError, b64, password_of
from .fleet_kernel import Linux
from .fleet_plane import Plane
from .fleet_plans import order_of
from .fleet_run import LOCK, Log, lock, run, run_agent, run_controller
from .xdp import MODES, PINS

CONFIG = "/etc/bentzolu/fleet.conf"
DESK_WAIT = 10.0  # seconds for an answer of one endpoint
BUSY = ("request timed out", "leader changed", "no leader", "too many requests")  # what etcd says when it has much to do
TRIES, REST = 6, 1.0  # of a call that etcd was too busy for, and the seconds between two
SPANS = [*(under(it) for it in (fleet.NET, fleet.LIVE, fleet.MEMBERS, fleet.CONFIG)), (fleet.LEADER, None)]
KNOWN = {
    "etcd": {"endpoints", "ca", "certificate", "key", "user", "password-file"},
    "agent": {"node", "plane", "pins", "lock", "lease", "probe", "look", "call", "lazy"},
    "controller": {"name", "lease", "grace", "patience", "hold"},
    "log": {"format"},
}


class Config:
    """A file of configuration: sections `etcd`, `agent`, `controller` and `log`."""

    def __init__(self, path: str) -> None:
        self.path, self.found = path, configparser.ConfigParser(interpolation=None)
        try:
            with open(path, encoding="utf-8") as file:
                self.found.read_file(file)
        except OSError as fault:
            raise FleetError(f"{path}: {fault.strerror}; give the configuration by --config FILE") from None
        except (configparser.Error, ValueError) as fault:
            raise FleetError(f"{path} is not a configuration: {str(fault).splitlines()[0]}") from None
        for section in self.found.sections():
            for name in self.found[section]:
                if name not in KNOWN.get(section, set()):
                    known = ", ".join(sorted(KNOWN[section])) if section in KNOWN else ""
                    raise FleetError(f"{path}: unknown setting {name} in [{section}]" + (f"; known are {known}" if known else ""))

    def word(self, section: str, name: str) -> Optional[str]:
        """A value, or None where it is not given."""
        found = self.found.get(section, name, fallback="").strip()
        return found or None

    def need(self, section: str, name: str) -> str:
        """A value; FleetError where it is not given."""
        found = self.word(section, name)
        if found is None:
            raise FleetError(f"{self.path} lacks {name} in [{section}]")
        return found

    def seconds(self, section: str, name: str, usual: float, least: float) -> float:
        """A value in seconds; FleetError where it is none, or too small."""
        word = self.word(section, name)
        try:
            found = usual if word is None else float(word)
        except ValueError:
            found = -1.0
        if not least <= found <= 86400:
            raise FleetError(f"{self.path}: {name} in [{section}] is {word!r}; give at least {least:g} seconds")
        return found

    def file(self, name: str) -> Optional[str]:
        """A path of the section `etcd`. One that is not absolute is a credential of the service, or stands beside this file."""
        found = self.word("etcd", name)
        if found is None or os.path.isabs(found):
            return found
        given = pathlib.Path(os.environ.get("CREDENTIALS_DIRECTORY", "/nowhere")) / found
        return str(given if given.exists() else pathlib.Path(self.path).parent / found)

    def etcd(self) -> Etcd:
        """The way to etcd."""
        endpoints = [it.strip() for it in self.need("etcd", "endpoints").split(",") if it.strip()]
        user = self.word("etcd", "user")
        access = Access(endpoints, self.file("ca"), self.file("certificate"), self.file("key"), user,
                        password_of(self.file("password-file")) if user else None)
        return Etcd(access, sum(map(ord, socket.gethostname() + (self.word("agent", "node") or ""))))

    def log(self, name: str) -> Log:
        """The log that is wanted."""
        form = self.word("log", "format") or "words"
        if form not in ("words", "json"):
            raise FleetError(f"{self.path}: format in [log] is {form!r}; give words or json")
        return Log(form == "json", name)


# What is done


def agent(words: argparse.Namespace) -> int:
    """`agent`: runs until a signal."""
    config = Config(words.config)
    node, kernel = config.need("agent", "node"), kernel_of(config)
    held = lock(config.word("agent", "lock") or LOCK)
    times = AgentTimes(int(config.seconds("agent", "lease", 15, 2)), config.seconds("agent", "probe", 2, 0.2), config.seconds("agent", "call", 2, 0.2),
                       config.seconds("agent", "look", 30, 1), config.seconds("agent", "lazy", 5, 0))
    with held:
        return run(later(lambda: run_agent(node, config.etcd(), config.log(node), times, kernel)))


def kernel_of(config: Config) -> Linux:
    """The kernel as the section `agent` wants it: by nftables, or by the plane in XDP in one of its modes."""
    mode, pins = config.word("agent", "plane") or "nft", config.word("agent", "pins") or PINS
    if mode not in ("nft", *MODES):
        raise FleetError(f"{config.path}: plane in [agent] is {mode!r}; give nft, xdp, generic or tc")
    return Linux() if mode == "nft" else Plane(mode, pins)


def controller(words: argparse.Namespace) -> int:
    """`controller`: runs until a signal."""
    from . import program
    find: Callable[[], str] = program.find
    find()
    config = Config(words.config)
    name = config.word("controller", "name") or socket.gethostname()
    times = fleet.Times(config.seconds("controller", "grace", 0.3, 0.05), config.seconds("controller", "patience", 20, 0),
                        config.seconds("controller", "hold", 1, 0))
    lease = int(config.seconds("controller", "lease", 3, 2))
    return run(later(lambda: run_controller(name, config.etcd(), config.log(name), times, lease)))


async def later(act: Callable[[], Coroutine[Any, Any, Any]]) -> Any:
    """What wants a running loop."""
    return await act()


Answered = TypeVar("Answered")


async def again(act: Callable[[], Coroutine[Any, Any, Answered]]) -> Answered:
    """What a call answers; one that etcd was too busy for is made again, since all that is asked here may be done twice."""
    for _ in range(TRIES - 1):
        try:
            return await act()
        except EtcdError as fault:
            if not any(it in str(fault) for it in BUSY):
                raise
            await asyncio.sleep(REST)
    return await act()


class Desk:
    """etcd as the words `fleet ..` ask it: each call in turn, at each endpoint until one answers."""

    def __init__(self, config: Config) -> None:
        self.etcd = config.etcd()

    async def txn(self, compare: Sequence[Compare], then: Sequence[Any]) -> Done:
        """The answer to a transaction; FleetError where no endpoint gives one."""
        why = ""
        for _ in self.etcd.access.endpoints:
            try:
                return await again(lambda: asyncio.wait_for(self.etcd.txn(Txn(tuple(compare), tuple(then))), DESK_WAIT))
            except EtcdError as fault:
                raise FleetError(str(fault)) from None
            except (OSError, EOFError, ValueError, asyncio.TimeoutError) as fault:
                why = f"{self.etcd.endpoint} can't be asked ({fault or 'no answer'})"
                self.etcd.rotate()
        raise FleetError(f"{why}: does etcd run, and is `endpoints` right?")

    async def put(self, pairs: Sequence[Tuple[str, str]], compare: Sequence[Compare] = ()) -> bool:
        """Writes pairs, a hundred at a time, while the comparisons hold."""
        for i in range(0, len(pairs), fleet.MOST_ROWS):
            if not (await self.txn(compare, [Put(*it) for it in pairs[i:i + fleet.MOST_ROWS]])).held:
                return False
        return True

    async def state(self) -> Tuple[State, Dict[str, str], int]:
        """What a controller would know, the texts of all keys, and the revision."""
        done = await self.txn((), [Get(*it) for it in SPANS])
        state, texts = State(), {}
        for pair in [pair for found in done.found for pair in found]:
            texts[pair.key] = pair.value
            take(state, pair.key, pair.value)
        return state, texts, done.revision


def take(state: State, key: str, value: Optional[str]) -> None:
    """Takes a key into a state; one that can't be read is kept to be told."""
    try:
        fleet.learn(state, key, value)
        state.unread.pop(key, None)
    except fleet.UnknownRecord as fault:
        state.unread[key] = str(fault)


def read_topology(path: str, form: Optional[str]) -> Tuple[str, str]:
    """A topology's text and its format."""
    found = form or ("edgelist" if path.endswith((".edgelist", ".wel")) else "adjlist")
    try:
        return pathlib.Path(path).read_text(encoding="ascii"), found
    except (OSError, ValueError) as fault:
        raise FleetError(f"{path} can't be read ({fault}): a topology must be ASCII") from None


def read_ports(path: Optional[str]) -> Dict[Tuple[str, str], Tuple[str, str, str]]:
    """The ports of a file, lines NODE NEIGHBOUR DEVICE [ADDRESS|- [MAC]]: for each pair the device, the next hop, the MAC."""
    found: Dict[Tuple[str, str], Tuple[str, str, str]] = {}
    if path is None:
        return found
    try:
        text = pathlib.Path(path).read_text(encoding="ascii")
    except (OSError, ValueError) as fault:
        raise FleetError(f"{path} can't be read ({fault})") from None
    for at, line in enumerate(text.splitlines(), 1):
        words = line.split("#", 1)[0].split()
        if not words:
            continue
        if not 3 <= len(words) <= 5 or not all(it.replace("-", "").replace("_", "").replace(".", "").replace(":", "").isalnum() or it == "-"
                                               for it in words[2:]):
            raise FleetError(f"{path}: line {at}: write NODE NEIGHBOUR DEVICE, then ADDRESS (or -) and MAC if they are known")
        node, other, device, via, mac = [*words, "-", ""][:5] if len(words) < 5 else words
        found[node, other] = device, "" if via == "-" else via, "" if mac == "-" else mac
    return found


def members_of(nodes: List[str], shape: fleet.Shape, ports: Dict[Tuple[str, str], Tuple[str, str, str]]) -> Dict[str, Member]:
    """The members of a topology. A port that no file names is the lab's: the device `toK`, to the neighbour of number K."""
    number, found = {node: i for i, node in enumerate(nodes, 1)}, {}
    near: Dict[str, List[str]] = {node: [] for node in nodes}
    for one, other in sorted(shape.links):
        near[one].append(other)
        near[other].append(one)
    for pair in ports:
        if fleet.link_of(*pair) not in shape.links:
            raise FleetError(f"the ports name {' '.join(pair)}, which is not a link of the topology")
    for node in nodes:
        mine = {}
        for other in near[node]:
            k = number[other]
            device, via, mac = ports.get((node, other), (f"to{k}", "", plane.hardware(k) if not ports else ""))
            mine[other] = Port(k, device, via or f"fe80::{k:x}", mac)
        found[node] = Member(number[node], number[node] - 1, mine)
    return found


async def enroll(words: argparse.Namespace) -> int:
    """`fleet enroll`: names the routers, their labels and their ports."""
    desk = Desk(Config(words.config))
    text, form = read_topology(words.topology, words.format)
    shape = fleet.shape_of(text, form)
    state, texts, _ = await desk.state()
    options = [f"--root={words.root}"] if words.root else []
    order = order_of(text, form, options)
    before = texts.get(fleet.ORDER, "").split()
    missing = [node for node in before if node not in shape.nodes]
    if missing:
        raise FleetError(f"{', '.join(missing)} was enrolled, but is not in the topology: keep it with a link, and run `fleet gone` for it")
    nodes = before + [node for node in order if node not in before]
    tags = words.tags or state.tags
    if not 3 <= tags <= fleet.MOST_TAGS or before and tags != state.tags:
        raise FleetError(f"--tags must be from 3 to {fleet.MOST_TAGS}, and cannot change later")
    members = members_of(nodes, shape, read_ports(words.ports))
    pairs = [(fleet.MEMBERS + node, member.text()) for node, member in members.items()]
    config = [(fleet.TAGS, str(tags)), (fleet.FORM, form), (fleet.ORDER, "".join(f"{node}\n" for node in nodes)), (fleet.TOPOLOGY, text)]
    await desk.put([it for it in pairs if texts.get(it[0]) != it[1]])
    await desk.put([it for it in config if texts.get(it[0]) != it[1]])
    print(f"enrolled {len(nodes)} {len(shape.links)}")
    return 0


async def want(words: argparse.Namespace) -> int:
    """`fleet want`: what the next plan is for."""
    desk = Desk(Config(words.config))
    for _ in range(10):
        state, texts, _ = await desk.state()
        if state.shape is None:
            raise FleetError("nothing is enrolled yet: run `fleet enroll TOPOLOGY`")
        without = tuple(sorted(fleet.link_of(*it) for it in words.without))
        for link in without:
            if link not in state.shape.links:
                raise FleetError(f"no link: {' '.join(link)}")
        if not fleet.reaches_all(state.shape, frozenset(without)):
            raise FleetError("the network is not connected without these links: leave one of them in")
        old = texts.get(fleet.WANT)
        new = Want(words.kind, without, state.want.gone if state.want else frozenset()).text()
        if await desk.put([(fleet.WANT, new)], [Created(fleet.WANT, 0) if old is None else Equals(fleet.WANT, old)]):
            print(f"wanted {words.kind}" + "".join(f" without {' '.join(it)}" for it in without))
            return await until_stamped(desk, words.wait) if words.wait else 0
    raise FleetError("others keep changing what is requested: try again")


async def until_stamped(desk: Desk, seconds: float) -> int:
    """Waits until all members stamp what is wanted; status 1 where they do not in time."""
    end = time.monotonic() + seconds
    while time.monotonic() < end:
        state, _, _ = await desk.state()
        spec = state.commits.get(state.stamp)
        is_it = spec is not None and state.want is not None and (spec.kind, set(state.want.without) - set(spec.without)) == (state.want.kind, set())
        if is_it and all(it.stamp == state.stamp for it in state.live.values()) and len(state.live) >= len(state.members) - len(spec.cut if spec else ()):
            print(f"stamped {state.stamp}")
            return 0
        await asyncio.sleep(0.1)
    state, texts, _ = await desk.state()
    raise FleetError(f"not done within {seconds:g} s: " + ("; ".join(status_json(state, texts.get(fleet.LEADER))["waits"]) or "it continues"))


async def gone(words: argparse.Namespace) -> int:
    """`fleet gone`: that a router is gone for good, or that it is back."""
    desk = Desk(Config(words.config))
    for _ in range(10):
        state, texts, _ = await desk.state()
        if words.node not in state.members:
            raise FleetError(f"no member {words.node}")
        if state.want is None:
            raise FleetError("no plan is requested yet: run `fleet want`")
        if not words.back and words.node in state.live:
            raise FleetError(f"the agent of {words.node} is running: switch the router off, so that it forwards nothing by old rows, and "
                             f"wait for its lease")
        names = state.want.gone - {words.node} if words.back else state.want.gone | {words.node}
        new = Want(state.want.kind, state.want.without, frozenset(names)).text()
        if await desk.put([(fleet.WANT, new)], [Equals(fleet.WANT, texts[fleet.WANT])]):
            print(f"gone {' '.join(sorted(names)) or '-'}")
            return 0
    raise FleetError("others keep changing what is requested: try again")


async def restored(words: argparse.Namespace) -> int:
    """`fleet restored`: raises the counter above all that was begun since a backup of etcd was made."""
    desk = Desk(Config(words.config))
    state, _, _ = await desk.state()
    if (await desk.txn((), [Get(fleet.LEADER)])).found[0]:
        raise FleetError("a controller leads: stop all controllers first, and wait for their lease")
    epoch = max(state.counter, fleet.greatest(state)) + words.leap
    old: Compare = Equals(fleet.COUNTER, str(state.counter)) if state.counter else Created(fleet.COUNTER, 0)
    if not await desk.put([(fleet.COUNTER, str(epoch))], [old, Created(fleet.LEADER, 0)]):
        raise FleetError("a controller has begun to lead: stop all controllers first")
    print(f"counter {epoch}")
    return 0


async def users(words: argparse.Namespace) -> int:
    """`fleet users`: a user, a role and a password for each part, and asks etcd to want them from now on."""
    config = Config(words.config)
    desk, folder = Desk(config), pathlib.Path(words.folder)
    state, _, _ = await desk.state()
    if not state.members:
        raise FleetError("nothing is enrolled yet: run `fleet enroll TOPOLOGY`")
    folder.mkdir(mode=0o700, parents=True, exist_ok=True)
    everything: List[Tuple[str, List[Tuple[str, str, Optional[str]]]]] = [("root", [])] if not desk.etcd.access.user else []
    everything += [(f"agent-{node}", [("READ", *under(fleet.NET)), ("READ", *under(f"{fleet.ROWS}{node}/")), ("READ", fleet.MEMBERS + node, None),
                                      ("READWRITE", fleet.LIVE + node, None)]) for node in state.members]
    everything.append(("controller", [("READ", *under(fleet.ROOT)), ("READWRITE", *under(fleet.NET)), ("READWRITE", *under(fleet.ROWS)),
                                      ("READWRITE", fleet.LEADER, None)]))
    everything.append(("operator", [("READ", *under(fleet.ROOT)), ("READWRITE", fleet.WANT, None)]))
    for name, rights in everything:
        await user(desk.etcd, folder, name, rights)
    if not desk.etcd.access.user:
        await post(desk.etcd, "enable")
    print(f"users {len(everything)} in {folder}")
    return 0


async def user(etcd: Etcd, folder: pathlib.Path, name: str, rights: Sequence[Tuple[str, str, Optional[str]]]) -> None:
    """A user with its role and rights; one that is there keeps its password."""
    file = folder / name
    if not file.exists():
        password = secrets.token_urlsafe(24)
        await post(etcd, "user/add", name=name, password=password)
        file.touch(mode=0o600)
        file.write_text(password + "\n", encoding="ascii")
    await post(etcd, "role/add", name=name)
    for kind, key, end in rights:
        permission = {"permType": kind, "key": b64(key), **({"range_end": b64(end)} if end else {})}
        await post(etcd, "role/grant", name=name, perm=permission)
    await post(etcd, "user/grant", user=name, role=name)


async def post(etcd: Etcd, what: str, **words: Any) -> None:
    try:
        await again(lambda: etcd.post(f"/v3/auth/{what}", words))
    except EtcdError as fault:
        if "already exist" not in str(fault) and "already granted" not in str(fault):
            raise


# What there is


def phase_of(state: State) -> str:
    """What the fleet does now, in a word."""
    newest = max(state.commits, default=0)
    if newest == 0:
        return "empty"
    if state.counter > newest:
        return "planning"
    if newest > state.stamp:
        return "installing"
    if any(record.stamp < state.stamp for record in state.live.values()):
        return "stamping"
    return "emptying" if state.floor < state.stamp else "steady"


def status_json(state: State, leader: Optional[str] = None) -> Dict[str, Any]:
    """What there is, as an object of JSON; `leader` is the controller that leads, if one does."""
    epochs = []
    for epoch, spec in sorted(state.commits.items()):
        held = [name for name in state.members if fleet.has_acknowledged(state, name, epoch)]
        epochs.append({"epoch": epoch, "tag": fleet.tag_of(epoch, state.tags), "kind": spec.kind, "without": [list(it) for it in spec.without],
                       "cut": list(spec.cut), "held": len(held), "stamped": sum(it.stamp == epoch for it in state.live.values())})
    members = []
    for name, member in sorted(state.members.items(), key=lambda it: it[1].number):
        record = state.live.get(name)
        members.append({"node": name, "number": member.number, "label": member.label, "live": record is not None,
                        **({"stamp": record.stamp, "epochs": sorted(record.epochs & set(state.commits)), "other": sorted(record.other), "down": sorted(record.down)}
                           if record else {})})
    return {"phase": phase_of(state), "counter": state.counter, "stamp": state.stamp, "floor": state.floor,
            "want": json.loads(state.want.text()) if state.want else None, "leader": leader, "epochs": epochs, "members": members,
            "waits": [*fleet.waits(state), *([] if leader else ["no controller leads: start one, or wait for its lease"])]}


def status_text(found: Dict[str, Any]) -> str:
    """What there is, as lines."""
    live = sum(it["live"] for it in found["members"])
    lines = [f"fleet {len(found['members'])} live {live} stamp {found['stamp']} floor {found['floor']} {found['phase']}"]
    for it in found["epochs"]:
        without = "".join(f" without {' '.join(link)}" for link in it["without"]) + "".join(f" leaf {name}" for name in it["cut"])
        lines.append(f"epoch {it['epoch']} {it['kind']}{without} held {it['held']} stamped {it['stamped']}")
    for it in found["members"]:
        if it["live"]:
            down = "".join(f" down {name}" for name in it["down"])
            lines.append(f"member {it['node']} {it['label']} stamp {it['stamp']} epochs {' '.join(map(str, it['epochs'])) or '-'}{down}")
        else:
            lines.append(f"member {it['node']} {it['label']} absent")
    lines += [f"waits: {line}" for line in found["waits"]]
    return "\n".join(lines) + "\n"


def show(state: State, leader: Optional[str], is_json: bool) -> None:
    now = time.monotonic()
    fleet.notice(state, now, fleet.Times())
    found = status_json(state, leader)
    sys.stdout.write(json.dumps(found) + "\n" if is_json else status_text(found))
    sys.stdout.flush()


async def status(words: argparse.Namespace) -> int:
    """`fleet status`: members, epochs, phase, and who is waited for."""
    desk = Desk(Config(words.config))
    state, texts, revision = await desk.state()
    leader = texts.get(fleet.LEADER)
    show(state, leader, words.json)
    while words.watch:
        came = asyncio.Event()

        def learn(events: Sequence[Any]) -> None:
            nonlocal leader
            for it in events:
                leader = it.value if it.key == fleet.LEADER else leader
                take(state, it.key, it.value)
            came.set()

        following = asyncio.ensure_future(desk.etcd.follow(SPANS, revision + 1, learn))
        while not following.done():
            waiting = asyncio.ensure_future(came.wait())
            await asyncio.wait({waiting, following}, return_when=asyncio.FIRST_COMPLETED)
            waiting.cancel()
            if came.is_set():
                await asyncio.sleep(0.1)
                came.clear()
                sys.stdout.write("" if words.json else "\n")
                show(state, leader, words.json)
        why = following.exception()
        print(f"bentzolu fleet: {why}; all is read again", file=sys.stderr)
        desk.etcd.rotate()
        await asyncio.sleep(1)
        state, texts, revision = await desk.state()
        leader = texts.get(fleet.LEADER)
    return 0


# The words


def at_desk(act: Callable[[argparse.Namespace], Coroutine[Any, Any, int]]) -> Callable[[argparse.Namespace], int]:
    def done(words: argparse.Namespace) -> int:
        try:
            return asyncio.run(act(words))
        except KeyboardInterrupt:
            return 0
    return done


def add_words(commands: Any) -> None:
    """Adds the words `agent`, `controller` and `fleet` to a parser's commands."""
    for name, act, what in (("agent", agent, "make this router forward by the fleet's epochs"), ("controller", controller, "make the plans of a fleet")):
        parser = commands.add_parser(name, help=what, description=f"{what[0].upper()}{what[1:]}, until it is stopped. See docs/FLEET.md.")
        parser.add_argument("--config", metavar="FILE", default=CONFIG, help=f"configuration file (default: {CONFIG})")
        parser.set_defaults(act=act)
    parser = commands.add_parser("fleet", help="set and show what routers on many machines do", description="See docs/FLEET.md.")
    parts = parser.add_subparsers(dest="part", required=True, metavar="PART")

    def part(name: str, what: str, act: Callable[[argparse.Namespace], Coroutine[Any, Any, int]]) -> argparse.ArgumentParser:
        found: argparse.ArgumentParser = parts.add_parser(name, help=what, description=f"{what[0].upper()}{what[1:]}.")
        found.add_argument("--config", metavar="FILE", default=CONFIG, help=f"configuration file (default: {CONFIG})")
        found.set_defaults(act=at_desk(act))
        return found

    found = part("enroll", "enroll the routers of a topology, their labels and their ports", enroll)
    found.add_argument("topology", metavar="TOPOLOGY", help="topology file; an edge list if its name ends in .edgelist or .wel")
    found.add_argument("--format", choices=("adjlist", "edgelist"), help="format of the topology")
    found.add_argument("--root", metavar="R", help="node from which labels are numbered (first enrolment only)")
    found.add_argument("--ports", metavar="FILE", help="file of lines NODE NEIGHBOUR DEVICE [ADDRESS|- [MAC]] (default: the devices are toK)")
    found.add_argument("--tags", metavar="N", type=int, help=f"number of tags (first enrolment only; default: {fleet.MOST_TAGS})")
    found = part("want", "set the kind and the links of the next plan", want)
    found.add_argument("--kind", choices=fleet.KINDS, required=True, help="kind of the plan")
    found.add_argument("--without", nargs=2, metavar=("A", "B"), action="append", default=[], help="leave out this link; give it again for more links")
    found.add_argument("--wait", metavar="S", type=float, help="wait at most S seconds until all routers stamp it")
    found = part("status", "show members, epochs, the phase, and who is waited for", status)
    found.add_argument("--watch", action="store_true", help="keep running, and show each change")
    found.add_argument("--json", action="store_true", help="print JSON, one object on each line")
    found = part("gone", "mark a router as gone for good, so that nobody waits for it", gone)
    found.add_argument("node", metavar="NODE", help="the router")
    found.add_argument("--back", action="store_true", help="the router is back")
    found = part("restored", "raise the counter after etcd was restored from a backup", restored)
    found.add_argument("--leap", metavar="N", type=int, default=1000, help="a number above that of the epochs begun since the backup (default: 1000)")
    found = part("users", "make a user, a role and a password for each router, the controllers and the operator", users)
    found.add_argument("folder", metavar="FOLDER", help="folder for the passwords, one file each")
