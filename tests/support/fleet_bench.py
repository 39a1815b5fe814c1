"""A fleet under test: its routers, agents, controllers and etcd, what it did, and what packets saw of it; `fleet.py` runs it."""
import base64
import bisect
import contextlib
import json
import os
import pathlib
import random
import re
import shutil
import signal
import subprocess
import sys
import tempfile
import threading
import time
from collections import Counter, defaultdict

from bentzolu import fleet
from bentzolu.fleet_words import BUSY
from bentzolu.lab import plan_of
from bentzolu.lab_net import LabError, Network, hardware, links_of, play
from bentzolu.lab_traffic import Traffic
from bentzolu.lab_xdp import EVENT, FORWARDED, PROBE, XdpNetwork
from bentzolu.traces import Packet, Segment, write_trace

HERE = pathlib.Path.cwd()
PINS = "/run/bentzolu-pins"  # in the mounts of a run
PYTHON = next((it for it in ("/usr/bin/python3", sys.executable) if os.access(it, os.X_OK)), sys.executable)
PIECE = 4096  # packets that the program judges at once
MOST_EPOCHS = 64
KEYS = {"begun": fleet.COUNTER, "committed": fleet.EPOCHS, "flipped": fleet.STAMP, "floor": fleet.FLOOR}
PATIENT = 120  # seconds that one thing may take on a machine with other work
TALLY = Counter()  # what this process passed, failed and skipped


def skip(checks, why):
    """Counts checks that can't be made here."""
    TALLY["skipped"] += checks
    print(f"fleet: {why}: {checks} checks are skipped", flush=True)


def count(what, wrong):
    """Counts a check, which failed where something is wrong, and says what."""
    TALLY["failed" if wrong else "passed"] += 1
    print(f"fleet: {what}: {wrong if wrong else 'ok'}", flush=True)


class Lines:
    """The objects of a log, as they come."""

    def __init__(self, path):
        self.path, self.at, self.size, self.items = path, 0, 0, []

    def read(self):
        with contextlib.suppress(FileNotFoundError):
            size = os.stat(self.path).st_size
            if size == self.size:
                return self.items
            with open(self.path, "rb") as file:
                file.seek(self.at)
                data = file.read(size - self.at)
            whole, self.size = data.rfind(b"\n") + 1, size
            self.at += whole
            for line in data[:whole].splitlines():
                if line.startswith(b"{"):
                    self.take(json.loads(line))
        return self.items

    def take(self, item):
        self.items.append(item)


class Puts(Lines):
    """What etcd was given, in its order, as triples of the revision, the key and the value: of a follower's lines."""

    def take(self, item):
        for event in item.get("Events") or ():
            if event.get("type", 0) in (0, "PUT"):
                key, value = (base64.b64decode(event["kv"].get(it, "")).decode() for it in ("key", "value"))
                if key.startswith((fleet.NET, fleet.WANT)):
                    self.items.append((int(event["kv"]["mod_revision"]), key, value))


class Wanted(float):
    """The time at which something was wanted, and the revision of etcd."""

    revision = 0


class Reported(XdpNetwork):
    """The packets of a fleet as the programs of its planes report them, since packet sockets do not see what XDP sends on."""

    def __init__(self, b):
        self.program, self.pins, self.nodes = os.environ["BENTZOLU_XDP"], b.pins, b.nodes
        self.places = {node: i for i, node in enumerate(b.nodes)}

    def ports(self, node):
        """The places of a router's neighbours by its ports."""
        said = subprocess.run([self.program, "--pins", self.pins(node), "show"], capture_output=True, text=True, check=True).stdout
        return [self.places[line.split()[2]] for line in said.splitlines() if line.startswith("port ")]

    def frames(self, data):
        near = [self.ports(node) for node in self.nodes]  # of whom an agent's number counts from 1
        return [(number, hops, node - 1, near[node - 1][port], tag)
                for number, tag, node, port, hops, verdict, _ in EVENT.iter_unpack(data) if verdict == FORWARDED]


def epoch_at(at, tag, stamps, tags):
    """The epoch of a packet with a tag: that of its source's stamps with this tag, in their order with the time from which on
    each was written, that was written nearest to the time of its sending; 0 where none has the tag."""
    ends = [*(t for t, _ in stamps[1:]), float("inf")]
    found = [(max(start - at, at - end, 0), -epoch) for (start, epoch), end in zip(stamps, ends) if fleet.tag_of(epoch, tags) == tag]
    return -min(found)[1] if found else 0


class Bench:
    """A fleet. `topology` is a file of examples; the other words are options of its parts."""

    def __init__(self, topology, members=1, tags=None, secure=False, rate=120, agent="", controller="", wrong="", plane=""):
        self.folder = pathlib.Path(tempfile.mkdtemp(prefix="bentzolu-fleet-"))
        self.topology, self.members, self.tags, self.secure, self.rate = HERE / "examples" / topology, members, tags, secure, rate
        self.options, self.wrong, self.plane = {"agent": agent, "controller": controller}, wrong, plane
        self.text = self.topology.read_text()
        self.form = "edgelist" if topology.endswith("edgelist") else "adjlist"
        first, _ = plan_of(self.text, self.form, "tree", [])
        self.shape = fleet.shape_of(self.text, self.form)
        self.network = Network(first, links_of(self.text, self.form))
        order = [node for node, _ in sorted(first.labels.items(), key=lambda it: it[1])]
        self.network.number = {node: k for k, node in enumerate(order, 1)}  # as `fleet enroll` numbers them
        self.network.nodes = order
        self.nodes, self.root = self.network.nodes, order[0]
        self.processes, self.logs, self.notes = {}, {}, []
        self.hosts = [f"10.99.255.{i}" for i in range(1, members + 1)]
        self.puts_of, self.is_starting = [], True

    # the machines

    def build(self):
        lines = ["link set dev lo up", "link add name br0 type bridge", "address add 10.99.253.1/16 dev br0", "link set dev br0 up"]
        self.spaces = [(self.network.space(node), f"mg{k}", f"10.99.{k >> 8}.{k & 255}") for node, k in self.network.number.items()]
        self.spaces += [(f"etcd{i}", f"me{i}", host) for i, host in enumerate(self.hosts, 1)]
        self.spaces += [(f"control{i}", f"mc{i}", f"10.99.254.{i}") for i in (1, 2)]
        for space, port, _ in self.spaces:
            lines += [f"netns add {space}", f"link add name {port} type veth peer name mg0 netns {space}", f"link set dev {port} master br0 up"]
        for a, b in self.network.links:
            one, other = (f"{self.network.port(y)} address {hardware(self.network.number[x])}" for x, y in ((a, b), (b, a)))
            lines.append(f"link add name {one} netns {self.network.space(a)} type veth peer name {other} netns {self.network.space(b)}")
        play("ip -batch - <<'END'\n" + "\n".join(lines) + "\nEND\n")
        for space, _, host in self.spaces:
            inner = ["link set dev lo up", f"address add {host}/16 dev mg0", "link set dev mg0 up"]
            play(f"ip -n {space} -batch - <<'END'\n" + "\n".join(inner) + "\nEND\n")
        for node in self.nodes:
            inner = [f"link set dev {self.network.port(other)} {word}" for other in self.network.near[node] for word in ("addrgenmode none", "up")]
            play(f"ip -n {self.network.space(node)} -batch - <<'END'\n" + "\n".join(inner) + "\nEND\n")
        play("nft -f - <<'END'\ntable bridge part { set cut { type ifname; }\n"
             "chain f { type filter hook forward priority 0; iifname @cut drop; oifname @cut drop; }\n"
             "chain i { type filter hook input priority 0; iifname @cut drop; }\n}\nEND\n")
        if self.secure:
            subprocess.run([HERE / "packaging/fleet/certificates", self.folder / "tls", *self.hosts], check=True)
            play(f"chmod 755 {self.folder} {self.folder.parent} {self.folder}/tls && chmod 644 {self.folder}/tls/*.key")
            shutil.copytree(HERE / "python/bentzolu", self.folder / "python/bentzolu")  # where everybody may read it
            play(f"chmod -R a+rX {self.folder}/python && {PYTHON} -m compileall -q {self.folder}/python")

    def cut(self, space):
        """Nothing passes between a namespace and the management network, and no carrier tells of it."""
        play(f"nft add element bridge part cut '{{ {self.port_of(space)} }}'")
        self.note("cut off", space)

    def join(self, space):
        play(f"nft delete element bridge part cut '{{ {self.port_of(space)} }}'")
        self.note("joined", space)

    def port_of(self, space):
        return next(port for name, port, _ in self.spaces if name == space)

    def note(self, what, *about):
        self.notes.append((time.monotonic(), what, *about))

    def start(self, name, space, command):
        path = self.folder / f"{name}.log"
        with open(path, "ab") as out:
            self.processes[name] = subprocess.Popen(["ip", "netns", "exec", space, *map(str, command)], stdin=subprocess.DEVNULL, stdout=out, stderr=out)
        self.logs.setdefault(name, Lines(path))

    def kill(self, name, number=signal.SIGKILL):
        self.processes[name].send_signal(number)
        if number == signal.SIGKILL:
            self.processes[name].wait()
        self.note("killed", name, number)

    def etcd(self, i, again=False):
        host, f = self.hosts[i - 1], self.folder
        scheme = "https" if self.secure else "http"
        more = ["--cert-file", f / f"tls/{host}.pem", "--key-file", f / f"tls/{host}.key", "--trusted-ca-file", f / "tls/ca.pem", "--client-cert-auth",
                "--bcrypt-cost", "4", "--auth-token", f"jwt,pub-key={f}/tls/jwt.pub,priv-key={f}/tls/jwt.key,sign-method=RS256,ttl=10m"] if self.secure else []
        cluster = ",".join(f"m{j}=http://{it}:2380" for j, it in enumerate(self.hosts, 1))
        self.start(f"etcd{i}", f"etcd{i}", [
            "etcd", *more, "--name", f"m{i}", "--data-dir", f / f"etcd{i}.data", "--listen-client-urls", f"{scheme}://{host}:2379",
            "--advertise-client-urls", f"{scheme}://{host}:2379", "--listen-peer-urls", f"http://{host}:2380",
            "--initial-advertise-peer-urls", f"http://{host}:2380", "--initial-cluster", cluster,
            "--initial-cluster-state", "existing" if again else "new", "--heartbeat-interval", "100", "--election-timeout", "1000",
            "--auto-compaction-mode", "revision", "--auto-compaction-retention", "1000", "--log-level", "error", "--logger", "zap"])

    def config(self, name, user, more=""):
        """A file of configuration, its endpoints in an order of its own."""
        scheme, f = ("https" if self.secure else "http"), self.folder
        turn = sum(map(ord, name)) % len(self.hosts)
        lines = ["[etcd]", "endpoints = " + ", ".join(f"{scheme}://{it}:2379" for it in self.hosts[turn:] + self.hosts[:turn])]
        if self.secure:
            lines += [f"ca = {f}/tls/ca.pem", f"certificate = {f}/tls/client.pem", f"key = {f}/tls/client.key"]
        if self.secure and user:
            lines += [f"user = {user}", f"password-file = {f}/users/{user}"]
        path = f / f"{name}.conf"
        path.write_text("\n".join([*lines, "[log]", "format = json", more]) + "\n")
        return path

    def words(self, *words, user="operator", status=0):
        """A word of the fleet, as an operator says it."""
        config = self.config("desk", user if self.secure and (self.folder / "users" / user).exists() else "")
        for _ in range(4):
            done = subprocess.run([PYTHON, "-m", "bentzolu", "fleet", *words, "--config", str(config)], capture_output=True, text=True, check=False)
            if self.is_starting or not any(it in done.stderr for it in ("can't be asked", *BUSY)):  # etcd has much to do
                break
        if done.returncode != status:
            raise LabError(f"fleet {' '.join(words)}: status {done.returncode}: {done.stderr.strip()[-500:]}")
        return done.stdout if status == 0 else done.stderr

    def agent(self, node):
        more = f"plane = {self.plane}\npins = {self.pins(node)}\n" if self.plane else ""
        config = self.config(f"agent-{node}", f"agent-{node}", f"[agent]\nnode = {node}\nlock = {self.folder}/lock/{node}\n{more}{self.options['agent']}")
        (self.folder / "lock").mkdir(exist_ok=True)
        (self.folder / "lock").chmod(0o777)
        only = []
        if self.secure:
            for path in (config, *(self.folder / "users").glob("*")):
                path.chmod(0o644)
            (self.folder / "users").chmod(0o755)
            only = ["env", f"PYTHONPATH={self.folder}/python", "setpriv", "--reuid=65534", "--regid=65534", "--clear-groups", "--no-new-privs", "--bounding-set=-all,+net_admin",
                    "--inh-caps=-all,+net_admin", "--ambient-caps=-all,+net_admin"]
        self.start(f"agent-{node}", self.network.space(node), [*only, *self.package(), "agent", "--config", config])

    def package(self):
        """The package as a command, with a body in place of one of its own where one is wanted."""
        body = f"FOLDER = {str(self.folder)!r}\n{self.wrong}\nimport sys\nfrom bentzolu.__main__ import main\nsys.exit(main(sys.argv[1:]))"
        return [PYTHON, "-c", body] if self.wrong else [PYTHON, "-m", "bentzolu"]

    def controller(self, i):
        config = self.config(f"control{i}", "controller", f"[controller]\nname = control{i}\n{self.options['controller']}")
        self.start(f"control{i}", f"control{i}", [*self.package(), "controller", "--config", config])

    def follow(self):
        """Keeps what etcd has, and had, by a watch of etcd's own program from the first revision on. A line of a log can be lost:
        with its process, or where a write that was given up is carried out after all. These can't."""
        scheme, name, user, secret = "http", f"follower{len(self.puts_of)}", self.folder / "users/operator", self.folder / "tls"
        access = []
        if self.secure:
            scheme = "https"
            access = ["--cacert", secret / "ca.pem", "--cert", secret / "client.pem", "--key", secret / "client.key", "--user", f"operator:{user.read_text().strip()}"]
        command = ["etcdctl", "--dial-timeout", "60s", "--command-timeout", "60s", "--endpoints", ",".join(f"{scheme}://{it}:2379" for it in self.hosts), *access,
                   "watch", "--write-out", "json", "--rev", "1", "--prefix", fleet.ROOT]
        path = self.folder / f"{name}.log"
        with open(path, "wb") as out:
            self.processes[name] = subprocess.Popen(list(map(str, command)), stdin=subprocess.DEVNULL, stdout=out, stderr=out, env={**os.environ, "ETCDCTL_API": "3"})
        self.puts_of.append(Puts(path))

    def is_followed(self):
        """Whether somebody follows etcd; where the one who did has ended, another one begins, from the first revision on."""
        is_there = self.processes[f"follower{len(self.puts_of) - 1}"].poll() is None
        if not is_there:
            self.follow()
        return is_there

    def puts(self, key):
        """What the follower says that etcd was given below a key, as triples of the revision, the rest of the key, and the value."""
        return [(revision, name[len(key):], value) for revision, name, value in self.puts_of[-1].read() if name.startswith(key)]

    def history(self):
        """The words of each epoch that was ever committed, as etcd has them."""
        found = (put for puts in self.puts_of for put in puts.read() if put[1].startswith(fleet.EPOCHS))
        return {int(key[len(fleet.EPOCHS):]): fleet.Spec.read(key, text) for _, key, text in found}

    def put_after(self, since, what):
        """The first epoch that was begun, committed, flipped to or the floor after something was wanted, as etcd has it; of what
        was wanted, or later."""
        begun = next((int(value) for revision, _, value in self.puts(KEYS["begun"]) if revision > since.revision), None)
        found = (int(rest or value) for revision, rest, value in self.puts(KEYS[what]) if revision > since.revision)
        return begun and next((epoch for epoch in found if epoch >= begun), None)

    # what the logs say

    def events(self, prefix="control", *what):
        found = [item for name, log in self.logs.items() if name.startswith(prefix) for item in log.read()]
        return sorted((it for it in found if not what or it["what"] in what), key=lambda it: it["t"])

    def until(self, holds, what, seconds=PATIENT):
        end = time.monotonic() + seconds
        while not (found := holds()):
            if time.monotonic() > end:
                said = self.words("status") if self.members and any(it.poll() is None for name, it in self.processes.items() if "etcd" in name) else ""
                raise LabError(f"not in {seconds} s: {what}\n{said}")
            time.sleep(0.04)
        return found

    def after(self, since, *what, name="control", **about):
        """The first line of a log since a time, with these words."""
        found = (it for it in self.events(name, *what) if it["t"] > since)
        return next((it for it in found if all(it.get(key) == value for key, value in about.items())), None)

    def until_after(self, since, *what, name="control", **about):
        if isinstance(since, Wanted) and name == "control" and not about and set(what) <= set(KEYS):
            return self.until(lambda: any(self.put_after(since, it) for it in what), f"{what} of what was wanted")
        return self.until(lambda: self.after(since, *what, name=name, **about), f"{what} {about}")

    def specs(self):
        """The words of each epoch that was committed, as etcd has them, with the time of the first line that names it, which
        is before the first packet that carries it."""
        times = {}
        for it in self.events("", "begun", "installed", "stamping"):
            for epoch in it.get("epochs", [it.get("epoch")]):
                times.setdefault(epoch, it["t"])
        return {epoch: (times.get(epoch, float("inf")), spec) for epoch, spec in sorted(self.history().items())}

    def up(self, controllers=(1,)):
        self.build()
        for i in range(1, self.members + 1):
            self.etcd(i)
        self.until(lambda: self.try_words("status"), "etcd answers")
        self.is_starting = False
        more = [*(["--tags", str(self.tags)] if self.tags else []), *(["--ports", str(self.ports_file())] if self.plane else [])]
        print(self.words("enroll", str(self.topology), *more).strip(), flush=True)
        if self.secure:
            self.words("users", str(self.folder / "users"))
        self.follow()
        for node in self.nodes:
            self.agent(node)
        for i in controllers:
            self.controller(i)
        self.change("tree")

    def pins(self, node):
        """The folder of a router's maps, where its plane is one in XDP."""
        return f"{PINS}/n{self.network.number[node]}"

    def ports_file(self):
        """The ports of all routers, with the hardware addresses of their neighbours, of whom a plane in XDP asks nothing."""
        lines = [f"{node} {other} {self.network.port(other)} - {hardware(self.network.number[other])}"
                 for node in self.nodes for other in self.network.near[node]]
        (self.folder / "ports").write_text("".join(f"{line}\n" for line in lines))
        return self.folder / "ports"

    def refused_plane(self):
        """Why routers can have no plane in XDP here, or None; it is built, and a folder for its maps is made."""
        for words, more in (([HERE / "plane/make"], {"OUT": f"{self.folder}/plane"}), (["sh", "-e", "-c", PROBE.format(
                pins=PINS, tool=self.folder / "plane/bentzolu-xdp", object=self.folder / "plane/plane.bpf.o", mode=self.plane)], {})):
            done = subprocess.run(words, capture_output=True, text=True, check=False, env={**os.environ, **more})
            if done.returncode:
                return (done.stderr.strip().splitlines() or ["it says nothing"])[-1]
        os.environ["BENTZOLU_XDP"] = f"{self.folder}/plane/bentzolu-xdp"
        if self.plane == "xdp":
            os.replace(self.folder / "plane/watch.bpf.o", self.folder / "plane/plane.bpf.o")  # which reports each packet
        return None

    def try_words(self, *words):
        with contextlib.suppress(LabError):
            return self.words(*words)

    def stamped(self, since, what="floor"):
        """Waits until an epoch that was begun since a time, or since something was wanted, has come to its floor."""
        if isinstance(since, Wanted):
            return self.until_after(since, what)

        def holds():
            begun = self.after(since, "begun")
            return begun and next((it for it in self.events("control", what) if it["epoch"] >= begun["epoch"]), None)
        return self.until(holds, f"a {what} of what was wanted")

    def change(self, kind, *without, what="floor"):
        """Says what is wanted, waits for it, and answers when it was said."""
        since = self.want(kind, *without)
        self.stamped(since, what)
        return since

    def dies(self, what, front, kind, *without):
        """Says what is wanted, and waits until a process whose name begins so is killed by itself at a moment that `MORTAL` knows,
        or, where an answer of etcd was lost and it did not come to that, kills it. Answers when it was said, and which one it was."""
        file = self.folder / f"dies-{what}-{front}"
        file.touch()
        since = self.want(kind, *without)

        def dead():
            return next((name for name, it in self.processes.items() if name.startswith(front) and it.poll() is not None), None)
        self.until(lambda: dead() or self.put_after(since, "floor"), f"{front} dies at {what}")
        file.unlink(missing_ok=True)
        if not dead():
            self.kill(next(name for name in self.processes if name.startswith(front)))
        self.note("killed", dead(), what)
        return since, dead()

    def want(self, kind, *without):
        since, before = Wanted(time.monotonic()), self.wants()
        self.words("want", "--kind", kind, *(word for link in without for word in ("--without", *link)))
        since.revision = self.until(lambda: self.is_followed() and len(self.wants()) > len(before) and self.wants()[-1], "etcd has what was wanted")
        return since

    def wants(self):
        """The revisions at which something was wanted."""
        return [revision for revision, _, _ in self.puts(fleet.WANT)]

    # a run, and its judgement

    def run(self, scenario, seconds=0.5):
        pairs = [(a, b) for a in range(len(self.nodes)) for b in range(len(self.nodes)) if a != b]
        random.Random(1).shuffle(pairs)
        self.samples, is_on = [], True
        watching = {"watching": Reported(self).watch} if self.plane == "xdp" else {}
        with Traffic(self.network, pairs, (self.nodes[0], self.nodes[-1]), self.rate, **watching) as traffic:
            def sample():
                while is_on:
                    self.samples.append((traffic.board.sent, time.monotonic()))
                    time.sleep(0.02)
            thread = threading.Thread(target=sample)
            thread.start()
            try:
                time.sleep(seconds)
                scenario(self)
                time.sleep(seconds)
                frames, arrivals, unseen = traffic.finish()
            finally:
                is_on = False
                thread.join()
        board = traffic.board
        commits = {it["epoch"] for it in json.loads(self.words("status", "--json"))["epochs"]}
        self.until(lambda: self.is_followed() and commits <= set(self.history()), "the follower has all commits")
        return self.judge(board.sent, pairs, frames, arrivals, unseen, (board.written, board.read))

    def sent_at(self, number):
        at = bisect.bisect_right(self.samples, (number, float("inf")))
        return self.samples[min(at, len(self.samples) - 1)][1]

    def judge(self, sent, pairs, frames, arrivals, unseen, stream):
        """What became of each packet: rows for the program to judge, and which were lost and where."""
        tags = self.tags or fleet.MOST_TAGS
        stamps = defaultdict(list)
        for it in self.events("agent-", "stamping"):
            stamps[it["name"]].append((it["t"], it["epoch"]))
        ways, arrived = defaultdict(list), defaultdict(list)
        for number, limit, here, there, tag in frames:
            ways[number].append((-limit, here, there, tag))
        for number, node in arrivals:
            arrived[number].append(node)
        counts, self.rows, self.lost = Counter(sent=sent, hops=len(frames), unseen=unseen, stream=stream[0] - stream[1]), [], []
        for number in range(sent):
            pair, hops, at = pairs[number % len(pairs)], sorted(ways[number]), self.sent_at(number)
            way = [self.nodes[pair[0]], *(self.nodes[it[2]] for it in hops)]
            is_there = arrived[number] == [pair[1]]
            counts["twice or elsewhere"] += bool(arrived[number]) and not is_there
            counts["apart"] += any(self.nodes[it[1]] != here for it, here in zip(hops, way)) or len({it[3] for it in hops}) > 1
            if not is_there:
                counts["lost"] += 1
                self.lost.append((at, way, self.nodes[pair[1]]))
            if hops:
                epoch = epoch_at(at, hops[0][3], stamps[way[0]], tags)
                self.rows.append((at, epoch, way, self.nodes[pair[1]], is_there))
        return counts

    def check(self, bend=False):
        """What the program says of the trace, over pieces: lines with their numbers."""
        weights = {}
        for line in self.text.splitlines():
            words = line.split("#")[0].split()
            for other in words[1:2] if self.form == "edgelist" else words[1:]:
                weights[fleet.link_of(words[0], other)] = int(words[2]) if self.form == "edgelist" and len(words) > 2 else 1
        specs = self.specs()
        if len(specs) > MOST_EPOCHS:
            raise LabError(f"{len(specs)} epochs are more than a script may have")
        place = {epoch: i for i, epoch in enumerate(specs, 1)}
        installs, down = [], set()
        for epoch, (at, spec) in specs.items():
            _, without = fleet.leaves_of(self.shape, frozenset(spec.without), frozenset(spec.cut))
            lines = [f"up {a} {b}" for a, b in sorted(down - without)] + [f"down {a} {b}" for a, b in sorted(without - down)]
            installs.append((at, [*lines, f"install {spec.kind} {self.root}"]))
            down = set(without)
        first = next(iter(specs.values()))[1]
        if first.without or first.cut:
            raise LabError("the first plan is not one of all links")
        said = Counter()
        for i in range(0, len(self.rows), PIECE):
            piece = self.rows[i:i + PIECE]
            lines, rest = [], installs[1:]
            packets = []
            for number, (at, epoch, way, goal, is_there) in enumerate(piece):
                while rest and rest[0][0] <= at:
                    lines += rest.pop(0)[1]
                lines.append(f"inject {way[0]} {goal}")
                if bend and number == len(piece) // 2 and len(way) > 1:
                    way = [*way[:-2], way[-1], way[-2]]
                weight = sum(weights.get(fleet.link_of(*it), 1) for it in zip(way, way[1:]))
                fate = "delivered" if is_there else "left"
                packets.append(Packet(number, way[0], goal, weight, fate, None, (Segment(place.get(epoch, 0), tuple(way)),)))
            for at, its in rest:
                lines += its
            (self.folder / "script").write_text("".join(f"{line}\n" for line in lines))
            (self.folder / "trace").write_text(write_trace(packets))
            done = subprocess.run([os.environ["BENTZOLU_ROUTE"], "check", "--whole", "--format", self.form, "--kind", first.kind, "--root", self.root,
                                   self.topology, self.folder / "script", self.folder / "trace"], capture_output=True, text=True, check=False)
            word = done.stdout.strip() or done.stderr.strip()[:300]
            said["ok" if re.fullmatch(r"ok \d+", word) else word] += 1
            if bend:
                break
        return dict(said)

    def judged(self, name, counts, is_excused=None, least=1):
        """The checks of a run."""
        excused = [it for it in self.lost if is_excused and is_excused(*it)]
        print(f"fleet: {name}: " + ", ".join(f"{n} {what}" for what, n in counts.items() if n) + f"; {len(excused)} excused; "
              f"{len(self.specs())} epochs", flush=True)
        if counts["unseen"]:
            return skip(4, f"{name}: {counts['unseen']} frames were not seen on this busy machine")
        count(f"{name}: the program judges all ways", None if set(self.check()) == {"ok"} else self.check())
        odd = {what: counts[what] for what in ("twice or elsewhere", "apart", "stream") if counts[what]}
        count(f"{name}: each packet in one epoch, once", odd)
        left = [it for it in self.lost if it not in excused]
        count(f"{name}: nothing is lost that should not be", left[:3] and f"{len(left)}: {left[:3]}")
        return count(f"{name}: epochs", None if len(self.specs()) >= least else f"{len(self.specs())}, and {least} were to be")
