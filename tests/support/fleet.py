"""Fleets in real packets, under faults: `tests/fleet` and tests/test_fleet.py run it.

Routers of Linux in network namespaces, an agent at each, controllers, and Debian's etcd, all in a network of their own; plans
change under traffic between all pairs while things fail. What packet sockets saw at each hop is written as a trace, with
the script of what the fleet did, and judged by the program: `route check --whole` has to say ok. No packet may be lost, but
at a link that went down, or at a router whose tables somebody flushed. A trace that was bent by one hop has to be found.

    fleet.py [--large] [NAME..]      the runs of the gate, or all of them, or those of these names

It runs at the top of the repository, with python in PYTHONPATH and the program in BENTZOLU_ROUTE. The last line is
`N passed, M failed` or that and `, K skipped`; the status is above 0 where something differs.
"""
import asyncio
import json
import os
import pathlib
import random
import re
import shutil
import signal
import subprocess
import sys
import tempfile
import threading
import time
from collections import Counter, defaultdict
from concurrent.futures import ThreadPoolExecutor

from bentzolu import fleet, plane
from bentzolu.fleet_calls import Created, Get, Put, Txn, is_in, under
from bentzolu.fleet_etcd import Access, Etcd, EtcdError, password_of
from bentzolu.lab import is_connected
from bentzolu.lab_net import LabError, play
from bentzolu.lab_space import apart, called

sys.path.insert(0, os.path.dirname(os.path.abspath(__file__)))
from fleet_bench import Bench, PATIENT, PYTHON, TALLY, count, skip  # noqa: E402
from fleet_docs import run_docs, run_package  # noqa: E402

NEW_NET = 0x40000000
MOST_SECONDS = 1100  # of one run
AT_ONCE = 4  # runs
MOST_TIMES = 12  # as long as its transactions by hand a change may take


def turn_of(b, seed=3):
    """What is wanted, one after the other: trees and shortest ways, over all links or without one."""
    links = sorted(b.shape.links)
    loose = [link for link in links if is_connected(b.nodes, [it for it in links if it != link])]
    random.Random(seed).shuffle(loose)
    i = 0
    while True:
        yield ("shortest",)
        yield "tree", loose[i % len(loose)]
        yield "shortest", loose[(i + 1) % len(loose)]
        yield ("tree",)
        i += 2


def last(b):
    return max((it["epoch"] for it in b.events("control", "begun")), default=0)


def excuse_links(b):
    """Losses at a link while it is down, or goes down."""
    times = defaultdict(list)
    for at, what, *about in b.notes:
        if what in ("link down", "link up"):
            times[tuple(about)].append(at)

    def is_excused(at, way, goal):
        for link, moments in times.items():
            if moments[0] - 1 <= at <= moments[-1] + 1 and (way[-1] in link or way[-2:-1] and way[-2] in link):
                return True
        return False
    return is_excused


def excuse_flushed(b):
    """Losses at a router whose tables were flushed, until they are whole again."""
    def is_excused(at, way, goal):
        return any(what == "flushed" and about[0] in (*way[-2:], goal) or what == "flushed" and t - 1 <= at <= t + 10
                   for t, what, *about in b.notes)
    return is_excused


def changes(number):
    def scenario(b):
        turn = turn_of(b)
        for _ in range(number):
            b.change(*next(turn))
    return scenario


def killed(b):
    """Agents and controllers are killed, each in a change: controllers between any two phases, where the other one takes over."""
    turn, draw = turn_of(b), random.Random(5)
    node = draw.choice(b.nodes)

    since = b.want(*next(turn))  # an agent is killed at a commit, and comes back
    b.until_after(since, "committed")
    b.kill(f"agent-{node}")
    time.sleep(0.5)
    b.agent(node)
    b.stamped(since)

    since, _ = b.dies("stamp", f"agent-{node}", *next(turn))  # it is killed as its kernel stamps, before its log has it, and comes back
    b.agent(node)
    b.stamped(since)

    for what in ("begun", "compiled", "commit", "committed", "flipped", "floor"):
        leader = b.events("control", "leads")[-1]["name"].split("-")[0]
        if what == "commit":  # as etcd has the commit, before its log has it
            since, leader = b.dies(what, "control", *next(turn))
        else:
            since = b.want(*next(turn))
            b.until_after(since, what)
            b.kill(leader)
        b.stamped(since)
        b.controller(int(leader[-1]))
        b.until(lambda: b.after(since, "follows", "leads", name=leader), "it stands by")


def cut_off(b):
    """In changes a member of etcd is killed, routers are cut off from etcd for 10 s, and all of etcd stands still for 20 s."""
    turn, draw = turn_of(b), random.Random(5)
    if b.members > 1:  # a member of etcd is killed, and comes back
        since = b.want(*next(turn))
        b.until_after(since, "begun")
        b.kill("etcd1")
        b.stamped(since)
        b.etcd(1, again=True)

    for what in ("begun", "committed"):
        node = draw.choice(b.nodes)
        since = b.want(*next(turn))
        b.until_after(since, what)
        b.cut(b.network.space(node))
        time.sleep(10)
        b.join(b.network.space(node))
        b.stamped(since)

    since = b.want(*next(turn))  # all of etcd stands still, and goes on
    b.until_after(since, "committed")
    for i in range(1, b.members + 1):
        b.kill(f"etcd{i}", signal.SIGSTOP)
    time.sleep(20)
    for i in range(1, b.members + 1):
        b.kill(f"etcd{i}", signal.SIGCONT)
    b.stamped(since)


def links(b, number=2):
    """Links that go down and come up."""
    b.change("shortest")
    loose = [link for link in sorted(b.shape.links) if is_connected(b.nodes, [it for it in b.shape.links if it != link])]
    random.Random(4).shuffle(loose)
    b.took = []
    for one, other in loose[:number]:
        since = time.monotonic()
        b.note("link down", one, other)
        play(b.network.down(one, other))
        carrier = b.until(lambda: b.after(since, "ports", name=f"agent-{one}"), "the carrier is told")
        begun = b.until(lambda: next((it for it in b.events("control", "begun") if it["t"] > since and f'["{one}","{other}"]' in it["spec"]), None), "a plan")
        flipped = b.until(lambda: next((it for it in b.events("control", "flipped") if it["epoch"] >= begun["epoch"]), None), "its stamp")
        b.took.append(flipped["t"] - carrier["t"])
        b.stamped(since)
        time.sleep(0.3)
        up = time.monotonic()
        play(f"ip -n {b.network.space(one)} link set dev {b.network.port(other)} up\n")
        b.stamped(up)
        b.note("link up", one, other)
        time.sleep(0.2)


def flushed(b):
    """Somebody flushes a router's rules, in a change and else."""
    draw = random.Random(7)
    for kind in ("tree", "shortest"):
        node, since = draw.choice(b.nodes), time.monotonic()
        b.note("flushed", node)
        play(f"ip netns exec {b.network.space(node)} nft flush ruleset\n")
        b.until_after(since, "stamped", name=f"agent-{node}")
        b.change(kind)


def absent(b):
    """An agent dies for longer than patience: its router becomes a leaf, goes on, and comes back."""
    b.change("shortest")
    node = next(it for it in b.nodes if fleet.leaves_of(b.shape, frozenset(), frozenset([it]))[0])
    since = time.monotonic()
    b.kill(f"agent-{node}")
    b.until(lambda: next((it for it in b.events("control", "begun") if it["t"] > since and f'"cut":["{node}"]' in it["spec"]), None), "a plan without it")
    b.until_after(since, "flipped")
    b.change("tree", what="flipped")
    since = time.monotonic()
    b.agent(node)
    begun = b.until(lambda: next((it for it in b.events("control", "begun") if it["t"] > since and '"cut":[]' in it["spec"]), None), "a plan with it")
    b.until(lambda: next((it for it in b.events("control", "floor") if it["epoch"] >= begun["epoch"]), None), "its floor")


def bent(b, name):
    """A trace that is bent by one hop is found."""
    said = b.check(bend=True)
    count(f"{name}: a trace that is bent by one hop is found", None if any(it.startswith("finding") for it in said) else said)


def round_and_round(b):
    """A packet of a router's own, without its table, does not go round its own pair of devices."""
    node = b.nodes[0]
    space = b.network.space(node)
    b.kill(f"agent-{node}")
    play(f"ip netns exec {space} nft flush ruleset\n")

    def sent():
        found = json.loads(subprocess.run(["ip", "-n", space, "-j", "-s", "link", "show", "bz0"], capture_output=True, text=True, check=True).stdout)
        return found[0]["stats64"]["tx"]["packets"]
    before = sent()
    other = b.network.host(b.nodes[-1])
    subprocess.run(["ip", "netns", "exec", space, PYTHON, "-c", "import socket; s = socket.socket(socket.AF_INET6, socket.SOCK_DGRAM); "
                    f"[s.sendto(b'x', ('{other}', 9)) for _ in range(10)]"], check=True)
    time.sleep(0.3)
    made = sent() - before
    count("a router without its table: a packet goes out once", None if 10 <= made <= 20 else f"10 packets were sent {made} times")


class CameError(Exception):
    """Events of a watch that was permitted."""


def came(_):
    raise CameError


async def is_permitted(asking):
    """Whether etcd permits what is asked for."""
    try:
        await asyncio.wait_for(asking, PATIENT)
    except CameError:
        return True
    except EtcdError as fault:
        if "does not permit" not in str(fault):
            raise
        return False
    return True


async def rights_of(b, user, node, other):
    """What a user may read and write of all kinds of keys, and of keys of another node. No write changes anything: it is tried
    under a comparison that never holds."""
    tls = b.folder / "tls"
    etcd = Etcd(Access([f"https://{b.hosts[0]}:2379"], tls / "ca.pem", tls / "client.pem", tls / "client.key", user, password_of(b.folder / "users" / user)))
    never = (Created(fleet.STAMP, 1 << 60),)
    keys = [fleet.TOPOLOGY, fleet.FORM, fleet.ORDER, fleet.WANT, fleet.TAGS, fleet.COUNTER, fleet.STAMP, fleet.FLOOR, fleet.REFUSED, f"{fleet.EPOCHS}9", fleet.LEADER]
    keys += [key for it in (node, other) for key in (fleet.MEMBERS + it, fleet.LIVE + it, f"{fleet.ROWS}{it}/9")]
    reads = {key for key in keys if await is_permitted(etcd.ask(Txn((), (Get(key),))))}
    writes = {key for key in keys if await is_permitted(etcd.ask(Txn(never, (Put(key, "x"),))))}
    whole = [await is_permitted(etcd.ask(Txn((), (Get(*under(fleet.ROOT)),)))), await is_permitted(etcd.follow([under(f"{fleet.ROWS}{other}/")], 1, came)),
             await is_permitted(etcd.post("/v3/auth/user/add", {"name": "stranger", "password": "x"})), await is_permitted(etcd.post("/v3/maintenance/snapshot", {}))]
    etcd.rotate()
    return keys, reads, writes, whole


def forbidden(b):
    """What each user may read and write, and what is said of one who may not, and of a wrong password."""
    node, other = b.nodes[:2]
    mine = [under(fleet.NET), under(f"{fleet.ROWS}{node}/"), (fleet.MEMBERS + node, None), (fleet.LIVE + node, None)]
    wrong = []
    for user, reads, writes in (
        (f"agent-{node}", mine, [(fleet.LIVE + node, None)]), ("operator", [under(fleet.ROOT)], [(fleet.WANT, None)]),
        ("controller", [under(fleet.ROOT)], [under(fleet.NET), under(fleet.ROWS), (fleet.LEADER, None)]),
    ):
        keys, read, written, whole = asyncio.run(rights_of(b, user, node, other))
        wanted = [{key for key in keys if any(is_in(key, span) for span in spans)} for spans in (reads, writes)]
        wrong += [(user, key) for key in (wanted[0] ^ read) | (wanted[1] ^ written)]
        wrong += [] if whole == [user in ("operator", "controller")] * 2 + [False, False] else [(user, whole)]
    count("secure: each user may read and write what is its, and nothing else", wrong)
    said = b.words("want", "--kind", "tree", user=f"agent-{node}", status=1)
    count("secure: an agent's user may not want", None if "does not permit" in said else said)
    (b.folder / "users/stranger").write_text("wrong\n")
    said = b.words("status", user="stranger", status=1)
    count("secure: a wrong password gets a sentence", None if "refuses the user" in said else said)


def etcdctl(b, *words):
    subprocess.run(["etcdctl", "--endpoints", f"http://{b.hosts[0]}:2379", *words], check=True, capture_output=True, env={**os.environ, "ETCDCTL_API": "3"})


def nft(b, node, *words):
    """What nft prints at a router."""
    return subprocess.run(["ip", "netns", "exec", b.network.space(node), "nft", *words], capture_output=True, text=True, check=True).stdout


def wrong_port(b, node):
    """A port is enrolled that the router does not have. It says so, and goes on by the one that it had."""
    other = sorted(b.network.near[node])[0]
    k, number = b.network.number[other], b.network.number
    right = [(x, y, f"to{number[y]}", "-", plane.hardware(number[y])) for x in b.nodes for y in b.network.near[x]]
    lines = [" ".join(it) for it in right]
    (b.folder / "ports").write_text("\n".join(lines).replace(f"{node} {other} to{k} ", f"{node} {other} nope9 ") + "\n")
    b.words("enroll", str(b.topology), "--ports", str(b.folder / "ports"))
    wanted = f"{node}: this router has no device nope9 to {other}: the topology is not that of the routers"
    b.until(lambda: wanted in (b.try_words("status") or ""), "the port that is not there is told")
    said = nft(b, node, "list", "chain", "netdev", "bz", f"to_{k}")
    b.words("enroll", str(b.topology))
    b.until(lambda: wanted not in (b.try_words("status") or wanted), "the right port is taken")
    count("a port that is not there is told, and the way goes on by the one that was", None if f'device "to{k}"' in said else said)


def unknown(b, node):
    """Records that nobody can read: what is wanted, and a row."""
    etcdctl(b, "put", fleet.WANT, '{"kind":"best"}')
    wanted = "write it by `fleet want`"
    b.until(lambda: wanted in (b.try_words("status") or ""), "what can't be read is told")
    since = time.monotonic()
    etcdctl(b, "put", f"{fleet.ROWS}{node}/9999", "nonsense a")
    found = b.until_after(since, "lost", name=f"agent-{node}")
    since = time.monotonic()
    etcdctl(b, "del", f"{fleet.ROWS}{node}/9999")
    b.until_after(since, "told", name=f"agent-{node}")
    b.words("want", "--kind", "tree", "--wait", str(PATIENT))
    count("an unknown record, of what is wanted and of a row", None if "is not a row" in found["why"] else found)


def watched(b):
    """`fleet status --watch` shows what changes, until it is ended."""
    path, config = b.folder / "watched", b.config("watcher", "")
    with open(path, "w", encoding="ascii") as out:
        child = subprocess.Popen([PYTHON, "-m", "bentzolu", "fleet", "status", "--watch", "--json", "--config", str(config)], stdout=out)
    b.until(path.read_text, "it shows what there is")
    b.change("shortest")

    def shown():
        return [json.loads(line) for line in path.read_text().splitlines(keepends=True) if line.endswith("\n")]
    b.until(lambda: shown()[-1]["phase"] == "steady" and shown()[-1]["stamp"] > shown()[0]["stamp"], "it shows the change")
    child.terminate()
    status = child.wait()
    count("status --watch --json", None if status == -signal.SIGTERM and len(shown()) > 1 else (status, shown()))


OLD_ETCD = """
import http.server, sys
class Old(http.server.BaseHTTPRequestHandler):
    protocol_version = "HTTP/1.1"
    def do_GET(self):
        said = b'{"etcdserver": "3.3.11"}'
        self.send_response(200)
        self.send_header("Content-Length", str(len(said)))
        self.end_headers()
        self.wfile.write(said)
http.server.HTTPServer((sys.argv[1], 2399), Old).serve_forever()
"""


def old_etcd(b):
    """An etcd of a version that is not wanted."""
    b.start("old", "etcd1", [PYTHON, "-c", OLD_ETCD, b.hosts[0]])
    config = b.folder / "old.conf"
    config.write_text(f"[etcd]\nendpoints = http://{b.hosts[0]}:2399\n")

    def said():
        return subprocess.run([PYTHON, "-m", "bentzolu", "fleet", "status", "--config", config], capture_output=True, text=True, check=False).stderr
    wanted = "is etcd 3.3.11: 3.4 or a later version of 3 is needed"
    b.until(lambda: wanted in said(), "an etcd of another version is told")
    b.kill("old")
    count("an etcd of another version is told", None)


def strangers(b):
    """Bad input, each told in a sentence: a second agent with a name, at its router and at another one, rules and rows of another
    program, a port that is not there, records that nobody can read."""
    node, other = b.nodes[:2]
    b.start("second", b.network.space(node), [PYTHON, "-m", "bentzolu", "agent", "--config", b.folder / f"agent-{node}.conf"])
    b.until(lambda: b.processes["second"].poll() is not None, "it ends")
    said = (b.folder / "second.log").read_text()
    count("a second agent at one router", None if "another agent runs on this router" in said else said)
    config = b.config("third", f"agent-{node}", f"[agent]\nnode = {node}\nlock = {b.folder}/lock/third")
    since = time.monotonic()
    b.start("third", b.network.space(other), [PYTHON, "-m", "bentzolu", "agent", "--config", config])
    found = b.until(lambda: b.after(since, "lost", name="third"), "it is refused")
    b.kill("third")
    count("a second agent with a router's name", None if "another agent has the name" in found["why"] else found)
    since = time.monotonic()
    play(f"ip netns exec {b.network.space(node)} nft add rule netdev bz in accept\n")
    found = b.until_after(since, "rebuilt", name=f"agent-{node}")
    said = subprocess.run(["ip", "netns", "exec", b.network.space(node), "nft", "list", "chain", "netdev", "bz", "in"], capture_output=True, text=True,
                          check=False).stdout
    count("somebody's rule in the table goes, in one transaction", None if found["tags"] and said.rstrip().endswith("drop\n\t}\n}") else said)
    since, k = time.monotonic(), b.network.number[sorted(b.network.near[node])[0]]
    nft(b, node, "add", "element", "netdev", "bz", f"ways {{ fd00:9999::1 : goto to_{k} }}")
    found = b.until_after(since, "retired", name=f"agent-{node}", tags=[0x9999])
    told = b.after(since, "differs", name=f"agent-{node}")
    count("somebody's row in the table goes, and is told", None if told and "a table of its own" in told["why"] else (found, told))
    wrong_port(b, node)
    unknown(b, node)
    old_etcd(b)
    watched(b)
    said = b.until(lambda: (found := b.try_words("status", "--json")) and json.loads(found)["phase"] == "steady" and found, "it is steady")
    count("status --json", None if {"epochs", "members", "waits", "leader"} <= set(json.loads(said)) else said)
    said = b.words("want", "--kind", "tree", "--without", node, "nobody", status=1)
    count("a link that is not there", None if "no link" in said else said)


IN_PLACE = """
from dataclasses import replace
from bentzolu import fleet, fleet_agent
right = fleet.reconcile
def wrong(said, held):
    wanted = said.wanted()
    if held.stamped in held.rows and wanted:
        row = max(wanted.values())[1]
        if held.rows[held.stamped] != row:
            return fleet.Add({held.stamped: row}, ())
        if held.stamped in wanted:
            held = replace(held, rows={**held.rows, held.stamped: wanted[held.stamped][1]})
    return right(said, held)
fleet_agent.reconcile = wrong
"""


# An agent that is killed as its kernel stamps, or a controller as etcd has its commit, where a file asks for it: the moment
# at which a process dies and its log does not say what it did.
MORTAL = """
import os, pathlib, signal, sys, time
from bentzolu import fleet_controller, fleet_kernel
from bentzolu.fleet import Rows, Stamp
def dies(what, name):
    path = pathlib.Path(FOLDER, f"dies-{what}-{name}")
    try:
        path.unlink()  # one of them alone
    except FileNotFoundError:
        return
    os.kill(os.getpid(), signal.SIGKILL)
day = time.time
time.time = lambda: day() + 3e7 * (int(time.monotonic() / 7) % 2)  # a clock that jumps to the next year, and back
do, written = fleet_kernel.Linux.do, fleet_controller.Controller.has_written
def mortal_do(self, act, held):
    do(self, act, held)
    if isinstance(act, Stamp):
        dies("stamp", f"agent-{pathlib.Path(sys.argv[-1]).stem[len('agent-'):]}")
def mortal_written(self, answer):
    if answer.held and isinstance(self.writing, Rows) and self.writing.commit:
        dies("commit", "control")
    written(self, answer)
fleet_kernel.Linux.do, fleet_controller.Controller.has_written = mortal_do, mortal_written
"""


def run_secure():
    b = Bench("abilene.edgelist", secure=True)
    b.up()
    counts = b.run(changes(4))
    b.judged("secure", counts, least=5)
    bent(b, "secure")
    forbidden(b)


def run_killed():
    b = Bench("nsfnet.edgelist", members=3, wrong=MORTAL)
    b.up(controllers=(1, 2))
    b.judged("killed", b.run(killed), least=8)
    count("a clock that jumps is told", None if b.events("agent-", "clock") and b.events("control", "clock") else "nobody tells it")


def run_cut():
    b = Bench("nsfnet.edgelist", members=3)
    b.up()
    b.judged("cut off", b.run(cut_off), least=5)


def run_links():
    b = Bench("abilene.edgelist")
    b.up()
    b.judged("links", b.run(links), excuse_links(b), least=4)
    print("fleet: links: seconds from the carrier to the stamp: " + " ".join(f"{it:.2f}" for it in b.took), flush=True)
    b.judged("flushed", b.run(flushed), excuse_flushed(b), least=6)
    b.judged("bad input", b.run(strangers), least=8)
    round_and_round(b)


def run_tags():
    b = Bench("abilene.edgelist", tags=4)
    b.up()
    b.judged("24 changes, four tags", b.run(changes(24)), least=25)  # each tag comes round six times


def run_absent():
    b = Bench("abilene.edgelist", agent="lease = 3\nprobe = 1", controller="patience = 2")
    b.up()
    b.judged("absent", b.run(absent), least=4)
    b.kill("control1")
    b.options["controller"] = "patience = 600"
    b.controller(1)
    b.judged("gone", b.run(gone), lambda at, way, goal: way[0] == b.gone, least=6)  # it is not switched off here, and goes on sending


def gone(b):
    """A router that is switched off, and said to be gone; and back."""
    node = next(it for it in b.nodes if fleet.leaves_of(b.shape, frozenset(), frozenset([it]))[0])
    b.gone = node
    b.kill(f"agent-{node}")
    b.until(lambda: not next(it["live"] for it in json.loads(b.words("status", "--json"))["members"] if it["node"] == node), "its record goes")
    since = time.monotonic()
    said = b.words("gone", node)
    b.until(lambda: next((it for it in b.events("control", "begun") if it["t"] > since and f'"cut":["{node}"]' in it["spec"]), None), "a plan without it")
    b.until_after(since, "flipped")
    count("fleet gone", None if said == f"gone {node}\n" else said)
    b.agent(node)
    b.until_after(since, "told", name=f"agent-{node}")
    since = time.monotonic()
    count("fleet gone, of one that is there", None if "is running: switch the router off" in b.words("gone", node, status=1) else "it is taken")
    b.words("gone", node, "--back")
    b.until(lambda: next((it for it in b.events("control", "begun") if it["t"] > since and '"cut":[]' in it["spec"]), None), "a plan with it")
    b.stamped(since)


def restored(b):
    """etcd is restored from a backup that is three epochs old."""
    turn, env = turn_of(b), {**os.environ, "ETCDCTL_API": "3"}
    b.change(*next(turn))
    backup = b.folder / "backup.db"
    subprocess.run(["etcdctl", "--endpoints", f"http://{b.hosts[0]}:2379", "snapshot", "save", backup], check=True, capture_output=True, env=env)
    for _ in range(3):
        b.change(*next(turn))
    b.kill("control1")
    b.kill("etcd1")
    shutil.rmtree(b.folder / "etcd1.data")
    subprocess.run(["etcdctl", "snapshot", "restore", backup, "--data-dir", b.folder / "etcd1.data", "--name", "m1", "--initial-cluster",
                    f"m1=http://{b.hosts[0]}:2380", "--initial-advertise-peer-urls", f"http://{b.hosts[0]}:2380"], check=True, capture_output=True, env=env)
    since = time.monotonic()
    b.etcd(1, again=True)
    b.follow()
    b.until(lambda: all(b.after(since, "told", name=f"agent-{node}") for node in b.nodes), "all agents have read")
    b.controller(1)
    b.words("want", "--kind", "compact")
    b.until(lambda: "fleet restored" in b.words("status"), "the controller says what it meets")
    time.sleep(2)
    count("restored: nothing is begun below what routers hold", b.after(since, "begun"))
    b.kill("control1")
    b.until(lambda: b.try_words("restored"), "its lease ends")
    since = time.monotonic()
    b.controller(1)
    b.words("want", "--kind", "tree")
    b.stamped(since)


def run_abilene():
    b = Bench("abilene.edgelist")
    b.up()
    b.judged("24 changes, Abilene", b.run(changes(24)), least=25)
    tell_times(b, "Abilene")
    b.judged("restored", b.run(restored), least=29)


def planes(b):
    """Changes of routers with the plane in XDP: an agent starts anew, and a plane is taken down by somebody."""
    turn, draw = turn_of(b), random.Random(6)
    b.change(*next(turn))
    node = draw.choice(b.nodes)
    since = b.want(*next(turn))
    b.until_after(since, "committed")
    b.kill(f"agent-{node}")
    b.agent(node)
    b.stamped(since)
    if b.plane == "xdp":  # its reports would go with it
        return changes(6)(b)
    since = time.monotonic()
    b.note("flushed", node)
    play(f"ip netns exec {b.network.space(node)} {os.environ['BENTZOLU_XDP']} --pins {b.pins(node)} down\n")
    b.until_after(since, "stamped", name=f"agent-{node}")
    return b.change(*next(turn))


def run_plane(mode):
    def work():
        b = Bench("abilene.edgelist", plane=mode, agent="look = 1")
        why = b.refused_plane()
        if why:
            return skip(6, f"a plane in XDP ({mode}) cannot run here: {why}")
        b.up()
        b.judged(f"plane in XDP ({mode})", b.run(planes), excuse_flushed(b), least=4)
        node = b.nodes[0]
        tool = [os.environ["BENTZOLU_XDP"], "--pins", b.pins(node)]
        said = subprocess.run([*tool, "show"], capture_output=True, text=True, check=False).stdout
        stamp = json.loads(b.words("status", "--json"))["stamp"]
        is_there = re.search(rf" mode {mode} .* stamp {stamp}\n(.*\n)*epoch {stamp} ", said)
        count(f"plane in XDP ({mode}): the epoch that all stamp is in the kernel", None if is_there else said)
        there = subprocess.run(["ip", "netns", "exec", b.network.space(node), "nft", "list", "tables"], capture_output=True, text=True, check=False).stdout
        return count(f"plane in XDP ({mode}): no table of nftables", None if "netdev bz" not in there else there)
    return work


def run_control():
    b = Bench("nsfnet.edgelist", rate=600, wrong=IN_PLACE)
    b.up()
    counts = b.run(changes(6))
    said = b.check()
    count("rows in place, which have to be found", None if set(said) != {"ok"} else counts)


def run_nsfnet():
    b = Bench("nsfnet.edgelist")
    b.up()
    b.judged("24 changes, NSFNET", b.run(changes(24)), least=25)
    tell_times(b, "NSFNET")
    b.judged("links, NSFNET", b.run(lambda b: links(b, 4)), excuse_links(b), least=30)
    tell_links(b)
    beside(b, "NSFNET")
    costs(b, "NSFNET")


def run_grid():
    b = Bench("grid8x8.adjlist", rate=500)
    b.up()
    b.judged("24 changes, a grid of 64", b.run(changes(24)), least=25)
    tell_times(b, "a grid of 64")


def run_times(topology, name, most):
    """What has to be reached by the clock, on a machine without other work."""
    def work():
        b = Bench(topology)
        b.up()
        changes(24)(b)
        took = tell_times(b, name)
        count(f"times, {name}: from what is wanted to the stamps of all in {most} s", None if took <= most else f"{took:.3f} s")
        if name == "NSFNET":
            links(b, 12)
            took = tell_links(b)
            count(f"times, {name}: from a lost carrier to the stamp in 0.5 s", None if took <= 0.5 else f"{took:.3f} s")
    return work


def costs(b, name):
    """What agents cost at rest, of a processor and of memory, and the bytes that a change is for each of them."""
    def times():
        found = [pathlib.Path(f"/proc/{it.pid}/stat").read_text().rpartition(")")[2].split() for key, it in b.processes.items() if key.startswith("agent-")]
        return [sum(map(int, it[11:15])) for it in found], [int(it[21]) * os.sysconf("SC_PAGE_SIZE") / 1e6 for it in found]

    def carried():
        found = json.loads(subprocess.run(["ip", "-j", "-s", "link"], capture_output=True, text=True, check=True).stdout)
        mine = [it["stats64"] for it in found if it["ifname"].startswith("mg")]
        return sum(it["tx"]["bytes"] for it in mine), sum(it["rx"]["bytes"] for it in mine)
    time.sleep(7)
    (before, _), bytes_before, start = times(), carried(), time.monotonic()
    time.sleep(15)
    (after, memory), rest, seconds = times(), carried(), time.monotonic() - start
    share = sorted((y - x) / os.sysconf("SC_CLK_TCK") / seconds * 100 for x, y in zip(before, after))
    rates = [(y - x) / seconds / len(b.nodes) for x, y in zip(bytes_before, rest)]
    print(f"fleet: {name}: an agent at rest: {share[len(share) // 2]:.2f} % of a processor in the median, {share[-1]:.2f} % at most; "
          f"{max(memory):.0f} MB; {rates[0]:.0f} bytes a second to it, {rates[1]:.0f} from it", flush=True)
    sums, turn = [], turn_of(b)
    for _ in range(3):
        start, before = time.monotonic(), carried()
        b.change(*next(turn))
        time.sleep(4)
        spent = time.monotonic() - start
        sums.append([(y - x) / len(b.nodes) - rate * spent for x, y, rate in zip(before, carried(), rates)])
    to, of = ([sorted(it)[len(it) // 2] for it in zip(*sums)])
    print(f"fleet: {name}: a change is {to:.0f} bytes to each agent and {of:.0f} from it, with the heads of packets", flush=True)
    is_right = share[len(share) // 2] <= 0.5 and max(memory) <= 40 and to <= 6000 and of <= 3500
    count(f"{name}: an agent at rest, and a change's bytes", None if is_right else (share, memory, to, of))


def took_of(b, epochs=None):
    """Of each change, or of those to these epochs, the seconds from its begin to the flip, and to the last stamp."""
    begun = {it["epoch"]: it["t"] for it in b.events("control", "begun")}
    flips = {it["epoch"]: it["t"] for it in b.events("control", "flipped")}
    stamps = defaultdict(list)
    for it in b.events("agent-", "stamped"):
        stamps[it["epoch"]].append(it["t"])
    return sorted((flips[e] - t, max(stamps[e]) - t) for e, t in begun.items() if e in flips and e in stamps and (epochs is None or e in epochs))


def median(values):
    return sorted(values)[len(values) // 2]


def tell_times(b, name):
    """How long changes took, in the median; answers the seconds to the last stamp."""
    rows = took_of(b)[:-1]
    flipped, stamped = (median(it) for it in zip(*rows))
    print(f"fleet: {name}: of {len(rows)} changes, seconds from begun to flipped {flipped:.3f} in the median, to stamped by all {stamped:.3f}", flush=True)
    return stamped


def tell_links(b):
    """How long it took from a carrier that was lost to the stamp of a plan without the link, in the median."""
    print(f"fleet: links, NSFNET: seconds from the carrier to the stamp: {median(b.took):.3f} in the median, {max(b.took):.3f} at most", flush=True)
    return median(b.took)


def beside(b, name):
    """By turns, a change of the fleet and its transactions of nftables by hand, each at all routers at once. A busy machine stretches
    both, so their ratio is judged."""
    turn, by_hand, changed = turn_of(b), [], []

    def transactions(node):
        for _ in range(3):  # the new rows, the stamp, and the old rows
            nft(b, node, "list", "table", "netdev", "bz")
    b.change("tree")
    for _ in range(8):
        start = time.monotonic()
        with ThreadPoolExecutor(len(b.nodes)) as pool:
            list(pool.map(transactions, b.nodes))
        by_hand.append(time.monotonic() - start)
        last_epoch = last(b)
        b.change(*next(turn))
        changed += [took for _, took in took_of(b, {last_epoch + 1})]
    ratio = median(changed) / median(by_hand)
    print(f"fleet: {name}: by turns a change took {median(changed):.3f} s and its transactions by hand {median(by_hand):.3f} s: {ratio:.2f} times", flush=True)
    count(f"{name}: a change takes at most {MOST_TIMES} times its transactions", None if ratio <= MOST_TIMES else ratio)


GATE = {  # the long ones first
    "killed": (run_killed, 5), "grid": (run_grid, 4), "cut": (run_cut, 4), "nsfnet": (run_nsfnet, 10), "abilene": (run_abilene, 9),
    "absent": (run_absent, 10), "links": (run_links, 23), "docs": (run_docs, 2), "secure": (run_secure, 8), "tags": (run_tags, 4),
    "control": (run_control, 1), "plane": (run_plane("tc"), 6), "native": (run_plane("xdp"), 6), "package": (run_package, 3),
}
LARGE = {**GATE, "times": (run_times("nsfnet.edgelist", "NSFNET", 0.4), 2), "times-grid": (run_times("grid8x8.adjlist", "a grid of 64", 1.0), 1)}


def in_own_network(name):
    """One run, in mounts, processes and a network of its own."""
    def work():
        called("unshare", NEW_NET)
        try:
            LARGE[name][0]()
        except LabError as fault:
            count(name, str(fault))
            for path in pathlib.Path(tempfile.gettempdir()).glob("*/*.log"):
                print(path.stem, path.read_text(errors="replace").strip().split("\n")[-1][:300], flush=True)
        finally:
            print(f"{TALLY['passed']} passed, {TALLY['failed']} failed, {TALLY['skipped']} skipped", flush=True)
        return 1 if TALLY["failed"] else 0
    return apart(work)


def refused():
    """Why nothing can be tried here, or None."""
    if not os.access(os.environ["BENTZOLU_ROUTE"], os.X_OK):
        return "the program is not built"
    for tool in ("ip", "nft", "etcd", "etcdctl", "openssl", "setpriv", "dpkg-deb"):
        if shutil.which(tool) is None:
            return f"there is no {tool}"
    done = subprocess.run([sys.executable, sys.argv[0], "--probe"], capture_output=True, text=True, check=False)
    return None if done.returncode == 0 else (done.stderr.strip() or "no namespaces can be made").splitlines()[-1]


def main():
    words = sys.argv[1:]
    if words[:1] == ["--probe"]:
        return apart(lambda: 0)
    if words[:1] == ["--run"]:
        return in_own_network(words[1])
    runs = {name: LARGE[name] for name in words if name in LARGE} or (LARGE if "--large" in words else GATE)
    why = refused()
    if why:
        print(f"fleet: {why}: nothing is tried\n0 passed, 0 failed, {sum(it[1] for it in runs.values())} skipped")
        return 0
    sums = Counter()
    with tempfile.TemporaryDirectory(prefix="bentzolu-") as folder:
        os.environ["PYTHONPYCACHEPREFIX"] = folder  # all processes share what is compiled, and the repository has nothing of it
        os.environ.pop("PYTHONDONTWRITEBYTECODE", None)
        os.chmod(folder, 0o755)
        with ThreadPoolExecutor(AT_ONCE) as pool:  # much of a run is waiting
            for found in pool.map(one_run, runs):
                sums.update(found)
    print(f"{sums['passed']} passed, {sums['failed']} failed" + (f", {sums['skipped']} skipped" if sums["skipped"] else ""))
    return 1 if sums["failed"] else 0


def one_run(name):
    """What a run counted, in a process of its own that ends in time. Its lines are printed together."""
    last = re.compile(r"(\d+) passed, (\d+) failed, (\d+) skipped\n")
    start = time.monotonic()
    with tempfile.TemporaryDirectory(prefix="bentzolu-") as folder:
        child = subprocess.Popen([sys.executable, sys.argv[0], "--run", name], stdout=subprocess.PIPE, text=True, env={**os.environ, "TMPDIR": folder})
        timer = threading.Timer(MOST_SECONDS, child.kill)
        timer.start()
        lines = list(child.stdout)
        status = child.wait()
        timer.cancel()
    found = last.fullmatch(lines[-1]) if lines else None
    sums = Counter(dict(zip(("passed", "failed", "skipped"), map(int, found.groups())))) if found else Counter()
    sums["failed"] += 1 if status and not sums["failed"] else 0
    print("".join(lines[:-1] if found else lines) + f"fleet: {name} took {time.monotonic() - start:.0f} s", flush=True)
    return sums


if __name__ == "__main__":
    sys.exit(main())
