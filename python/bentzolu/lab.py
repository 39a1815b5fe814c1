"""`python -m bentzolu lab TOPOLOGY`: a change of a network's plan in real packets of Linux, and a verdict on each packet."""
import os
import pathlib
import random
import signal
import subprocess
import sys
import tempfile
import time
from dataclasses import dataclass
from typing import List, Optional, Tuple

from . import program as programs, texts
from .errors import BentzoluError, RouteError
from .lab_check import Story
from .lab_judge import Judge
from .lab_net import LabError, Network, links_of, play, without_link
from .lab_space import apart
from .lab_traffic import Traffic, watch
from .lab_xdp import MODES, XdpNetwork
from .label_ranges import check_ranges, read_ranges
from .options import add_detour, detour_words

KINDS = ("tree", "shortest", "compact", "landmark")
MOST_NODES, MOST_CHANGES = 256, 1000
MOST_EPOCHS = 64  # of a script of the program
MOST_LINKS_OF_A_WALK = 250  # hop limits start with 255
PAUSE, PAUSE_IN_PLACE = 0.02, 0.1  # seconds between two nodes
WAIT = 0.3  # seconds that packets of the old epoch have at least
SCRIPTS = "/run/bentzolu"  # with --run; in the lab's own mounts

ABOUT = """Build a network of Linux network namespaces. Send UDP packets between all pairs of nodes and one TCP connection. Change
the plan of the network meanwhile, and report of each packet whether it arrived, and by the path of its epoch. Everything is
removed at the end, however the lab ends. This needs Linux, root, iproute2, nftables and the program. --plane uses the BPF plane,
which plane/make builds, instead of nftables. Exit status: 0 no packet was lost or mixed; 1 one was, or the lab cannot be built;
2 the arguments were not understood."""


def add_words(commands):
    """Adds the words of `lab` to a parser's commands."""
    parser = commands.add_parser("lab", help="change a network's plan under real packets in Linux, and judge each packet", description=ABOUT)
    parser.add_argument("topology", metavar="TOPOLOGY", help="topology file; an edge list if its name ends in .edgelist or .wel")
    parser.add_argument("--kind", choices=KINDS, default="tree", help="kind of the first plan (default: tree)")
    parser.add_argument("--to", choices=KINDS, default="shortest", help="kind of the second plan (default: shortest)")
    parser.add_argument("--root", metavar="R", help="root of both plans (default: the first node)")
    parser.add_argument("--numbering", metavar="FILE", help="file that lists the nodes in the order of their labels, for both plans; not with --root")
    add_detour(parser)
    parser.add_argument("--plane", choices=("nft", *MODES), default="nft", help="forward by nftables (nft, the default), or by the BPF plane as xdp, generic or tc")
    parser.add_argument("--changes", metavar="N", type=int, default=1, help="number of changes, from one plan to the other and back (default: 1)")
    parser.add_argument("--rate", metavar="P", type=int, default=500, help="UDP packets per second (default: 500)")
    parser.add_argument("--seconds", metavar="S", type=float, default=1, help="least seconds of traffic before and after the change (default: 1)")
    parser.add_argument("--seed", metavar="S", type=int, default=1, help="seed for the order of nodes and pairs (default: 1)")
    parser.add_argument("--in-place", action="store_true", help="replace the tables of the first epoch node by node, so that packets are lost and mixed")
    parser.add_argument("--down", nargs=2, metavar=("A", "B"), help="take this link down under traffic; the second plan does without it")
    parser.add_argument("--print", action="store_true", help="print the shell script that builds and changes the network, and change nothing")
    parser.add_argument("--run", metavar="COMMAND", help="build the first epoch and run a command there, such as bash, instead of traffic and change")
    parser.set_defaults(act=lambda found: main(found, parser))


@dataclass
class Phase:
    """What is done at one node after the other: its name, the line of the report that says it, pairs of a node and a
    script, and the seconds between two."""

    name: str
    line: str
    acts: List[Tuple[str, str]]
    pause: float = PAUSE


@dataclass
class Change:
    """What leads from one epoch to the next one, and what removes the old one once it is empty."""

    act: List[Phase]
    retirement: List[Phase]


@dataclass
class Lab:
    """A network with two plans and what leads from one to the other."""

    words: object
    network: Network
    plans: dict
    build: Phase
    opening: List[Phase]
    failure: List[Phase]
    changes: List["Change"]
    story: Optional[Story] = None


def read_topology(path):
    """The text of a topology and its format."""
    form = "edgelist" if path.endswith((".edgelist", ".wel")) else "adjlist"
    try:
        return (sys.stdin.read() if path == "-" else pathlib.Path(path).read_text(encoding="ascii", errors="replace")), form
    except OSError as fault:
        raise LabError(f"{path}: {fault.strerror}") from None


def plan_of(text, form, kind, words, order=None):
    """The plan of a topology and its ranges, with an order of labels as text or without."""
    with tempfile.TemporaryDirectory(prefix="bentzolu-") as folder:
        if order is not None:
            file = pathlib.Path(folder) / "order"
            file.write_text(order)
            words = ["--numbering", str(file)]
        asked = ["--format", form, "--kind", kind, *words]
        rows, ranges = (programs.run([sub, *asked], [("topology", text)]).output for sub in ("plan", "ranges"))
    plan, found = texts.read_plan(rows), read_ranges(ranges)
    check_ranges(plan, found)
    return plan, found


def order_of(plan):
    """The nodes of a plan in the order of their labels, a line each, as `--numbering FILE` of bentzolu takes it."""
    return "".join(f"{node}\n" for node in sorted(plan.labels, key=plan.labels.get))


def is_connected(nodes, links):
    """Whether links connect all nodes."""
    near = {node: set() for node in nodes}
    for a, b in links:
        near[a].add(b)
        near[b].add(a)
    reached, ahead = set(), list(nodes)[:1]
    while ahead:
        node = ahead.pop()
        if node not in reached:
            reached.add(node)
            ahead += near[node]
    return len(reached) == len(near)


def words_of(words, kind):
    """The words of a plan of a kind: its root or its numbering, and those of kind landmark."""
    chosen = ["--root", words.root] if words.root else ["--numbering", words.numbering] if words.numbering else []
    return [*chosen, *detour_words(words.landmarks, words.stretch)] if kind == "landmark" else chosen


def text_left(words, text, form):
    """The topology of the second plan: without the link that goes down, where one does."""
    if not words.down:
        return text
    links = links_of(text, form)
    if tuple(words.down) not in links and tuple(words.down[::-1]) not in links:
        raise LabError(f"no link: {' '.join(words.down)}")
    left = without_link(text, form, words.down)
    if not is_connected({node for link in links for node in link}, links_of(left, form)):
        raise LabError(f"without the link {' '.join(words.down)} the network is not connected")
    return left


def takes_labels(words):
    """Whether the first plan has the labels of the second, and whether the second has those of the first: labels by landmarks are
    both plans' own, and with a link down the first plan's labels stay."""
    return words.to == "landmark" != words.kind, words.to != "landmark" and bool(words.down or words.kind == "landmark")


def both_plans(words, text, form):
    """The first plan and the one that is changed to, each with its ranges."""
    of_second, of_first = takes_labels(words)
    if of_second:
        second = plan_of(text_left(words, text, form), form, words.to, words_of(words, words.to))
        return plan_of(text, form, words.kind, [], order_of(second[0])), second
    first = plan_of(text, form, words.kind, words_of(words, words.kind))
    left = text_left(words, text, form)
    if of_first:
        return first, plan_of(left, form, words.to, [], order_of(first[0]))
    return first, plan_of(left, form, words.to, words_of(words, words.to))


def checked_plans(words, text, form):
    """Both plans by their epochs, and their ranges; LabError where they don't do for a lab."""
    (first, first_ranges), (second, second_ranges) = both_plans(words, text, form)
    plans = {1: first, 2: second}
    if not 2 <= len(first.nodes) <= MOST_NODES:
        raise LabError(f"the lab needs 2 to {MOST_NODES} nodes")
    if first.labels != second.labels:
        other = "" if "landmark" in (words.kind, words.to) else ": give --numbering FILE"
        raise LabError(f"the two plans number the nodes differently{other}")
    for plan in plans.values():
        if max(len(plan.path(a, b)) for a in plan.nodes for b in plan.nodes) > MOST_LINKS_OF_A_WALK:
            raise LabError(f"a path has more than {MOST_LINKS_OF_A_WALK} links")
    return plans, {1: first_ranges, 2: second_ranges}


def story_of(words, text, form, plans):
    """What the lab does, as the program's judge reads it; None where no script has its plans: under labels of a file, of the other
    plan's landmarks, or those that stay without a link, their ways may be others than those of the plans that a script installs."""
    root = min(plans[1].labels, key=plans[1].labels.get)
    if words.numbering or words.changes >= MOST_EPOCHS:
        return None
    changes = [[f"install {(words.kind, words.to)[epoch % 2]} {root}"] for epoch in range(1, words.changes + 1)]
    if words.down:
        changes[0].insert(0, f"down {' '.join(words.down)}")
    made = (words.kind, text, plans[1]), (words.to, text_left(words, text, form), plans[2])
    for kind, topology, plan in (it for it, takes in zip(made, takes_labels(words)) if takes):
        other, _ = plan_of(topology, form, kind, ["--root", root])
        if any(other.path(a, b) != plan.path(a, b) for a in other.nodes for b in other.nodes if a != b):
            return None
    options = ("--kind", words.kind, "--root", root, *detour_words(words.landmarks, words.stretch))
    return Story(text, form, options, tuple(map(tuple, changes)), ())


def prepare(words):
    """The lab that the words ask for, as far as it can be made without touching anything."""
    text, form = read_topology(words.topology)
    plans, found = checked_plans(words, text, form)
    network = network_of(words, plans[1], links_of(text, form))
    rows = {epoch: network.rows_of(plans[epoch], found[epoch]) for epoch in (1, 2)}
    plans = {epoch: plans[2 - epoch % 2] for epoch in range(1, 3 if words.in_place else words.changes + 2)}
    draw = random.Random(words.seed)

    def phase(name, line, script, *more, pause=PAUSE):
        nodes = draw.sample(network.nodes, len(network.nodes))
        return Phase(name, line, [(node, script(node, *more)) for node in nodes], pause)

    def install(epoch):
        line = f"epoch {epoch} {plans[epoch].kind} {network.size_of(rows[2 - epoch % 2])}"
        return phase(f"install-{epoch}", line, network.install, rows[2 - epoch % 2], epoch)

    def change(epoch):
        """The change to an epoch, or in place the one that stands for it."""
        if words.in_place:
            name = "in-place" if epoch == 2 else f"in-place-{epoch}"
            return Change([phase(name, "in place", network.replace, rows[2 - epoch % 2], 1, pause=PAUSE_IN_PLACE)], [])
        act = [install(epoch), phase(f"stamp-{epoch}", f"stamped {epoch}", network.stamp, epoch)]
        wait = network.drained(epoch - 1)
        drained = [Phase(f"drained-{epoch - 1}", f"drained {epoch - 1}", [("all nodes", wait)])] if wait else []
        retire = phase(f"retire-{epoch - 1}", f"retired {epoch - 1}", network.retire, rows[2 - (epoch - 1) % 2], epoch - 1, pause=0)
        return Change(act, [*drained, retire])

    build = Phase("up", f"lab {len(network.nodes)} {len(network.links)}", [("all nodes", network.up())])
    opening = [install(1), phase("stamp-1", "stamped 1", network.stamp, 1)]
    failure = []
    if words.down:
        failure.append(Phase("down", f"down {' '.join(words.down)}", [(words.down[0], network.down(*words.down))]))
    changes = [change(epoch) for epoch in range(2, words.changes + 2)]
    return Lab(words, network, plans, build, opening, failure, changes, story_of(words, text, form, plans))


def network_of(words, plan, links):
    """The network over the plane that the words name."""
    return Network(plan, links) if words.plane == "nft" else XdpNetwork(plan, links, words.plane)


def printed(lab):
    """The script of the shell that does what a lab does, but for its traffic."""
    lines = [
        "# As root, in mounts and processes of its own, with which all of it goes:",
        "#   unshare --mount --pid --fork --mount-proc sh -ec 'mount -t tmpfs tmpfs /run; . ./THIS; exec bash'",
        "set -e",
    ]

    def add(phases):
        for phase in phases:
            lines.append(f"# {phase.line}")
            lines.extend(script.rstrip("\n") for _, script in phase.acts)

    add([lab.build, *lab.opening, *lab.failure])
    for change in lab.changes:
        add(change.act)
        lines += [f"sleep {WAIT}"] if change.retirement else []
        add(change.retirement)
    return "\n".join(lines) + "\n"


class Told:
    """A line on standard error each second, how far a lab is, while a `with` lasts."""

    def __init__(self):
        self.start, self.where, self.count = time.monotonic(), "", lambda: ""

    def tell(self, *_):
        os.write(2, f"lab: {time.monotonic() - self.start:.0f} s: {self.where}{self.count()}\n".encode())

    def __enter__(self):
        signal.signal(signal.SIGALRM, self.tell)
        signal.setitimer(signal.ITIMER_REAL, 1, 1)
        return self

    def __exit__(self, *_):
        signal.setitimer(signal.ITIMER_REAL, 0)


def do(phases, told):
    """Does phases, and prints the line of each after it."""
    for phase in phases:
        for i, (node, script) in enumerate(phase.acts, 1):
            told.where = f"{phase.line}, at {node}" + (f", {i} of {len(phase.acts)}" if len(phase.acts) > 1 else "")
            play(script)
            time.sleep(phase.pause)
        print(phase.line, flush=True)


def pairs_of(lab):
    """All pairs of places of nodes, in an order by chance."""
    count = len(lab.network.nodes)
    pairs = [(a, b) for a in range(count) for b in range(count) if a != b]
    random.Random(lab.words.seed).shuffle(pairs)
    return pairs


def longest(lab):
    """The first pair of the most links, of those whose walk goes over the link that goes down where there is one."""
    plan, nodes, down = lab.plans[1], lab.network.nodes, set(lab.words.down or ())
    paths = [plan.path(a, b) for a in nodes for b in nodes if a != b]
    over = [path for path in paths if any(set(step) == down for step in zip(path, path[1:]))]
    return max(over or paths, key=len)


def run_change(lab, traffic, told):
    """Changes the plan while traffic goes on, and answers what was seen of it."""
    board, words = traffic.board, lab.words
    told.count = lambda: f"; {board.sent} packets sent, {board.written} bytes written"

    def carry(what):
        """So many seconds, and a packet between each two nodes."""
        told.where, mark, end = what, board.sent + len(traffic.pairs), time.monotonic() + words.seconds
        traffic.until(lambda: board.sent >= mark and time.monotonic() >= end, float("inf"))

    carry("packets of the first epoch")
    do(lab.failure, told)
    if lab.failure:
        carry("packets while the link is down")
    for change in lab.changes:
        if lab.story:
            lab.story = lab.story._replace(before=(*lab.story.before, board.sent))
        do(change.act, told)
        told.where, mark = "waiting until the old epoch is empty", board.sent
        time.sleep(WAIT)
        traffic.until(lambda: board.low >= mark, 1 if lab.failure or words.in_place else 10)
        do(change.retirement, told)
    carry("packets of the last epoch")
    told.where = "the end of the traffic"
    return traffic.finish()


def report(lab, found, board, ends):
    """Prints the verdict, and answers the status."""
    for epoch in found.packets:
        print(f"packets {epoch} {found.packets[epoch]} hops {found.hops[epoch]}")
    if lab.words.down:
        print(f"over {found.over}")
    print(f"lost {found.lost}\nmixed {found.mixed}")
    print(f"tcp {ends[0]} {ends[1]} sent {board.written} read {board.read} again {board.again}")
    bad = found.lost or found.mixed or board.written != board.read
    print("differs" if bad else "ok")
    count = len(lab.network.nodes)
    for epoch, pairs in found.pairs.items():
        print(f"lab: epoch {epoch} carried {len(pairs)} of {count * (count - 1)} pairs", file=sys.stderr)
    return 1 if bad else 0


def judged(lab):
    """Builds a lab, changes its plan under traffic, and prints the verdict."""
    with Told() as told:
        do([lab.build, *lab.opening], told)
        pairs, path = pairs_of(lab), longest(lab)
        watching = watch if lab.words.plane == "nft" else lab.network.watch
        with Traffic(lab.network, pairs, (path[0], path[-1]), lab.words.rate, watching) as traffic:
            frames, arrivals, unseen = run_change(lab, traffic, told)
        if unseen:
            raise LabError(f"cannot judge: {unseen} frames were not seen")
        def tell(number):
            told.where = f"judging, {number} judged"

        if lab.story is None:
            print("lab: no script of the program can make these plans, so the packets are judged by their rows", file=sys.stderr)
        judge = Judge(lab.network.nodes, lab.plans, lab.words.in_place, tuple(lab.words.down or ()), lab.story, tell)
        found = judge.judge(traffic.board.sent, pairs, frames, arrivals)
    return report(lab, found, traffic.board, (path[0], path[-1]))


def by_hand(lab):
    """Builds a lab of the first epoch, and runs a command in it, with the scripts of the change at hand."""
    with Told() as told:
        do([lab.build, *lab.opening], told)
    folder = pathlib.Path(SCRIPTS)
    folder.mkdir()
    names = []
    for phase in [*lab.failure, *(it for change in lab.changes for it in [*change.act, *change.retirement])]:
        names.append(f"{phase.name}.sh")
        (folder / names[-1]).write_text("".join(script for _, script in phase.acts))
    spaces = ", ".join(map(lab.network.space, lab.network.nodes[:3]))
    print(f"lab: `ip netns exec NODE COMMAND`, NODE as {spaces}; the change: " + ", ".join(f"sh -e $LAB/{name}" for name in names), file=sys.stderr)
    done = subprocess.run(["sh", "-c", lab.words.run], env={**os.environ, "LAB": SCRIPTS}, check=False)
    print(f"run {done.returncode}\n" + ("ok" if done.returncode == 0 else "differs"))
    return 0 if done.returncode == 0 else 1


def refuse_words(words, parser):
    """Ends with status 2 where words don't go together."""
    if words.root and words.numbering:
        parser.error("--root cannot be used with --numbering: the first node of the file is the root")
    is_landmark = "landmark" in (words.kind, words.to)
    if is_landmark and ("tree" in (words.kind, words.to) or words.numbering):
        parser.error("kind landmark cannot be used with kind tree or --numbering: the landmarks number the nodes")
    if not is_landmark and (words.landmarks is not None or words.stretch is not None):
        parser.error("--landmarks and --stretch are only for kind landmark")
    if words.in_place and words.down:
        parser.error("--in-place cannot be used with --down")
    if words.down and words.changes != 1:
        parser.error("--down cannot be used with --changes: the second plan is for the network without the link")
    if not 1 <= words.changes <= MOST_CHANGES:
        parser.error(f"--changes must be from 1 to {MOST_CHANGES}")
    if words.print and words.run is not None:
        parser.error("--print cannot be used with --run")
    if not 1 <= words.rate <= 100_000:
        parser.error("--rate must be from 1 to 100000")
    if not 0 <= words.seconds <= 86_400:
        parser.error("--seconds must be from 0 to 86400")


def stop(number, _):
    raise SystemExit(128 + number)


def main(words, parser):
    """Does what the words ask for, and answers the status."""
    refuse_words(words, parser)
    signal.signal(signal.SIGTERM, stop)
    signal.signal(signal.SIGHUP, stop)
    try:
        lab = prepare(words)
        if words.print:
            print(printed(lab), end="")
            return 0
        probing = lab.network.probing() if words.plane != "nft" else {}
        return apart(lambda: by_hand(lab) if words.run is not None else judged(lab), **probing)
    except RouteError as fault:
        print(f"lab: {fault}", file=sys.stderr)
        return 2 if fault.status == 2 else 1
    except BentzoluError as fault:
        print(f"lab: {fault}", file=sys.stderr)
        return 1
