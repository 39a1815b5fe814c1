"""Sentences after the lines of faults: of scripts, traces and orders."""
from __future__ import annotations

import itertools
from typing import List, Tuple

from support.checks import count
from support.limits import CHANGES, INPUT_BYTES
from support.marks import built
from support.networks import filled
from support.route import NAMES, TEXTS, brief, call, expect, good_files, on_terminal, put, run
from support.saying import OK_SAID, explained_as, said_of

pytestmark = [built]


def script_mistakes() -> List[Tuple[str, str, str]]:
    """Lines of scripts over a ring of a, b, c and d, each with its fault and the sentence on it."""
    number = "is not a whole number from 0 to 65535 (at most five digits)"
    return [
        ("injekt a c", "BadCommand", "unknown command 'injekt' (did you mean 'inject'?)"),
        ("frobnicate", "BadCommand", "unknown command 'frobnicate'"),
        ("install fastest a", "BadCommand", "'fastest' is not a kind of plan: use tree, shortest, compact or landmark"),
        ("install tre a", "BadCommand", "'tre' is not a kind of plan: use tree, shortest, compact or landmark (did you mean 'tree'?)"),
        ("inject a # to c", "BadCommand", "'inject a' is not of the form 'inject A B'"),
        ("drain a", "BadCommand", "'drain a' is not of the form 'drain'"),
        ("down a", "BadCommand", "'down a' is not of the form 'down A B'"),
        ("avoid a", "BadCommand", "'avoid a' is not of the form 'avoid A B'"),
        ("heed a b c", "BadCommand", "'heed a b c' is not of the form 'heed A B'"),
        ("renumber tree", "BadCommand", "'renumber tree' is not of the form 'renumber KIND ROOT'"),
        ("up a b c", "BadCommand", "'up a b c' is not of the form 'up A B'"),
        ("install tree", "BadCommand", "'install tree' is not of the form 'install KIND ROOT'"),
        ("retire", "BadCommand", "'retire' is not of the form 'retire EPOCH'"),
        ("learn 1 2", "BadCommand", "'learn 1 2' is not of the form 'learn EPOCH'"),
        ("read a", "BadCommand", "'read a' is not of the form 'read NODE VERSION'"),
        ("act a b", "BadCommand", "'act a b' is not of the form 'act NODE'"),
        ("take a of b", "BadCommand", "'take a of b' is not of the form 'take NODE inbox' or 'take NODE from NEIGHBOUR'"),
        ("inject a z1", "UnknownNode", "no node 'z1' in said/ring (did you mean 'a1'?)"),
        ("inject nowhere a1", "UnknownNode", "no node 'nowhere' in said/ring"),
        ("install tree x", "UnknownNode", "no node 'x' in said/ring"),
        ("take a from x", "UnknownNode", "no node 'x' in said/ring"),
        ("down a c", "UnknownLink", "no link between 'a' and 'c'"),
        ("take a from c", "UnknownLink", "no link between 'a' and 'c'"),
        ("retire one", "BadNumber", f"'one' {number}"),
        ("read a 65536", "BadNumber", f"'65536' {number}"),
        ("inject a \u00e4", "BadByte", "byte 0xC3 in '\\xC3\\xA4': scripts must be printable ASCII"),
    ]


def refused_steps() -> List[Tuple[str, List[str], str, str]]:
    """Scripts over that ring of which the last line is refused, each with its words and the sentence on it."""
    return [
        ("inject a b\ninject a b", ["--packets", "1"], "TooManyPackets", "the run already has as many packets as --packets allows"),
        ("inject a b\ninject a b", ["--capacity", "1"], "InboxFull", "the inbox already holds as many packets as --capacity allows"),
        ("inject a b\ninject a b\ntake a inbox\ntake a inbox", [], "HandFull",
         "the node already holds a packet that it has not acted on"),
        ("take a inbox", [], "Empty", "no packet is waiting there"),
        ("act a", [], "HandEmpty", "the node holds no packet"),
        ("read a 9", [], "BadView", "the board has no such version, or the node has read a later one"),
        ("learn 9", [], "NoEpoch", "no epoch has this number"),
        ("up a b", [], "Same", "it changes nothing"),
        ("down a b\ndown c d\ninstall tree a", [], "Disconnected",
         "the links that are up do not connect all nodes"),
        ("avoid a b\ndown c d\ninstall tree a", [], "Disconnected",
         "the links that are up and not avoided do not connect all nodes"),
        ("down a b\navoid a b", [], "LinkDown", "the link is down"),
        ("heed a b", [], "Same", "it changes nothing"),
        ("install tree a\n" * 64, [], "EpochsFull", "all 64 epochs are used"),
    ]


def found_rows() -> List[Tuple[str, int, str, str]]:
    """Traces of a packet from a to c over that ring, each with its finding and the sentence on it."""
    good = "0 1 a c 2 delivered a b c"
    return [
        ("trash\n", 1, "NotTrace", "'trash': a trace must begin with the line 'trace 1' or 'trace 2'"),
        (f"trace 1\n{good}", 2, "BadRow", f"'{good}': this is not a row of a trace, or it does not end in a line feed"),
        ("trace 1\n0 1 a x 2 delivered a b c\n", 2, "UnknownNode", "'0 1 a x 2 delivered a b c': no node 'x' in said/ring"),
        ("trace 1\n0 1 a c 2 delivered a x c\n", 2, "UnknownNode",
         "'0 1 a c 2 delivered a x c': a hop is not a node, or has no link from the hop before it"),
        ("trace 1\n0 7 a c 2 delivered a b c\n", 2, "UnknownEpoch",
         "'0 7 a c 2 delivered a b c': the run has no epoch '7'"),
        ("trace 1\n0 1 a c 2 delivered a d c\n", 2, "NotAPrefix",
         "'0 1 a c 2 delivered a d c': node 2 of the hops in epoch 1 is 'd', but the plan of epoch 1 forwards from 'a' to 'b'"),
        ("trace 1\n0 1 a c 1 delivered a b\n", 2, "NotAtDestination",
         "'0 1 a c 1 delivered a b': the fate is 'delivered', but the path continues after the last hop"),
        ("trace 1\n0 1 a c 3 delivered a b c\n", 2, "BadWeight", "'0 1 a c 3 delivered a b c': '3' is not the weight of the hops"),
        (f"trace 1\n{good}\n{good}\n", 3, "Repeated", f"'{good}': id '0' is already used on line 2"),
        ("trace 2\n0 x c 2 delivered #1 a b c\n", 2, "UnknownNode", "'0 x c 2 delivered #1 a b c': no node 'x' in said/ring"),
        ("trace 2\n0 a x 2 delivered #1 a b c\n", 2, "UnknownNode", "'0 a x 2 delivered #1 a b c': no node 'x' in said/ring"),
        ("trace 2\n0 a c 2 delivered #1 a b x\n", 2, "UnknownNode",
         "'0 a c 2 delivered #1 a b x': a hop is not a node, or has no link from the hop before it"),
        ("trace 2\n0 a c 2 delivered #1 a b #7 b c\n", 2, "UnknownEpoch",
         "'0 a c 2 delivered #1 a b #7 b c': the run does not have all epochs of this row"),
        ("trace 2\n0 a c 3 delivered #1 a b c\n", 2, "BadWeight", "'0 a c 3 delivered #1 a b c': '3' is not the weight of the hops"),
    ]


def left_rows() -> List[Tuple[int, str, str]]:
    """Rows that leave the walks of tree plans over that ring, each with the trace's version and the sentence on where. The
    plan of epoch 1 goes over a b c d, that of epoch 2, from the root c, over c b a d."""
    end = "the destination"
    return [
        (1, "0 1 a c 2 left a d c", "node 2 of the hops in epoch 1 is 'd', but the plan of epoch 1 forwards from 'a' to 'b'"),
        (1, "0 1 a d 2 left a b a", "node 3 of the hops in epoch 1 is 'a', but the plan of epoch 1 forwards from 'b' to 'c'"),
        (1, "0 1 a c 3 left a b c d", f"node 4 of the hops in epoch 1 is 'd': they continue after 'c', {end}"),
        (1, "0 1 a c 1 left b c", "the hops in epoch 1 begin at 'b', but the packet was at 'a'"),
        (1, "0 1 a c 1 down c d a b", "the plan of epoch 1 forwards from 'b' to 'c', but the fate says otherwise"),
        (1, "0 1 a c 1 full b a a b", "the plan of epoch 1 forwards from 'b' to 'c', but the fate says otherwise"),
        (1, "0 1 a c 2 full c d a b c", f"'c' is {end}: no plan forwards from there"),
        (2, "0 a d 3 left #1 a b #2 b c d", "node 2 of the hops in epoch 2 is 'c', but the plan of epoch 2 forwards from 'b' to 'a'"),
        (2, "0 a d 3 left #1 a d #2 d", "node 2 of the hops in epoch 1 is 'd', but the plan of epoch 1 forwards from 'a' to 'b'"),
        (2, "0 a d 4 left #1 a b #2 b a d c", f"node 4 of the hops in epoch 2 is 'c': they continue after 'd', {end}"),
        (2, "0 a c 1 left #1 a b #2 c", "the hops in epoch 2 begin at 'c', but the packet was at 'b'"),
        (2, "0 a c 2 left #2 a b #1 b c", "epoch 1 comes after epoch 2: epochs must rise"),
        (2, "0 a c 2 left #1 a b #1 b c", "epoch 1 comes after epoch 1: epochs must rise"),
        (2, "0 a d 1 down b c #1 a b #2 b", "the plan of epoch 2 forwards from 'b' to 'a', but the fate says otherwise"),
    ]


def test_explained_left() -> None:
    """Where rows leave the walks of their epochs, from three files and from one input, on the second line and on later ones."""
    edges, steps = "a b\nb c\nc d\nd a\n", "inject a c\ninstall tree c\ndrain\n"
    ring, script = put("said/ring", edges), put("said/steps", steps)
    words_ = ["check", "--kind", "tree", ring, script]
    for (version, row, sentence), before in itertools.product(left_rows(), (0, 1, 38)):
        good = "".join(f"{1000 + i} {'a b 1 delivered #1 a b' if version == 2 else '1 a b 1 delivered a b'}\n" for i in range(before))
        text, line = f"trace {version}\n{good}{row}\n", before + 2
        trace = put("said/trace", text)
        found = f"finding {line} NotAPrefix\n".encode()
        if before:
            got = run([*words_[:1], "--explain", *words_[1:], trace])
            expect(f"left on line {line}, {row}", got, found, f"route: {trace}:{line}: '{row}': {sentence}\n".encode(), 1)
            continue
        explained_as(f"left, {row}", [*words_, trace], "", f"{trace}:2: '{row}': {sentence}", found)
        data = f"{edges}%%\n{steps}%%\n{text}".encode()
        explained_as(f"left, {row}, from -", ["check", "--kind", "tree", "-"], "", f"standard input:11: '{row}': {sentence}", found,
                     data=data)


def test_explained_far() -> None:
    """Faults on lines far down, and names far down: the line that is quoted is that of the fault, and of names the first 1,024 are
    compared, which two edits may turn into one that is none."""
    ring, steps = put("said/ring", "a b\nb c\nc d\nd a\n"), put("said/steps", "inject a c\ndrain\n")
    for line in (10, 1_500, 70_000):
        rows = "".join(f"{1000 + i} 1 a b 1 delivered a b\n" for i in range(line - 2))
        for row, kind, sentence in (("7 1 a c 3 delivered a b c", "BadWeight", "'3' is not the weight of the hops"),
                                    ("7 9 a c 2 delivered a b c", "UnknownEpoch", "the run has no epoch '9'")):
            trace = put("said/trace", f"trace 1\n{rows}{row}\n")
            expect(f"{kind} on line {line}", run(["check", "--explain", ring, steps, trace]), f"finding {line} {kind}\n".encode(),
                   f"route: {trace}:{line}: '{row}': {sentence}\n".encode(), 1)
        above = "".join(f"# line {i}\n" for i in range(1, line))
        script, mistaken = put("said/script", f"{above}frob {line}\n"), put("said/far.edgelist", f"{above}a b far\n")
        expect(f"a script's line {line}", run(["sim", "--explain", ring, script]), b"",
               f"script {line} BadCommand\nroute: {script}:{line}: unknown command 'frob'\n".encode(), 1)
        expect(f"a topology's line {line}", run(["plan", "--explain", mistaken]), b"", (f"topology {line} BadWeight\nroute: {mistaken}:"
               f"{line}: 'far' is not a weight: use a whole number from 1 to 65535\n").encode(), 1)
    for place, word, near in ((1_024, "lost-one", "last-one"), (1_024, "lost-ane", "last-one"), (1_024, "lost-and", None),
                              (1_025, "lost-one", None)):
        names = [*(f"n{i:05}" for i in range(place - 1)), "last-one"]
        net = put("said/names", "".join(f"{u} {v}\n" for u, v in zip(names, names[1:])))
        hint = f" (did you mean '{near}'?)" if near else ""
        told = f"opening NoNode\nroute: --root: no node '{word}' in {net}{hint}\n".encode()
        expect(f"{word} beside the name at place {place}", run(["plan", "--explain", "--root", word, net]), b"", told, 1)
    for lines, note in ((1_024, True), (1_025, False)):
        net = put("said/arrow", "".join(f"n{i}\n" for i in range(lines - 1)) + "a -> b\n")
        said = run(["plan", "--explain", net])[1]
        count(f"an arrow on line {lines}", None if (b"'->' is read as a node name" in said) == note else brief(said))


def test_explained_unlearnt() -> None:
    """A packet of a simulation after an install that was not learnt: in lines that refused nothing, and after refused ones, from
    two files and from one input; none after `learn`, in a live run, nor where the script was not played."""
    ring, said = put("said/ring", "a b\nb c\nc d\nd a\n"), ("no 'learn' comes between this inject and the install above it: sim stamps a packet with "
        "the greatest epoch that was learnt (live learns each install by itself)")
    old = "inject a c\ninstall shortest a\ninject a c # old\ndrain\n"
    script = put("said/script", old)
    output = run(["sim", ring, script])[0]
    explained_as("an install not learnt", ["sim", ring, script], "", f"{script}:3: {said}", output, status=0)
    data = f"a b\nb c\nc d\nd a\n%%\n{old}".encode()
    explained_as("an install not learnt, from -", ["sim", "-"], "", f"standard input:8: {said}", output, status=0, data=data)
    script = put("said/script", "up a b\n" + old)
    got = run(["sim", "--explain", ring, script])
    expect("an install not learnt behind a refused line", got, output, (f"refused 1 Same\nroute: {script}:1: 'up a b' was refused: it changes "
           f"nothing\nroute: {script}:4: {said}\n").encode(), 0)
    head, tail = "install shortest a\n", "inject a c\n"
    whole = filled(head, INPUT_BYTES - len(tail) - 1) + f"\n{tail}".encode()
    script, line = put("said/script", whole), whole.count(b"\n")
    got = run(["sim", "--explain", ring, script])
    expect("an install not learnt above as many bytes as are read", got, run(["sim", ring, script])[0], f"route: {script}:{line}: {said}\n".encode(), 0)
    for name, text, sub, told in (("learnt", "install tree a\nlearn 2\ninject a c\n", "sim", b""), ("no packet", "inject a b\ninstall tree a\n", "sim", b""),
                                  ("live", old, "live", b""), ("not played", old + "lern\n", "sim", b"script 5 BadCommand\n")):
        script = put("said/script", text)
        faults = run([sub, "--explain", ring, script])[1]
        count(f"no install is told of, {name}", None if said.encode() not in faults and faults.startswith(told) else brief(faults))


def test_explained_scripts() -> None:
    """Scripts, orders and traces."""
    ring = put("said/ring", "a b\nb c\nc d\nd a\na a1\n")
    for line, kind, sentence in script_mistakes():
        script = put("said/script", f"# first\n{line}\n")
        explained_as(line, ["sim", ring, script], f"script 2 {kind}", f"{script}:2: {sentence}")
        data = b"a b\nb c\nc d\nd a\na a1\n%%\n" + line.encode() + b"\n"
        sentence = sentence.replace(ring, "standard input")
        explained_as(f"{line}, from -", ["sim", "-"], f"script 1 {kind}", f"standard input:7: {sentence}", data=data)
    script = put("said/script", "act a\n")
    explained_as("a line of sim alone", ["live", ring, script], "script 1 BadCommand",
                 f"{script}:1: 'act' is a command of 'sim' only")
    put("said/script", "lern 1\n")
    explained_as("no command of live", ["live", ring, script], "script 1 BadCommand", f"{script}:1: unknown command 'lern'")
    for text, words_, kind, sentence in refused_steps():
        script = put("said/script", f"{text}\n".replace("\n\n", "\n"))
        lines = text.strip().split("\n")
        told = f"refused {len(lines)} {kind}"
        output = run(["sim", *words_, ring, script])[0]
        explained_step(f"refused, {kind}", ["sim", *words_, ring, script], told,
                       f"{script}:{len(lines)}: '{lines[-1]}' was refused: {sentence}", output)
    put("said/script", "up a b\n" * 66)
    many = "".join(f"refused {i + 1} Same\n" for i in range(66))
    said = "".join(f"route: said/script:{i + 1}: 'up a b' was refused: it changes nothing\n" for i in range(64))
    got = run(["sim", "--explain", ring, "said/script"])
    expect("many refused steps", got, b"trace 1\n", (many + said + "route: further lines are not explained\n").encode(), 0)
    for text, line, sentence in (  # type: ignore[assignment]
        ("a\n\xe4\n".encode("latin-1"), "2 BadByte", ":2: byte 0xE4 in '\\xE4': names must be printable ASCII"),
        ("a\nb c\n", "2 BadRow", ":2: two words; a line of a numbering is the name of one node"),
        ("a\na2\n", "2 UnknownNode", f":2: no node 'a2' in {ring} (did you mean 'a'?)"),
        ("a\nb\n\na\n", "4 Twice", ":4: 'a' is already on line 1"),
        ("a\nb\nd\na1\n", "4 Missing", ": 'c' is missing: each of the 5 nodes needs a line"),
    ):
        order = put("said/order", text)
        explained_as(f"an order, {line}", ["plan", "--numbering", order, ring], f"numbering {line}", f"{order}{sentence}")


def test_explained_changes() -> None:
    """A script with one change more than a board takes."""
    ring = put("said/ring", "a b\nb c\nc d\nd a\n")
    changes = [("down a b", "up a b")[i % 2] for i in range(CHANGES + 1)]
    script = put("said/changes", "".join(f"{line}\n" for line in changes))
    told = (f"refused {CHANGES + 1} TooManyChanges\nroute: {script}:{CHANGES + 1}: '{changes[-1]}' was refused: the board takes at most "
            f"{CHANGES} changes\n")
    expect("a change too many, explained", run(["sim", "--explain", ring, script]), b"trace 1\n", told.encode(), 0)


def test_explained_beside() -> None:
    """What is found of rows beside their script, and what is said where nothing is found."""
    ring, trace = put("said/ring", "a b\nb c\nc d\nd a\n"), "said/trace"
    for steps, row, kind, sentence in (
        ("inject a c\n", "0 1 a b 0 left a", "NeverInjected", "no inject in said/steps can be this packet's, given the rows before it"),
        ("inject a c\ninstall tree a\n", "0 2 a c 0 left a", "NotYetInstalled",
         "the installs before its inject in said/steps cannot have made its first epoch"),
        ("inject a c\n", "0 1 a c 0 down a b a", "NeverDown", "no line of said/steps takes that link down"),
        ("inject a c\n", "0 1 a c 0 retired a", "NeverRetired", "no line of said/steps retires its epoch"),
        ("inject a c\n", "0 1 a c 0 full a b a", "NeverFull", "that channel can never have held --capacity (16) packets"),
    ):
        script = put("said/steps", steps)
        put(trace, f"trace 1\n{row}\n")
        explained_as(kind, ["check", "--whole", ring, script, trace], "", f"{trace}:2: '{row}': {sentence}", f"finding 2 {kind}\n".encode())
        explained_as(f"{kind}, not asked for", ["check", ring, script, trace], "", OK_SAID.format(trace), b"ok 1\n", 0)
    script = put("said/steps", "inject a c\n")
    put(trace, "trace 1\n0 1 a c 0 left a\n")
    explained_as("nothing beside the script", ["check", "--whole", ring, script, trace], "",
                 f"{trace}: the script allows every row's inject, epoch and cause of drop; missing rows are not checked", b"ok 1\n", 0)


def explained_step(name: str, words_: List[str], line: str, sentence: str, output: bytes) -> None:
    """A step that is refused beside a trace, with and without sentences; the status is 0."""
    told = line.encode() + b"\n"
    expect(f"{name}, not explained", run(words_), output, told, 0)
    said = f"route: {sentence}\n".encode()
    expect(f"{name}, explained", run([words_[0], "--explain", *words_[1:]]), output, told + said, 0)
    expect(f"{name}, on a terminal", on_terminal(words_), output, told + said, 0)
    expect(f"{name}, on a terminal, --no-explain", on_terminal([words_[0], "--no-explain", *words_[1:]]), output, told, 0)


def test_explained() -> None:
    """Faults with --explain: the lines and the status stay, and sentences follow them."""
    ring = put("said/ring", "a b\nb c\nc d\nd a\n")
    script = put("said/steps", "inject a c\ndrain\n")
    for text, line, kind, sentence in found_rows():
        trace = put("said/trace", text)
        explained_as(f"finding {kind}", ["check", ring, script, trace], "", f"{trace}:{line}: {sentence}",
                     f"finding {line} {kind}\n".encode())
    good = "0 1 a c 2 delivered a b c"
    data = f"a b\nb c\nc d\nd a\n%%\ninject a c\ndrain\n%%\ntrace 1\n1 1 a b 1 delivered a b\n{good}\n{good}\n".encode()
    explained_as("finding Repeated, from -", ["check", "-"], "", f"standard input:12: '{good}': id '0' is already used on line 11",
                 b"finding 4 Repeated\n", data=data)
    trace = put("said/trace", "trace 1\n7 1 a c 3 delivered a b c\n")
    expect("a finding as JSON", run(["check", "--json", "--explain", ring, script, trace]), b'{"line":2,"finding":"BadWeight"}\n',
           f"route: {trace}:2: '7 1 a c 3 delivered a b c': '3' is not the weight of the hops\n".encode(), 1)
    put("said/trace", "trace 1\n7 1 a c 2 delivered a b c\n")
    expect("no finding as JSON", run(["check", "--json", "--explain", ring, script, trace]), b'{"ok":1}\n',
           f"route: {OK_SAID.format(trace)}\n".encode(), 0)
    for sub, parts in TEXTS.items():
        good_files()
        files = [f"good/{name}" for name in NAMES[:parts]]
        expect(f"{sub}, nothing to explain", run(call(sub, files, "--explain")), run(call(sub, files))[0], said_of(sub, files), 0)
