"""Kind landmark: its words, what refuses them, and worked plans."""
from __future__ import annotations

import itertools
import os
import re
from typing import List

from support.book import ByTheBook
from support.checks import count
from support.marks import built
from support.places import TOP
from support.route import brief, expect, put, run

pytestmark = [built]

TRIANGLE = b"a b c\nb c\n"
PATH = b"a b\nb c\nc d\nd e\ne f\nf g\n"


def test_landmarks() -> None:
    """Worked plans, each by its definition: a triangle by one landmark, a path by as many as there are nodes."""
    words = ["plan", "--kind", "landmark"]
    rows = b"plan landmark 3 4\na 0 1 b 2 c\nb 1 2 a\nc 2 0 a\n"
    for more in ([], ["--stretch", "300"], ["--landmarks", "1"], ["--landmarks", "1", "--stretch", "300"], ["--root", "a"], ["-n", "depth-first"]):
        expect(f"a triangle, {more}", run([*words, *more, "-"], TRIANGLE), rows, b"", 0)  # type: ignore[misc]
    walk = b"walk landmark b c 2 2\nb 1 2 2 a 1\na 0 2 1 c 1\nc 2\n"
    expect("a walk by the landmark", run(["walk", "--kind", "landmark", "--from", "b", "--to", "c", "-"], TRIANGLE), walk, b"", 0)
    for more in (["--stretch", "100"], ["--landmarks", "3"], ["--landmarks", "65535", "--stretch", "100"]):
        got, faults, status = run(["walk", "--kind", "landmark", *more, "--from", "b", "--to", "c", "-"], TRIANGLE)
        expect(f"the distance alone, {more}", (got.split(b"\n")[0], faults, status), b"walk landmark b c " + got.split()[4] + b" 1", b"", 0)
    expect("one node", run([*words, "-"], b"a\n"), b"plan landmark 1 0\na 0\n", b"", 0)
    expect("two nodes", run([*words, "-"], b"a b\n"), b"plan landmark 2 2\na 0 1 b\nb 1 0 a\n", b"", 0)
    expect("no node", run([*words, "-"], b""), b"", b"opening Empty\n", 1)
    expect("not connected", run([*words, "-"], b"a b\nc d\n"), b"", b"opening Disconnected\n", 1)


def test_landmarks_told() -> None:
    """The figures have the landmarks and the stretch after the others, for this kind alone."""
    for more, told in (([], b"landmarks c b\nstretch 300\n"), (["--landmarks", "1", "--stretch", "200"], b"landmarks c\nstretch 200\n"),
                       (["--landmarks", "7"], b"landmarks c b d e f a g\nstretch 300\n")):
        got = run(["stats", "--kind", "landmark", "--root", "c", *more, "-"], PATH)  # type: ignore[misc]
        expect(f"the figures of a path, {more}", (got[0][-len(told):], *got[1:]), told, b"", 0)
    got = run(["stats", "--json", "--kind", "landmark", "--root", "c", "-"], PATH)
    expect("as JSON", (got[0][got[0].find(b'"landmarks"'):], *got[1:]), b'"landmarks":{"nodes":["c","b"]},\n"stretch":300\n}\n', b"", 0)
    for kind in ("tree", "shortest", "compact"):
        got, faults, status = run(["stats", "--kind", kind, "--with", "landmark", "--stretch", "150", "-"], PATH)  # type: ignore[assignment]
        expect(f"no landmarks of {kind}", (got[got.find(b"landmarks"):][:1], faults, status), b"\n", b"", 0)  # type: ignore[arg-type, attr-defined]


def blocks_by_the_book(text: str, landmarks: list[str]) -> dict[str, str]:
    """The landmark of each node: the nearest, of several as near the one that is named first in the text."""
    book = ByTheBook(text)
    away = {landmark: book.distances(landmark) for landmark in landmarks}
    return {node: min(landmarks, key=lambda landmark: (away[landmark][node], book.names.index(landmark))) for node in book.names}


def test_landmarks_drawn() -> None:
    """A drawing has a box for each landmark and one colour for each block, by the definitions; of another kind neither."""
    with open(os.path.join(TOP, "examples/nsfnet.edgelist")) as file:
        nsfnet = file.read()
    nets = {"nsfnet": nsfnet, "path": "a b 1\nb c 1\nc d 1\nd e 1\ne f 1\nf g 1\n", "pair": "a b 1\n"}
    counts: List[List[str]] = [[], ["--landmarks", "1"], ["--landmarks", "4"], ["--landmarks", "9"]]
    for (name, text), more in itertools.product(nets.items(), counts):
        words = ["--format", "edgelist", "--kind", "landmark", *more, put(f"landmarks/{name}", text)]
        figures = run(["stats", *words])[0].decode().splitlines()
        landmarks = next(line.split()[1:] for line in figures if line.startswith("landmarks "))
        blocks, colours = blocks_by_the_book(text, landmarks), {}
        for line in run(["draw", *words])[0].decode().splitlines():
            found = re.fullmatch(r'  "(.+)" \[label="(.+) \d+"(, shape=box)?, style=filled, fillcolor="/set312/(\d+)"\];', line)
            if found:
                count(f"{name} {more}, the shape of {found[1]}", None if bool(found[3]) == (found[1] in landmarks) else line)
                colours[found[1]] = int(found[4])
        is_right = len(colours) == len(blocks) and all(1 <= colour <= 12 for colour in colours.values())
        count(f"{name} {more}, each node has a colour", None if is_right else f"{colours}")
        for u, v in itertools.combinations(colours, 2):
            is_alike = (colours[u] == colours[v]) == (blocks[u] == blocks[v])
            count(f"{name} {more}, the colours of {u} and {v}", None if is_alike else f"{colours}")
    for kind in ("tree", "shortest", "compact"):
        got = run(["draw", "--format", "edgelist", "--kind", kind, put("landmarks/pair", nets["pair"])])
        count(f"no marks of {kind}", None if b"set312" not in got[0] and b"shape" not in got[0] else brief(got[0]))


def test_landmarks_words() -> None:
    """What refuses the words, by name."""
    other = "'--landmarks' and '--stretch' require '--kind landmark'"
    order = "'--kind landmark' cannot be used with '--numbering': its landmarks number the nodes"
    for sub in ("plan", "stats", "prefixes", "ranges", "draw", "walk"):
        ends = ["--from", "a", "--to", "b"] if sub == "walk" else []
        said = f"error: {other}\n\nFor more information, try '--help'.\n".encode()
        expect(f"refused: {sub}", run([sub, *ends, "--kind", "compact", "--stretch", "200", "-"], TRIANGLE), b"", said, 2)
    for words, told in ((["--landmarks", "2"], other), (["--stretch", "200"], other), (["--kind", "tree", "--stretch", "300"], other),
                        (["--kind", "landmark", "--numbering", "tour"], order), (["--kind", "landmark", "--numbering", "file"], order)):
        said = f"error: {told}\n\nFor more information, try '--help'.\n".encode()
        expect(f"refused: {words}", run(["plan", *words, "-"], TRIANGLE), b"", said, 2)
    for option, word, least, most in (("--landmarks", "0", 1, 65_535), ("--landmarks", "65536", 1, 65_535), ("--stretch", "99", 100, 300), ("--stretch", "301", 100, 300)):
        got = run(["plan", "--kind", "landmark", option, word, "-"], TRIANGLE)
        wanted = f"{word} is not in {least}..={most}".encode()
        expect(f"refused: {option} {word}", (got[0], wanted if wanted in got[1] else got[1], got[2]), b"", wanted, 2)


def test_landmarks_installed() -> None:
    """An install takes the landmarks and the stretch of the run, with each kind of its first plan."""
    net, script = put("landmarks/net", PATH.decode()), put("landmarks/script", "inject a g\ninstall landmark d\nlearn 2\ninject g a\ndrain\n")
    wanted = b"trace 1\n0 1 a g 6 delivered a b c d e f g\n1 2 g a 6 delivered g f e d c b a\n"
    for words in ([], ["--kind", "landmark"], ["--landmarks", "2"], ["--kind", "tree", "--stretch", "150"], ["-n", "tour"]):
        expect(f"a run, {words}", run(["sim", *words, net, script]), wanted, b"", 0)  # type: ignore[misc]
        trace = put("landmarks/trace", wanted.decode())
        expect(f"its check, {words}", run(["check", "--whole", *words, net, script, trace]), b"ok 2\n", b"", 0)  # type: ignore[misc]
    expect("a kind that is none", run(["sim", "-"], PATH + b"%%\ninstall landmarks a\n"), b"", b"script 1 BadCommand\n", 1)
    parted = PATH + b"%%\ndown c d\ninstall landmark a\nup c d\ninstall landmark a\ninject a g\ndrain\n"
    wanted = b"trace 1\n0 1 a g 6 delivered a b c d e f g\n"
    for sub in ("sim", "live"):
        got = run([sub, "-"], parted)
        told = wanted if sub == "sim" else wanted.replace(b"0 1 a", b"0 2 a")
        expect(f"an install over links that do not connect, {sub}", got, told, b"refused 2 Disconnected\n", 0)
