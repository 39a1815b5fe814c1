"""Sentences after the lines of faults: of inputs and topologies, and notes on other formats."""
from __future__ import annotations

import os
from typing import List, Tuple, Union

from support.checks import count
from support.limits import GRAPH_EDGES, GRAPH_NODES, INPUT_BYTES, NET_LINKS, NET_NODES, TABLE_LABELS
from support.marks import built
from support.networks import row_of
from support.places import work
from support.route import SOME, as_nobody, brief, call, expect, good_files, put, run
from support.saying import explained_as

pytestmark = [built]


def topology_mistakes() -> List[Tuple[str, Union[str, bytes], str, str]]:
    """Texts of topologies, each with its file, its fault and the sentences on it."""
    form = "a line of an edge list is NODE NODE WEIGHT"
    hint = "(is it an adjacency list? try --format adjlist)"
    braces = "(attributes in braces are not supported: NetworkX's write_weighted_edgelist writes none)"
    none = "is not a weight: use a whole number from 1 to 65535"
    strange = "names must be printable ASCII"
    return [
        ("t.edgelist", "a b 1\nb c 2\nHouston Dallas Lincoln\n", "3 BadWeight", f":3: 'Lincoln' {none}"),
        ("t.edgelist", "a b -3\n", "1 BadWeight", f":1: '-3' {none}"),
        ("t.edgelist", "a b 2.5 # far\n", "1 BadWeight", f":1: '2.5' {none}"),
        ("t.edgelist", "a b 65536\n", "1 BadWeight", f":1: '65536' {none}"),
        ("t.edgelist", "a b\n", "1 BadRow", f":1: two words; {form} {hint}"),
        ("t.wel", "# by hand\na b c d\n", "2 BadRow", f":2: 4 words; {form} {hint}"),
        ("t.edgelist", "a b {'weight': 3}\n", "1 BadRow", f":1: 4 words; {form} {braces}"),
        ("t.adjlist", "a b\nb Z\u00fcrich\n", "2 BadByte", f":2: byte 0xC3 in 'Z\\xC3\\xBCrich': {strange}"),
        ("t.adjlist", "\ufeffa b\n", "1 BadByte", ":1: the text begins with a byte order mark: save it without one"),
        ("t.adjlist", "a b\n".encode("utf-16"), "1 BadByte", ":1: this looks like UTF-16: save the text as ASCII"),
        ("t.adjlist", "a b\n".encode("utf-16-le"), "1 BadByte", ":1: this looks like UTF-16: save the text as ASCII"),
        ("t.adjlist", "a " + "b" * 65 + "\n", "1 BadName", ":1: a name has 65 bytes; the limit is 64"),
        ("t.adjlist", "".join(f"n{i}\n" for i in range(GRAPH_NODES + 1)), f"{GRAPH_NODES + 1} TooManyNodes",
         f":{GRAPH_NODES + 1}: too many nodes: a topology has at most {GRAPH_NODES}"),
        ("t.edgelist", "a b " + "9" * 65 + "\n", "1 BadWeight", f":1: '{'9' * 64}'.. {none}"),
    ]


def test_explained_inputs() -> None:
    """Inputs that can't be read, and topologies over which nothing is opened."""
    good_files()
    os.makedirs(work("said/folder"), exist_ok=True)
    for sub, files, which in (("plan", ["said/none"], "topology"), ("sim", ["good/topology", "said/none"], "script"),
                              ("check", ["good/topology", "good/script", "said/none"], "trace")):
        explained_as(f"{which} missing", call(sub, files), f"{which} unreadable", "said/none: no such file")
    explained_as("a numbering missing", ["plan", "--numbering", "said/none", "good/topology"], "numbering unreadable",
                 "said/none: no such file")
    explained_as("a folder", ["plan", "said/folder"], "topology unreadable", "said/folder: is a directory")
    memory = "/proc/self/mem"  # whose first byte Linux refuses to read
    if os.path.exists(memory):
        explained_as("a file that is refused as it is read", ["plan", memory], "topology unreadable", f"{memory}: could not be read")
    locked = put("said/locked", "a b\n")
    os.chmod(work(locked), 0)
    more = as_nobody()
    if more is not None:
        explained_as("a locked file", ["plan", locked], "topology unreadable", f"{locked}: permission denied", **more)
    large = put("said/large", b"#" * (INPUT_BYTES + 1))
    explained_as("a large file", ["plan", large], "topology too large", f"{large}: larger than {INPUT_BYTES} bytes, the limit of an input")
    ring = put("said/ring", "a b\nb c\nc d\nd a\n")
    for option, words_ in (("--root", ["plan"]), ("--from", ["walk", "--to", "a"]), ("--to", ["walk", "--from", "a"])):
        explained_as(f"{option} unknown", [*words_, option, "e1", ring], "opening NoNode",
                     f"{option}: no node 'e1' in {ring}")
    explained_as("--with unknown", ["stats", "--root", "a", "--with", "tree,e1", ring], "opening NoNode", f"--with: no node 'e1' in {ring}")
    explained_as("--root unknown, and so by --with", ["stats", "--root", "e1", "--with", "tree", ring], "opening NoNode",
                 f"--root: no node 'e1' in {ring}")
    near = put("said/near", "Houston Dallas\n")
    explained_as("a name with a slip", ["plan", "--root", "Huston", near], "opening NoNode",
                 f"--root: no node 'Huston' in {near} (did you mean 'Houston'?)")
    explained_as("no node to be drawn", ["draw", "--node", "Huston", near], "opening NoNode",
                 f"--node: no node 'Huston' in {near} (did you mean 'Houston'?)")
    for text, why in (("", "the text is empty"), ("# none\n\n", "each line is blank or a comment")):
        empty = put("said/empty", text)
        explained_as(f"a topology with {why}", ["plan", empty], "opening Empty", f"{empty}: no nodes: {why}")
    short = put("said/short.edgelist", "a\n")
    explained_as("an edge list of one word", ["plan", short], "opening Empty", f"{short}: no nodes: no line names two nodes")
    apart = put("said/apart", "a b\nc d e\nf\n")
    explained_as("parts", ["plan", apart], "opening Disconnected", f"{apart}: 'a' has no path to 'c': the network has 3 parts, the largest of 3 nodes")
    explained_as("parts from a root", ["plan", "--root", "f", apart], "opening Disconnected",
                 f"{apart}: 'f' has no path to 'a': the network has 3 parts, the largest of 3 nodes")
    drain = put("said/drain", "drain\n")
    for sub in ("sim", "live"):
        many = put("said/many", "".join(f"n{i} n{i + 1}\n" for i in range(NET_NODES)))
        explained_as(f"{sub} of many nodes", [sub, many, drain], "opening TooLarge",
                     f"{many}: {NET_NODES + 1} nodes; networks where packets travel have at most {NET_NODES}")
        links = [f"n{u} n{v}\n" for u in range(140) for v in range(u)][: NET_LINKS + 1]
        dense = put("said/dense", "".join(links))
        explained_as(f"{sub} of many links", [sub, dense, drain], "opening TooLarge",
                     f"{dense}: {NET_LINKS + 1} links; networks where packets travel have at most {NET_LINKS}")
    wide = put("said/wide", row_of(TABLE_LABELS + 1)[1])
    explained_as("a table in lines of many labels", ["xdp", "table", "1", "--node", "b", wide], "opening TooLarge",
                 f"{wide}: {TABLE_LABELS + 1} nodes; a table in lines has at most {TABLE_LABELS} labels")
    with open("/dev/full", "wb") as full:
        expect("an output that is full, explained", run(["plan", "--explain", ring], stdout=full), b"",
               b"output unwritable\nroute: standard output: could not be written\n", 1)


def test_explained_notes() -> None:
    """Topologies of other formats: what is read of them stays, and a note follows it."""
    convert = "python3 -m bentzolu convert"
    for name, text, form, word in (
        ("x.gml", "graph [\n  node [\n    id 0\n  ]\n]\n", "GML", ""),
        ("x.graphml", "<?xml version='1.0'?>\n<graphml>\n</graphml>\n", "GraphML", ""),
        ("x.gexf", "<?xml version='1.0'?>\n<gexf>\n</gexf>\n", "GEXF", ""),
        ("x.json", '{"nodes": []}\n', "JSON", ""),
        ("x.mtx", "%%MatrixMarket matrix\n2 2 1\n1 2 3\n", "MatrixMarket", ""),
        ("x.txt", "?SNDlib native format\nNODES (\n)\n", "SNDlib", ""),
        ("x.net", "*Vertices 2\n1 a\n2 b\n*Edges\n1 2\n", "Pajek", ""),
        ("y.net", "*vertices 2\n1 a\n2 b\n*edges\n1 2\n", "Pajek", ""),
        ("x.g6", ">>graph6<<A_\n", "graph6", ""),
        ("x.s6", ">>sparse6<<:An\n", "graph6", ""),
        ("x.dot", "graph { a -- b }\n", "DOT", ""),
        ("y.dot", "digraph { a -> b }\n", "DOT", ""),
        ("z.dot", "strict graph { a -- b }\n", "DOT", ""),
        ("x.xml", "<?xml version='1.0'?>\n<networkStructure>\n</networkStructure>\n", "SNDlib", ""),
        ("x.csv", "source,target,weight\na,b,3\nb,c,4\n", "CSV", " --from csv"),
        ("grid.adjlist", "(0, 0) (0, 1) (1, 0)\n(0, 1) (1, 1)\n", "a list of tuples that are split at spaces", " --from adjlist"),
        ("y.adjlist", "a b {'weight':3}\nb c {}\n", "an edge list with attributes in braces", " --from edgelist"),
        ("m.adjlist", "a 2\nb {}\nc {}\nb 0\nc 0\n", "a multiline adjacency list", " --from multiline"),
    ):
        file = put(f"said/{name}", text)
        output, faults, status = run(["plan", file])
        note = f"this looks like {form}; '{convert} {file}{word}' makes an edge list of it"
        said = f"route: {file}: {note}{read_of(text, faults)}\n".encode()
        expect(f"a note on {name}", run(["plan", "--explain", file]), output, SOME, status)
        told = run(["plan", "--explain", file])[1]
        count(f"the note on {name}", None if told.startswith(faults) and told.endswith(said) else brief(told))
    for name, text, sentence in (
        ("x.cch", "1 @CA + (2) -> <2> =r0\n2 @CA -> <1> =r1\n",
         "'->' is read as a node name (Rocketfuel .cch maps are not supported)"),
        ("q.adjlist", '"New York" Boston\n',
         "quotes do not join words: 'New York' is read as two names, New_York as one"),
        ("x.adjlist", "a b 1\nb c 2\n", "each line has three words and ends in a number (is it an edge list? try --format edgelist)"),
    ):
        file = put(f"said/{name}", text)
        output, faults, status = run(["plan", file])
        said = f"route: {file}: {sentence}{read_of(text, faults)}\n".encode()
        expect(f"a note on {name}", run(["plan", "--explain", file]), output, faults + said, status)


def read_of(text: str, faults: bytes) -> str:
    """What a note says of an adjacency list that was read; nothing where it was refused."""
    rows = [line.split() for line in text.splitlines() if line.split()]
    nodes = {word for row in rows for word in row}
    links = {frozenset((row[0], word)) for row in rows for word in row[1:]}
    return "" if faults.startswith(b"topology") else f"; nodes read: {len(nodes)}, links: {len(links)}"


def test_explained_topologies() -> None:
    """Mistakes in topologies, and one of too many edges."""
    for name, text, line, sentence in topology_mistakes():
        file = put(f"said/{name}", text)
        explained_as(f"topology {line} in {name}", ["plan", file], f"topology {line}", f"{file}{sentence}")
    edges = [f"n{u} n{v} 1\n" for u in range(520) for v in range(u)][: GRAPH_EDGES + 1]
    file = put("said/edges.edgelist", "".join(edges))
    explained_as("too many edges", ["plan", file], f"topology {GRAPH_EDGES + 1} TooManyEdges",
                 f"{file}:{GRAPH_EDGES + 1}: too many edges: a topology has at most {GRAPH_EDGES}")
