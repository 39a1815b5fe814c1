"""Each format that `python3 -m bentzolu convert` reads, from a small text."""
from __future__ import annotations

import contextlib
import io
import pathlib
import tempfile
import unittest
from typing import Any

from common import bentzolu, graphs, needs_networkx, needs_route, networkx
from bentzolu import program
from bentzolu.__main__ import main
from bentzolu.convert import READERS, converted, format_of

GML = """Creator "a test"
graph [
  node [ id 0 label "New York" Country "United States" ]
  node [ id 1 label "Z&#252;rich" ]
  node [ id 2 label "Rome" ]
  edge [ source 0 target 1 LinkSpeed "10" ]
  edge [ source 1 target 2 ]
]
"""
SAME_LABELS = GML.replace("Rome", "New York")
GRAPHML = """<?xml version="1.0" encoding="utf-8"?>
<graphml xmlns="http://graphml.graphdrawing.org/xmlns">
  <key attr.name="label" attr.type="string" for="node" id="d0"/>
  <key attr.name="weight" attr.type="double" for="edge" id="d1"/>
  <graph edgedefault="directed">
    <node id="0"><data key="d0">Vienna</data></node>
    <node id="1"><data key="d0">Graz</data></node>
    <node id="2"><data key="d0">Linz</data></node>
    <edge source="0" target="1"><data key="d1">1.5</data></edge>
    <edge source="1" target="0"><data key="d1">1.25</data></edge>
    <edge source="1" target="2"><data key="d1">3</data></edge>
  </graph>
</graphml>
"""
JSON = """{"directed": false, "multigraph": false, "graph": {}, "nodes": [{"id": 1}, {"id": [0, 1]}, {"id": "b c"}],
 "links": [{"source": 1, "target": [0, 1], "weight": 4}, {"source": [0, 1], "target": "b c", "weight": 2}]}
"""
SNDLIB = """?SNDlib native format; type: network; version: 1.0
# network tiny
META (
  granularity = 5min
)
NODES (
  # <node_id> [(<longitude>, <latitude>)]
  N1 ( 13.48 52.52 )
  N2 ( 9.99 53.55 )
  N3 ( 11.58 48.14 )
)
LINKS (
  # <link_id> ( <source> <target> ) <pre_installed_capacity> <pre_installed_capacity_cost> <routing_cost> <setup_cost> ( {<module_capacity> <module_cost>}* )
  L1 ( N1 N2 ) 0.00 0.00 2.50 0.00 ( 40.00 1890.00 )
  L2 ( N2 N3 ) 40.00 0.00 1.00 0.00 ( 40.00 1000.00 80.00 1500.00 )
)
DEMANDS (
  N1_N2 ( N1 N2 ) 1 5.00 UNLIMITED
)
"""
SNDLIB_XML = """<?xml version="1.0" encoding="ISO-8859-1"?>
<network xmlns="http://sndlib.zib.de/network" version="1.0">
 <networkStructure>
  <nodes coordinatesType="geographical">
   <node id="N1"><coordinates><x>13.48</x><y>52.52</y></coordinates></node>
   <node id="N2"><coordinates><x>9.99</x><y>53.55</y></coordinates></node>
   <node id="N3"><coordinates><x>11.58</x><y>48.14</y></coordinates></node>
  </nodes>
  <links>
   <link id="L1"><source>N1</source><target>N2</target><routingCost>2.50</routingCost><setupCost>0.00</setupCost></link>
   <link id="L2"><source>N2</source><target>N3</target><routingCost>1.00</routingCost></link>
  </links>
 </networkStructure>
 <demands><demand id="D"><source>N1</source><target>N3</target></demand></demands>
</network>
"""
ROCKETFUEL = "Sydney,+Australia1 Perth,+Australia2 7.5\nPerth,+Australia2 Sydney,+Australia1 7\nPerth,+Australia2 Darwin,+Australia3 2\n"
CAIDA = "# source:topology|BGP|20200101\n1|11537|0\n1|21616|-1\n11537|21616|-1|bgp\n"
CAIDA_SEEN = "# format\nT\t1000\t1001\nM\t1\t2\t3\nD\t1\t11537\t0\nD\t11537\t2_3\t0\nI\t1\t99\t1\t0\n"
MATRIX = "%%MatrixMarket matrix coordinate real symmetric\n% a comment\n3 3 3\n2 1 0.5\n3 2 4\n1 1 9\n"
DOT = """// a test
strict digraph "G" {
  rankdir = LR; node [shape=box, label="a;b"]; edge [weight=2]
  a -> b -> c [weight=3, color="#ff0000"];
  subgraph cluster_0 { edge [weight=5]; d; a -> d:n:se /* a port */ }
  c -> {e "New \\"York\\""} [label=<b <i>x</i>>]
  a -> a
}
"""
GEXF = """<?xml version='1.0' encoding='utf-8'?>
<gexf version="1.2" xmlns="http://www.gexf.net/1.2draft">
  <graph defaultedgetype="undirected" mode="static">
    <nodes><node id="0" label="Vienna" /><node id="1" label="Graz" /><node id="2" label="Linz" /></nodes>
    <edges><edge source="0" target="1" id="0" weight="1.5" /><edge source="1" target="2" id="1" weight="3.0" /></edges>
  </graph>
</gexf>
"""
PAJEK = '*Vertices 3\n1 Vienna 0.0 0.0 ellipse\n2 "New York" 0.0 0.0 ellipse\n3 Linz 0.0 0.0 ellipse\n*Edges\n1 2 2\n2 3 4\n'
MULTILINE = "# comment\n(0, 0) 2\n(0, 1) {'weight': 3}\n(1, 0) {}\n(1, 0) 1\n(0, 1) {'weight': 7, 'to': ('x', [1])}\n(0, 1) 0\n"
PATTERN = "%%MatrixMarket matrix coordinate pattern general\n3 3 3\n1 2\n2 1\n2 3\n"


def called(node: Any) -> Any:
    """What a node is called, without the blanks of tuples."""
    return str(node).replace(", ", ",")


def graph_weight(graph: Any, pair: Any) -> Any:
    """The weight of the edge between two nodes, by what they are called."""
    return next(data.get("weight", 1) for u, v, data in graph.edges(data=True) if frozenset((called(u), called(v))) == pair)


class FormatsTest(unittest.TestCase):
    def edges(self, text: Any, format: Any = None, **options: Any) -> tuple[Any, Any, str]:
        name = f"file.{format}" if format in ("csv", "adjlist", "graph6", "sparse6") else "file"
        found = format_of(name, text)
        self.assertEqual(found or "rocketfuel", format)
        edges, names, notes = converted(text, format, **options)
        return edges, names, "; ".join(notes)

    @needs_networkx
    def test_gml(self) -> None:
        edges, names, _ = self.edges(GML, "gml")
        self.assertEqual(edges, "New_York Zurich 1\nZurich Rome 1\n")
        self.assertEqual(names.node("Zurich"), "Zürich")
        self.assertEqual(self.edges(SAME_LABELS, "gml")[0], "0 1 1\n1 2 1\n")
        edges, _, notes = self.edges(GML, "gml", weight="LinkSpeed")
        self.assertEqual(edges, "New_York Zurich 10\nZurich Rome 1\n")
        self.assertIn("1 of 2 edges have no 'LinkSpeed'", notes)

    @needs_networkx
    def test_graphml(self) -> None:
        edges, _, notes = self.edges(GRAPHML, "graphml")
        self.assertEqual(edges, "Vienna Graz 5\nGraz Linz 12\n")
        self.assertIn("weights are multiplied by 4, exactly", notes)
        self.assertIn("1 more edges", notes)

    def test_json(self) -> None:
        self.assertEqual(self.edges(JSON, "json")[0], "1 (0,1) 4\n(0,1) b_c 2\n")
        self.assertEqual(self.edges(JSON.replace('"links"', '"edges"'), "json")[0], "1 (0,1) 4\n(0,1) b_c 2\n")

    def test_sndlib(self) -> None:
        for text, format in [(SNDLIB, "sndlib"), (SNDLIB_XML, "sndlib-xml")]:
            edges, _, notes = self.edges(text, format)
            self.assertEqual(edges, "N1 N2 1\nN2 N3 1\n")
            self.assertIn("distance, routing_cost, setup_cost: choose one by --weight", notes)
            self.assertEqual(self.edges(text, format, weight="routing_cost")[0], "N1 N2 5\nN2 N3 2\n")
            self.assertEqual(self.edges(text, format, weight="distance")[0], "N1 N2 260\nN2 N3 612\n")

    def test_rocketfuel(self) -> None:
        edges, _, notes = self.edges(ROCKETFUEL, "rocketfuel")
        self.assertEqual(edges, "Sydney,+Australia1 Perth,+Australia2 7\nPerth,+Australia2 Darwin,+Australia3 2\n")
        self.assertIn("1 more edges", notes)
        self.assertEqual(self.edges("a b 7.5\nb c 0.25\n", "rocketfuel")[0], "a b 30\nb c 1\n")

    def test_caida(self) -> None:
        self.assertEqual(self.edges(CAIDA, "caida")[0], "1 11537 1\n1 21616 1\n11537 21616 1\n")
        self.assertEqual(self.edges(CAIDA_SEEN, "caida")[0], "1 11537 1\n11537 2_3 1\n")

    def test_csv(self) -> None:
        for text in ("u,v,w\na b,c,2\nc,d,3.5\n", "a b,c,2\nc,d,3.5\n", "from;to;km\na b;c;2\nc;d;3.5\n", 'source\ttarget\tw\n"a b"\tc\t2\nc\td\t3.5\n'):
            self.assertEqual(self.edges(text, "csv")[0], "a_b c 4\nc d 7\n")
        for text in ("a,b\nb,c\n", "source,target\na,b\nb,c\n", "# text\na, b\n\nb, c\n"):
            self.assertEqual(self.edges(text, "csv")[0], "a b 1\nb c 1\n")

    def test_matrix_market(self) -> None:
        edges, _, notes = self.edges(MATRIX, "mtx")
        self.assertEqual(edges, "2 1 1\n3 2 8\n")
        self.assertIn("1 edges from a node to itself", notes)
        self.assertEqual(self.edges(PATTERN, "mtx")[0], "1 2 1\n2 3 1\n")

    def test_dot(self) -> None:
        edges, names, notes = self.edges(DOT, "dot")
        self.assertEqual(edges, 'a b 3\nb c 3\na d 5\nc e 2\nc New_"York" 2\n')
        self.assertEqual(names.node('New_"York"'), 'New "York"')
        self.assertIn("1 edges from a node to itself are left out; directions are dropped", notes)
        for text, wanted in [
            ("graph {a -- {b c} -- d [len=1.5]; a -- b [len=2,weight=1]}", "a b 3\na c 3\nb d 3\nc d 3\n"),
            ('graph\n{ "a"+"b" -- -3.5 }', "ab _-3.5 1\n"), ("# x\nGRAPH g { a; }", "a a 1\n"), ('graph { "a\\\nb" -- c }', "ab c 1\n"),
            ("graph { graph [x=1] x=y; a [b=c]; a--b--a [] [] }", "a b 1\n"), ("graph { subgraph { a b } -- c }", "a c 1\nb c 1\n"),
        ]:
            self.assertEqual(self.edges(text, "dot", weight="len" if "len" in text else None)[0], wanted)

    @needs_networkx
    def test_gexf(self) -> None:
        edges, _, notes = self.edges(GEXF, "gexf")
        self.assertEqual((edges, notes), ("Vienna Graz 3\nGraz Linz 6\n", "3 nodes, 2 links; weights are multiplied by 2, exactly"))
        self.assertIn("directions are dropped", self.edges(GEXF.replace("undirected", "directed"), "gexf")[2])

    @needs_networkx
    def test_pajek(self) -> None:
        self.assertEqual(self.edges(PAJEK, "pajek")[0], "Vienna New_York 2\nNew_York Linz 4\n")
        self.assertIn("directions are dropped", self.edges(PAJEK.replace("Edges", "Arcs"), "pajek")[2])

    @needs_networkx
    def test_graph6(self) -> None:
        for format in ("graph6", "sparse6"):
            write = networkx.to_graph6_bytes if format == "graph6" else networkx.to_sparse6_bytes
            for header in (True, False):
                text = write(networkx.path_graph(4), header=header).decode()
                self.assertEqual(self.edges(text, format)[0], "0 1 1\n1 2 1\n2 3 1\n")

    def test_lists(self) -> None:
        for text, wanted in [
            ("# written by hand\na b c # c\nd a#b\n", "a b 1\na c 1\nd a 1\n"), ("(0, 0) (0, 1)\n(0, 1) ('x y', 'a)') ''\n", "(0,0) (0,1) 1\n(0,1) ('xy','a)') 1\n(0,1) '' 1\n"),
            ("(a b\n", None),
        ]:
            if wanted is None:
                self.assertRaises(bentzolu.FormatError, converted, text, "adjlist")
            else:
                self.assertEqual(self.edges(text, "adjlist")[0], wanted)
        for text, wanted in [
            ("a b {'weight': 4, 'of': {'x': '}'}}\nb c {}\n", "a b 4\nb c 1\n"), ("(0, 0) (0, 1) {'weight': 2.5}\n", "(0,0) (0,1) 5\n"),
        ]:
            self.assertEqual(self.edges(text, "edgelist")[0], wanted)
        self.assertEqual(converted("a b 2.5\nb c 1\nc\nc a\n", "edgelist")[0], "a b 5\nb c 2\nc a 2\n")
        edges, names, _ = self.edges(MULTILINE, "multiline")
        self.assertEqual(edges, "(0,0) (0,1) 3\n(0,0) (1,0) 1\n(1,0) (0,1) 7\n")
        self.assertEqual(names.node("(1,0)"), (1, 0))

    @needs_networkx
    def test_what_networkx_writes(self) -> None:
        for name, graph in graphs():
            for format, write in [
                ("adjlist", networkx.generate_adjlist), ("edgelist", networkx.generate_edgelist), ("multiline", networkx.generate_multiline_adjlist),
                ("gexf", networkx.generate_gexf), ("graphml", networkx.generate_graphml), ("gml", networkx.generate_gml), ("pajek", networkx.generate_pajek),
            ]:
                if name == "preferential" and format in ("adjlist", "edgelist", "multiline") or name == "one node" and format == "edgelist":
                    continue  # blanks in names, and a node without an edge, which such a list does not have
                if format == "gml" and name in ("grid", "hypercube") and networkx.__version__.startswith("2."):
                    continue  # tuples, which NetworkX writes from 3.0 on
                with self.subTest((name, format)):
                    self.look_at_written(graph, format, "\n".join(write(graph)))

    def look_at_written(self, graph: Any, format: Any, text: Any) -> None:
        if format in ("edgelist", "multiline") and "{" not in text:
            found = format
        else:
            found = format_of(f"x.{format}", text)
        self.assertEqual(found, format)
        edges, names, _ = converted(text, format)
        keeps = "weight" if format not in ("adjlist", "pajek") else None
        wanted = {frozenset((called(u), called(v))): 1 if keeps is None else data.get("weight", 1) for u, v, data in graph.edges(data=True)}
        if format == "pajek":
            wanted = {pair: graph_weight(graph, pair) for pair in wanted}
        rows = [line.split() for line in edges.splitlines()]
        got = {frozenset((called(names.node(u)), called(names.node(v)))): int(given) for u, v, given in rows if u != v}
        self.assertEqual(got, wanted)

    def test_lists_of_networkx(self) -> None:
        """Names of one word are read as NetworkX reads them."""
        for text in ("a b c\nb d\n# x\nc a e#f\n", "1 2\n2 3 4\n5 1\n"):
            if networkx is not None:
                graph = networkx.parse_adjlist(text.splitlines())
                rows = {frozenset(line.split()[:2]) for line in converted(text, "adjlist")[0].splitlines()}
                self.assertEqual(rows, set(map(frozenset, graph.edges)))

    def test_faults(self) -> None:
        for format, text in [
            ("dot", "graph"), ("dot", "graph {"), ("dot", "graph { a -- }"), ("dot", "graph { a [b }"), ("dot", 'graph { "a'), ("dot", "graph { a } b"), ("dot", "tree { a }"),
            ("dot", "graph { strict }"), ("dot", "graph { a -- <b }"), ("dot", "graph { subgraph a -- b }"), ("dot", "graph { } "), ("dot", "graph {" * 9), ("dot", "graph { a ? b }"),
            ("dot", "graph " + "{" * 100_000), ("adjlist", "a {'weight': 1}\n"), ("edgelist", "a b {'weight'\n"), ("edgelist", "a b {1}\n"), ("edgelist", "a b c d\n"), ("edgelist", "a b x\n"),
            ("multiline", "a b\n"), ("multiline", "a 2\nb {}\n"), ("multiline", "a 1\nb {} c\n"), ("multiline", "a\n"),
            ("json", "{"), ("json", '{"nodes": 1}'), ("json", '{"nodes": [], "links": []}'), ("sndlib", "?SNDlib"), ("sndlib-xml", "<network"),
            ("sndlib", SNDLIB.replace("( N1 N2 ) 0", "( N1 N9 ) 0")), ("sndlib-xml", SNDLIB_XML.replace("<target>N2", "<target>N9")),
            ("rocketfuel", "a b\n"), ("rocketfuel", "a b far\n"), ("rocketfuel", "a b -1\n"), ("rocketfuel", "a b 0\n"), ("caida", "1|x|0\n"),
            ("csv", "a\n"), ("csv", "a,b,1\na,b,far\n"), ("mtx", "%%MatrixMarket matrix array real general\n2 2\n"), ("mtx", MATRIX.replace("3 2 4", "9 2 4")),
            ("mtx", PATTERN.replace("3 3 3", "3 4 3")),
        ]:
            with self.subTest((format, text)), self.assertRaises(bentzolu.BentzoluError):
                converted(text, format)

    @needs_networkx
    def test_faults_of_networkx(self) -> None:
        for format, text in [
            ("gml", "graph [ node ["), ("gml", "graph [ edge [ source 0 target 1 ] ]"), ("graphml", "<graphml>"), ("gexf", "<gexf"), ("gexf", "<gexf></gexf>"),
            ("pajek", ""), ("pajek", "*Vertices x\n"), ("graph6", "\x00"), ("graph6", "D?{\nD?{\n"), ("graph6", "é"), ("sparse6", "D?{"), ("graph6", ""),
        ]:
            with self.subTest(text), self.assertRaises(bentzolu.BentzoluError):
                converted(text, format)

    def test_great_weights_are_rounded(self) -> None:
        edges, _, notes = self.edges("a b 1e9\nb c 1\n", "rocketfuel")
        self.assertEqual(edges.splitlines()[1], "b c 1")
        self.assertTrue(1 <= int(edges.splitlines()[0].split()[2]) <= 65535)
        self.assertIn("rounded", notes)

    def test_parts(self) -> None:
        text = "a,b\nc,d\nd,e\nf,f\n"
        with self.assertRaisesRegex(bentzolu.BentzoluError, "3 unconnected parts, of 3, 2, 1 nodes; --largest"):
            converted(text, "csv")
        edges, _, notes = self.edges(text, "csv", largest=True)
        self.assertEqual(edges, "c d 1\nd e 1\n")
        self.assertIn("only the largest of 3 parts is taken, with 3 of 6 nodes", notes)
        self.assertEqual(self.edges("f,f\n", "csv")[0], "f f 1\n")

    def test_every_format_is_tried_here(self) -> None:
        self.assertEqual(set(READERS), {
            "gml", "graphml", "json", "sndlib", "sndlib-xml", "rocketfuel", "caida", "csv", "mtx", "dot", "gexf", "pajek", "graph6", "sparse6",
            "adjlist", "edgelist", "multiline",
        })

    def test_the_format_is_found(self) -> None:
        for name, text, format in [
            ("x", "graph {a--b}", "dot"), ("x", "/* a */ /* b */ // c\n# d\nstrict graph x\n{ a -- b }", "dot"), ("x", "*vertices 3\n", "pajek"), ("x", "% a\n*Network x\n", "pajek"),
            ("x", ">>graph6<<A_", "graph6"), ("x", "a b {}\n", "edgelist"), ("x", "a 1\nb {}\n", "multiline"), ("x.edges", "a b 1\n", "edgelist"), ("x.adjlist", "a b\n", "adjlist"),
            ("x.WEL", "a b 1\n", "edgelist"), ("x.txt", "a b\n", None), ("x.txt", "graph a b\n", None), ("x", "", None), ("x.adjlist", "# " * 5000, "adjlist"), ("x", "/* */ " * 5000, None),
            ("x.gv", "", "dot"), ("x", "<x>", None),
        ]:
            self.assertEqual(format_of(name, text), format, (name, text[:40]))


class CommandTest(unittest.TestCase):
    def setUp(self) -> None:
        folder = tempfile.TemporaryDirectory()
        self.addCleanup(folder.cleanup)
        self.folder = pathlib.Path(folder.name)

    def convert(self, name: Any, text: Any, *words: Any) -> tuple[Any, Any, Any]:
        file = self.folder / name
        file.write_bytes(text.encode("utf-8"))
        output, faults = io.StringIO(), io.StringIO()
        with contextlib.redirect_stdout(output), contextlib.redirect_stderr(faults):
            status = main(["convert", str(file), *map(str, words)])
        return status, output.getvalue(), faults.getvalue()

    def test_files(self) -> None:
        out, table = self.folder / "out.edgelist", self.folder / "names"
        status, output, faults = self.convert("net.json", JSON, "-o", out, "--names", table)
        self.assertEqual((status, output), (0, ""))
        self.assertEqual(out.read_text(), "1 (0,1) 4\n(0,1) b_c 2\n")
        self.assertEqual(table.read_text(), '1\t1\n(0,1)\t"(0, 1)"\nb_c\t"b c"\n')
        self.assertEqual(faults, "json: 3 nodes, 2 links\n")

    def test_output(self) -> None:
        status, output, faults = self.convert("net.csv", "a b,c\n")
        self.assertEqual((status, output), (0, "a_b c 1\n"))
        self.assertIn("1 node has a new name: --names TABLE", faults)

    def test_numbers_keep_their_names(self) -> None:
        status, output, faults = self.convert("net.json", '{"nodes": [{"id": 0}, {"id": 1.5}], "links": [{"source": 0, "target": 1.5}]}')
        self.assertEqual((status, output, faults), (0, "0 1.5 1\n", "json: 2 nodes, 1 link\n"))

    def test_the_format_is_told(self) -> None:
        self.assertEqual(self.convert("net.txt", "a b 2\n", "--from", "rocketfuel")[:2], (0, "a b 2\n"))
        status, output, faults = self.convert("net.txt", "a b 2\n")
        self.assertEqual((status, output), (1, ""))
        self.assertIn("give --from with one of", faults)

    def test_refusals(self) -> None:
        for text, said in [("a,b\nc,d\n", "--largest"), ("a,b,x\nc,d,y\n", "line 2"), ("", "no nodes")]:
            status, output, faults = self.convert("net.csv", text)
            self.assertEqual((status, output), (1, ""))
            self.assertIn(said, faults)
        with contextlib.redirect_stderr(io.StringIO()) as faults:
            self.assertEqual(main(["convert", str(self.folder / "nothing")]), 1)
        self.assertIn("nothing", faults.getvalue())

    def test_a_mark_of_bytes_at_the_front(self) -> None:
        self.assertEqual(self.convert("net.csv", "\ufeffa,b\n")[:2], (0, "a b 1\n"))

    @needs_route
    def test_route_reads_what_is_written(self) -> None:
        for name, text in [
            ("a.gml", GML), ("a.graphml", GRAPHML), ("a.json", JSON), ("a.sndlib", SNDLIB), ("a.xml", SNDLIB_XML), ("a.intra", ROCKETFUEL),
            ("a.caida", CAIDA), ("a.csv", "a b,c,2\n"), ("a.mtx", MATRIX), ("b.csv", "f,f\n"), ("a.dot", DOT), ("a.gexf", GEXF), ("a.net", PAJEK), ("a.multi", MULTILINE),
            ("a.g6", "D?{"), ("a.adjlist", "(0, 0) (0, 1)\n"),
        ]:
            status, edges, _ = self.convert(name, text)
            self.assertEqual(status, 0)
            plan = bentzolu.read_plan(program.run(["plan", "--format", "edgelist"], [("topology", edges)]).output)
            self.assertEqual(plan.kind, "shortest")


if __name__ == "__main__":
    unittest.main()
