"""What the tests share: where things are, and whether NetworkX and the program are there."""
from __future__ import annotations

import importlib
import importlib.util
import json
import os
import pathlib
import sys
import unittest
from typing import Any

HERE = pathlib.Path(__file__).resolve().parent
TOP = HERE.parents[1]
sys.path.insert(0, str(HERE.parent))

import bentzolu as package  # noqa: E402

bentzolu: Any = package  # tests also call it as it is not to be called
networkx: Any = importlib.import_module("networkx") if importlib.util.find_spec("networkx") else None
ROUTE: Any
try:
    ROUTE = bentzolu.find_program()
    HAS_ROUTE = os.access(ROUTE, os.X_OK)
except bentzolu.ProgramNotFoundError:
    ROUTE, HAS_ROUTE = None, False

needs_networkx = unittest.skipIf(networkx is None, "there is no NetworkX")
needs_route = unittest.skipUnless(HAS_ROUTE and networkx is not None, "there is no program route, or no NetworkX")


def cases() -> Any:
    """The worked examples of the program."""
    return json.loads((TOP / "crates/route_tests/data/cases.json").read_text())


def graphs() -> Any:
    """Pairs of a name and a graph, by NetworkX's generators."""
    nx = networkx
    made = {
        "path": nx.path_graph(9), "cycle": nx.cycle_graph(10), "star": nx.star_graph(8), "complete": nx.complete_graph(7),
        "grid": nx.grid_2d_graph(4, 5), "hypercube": nx.hypercube_graph(4), "petersen": nx.petersen_graph(),
        "karate": nx.karate_club_graph(), "les miserables": nx.les_miserables_graph(), "tree": nx.balanced_tree(2, 3),
        "barbell": nx.barbell_graph(5, 2), "lollipop": nx.lollipop_graph(4, 3), "wheel": nx.wheel_graph(8),
        "ladder": nx.ladder_graph(6), "circulant": nx.circulant_graph(12, [1, 3]), "regular": nx.random_regular_graph(3, 14, seed=5),
        "small world": nx.connected_watts_strogatz_graph(20, 4, 0.3, seed=5), "one node": nx.path_graph(1),
        "preferential": nx.relabel_nodes(nx.barabasi_albert_graph(18, 2, seed=5), lambda node: f"Zürich {node} #"),
    }
    for i, (u, v) in enumerate(made["grid"].edges):
        made["grid"][u][v]["weight"] = 1 + i * 7 % 11
    for graph in made.values():
        for _, _, data in graph.edges(data=True):
            if "weight" in data:
                data["weight"] = max(1, int(data["weight"]))
    return made.items()
