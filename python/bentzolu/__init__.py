"""Interval routing with live relabelling: `bentzolu` over graphs of NetworkX.

    import bentzolu, networkx
    graph = networkx.petersen_graph()
    plan = bentzolu.plan(graph, kind="compact")
    run = bentzolu.simulate(graph, [("inject", 0, 7), ("drain",)])

The calls are `plan`, `compile_many`, `walk`, `stats`, `compare`, `prefixes`, `ranges`, `draw`, `simulate`, `live` and `check`;
`help(bentzolu.Options)` shows what all of them take. `sweep` makes the plan under each of many failures, `Timeline`
plays networks that change in time, and `figures` draws.
"""
from . import figures as figures  # noqa: F401
from .calls import (
    check, compare, compile_many, draw, link_failures, live, names_of, node_failures, plan, prefixes, ranges, simulate, stats, walk,
)
from .diffs import NodeDiff, PlanDiff, diff, patched
from .errors import (
    BentzoluError, DirectedGraphError, FailureError, FormatError, GraphError, MissingPackageError, MultigraphError,
    ProgramNotFoundError, ResultsError, RouteError, StepError, SweepError, TopologyWarning, UnknownNodeError, WeightError,
)
from .failing import LinkFailure, LinkFailures, LinkFigures, NodeFailure, NodeFailures, read_link_failures, read_node_failures
from .graphs import scaled
from .label_ranges import Range, check_ranges, read_ranges
from .names import Names
from .options import Options
from .orbits import Shell
from .program import find as find_program
from .relabelling import Relabeller
from .sharding import plan_shards
from .sweeping import FailureRow, Sweep, read_sweep, sweep
from .texts import (
    Bits, Compactness, Compared, Comparison, Interval, NodePlan, NodePrefixes, Plan, Prefix, Prefixes, Stats, Walk, WalkStep, Worst,
    read_comparison, read_plan, read_prefixes, read_stats, read_walk,
)
from .timelines import Timeline
from .traces import Packet, Refused, Run, Segment, Verdict, read_trace, write_trace

__version__ = "2.0.0"

__all__ = [
    "BentzoluError", "Bits", "Compactness", "Compared", "Comparison", "DirectedGraphError", "FormatError", "GraphError", "Interval",
    "MultigraphError",
    "Names", "NodePlan", "NodePrefixes", "Options", "Packet", "Plan", "Prefix", "Prefixes", "ProgramNotFoundError", "Range", "Refused",
    "RouteError", "Run", "Segment", "Stats", "StepError", "TopologyWarning", "UnknownNodeError", "Verdict", "Walk",
    "WalkStep", "WeightError", "Worst", "check", "check_ranges", "compare", "compile_many", "draw", "find_program", "live", "names_of",
    "plan", "prefixes", "ranges", "read_comparison", "read_plan", "read_prefixes", "read_ranges", "read_stats", "read_trace", "read_walk", "scaled",
    "simulate", "stats", "walk", "write_trace",
    # what if: sweeps, changes between plans, plans in parts, networks in time
    "FailureError", "FailureRow", "MissingPackageError", "NodeDiff", "PlanDiff", "Relabeller", "ResultsError", "Shell", "Sweep",
    "SweepError", "Timeline", "diff", "patched", "plan_shards", "read_sweep", "sweep", "LinkFailure", "LinkFailures", "LinkFigures",
    "NodeFailure", "NodeFailures", "link_failures", "node_failures", "read_link_failures", "read_node_failures",
]
