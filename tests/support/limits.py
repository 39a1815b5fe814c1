"""The limits of the program, each here and nowhere else, and how long the tests wait."""
from __future__ import annotations

import os

from support.places import TOP

GRAPH_NODES, GRAPH_EDGES = 32_768, 131_072  # of a topology: MAX_NODES and MAX_EDGES of ir_model
TABLE_LABELS = 16_384  # of a table in lines: MAX_LABELS of ir_exports
NET_NODES, NET_LINKS = 1_024, 8_192  # where packets travel: MAX_NODES and MAX_LINKS of ir_core
TOUR_NODES = 4_096  # above which no tour is made: MOST_TOUR_NODES of ir_plan
INPUT_BYTES = 16_777_216  # of an input: MAX_INPUT_BYTES of ir_streams
PART_BYTES = 1_048_576  # of what is written of a plan at once: PART_BYTES of ir_streams
CAPACITY, PACKETS, RESTAMPS, THREADS = 1_024, 4_096, 3, 256  # of the options
CHANGES = 65_535  # of a board: MAX_CHANGES of ir_core
EPOCHS = 64  # of a run: MAX_EPOCHS of ir_core
ALONE_NODES = 256  # up to which a plan of a run is made in one thread: MOST_NODES_ON_ONE_THREAD of ir_core
DEFAULT_CAPACITY = 16  # where nothing is said; --packets is the most, and --restamps is 0

SECONDS = 120  # the most that a run may take
GREAT_SECONDS = 600  # the most that the plan of the greatest topology may take
PATIENCE = 1  # the seconds after which a terminal is told of rows

with open(os.path.join(TOP, "VERSION"), encoding="ascii") as _file:
    VERSION = _file.read().strip()
