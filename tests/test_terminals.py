"""Terminals: sentences without being asked for, and how many rows are made."""
from __future__ import annotations

import random
import re
from typing import List

from support.checks import count
from support.limits import GREAT_SECONDS
from support.marks import built, slow
from support.networks import band
from support.places import work
from support.route import ANY, NAMES, SOME, TEXTS, alike, brief, call, expect, good_files, on_terminal, put, run
from support.saying import NO_WORDS, after_patience, said_of, wrong_words

pytestmark = [built]


def test_terminal() -> None:
    """Sentences without being asked for: where standard error is a terminal, and nowhere else."""
    good_files()
    line, sentence = b"topology unreadable\n", b"route: said/none: no such file\n"
    missing = ["plan", "said/none"]
    for words_, said in (
        (missing, sentence), (["plan", "--explain", "said/none"], sentence), (["plan", "--no-explain", "said/none"], b""),
        (["plan", "said/none", "--no-explain"], b""), (["plan", "--explain", "--no-explain", "said/none"], b""),
        (["plan", "--no-explain", "--explain", "said/none"], b""), (["plan", "--no-explain", "--", "said/none"], b""),
        (["plan", "--", "said/none"], sentence), (["plan", "--", "--no-explain"], b"route: --no-explain: no such file\n"),
        (["plan", "--root=--no-explain", "said/none"], sentence),
    ):
        expect(f"a terminal, {words_}", on_terminal(words_), b"", line + said, 1)
    elsewhere(missing, line)
    not_understood_on_terminal()
    for sub, parts in TEXTS.items():
        words_ = call(sub, [f"good/{name}" for name in NAMES[:parts]])
        output = run(words_)[0]
        said = said_of(sub, words_)
        expect(f"{sub} on a terminal, nothing to explain", on_terminal(words_), output, said, 0)
        expect(f"{sub} with its output on a terminal", on_terminal(words_, streams=("stdout",)), output, b"", 0)
    json_file = put("said/x.json", '{"nodes": []}\n')
    alike("a note on a terminal", on_terminal(["plan", json_file]), run(["plan", "--explain", json_file]))
    no_words()


@slow
def test_progress() -> None:
    """How many rows of a plan are made: on a terminal, from a second on, until all are; and nowhere else."""
    draw, nodes = random.Random(1), 10_000
    edges = [f"{draw.randrange(v)} {v} {draw.randint(1, 65_535)}" for v in range(1, nodes)]
    edges += [f"{draw.randrange(v)} {v} {draw.randint(1, 65_535)}" for v in range(nodes - 1, 1, -1) for _ in range(3)]
    words_ = ["plan", "--threads", "1", "--order", put("progress/net.edgelist", "\n".join(edges) + "\n")]
    output, faults, status = run(words_, seconds=GREAT_SECONDS)
    expect(f"an order of {nodes:,} nodes", (output, faults, status), SOME, b"", 0)
    for threads in ("1", "2"):
        words_[2] = threads
        shown = on_terminal(words_, seconds=GREAT_SECONDS)
        expect(f"an order of {nodes:,} nodes by {threads} threads, on a terminal", shown, output, SOME, 0)
        lines = re.fullmatch(rb"((?:\rroute: \d+ of %d rows)+)(?:\r\x1b\[K)+" % nodes, shown[1])
        count(f"rows that are told by {threads} threads", None if lines else f"faults {brief(shown[1])}")
        told = [int(n) for n in re.findall(rb"\d+(?= of)", lines[1])] if lines else []
        count(f"their numbers by {threads} threads", None if all(0 < n < nodes for n in told) else str(told))
    expect("its output on a terminal", on_terminal(words_, streams=("stdout",), seconds=GREAT_SECONDS), output, b"", 0)


def test_progress_late() -> None:
    """The rows of each kind are reported, and those of each plan that a tour takes; of a run none."""
    data = band(512).encode()
    for words_, plans in ((["plan", "--kind", "tree"], 1), (["plan", "--kind", "shortest"], 1), (["stats", "--kind", "compact"], 1),
                          (["draw", "--numbering", "tour"], 2), (["prefixes", "--kind", "compact", "--numbering", "tour"], 3),
                          (["ranges", "--kind", "tree"], 1), (["compare"], 8)):
        words_ = [*words_, "--threads", "1", "-"]
        output, faults, status, _ = after_patience(words_, data)
        alike(f"{words_} that is late", (output, b"", status), run(words_, data))
        told = rb"(?:\rroute: \d+ of 512 rows)+(?:\r\x1b\[K|\rroute: \d+ of 512 rows)*\r\x1b\[K"
        wrong = None if re.fullmatch(told, faults) and faults.count(b"\r\x1b[K") >= plans else brief(faults)
        count(f"the rows of {plans} plans of {words_}", wrong)
    expect("sim that is late", after_patience(["sim", "-"], data + b"%%\n")[:3], b"trace 1\n", b"", 0)


def test_progress_counted() -> None:
    """Once all rows of 2,048 nodes are made, a line says that paths are measured, up to the output; of fewer nodes none does, nor
    where no paths are measured."""
    for nodes, words_, is_told in ((2_048, ["stats", "--kind", "tree"], True), (2_048, ["stats", "--threads", "1"], True),
                                   (2_047, ["stats", "--kind", "tree"], False), (2_048, ["plan", "--kind", "tree"], False)):
        words_ = [*words_, put("progress/star", " ".join(["hub", *(f"n{i}" for i in range(nodes - 1))]) + "\n")]
        output, faults, status = run(words_)
        shown = on_terminal(words_)
        expect(f"{words_[0]} of {nodes:,} nodes, on a terminal", shown, output, SOME if is_told else ANY, 0)
        rows, line = rb"(?:\rroute: \d+ of %d rows|\r\x1b\[K)*" % nodes, rb"\rroute: %d rows are made; their paths are measured" % nodes
        told = rows + (rb"(?:" + line + rb"\r\x1b\[K" + rows + rb")+" if is_told else b"")
        count(f"what {words_[0]} of {nodes:,} nodes tells", None if re.fullmatch(told, shown[1]) else brief(shown[1]))


def test_progress_memory() -> None:
    """Where memory is refused while rows are reported, the line goes away before that is said, and a sentence follows it."""
    draw, nodes = random.Random(2), 4_000
    edges = [f"{draw.randrange(v)} {v} {draw.randint(1, 65_535)}" for v in range(1, nodes)]
    edges += [f"{draw.randrange(v)} {v} {draw.randint(1, 65_535)}" for v in range(nodes - 1, 1, -1) for _ in range(5)]
    data = "".join(f"{edge}\n" for edge in edges).encode()
    words_ = ["plan", "--format", "edgelist", "--threads", "1", "--order", "-"]
    most = after_patience(words_, data)[3]
    told = rb"(?:\rroute: \d+ of %d rows)+(?:\r\x1b\[K)+out of memory\n(?:\r\x1b\[K)*route: the system refused to allocate memory\n" % nodes
    for share in (0.6, 0.8, 0.9):
        output, faults, status, _ = after_patience(words_, data, int(most * share))
        wrong = None if (status, output) == (3, b"") and re.fullmatch(told, faults) else f"status {status}, faults {brief(faults)}"
        count(f"an order that may have {share} of the memory that it takes", wrong)


def elsewhere(words_: List[str], line: bytes) -> None:
    """Standard error that is no terminal: a pipe, a file, a device; and a terminal for other streams."""
    expect("a pipe", run(words_), b"", line, 1)
    for name in ("/dev/null", work(put("said/faults", ""))):
        with open(name, "wb+") as file:
            expect(f"faults to {name}", run(words_, stderr=file), b"", b"", 1)
            file.seek(0)
            count(f"what stands in {name}", None if name == "/dev/null" or file.read() == line else "it is not the line alone")
    for streams in (("stdout",), ("stdin",), ("stdin", "stdout")):
        expect(f"only {' and '.join(streams)} on a terminal", on_terminal(words_, streams=streams), b"", line, 1)


def not_understood_on_terminal() -> None:
    """Words that are not understood, and those for help, are answered on a terminal as elsewhere."""
    for words_ in (*wrong_words(), ["--help"], ["help"], ["help", "plan"], ["--version"], ["plan", "--help"], [b"\xff"],
                   ["--explain"], ["--no-explain"], ["plan", "--root", "--no-explain", "-"], ["plan", "--explain", "--explain", "-"]):
        alike(f"a terminal, {words_}", on_terminal(words_), run(words_))


def no_words() -> None:
    """With no words a terminal is told what is waited for; where the input is to come from one, the help is shown."""
    data, trace = b"a b\n%%\ninject a b\ndrain\n", b"trace 1\n0 1 a b 1 delivered a b\n"
    expect("no words, no terminal", run([], data), trace, b"", 0)
    expect("no words on a terminal", on_terminal([], data), trace, NO_WORDS, 0)
    expect("-, on a terminal", on_terminal(["sim", "-"], data), trace, b"", 0)
    text = run(["--help"])[0]
    expect("no words, and the input a terminal", on_terminal([], streams=("stdin",)), b"", text, 2)
    expect("no words, input and output a terminal", on_terminal([], streams=("stdin", "stdout")), b"", text, 2)
    expect("no words, input and faults a terminal", on_terminal([], streams=("stdin", "stderr")), b"", text, 2)
    expect("no words, all of it on a terminal", on_terminal([], streams=("stdin", "stdout", "stderr")), text, b"", 2)
    expect("sim -, all of it on a terminal", on_terminal(["sim", "-"], data + b"\x04", ("stdin", "stdout", "stderr")), trace, b"", 0)
    bad = b"a b\n%%\ninject a c\n"
    said = b"script 1 UnknownNode\nroute: standard input:3: no node 'c' in standard input\n"
    expect("no words and a fault, no terminal", run([], bad), b"", said[: said.index(b"route")], 1)
    expect("no words and a fault, on a terminal", on_terminal([], bad), b"", NO_WORDS + said, 1)
