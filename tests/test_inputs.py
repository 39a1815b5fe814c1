"""Inputs: those that can't be read, the names and formats of files, and by how many calls texts are read and written."""
from __future__ import annotations

import contextlib
import itertools
import os
import subprocess
from typing import Any, Optional, Tuple

from support.checks import count, skip
from support.limits import INPUT_BYTES, PART_BYTES, SECONDS
from support.marks import built
from support.networks import filled
from support.places import program, work
from support.route import NAMES, TEXTS, alike, as_nobody, call, expect, good_files, output_of, put, refused, run

pytestmark = [built]


def each_unreadable(how: str, name: str, **more: Any) -> None:
    """Each choice of texts that can't be read: the first of them is reported, before any other fault."""
    for sub, parts in TEXTS.items():
        for chosen in itertools.product([False, True], repeat=parts):
            if not any(chosen):
                continue
            files = [name if bad else f"good/{NAMES[i]}" for i, bad in enumerate(chosen)]
            got = run(call(sub, files), stdin=subprocess.DEVNULL, **more)
            refused(f"{sub} {' '.join(files)}: {how}", got, f"{NAMES[chosen.index(True)]} unreadable")


def test_unreadable() -> None:
    good_files()
    each_unreadable("missing", "good/missing")
    os.makedirs(work("good/folder"), exist_ok=True)
    each_unreadable("a directory", "good/folder")
    locked = work(put("good/locked", "a b\n"))
    os.chmod(locked, 0)
    more = as_nobody()
    if more is not None:
        each_unreadable("without leave", "good/locked", **more)
    put("good/bad", "\x01\n")
    bad_then_missing = call("sim", ["good/bad", "good/missing"])
    refused("a missing script before a bad topology", run(bad_then_missing), "script unreadable")
    missing_trace = call("check", ["good/bad", "good/bad", "good/missing"])
    refused("a missing trace before a bad topology", run(missing_trace), "trace unreadable")
    refused("a bad topology before a bad script", run(call("sim", ["good/bad", "good/bad"])), "topology 1 BadByte")
    for sub in TEXTS:
        folder = os.open(work(), os.O_RDONLY)
        refused(f"{sub} - of a directory", run(call(sub, ["-"]), stdin=folder), "input unreadable")
        os.close(folder)
        refused(f"{sub} - of a closed input", run(call(sub, ["-"]), stdin=None, preexec_fn=lambda: os.close(0)),
                "input unreadable")


def test_names() -> None:
    good_files()
    files = ["good/topology", "good/script", "good/trace"]
    swapped = run(call("sim", [files[1], files[0]]))
    refused("a script and then a topology", swapped, "script 1 BadCommand")
    refused("a script and then a topology, live", run(call("live", [files[1], files[0]])), "script 1 BadCommand")
    refused("a trace before a script", run(call("check", [files[0], files[2], files[1]])), "script 1 BadCommand")
    put("swapped/script", "# no line\n")
    found = run(call("check", [files[0], "swapped/script", files[1]]))
    expect("a script as a trace", found, b"finding 1 NotTrace\n", b"", 1)
    put("dash/-", "a b\nb c\n")
    put("dash/--root", "inject a c\ndrain\n")
    folder = work("dash")
    plan = run(["plan", "good/topology"])
    alike("a file named -", run(["plan", "./-"], b"x y\n", cwd=folder), plan)
    alike("a file named - and another", run(["sim", "./-", "./--root"], cwd=folder), run(["sim", *files[:2]]))
    alike("words behind --", run(["sim", "--", "./-", "--root"], cwd=folder), run(["sim", *files[:2]]))
    put("dash/ä b", "a b\nb c\n")
    alike("a name with a blank and a letter beyond ASCII", run(["plan", "ä b"], cwd=folder), plan)
    alike("an option behind the file", run(["plan", "good/topology", "--kind", "tree"]),
           run(["plan", "--kind", "tree", "good/topology"]))
    alike("an option with =", run(["plan", "--kind=tree", "good/topology"]), run(["plan", "--kind", "tree", "good/topology"]))


def test_formats() -> None:
    """Without --format a file's ending decides; standard input, and all else, is an adjacency list."""
    good_files()
    listed, edges = "a b c\nb c\n", "a b 2\nb c 3\n"
    for name in ("x", "x.adjlist", "x.txt", "x.EDGELIST", "edgelist", "x.edgelist.txt", "wel", "x.weighted"):
        file = put(f"formats/listed/{name}", listed)
        for sub, rest in (("plan", []), ("stats", []), ("sim", ["good/script"])):
            by_word = run(call(sub, [file, *rest], "--format", "adjlist"))  # type: ignore[misc]
            alike(f"{sub} of {name}", run(call(sub, [file, *rest])), by_word)  # type: ignore[misc]
    for name in ("x.edgelist", "x.weighted.edgelist", "x.wel", ".edgelist", ".wel", "x.wel.edgelist"):
        file = put(f"formats/edges/{name}", edges)
        for sub, rest in (("plan", []), ("walk", []), ("stats", []), ("draw", []), ("prefixes", []), ("ranges", []), ("sim", ["good/script"]),
                          ("live", ["good/script"]), ("check", ["good/script", "good/trace"])):
            by_word = run(call(sub, [file, *rest], "--format", "edgelist"))  # type: ignore[misc]
            alike(f"{sub} of {name}", run(call(sub, [file, *rest])), by_word)  # type: ignore[misc]
    figures = run(["stats", "formats/edges/x.edgelist"])
    expect("the weights of an edge list", figures, run(["stats", "--format", "edgelist", "-"], edges.encode())[0], b"", 0)
    alike("an adjacency list in such a file", run(["plan", "--format", "adjlist", put("formats/listed/x.edgelist", listed)]),
           run(["plan", "-"], listed.encode()))
    refused("an adjacency list in such a file, by its name", run(["plan", "formats/listed/x.edgelist"]), "topology 1 BadWeight")


SMALL_READS = 100_000  # of which one input comes, of the 20,000,000 that it may have


def calls_so_far(process: "subprocess.Popen[bytes]") -> Optional[Tuple[int, int]]:
    """How many reads and writes a program has made, as Linux counts them; None where it does not."""
    try:
        with open(f"/proc/{process.pid}/io", encoding="ascii") as file:
            told = dict(line.split(": ") for line in file.read().splitlines())
        return int(told["syscr"]), int(told["syscw"])
    except (OSError, KeyError, ValueError):
        return None


def test_calls() -> None:
    """Texts are written and read by few calls, where the machine counts them."""
    good_files()
    with subprocess.Popen(["sleep", "9"]) as process:
        counts = calls_so_far(process) is not None
        process.kill()
    if counts:
        great_writes()
        great_reads()
    else:
        skip("calls", "this machine does not count the calls of a program", 4)
    small_reads()


def great_writes() -> None:
    """A plan of more than two parts is written by as many calls as it has parts; and while little of it is taken, by no more."""
    names = [f"{u:064}" for u in range(200)]
    complete = put("calls/complete", "".join(" ".join(names[u:]) + "\n" for u in range(len(names))))
    process = subprocess.Popen([program(), "plan", complete], cwd=work(), stdin=subprocess.DEVNULL, stdout=subprocess.PIPE, bufsize=0)
    taken, most, wrong = 0, 0, None
    for piece in iter(lambda: output_of(process).read(PART_BYTES // 16), b""):
        taken += len(piece)
        _, most = calls_so_far(process) or (0, 0)
        if most > taken // PART_BYTES + 1:
            wrong = wrong or f"{most} writes when {taken} bytes were taken"
    parts = -(-taken // PART_BYTES)
    _, most = calls_so_far(process) or (0, 0)
    output_of(process).close()
    count("the plan that is written in parts", None if process.wait(SECONDS) == 0 and parts > 2 else f"it has {taken} bytes")
    count("how it is written", wrong or (None if most == parts else f"{most} writes of {taken} bytes"))


def great_reads() -> None:
    """A file of as many bytes as are read is read some thousand bytes at a time."""
    put("calls/great", filled("a b\nb c\n", INPUT_BYTES))
    process = subprocess.Popen([program(), "plan", "calls/great"], cwd=work(), stdin=subprocess.DEVNULL, stdout=subprocess.PIPE)
    got = output_of(process).read()
    most, _ = calls_so_far(process) or (0, 0)
    output_of(process).close()
    alike("the plan of a great file", (got, b"", process.wait(SECONDS)), run(["plan", "good/topology"]))
    count("how it is read", None if most < INPUT_BYTES // 4_096 else f"{most} reads of {INPUT_BYTES} bytes")


def small_reads() -> None:
    """An input that comes in many pieces, each of which is a read of its own."""
    out, into = os.pipe2(os.O_DIRECT)
    process = subprocess.Popen([program(), "plan", "-"], cwd=work(), stdin=out, stdout=subprocess.PIPE, stderr=subprocess.PIPE)
    os.close(out)
    with contextlib.suppress(BrokenPipeError):
        for piece in itertools.chain([b"a b\n", b"b c\n"], itertools.repeat(b"#\n", SMALL_READS)):
            os.write(into, piece)
    os.close(into)
    output, faults = process.communicate(timeout=SECONDS)
    alike(f"an input of {SMALL_READS} pieces", (output, faults, process.returncode), run(["plan", "good/topology"]))
