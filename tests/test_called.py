"""The name that the program is called by, and the threads that it makes."""
from __future__ import annotations

import contextlib
import os
import re
import subprocess
import time
from typing import List, Tuple

from support.checks import count
from support.limits import ALONE_NODES, SECONDS, VERSION
from support.marks import alone, built
from support.networks import row_of, with_chords
from support.places import program, work
from support.route import Got, SOME, TEXTS, Words, call, every_call, expect, good_files, on_terminal, put, run
from support.saying import NO_WORDS

pytestmark = [built]


def test_called() -> None:
    """The program calls itself bentzolu where it is called so, and else route."""
    good_files()
    folder = work("called")
    os.makedirs(os.path.join(folder, "bentzolu.d"), exist_ok=True)
    for file, name in (("bentzolu", "bentzolu"), ("bentzolu-2", "bentzolu"), ("route", "route"), ("mybentzolu", "route"), ("bentzol", "route"),
                       ("bentzolu.d/intervals", "route"), ("Bentzolu", "route")):
        link = os.path.join(folder, file)
        if not os.path.exists(link):
            os.symlink(program(), link)
        called_so(link, name.encode())
    expect("a name alone", run(["--version"], executable=program(), program="bentzolu"), f"bentzolu {VERSION}\n".encode(), b"", 0)
    expect("no name", run(["--version"], executable=program(), program="/"), f"route {VERSION}\n".encode(), b"", 0)
    expect("a name of 5,000 bytes", run(["--version"], executable=program(), program="/" * 5_000 + "bentzolu"), f"route {VERSION}\n".encode(), b"", 0)


def called_so(program_: str, name: bytes) -> None:
    """What the program says of itself by this name: what it says as route, with that name in its place."""

    def named(got: Got) -> List[object]:
        return [re.sub(rb"(?<![\w./-])route(?![\w./])", name, part) if isinstance(part, bytes) else part for part in got]

    def same(words_: Words, data: bytes = b"") -> None:
        output, faults, status = named(run(words_, data))
        expect(f"{program_} {words_}", run(words_, data, program=program_), output, faults, status)

    for words_ in (["--version"], ["--help"], ["-h"], ["help"], ["frob"], ["--frob"], ["plan"], ["plan", "--frob", "-"], ["sim", "-", "good/script"],
                   ["check", "good/topology"], ["live", "good/topology"], [b"\xff"], ["walk", "-"], ["stats", "--with", "best", "-"],
                   *([sub, "--help"] for sub in (*TEXTS, "compare", "diff")), *(["help", sub] for sub in (*TEXTS, "compare", "diff")),
                   *([sub, "--explain", *[f"said/none-{i}" for i in range(parts)], *(["--from", "a", "--to", "b"] if sub == "walk" else [])]
                     for sub, parts in TEXTS.items()), *([*line, "--explain"] for line in every_call()),
                   ["plan", "--explain", "--root", "z", "good/topology"]):
        same(words_)  # type: ignore[arg-type]
    same([], b"a b\n%%\ninject a b\n")
    line = NO_WORDS.replace(b"route", name)
    expect(f"{program_}, no words on a terminal", on_terminal([], b"a b\n%%\n", program=program_), b"trace 1\n", line, 0)


THREAD_NODES = 1_024  # of the plans whose threads are counted


def threads_seen(words_: List[str]) -> Tuple[Got, int, float]:
    """Output, faults and status of the program, the most threads that it was seen to have, and in which share of the looks it had
    more than one."""
    files = [put(f"threads/{name}", "") for name in ("output", "faults")]
    with open(work(files[0]), "wb+") as out, open(work(files[1]), "wb+") as told:
        process = subprocess.Popen([program(), *words_], cwd=work(), stdin=subprocess.DEVNULL, stdout=out, stderr=told)
        seen, begun = [], time.monotonic()
        while process.poll() is None and time.monotonic() - begun < SECONDS:
            with contextlib.suppress(OSError):
                seen.append(len(os.listdir(f"/proc/{process.pid}/task")))
            time.sleep(0.001)
        if process.poll() is None:
            process.kill()
        status = process.wait()
        out.seek(0)
        told.seek(0)
        return (out.read(), told.read(), status), max(seen, default=0), sum(n > 1 for n in seen) / max(1, len(seen))


@alone
def test_threads() -> None:
    """The rows of a plan, and its tables, are made in as many threads as --threads lets them, and in several where nothing is said.
    A run makes plans of few nodes in one thread, and of more in several."""
    net, small = (put(f"threads/{nodes}", with_chords(nodes, 4 * nodes)) for nodes in (THREAD_NODES, THREAD_NODES // 2))
    row = put("threads/row", row_of(4 * THREAD_NODES)[1])
    for sub, rest in (("plan", [net]), ("walk", ["--numbering", "tour", small]),
                      ("plan", ["--kind", "compact", "--numbering", "tour", small]), ("prefixes", ["--kind", "tree", row]),
                      ("compare", [small])):
        for told in (1, 2, 3, 4, 5, 64, None):
            words_ = [*call(sub, []), *([] if told is None else ["--threads", str(told)]), *rest]
            got, most, share = threads_seen(words_)
            expect(f"{words_}", got, SOME, b"", 0)
            right = most == 1 if told == 1 else 1 < most <= (told or most) and (sub != "prefixes" or share > 0.25)
            count(f"the threads of {words_}", None if right else f"at most {most}, and several in {share:.2f} of the looks")
    script = put("threads/script", "install shortest a\n" * 60)
    for nodes, several in ((ALONE_NODES, False), (ALONE_NODES + 1, True)):
        net = put("threads/net", with_chords(nodes, 24 * nodes))
        got, most, _ = threads_seen(["sim", net, script])
        expect(f"a run over {nodes} nodes", got, b"trace 1\n", b"", 0)
        count("its threads", None if (most > 1) == several else f"at most {most}")
