"""Words: those that are understood and those that are not, and what the numbers of options come to."""
from __future__ import annotations

from typing import List

from support.checks import count
from support.limits import CAPACITY, DEFAULT_CAPACITY, PACKETS, RESTAMPS, THREADS, VERSION
from support.marks import built
from support.route import ANY, Got, NAMES, SOME, TEXTS, alike, call, expect, good_files, put, run
from support.saying import wrong_words

pytestmark = [built]


def test_words() -> None:
    good_files()
    for line in wrong_words():
        expect(f"not understood: {line}", run(line, b"a b\n"), b"", SOME, 2)
    for sub, texts in (("sim", "a topology file and a script file"), ("live", "a topology file and a script file"),
                       ("check", "a topology file, a script file and a trace file")):
        files = "<TOPOLOGY> <SCRIPT> <TRACE>" if sub == "check" else "<TOPOLOGY> <SCRIPT>"
        told = (f"error: 'route {sub}' takes {texts}, or '-' alone\n\nUsage: route {sub} [OPTIONS] {files}\n"
                f"       route {sub} [OPTIONS] -\n\nFor more information, try '--help'.\n").encode()
        for given in (["good/topology"], ["-", "good/script"], ["good/topology", "-"]):
            expect(f"what {sub} {given} is told", run([sub, *given]), b"", told, 2)
    expect("words that are no text", run([b"\xff"]), b"", b"route: an argument is not valid UTF-8\n", 2)
    for line in (["--help"], ["-h"], ["help"], ["--version"], *([sub, "--help"] for sub in TEXTS),
                 *([sub, "-h"] for sub in TEXTS), *(["help", sub] for sub in TEXTS)):
        expect(f"understood: {line}", run(line), SOME, b"", 0)
    expect("the version", run(["--version"]), f"route {VERSION}\n".encode(), b"", 0)
    for sub, part in (("plan", b"-o, --output <FILE>"), ("sim", b"--capacity"), ("sim", b"inject"), ("live", b"inject"), ("sim", b"it stamps packets with the greatest epoch that it learnt"), ("prefixes", b"--disjoint"), ("ranges", b"FROM-TO"),
                      ("plan", b"--order"), ("stats", b"--with"), ("check", b"whether rows are missing"), ("check", b"--whole"),
                      ("check", b"NotYetInstalled")):
        help_text = run([sub, "--help"])[0]
        count(f"what {sub} --help tells of", None if part in help_text else f"there is no {part}")  # type: ignore[str-bytes-safe]
    for sub, parts in TEXTS.items():
        files = [f"good/{name}" for name in NAMES[:parts]]  # type: ignore[assignment]
        expect(f"{sub}: status 0", run(call(sub, files)), SOME, b"", 0)
        greatest = ["--threads", str(THREADS)] if parts == 1 else ["--capacity", str(CAPACITY), "--packets", str(PACKETS)]
        greatest += ["--restamps", str(RESTAMPS)] if parts == 2 else []
        expect(f"{sub} {greatest}: status 0", run(call(sub, files, *greatest)), SOME, b"", 0)
        least = ["--threads", "1"] if parts == 1 else ["--capacity", "1", "--packets", "1"]
        expect(f"{sub}: status 0 with the least", run(call(sub, files, *least)), SOME, b"", 0)
        expect(f"{sub}: status 1", run(call(sub, files, "--root", "z")), b"", b"opening NoNode\n", 1)
        short_options(sub, files)  # type: ignore[arg-type]
    put("good/untrue", "trace 1\n0 1 a c 2 delivered a b\n")
    found = run(call("check", ["good/topology", "good/script", "good/untrue"]))
    expect("a finding: status 1", found, b"finding 2 NotAtDestination\n", b"", 1)


RULES = [  # words that break a rule on others, and what the program says of each
    (["draw", "--node", "a", "--from", "a", "--to", "b"], "'--node' cannot be used with '--from' or '--to'"),
    (["draw", "--node", "a", "--to", "b"], "'--node' cannot be used with '--from' or '--to'"),
    (["draw", "--from", "a"], "'--from' requires '--to'"),
    (["draw", "--to", "a"], "'--to' requires '--from'"),
    (["draw", "--svg"], "'--svg' requires '--node'"),
    (["plan", "--kind", "tree", "--numbering", "tour"], "'--kind tree' works only with '--numbering depth-first'"),
    (["sim", "--kind", "landmark", "--numbering", "tour"], "'--kind landmark' cannot be used with '--numbering': its landmarks number the nodes"),
    (["plan", "--numbering", "-"], "'--numbering' takes 'depth-first', 'tour' or a file name, not '-'"),
    (["plan", "--root", "a", "--numbering", "order"], "'--root' cannot be used with a '--numbering' file, whose first node is the root"),
    (["plan", "--stretch", "200"], "'--landmarks' and '--stretch' require '--kind landmark'"),
    (["stats", "--with", "best"], "'--with' takes 'tree', 'shortest', 'compact' or 'landmark', optionally with a root after a comma"),
]


def test_words_of_rules() -> None:
    """What the program says of words that are understood one by one, and do not go together."""
    for line, told in RULES:
        text = f"error: {told}\n\nFor more information, try '--help'.\n".encode()
        expect(f"what {line} is told", run([*line, "-"], b"a b\n"), b"", text, 2)


def short_options(sub: str, files: List[str]) -> None:
    """A letter does what its word does, beside its value, after `=` and in one word with it."""
    for letter, word, value in (("-f", "--format", "adjlist"), ("-k", "--kind", "compact"), ("-r", "--root", "b"), ("-n", "--numbering", "tour"),
                                ("-o", "--output", "-")):
        want = run(call(sub, files, word, value))
        for words_ in ([letter, value], [f"{letter}={value}"], [f"{letter}{value}"], [f"{word}={value}"]):
            alike(f"{sub} {words_}", run(call(sub, files, *words_)), want)


def inbox_of(packets: int, *options: str) -> Got:
    """Packets into one inbox, and nothing else."""
    return run(["sim", *options, "-"], b"a b\n%%\n" + b"inject a b\n" * packets)


def channel_of(packets: int, *options: str) -> Got:
    """Packets that one node takes and sends over one link, and then a drain."""
    return run(["sim", *options, "-"], b"a b\n%%\n" + b"inject a b\ntake a inbox\nact a\n" * packets + b"drain\n")


def rows_of(packets: int, row: bytes) -> bytes:
    return b"".join(b"%d 1 a b %s\n" % (i, row) for i in range(packets))


def drained_few(packets: int) -> str:
    """So many packets, drained before an inbox is full."""
    return "".join("inject a b\n" + ("drain\n" if i % 16 == 15 else "") for i in range(packets))


def retired_at_each(nodes: int) -> bytes:
    """A script in which the epoch of a packet from a to e is retired before each of its first nodes acts on it."""
    lines = ["inject a e"]
    for i, (u, way) in enumerate(zip("abcde"[:nodes], ["inbox", "from a", "from b", "from c", "from d"])):
        lines += [f"install tree a\nretire {i + 2}", f"take {u} {way}", f"read {u} {2 * i + 2}", f"act {u}"]
    return "\n".join(lines).encode() + b"\n"


def stamped(times: int) -> bytes:
    """Its row, where it may be stamped anew so many times."""
    if times == 0:
        return b"trace 1\n0 1 a e 0 retired a\n"
    parts = [f"#{k + 1} {' '.join('abcde'[k - 1 : k + (k < times)])}" for k in range(1, times + 1)]
    return f"trace 2\n0 a e {times - 1} retired #1 a {' '.join(parts)}\n".encode()


def test_numbers() -> None:
    """An inbox and a channel hold as many packets as --capacity says, a run as many as --packets, and a packet gets as many stamps
    as --restamps: the least, the most, what is between, and what is taken where the option is not there."""
    for told in (None, 1, 2, 15, 16, 17, 64, 255, 256, 512, 513, CAPACITY - 1, CAPACITY):
        words_ = [] if told is None else ["--capacity", str(told)]
        held = told or DEFAULT_CAPACITY
        wanted = b"trace 1\n" + rows_of(held, b"0 left a")
        expect(f"an inbox, {words_}", inbox_of(held + 1, *words_), wanted, f"refused {held + 1} InboxFull\n".encode(), 0)
        wanted = b"trace 1\n" + rows_of(held, b"1 delivered a b") + b"%d 1 a b 0 full a b a\n" % held
        expect(f"a channel, {words_}", channel_of(held + 1, *words_), wanted, b"", 0)
    for told in (None, 1, 2, 255, 256, 257, 4_000, PACKETS - 1, PACKETS):
        words_ = [] if told is None else ["--packets", str(told)]
        most = told or PACKETS
        script = drained_few(most) + "drain\ninject a b\n"
        line = script.count("\n")
        for sub in ("sim", "live"):
            wanted = b"trace 1\n" + rows_of(most, b"1 delivered a b")
            got = run([sub, *words_, "-"], f"a b\n%%\n{script}".encode())
            expect(f"packets of {sub}, {words_}", got, wanted, f"refused {line} TooManyPackets\n".encode(), 0)
    row = b"a b\nb c\nc d\nd e\n%%\n"
    for told in (None, *range(RESTAMPS + 1)):
        words_ = [] if told is None else ["--restamps", str(told)]
        got = run(["sim", *words_, "-"], row + retired_at_each(RESTAMPS + 1))
        expect(f"a packet that is retired at each node, {words_}", got, stamped(told or 0), ANY, 0)
