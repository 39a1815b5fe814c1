"""The script that install.sh puts in front of the program: forms for people, reasons of the system, words of its own.

Where standard output is no terminal it is the program's bytes.
"""
from __future__ import annotations

import fcntl
import os
import re
import shutil
import struct
import subprocess
import sys
import termios
from typing import Any, Dict, List, Optional, Sequence, Tuple

from support.checks import count, skip
from support.limits import SECONDS, VERSION
from support.marks import built
from support.places import TOP, program, work
from support.route import SOME, Got, Terminal, expect, good_files, put, run

pytestmark = [built]

NSFNET = os.path.join(TOP, "examples/nsfnet.edgelist")
NO_COLOURS = re.compile(r"\x1b\[[0-9]*m")


def installed() -> str:
    """Install the program in the folder of the test; return the script's path."""
    top, prefix = work("top"), work("prefix")
    if not os.path.isdir(prefix):
        os.makedirs(f"{top}/crates/route/out")
        for name in ("docs", "completions", "examples", "packaging", "python"):
            os.symlink(os.path.join(TOP, name), f"{top}/{name}")
        shutil.copy(os.path.join(TOP, "install.sh"), top)
        os.symlink(program(), f"{top}/crates/route/out/route")
        done = subprocess.run(["./install.sh", prefix], cwd=top, stdout=subprocess.PIPE, stderr=subprocess.STDOUT, timeout=SECONDS)
        count("install.sh", None if done.returncode == 0 else str(done.stdout))
    return f"{prefix}/bin/bentzolu"


def inner() -> str:
    """Return the path of the program itself, by which it calls itself bentzolu."""
    return os.path.join(os.path.dirname(installed()), "../libexec/bentzolu/bentzolu")


def shown(words: Sequence[str], columns: int = 80, environment: Optional[Dict[str, str]] = None, **more: Any) -> Tuple[str, str, int]:
    """Return what the script prints on a terminal of so many columns, its faults and its status."""
    terminal = Terminal()
    fcntl.ioctl(terminal.end, termios.TIOCSWINSZ, struct.pack("HHHH", 40, columns, 0, 0))
    env = {**os.environ, "TERM": "xterm", **(environment or {})}
    done = subprocess.run([installed(), *words], stdin=subprocess.DEVNULL, stdout=terminal.end, stderr=subprocess.PIPE, env=env, cwd=work(), timeout=SECONDS, **more)
    return terminal.close().decode().replace("\r\n", "\n"), done.stderr.decode(), done.returncode


def plainly(text: str) -> str:
    """Return a text without its colours."""
    return NO_COLOURS.sub("", text)


def test_front_bytes() -> None:
    """Off a terminal each output and status is that of the program, and a fault has its line first and then its sentence."""
    good_files()
    script, own = installed(), inner()
    for words_ in (["plan", NSFNET], ["stats", NSFNET], ["compare", NSFNET], ["draw", NSFNET], ["draw", "--node", "Houston", "--svg", NSFNET],
                   ["stats", "--json", NSFNET], ["sim", "good/topology", "good/script"], ["check", "good/topology", "good/script", "good/trace"], ["--help"], ["-h"], ["plan", "-h"], ["help", "plan"],
                   ["--version"], ["-V"], ["frob"], ["plan"], ["plan", "--frob", "-"], ["walk", "--from", "Seattle", "--to", "Houston", NSFNET],
                   ["plan", "--quiet", "no file"], ["plan", "--no-explain", "no file"], ["xdp", "table", "1", "--node", "a", "good/topology"]):
        got, want = run(words_, program=script), run(words_, program=own)
        told = [re.sub(rb"(Usage: bentzolu \w+) (--explain|\[OPTIONS\])", rb"\1", it) for it in (got[1], want[1])]  # it has that word
        expect(f"{words_} off a terminal", (got[0], told[0], got[2]), want[0], told[1], want[2])
    expect("a topology by standard input", run(["plan", "-"], b"a b\n", program=script), run(["plan", "-"], b"a b\n", program=own)[0], b"", 0)
    expect("no words", run([], b"a b\n%%\ninject a b\ndrain\n", program=script), b"trace 1\n0 1 a b 1 delivered a b\n", b"", 0)
    expect("a fault", run(["plan", "no file"], program=script), b"", b"topology unreadable\nbentzolu: no file: no such file\n", 1)
    put("bad.edgelist", "a b 0\n")
    got = run(["plan", "bad.edgelist"], program=script)
    count("a fault has its file and line", None if re.fullmatch(rb"topology 1 BadWeight\nbentzolu: bad\.edgelist:1: .+\n", got[1]) else str(got))
    put("bent", "trace 1\n0 1 a c 2 delivered a c\n")
    got = run(["check", "good/topology", "good/script", "bent"], program=script)
    count("a finding has its sentence", None if got[0] and got[2] == 1 and got[1].startswith(b"bentzolu: bent:2: ") else str(got))
    put("other.txt", "a b 3\nb c 4\nc a 5\n")
    got = run(["plan", "other.txt"], program=script)
    count("a list of another format is reported", None if got[2] == 0 and b"--format edgelist" in got[1] else str(got))
    link = work("linked")
    os.symlink(script, link)
    expect("by a link", run(["--version"], program=link), f"bentzolu {VERSION}\n".encode(), b"", 0)


def test_front_figures() -> None:
    """On a terminal `compare` and `stats` have aligned columns with decimals, and colours unless they are not wanted."""
    text, faults, status = shown(["compare", NSFNET])
    lines = plainly(text).splitlines()
    count("compare has colours", None if "\x1b[" in text and (faults, status) == ("", 0) else f"{text!r} {faults} {status}")
    count("compare has a head", None if lines[0] == "14 nodes, 21 links" and lines[2].split("  ")[0] == "Kind" else str(lines[:3]))
    rows = lines[3:lines.index("", 3)]
    want = run(["compare", NSFNET])[0].decode().splitlines()[2:]
    count("compare has each row", None if len(rows) == len(want) else str(rows))
    for row, line in zip(rows, want):
        cells, wanted = re.split(r"  +", row), line.split()
        wanted = ["full tables" if it == "tables" else {"cycle": "possible", "acyclic": "none"}.get(it, it) for it in wanted]
        wanted = [f"{int(it.split('/')[0]) / int(it.split('/')[1]):.2f}" if "/" in it else it for it in wanted]
        count(f"compare: {line}", None if cells == wanted else str(cells))
    found = [re.match(r".*?\S+  +\S.*?  +[\d-]+(?=  )", row) for row in rows]
    ends = {len(it[0]) for it in found if it}
    count("its columns are aligned", None if len(ends) == 1 else f"{ends}")
    plain: List[Tuple[List[str], Dict[str, str]]] = [
        (["compare", "--color", "never", NSFNET], {}), (["compare", NSFNET], {"NO_COLOR": "1"}), (["compare", NSFNET], {"TERM": "dumb"})]
    for words_, environment in plain:
        again = shown(words_, environment=environment)[0]
        count(f"no colours: {words_} {environment}", None if again == plainly(text) else repr(again))
    piped = run(["--pretty", "compare", NSFNET], program=installed())[0].decode()
    count("--pretty in a pipe", None if piped == plainly(text) else piped)
    coloured = run(["compare", "--color=always", NSFNET], program=installed())[0].decode()
    count("--color=always in a pipe", None if coloured == text else coloured)
    text = plainly(shown(["stats", "--kind", "tree", NSFNET])[0])
    for part in ("tree plan of 14 nodes and 21 links", "Intervals    26; full tables have 182 entries", "none possible", "1.89 times"):
        count(f"stats: {part}", None if part in text else text)
    count("a bound of landmarks", None if "no path above 150 percent" in shown(["stats", "--kind", "landmark", "--stretch", "150", NSFNET])[0] else "it lacks")
    for words_ in (["compare", "no file"], ["stats", "no file"]):
        text, faults, status = shown(words_)
        count(f"{words_} on a terminal", None if (text, status) == ("", 1) and faults.startswith("topology unreadable\n") else f"{text!r} {faults} {status}")
    for words_ in (["stats", "--json", NSFNET], ["plan", NSFNET]):
        text, _, status = shown(words_)
        count(f"{words_} is as it is", None if (text.encode(), status) == (run(words_)[0], 0) else text)
    expect("a word for colours", run(["--color", "blue", "plan", NSFNET], program=installed()), b"", SOME, 2)


def test_front_help() -> None:
    """On a terminal help is as wide as that, with examples and the exit status; -h is short."""
    for words_ in (["--help"], ["-h"], ["help", "plan"], *([sub, "--help"] for sub in ("plan", "walk", "stats", "compare", "diff", "draw", "prefixes", "ranges", "sim", "live", "check"))):
        for columns in (60, 80, 200):
            text, faults, status = shown(words_, columns)
            widest = max(map(len, plainly(text).splitlines()))
            limit = min(columns, 100)
            unbroken = [line for line in plainly(text).splitlines() if len(line) > limit and " " in line.strip()]
            count(f"{words_} at {columns}", None if not unbroken and status == 0 and faults == "" else f"{widest}: {unbroken[:2]} {faults}")
        if "-h" not in words_:
            want = " ".join(run(words_)[0].decode().replace("route", "bentzolu").split())
            count(f"{words_} has all words of the program", None if want in " ".join(plainly(text).split()) else f"{plainly(text)}")
            count(f"{words_} has examples and the exit status", None if "Examples:" in text and "Exit status:" in text else text)
    short, long = shown(["plan", "-h"])[0], shown(["plan", "--help"])[0]
    count("-h is short", None if len(short.splitlines()) < 30 and len(short) < len(long) / 1.5 else short)
    text = plainly(shown(["--help"])[0])
    count("the words of the package are there", None if all(f"  {word}" in text for word in ("generate", "convert", "completions")) else text)


def test_front_version() -> None:
    """On a terminal the version has the commit, the kit, and whether the program was proved."""
    lines = plainly(shown(["--version"])[0]).splitlines()
    count("the version first", None if lines[0] == f"bentzolu {VERSION}" else str(lines))
    count("what is known of it", None if [line.split()[0] for line in lines[1:]] == ["commit", "kit", "proved", "sha256"] else str(lines))
    count("it is as it was installed", None if "replaced" not in lines[3] else lines[3])
    with open(os.path.join(os.path.dirname(installed()), "../libexec/bentzolu/bentzolu.built"), "a", encoding="ascii") as file:
        file.write("sha256 0\n")
    lines = plainly(shown(["--version"])[0]).splitlines()
    count("another program is reported", None if "the program was replaced" in lines[3] else lines[3])


def test_front_reasons() -> None:
    """After an output that is not written, the system's reason stands."""
    good_files()
    script = installed()
    os.makedirs(work("folder"), exist_ok=True)
    line = b"output unwritable\n"

    def reason(name: str, got: Got, said: bytes) -> None:
        fits = got[2] == 1 and got[1].startswith(line) and got[1].endswith(said + b"\n") and got[1].count(said) == 1
        count(name, None if fits else str(got))

    for file, said in (("nodir/o", b"bentzolu: nodir/o: No such file or directory"), ("folder", b"bentzolu: folder: Is a directory"),
                       ("good/topology/o", b"bentzolu: good/topology/o: Not a directory"), ("/dev/full", b"bentzolu: /dev/full: No space left on device")):
        for words_ in (["plan", "-o", file, "good/topology"], ["plan", f"--output={file}", "good/topology"]):
            reason(f"{words_}", run(words_, program=script), said)
        expect(f"{file}, --quiet", run(["plan", "--quiet", "-o", file, "good/topology"], program=script), b"", b"", 1)
        expect(f"{file}, --no-explain", run(["plan", "--no-explain", "-o", file, "good/topology"], program=script), b"", line, 1)
    with open("/dev/full", "wb") as full:
        reason("standard output", run(["plan", "good/topology"], program=script, stdout=full), b"bentzolu: standard output: No space left on device")
    expect("a file that may be written", run(["plan", "-o", "out", "good/topology"], program=script), b"", b"", 0)
    with open(work("full"), "wb") as out:
        expect("standard output is a file", run(["plan", "good/topology"], program=script, stdout=out), b"", b"", 0)
    count("no file is left behind", [name for name in os.listdir(work()) + os.listdir(work("folder")) if name.startswith(".bentzolu")] or None)


def test_front_generate() -> None:
    """`generate topology` makes the networks of the benches, and refuses other words in a sentence."""
    script = installed()
    for words_ in (["ring", "9"], ["grid", "3", "4"], ["--weights", "random", "20", "40"], ["fattree", "4"], ["--seed", "7", "scalefree", "30", "2"]):
        want = subprocess.run([sys.executable, "bench/networks.py", *words_], cwd=TOP, stdout=subprocess.PIPE).stdout
        expect(f"generate topology {words_}", run(["generate", "topology", *words_], program=script), want, b"", 0)
    made = run(["generate", "topology", "grid", "8", "8"], program=script)[0]
    expect("a first plan", run(["stats", "-"], made, program=script), SOME, b"", 0)
    wrong: List[Tuple[List[str], bytes]] = [
        (["gird", "3", "3"], b"did you mean 'grid'?"), (["grid", "3"], b"ROWS and COLUMNS"), (["random", "3", "100"], b"2 to 3 links"),
        (["complete", "60000"], b"at most 131,072"), (["ring", "x"], b"whole number"), (["fattree", "3"], b"even"), ([], b"families are")]
    for words_, said in wrong:
        got = run(["generate", "topology", *words_], program=script)
        count(f"generate topology {words_}", None if got[0] == b"" and said in got[1] and got[2] == 2 and got[1].count(b"\n") == 1 else str(got))
    expect("into a file", run(["generate", "topology", "path", "3", "-o", "made"], program=script), b"", b"", 0)
    with open(work("made"), "rb") as file:
        count("the file", None if file.read() == b"# A path: path 3\nn0 n1\nn1 n2\n" else "another text")


def test_front_further() -> None:
    """Completions by the program itself; and a drawing in colours, which Graphviz takes."""
    script = installed()
    for shell, file in (("bash", "route.bash"), ("zsh", "_route"), ("fish", "route.fish")):
        got = run(["completions", shell], program=script)
        with open(os.path.join(TOP, "completions", file), "rb") as it:
            count(f"completions {shell}", None if got[2] == 0 and got[0].count(b"\n") == it.read().count(b"\n") else str(got[1:]))
    expect("completions of no shell", run(["completions", "csh"], program=script), b"", SOME, 2)
    put("odd.adjlist", "a<&\"\\ b\nb c>\n")
    for file in (NSFNET, "odd.adjlist"):
        drawn = run(["draw", "--color", "always", file], program=script)
        count(f"{file} is drawn in colours", None if drawn[2] == 0 and drawn[0].count(b"color=") > 3 else str(drawn))
        if not shutil.which("dot"):
            skip("draw", "there is no dot here (Debian: graphviz)")
            continue
        done = subprocess.run(["dot", "-Tsvg"], input=drawn[0], stdout=subprocess.PIPE, stderr=subprocess.PIPE, timeout=SECONDS)
        count(f"Graphviz takes the drawing of {file}", None if (done.returncode, done.stderr) == (0, b"") and b"</svg>" in done.stdout else str(done.stderr))
