"""The library for C, from C and from Python, and the packages that have it; `tests/library` runs it.

It calls the library over the worked examples of the program, each with room for all of the output and once more with room
for half of it, in a program of C that is made with the sanitizers of gcc where it has them; runs library/example.c; calls
it over the same examples in a process of Python; runs the tests of the Python package with it; installs the package from a
wheel that has it; and makes, reads, installs and removes the Debian package. The library is site/out/libbentzolu.a and .so,
which `site/make c` makes, or `site/make`; the variable LIBRARY names another folder.
"""
from __future__ import annotations

import glob
import json
import os
import re
import shutil
import struct
import subprocess
import sys
from typing import Any, Dict, List, Optional, Tuple

from support import checks
from support.checks import say
from support.limits import CAPACITY, NET_NODES, PACKETS
from support.marks import alone, slow, within
from support.networks import crossing
from support.places import TOP, built_program, work

FOLDER = os.path.abspath(os.environ.get("LIBRARY") or os.path.join(TOP, "site/out"))
ARCHIVE, SHARED = f"{FOLDER}/libbentzolu.a", f"{FOLDER}/libbentzolu.so"
ROUTE = built_program()
Done = subprocess.CompletedProcess
Case = Dict[str, Any]

os.chdir(TOP)


def count(what: str, fits: object) -> None:
    """Counts a check, which passed where this is true."""
    checks.count(what, None if fits else "it does not")


def skip(why: str) -> None:
    """Counts what can't be tried here."""
    checks.skip("library", why)


def is_made() -> bool:
    """Whether the library is made; where it isn't, that is counted as skipped."""
    made_ = os.path.isfile(ARCHIVE) and os.path.isfile(SHARED)
    if not made_:
        skip(f"there is no {os.path.relpath(ARCHIVE, TOP)}, which site/make c makes, and nothing was tried")
    return made_


def ran(*words: str, **how: Any) -> "Done[str]":
    """A program that ran to its end, with what it printed."""
    return subprocess.run(words, stdout=subprocess.PIPE, stderr=subprocess.STDOUT, text=True, **how)


def ends_well(what: str, it: "Done[str]") -> bool:
    """Counts whether it ended with status 0."""
    count(f"{what}: {it.stdout[-2000:]}", it.returncode == 0)
    return it.returncode == 0


def made(source: str, out: str, *further: str) -> bool:
    """Makes a program of a file in C and the library."""
    return ran("cc", "-O1", "-Wall", "-Wextra", "-Werror", *further, "-I", "library", "-o", out, source, ARCHIVE).returncode == 0


MOST_WORDS = ["sim", "--format", "adjlist", "--kind", "shortest", "--root", "a", "--numbering", "depth-first", "--capacity", str(CAPACITY),
              "--packets", str(PACKETS), "--restamps", "0", "--landmarks", "1", "--stretch", "300", "--explain"]  # of a call, but its files


class Callee:
    """A program of library/cases.c."""

    def __init__(self, program: str) -> None:
        self.process = subprocess.Popen([program], stdin=subprocess.PIPE, stdout=subprocess.PIPE)

    def call(self, words: List[str], inputs: List[str], room: int) -> Tuple[int, int, bytes, bytes, int]:
        texts = ["".join(word + "\n" for word in words), *inputs, "", "", ""][:4]
        encoded = [text.encode() for text in texts]
        into, out = self.process.stdin, self.process.stdout
        assert into is not None and out is not None
        into.write(struct.pack("=5Q", *map(len, encoded), room) + b"".join(encoded))
        into.flush()
        status, output, faults, is_kept = struct.unpack("=4Q", out.read(32))
        return status, output, out.read(min(output, room)), out.read(faults), is_kept


def cases() -> List[Case]:
    """The worked examples, but those of `live`."""
    with open("crates/route_tests/data/cases.json", encoding="utf-8") as file:
        return [case for case in json.load(file) if case["words"][0] != "live"]


def try_case(callee: Callee, case: Case) -> None:
    """A worked example, with room for all and with room for half of the output."""
    wanted, told = case["stdout"].encode(), case["stderr"].encode()
    for room in {len(wanted), len(wanted) // 2}:
        answer = callee.call(case["words"], case["inputs"], room)
        count(f"{case['name']}, room {room}: {answer}", answer == (case["status"], len(wanted), wanted[:room], told, 1))


@alone
@slow
@within(1_800)
def test_c() -> None:
    """The worked examples and library/example.c, in programs of C."""
    if not is_made():
        return
    folder = work()
    if not shutil.which("cc"):
        skip("there is no cc here, and no program in C was made")
        return
    sanitized = made("library/cases.c", f"{folder}/cases", "-fsanitize=address,undefined")
    count("library/cases.c is made", sanitized or made("library/cases.c", f"{folder}/cases"))
    callee = Callee(f"{folder}/cases")
    for case in cases():
        try_case(callee, case)
    answer = callee.call(["live", "network", "script"], ["a b\n", "drain\n"], 0)
    count(f"live: {answer}", answer == (3, 0, b"", b"no thread\n", 1))
    words = ["xdp", "table", "300", "--node", "b", "network"]
    answer = callee.call(words, ["a b\nb c\n"], 4096)
    data = b"".join(struct.pack("<I", int(word, 16)) for word in answer[2].split())
    answer = callee.call([*words, "--binary"], ["a b\nb c\n"], 4096)
    count(f"a table as bytes: {answer}", answer == (0, 128, data, b"", 1) and data[:4] == b"\x2c\x01\0\0")
    answer = callee.call(["plan", "--kind", "fast", "network"], ["a b\n"], 64)
    count(f"words that are refused: {answer}", answer[:3] == (2, 0, b"") and answer[3].startswith(b"error: "))
    assert callee.process.stdin is not None
    callee.process.stdin.close()
    count("it ends without a fault", callee.process.wait() == 0)
    count("library/example.c is made", made("library/example.c", f"{folder}/example"))
    try_example(ran(f"{folder}/example"))


def try_example(it: "Done[str]") -> None:
    """Counts whether library/example.c printed a plan and a trace."""
    lines = it.stdout.splitlines()
    count(f"library/example.c: {it}", it.returncode == 0 and lines[0].startswith("plan shortest 4 ") and "trace 1" in lines)


@alone
@slow
@within(1_800)
def test_python() -> None:
    """The same examples in this process, and the tests of the package with the library."""
    if not is_made():
        return
    sys.path.insert(0, "python")
    from bentzolu import inside  # type: ignore[import]

    library = inside.Library(SHARED)
    for case in cases():
        answer = library.answer(case["words"], [text.encode() for text in case["inputs"]])
        count(f"{case['name']}, in Python: {answer}", answer == (case["status"], case["stdout"].encode(), case["stderr"].encode()))
    topology, script, trace = crossing(NET_NODES, PACKETS, CAPACITY)
    answer = library.answer([*MOST_WORDS, "topology", "script"], [topology.encode(), script.encode()])
    count(f"the longest trace, by the most words: {answer[0]}, {len(answer[1])} bytes, {answer[2]}", answer == (0, trace.encode(), b""))
    answer = library.answer(["sim"] + 39 * ["--frob"], [b"a b\n", b""])
    count(f"forty words: {answer}", answer[:2] == (2, b"") and answer[2].startswith(b"error: "))
    if not os.access(ROUTE, os.X_OK):
        skip("the program is not built, and the tests of the Python package were not run with the library")
        return
    it = ran("tests/python", env={**os.environ, "BENTZOLU_LIBRARY": SHARED, "BENTZOLU_ROUTE": ROUTE})
    last = re.search(r"(\d+) passed, (\d+) failed, (\d+) skipped\n$", it.stdout)
    if ends_well("tests/python with the library", it) and last:
        say(f"library: tests/python with the library: {last[0].strip()}")


def python_of_wheels() -> Optional[str]:
    """A python3 that makes wheels with what is here."""
    for python in ("python3", "/usr/bin/python3"):
        if shutil.which(python) and ran(python, "-c", "import setuptools, wheel, pip").returncode == 0:
            return python
    return None


@alone
@slow
@within(1_800)
def test_wheel() -> None:
    """The package from a wheel, without a program."""
    if not is_made():
        return
    folder = work()
    os.mkdir(f"{folder}/package")
    python = python_of_wheels()
    if python is None:
        skip("there is no python3 with pip and wheel here (Debian: python3-pip, python3-wheel), and no wheel was made")
        return
    for name in ("bentzolu", "README.md", "pyproject.toml", "setup.py"):
        if os.path.isdir(f"python/{name}"):
            shutil.copytree(f"python/{name}", f"{folder}/package/{name}")
        else:
            shutil.copy(f"python/{name}", f"{folder}/package/{name}")
    shutil.copy(SHARED, f"{folder}/package/bentzolu/libbentzolu.so")
    pip = [python, "-m", "pip", "--quiet", "--disable-pip-version-check"]
    further = {"env": {**os.environ, "PIP_ROOT_USER_ACTION": "ignore"}}
    if not ends_well("a wheel", ran(*pip, "wheel", "--no-deps", "--no-index", "--no-build-isolation", "-w", f"{folder}/wheel", f"{folder}/package", **further)):
        return
    wheel, = glob.glob(f"{folder}/wheel/*.whl")
    count(f"the wheel is of this platform: {wheel}", "-py3-none-linux_" in wheel)
    if not ends_well("its install", ran(*pip, "install", "--no-deps", "--no-index", "--target", f"{folder}/installed", wheel, **further)):
        return
    said = "import bentzolu; print(bentzolu.plan([('a', 'b'), ('b', 'c')]), bentzolu.inside.library().path)"
    it = ran(python, "-c", said, cwd="/", env={"PYTHONPATH": f"{folder}/installed", "PATH": "/nowhere"}, executable=shutil.which(python))
    count(f"a plan by the wheel, without a program: {it}", it.stdout == f"<Plan shortest of 3 nodes: 4 intervals> {folder}/installed/bentzolu/libbentzolu.so\n")


@alone
@slow
@within(1_800)
def test_package() -> None:
    """The Debian package: made, read, installed and removed."""
    if not is_made():
        return
    folder = work()
    wanted = [tool for tool in ("dpkg-deb", "dpkg", "strip", "objdump") if not shutil.which(tool)]
    if wanted or not os.access(ROUTE, os.X_OK):
        skip(f"there is no {', '.join(wanted) or 'program'} here, and no Debian package was made")
        return
    it = ran("packaging/deb", f"{folder}/deb", env={**os.environ, "BENTZOLU_ROUTE": ROUTE, "LIBRARY": FOLDER})
    if not ends_well("packaging/deb", it):
        return
    package, = glob.glob(f"{folder}/deb/*.deb")
    if shutil.which("lintian"):
        it = ran("lintian", "--allow-root", "--tag-display-limit", "0", package)
        count(f"lintian: {it.stdout}", not re.search("^E: ", it.stdout, re.M) and it.returncode in (0, 1))
    else:
        skip("there is no lintian here, and the Debian package was not looked at")
    root, state = f"{folder}/system", f"{folder}/system/var/lib/dpkg"
    os.makedirs(f"{state}/info")
    os.makedirs(f"{state}/updates")
    open(f"{state}/status", "w").close()
    dpkg = ["dpkg", f"--root={root}", "--force-depends", "--force-not-root", "--force-script-chrootless", "--log=/dev/null"]
    if ends_well("its install", ran(*dpkg, "--install", package)):
        try_installed(folder, root)
    ends_well("its removal", ran(*dpkg, "--purge", "bentzolu"))
    left = [f"{at}/{name}" for at, _, names in os.walk(f"{root}/usr") for name in names]
    count(f"nothing is left of it: {left}", not left)


def try_installed(folder: str, root: str) -> None:
    """The files of the package, as they lie in a system."""
    usr = f"{root}/usr"
    count("the program is that of the manual page", ran(f"{usr}/bin/bentzolu", "--version").stdout.startswith("bentzolu "))
    library = os.path.dirname(glob.glob(f"{usr}/lib/*/libbentzolu.so.1")[0])
    if shutil.which("cc"):
        words = ["-I", f"{usr}/include", "-o", f"{folder}/packaged", f"{usr}/share/doc/bentzolu/example.c", "-L", library, "-lbentzolu"]
        if ends_well("the example by the package", ran("cc", *words)):
            try_example(ran(f"{folder}/packaged", env={"LD_LIBRARY_PATH": library}))
    of_plane = ["man1/bentzolu-xdp.1"] if os.path.exists(f"{usr}/bin/bentzolu-xdp") else []
    for page in ("man1/bentzolu.1", "man3/bentzolu.3", "man3/bentzolu_run.3", *of_plane):
        count(page, ran("zcat", f"{usr}/share/man/{page}.gz").stdout.startswith((".", "'")))
    with open(f"{usr}/share/doc/bentzolu/lab.html", "rb") as packed, open("docs/lab.html", "rb") as own:
        count("the page is in the package", packed.read() == own.read())
    said = "import bentzolu; print(bentzolu.plan([('a', 'b'), ('b', 'c')]), bentzolu.inside.library().path)"
    it = ran(sys.executable, "-c", said, cwd="/", env={"PYTHONPATH": f"{usr}/lib/python3/dist-packages", "LD_LIBRARY_PATH": library, "PATH": "/nowhere"})
    count(f"a plan by the package of Python: {it}", it.stdout == "<Plan shortest of 3 nodes: 4 intervals> libbentzolu.so.1\n")
