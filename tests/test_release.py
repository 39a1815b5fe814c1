"""What `packaging/release` makes, as someone gets it who has no toolchain; `tests/library` runs it.

The tarball is unpacked, called by a link, and moved. As root, where busybox-static is, the program runs in a folder that
has no C library but its own. The sums are those of the files.
"""
from __future__ import annotations

import glob
import os
import re
import shutil
import subprocess
import sys
from typing import Any, Dict, List

from support import checks
from support.marks import alone, slow, within
from support.places import TOP, built_program, work

FOLDER = os.path.abspath(os.environ.get("LIBRARY") or os.path.join(TOP, "site/out"))
ROUTE = built_program()
BUSYBOX = "/bin/busybox"
NETWORK = "a b c\nb d e\nc f\n"
KERNEL = (4, 4)  # of Linux in January 2016


def count(what: str, fits: object) -> None:
    """Count a check, which passed where this is true."""
    checks.count(what, None if fits else "it does not")


def ran(*words: str, **how: Any) -> "subprocess.CompletedProcess[str]":
    """Return a program that ran to its end, with what it printed."""
    return subprocess.run(words, stdout=subprocess.PIPE, stderr=subprocess.STDOUT, universal_newlines=True, **how)


def missing() -> List[str]:
    """Return what a release is made of or by, and is not here."""
    files = [f"{FOLDER}/libbentzolu.a", f"{FOLDER}/libbentzolu.so", ROUTE]
    tools = ["dpkg-deb", "strip", "objdump", "readelf", "git"]
    return [it for it in files if not os.path.isfile(it)] + [it for it in tools if not shutil.which(it)]


def python_of_wheels() -> str:
    """Return a python3 that makes wheels with what is here, or no name."""
    for python in (sys.executable, "python3", "/usr/bin/python3"):
        if shutil.which(python) and ran(python, "-c", "import setuptools, wheel, pip").returncode == 0:
            return python
    return ""


def try_sums(out: str) -> None:
    """Try the list of sums: each file is in it, and has its sum."""
    names = sorted(set(os.listdir(out)) - {"SHA256SUMS"})
    with open(f"{out}/SHA256SUMS", encoding="ascii") as file:
        listed = [line.split()[1] for line in file]
    count(f"the sums are of {names}: {listed}", sorted(listed) == names and len(names) == 4)
    count("the sums", ran("sha256sum", "--check", "--quiet", "SHA256SUMS", cwd=out).returncode == 0)


def try_package(out: str) -> None:
    """Try the Debian package: it has the plane in XDP, where that can be built here."""
    package, = glob.glob(f"{out}/*.deb")
    listed = ran("dpkg-deb", "--contents", package).stdout
    count("it has the program, the page and the library", all(it in listed for it in ("/bin/bentzolu", "/lab.html", "/libbentzolu.a")))
    if not shutil.which("clang") or not os.path.exists("/usr/include/bpf/bpf_helpers.h"):
        checks.skip("release", "there is no clang or libbpf-dev here, and the package has no plane")
        return
    count("it has the plane", all(it in listed for it in ("/bin/bentzolu-xdp", "/plane.bpf.o", "/watch.bpf.o", "/bentzolu-xdp.1.gz")))


def try_alone(top: str) -> None:
    """Try the program in a folder that has a shell and no C library."""
    if os.geteuid() != 0 or not os.access(BUSYBOX, os.X_OK) or "static" not in ran("file", "-L", BUSYBOX).stdout:
        checks.skip("release", "as root, and where busybox-static is (Debian), it is tried without a C library of the system")
        return
    os.makedirs(f"{top}/bin")
    for name in ("busybox", "sh", "readlink"):
        shutil.copy(BUSYBOX, f"{top}/bin/{name}")
    own, = glob.glob(f"{top}/bentzolu-*")
    said = f"printf 'a b\\nb c\\n' | /{os.path.basename(own)}/bin/bentzolu plan -"
    it = ran(shutil.which("chroot") or "/usr/sbin/chroot", top, "/bin/sh", "-c", said, env={"PATH": "/bin"})
    count(f"without a C library of the system: {it.stdout}", it.stdout.startswith("plan shortest 3 ") and it.returncode == 0)


def try_tarball(out: str, folder: str) -> None:
    """Try the program of the tarball: by its path, by a link, and after a move."""
    tarball, = glob.glob(f"{out}/*.tar.gz")
    top = f"{folder}/unpacked"
    os.mkdir(top)
    count("it unpacks", ran("tar", "-xf", tarball, "-C", top).returncode == 0)
    name, = os.listdir(top)
    count(f"all lies in one folder: {name}", tarball.endswith(f"/{name}.tar.gz"))
    own = f"{top}/{name}"
    with open(f"{own}/lib/bentzolu/bentzolu", "rb") as packed, open(ROUTE, "rb") as built:
        count("the program has the bytes of the built one", packed.read() == built.read())
    note = re.search(r"ABI: (\d+)\.(\d+)", ran("readelf", "-n", f"{own}/lib/bentzolu/libc.so.6").stdout)
    count(f"its C library takes kernels of ten years: {note}", note and (int(note[1]), int(note[2])) <= KERNEL)
    wanted = ran(ROUTE, "plan", "-", input=NETWORK).stdout
    os.symlink(f"{own}/bin/bentzolu", f"{folder}/linked")
    os.symlink("linked", f"{folder}/twice")
    other: Dict[str, str] = {"PATH": "/usr/bin:/bin", "LD_LIBRARY_PATH": "/nowhere"}
    for path in (f"{own}/bin/bentzolu", f"{folder}/linked", f"{folder}/twice"):
        it = ran(path, "plan", "-", input=NETWORK, env=other, cwd="/")
        count(f"{path}: {it.stdout}", it.stdout == wanted and it.returncode == 0)
    it = ran("sh", "bentzolu", "--version", cwd=f"{own}/bin")
    count(f"it calls itself bentzolu: {it.stdout}", it.stdout.startswith("bentzolu "))
    os.rename(own, f"{top}/moved")
    count("it may be moved", ran(f"{top}/moved/bin/bentzolu", "plan", "-", input=NETWORK).stdout == wanted)
    os.rename(f"{top}/moved", own)
    try_alone(top)


@alone
@slow
@within(900)
def test_release() -> None:
    """A release, made and used."""
    lacks = missing()
    python = "" if lacks else python_of_wheels()
    if lacks or not python:
        why = ", ".join(os.path.relpath(it, TOP) if it.startswith("/") else it for it in lacks) or "a python3 with pip and wheel"
        checks.skip("release", f"there is no {why} here, and no release was made")
        return
    folder = work()
    out = f"{folder}/release"
    it = ran("packaging/release", out, cwd=TOP, env={**os.environ, "BENTZOLU_ROUTE": ROUTE, "LIBRARY": FOLDER, "PYTHON": python})
    count(f"packaging/release: {it.stdout[-2000:]}", it.returncode == 0)
    if it.returncode == 0:
        try_sums(out)
        try_package(out)
        try_tarball(out, folder)
