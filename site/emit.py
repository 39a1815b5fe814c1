#!/usr/bin/env python3
"""emit.py OUT.bc OUT.a [CRATE]: the library `page`, or that of another crate, and the module of LLVM that rattle hands to clang for it.

It is rattle's own build of the crate over what `rt check` kept there, with a clang in its tools that keeps what it is given.
"""
import os
import pathlib
import subprocess
import sys
import tempfile

ROOT = pathlib.Path(__file__).resolve().parent.parent
KIT = subprocess.run([ROOT / "site" / "kit"], stdout=subprocess.PIPE, text=True, check=True).stdout.strip()
CLANG = """#!/bin/bash
for word in "$@"; do case $word in *.bc) [ -f "$word" ] && cp "$word" "{kept}" ;; esac; done
exec {kit}/toolchain/bin/clang "$@"
"""


def libraries():
    """The libraries of each crate of crates.txt."""
    found = {}
    for row in (ROOT / "crates.txt").read_text().splitlines():
        name, _, uses = row.partition("#")[0].partition(":")
        if name.strip():
            found[name.split()[0]] = uses.split()
    return found


def below(crate, found, seen):
    for it in found[crate]:
        if it in found and it not in seen:
            seen.append(it)
            below(it, found, seen)
    return seen


def words(crate, tools, archive):
    """The words of rattle's build of a crate's library."""
    found = libraries()

    def rlib(name):
        return f"{ROOT}/crates/{name}/out/rlib/{name}.rlib" if name in found else f"{KIT}/rlibs/{name}.rlib"

    given = [f"{KIT}/bin/rattle", "build", "--crate-name", crate, "src/lib.rt", "--extern", f"std={KIT}/rlibs/std.rlib"]
    for name in found[crate]:
        given += ["--extern", f"{name}={rlib(name)}"]
    for folder in [f"{KIT}/rlibs", *(os.path.dirname(rlib(name)) for name in below(crate, found, []))]:
        given += ["-L", f"dependency={folder}"]
    return given + [
        "--antt-project", f"{KIT}/rattle/logic/antt-project.json", "--logic-built", f"{KIT}/logic_built", "--jobs", "1",
        "--links", f"{crate}=", "--crate-type", "staticlib", "--incremental", "out/incremental", "--toolchain", tools,
        "--backend", "llvm", "-o", archive,
    ]


def main():
    out, archive = map(os.path.abspath, sys.argv[1:3])
    crate = sys.argv[3] if len(sys.argv) > 3 else "page"
    with tempfile.TemporaryDirectory() as work:
        tools = pathlib.Path(work, "tools")
        (tools / "bin").mkdir(parents=True)
        os.symlink(f"{KIT}/toolchain/lib", tools / "lib")
        for file in os.listdir(f"{KIT}/toolchain/bin"):
            if file != "clang":
                os.symlink(f"{KIT}/toolchain/bin/{file}", tools / "bin" / file)
        (tools / "bin" / "clang").write_text(CLANG.format(kept=out, kit=KIT))
        (tools / "bin" / "clang").chmod(0o755)
        ran = subprocess.run(words(crate, str(tools), archive), cwd=ROOT / "crates" / crate, capture_output=True, text=True)
    if ran.returncode or not os.path.isfile(out):
        sys.exit((ran.stdout + ran.stderr)[-3000:] or "emit.py: rattle called no clang")


main()
