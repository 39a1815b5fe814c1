"""The page docs/lab.html; `tests/page` runs it.

It is what site/ makes of its module; the modules of site/ that draw nothing pass their tests in node; the engine gives the
bytes of the worked examples of the program there, refused memory is reported and the next run works. In a Chromium and in a
Firefox without a window the page explains itself, and makes plans, walks and a relabelling by clicks and keys. Texts have
the contrast of WCAG AA, and nothing jumps at the widths of desks and phones. Where the page's sources and tools are those
that are here, and the libraries below are built, as `rt ci` leaves them, the module and the library for C are made anew, and
the module has the same bytes. That takes some minutes, and is left out where the variable QUICK is set.
"""
from __future__ import annotations

import filecmp
import glob
import html.parser
import os
import re
import shutil
import subprocess
import sys
from typing import Any, List, Optional, Set, Tuple

from support.checks import count, skip
from support.limits import CAPACITY, NET_NODES, PACKETS
from support.marks import alone, slow, within
from support.networks import crossing
from support.places import TOP, work
from test_library import MOST_WORDS

PAGE = "docs/lab.html"
LAST = re.compile(r"(\d+) passed, (\d+) failed")
FIREFOXES = ["firefox-esr", "firefox"]
CHROMIUMS = ["chromium", "chromium-browser", "google-chrome"]


def ran(*words: str, **how: Any) -> "subprocess.CompletedProcess[str]":
    """Return a program that ran to its end at the top of the repository, with all that it printed."""
    how["env"] = {**os.environ, "PYTHONDONTWRITEBYTECODE": "1", **how.get("env", {})}
    return subprocess.run(words, cwd=TOP, stdout=subprocess.PIPE, stderr=subprocess.STDOUT, stdin=subprocess.DEVNULL,
                          universal_newlines=True, **how)


def printed(*words: str) -> str:
    """Return what a program of site/ prints."""
    return ran(sys.executable, *words).stdout.strip()


def first_of(names: List[str]) -> str:
    """Return the first of these programs that is here, or nothing."""
    return next((name for name in names if shutil.which(name)), "")


def has_node() -> bool:
    """Return whether node is here, of version 20 or later; count what wants it as skipped where it is not."""
    found = re.match(r"v(\d+)", ran("node", "--version").stdout) if shutil.which("node") else None
    if found and int(found[1]) >= 20:
        return True
    skip("page", "there is no node 20 here")
    return False


def module() -> str:
    """Return the path of the page's module, unpacked."""
    path = work("lab.wasm")
    ran(sys.executable, "site/unpack.py", PAGE, path)
    return path


def count_part(name: str, done: "subprocess.CompletedProcess[str]") -> None:
    """Count the checks of a program whose last line is `N passed, M failed`."""
    lines = done.stdout.strip().split("\n")
    found = LAST.fullmatch(lines[-1])
    if not found:
        count(name, f"it did not come to its end: {lines[-3:]}")
        return
    for _ in range(int(found[1])):
        count(name, None)
    faults = [line for line in lines if re.match(r"FAILED| *not ok", line)]
    for i in range(int(found[2])):
        count(name, faults[i] if i < len(faults) else "it failed")


def test_page_is_made() -> None:
    """The page is what site/ makes of its module."""
    again = work("lab.html")
    done = ran(sys.executable, "site/build.py", "--again", PAGE, again)
    same = done.returncode == 0 and filecmp.cmp(os.path.join(TOP, PAGE), again, shallow=False)
    count(PAGE, None if same else f"it is not what site/ makes of its module: run site/make lab {done.stdout[-500:]}")


def why_not_anew() -> Optional[str]:
    """Return why the module can't be made anew here, if it can't."""
    tools, own = ran("site/kit", "--tools").stdout.strip(), printed("site/unpack.py", PAGE, "--tools")
    if printed("site/build.py", "--sources") != printed("site/unpack.py", PAGE, "--sources"):
        return f"{PAGE} has a module of other sources than these: site/make makes it anew"
    if tools != own:
        return f"{PAGE} was made by {own}, here is {tools}"
    with open(os.path.join(TOP, "crates.txt"), encoding="ascii") as file:
        used, = re.findall(r"^page staticlib: *(.*)$", file.read(), re.M)
    if not all(os.path.isdir(os.path.join(TOP, "crates", crate, "out/rlib")) for crate in used.split()):
        return "the libraries that it is made of are not built here"
    return None


@alone
@slow
@within(1_300)
def test_module_is_made_anew() -> None:
    """The module made anew has the bytes of the page's."""
    why = "it takes minutes, and QUICK is set" if os.environ.get("QUICK") else why_not_anew()
    if why:
        skip("the module was not made anew", why)
        return
    parts = ["module"] + (["c"] if shutil.which("cc") else [])
    done = ran("site/make", *parts, env={"BUILT": "yes"}, timeout=1_200)
    if done.returncode != 0:
        count("site/make", done.stdout[-1_000:])
        return
    same = filecmp.cmp(os.path.join(TOP, "site/out/lab.wasm"), module(), shallow=False)
    count("the module", None if same else f"{PAGE} has another one than site/make makes here")


@within(300)
def test_scripts() -> None:
    """The modules of site/ that draw nothing, by the tests of node."""
    if not has_node():
        return
    files = sorted(os.path.relpath(path, TOP) for path in glob.glob(os.path.join(TOP, "site/test/*.test.js")))
    done = ran("node", "--test", "--test-reporter=tap", *files, timeout=290)
    passed, failed = (re.search(rf"^# {word} (\d+)$", done.stdout, re.M) for word in ("pass", "fail"))
    if passed and failed:
        done.stdout += f"\n{passed[1]} passed, {failed[1]} failed"
    count_part("site/test", done)


@slow
@within(1_250)
def test_cases() -> None:
    """The worked examples of the program, by the page's module."""
    if has_node():
        count_part("cases.js", ran("node", "site/test/cases.js", module(), timeout=1_200))


@slow
@within(1_250)
def test_longest_trace() -> None:
    """The longest trace, which is longer than any input, by the most words through the page's module; forty words are refused."""
    if not has_node():
        return
    texts = dict(zip(("topology", "script", "trace"), crossing(NET_NODES, PACKETS, CAPACITY)))
    files = [work(f"most.{name}") for name in texts]
    for path, text in zip(files, texts.values()):
        with open(path, "w", encoding="ascii") as file:
            file.write(text)
    count_part("most.js", ran("node", "site/test/most.js", module(), *files, *MOST_WORDS, "topology", "script", timeout=1_200))


def try_clicks(name: str, browsers: List[str]) -> None:
    """The page in a browser without a window."""
    browser = first_of(browsers)
    if not browser:
        skip("page", f"there is no {name.lower()} here, and nothing was clicked in it")
    elif has_node():
        count_part(f"the page in {name.lower()}", ran("node", "site/test/lab.js", PAGE, env={name: browser}, timeout=1_800))


@alone
@slow
@within(1_850)
def test_firefox() -> None:
    """The page by clicks and keys in Firefox."""
    try_clicks("FIREFOX", FIREFOXES)


@alone
@slow
@within(1_850)
def test_chromium() -> None:
    """The page by clicks and keys in Chromium."""
    try_clicks("CHROMIUM", CHROMIUMS)


class Links(html.parser.HTMLParser):
    """Gathers what a page leads to, and the places in it."""

    def __init__(self) -> None:
        super().__init__()
        self.links: List[str] = []
        self.places: Set[str] = set()

    def handle_starttag(self, tag: str, attrs: List[Tuple[str, Optional[str]]]) -> None:
        """Note a link, a picture and a place."""
        for name, value in attrs:
            if (tag, name) in {("a", "href"), ("img", "src")} and value:
                self.links.append(value)
            if name == "id" and value:
                self.places.add(value)


def linked(path: str) -> Links:
    """Return what a page leads to."""
    found = Links()
    with open(path, encoding="utf-8") as file:
        found.feed(re.sub(r"<script.*?</script>", "", file.read(), flags=re.S))
    return found


def test_publish() -> None:
    """The folder for a host of plain files: each link in it leads to a file there."""
    folder = work("public")
    done = ran(sys.executable, "site/publish", folder)
    count("site/publish", None if done.returncode == 0 else done.stdout)
    pages = glob.glob(f"{folder}/*.html") + glob.glob(f"{folder}/docs/*.html")
    for page in pages:
        lost = []
        for link in linked(page).links:
            path, _, place = link.partition("#")
            at = os.path.normpath(os.path.join(os.path.dirname(page), path)) if path else page
            is_page_of_state = os.path.basename(at) == "index.html" and os.path.dirname(at) == folder
            if re.match(r"\w+:", link) or is_page_of_state and os.path.isfile(at):
                continue
            if not os.path.isfile(at) or place and at.endswith(".html") and place not in linked(at).places:
                lost.append(link)
        count(f"links of {os.path.relpath(page, folder)}", lost)
    count("all documents are pages", len(pages) < 15)
    again = ran(sys.executable, "site/publish", folder)
    count("it is made anew over itself", again.returncode)
    with open(work("own"), "w", encoding="ascii"):
        pass
    refused = ran(sys.executable, "site/publish", work())
    count("a folder of other files is left alone", None if refused.returncode == 1 and "has other files" in refused.stdout else refused.stdout)
