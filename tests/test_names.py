"""Holds the documents to the sources; `tests/names` runs it.

Each name between backticks in docs/*.md, README.md, CONTRIBUTING.md or what is written by hand of crates/*/README.md that
looks like one of the sources is in them, in Rattle outside of comments: an identifier, a path, a file; a call or a
variant in its type; an option or a subcommand in the manual page, an option of the lab in its words. Names that are given
with their page of definitions (`IsRun` in Run) stand on a page of that name. The pages that docs/make.py makes are what it
makes of these sources(). Each specs/Lib.antt lists its crate's pages under two comments, those that contracts promise and
those that bodies use; every page of docs/BELIEVE.md is one of the former. The name of a definition that other pages can
cite stands on one page of all crates: it has one meaning. Each crate of crates.txt has a row in ARCHITECTURE.md, is in the
drawing there unless it holds tests, and has a README.md, in which are names of its own and of crates that it uses. No
line of a document is wider than 100 columns, but of tables of figures. Each must-fail edit, of the gate and of the folders
`edits`, can be made: its texts occur once in the sources that it names.
"""
from __future__ import annotations

import fnmatch
import functools
import glob
import os
import re
import sys
from typing import Dict, List, Optional, Sequence, Set, Tuple

from support.checks import count
from support.places import TOP

sys.path.insert(0, os.path.join(TOP, "docs"))
import make  # type: ignore[import]  # noqa: E402

# First words of commands of the shell, the kit and other tools: what follows them is not looked for.
COMMANDS = {"grep", "ip", "ipv6", "journalctl", "pip", "python3", "rattle-kit-13b", "rt", "rustc", "systemd-analyze"}

# Names of other tools, and a file that a user may have.
OTHERS = {"gc_thresh3", "isatty", "nodetype", "./tour"}

# Where options are, beside the manual page.
OPTIONS = ("install.sh", "python/bentzolu/lab.py", "python/bentzolu/fleet_words.py", "python/bentzolu/sweep_words.py",
           "python/bentzolu/xdp_words.py", "plane/loader.c",
           "site/build.py", "tests/oracle/__main__.py", "packaging/test-packages")

FOLDERS = (".ci", ".github", "bench", "completions", "crates", "docs", "examples", "library", "packaging", "plane", "python", "site", "tests")
FILES = (".editorconfig", ".gitattributes", "CHANGELOG.md", "CITATION.cff", "CONTRIBUTING.md", "HANDLES", "LICENSE-APACHE", "LICENSE-MIT", "README.md",
         "SECURITY.md", "VERSION", "crates.txt", "install.sh")
ENDINGS = "1|3|adjlist|antt|awk|c|css|edgelist|edit|h|html|js|json|md|py|rs|rt|script|session|sh|svg|txt"
WORD = r"[A-Za-z_]\w*"
CALL = rf"[A-Z]\w*::{WORD}"
PATH = rf"(?:\./)?(?:[\w.*-]+/)+[\w.*-]*|[\w-]+\.(?:{ENDINGS})"
OPTION = r"--[a-z][a-z-]*"
BLOCK = r"(?<=\n\n)(?:    .*\n|\n(?=    ))+"  # lines that are indented, of a document
PROMISED, USED = "-- what contracts promise", "-- what bodies use"  # the comments over the pages of a specs/Lib.antt
DEFINED = r"^(?:  )?(?:(?:abbrev|unfoldable)(?: pub)?|pub record|pub data) ([\w'-]+)"  # the head of a definition
PUBLIC = r"^(?:(?:abbrev|unfoldable) pub|pub record|pub data) ([\w'-]+)"  # that of one that other pages can name

os.chdir(TOP)  # docs/make.py reads from there


def text_of(path: str) -> str:
    with open(path, encoding="utf-8", errors="replace") as file:
        return file.read()


# The sources


def all_paths() -> List[str]:
    """The files and folders of the repository, without what the kit and Python keep."""
    paths = list(FILES)
    for top in FOLDERS:
        for folder, folders, files in os.walk(top):
            folders[:] = [name for name in folders if name not in ("out", "__pycache__")]
            paths += [folder] + [os.path.join(folder, name) for name in files]
    return paths


def code_of(path: str) -> str:
    """The text of a source, of Rattle without its comments."""
    text = text_of(path)
    if path.endswith(".rt"):
        return re.sub(r"//.*", "", text)
    if path.endswith(".antt"):
        return re.sub(r"--.*", "", text)
    return text


def members_of(text: str) -> Dict[str, Set[str]]:
    """For each type and trait of a source in Rattle its calls and variants."""
    members: Dict[str, Set[str]] = {}
    name: Optional[str] = None
    for line in text.split("\n"):
        head = re.match(r"(?:pub(?:\([a-z]+\))? )?(?:impl|trait|enum)\b(?:<[^{]*?>)? ?(?:[^{]* for )?(\w+)", line)
        if head:
            name = head[1]
        elif line == "}":
            name = None
        call = re.match(r"    (?:.*\b(?:fn|type) )?(\w+)", line)
        if name and call:
            members.setdefault(name, set()).add(call[1])
    return members


class Sources:
    """What is in the sources: the paths, the words, the members of types, and the options of the manual page."""

    def __init__(self) -> None:
        self.paths = all_paths()
        self.words: Set[str] = set()
        self.members: Dict[str, Set[str]] = {}
        self.pages: Dict[str, Dict[str, Set[str]]] = {}
        self.crates: Dict[str, Set[str]] = {}
        self.defined: Dict[Tuple[str, str], Set[str]] = {}
        self.public: Dict[Tuple[str, str], Set[str]] = {}
        for path in self.paths:
            stem = os.path.splitext(os.path.basename(path))[0]
            self.words.add(stem)
            if not os.path.isfile(path) or path.endswith((".md", ".svg")) or path in ("tests/names", "tests/test_names.py"):
                continue
            code = code_of(path)
            words = set(re.findall(WORD, code))
            self.words |= words
            if path.startswith("crates/"):
                self.crates.setdefault(path.split("/")[1], set()).update(words)
            if path.endswith(".rt"):
                for name, calls in members_of(code).items():
                    self.members.setdefault(name, set()).update(calls)
            if re.fullmatch(r"crates/\w+/specs/\w+\.antt", path):
                self.pages.setdefault(stem, {})[path.split("/")[1]] = words
                self.defined[path.split("/")[1], stem] = set(re.findall(DEFINED, code, flags=re.M))
                self.public[path.split("/")[1], stem] = set(re.findall(PUBLIC, code, flags=re.M))
        manual = text_of("docs/route.1").replace("\\-", "-")
        self.options = set(re.findall(OPTION, manual + "".join(map(text_of, OPTIONS))))
        self.subcommands = set(re.findall(r"^\.SY (route)\\~(\w+)", manual, flags=re.M))

    def has_path(self, path: str) -> bool:
        """Whether a path, from the top or from some folder on, is there; a name in capitals stands for any."""
        wanted = re.sub(r"(?<=/)[A-Z_]+(?=/|$|\.edit$)", "*", path.removeprefix("./").rstrip("/"))
        if "/out/" in wanted:
            return True
        return any(fnmatch.fnmatchcase("/" + there, "*/" + wanted) for there in self.paths)

    def lacks(self, name: str) -> Optional[str]:
        """What is wrong with a name, or None."""
        if name in OTHERS:
            return None
        if " " in name:
            return None if tuple(name.split()) in self.subcommands else "no such subcommand"
        if re.fullmatch(OPTION, name):
            return None if name in self.options else "no such option"
        if re.fullmatch(CALL, name):
            owner, call = name.split("::")
            return None if call in self.members.get(owner, ()) else "no such call or variant of that type"
        if re.fullmatch(PATH, name):
            return None if self.has_path(name) else "no such file"
        return None if name in self.words else "in no source"


@functools.lru_cache(maxsize=None)
def sources() -> Sources:
    """What is in the sources, read once."""
    return Sources()


# The documents

MADE = ["docs/BELIEVE.md", "docs/DEFINITIONS.md"]


@functools.lru_cache(maxsize=None)
def by_hand() -> Sequence[str]:
    """The documents that are written by hand, at least in part."""
    documents = sorted(os.path.join("docs", name) for name in os.listdir("docs") if name.endswith(".md"))
    return ["README.md", "CONTRIBUTING.md", "SECURITY.md", *[path for path in documents if path not in MADE], *glob.glob("crates/*/README.md")]


def prose_of(path: str) -> str:
    """What is written by hand of a document, without its blocks of code."""
    text = re.sub(r"^```.*?^```$", "", text_of(path).partition(make.MARK)[0], flags=re.M | re.S)
    return re.sub(BLOCK, "", text)


def names_in(span: str) -> List[str]:
    """The names between two backticks that may be of the sources()."""
    if re.fullmatch(WORD, span):
        return [span]
    parts = span.split()
    if not parts or parts[0] in COMMANDS:
        return []
    found = re.findall(rf"^({WORD})(?:\([\w, ]*\)|<\w+>)$|\bbentzolu\.(\w+)", span)
    names = [name for pair in found for name in pair if name]
    if parts[0] == "route" and re.fullmatch("[a-z]+", "".join(parts[1:2])):
        names.append(" ".join(parts[:2]))
    for part in parts:
        if re.fullmatch(rf"{OPTION}|{CALL}", part) or (re.fullmatch(PATH, part) and re.search("[a-z]", part)):
            names.append(part)
        elif re.fullmatch(rf"(?:{WORD}::)+{WORD}", part):
            names += part.split("::")
        elif re.fullmatch(WORD, part) and ("_" in part or not part.isupper()):
            names.append(part)
    return names


def test_names() -> None:
    """Each name of each document, once."""
    for path in by_hand():
        spans = re.findall(r"`([^`]+)`", prose_of(path))
        for name in dict.fromkeys(name for span in spans for name in names_in(" ".join(span.split()))):
            count(f"{path}: `{name}`", sources().lacks(name))


def test_pages() -> None:
    """Each name that a document gives with its page of definitions is on one page of that name."""
    for path in by_hand():
        told = re.findall(rf"((?:`{WORD}`(?:, | and )?)+) in ([A-Z]\w+)", " ".join(prose_of(path).split()))
        for names_there, page in sorted(set(told)):
            for name in re.findall(WORD, names_there.replace(" and ", " ")):
                there = any(name in words for words in sources().pages.get(page, {}).values())
                count(f"{path}: `{name}` in {page}", None if there else "not on a page of that name")


def test_sections() -> None:
    """Each name that is written by hand in a crate's README.md is in that crate, or in a crate that it uses."""
    uses = uses_of_crates()
    for crate in [crate for crate in uses if os.path.exists(f"crates/{crate}/README.md")]:
        near = {crate, *uses[crate]} if not crate.endswith("tests") else set(uses)
        words = set(uses).union(*(sources().crates.get(other, ()) for other in near))
        spans = re.findall(r"`([^`]+)`", prose_of(f"crates/{crate}/README.md"))
        found = dict.fromkeys(name for span in spans for name in names_in(" ".join(span.split())))
        for name in [name for name in found if re.fullmatch(rf"{WORD}|{CALL}", name)]:
            there = all(part in words for part in name.split("::"))
            count(f"crates/{crate}/README.md: `{name}`", None if there else "neither there nor in what it uses")


def test_generated() -> None:
    """The pages that are made of the sources are what is made of these sources()."""
    for path, text in make.made().items():
        there = os.path.exists(path) and text_of(path) == text
        count(path, None if there else "differs from what docs/make.py makes: run it")


def test_widths() -> None:
    """No line is wider than 100 columns, but of tables whose cells are figures for the most part."""
    for path in ["CHANGELOG.md", *by_hand(), *MADE]:
        wide = [at for at, line in enumerate(text_of(path).split("\n"), 1) if len(line) > 100 and not has_figures(line)]
        count(f"{path}: lines of at most 100 columns", f"lines {wide}" if wide else None)


def test_links() -> None:
    """Each link of a document to a file of the repository leads to one that is there."""
    for path in ["CHANGELOG.md", *by_hand(), "python/README.md", "examples/README.md"]:
        targets = re.findall(r"\]\(([^()#\s]+)[^()]*\)", prose_of(path))
        for target in dict.fromkeys(target for target in targets if "://" not in target):
            there = os.path.exists(os.path.join(os.path.dirname(path), target))
            count(f"{path}: the link to {target}", None if there else "no such file")


def has_figures(line: str) -> bool:
    """Whether a line is a row of figures."""
    cells = line.strip("| ").split("|") if line.startswith("|") else []
    return sum(bool(re.search(r"\d", cell)) for cell in cells) * 2 >= len(cells) > 1


def test_blocks() -> None:
    """Each specs/Lib.antt lists its pages under its comments, those that contracts of BELIEVE.md name under what contracts promise."""
    believed = make.believed_pages()
    for path in [path for path in sources().paths if re.fullmatch(r"crates/\w+/specs/Lib\.antt", path)]:
        crate = path.split("/")[1]
        over: Optional[str] = None
        found: Dict[str, Optional[str]] = {}
        for line in [line for line in text_of(path).split("\n") if line.strip()]:
            listed = re.fullmatch(r"pub mod (\w+)", line)
            if listed:
                found[listed[1]] = over
                count(f"{path}: {listed[1]}", None if (crate, listed[1]) in sources().defined else "no such page")
            else:
                after: List[Optional[str]] = [None] if line == PROMISED else [None, PROMISED] if line == USED else []
                count(f"{path}: {line}", None if over in after else "no comment that may stand here")
                over = line
        for page in [page for there, page in sources().defined if there == crate and page != "Lib"]:
            wrong = "not listed" if page not in found else "under no comment" if found[page] is None else None
            if not wrong and (crate, page) in believed and found[page] != PROMISED:
                wrong = f"in docs/BELIEVE.md, and under {found[page]}"
            count(f"{path}: {page}", wrong)


def test_meanings() -> None:
    """A name of a public definition stands on one page of one crate: it means one thing everywhere."""
    where: Dict[str, List[Tuple[str, str]]] = {}
    for there, found in sources().public.items():
        for name in found:
            where.setdefault(name, []).append(there)
    for (crate, page), found in sorted(sources().public.items()):
        wrong = []
        for name in sorted(name for name in found if len(where[name]) > 1):
            wrong.append(f"{name} is on {' and '.join('/'.join(other) for other in where[name])}")
        count(f"crates/{crate}/specs/{page}.antt: each name", "; ".join(wrong) or None)


def test_crates() -> None:
    """Each crate has a README.md, a row in ARCHITECTURE.md, and its place in the drawing there."""
    architecture = text_of("docs/ARCHITECTURE.md")
    rows = re.findall(r"`(\w+)`", " ".join(re.findall(r"^\| (`[^|]*) \|", architecture, flags=re.M)))
    drawing = " ".join(re.findall(BLOCK, architecture))
    below = re.findall(r"(\w+) >((?: \w+)+)", drawing)
    drawn = re.findall(WORD, re.sub(r">(?: \w+)+", "", drawing))
    for crate, used in uses_of_crates().items():
        text = text_of(f"crates/{crate}/README.md") if os.path.exists(f"crates/{crate}/README.md") else ""
        count(f"crates/{crate}/README.md", None if len(text.split()) > 10 else "not there, or without a word")
        count(f"docs/ARCHITECTURE.md: {crate}", None if crate in rows else "no row")
        if not crate.endswith("tests"):
            count(f"docs/ARCHITECTURE.md: {crate}", None if crate in drawn else "not in the drawing")
        for other in [other for above, others in below if above == crate for other in others.split()]:
            count(f"docs/ARCHITECTURE.md: {crate} > {other}", None if other in used else "not so in crates.txt")


def test_examples() -> None:
    """The lines of each example in a doc comment are one after the other in a file of the crates of tests."""
    tested = ["".join(line.strip() + "\n" for line in text_of(path).split("\n"))
              for path in sources().paths if re.fullmatch(r"crates/\w*tests/src/\w+\.rt", path)]
    for path in [path for path in sources().paths if re.fullmatch(r"crates/\w+/src/\w+\.rt", path)]:
        for example in re.findall(r"/// ```\n(.*?)/// ```\n", text_of(path), flags=re.S):
            lines = "".join(line.strip().removeprefix("///").strip() + "\n" for line in example.strip("\n").split("\n"))
            count(f"{path}: {lines.split(chr(10))[0]}", None if any(lines in text for text in tested) else "no test runs it")


def uses_of_crates() -> Dict[str, List[str]]:
    """For each crate of crates.txt what it uses."""
    lines = [line.partition(":") for line in text_of("crates.txt").split("\n") if re.match(WORD, line)]
    return {head.split()[0]: used.split() for head, _, used in lines}


def test_edits() -> None:
    """Each must-fail edit can be made, and none is tried by the gate and left out by it too."""
    for path in sorted(glob.glob("crates/*/must-fail/*.edit") + glob.glob("crates/*/edits/*.edit")):
        crate = os.path.join("crates", path.split("/")[1])
        count(path, unmade(crate, text_of(path)))
    for path in sorted(glob.glob("crates/*/edits/*.edit")):
        _, crate, _, name = path.split("/")
        twin = os.path.join("crates", crate, "must-fail", name)
        count(path, f"{twin} has its name" if os.path.exists(twin) else None)


def unmade(crate: str, edit: str) -> Optional[str]:
    """What of an edit cannot be made: its pairs are made in turn, each over what those before it made."""
    path: Optional[str] = None
    old: Optional[str] = None
    texts: Dict[Optional[str], str] = {}
    pairs = 0
    for line in edit.split("\n"):
        word, _, rest = line.partition(":")
        if word == "file":
            path = os.path.join(crate, rest.strip())
        elif word == "old":
            old = rest[1:]
        elif word == "new":
            texts.setdefault(path, text_of(path) if path and os.path.isfile(path) else "")
            found = texts[path].count(old) if old else 0
            if not old or found != 1:
                return f"{old!r} stands {found} times in {path}"
            texts[path], pairs = texts[path].replace(old, rest[1:]), pairs + 1
    return None if pairs else "it changes nothing"


SAID = [  # numbers of which speed or memory hangs and no clause: the crate, the constant, its number, and how DECISIONS says it
    ("ir_plan", "MOST_MARK_BYTES", 1 << 30, "up to 1 GiB** (`MOST_MARK_BYTES`)"),
    ("ir_worker", "LOOKS", 2, "gives way twice before it sleeps (`LOOKS`)"),
    ("ir_lanes", "MOST_SWEEPS", 64, "A batch has 64 sweeps or the work of 20 passes"),
    ("ir_lanes", "MOST_PASSES", 20, "A batch has 64 sweeps or the work of 20 passes"),
]


def test_numbers_of_decisions() -> None:
    """Numbers of which speed or memory hangs and no clause are those that DECISIONS gives."""
    decisions = " ".join(text_of("docs/DECISIONS.md").split())
    for crate, name, number, words in SAID:
        place = make.specs.declared_in(crate, name)
        value = make.value_of(crate, name).replace("_", "") if place else None
        count(f"{name} of {crate}", None if value == str(number) and words in decisions else f"it is {value}, and DECISIONS says {words!r}")


def test_version() -> None:
    """The file VERSION has the version, and each other place has the same."""
    version = text_of("VERSION").strip()
    count("VERSION", None if re.fullmatch(r"\d+\.\d+\.\d+", version) else f"it has {version!r}")
    for path, form in (
        ("crates/ir_cli/src/command.rt", r'static VERSION: &str = "([^"]*)";'),
        ("crates/ir_tests/src/programs.rt", r'"(?:route|bentzolu) (\d[^"\\]*)\\n"'),
        ("docs/route.1", r'^\.TH ROUTE 1 "[^"]*" "Bentzolu ([^"]*)"'),
        ("python/bentzolu/__init__.py", r'^__version__ = "([^"]*)"'),
        ("python/pyproject.toml", r'^version = "([^"]*)"'),
        ("CHANGELOG.md", r"^## \[(\d[^\]]*)\]"),
    ):
        found = re.findall(form, text_of(path), flags=re.M)[: 1 if path == "CHANGELOG.md" else None]
        count(f"{path}: the version of VERSION", None if found and set(found) == {version} else f"{found}, and not {version}")
