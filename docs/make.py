#!/usr/bin/env python3
"""Makes the pages that are generated, from the sources: docs/make.py writes them, docs/make.py --check says which differ.

docs/BELIEVE.md has the definitions that the contract of `play` reaches, in reading order, and what further calls add.
docs/DEFINITIONS.md has all pages of definitions, by the comments over them, with the terms and sources, and what is
said of definitions without a comment, of docs/definitions.json. Each crates/NAME/README.md has its public calls below a
mark, by their doc comments and the names of their clauses; what is above the mark is written by hand.
"""
from __future__ import annotations

import glob
import json
import os
import re
import sys
import textwrap
from typing import Any

sys.dont_write_bytecode = True
sys.path.insert(0, os.path.dirname(os.path.abspath(__file__)))
import specs  # noqa: E402

WIDTH = 100
MARK = "<!-- Below: docs/make.py, of the doc comments and the names of clauses. -->"

# The calls whose contracts are followed, each beside those before it: the call, its crate, and what it says.
HEADLINE = ("play", "ir_core", "the headline")
FURTHER = [
    ("Plan::row", "ir_plan", "that a row is fewest"),
    ("check_trace", "ir_trace", "that a trace is judged rightly"),
    ("run_live", "ir_control", "the same of running threads"),
    ("read_words", "ir_cli", "that words mean what was typed"),
    ("follow_by", "ir_answer", "that the output is what was asked for"),
    ("follow", "ir_shell", "the same with `live`"),
]
IN_FEW_WORDS = ("ir_cli", "ir_answer", "ir_shell")  # of their further definitions the names alone


def wrapped(text: Any, first: str = "", later: Any = None) -> Any:
    """A paragraph within the width; what is between backticks is broken too."""
    return textwrap.fill(text, WIDTH, initial_indent=first, subsequent_indent=first if later is None else later, break_long_words=False, break_on_hyphens=False)


def code(lines: Any) -> list[Any]:
    """Lines of a source as a block, of which those that are too long are broken."""
    out = []
    for line in lines:
        while len(line) > WIDTH:
            at = line.rfind(" ", 0, WIDTH)
            indent = len(line) - len(line.lstrip(" "))
            if at <= indent:
                break
            out.append(line[:at].rstrip())
            mark = re.match(r"--+ |//[/!]? ", line.lstrip(" "))
            line = " " * indent + (mark[0] if mark else " " * 6) + line[at:].lstrip()
        out.append(line)
    return ["```", *out, "```"]


def sentence(text: Any) -> Any:
    """A comment as a sentence."""
    text = text.strip()
    if text and text[0].islower() and not re.match(r"\w*[_`(]|\w+'", text):
        text = text[0].upper() + text[1:]
    return text if not text or text.endswith((".", ":", "?")) else text + "."


def first_of(text: Any) -> Any:
    """The first sentence of a comment."""
    return sentence(re.split(r"(?<=[.:]) (?=[A-Z`])", text.strip())[0])


def link(page: Any) -> str:
    return f"[{page.name}](../{page.path})"


# What must be believed


def place_of(call: Any, crate: Any) -> tuple[Any, Any]:
    """The source that has a call of a crate, and the call's own name."""
    owner, _, name = call.rpartition("::")
    for path in sorted(glob.glob(f"crates/{crate}/src/**/*.rt", recursive=True)):
        text = specs.text_of(path)
        within = "".join(re.findall(rf"^impl(?:<[^{{]*?>)? {owner}\b.*?^}}", text, flags=re.M | re.S)) if owner else text
        if re.search(rf"^{'    ' if owner else ''}pub fn {name}\b", within, flags=re.M):
            return path, name
    raise LookupError(f"no call {call} in {crate}")


def contract(path: Any, call: Any) -> Any:
    """A call's signature and contract, as they are."""
    found = re.search(rf"^( *)pub fn {call}\b.*?^\1(?=\{{)", specs.text_of(path), flags=re.M | re.S)
    return textwrap.dedent(found[0]).rstrip().split("\n")  # type: ignore[index]


def declaration(path: Any, name: Any) -> list[Any]:
    """A type's declaration, with its doc comment."""
    lines = specs.text_of(path).split("\n")
    at = next(k for k, line in enumerate(lines) if re.match(rf"(?:pub(?:\(crate\))? )?(?:struct|enum|trait) {name}\b", line))
    end = at
    while not (lines[end] == "}" or lines[end].endswith((";", "{}")) and end == at):
        end += 1
    begin = at
    while re.match(r"///|#\[", lines[begin - 1]):
        begin -= 1
    return [line for line in lines[begin : end + 1] if not line.startswith("#[")]


def value_of(crate: Any, name: Any) -> Any:
    """The value of a constant, as it is."""
    return re.search(rf"const {name}: [^=]*= ([^;]*);", specs.text_of(specs.declared_in(crate, name)))[1]  # type: ignore[index]


def quoted(definition: Any) -> Any:
    """A definition with its comment, as they are but for where lines of the comment end."""
    indent = len(definition.lines[0]) - len(definition.lines[0].lstrip(" "))
    comment = [wrapped(definition.comment, " " * indent + "-- ")] if definition.comment else []
    return [line for text in comment for line in text.split("\n")] + definition.lines


def believed() -> Any:
    """The page of what the headline's contract reaches, and what further calls add."""
    call, crate, headline = HEADLINE
    start = place_of(call, crate)
    seen = specs.reached([start])
    order = specs.in_order(seen)
    types = kinds_in(seen)
    rows, later, known = [(f"`{call}` of `{crate}`", headline, order, len(types))], [], set(seen)
    for call, crate, what in FURTHER:
        place = place_of(call, crate)
        more = specs.reached([place]) - known
        known |= more
        added = specs.in_order(more)
        rows.append((f"`{call}` of `{crate}`", what, added, len(kinds_in(more))))
        later.append((f"`{call}` of `{crate}`", crate, place, added, more))
    out = ["# What must be believed", ""]
    out += [wrapped("This page is for those who want to read the headline and not trust a word around it. A "
                    "contract that is proved says no more than its definitions do, so these are what must be read. "
                    "The page has each definition that the contract of `play` names, and each that those name, lowest "
                    "first and as they are in the sources. A type of the code is followed into the types of its parts, and "
                    "into the view by which contracts see it. Names are followed page by page; a few may be more than is "
                    "needed. What [PROMISES](PROMISES.md) calls *trusted* must be believed too."), ""]
    out += [wrapped("Each event of `play`, and each call here, may be refused for want of memory, at any time. No clause says "
                    "that memory was really refused, since the kit has no word for that ([PROMISES](PROMISES.md), *Only "
                    "tested*)."), ""]
    out += [wrapped("`docs/make.py` makes this page and `tests/names` holds it to the sources. Lines above 100 columns "
                    "are broken. Names that no page here defines are of the kit: `rt lemma NAME` shows them."), ""]
    out += ["| The contract of | says | pages | definitions | lines | types |", "|---|---|---|---|---|---|"]
    for who, what, added, kinds in rows:
        plus = "" if what == headline else "+"
        out.append(f"| {who} | {what} | {plus}{len(added)} | {plus}{sum(len(d) for _, d in added)} | {plus}{specs.lines_of([d for _, ds in added for d in ds])} | {plus}{kinds} |")
    out += ["", wrapped("A row with `+` counts what it adds to the rows above it."), ""]
    out += ["## The contract", ""] + code(contract(*start)) + [""]
    out += ["## Types of the code", "", wrapped("What the definitions below call by a type's name or by its variants."), ""]
    for crate, kind in types:
        path = specs.declared_in(crate, kind)
        out += [f"`{kind}` of `{crate}`, in [{os.path.basename(path)}](../{path}):", ""] + code(declaration(path, kind)) + [""]
    constants = sorted(it[1:] for it in seen if it[0] == "constant")
    out += [wrapped("Constants: " + "; ".join(f"`{name}` of `{crate}` is {value_of(crate, name)}" for crate, name in constants) + "."), ""]
    out += views(types, "")
    out += ["## Definitions, lowest first", ""]
    for page, definitions in order:
        count = specs.lines_of(definitions)
        out += [f"### {page.name} of `{page.crate}`", ""]
        out += [wrapped(f"{link(page)}: {len(definitions)} of {len(page.definitions)} definitions, {count} lines. {sentence(page.head)}".strip()), ""]
        lines = []
        for definition in definitions:
            lines += [*quoted(definition), ""]
        out += code(lines[:-1]) + [""]
    for who, crate, place, added, more in later:
        out += [f"## What {who} adds", "", *code(contract(*place)), ""]
        kinds = kinds_in(more)  # type: ignore[assignment]
        if kinds:
            out += [wrapped("Types of the code: " + ", ".join(f"`{kind}` of `{owner}`" for owner, kind in kinds) + "."), ""]  # type: ignore[attr-defined]
        out += views(kinds, "further ") + traits(sorted(it[1:] for it in more if it[0] == "trait"))
        for page, definitions in added:
            names = [f"`{it.name}`" for it in definitions]
            if crate not in IN_FEW_WORDS:
                names = [name + (f", {lowered(first_of(it.comment))}" if it.comment else "") for name, it in zip(names, definitions)]
            said = (", " if crate in IN_FEW_WORDS else "; ").join(names)
            out += [wrapped(f"**{link(page)}** of `{page.crate}`, {specs.lines_of(definitions)} lines: {said}.", "- ", "  ")]
        out += [""]
    out += asked()
    return "\n".join(out).rstrip() + "\n"


def lowered(text: Any) -> Any:
    """A sentence within another one."""
    text = text.rstrip(".:")
    return text[0].lower() + text[1:] if re.match(r"[A-Z][a-z]* ", text) else text


# What no contract can say: the calls by which the program asks the system for its words and its files.
ASKED = [
    ("words", "crates/route/src/main.rt", "the words of the command line"),
    ("open", "crates/route/src/input.rt", "an input of a name"),
    ("sink_of", "crates/route/src/output.rt", "what takes the bytes for a file of a name"),
]


def asked() -> Any:
    """The functions of the program whose bodies are to be believed."""
    out = ["## What the program asks of the system", ""]
    out += [wrapped("No contract can say which words and which files the system gives. What is read of a file or stream, and "
                    "written to it, `read_origin` and `write_to` of `route` pass on as it was given, whatever file or stream it is. "
                    "So these bodies are left to read:"), ""]
    for name, path, what in ASKED:
        body = re.search(rf"^(?:///[^\n]*\n)*(?:pub )?fn {name}\b.*?^}}", specs.text_of(path), flags=re.M | re.S)[0]  # type: ignore[index]
        out += [f"`{name}` in [{os.path.basename(path)}](../{path}), {what}:", "", *code(body.split("\n")), ""]
    return out


def kinds_in(seen: Any) -> list[Any]:
    """The types of the code among what is reached, by crate and name."""
    return sorted(it[1:] for it in seen if it[0] == "type" and specs.declared_in(*it[1:]))


def views(kinds: Any, further: Any) -> list[Any]:
    """What contracts see of the values of those of these types that have a view."""
    seen = [specs.models()[kind] for kind in kinds if kind in specs.models()]
    if not seen:
        return []
    out = [wrapped(f"What contracts see of a value of a {further}type with a `Model`, and the view that makes it:"), ""]
    for it in seen:
        out.append(wrapped(f"`{it.kind}` of `{it.crate}` ([{os.path.basename(it.path)}](../{it.path})): `{it.value}`, by `{it.view}`", "- ", "  "))
    return [*out, ""]


def traits(found: Any) -> Any:
    """Traits with words of their own, each with those that the types of the sources give it."""
    out = []
    for crate, name in found:
        path = specs.declared_in(crate, name)
        lines = declaration(path, name)
        if not any(re.match(r" *ghost ", line) for line in lines):
            continue
        given = [line for _, head, words, _ in specs.instances(crate, name) for line in [f"{head}:", *(f"    {word}" for word in words)]]
        out += [wrapped(f"The trait `{name}` of `{crate}`, in [{os.path.basename(path)}](../{path}), and the words that types of the sources give it:"), ""]
        out += code([*lines, *([""] if given else []), *given]) + [""]
    return out


# Definitions


def told() -> Any:
    with open("docs/definitions.json", encoding="utf-8") as file:
        return json.load(file)


def promised() -> Any:
    """The pages that contracts promise, as each crate's list of pages has them."""
    found = set()
    for crate in {page.crate for page in specs.pages().values()}:
        text = specs.text_of(f"crates/{crate}/specs/Lib.antt").partition("-- what contracts promise")[2].partition("-- what bodies use")[0]
        found |= {(crate, name) for name in re.findall(r"^pub mod (\w+)", text, flags=re.M)}
    return found


def defined() -> Any:
    """The page of the definitions that contracts promise."""
    about = told()
    out = ["# Definitions", ""]
    for paragraph in about["head"]:
        out += [wrapped(paragraph), ""]
    crate = None
    for page in [page for page in specs.pages().values() if page.key in promised()]:
        if page.crate != crate:
            crate = page.crate
            out += [f"## `{crate}`", ""]
        notes = about["definitions"].get(f"{page.crate}/{page.name}", {})
        out += [f"### {page.name}", "", wrapped(f"{link(page)}. {sentence(page.head)}".strip()), ""]
        for it in page.definitions:
            note = notes.get(it.name, {})
            says = sentence(it.comment or note.get("says", "")) or typed(it)
            source = f" ({note['source']})" if "source" in note else ""
            out.append(wrapped(f"`{it.name}`{source}: {says}", "- ", "  "))
        out.append("")
    return "\n".join(out).rstrip() + "\n"


def typed(definition: Any) -> Any:
    """What stands for a comment that is not there: the type, or the fields of a record."""
    head = definition.lines[0].strip()
    if head.startswith("pub record"):
        fields = [found[1] for line in definition.lines[1:] if (found := re.match(r" +pub ([\w'-]+)", line))]
        return "a record of " + ", ".join(f"`{name}`" for name in fields) + "."
    kind = " ".join(head.split()).partition(" : ")[2]
    return f"of type `{kind}`." if kind else "see there."


# The crates


def exported(crate: Any) -> Any:
    """The names that the root of a crate hands out."""
    root = specs.text_of(f"crates/{crate}/src/lib.rt")
    names = {name for tree in re.findall(r"^pub use ([^;]*);", root, flags=re.M) for name in re.findall(r"\w+", tree)}
    return names | set(re.findall(r"^pub (?:fn|struct|enum|trait) (\w+)", root, flags=re.M))


def calls_of(crate: Any) -> Any:
    """The public calls of a crate: the name, the doc comment, and the names of the clauses."""
    names, calls = exported(crate), []
    for path in sorted(glob.glob(f"crates/{crate}/src/**/*.rt", recursive=True)):
        owner, comment = None, []
        lines = specs.text_of(path).split("\n")
        for at, line in enumerate(lines):
            head = re.match(r"(?:pub )?(?:impl|trait)\b(?:<[^{]*?>)? ?(?:[^{]*? for )?(\w+)", line)
            if head:
                owner = head[1]
            elif line == "}":
                owner = None
            if re.match(r" *///", line):
                comment.append(re.sub(r"^ */// ?", "", line))
                continue
            call = re.match(r"( *)pub (?:unsafe )?(?:extern \"C\" )?fn (\w+)", line)
            if call and (owner in names if owner else call[2] in names):
                end = at
                while not re.match(rf"{call[1]}\{{|{call[1]}\S.*[;{{]$", lines[end]) and end + 1 < len(lines):
                    end += 1
                clauses = re.findall(r"^ *ensures (\w+) \{", "\n".join(lines[at:end]), flags=re.M)
                calls.append((f"{owner}::{call[2]}" if owner else call[2], " ".join(comment), list(dict.fromkeys(clauses))))
            if not re.match(r" *#\[", line):
                comment = []
    return calls


def readme(crate: Any) -> Any:
    """A crate's page: what is written by hand, and its calls."""
    path = f"crates/{crate}/README.md"
    hand = specs.text_of(path).partition(MARK)[0].rstrip() if os.path.exists(path) else f"# `{crate}`"
    if not os.path.exists(f"crates/{crate}/src/lib.rt"):
        return hand + "\n"
    calls = calls_of(crate)
    if not calls:
        return hand + "\n"
    out = [hand, "", MARK, "", "## Calls", "", "Each call, the first sentence of its doc comment, and the names of its clauses:", ""]
    for name, comment, clauses in calls:
        names = f" ({', '.join(clauses)})" if clauses else ""
        out.append(wrapped(f"`{name}`: {first_of(comment) or 'See its clauses.'}{names}", "- ", "  "))
    return "\n".join(out) + "\n"


def believed_pages() -> set[Any]:
    """The pages of definitions that the contracts of what must be believed name, types of the code left out."""
    starts = [place_of(call, crate) for call, crate, _ in [HEADLINE, *FURTHER]]
    return {it[1:3] for it in specs.reached(starts, with_types=False) if it[0] == "definition"}


def above() -> list[Any]:
    """The crates by how many crates are above each, without those of tests."""
    uses = {crate: used for crate, used in specs.crates().items() if not crate.endswith("_tests")}
    higher = {}
    for low in uses:
        reach, todo = set(), [low]
        while todo:
            at = todo.pop()
            new = [crate for crate, used in uses.items() if at in used and crate not in reach]
            reach.update(new)
            todo += new
        higher[low] = len(reach)
    by_count: dict[Any, Any] = {}
    for crate, count in higher.items():
        by_count.setdefault(count, []).append(f"`{crate}`")
    return [wrapped(f"{count}: {', '.join(crates)}", "- ", "  ") for count, crates in sorted(by_count.items(), reverse=True)]


def architecture() -> Any:
    """The page of the sources, with the crates above each."""
    before, mark, rest = specs.text_of("docs/ARCHITECTURE.md").partition("<!-- docs/make.py: above -->\n")
    return "\n".join([before + mark, *above(), "", ""]) + rest[rest.index("<!-- docs/make.py: end -->"):]


def made() -> Any:
    """Each generated page, by its path."""
    pages = {"docs/BELIEVE.md": believed(), "docs/DEFINITIONS.md": defined(), "docs/ARCHITECTURE.md": architecture()}
    for crate in specs.crates():
        pages[f"crates/{crate}/README.md"] = readme(crate)
    return pages


def differing() -> list[Any]:
    """The paths of the generated pages that differ from what the sources make."""
    return [path for path, text in made().items() if not os.path.exists(path) or specs.text_of(path) != text]


def main() -> Any:
    os.chdir(os.path.dirname(os.path.dirname(os.path.abspath(__file__))))
    if sys.argv[1:] == ["--check"]:
        wrong = differing()
        for path in wrong:
            print(f"{path}: differs from what docs/make.py makes")
        return 1 if wrong else 0
    for path, text in made().items():
        with open(path, "w", encoding="utf-8") as file:
            file.write(text)
    return 0


if __name__ == "__main__":
    sys.exit(main())
