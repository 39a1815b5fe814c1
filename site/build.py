#!/usr/bin/env python3
"""build.py MODULE.wasm OUT.html TOOLS: the page of one file, of the sources beside this one and a module just made of the
crates by these tools.

build.py --again PAGE.html OUT.html: the page anew, of the module of a page, which keeps what it says of its making.
build.py --script MODULE.js: one script of a module and all that it imports.
build.py --sources: the sum of the sources that a module is made of.
"""
import base64
import hashlib
import html
import json
import pathlib
import re
import sys

import unpack

HERE = pathlib.Path(__file__).resolve().parent
EXAMPLES = HERE.parent / "examples"
GLUE = ("heap.c", "exports.c", "emit.py", "to_wasm", "lower_table.py")  # beside the crates, what a module is made by


def example(name, file, **further):
    return {"name": name, "topology": (EXAMPLES / file).read_text(), "format": file.split(".")[-1], **further}


def until_refused(script: str) -> str:
    """The lines of a script before the one that shows a refusal."""
    return script.partition("retire 2 ")[0]


def examples():
    """The networks that the page offers: those of the folder of examples, and two that are made here."""
    tree = {"name": "a tree of six nodes", "format": "adjlist", "topology": "a b c\nb d e\nc f\n", "script": "inject d f\ndrain\n"}
    ring = {"name": "a ring of eight", "format": "adjlist", "topology": "".join(f"n{i} n{(i + 1) % 8}\n" for i in range(8)),
            "script": "inject n2 n6\ntake n2 inbox\nact n2\ninject n2 n6\ndrain\n"}
    nsfnet = example("NSFNET, relabelled", "nsfnet.edgelist", kind="tree", root="Houston",
                     places=(EXAMPLES / "nsfnet.places").read_text(), script=until_refused((EXAMPLES / "relabel.script").read_text()))
    return [
        nsfnet, tree, ring, example("the Petersen graph", "petersen.adjlist"), example("Abilene", "abilene.edgelist"),
        example("the karate club", "karate.edgelist"), example("a grid of 8 by 8", "grid8x8.adjlist"),
        example("a hypercube of 64", "hypercube64.adjlist"), example("a fat tree of 320", "fattree16.adjlist"),
    ]


def below(crate, seen):
    """The crates that a crate uses, and itself."""
    uses = {}
    for row in (HERE.parent / "crates.txt").read_text().splitlines():
        name, _, libraries = row.partition("#")[0].partition(":")
        if name.strip():
            uses[name.split()[0]] = libraries.split()
    seen.add(crate)
    for name in uses[crate]:
        if name in uses and name not in seen:
            below(name, seen)
    return seen


def sources():
    """The sum of the sources that the module is made of."""
    total = hashlib.sha256()
    for crate in sorted(below("page", set())):
        for file in sorted((HERE.parent / "crates" / crate / "src").rglob("*.rt")):
            total.update(file.read_bytes())
    for name in GLUE:
        total.update((HERE / name).read_bytes())
    return total.hexdigest()


IMPORT = re.compile(r'^import \{([\s\w,]+)\} from "\./([\w-]+\.js)";\n', re.M)
EXPORT = re.compile(r"^export (?=(?:async function|function|class|const|let)\b)", re.M)
DECLARED = re.compile(r"^(?:export )?(?:async function|function|class|const|let) (\w+)(?: = \S+?((?:, \w+ = \S+?)*);$)?", re.M)


def modules_below(name: str, seen: dict[str, str]) -> dict[str, str]:
    """The texts of a module and of all that it imports, each after those that it imports."""
    if name in seen:
        return seen
    text = (HERE / name).read_text()
    seen[name] = ""
    for _, other in IMPORT.findall(text):
        modules_below(other, seen)
    del seen[name]
    seen[name] = text
    return seen


def script(entry: str) -> str:
    """One script of a module and all that it imports.

    All names of modules are in one scope there, so that each name is declared once.

    Raises
    ------
    SystemExit
        Where two modules declare a name, or one imports what the other does not export.
    """
    texts, owners = modules_below(entry, {}), {}
    for name, text in texts.items():
        for found in DECLARED.finditer(text):
            for word in [found[1], *re.findall(r", (\w+) = ", found[2] or "")]:
                if word in owners:
                    sys.exit(f"site/{name}: {word} is declared in site/{owners[word]} too: rename one of them")
                owners[word] = name
    for name, text in texts.items():
        for words, other in IMPORT.findall(text):
            for word in re.findall(r"\w+", words):
                if owners.get(word) != other or not re.search(rf"^export .*\b{word}\b", texts[other], re.M):
                    sys.exit(f"site/{name}: site/{other} does not export {word}")
    parts = [EXPORT.sub("", IMPORT.sub("", text)).strip() for text in texts.values()]
    return '"use strict";\n' + "\n\n".join(parts)


def filled(template, module, made):
    """The template with each name in braces replaced by what it names."""
    def part(found):
        name = found[1]
        if name == "module":
            return base64.b64encode(module).decode()
        if name in made:
            return html.escape(made[name])
        if name == "examples":
            return json.dumps(examples()).replace("<", "\\u003c")
        if name.endswith(".js"):
            return script(name)
        return (HERE / name).read_text().strip() if (HERE / name).is_file() else found[0]
    return re.sub(r"\{([\w-]+(?:\.\w+)?)\}", part, template)


def hashes(texts):
    return " ".join(f"'sha256-{base64.b64encode(hashlib.sha256(text.encode()).digest()).decode()}'" for text in texts)


def written(out, module, made):
    """Writes the page of a module, of whose making this is known."""
    page = filled((HERE / "lab.html").read_text(), module, made)
    scripts = re.findall(r"<script type=\"module\">(.*?)</script>", page, re.S)
    styles = re.findall(r"<style>(.*?)</style>", page, re.S)
    page = page.replace("{SCRIPTS}", hashes(scripts)).replace("{STYLES}", hashes(styles))
    pathlib.Path(out).write_text(page)
    print(out, len(page), "bytes")


def main():
    if sys.argv[1:] == ["--sources"]:
        print(sources())
    elif sys.argv[1] == "--script":
        print(script(sys.argv[2]))
    elif sys.argv[1] == "--again":
        page, out = sys.argv[2:4]
        written(out, unpack.module(page), {name: unpack.said(page, name) for name in ("sources", "tools")})
    else:
        module, out, tools = sys.argv[1:4]
        written(out, pathlib.Path(module).read_bytes(), {"sources": sources(), "tools": tools})


if __name__ == "__main__":
    main()
