"""The JSON that `--json` prints, made of the text that the same call prints without it.

Of each subcommand that prints JSON it reads the text, makes values of it, and writes them in the layout of the program; the
bytes are to be the same, and json is to read the same values. Of `live`, whose runs differ, it makes a text of the JSON
again, of which `check` is to say `ok`. Names have quotes and backslashes among their bytes.
"""
from __future__ import annotations

import json
import os
from typing import Any, Iterator

from oracle.rows import graph, run


def number(word: Any) -> Any:
    return int(word) if word.isdigit() else None


def fields(names: Any, words: Any) -> dict[Any, Any]:
    """A value of each word: those of a name that begins with `#` are numbers."""
    return {name.lstrip("#"): number(word) if name[0] == "#" else word for name, word in zip(names.split(), words)}


def parts(word: Any, mark: Any, names: Any) -> dict[Any, Any]:
    """The two numbers of one word."""
    return dict(zip(names, (map(number, word.split(mark)) if mark in word else (None, None))))


def pairs(words: Any, value: Any) -> list[Any]:
    return [value(*words[i:i + 2]) for i in range(0, len(words), 2)]


def plan(lines: Any) -> tuple[Any, str, list[Any]]:
    head = fields("plan #nodes #intervals", lines[0][1:])
    return head, "rows", [{**fields("node #label", row), "intervals": pairs(row[2:], lambda start, to: {"start": int(start), "next": to})}
                          for row in lines[1:]]


def order(lines: Any) -> tuple[dict[Any, Any], str, list[Any]]:
    return {}, "order", [row[0] for row in lines]


def walk(lines: Any) -> tuple[Any, str, list[Any]]:
    head = fields("walk from to #address #weight", lines[0][1:])
    return head, "hops", [fields("node #label #start #end next #weight", row) for row in lines[1:]]


def prefixes(lines: Any) -> tuple[Any, str, list[Any]]:
    def entry(word: Any, to: Any) -> dict[Any, Any]:
        return {**parts(word, "/", ("value", "length")), "next": None if to == "#" else to}
    head = fields("prefixes #nodes #bits #entries", lines[0][1:])
    return head, "rows", [{**fields("node #label", row), "entries": pairs(row[2:], entry)} for row in lines[1:]]


def ranges(lines: Any) -> tuple[Any, str, list[Any]]:
    head = fields("ranges #nodes #count", lines[0][1:])
    return head, "rows", [{**fields("node #label", row), "ranges": pairs(row[2:], lambda word, to: {**parts(word, "-", ("from", "to")), "next": to})}
                          for row in lines[1:]]


def fate_of(words: Any) -> tuple[dict[Any, Any], Any]:
    """What became of a packet, and the words after that."""
    if words[0] in ("down", "full"):
        return {"fate": words[0], "link": words[1:3]}, words[3:]
    return {"fate": words[0]}, words[1:]


def packet(row: Any) -> dict[Any, Any]:
    fate, hops = fate_of(row[5:])
    return {**fields("#id #epoch from to #weight", row), **fate, "hops": hops}


def restamped(row: Any) -> dict[Any, Any]:
    fate, words = fate_of(row[4:])
    segments = []
    for word in words:
        if word[0] == "#":
            segments.append({"epoch": int(word[1:]), "hops": []})
        else:
            segments[-1]["hops"].append(word)  # type: ignore[attr-defined]
    return {**fields("#id from to #weight", row), **fate, "segments": segments}


def trace(lines: Any) -> tuple[dict[Any, Any], str, list[Any]]:
    version = int(lines[0][1])
    return {"trace": version}, "packets", [(packet if version == 1 else restamped)(row) for row in lines[1:]]


FIGURES = {"greatest-row": "node #intervals", "worst": "from to #walk #distance", "compactness": "node neighbour #intervals", "bits": "#rows #tables"}


def figure(row: Any) -> Any:
    name, words = row[0], row[1:]
    if name == "stats":
        return fields("stats #nodes", words)
    if name in FIGURES:
        return {name: fields(FIGURES[name], words)}
    if words[0] == "cycle":
        return {name: {"cycle": words[1:]}}
    return {name: words[0] if words[0] == "acyclic" else int(words[0])}


def compared(row: Any) -> dict[Any, Any]:
    return {**fields("kind numbering #intervals #greatest-row #bits", row), "mean-stretch": parts(row[5], "/", ("walks", "distances")),
            "worst-stretch": parts(row[6], "/", ("walk", "distance")), "dependencies": row[7]}


def measured(row: Any) -> dict[Any, Any]:
    return {**fields("#intervals #greatest-row #bits", row), "mean-stretch": parts(row[3], "/", ("walks", "distances")),
            "worst-stretch": parts(row[4], "/", ("walk", "distance")), **fields("dependencies together", row[5:])}


def failure(row: Any) -> dict[Any, Any]:
    return {"link": row[:2], **({"disconnected": True} if row[2] == "disconnected" else measured(row[2:]))}


def loss(row: Any) -> Any:
    return {"node": row[0], **({row[1]: True} if row[1] in ("disconnected", "empty") else measured(row[1:]))}


def each(lines: Any) -> tuple[Any, Any, Any]:
    return {**fields("each kind #nodes #links", lines[0][1:]), **measured(lines[0][5:])}, "failures", [(loss if lines[0][1] == "nodes" else failure)(row) for row in lines[1:]]


def shown(value: Any) -> Any:
    return json.dumps(value, separators=(",", ":"))


def listed(values: Any) -> str:
    return "".join(",\n" * (place > 0) + shown(value) for place, value in enumerate(values))


def json_of(sub: Any, text: Any) -> Any:
    """The values of a text, and their JSON: a line for each line of it."""
    lines = [line.split(" ") for line in text.splitlines()]
    if sub == "check":
        value = {"ok": int(lines[0][1])} if lines[0][0] == "ok" else {"line": int(lines[0][1]), "finding": lines[0][2]}
        return value, shown(value) + "\n"
    if sub == "stats":
        figures = [figure(row) for row in lines]
        return {name: value for row in figures for name, value in row.items()}, "{\n" + ",\n".join(shown(row)[1:-1] for row in figures) + "\n}\n"
    if sub == "compare":
        rows: Any = [compared(row) for row in lines[2:-1]]
        head, bits = {"compare": fields("#nodes #links", lines[0][1:])}, {"tables": {"bits": int(lines[-1][4])}}
        return {**head, "plans": rows, **bits}, f'{shown(head)[:-1]},"plans":[\n{listed(rows)}\n],\n{shown(bits)[1:-1]}\n}}\n'
    head, name, rows = {"plan": plan, "each": each, "order": order, "walk": walk, "prefixes": prefixes, "ranges": ranges}.get(sub, trace)(lines)
    front = shown(head)[:-1] + ("," if head else "") + shown(name)
    return {**head, name: rows}, f"{front}:[" + ("\n" if rows else "") + listed(rows) + "\n]}\n"  # type: ignore[arg-type]


def text_of(value: Any) -> str:
    """The text of a trace again."""
    lines = [f"trace {value['trace']}"]
    for row in value["packets"]:
        words = [str(row["id"]), *([str(row["epoch"])] if "epoch" in row else []), row["from"], row["to"], str(row["weight"]), row["fate"], *row.get("link", [])]
        for part in row.get("segments", []):
            words += [f"#{part['epoch']}", *part["hops"]]
        lines.append(" ".join([*words, *row.get("hops", [])]))
    return "".join(line + "\n" for line in lines)


def name_of(luck: Any, node: Any) -> Any:
    return luck.choice(["n", 'n"', "n\\", "-", "n'/", "~$n", "down"]) + str(node)


def script(luck: Any, names: Any, links: Any, live: Any) -> str:
    lines = []
    for _ in range(luck.randrange(12)):
        u, v = luck.choice(names), luck.choice(names)
        lines.append(f"inject {u} {v}")
        choice = luck.randrange(6)
        if choice == 0 and links:
            a, b, _ = luck.choice(links)
            lines.append(f"{luck.choice(['down', 'up', 'avoid', 'heed'])} {a} {b}")
        if choice == 1:
            lines.append(f"install {luck.choice(['tree', 'shortest', 'compact'])} {luck.choice(names)}")
            lines += [] if live else ["learn 2"]
        if choice == 2:
            lines.append("retire 2")
        if choice == 3:
            lines.append("drain")
    return "".join(line + "\n" for line in [*lines, "drain"])


def calls(luck: Any, names: Any, net: Any) -> Iterator[Any]:
    """Words of each subcommand, without `--json`."""
    kind = luck.choice([[], ["--kind", "tree"], ["--kind", "compact"]])
    ends = [f"--from={luck.choice(names)}", f"--to={luck.choice(names)}"]
    restamps = luck.choice([[], ["--restamps", "1"], ["--restamps", "3"]])
    yield "plan", ["plan", *kind, net]
    yield "order", ["plan", "--order", *kind, net]
    yield "walk", ["walk", *kind, *ends, net]
    yield "stats", ["stats", *kind, *luck.choice([[], ["--with", "tree"]]), net]
    yield "compare", ["compare", net]
    yield "prefixes", ["prefixes", *kind, *luck.choice([[], ["--disjoint"]]), net]
    yield "ranges", ["ranges", *kind, net]
    yield "sim", ["sim", *kind, *restamps, net, "sim.script"]
    yield "live", ["live", *kind, *restamps, net, "live.script"]
    for whole in ([], ["--whole"]):
        yield "check", ["check", *kind, *whole, net, "sim.script", "sim.trace"]  # type: ignore[misc]


def put(folder: Any, name: Any, text: Any) -> None:
    with open(os.path.join(folder, name), "w", encoding="ascii") as file:
        file.write(text)


def fault_of(luck: Any, folder: Any) -> Any:
    nodes, links = graph(luck)
    names = [name_of(luck, u) for u in range(nodes)]
    links = [(names[u], names[v], weight) for u, v, weight in links]
    net = "net.edgelist" if links else "net.adjlist"
    put(folder, net, "".join(f"{u} {v} {weight}\n" for u, v, weight in links) or f"{names[0]}\n")
    for sub in ("sim", "live"):
        put(folder, f"{sub}.script", script(luck, names, links, sub == "live"))
    for sub, words in calls(luck, names, net):
        told = [words[0], "--json", *words[1:]]
        text, given = run(words, folder), run(told, folder)
        if sub == "live":
            text = (text_of(json.loads(given[0])), *given[1:])
            put(folder, "live.trace", text[0])
            checked = run(["check", *[word for word in words[1:-1] if word not in ("--restamps", "1", "3")], "live.script", "live.trace"], folder)
            if checked[0][:3] != "ok ":
                return f"{told}: its trace is not one of the script: {checked}"
        value, wanted = json_of(sub, text[0])
        if given != (wanted, *text[1:]) or json.loads(given[0]) != value:
            return f"{told}: {given} in place of {(wanted, *text[1:])}"
        if sub == "sim":
            bent = text[0].replace(" delivered ", " retired ", 1) if luck.randrange(2) else text[0].replace("1", "2", 2)
            put(folder, "sim.trace", luck.choice([text[0], bent]))
    return None
