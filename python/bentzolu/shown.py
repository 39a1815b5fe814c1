"""Tables in HTML, for notebooks: of plans, forwarding tables, walks, figures and runs."""
from __future__ import annotations

from html import escape
from typing import TYPE_CHECKING, Any, Iterable, Sequence, Sized

if TYPE_CHECKING:
    from . import texts, traces

MOST_ROWS = 40  # of a table
MOST_WORDS = 24  # intervals, prefixes or hops of a row


def cell(value: object, tag: str = "td") -> str:
    return f"<{tag}>{escape(str(value))}</{tag}>"


def table(caption: str, heads: Sequence[str], rows: Iterable[Sequence[object]], count: int | None = None) -> str:
    """A table of the first rows, and how many more there are; `count` is the number of rows, if they are no list."""
    if count is None:
        count = len(rows) if isinstance(rows, Sized) else 0
    lines = ["<table>", f"<caption>{escape(caption)}</caption>"]
    lines.append("<thead><tr>" + "".join(cell(head, "th") for head in heads) + "</tr></thead>")
    lines.append("<tbody>")
    for _, row in zip(range(MOST_ROWS), rows):
        lines.append("<tr>" + "".join(map(cell, row)) + "</tr>")
    lines.append("</tbody>")
    if count > MOST_ROWS:
        lines.append(f'<tfoot><tr><td colspan="{len(heads)}">and {count - MOST_ROWS:,} more</td></tr></tfoot>')
    return "\n".join([*lines, "</table>"])


def joined(words: Iterable[object]) -> str:
    """Words with blanks between them, and how many more there are."""
    words = list(words)
    more = [f".. and {len(words) - MOST_WORDS:,} more"] if len(words) > MOST_WORDS else []
    return " ".join([*map(str, words[:MOST_WORDS]), *more])


def by_port(node: texts.NodePlan) -> str:
    """The intervals of a node by the neighbours that they lead to: `[2,3) → d`."""
    ports = node.by_neighbour().items()
    return joined(f"{''.join(f'[{it.start},{it.end})' for it in found)} → {to}" for to, found in ports)


def plan(found: texts.Plan) -> str:
    rows = ((it.node, it.label, by_port(it)) for it in found.nodes.values())
    return table(repr(found)[1:-1], ("node", "label", "intervals"), rows, len(found.nodes))


def prefixes(found: texts.Prefixes) -> str:
    def spelled(it: texts.Prefix) -> str:
        return f"{it.value}/{it.length} → {'dropped' if it.to is None else it.to}"

    rows = ((it.node, it.label, joined(map(spelled, it.prefixes))) for it in found.nodes.values())
    return table(repr(found)[1:-1], ("node", "label", "prefixes"), rows, len(found.nodes))


def walk(found: texts.Walk) -> str:
    rows: list[tuple[Any, ...]] = [
        (it.node, it.label, f"[{it.interval.start},{it.interval.end})", it.interval.to, it.weight)
        if it.interval else (it.node, it.label, "", "", "") for it in found.steps
    ]
    caption = f"Walk {found.kind} to label {found.address}, weight {found.weight}"
    return table(caption, ("node", "label", "interval", "to", "weight"), rows)


def stats(found: texts.Stats) -> str:
    node, length = found.greatest_row
    rows = [
        ("nodes", f"{found.nodes:,}"), ("links", f"{found.links:,}"), ("intervals", f"{found.starts:,}"),
        ("entries of full tables", f"{found.entries:,}"), ("greatest row", f"{length:,} at {node}"),
    ]
    if found.bits is not None:
        rows += [("bits of the rows", f"{found.bits.rows:,}"), ("bits of full tables", f"{found.bits.tables:,}")]
    if found.stretch is not None:
        rows.append(("walks over distances", f"{found.walks:,} / {found.distances:,} = {float(found.stretch):.4g}"))
    if found.worst is not None:
        worst = found.worst
        rows.append(("worst stretch", f"{worst.walk:,} / {worst.distance:,} from {worst.source} to {worst.target}"))
    if found.compactness is not None:
        port = found.compactness
        rows.append(("most intervals at a port", f"{port.intervals:,} from {port.node} to {port.to}"))
    if found.dependencies is not None:
        rows.append(("ring of waiting links", joined(found.dependencies) or "none"))
    if found.landmarks is not None:
        rows += [("landmarks", joined(found.landmarks)), ("most stretch", f"{found.most_stretch} percent")]
    return table(f"Stats {found.kind}", ("figure", "value"), rows)


def comparison(found: texts.Comparison) -> str:
    rows = [(it.kind, it.numbering, f"{it.starts:,}", f"{it.greatest_row:,}", f"{it.bits:,}", f"{float(it.stretch):.2f}", f"{float(it.worst):.2f}",
             "none" if it.is_acyclic else "possible") for it in found.rows]
    rows.append(("full tables", "", "", "", f"{found.table_bits:,}", "", "", ""))
    return table(f"{found.nodes:,} nodes, {found.links:,} links", ("kind", "numbering", "intervals", "greatest row", "bits", "stretch", "worst", "deadlock"), rows)


def run(found: traces.Run) -> str:
    def segment(it: traces.Segment) -> str:
        return f"epoch {it.epoch}: {joined(it.hops)}"

    rows = (
        (it.number, it.source, it.target, it.weight, " ".join(map(str, (it.fate, *(it.link or ())))),
         "; ".join(map(segment, it.segments)))
        for it in found.packets
    )
    heads = ("packet", "from", "to", "weight", "fate", "hops")
    return table(repr(found)[1:-1], heads, rows, len(found.packets))
