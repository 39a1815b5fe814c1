"""What each node changes between two plans, by the texts that `route plan` prints of them."""
from typing import Dict, List, Tuple

Row = Dict[int, str]  # the neighbour at each start


def rows_of(text: str) -> Tuple[str, Dict[str, Tuple[int, Row]]]:
    """The kind of a plan, and for each node its label and its row."""
    head, *lines = text.splitlines()
    rows = {}
    for line in lines:
        name, label, *row = line.split()
        rows[name] = int(label), {int(start): to for start, to in zip(row[::2], row[1::2])}
    return head.split()[1], rows


def changes_of(old: Row, new: Row) -> List[str]:
    """The words of what one row removes and puts to become another, by ascending starts."""
    said = []
    for start in sorted({*old, *new}):
        if start not in new:
            said.append(f"- {start}")
        elif start not in old or old[start] != new[start]:
            said.append(f"+ {start} {new[start]}")
    return said


def changes_text(old: str, new: str) -> str:
    """The text of what nodes change, of the texts of both plans."""
    (old_kind, before), (new_kind, after) = rows_of(old), rows_of(new)
    lines, relabelled, removed, put = [], 0, 0, 0
    for name, (label, row) in after.items():
        was, old_row = before[name]
        said = changes_of(old_row, row)
        if said or was != label:
            lines.append(" ".join([name, str(was), str(label), *said]))
            relabelled += was != label
            removed += sum(step[0] == "-" for step in said)
            put += sum(step[0] == "+" for step in said)
    return "\n".join([f"diff {old_kind} {new_kind} {len(after)} {len(lines)} {relabelled} {removed} {put}", *lines]) + "\n"


def patched(old: Row, said: List[str]) -> Row:
    """A row with what a line removes and puts: its words after the labels."""
    row, at = dict(old), 0
    while at < len(said):
        if said[at] == "-":
            del row[int(said[at + 1])]
            at += 2
        else:
            row[int(said[at + 1])] = said[at + 2]
            at += 3
    return row
