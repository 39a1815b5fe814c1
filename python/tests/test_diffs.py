"""What changes between two plans as text and as JSON, against a plain comparison of the plans' texts."""
import json
import pathlib
import random
import subprocess
import sys
import tempfile
import unittest
from typing import Any

from common import TOP, bentzolu, needs_route
from plain_changes import changes_text, patched, rows_of

NAMES = ["+", "-", "a", "b", "1", "x+y", "0", "z9", "Ab", "q", "w", "e", "r", "t", "u", "i", "o", "p"]


def connected(chance: Any, names: Any) -> Any:
    """The edges of a random connected network of these nodes, in a random order."""
    names = chance.sample(names, len(names))
    edges: Any = [(names[place], names[chance.randrange(place)]) for place in range(1, len(names))]
    edges += [tuple(chance.sample(names, 2)) for _ in range(chance.randrange(len(names) + 1))]
    chance.shuffle(edges)
    return [(u, v, chance.choice((1, 1, 1, 2, 5))) for u, v in edges]


def text_of(plan: Any) -> Any:
    """The text that `route plan` prints of a plan, without the number of intervals."""
    rows = [" ".join([str(it.node), str(it.label), *(f"{start} {to}" for start, to in zip(it.starts, it.neighbours))]) for it in plan.nodes.values()]
    return "\n".join([f"plan {plan.kind} {len(rows)}", *rows]) + "\n"


@needs_route
class ChangesTest(unittest.TestCase):
    def held(self, old: Any, new: Any) -> Any:
        """Holds what changes between two plans to the plain rule, and puts it into the old rows."""
        found = bentzolu.diff(old, new)
        text = changes_text(text_of(old), text_of(new))
        self.assertEqual(found.text(), text)
        self.assertEqual(bentzolu.patched(old, found), new)
        head, *lines = text.splitlines()
        before: Any = rows_of(text_of(old))[1]
        after: Any = rows_of(text_of(new))[1]
        told = {line.split()[0]: line.split() for line in lines}
        for name, (label, row) in after.items():
            words = told.get(name, [name, str(before[name][0]), str(before[name][0])])
            self.assertEqual((int(words[1]), int(words[2])), (before[name][0], label))
            self.assertEqual(patched(before[name][1], words[3:]), row)
        data = json.loads(found.json())
        counts = [data[key] for key in ("nodes", "changed", "relabelled", "removed", "put")]
        self.assertEqual(["diff", *data["diff"], *map(str, counts)], head.split())
        for row in data["rows"]:
            steps = [(start, f"- {start}") for start in row["remove"]] + [(it["start"], f"+ {it['start']} {it['next']}") for it in row["put"]]
            self.assertEqual([row["node"], str(row["was"]), str(row["label"]), *" ".join(step for _, step in sorted(steps)).split()], told[row["node"]])
        return len(lines)

    def test_random_pairs(self) -> None:
        chance = random.Random(300)
        changed = 0
        for _ in range(300):
            names = chance.sample(NAMES, chance.randrange(2, len(NAMES)))
            old, new = connected(chance, names), connected(chance, names)
            kind = chance.choice(("shortest", "compact", "tree", "landmark"))
            given = {"words": ("--numbering", "tour")} if kind in ("shortest", "compact") and chance.random() < 0.5 else {}
            changed += self.held(bentzolu.plan(old, kind, **given), bentzolu.plan(new, kind, **given))
        self.assertGreater(changed, 1000)

    def test_kept_labels(self) -> None:
        chance = random.Random(301)
        for _ in range(20):
            names = chance.sample(NAMES, chance.randrange(3, len(NAMES)))
            edges = connected(chance, names)
            keeper = bentzolu.Relabeller("compact")
            old = keeper.update(edges).plan
            new = keeper.made(connected(chance, names), sorted(old.nodes, key=old.labels.__getitem__))
            self.held(old, new)
            self.assertEqual(bentzolu.diff(old, new).relabelled, 0)

    def test_words(self) -> Any:
        with tempfile.TemporaryDirectory() as folder:
            put = {"old": "a b\nb c\nc d\nd a\n", "new": "a b\nb c\nc d\n", "other": "a b\nb c\nc e\n"}
            files = {}
            for name, text in put.items():
                files[name] = str(pathlib.Path(folder, f"{name}.adjlist"))
                pathlib.Path(files[name]).write_text(text)

            def said(*words: Any) -> Any:
                done = subprocess.run([sys.executable, "-m", "bentzolu", "diff", *words], cwd=TOP / "python", capture_output=True, text=True)
                return done.returncode, done.stdout, done.stderr
            wanted = "diff shortest shortest 4 3 0 3 2\na 0 0 - 3\nb 1 1 + 0 a - 3\nd 3 3 + 0 c - 1\n"
            self.assertEqual(said(files["old"], files["new"]), (0, wanted, ""))
            status, text, _ = said("--json", files["old"], files["new"])
            self.assertEqual((status, json.loads(text)["rows"][1]), (0, {"node": "b", "was": 1, "label": 1, "remove": [3], "put": [{"start": 0, "next": "a"}]}))
            status, text, _ = said("--kind", "compact", "--numbering", "keep", files["old"], files["new"])
            self.assertEqual((status, text.split()[5]), (0, "0"))
            status, text, faults = said(files["old"], files["other"])
            self.assertEqual((status, text), (1, ""))
            self.assertIn("no node 'e' in ", faults)
            self.assertEqual(said("--kind", "tree", "--numbering", "keep", files["old"], files["new"])[:2], (1, ""))
            self.assertEqual(said(files["old"], str(pathlib.Path(folder, "none")))[:2], (1, ""))
            order = pathlib.Path(folder, "order")
            order.write_text("a\nb\nc\nd\n")
            self.assertEqual(said("--numbering", str(order), files["old"], files["new"]), (0, wanted, ""))
            csv = pathlib.Path(folder, "new.csv")
            csv.write_text("source,target\na,b\nb,c\nc,d\n")
            self.assertEqual(said(files["old"], str(csv))[:2], (0, wanted))
            old, new = pathlib.Path(folder, "old.csv"), pathlib.Path(folder, "other.csv")
            old.write_text("source,target\nA x,b\nb,c\nc,A x\n")
            new.write_text("source,target\nA x,b\nb,c\n")
            self.assertEqual(said(str(old), str(new))[1], "diff shortest shortest 3 2 0 2 1\nA_x 0 0 - 2\nc 2 2 + 0 b - 1\n")


if __name__ == "__main__":
    unittest.main()
