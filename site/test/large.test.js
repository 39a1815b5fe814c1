import assert from "node:assert/strict";
import test from "node:test";
import { comparisonOf, figuresOf } from "../figures.js";
import { gridOf, layersOf } from "../placing.js";
import { readTopology } from "../reading.js";

function grid(wide, high) {
  const lines = [];
  for (let y = 0; y < high; y++) for (let x = 0; x < wide; x++) {
    if (x + 1 < wide) lines.push(`${x}_${y} ${x + 1}_${y}`);
    if (y + 1 < high) lines.push(`${x}_${y} ${x}_${y + 1}`);
  }
  return readTopology(lines.join("\n"), "adjlist").graph;
}

test("a grid is found by its links", () => {
  const points = gridOf(grid(7, 4)), count = axis => new Set(points.map(point => point[axis])).size;
  assert.deepEqual([count("x"), count("y")].sort(), [4, 7]);
  assert.equal(gridOf(readTopology("a b\nb c\nc d\nd e\ne f\nf g\ng h\nh i\ni a\n", "adjlist").graph), null);
});

test("layers are found by names and links", () => {
  const lines = [];
  for (let pod = 0; pod < 4; pod++) for (const a of [0, 1]) for (const b of [0, 1]) lines.push(`a${pod}_${a} e${pod}_${b}`, `a${pod}_${a} c${a}_${b}`);
  const { graph } = readTopology(lines.join("\n"), "adjlist"), points = layersOf(graph), y = name => points[graph.numbers.get(name)].y;
  assert.equal(y("c0_0") < y("a0_0") && y("a0_0") < y("e0_0"), true);
  assert.equal(layersOf(grid(7, 4)), null);
});

test("figures have plain heads", () => {
  const rows = new Map(figuresOf("stats tree 14\nlinks 21\nstarts 26\nentries 182\ngreatest-row Pittsburgh 3\nwalks 795200\ndistances 420400\nworst Houston Atlanta 9400 1200\ncompactness Seattle PaloAlto 1\nbits 154 338\ndependencies acyclic\n"));
  assert.equal(rows.get("Worst detour"), "Houston to Atlanta, 9400 for 1200 (7.8 times)");
  assert.equal(rows.get("Deadlock"), "none possible");
  assert.equal(rows.get("Paths, over the shortest"), "1.89");
});

test("a comparison has a row for each kind and numbering", () => {
  const rows = comparisonOf("compare 14 21\nkind numbering intervals greatest-row bits mean-stretch worst-stretch dependencies\ntree depth-first 26 4 154 795200/420400 5700/800 acyclic\ntables - - - 338 - - -\n");
  assert.deepEqual(rows[0], { kind: "tree", numbering: "depth-first", set: { kind: "tree", numbering: "depth-first" }, cells: ["tree", "depth-first", "26", "4", "154", "1.89", "7.13", "none"] });
  assert.equal(rows[1].kind, "");
});
