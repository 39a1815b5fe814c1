import assert from "node:assert/strict";
import test from "node:test";
import { hashOf } from "../address.js";
import { comparisonOf, figuresOf } from "../figures.js";
import { blocksOf, landmarkWords, landmarksOf, numberOr, tintOf } from "../landmarks.js";
import { readPlans, readScript, readTopology } from "../reading.js";
import { exampleNow } from "./now.js";

const { graph } = readTopology("a b\nb c\nc d\n", "adjlist");
const STATS = "stats landmark 4\nlinks 3\nstarts 6\nentries 12\nbits 24 24\ngreatest-row b 2\nwalks 20\ndistances 20\nlandmarks c a\nstretch 150\ndependencies acyclic\n";

test("words for landmarks are those that the program does not take by itself", () => {
  assert.deepEqual(landmarkWords({ landmarks: "", stretch: "300" }), []);
  assert.deepEqual(landmarkWords({ landmarks: "4", stretch: "150" }), ["--landmarks", "4", "--stretch", "150"]);
});

test("a number is one within its bounds", () => {
  assert.deepEqual(["100", "300", "99", "301", "", "1e2", "0150"].map(text => numberOr(text, 100, 300, "300")), ["100", "300", "300", "300", "300", "300", "150"]);
});

test("landmarks are read from figures, and a node is of the nearest one", () => {
  assert.equal(readPlans("plan landmark 4 6\nc 0 1 d 2 b\nd 1 2 c\na 2 3 b\nb 3 2 a 0 c\n", graph).fault, null);
  const landmarks = landmarksOf(STATS, graph);
  assert.deepEqual(landmarks.map(u => graph.names[u]), ["c", "a"]);
  assert.deepEqual(blocksOf(graph, landmarks).map(place => graph.names[landmarks[place]]), ["a", "a", "c", "c"]);
  assert.deepEqual([0, 5, 6].map(tintOf), ["block-1", "block-6", "block-1"]);
  assert.deepEqual(landmarksOf("stats tree 4\n", graph), []);
  const weighted = readTopology("a b 5\nb c 1\nc d 4\nd a 1\nd e 2\n", "edgelist").graph;
  assert.deepEqual(blocksOf(weighted, [2, 0]).map(place => weighted.names[[2, 0][place]]), ["a", "c", "c", "a", "a"]);
  assert.deepEqual(blocksOf(readTopology("a b\nb c\n", "adjlist").graph, [2, 0]), [1, 1, 0]);
});

test("figures say the landmarks and the bound", () => {
  const rows = new Map(figuresOf(STATS));
  assert.deepEqual([rows.get("Landmarks"), rows.get("Longest allowed path")], ["c, a", "150 percent of the distance"]);
});

test("a row of a comparison chooses its bound", () => {
  const [row] = comparisonOf("compare 4 3\nkind numbering\nlandmark-150 blocks 6 2 24 20/20 1/1 acyclic\n");
  assert.deepEqual([row.cells[0], row.set], ["landmark-150", { kind: "landmark", landmarks: "", stretch: "150" }]);
});

test("landmarks are in a script and in the address", () => {
  assert.equal(readScript("install landmark a\n", graph).fault, null);
  const example = { topology: "a b\nb c\n", format: "adjlist", kind: "tree", root: "b", script: "" };
  assert.equal(hashOf({ ...exampleNow(example), kind: "landmark", landmarks: "2", stretch: "150" }, [example]), "#example=1&kind=landmark&landmarks=2&stretch=150");
});
