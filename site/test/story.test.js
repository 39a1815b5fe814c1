import assert from "node:assert/strict";
import test from "node:test";
import { readPlans, readTopology } from "../reading.js";
import { STEPS, followed, loopAt, spaced, storyOf } from "../story.js";

// A ring of six, by a tree and by shortest paths from another root, as the program plans them.
const { graph } = readTopology("a b\nb c\nc d\nd e\ne f\nf a\n", "adjlist");
const OLD = "plan tree 6 10\na 0 1 b\nb 1 0 a 2 c\nc 2 0 b 3 d\nd 3 0 c 4 e\ne 4 0 d 5 f\nf 5 0 e\n";
const NEW = "plan shortest 6 12\na 3 1 b 4 f\nb 2 0 c 3 a\nc 1 0 d 2 b\nd 0 1 c 4 e\ne 5 0 d 2 f\nf 4 5 e 2 a\n";
const plans = [OLD, NEW].map(text => readPlans(text, graph).plans[0]);

test("a label is followed to its node", () => {
  const hops = followed(u => plans[0].rows[u], 0, 4, 6);
  assert.deepEqual(hops.map(hop => graph.names[hop.node]), ["a", "b", "c", "d", "e"]);
  assert.equal(hops.at(-1).found, null);
});

test("a label is followed no further than it is asked", () => {
  assert.equal(followed(u => plans[u % 2].rows[u], 0, 4, 9).length <= 9, true);
});

test("a node with the new table alone sends the packet back", () => {
  const at = loopAt(plans, 0, 4), hops = followed(u => plans[0].rows[u], 0, 4, 6);
  assert.equal(at > 1, true);
  const changed = hops[at].node, loop = followed(u => plans[u === changed ? 1 : 0].rows[u], 0, 4, 20);
  assert.equal(loop.length, 20);
});

test("the story has each of its steps, and captions that end", () => {
  const { beats, kept } = storyOf(graph, plans, 0, 4);
  assert.deepEqual([...new Set(beats.map(beat => beat.step))], STEPS.map((_, i) => i));
  for (const beat of [...beats, ...kept]) assert.match(beat.caption, /^[A-Za-z0-9].*[.]$/);
  assert.equal(beats.filter(beat => beat.isMixed).every(beat => beat.step === 4), true);
  assert.match(beats.at(-1).caption, /for ever/);
  assert.match(kept.at(-1).caption, /arrives at e/);
});

test("names of several words are written apart", () => {
  assert.equal(spaced("SaltLakeCity"), "Salt Lake City");
});
