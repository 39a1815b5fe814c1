import assert from "node:assert/strict";
import test from "node:test";
import { pairOf, readPlans, readScript, readTopology, readTrace } from "../reading.js";
import { Player, intervalFor } from "../playing.js";
import { breakLines, ownScript, scriptAt, textWithout, withoutNode } from "../network.js";

const ring = readTopology("a b\nb c\nc d\nd a\n", "adjlist").graph;

// The steps of a packet that is injected at a line, stamped with an epoch, and in the next line's drain goes along nodes of
// one letter.
function stepsOf(nodes, line, epoch = 1, packet = 0) {
  const way = [...nodes], acts = way.flatMap((node, i) => [
    { line: line + 1, event: "take", node, ...i > 0 && { from: way[i - 1] }, packet },
    { line: line + 1, event: "act", node, packet, epoch, ...i + 1 < way.length ? { next: way[i + 1] } : { fate: "delivered" } },
  ]);
  return [{ line, event: "inject", from: way[0], to: way.at(-1), packet, epoch }, ...acts];
}

test("an interval that wraps holds the labels below its end", () => {
  const { plans } = readPlans("plan shortest 4 6\na 0 1 b 3 d\nb 1 0 a 2 c\nc 2 0 b 3 d\nd 3 0 a 2 c\n", ring);
  assert.deepEqual(plans[0].rows[0].intervals, [{ start: 1, to: 1, end: 3 }, { start: 3, to: 3, end: 1 }]);
  assert.equal(intervalFor(plans[0].rows[0], 0).to, 3);
});

test("a script is played beside its trace", () => {
  const { rows } = readTrace("trace 1\n0 1 a c 2 delivered a b c\n", ring), { commands } = readScript("inject a c\ndrain\n", ring);
  const { packets, moments } = new Player(ring, rows, commands, stepsOf("abc", 1));
  assert.deepEqual(packets[0].times, [1, 2, 3]);
  assert.deepEqual(moments.map(moment => moment.name), [undefined, "inject", "drain"]);
});

test("refused lines, new stamps and lost packets are what the steps say", () => {
  const { rows } = readTrace("trace 2\n0 a c 2 delivered #1 a b #2 b c\n1 a d 0 down a d #2 a\n", ring), { commands } = readScript("inject a c\nact b\nretire 2\ninject a d\ndrain\n", ring);
  const steps = [{ line: 1, event: "inject", from: "a", to: "c", packet: 0, epoch: 1 }, { line: 2, refused: "HandEmpty", event: ["act", "b"] }, { line: 3, event: "retire", epoch: 2 },
    { line: 4, event: "inject", from: "a", to: "d", packet: 1, epoch: 2 }, { line: 5, event: "act", node: "a", packet: 0, epoch: 1, next: "b" }, { line: 5, event: "act", node: "a", packet: 1, epoch: 2, next: "d" },
    { line: 5, event: "act", node: "b", packet: 0, epoch: 2, next: "c" }, { line: 5, event: "act", node: "d", packet: 1, epoch: 2, fate: "down", link: ["a", "d"] }, { line: 5, event: "act", node: "c", packet: 0, epoch: 2, fate: "delivered" }];
  const { packets, moments } = new Player(ring, rows, commands, steps);
  assert.deepEqual(packets.map(packet => [packet.times, packet.ends]), [[[1, 5, 6, 7], 8], [[4], 6]]);
  assert.deepEqual(moments.map(moment => [moment.step, moment.said, moment.refused, moment.floor]).slice(2, 4), [[2, "refused: HandEmpty", true, 1], [3, "the epochs below 2 are retired", false, 2]]);
});

test("a packet that went another way than the steps comes after the last line", () => {
  const { rows } = readTrace("trace 1\n0 1 a c 2 delivered a d c\n", ring), { commands } = readScript("inject a c\ndrain\n", ring);
  const { packets, moments } = new Player(ring, rows, commands, stepsOf("abc", 1));
  assert.equal(moments.at(-1).said, "after the last line");
  assert.deepEqual(packets[0].times.map(time => time - moments.at(-1).step), [0, 1, 2]);
});

test("a link that goes down is written with a plan, and mended again", () => {
  const now = { down: new Set(), epochs: 1 };
  assert.deepEqual(breakLines(ring, now, { u: 0, v: 1 }, "shortest", "a"), ["down a b", "install shortest a", "learn 2"]);
  assert.deepEqual(breakLines(ring, { down: new Set([pairOf(0, 1)]), epochs: 2 }, { u: 0, v: 1 }, "tree", "a"), ["up a b", "install tree a", "learn 3"]);
  assert.deepEqual(breakLines(ring, { down: new Set([pairOf(0, 3)]), epochs: 2 }, { u: 0, v: 1 }, "tree", "a"), ["down a b", "# no plan connects all nodes now"]);
});

test("lines act at a step of the playback, and what comes after them stays", () => {
  const { rows } = readTrace("trace 1\n0 1 a c 2 delivered a b c\n1 2 a c 2 delivered a b c\n", ring);
  const { commands } = readScript("inject a c\ndrain\ninstall tree a\nlearn 2\ninject a c\ndrain\n", ring);
  const steps = [...stepsOf("abc", 1), { line: 3, event: "install", kind: "tree", root: "a", epoch: 2 }, { line: 4, event: "learn", epoch: 2 }, ...stepsOf("abc", 5, 2, 1)];
  const at = step => scriptAt({ graph: ring, rows, commands, steps }, step, ["down a d", "install shortest a", "learn 2"]).text.split("\n").slice(0, -1);
  assert.deepEqual(at(0), ["down a d", "install shortest a", "learn 2", "inject a c", "drain", "install tree a", "learn 3", "inject a c", "drain"]);
  assert.deepEqual(at(2).slice(0, 5), ["inject a c", "take a inbox", "act a", "down a d", "install shortest a"]);
  assert.deepEqual(at(1e9).slice(-4), ["down a d", "install shortest a", "learn 2", "drain"]);
});

test("a network without a script gets one", () => {
  const { plans } = readPlans("plan shortest 4 6\na 0 1 b 3 d\nb 1 0 a 2 c\nc 2 0 b 3 d\nd 3 0 c 1 a\n", ring);
  const script = ownScript(ring, plans[0]), { commands, fault } = readScript(script, ring);
  assert.equal(fault, null);
  assert.deepEqual(commands.map(command => command.name), ["inject", "inject", "take inbox", "act", "install", "learn", "inject", "drain"]);
});

test("a text without a link has its nodes in order", () => {
  const { graph } = readTopology("p q 1\nq r 1\nr s 1\ns p 1\n", "edgelist");
  const text = textWithout(graph, "edgelist", new Set([pairOf(0, 1)]));
  assert.deepEqual(readTopology(text, "edgelist").graph.names, graph.names);
  assert.equal(readTopology(text, "edgelist").graph.links.length, 3);
});

test("a node is erased with its links", () => {
  assert.equal(withoutNode("a b\nb c # both\nc d\n", "adjlist", "b"), "a\nc\nc d\n");
});
