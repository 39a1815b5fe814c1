import assert from "node:assert/strict";
import test from "node:test";
import { captionsAt } from "../captions.js";
import { Player } from "../playing.js";
import { readPlans, readScript, readTopology, readTrace } from "../reading.js";

const { graph } = readTopology("a b\nb c\nc d\nd a\n", "adjlist");
const { plans } = readPlans("plan shortest 4 8\na 0 1 b 3 d\nb 1 0 a 2 c\nc 2 0 b 3 d\nd 3 0 a 2 c\n", graph);

// Packets from a to c over b, each injected by a line, and drained by the last one.
function packetsOf(trace, script) {
  const { rows } = readTrace(trace, graph), { commands } = readScript(script, graph), line = commands.length, way = ["a", "b", "c"];
  const injects = rows.map((row, i) => ({ line: i + 1, event: "inject", from: "a", to: "c", packet: i, epoch: 1 }));
  const acts = way.flatMap((node, k) => rows.map((row, i) => ({ line, event: "act", node, packet: i, epoch: 1, ...k < 2 ? { next: way[k + 1] } : { fate: "delivered" } })));
  return new Player(graph, rows, commands, [...injects, ...acts]).packets;
}

test("a caption has the interval that a packet finds", () => {
  const packets = packetsOf("trace 1\n0 1 a c 2 delivered a b c\n", "inject a c\ndrain\n"), at = step => captionsAt(packets, plans, graph.names, step, -1);
  assert.deepEqual(at(0), []);
  assert.deepEqual(at(1), ["Packet 0: at a, 2 is in [1,3) of epoch 1, so on to b."]);
  assert.deepEqual(at(2), ["Packet 0: at b, 2 is in [2,0) of epoch 1, so on to c."]);
  assert.deepEqual(at(4), ["Packet 0: at c, it has arrived."]);
});

test("many packets are three captions", () => {
  const rows = Array.from({ length: 5 }, (_, i) => `${i} 1 a c 2 delivered a b c\n`).join("");
  const captions = captionsAt(packetsOf("trace 1\n" + rows, "inject a c\n".repeat(5) + "drain\n"), plans, graph.names, 1, -1);
  assert.deepEqual([captions.length, captions[2]], [3, "3 more packets are there or under way."]);
  assert.equal(captionsAt(packetsOf("trace 1\n" + rows, "inject a c\n".repeat(5) + "drain\n"), plans, graph.names, 1, 4).length, 1);
});
