// cases.js MODULE.wasm: each worked example of the program through the module. Told are those that differ, and how many agree.
import fs from "node:fs";
import path from "node:path";
import { fileURLToPath } from "node:url";
import { Engine } from "../engine.js";
import { scriptAt } from "../network.js";
import { Player, readSteps, walkAlong } from "../playing.js";
import { readPlans, readScript, readTopology, readTrace } from "../reading.js";

const root = fileURLToPath(new URL("../..", import.meta.url));
const cases = JSON.parse(fs.readFileSync(path.join(root, "crates/route_tests/data/cases.json"), "utf8"));

function told(passed, name, why) {
  if (!passed) console.log(`FAILED ${name}: ${why}`);
  counts[passed ? 0 : 1] += 1;
}

const counts = [0, 0];

function tryCase(engine, { name, words, inputs, stdout, stderr, status }) {
  const answer = engine.run(words, ...inputs), text = bytes => Buffer.from(bytes).toString();
  const same = answer.status === status && text(answer.output) === stdout && text(answer.faults) === stderr;
  told(same, name, JSON.stringify([answer.status, text(answer.output).slice(0, 200), text(answer.faults).slice(0, 200)]));
}

// A network of so many nodes in a grid, whose plan is larger than the first room for outputs.
function grid(side) {
  const lines = [];
  for (let i = 0; i < side * side; i++) {
    if (i % side + 1 < side) lines.push(`n${i} n${i + 1}`);
    if (i + side < side * side) lines.push(`n${i} n${i + side}`);
  }
  return lines.join("\n") + "\n";
}

function tryMemory(engine) {
  const network = grid(64), words = ["plan", "--kind", "shortest", "network"], text = bytes => Buffer.from(bytes).toString();
  engine.keepBelow(6 << 20);
  const refused = engine.run(words, network);
  told(refused.status === 3 && refused.output.length === 0 && text(refused.faults) === "out of memory\n", "refused memory is told", `${refused.status} ${text(refused.faults)}`);
  const small = engine.run(["plan", "network"], "a b\n");
  told(small.status === 0 && text(small.output) === "plan shortest 2 2\na 0 1 b\nb 1 0 a\n", "the next run works", `${small.status} ${text(small.output)}`);
  engine.keepBelow(0);
  const whole = engine.run(words, network);
  told(whole.status === 0 && text(whole.output).split("\n").length === 64 * 64 + 2, "an output longer than the first room", `${whole.status} ${whole.output.length}`);
}

// The page's walks along a plan are the engine's.
function tryWalks(engine) {
  const text = bytes => Buffer.from(bytes).toString(), topology = fs.readFileSync(path.join(root, "examples", "nsfnet.edgelist"), "utf8"), { graph } = readTopology(topology, "edgelist");
  for (const kind of ["tree", "shortest", "compact"]) {
    const words = ["--kind", kind, "--format", "edgelist"], [plan] = readPlans(text(engine.run(["plan", ...words, "topology"], topology).output), graph).plans;
    const differs = graph.names.flatMap((from, u) => graph.names.map((to, v) => [from, to, u, v])).filter(([from, to, u, v]) => {
      const { weight, hops } = walkAlong(plan, graph, u, v), wanted = text(engine.run(["walk", ...words, "--from", from, "--to", to, "topology"], topology).output);
      const lines = hops.map(hop => [hop.node, hop.label, ...hop.to === undefined ? [] : [hop.start, hop.end, hop.to, hop.weight]].join(" "));
      return wanted !== [`walk ${kind} ${from} ${to} ${plan.rows[v].label} ${weight}`, ...lines].join("\n") + "\n";
    });
    told(differs.length === 0, `the page's walks by ${kind}`, JSON.stringify(differs.slice(0, 3)));
  }
}

function tryWords(engine) {
  const text = bytes => Buffer.from(bytes).toString();
  const bad = engine.run(["plan", "--kind", "fast", "network"], "a b\n");
  told(bad.status === 2 && bad.output.length === 0 && text(bad.faults).startsWith("error: "), "words that are refused", `${bad.status} ${text(bad.faults)}`);
  const live = engine.run(["live", "network", "script"], "a b\n", "inject a b\n");
  told(live.status === 3 && text(live.faults) === "no thread\n", "live is told as no thread", `${live.status} ${text(live.faults)}`);
  const said = engine.run(["plan", "--explain", "--format", "edgelist", "network"], "a b 1\nb c x\n");
  told(said.status === 1 && /^topology 2 BadWeight\nroute: network:2: /.test(text(said.faults)), "a sentence behind a fault", text(said.faults));
}

// A node's table as bytes has the words of its text, the lowest byte of each first.
function tryTable(engine) {
  const words = ["xdp", "table", "300", "--node", "b", "network"], network = "a b\nb c\n";
  const lines = Buffer.from(engine.run(words, network).output).toString().split(/\s/).filter(word => word !== "");
  const { status, output } = engine.run([...words, "--binary"], network), wanted = Buffer.alloc(4 * lines.length);
  lines.forEach((word, place) => wanted.writeUInt32LE(parseInt(word, 16), 4 * place));
  told(status === 0 && output.length === 128 && wanted.equals(Buffer.from(output)), "a table as bytes", `${status} ${output}`);
}

// What the playback shows at each of its steps are lines that the engine plays to the same end.
function tryPlayback(engine) {
  const text = bytes => Buffer.from(bytes).toString(), read = name => fs.readFileSync(path.join(root, "examples", name), "utf8");
  const ring = Array.from({ length: 8 }, (_, i) => `n${i} n${(i + 1) % 8}\n`).join("");
  const runs = [["relabel", read("nsfnet.edgelist"), "edgelist", read("relabel.script"), ["--kind", "tree", "--root", "Houston"]],
    ["a ring", ring, "adjlist", "inject n0 n4\ninject n0 n5\ninject n4 n0\ntake n0 inbox\nact n0\ninject n1 n5\ndown n2 n3\ninstall tree n5\nlearn 2\ninject n0 n4\ndrain\n", []],
    ["new stamps", ring, "adjlist", "inject n0 n4\ninject n5 n1\ntake n0 inbox\nact n0\ninstall tree n5\nretire 2\ndrain\ninject n3 n4\ndrain\n", ["--restamps", "2"]]];
  for (const [name, topology, format, script, further] of runs) {
    const { graph } = readTopology(topology, format), { commands } = readScript(script, graph);
    const played = it => text(engine.run(["sim", "--format", format, ...further, "topology", "script"], topology, it).output), whole = played(script);
    const { rows } = readTrace(whole, graph), steps = readSteps(text(engine.run(["sim", "--steps", "--json", "--format", format, ...further, "topology", "script"], topology, script).output));
    const { packets, moments } = new Player(graph, rows, commands, steps), last = Math.max(...packets.map(packet => packet.ends)), at = step => scriptAt({ graph, rows, commands, steps }, step, []).text;
    const differs = Array.from({ length: last + 2 }, (_, step) => step).filter(step => played(at(step)) !== whole);
    const isWhole = rows.length > 2 && moments.every(moment => moment.said !== "after the last line");
    told(differs.length === 0 && isWhole, `the playback of ${name}`, `other ends from steps ${differs} of ${last}: ${differs.length > 0 ? played(at(differs[0])) + whole : ""}`);
  }
}

async function main() {
  const engine = await Engine.of(fs.readFileSync(process.argv[2]));
  for (const it of cases.filter(({ words }) => words[0] !== "live")) tryCase(engine, it);
  tryPlayback(engine);
  tryWalks(engine);
  tryWords(engine);
  tryTable(engine);
  tryMemory(engine);
  console.log(`${counts[0]} passed, ${counts[1]} failed`);
  process.exitCode = counts[1] > 0 ? 1 : 0;
}

await main();
