// Texts into graphs and traces, as `route` reads them. Nothing here draws.

export const MOST_NODES = 32768, MOST_EDGES = 131072, MOST_NAME = 64, MOST_WEIGHT = 65535, MOST_NUMBER = 4294967295;
export const MOST_SEGMENTS = 4, MOST_BYTES = 16777216;
// Where packets travel.
export const MOST_NET_NODES = 1024, MOST_NET_LINKS = 8192;
// More nodes are read and not drawn.
export const MOST_DRAWN = 1024;

// What is wrong with a line, in the program's words.
export class Fault {
  constructor(kind) { this.kind = kind; }
}

// Calls `read(line, number)` on each line, and answers the first fault with its line's number, or null.
export function firstFault(lines, from, read) {
  for (let i = 0; i < lines.length; i++) {
    try {
      read(lines[i]);
    } catch (error) {
      if (!(error instanceof Fault)) throw error;
      return { line: from + i, kind: error.kind };
    }
  }
  return null;
}

export function wordsOf(line) {
  const comment = line.indexOf("#");
  const plain = comment < 0 ? line : line.slice(0, comment);
  if (!/^[\t\v\f\r -~]*$/.test(plain)) throw new Fault("BadByte");
  return plain.split(/[\t\v\f\r ]+/).filter(word => word !== "");
}

export function checkNames(words) {
  if (words.some(word => word.length > MOST_NAME)) throw new Fault("BadName");
}

export function pairOf(u, v) {
  return Math.min(u, v) * MOST_NODES + Math.max(u, v);
}

export function addNode(graph, name) {
  if (graph.numbers.has(name)) return graph.numbers.get(name);
  if (graph.names.length === MOST_NODES) throw new Fault("TooManyNodes");
  graph.numbers.set(name, graph.names.length);
  return graph.names.push(name) - 1;
}

export function addEdge(graph, source, target, weight) {
  const u = addNode(graph, source), v = addNode(graph, target);
  if (!graph.edges.has(pairOf(u, v)) && graph.edges.size === MOST_EDGES) throw new Fault("TooManyEdges");
  graph.edges.set(pairOf(u, v), { u, v, weight });
}

export function weightOf(word) {
  const weight = /^[0-9]+(\.0+)?$/.test(word) ? Number(word) : 0;
  if (weight < 1 || weight > MOST_WEIGHT) throw new Fault("BadWeight");
  return weight;
}

export function addNeighbours(graph, words) {
  checkNames(words);
  if (words.length > 0) addNode(graph, words[0]);
  for (const target of words.slice(1)) addEdge(graph, words[0], target, 1);
}

export function addWeighted(graph, words) {
  if (words.length < 2) return;
  checkNames(words.slice(0, 2));
  if (words.length !== 3) throw new Fault("BadRow");
  addEdge(graph, words[0], words[1], weightOf(words[2]));
}

// A topology's text: { graph, fault }. A graph has `names` in order, the `numbers` of the names, and `edges` by pair.
export function readTopology(text, format) {
  const graph = { names: [], numbers: new Map(), edges: new Map() };
  const add = format === "edgelist" ? addWeighted : addNeighbours;
  const fault = firstFault(text.split("\n"), 1, line => add(graph, wordsOf(line)));
  graph.links = [...graph.edges.values()].filter(edge => edge.u !== edge.v);
  return { graph, fault };
}

export function areLinked(graph, u, v) {
  return u !== v && graph.edges.has(pairOf(u, v));
}

export function numberOf(word) {
  if (!/^(0|[1-9][0-9]*)$/.test(word) || Number(word) > MOST_NUMBER) throw new Fault("BadRow");
  return Number(word);
}

// Takes the fate, with its names, from the front of the words.
export function takeFate(words) {
  const fate = words.shift();
  if (["delivered", "retired", "left"].includes(fate)) return [fate];
  if (["down", "full"].includes(fate) && words.length >= 2) return [fate, words.shift(), words.shift()];
  throw new Fault("BadRow");
}

// The words of segments as their epochs and names of hops.
export function segmentsOf(words) {
  const segments = [];
  for (const word of words) {
    if (word[0] === "#") segments.push({ epoch: numberOf(word.slice(1)), hops: [] });
    else if (segments.length === 0) throw new Fault("BadRow");
    else segments[segments.length - 1].hops.push(word);
  }
  if (segments.length < 1 || segments.length > MOST_SEGMENTS) throw new Fault("BadRow");
  return segments;
}

// A row as its words spell it, still with names.
export function spelled(version, line) {
  const words = line.split(" ");
  if (!words.every(word => /^[!-~]+$/.test(word))) throw new Fault("BadRow");
  if (words.length < (version === 1 ? 6 : 5)) throw new Fault("BadRow");
  const id = numberOf(words.shift());
  const epoch = version === 1 ? numberOf(words.shift()) : null;
  const source = words.shift(), dest = words.shift(), weight = numberOf(words.shift());
  const fate = takeFate(words);
  const segments = version === 1 ? [{ epoch, hops: words }] : segmentsOf(words);
  if (segments.some(segment => segment.hops.length === 0)) throw new Fault("BadRow");
  return { id, source, dest, weight, fate, segments };
}

export function nodeNamed(graph, name) {
  if (!graph.numbers.has(name)) throw new Fault("UnknownNode");
  return graph.numbers.get(name);
}

// The row with numbers for names.
export function resolved(graph, row) {
  const ends = row.fate.slice(1).map(name => nodeNamed(graph, name));
  if (ends.length === 2 && !areLinked(graph, ends[0], ends[1])) throw new Fault("UnknownNode");
  if (row.fate[0] === "down" && ends[0] > ends[1]) throw new Fault("UnknownNode");
  return {
    id: row.id, source: nodeNamed(graph, row.source), dest: nodeNamed(graph, row.dest), weight: row.weight,
    fate: row.fate, ends,
    segments: row.segments.map(segment => ({ epoch: segment.epoch, hops: segment.hops.map(name => nodeNamed(graph, name)) })),
  };
}

// A trace's text over a graph: { version, rows, fault }.
export function readTrace(text, graph) {
  const header = /^trace ([12])\n/.exec(text);
  if (header === null) return { version: 0, rows: [], fault: { line: 1, kind: "NotTrace" } };
  const version = Number(header[1]), rows = [];
  const lines = text.slice(header[0].length).split("\n");
  const uncut = lines.pop();
  let fault = firstFault(lines, 2, line => rows.push(resolved(graph, spelled(version, line))));
  if (fault === null && uncut !== "") fault = { line: lines.length + 2, kind: "BadRow" };
  return { version, rows, fault };
}

// What follows the first word of each line of a script: a node, a fixed word, a number; `kind` is a kind of plan.
export const COMMANDS = {
  inject: ["node", "node"], drain: [], down: ["node", "node"], up: ["node", "node"], avoid: ["node", "node"],
  heed: ["node", "node"], install: ["kind", "node"], renumber: ["kind", "node"], retire: ["number"],
  learn: ["number"], read: ["node", "number"], act: ["node"], take: ["node", "from", "node"], "take inbox": ["node", "inbox"],
};

export function scriptNumber(word) {
  if (!/^[0-9]{1,5}$/.test(word) || Number(word) > MOST_WEIGHT) throw new Fault("BadNumber");
  return Number(word);
}

// A line of a script as its name and its operands.
export function commandOf(graph, words) {
  const name = words[0] === "take" && words.length === 3 ? "take inbox" : words[0], wanted = COMMANDS[name];
  if (!Object.hasOwn(COMMANDS, name) || wanted.length !== words.length - 1) throw new Fault("BadCommand");
  words.slice(1).forEach((word, i) => {
    const fits = wanted[i] === "kind" ? ["tree", "shortest", "compact", "landmark"].includes(word) : !["from", "inbox"].includes(wanted[i]) || wanted[i] === word;
    if (!fits) throw new Fault("BadCommand");
  });
  const given = words.slice(1).map((word, i) => wanted[i] === "number" ? scriptNumber(word) : wanted[i] === "node" ? nodeNamed(graph, word) : word);
  const linked = { down: [0, 1], up: [0, 1], avoid: [0, 1], heed: [0, 1], take: [0, 2] }[name];
  if (linked && !areLinked(graph, given[linked[0]], given[linked[1]])) throw new Fault("UnknownLink");
  return { name, given };
}

// A script's text over a graph: { commands, fault }; each command has its line.
export function readScript(text, graph) {
  const commands = [];
  let number = 0;
  const fault = firstFault(text.split("\n"), 1, line => {
    number += 1;
    const words = wordsOf(line);
    if (words.length > 0) commands.push({ line: number, text: words.join(" "), ...commandOf(graph, words) });
  });
  return { commands, fault };
}

// A node's line of a plan: its label and its intervals, by ascending starts.
export function planRow(graph, words) {
  if (words.length < 2 || words.length % 2 !== 0) throw new Fault("BadRow");
  const intervals = [];
  for (let i = 2; i < words.length; i += 2) intervals.push({ start: numberOf(words[i]), to: nodeNamed(graph, words[i + 1]) });
  intervals.forEach((interval, i) => { interval.end = intervals[(i + 1) % intervals.length].start; });
  return { node: nodeNamed(graph, words[0]), label: numberOf(words[1]), intervals };
}

// Plans, one after the other, over a graph: { plans, fault }. A plan has for each node its row.
export function readPlans(text, graph) {
  const plans = [];
  const fault = firstFault(text.split("\n"), 1, line => {
    const words = line.split(/[\r ]+/).filter(word => word !== "");
    if (words.length === 0) return;
    if (words[0] === "plan" && words.length === 4 && /^(tree|shortest|compact|landmark)$/.test(words[1])) {
      plans.push({ kind: words[1], rows: [] });
      return;
    }
    if (plans.length === 0) throw new Fault("BadRow");
    const row = planRow(graph, words);
    plans[plans.length - 1].rows[row.node] = row;
  });
  return { plans, fault };
}

// Places over a graph: { points, fault }; no points where there is no text.
export function readPlaces(text, graph) {
  const points = graph.names.map(() => null);
  let some = false;
  const fault = firstFault(text.split("\n"), 1, line => {
    const words = wordsOf(line);
    if (words.length === 0) return;
    if (words.length !== 3) throw new Fault("BadRow");
    const [x, y] = words.slice(1).map(Number);
    if (!Number.isFinite(x) || !Number.isFinite(y)) throw new Fault("BadNumber");
    if (graph.numbers.has(words[0])) points[graph.numbers.get(words[0])] = { x, y: -y };
    some = true;
  });
  return { points: some ? points : null, fault };
}

// The lines of a text that say something, without their comments.
export function plainLines(text) {
  return text.split("\n").map(line => line.split("#")[0].trim()).filter(line => line !== "");
}

// The format that the lines of a text have: a weighted edge list where each has two nodes and a number. What NetworkX writes
// as an adjacency list begins with a date.
export function formatOf(text) {
  const lines = plainLines(text), isDated = /^#.*\n#\s*GMT /.test(text);
  return !isDated && lines.length > 0 && lines.every(line => /^\S+\s+\S+\s+[0-9]+(\.[0-9]*)?$/.test(line)) ? "edgelist" : "adjlist";
}

// A pasted text with blanks between words: commas, and what NetworkX and others write after an edge, as {'weight': 3}, are no
// words of a list here. Edges without a weight among weighted ones get 1.
export function tidied(text) {
  const lines = plainLines(text);
  if (lines.length === 0) return text;
  if (lines.every(line => /^[^,\s]+(\s*[,;]\s*[^,\s]+)+$/.test(line))) return tidied(text.replace(/[,;]/g, " "));
  if (!lines.every(line => /^\S+\s+\S+\s+\{.*\}$/.test(line))) return text;
  const weights = lines.map(line => /["']weight["']:\s*([0-9.]+)/.exec(line)), isWeighted = weights.some(Boolean);
  return lines.map((line, i) => line.split(/\s+/, 2).join(" ") + (isWeighted ? " " + (weights[i] ? weights[i][1] : 1) : "")).join("\n") + "\n";
}

// The numbers of the first lines of a topology that can't be read, each by itself.
export function faultLines(text, format, most) {
  const found = [], lines = text.split("\n"), graph = () => ({ names: [], numbers: new Map(), edges: new Map() });
  for (let i = 0; i < lines.length && found.length < most; i++) {
    if (firstFault([lines[i]], i + 1, line => (format === "edgelist" ? addWeighted : addNeighbours)(graph(), wordsOf(line)))) found.push(i + 1);
  }
  return found;
}
