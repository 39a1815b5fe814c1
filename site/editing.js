// What is edited: by the texts, by the tools of the drawing, by examples.
import { areLinked, formatOf, plainLines, readScript, readTopology, tidied } from "./reading.js";
import { breakLines, freshName, scriptAt, withLine, withLink, withoutLink, withoutNode } from "./network.js";
import { Player, momentAt } from "./playing.js";
import { byId } from "./page.js";
import { layers, linkAt } from "./drawing.js";
import { pointOf } from "./sight.js";
import { EDITED, goToLine, showGutter, showTab } from "./panels.js";
import { askRun, askWalk, clicks, readGraph, redraw, refresh } from "./asking.js";
import { store } from "./state.js";

export const EXAMPLES = JSON.parse(byId("examples").textContent);

// What a text changes beside itself. A network of other nodes is planned as the program does by default, and has no script;
// else a root that is gone is the first node, and a script that an example brought goes where one of its nodes has gone.
function adapted(text, format) {
  const { graph: before, root, script, origin } = store.now, { graph } = readTopology(text, format), has = name => graph.numbers.has(name);
  const kept = before ? before.names.filter(has).length : 0;
  if (before && graph.names.length > 0 && 2 * kept < Math.min(before.names.length, graph.names.length)) {
    return { kind: "shortest", numbering: "depth-first", root: "", landmarks: "", stretch: "300", script: "", scriptBy: "", isOwnTrace: false, trace: "", restamps: "0", places: "", manual: null, step: 0, node: 0, from: 0, to: Infinity, areWeightsShown: format === "edgelist" };
  }
  const used = [...script.matchAll(/^\s*(?:inject|take|act|down|up|avoid|heed)\s+([^\s#]+)(?:\s+(?:from\s+)?([^\s#]+))?/gm)].flatMap(found => found.slice(1)).filter(name => name && name !== "inbox");
  const isGone = origin >= 0 && script === EXAMPLES[origin].script && !used.every(has);
  return { ...root !== "" && !has(root) ? { root: "" } : {}, ...isGone ? { script: "", scriptBy: "" } : {} };
}

// A text that came as a whole: by a paste, a drop or a file. Its format is that of its lines, if no other is given.
export function takeTopology(given, format = null) {
  const text = tidied(given);
  setFormat(format || formatOf(text));
  setTopology(text, false);
}

// Whether nothing of what a text was is left in it.
export function isReplaced(before, text) {
  const lines = new Set(plainLines(before));
  return !plainLines(text).some(line => lines.has(line));
}

export function setTopology(text, isDrawn) {
  store.set({ ...isDrawn ? {} : { manual: null }, ...adapted(text, store.now.format), topology: text });
  showFields();
  ownNetwork();
}

export function ownNetwork() {
  byId("example").value = "";
  refresh();
}

export function setScript(text) {
  store.set({ script: text, scriptBy: "visitor", isOwnTrace: false });
  byId("script").value = text;
  byId("again").disabled = true;
  askRun();
  showGutter("script");
}

export function setFormat(format) {
  store.set({ format });
  document.querySelector(`input[name=format][value=${format}]`).checked = true;
}

// The fields that the kind has: landmarks in place of a numbering.
export function showKind() {
  const isLandmark = store.now.kind === "landmark";
  byId("landmark-fields").hidden = !isLandmark;
  byId("numbering").disabled = isLandmark;
}

// The fields of the page as the store has them.
export function showFields() {
  const { format, isOwnTrace, restamps, capacity, areRowsShown, areWeightsShown, trace } = store.now;
  for (const id of ["topology", "script", "kind", "numbering", "root", "landmarks", "stretch"]) if (byId(id).value !== store.now[id]) byId(id).value = store.now[id];
  document.querySelector(`input[name=format][value=${format}]`).checked = true;
  if (isOwnTrace) byId("trace").value = trace;
  byId("again").disabled = !isOwnTrace;
  showKind();
  byId("restamps").value = restamps;
  byId("capacity").value = capacity;
  byId("rows").checked = areRowsShown;
  byId("weights").checked = areWeightsShown;
  for (const name of EDITED) showGutter(name);
}

// The same, with the rows beside the nodes where these are few.
export function showState() {
  store.set({ areRowsShown: Boolean(store.now.graph) && store.now.graph.names.length <= 10 });
  showFields();
}

// What an example sets.
export function exampleState(i) {
  const { topology, format, places, script, kind, root } = EXAMPLES[i];
  return {
    topology, format, kind: kind || "shortest", numbering: "depth-first", root: root || "", script: script || "", scriptBy: script ? "example" : "",
    trace: "", restamps: "0", capacity: "16", landmarks: "", stretch: "300", places: places || "", manual: null, isOwnTrace: false, areWeightsShown: format === "edgelist" && innerWidth > 640, origin: i,
  };
}

export function setExample(i) {
  store.set({ ...exampleState(i), step: 0, node: 0, from: 0, to: Infinity, isStale: false, graph: null, plan: null, walk: null, rows: [], commands: [] });
  readGraph();
  showState();
  byId("example").value = i;
  return refresh();
}

// The places of all nodes as they are, so that none moves when one comes to them.
function standingPlaces() {
  const { graph, drawing } = store.now, places = new Map(graph ? graph.names.map((name, u) => [name, drawing.points[u]]) : []);
  return { sheet: drawing ? drawing.sheet : { width: 1000, height: 620 }, places };
}

function drawNode(event) {
  if (store.now.isStale) return;
  const { graph, picked, topology, format } = store.now, name = freshName(graph), at = pointOf(event), manual = standingPlaces();
  if (!graph && topology.trim() !== "") return;
  if (!graph) setFormat("adjlist");
  manual.places.set(name, at);
  store.set({ manual });
  pick(null);
  const alone = format === "edgelist" && graph ? `${name} ${name} 1` : name;
  setTopology(picked === null ? withLine(topology, alone) : withLink(topology, format, graph.names[picked], name, 1), true);
  pick(store.now.graph ? store.now.graph.numbers.get(name) ?? null : null);
}

// Asks for the weight of a link of a weighted list.
function askWeight({ u, v, weight }) {
  const { graph: { names }, topology, format } = store.now;
  if (format !== "edgelist") return;
  const given = window.prompt(`The weight of ${names[u]} - ${names[v]}, a whole number from 1 to 65535`, weight);
  if (given === null || !/^[1-9]\d{0,4}$/.test(given.trim())) return;
  store.set({ manual: standingPlaces() });
  setTopology(withLink(withoutLink(topology, format, names[u], names[v]), format, names[u], names[v], given.trim()), true);
}

export function pick(u) {
  store.set({ picked: u });
  layers.circles.forEach((group, v) => group.classList.toggle("picked", v === u));
  byId("tool-told").textContent = toolTold();
}

function toolTold() {
  const { picked, graph, tool } = store.now, from = picked === null || !graph ? null : graph.names[picked];
  return {
    look: from ? `from ${from}: click where the path ends` : "click two nodes for the path between them",
    draw: from ? `click a node, or a free place for a new one, to link ${from} with it` : "click a free place for a node, two nodes for a link, a weighted link for its weight",
    break: "click a link to break it at this step of the playback; click again to repair it",
    erase: "click a node or a link to remove it",
  }[tool];
}

function nodeClicked(u) {
  const { picked, graph, tool, topology, format, isStale } = store.now;
  if (isStale) return;
  if (tool === "erase") {
    store.set({ manual: standingPlaces() });
    pick(null);
    setTopology(withoutNode(topology, format, graph.names[u]), true);
  } else if (tool === "break" || picked === u) pick(null);
  else if (picked === null) pick(u);
  else {
    pick(null);
    if (tool === "draw") linkNodes(picked, u);
    else walkBetween(picked, u);
  }
}

function linkNodes(u, v) {
  const { graph, topology, format } = store.now;
  if (areLinked(graph, u, v)) return;
  store.set({ manual: standingPlaces() });
  setTopology(withLink(topology, format, graph.names[u], graph.names[v], 1), true);
}

export function walkBetween(u, v) {
  store.set({ from: u, to: v });
  byId("from").value = u;
  byId("to").value = v;
  showTab("walk");
  askWalk();
}

function linkClicked(u, v) {
  const { graph: { names }, tool, topology, format, isStale } = store.now;
  if (isStale) return;
  if (tool === "erase") {
    store.set({ manual: standingPlaces() });
    setTopology(withoutLink(topology, format, names[u], names[v]), true);
  } else if (tool === "break") breakLink({ u, v });
}

clicks.onNode = nodeClicked;

// A click on the drawing beside its nodes.
export function sheetClicked(event) {
  const { tool } = store.now, edge = linkAt(pointOf(event), 9 * scaleOf());
  if (tool === "draw" && edge && store.now.format === "edgelist") askWeight(edge);
  else if (tool === "draw") drawNode(event);
  else if (edge && (tool === "break" || tool === "erase")) linkClicked(edge.u, edge.v);
}

// How many of the sheet's units a pixel is.
export function scaleOf() {
  const { drawing, sight } = store.now;
  return drawing ? (sight ? sight.w : drawing.sheet.width) / Math.max(1, byId("drawing").clientWidth) : 1;
}

// A node that was dragged stays where it is put.
export function nodeMoved(u, at) {
  const manual = standingPlaces();
  manual.places.set(store.now.graph.names[u], at);
  store.set({ manual });
  readGraph();
  redraw();
}

clicks.onSet = changes => {
  store.set(changes);
  showFields();
  refresh();
};

// Writes lines that act at the step of the playback, where the script can be read; what comes after them stays.
function actHere(linesOf) {
  const { graph, script, rows, steps, step, last, isRunDue, isPlaying } = store.now, { commands, fault } = readScript(script, graph);
  showTab("run");
  if (fault) {
    goToLine("script", fault.line);
    return;
  }
  const moments = new Player(graph, rows, commands, steps).moments, at = isRunDue || step >= last ? Infinity : step;
  const { text, line } = scriptAt({ graph, rows, commands, steps }, at, linesOf(momentAt(moments, at)));
  store.set({ resumed: { line, isPlaying } });
  setScript(text);
}

export function breakLink(edge) {
  const { graph, kind, root } = store.now;
  actHere(now => breakLines(graph, now, edge, kind, root || graph.names[0]));
}

export function sendPacket() {
  const { graph: { names }, from, to } = store.now;
  actHere(() => [`inject ${names[from]} ${names[to]}`]);
}
