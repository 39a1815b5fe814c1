// The page's address beside the store: an edit is a step of the browser's history, a look changes the address in place.
import { readTopology } from "./reading.js";
import { givenPlaces, hashOf } from "./address.js";
import { byId } from "./page.js";
import { pointAt } from "./drawing.js";
import { showTab, tell } from "./panels.js";
import { askRun, readGraph, refresh } from "./asking.js";
import { EXAMPLES, exampleState, showState } from "./editing.js";
import { beginTour, fitTour, goToStep, stopTour } from "./explainer.js";
import { choose, goTo } from "./replay.js";
import { LEAST_STRETCH, MOST_LANDMARKS, MOST_STRETCH, numberOr } from "./landmarks.js";
import { EDITS, FORMATS, KINDS, LOOKS, NUMBERINGS, TABS, store } from "./state.js";

// An address may be longer in today's browsers; one that is longer is not kept.
const MOST_ADDRESS = 1 << 20;
const visit = { turn: 0, isReading: false, wait: 0, isEdit: false, depth: 0, top: 0, lab: "#example=1" };

export function showView(view) {
  store.set({ view });
  byId("tour").hidden = view !== "tour";
  if (view === "tour") fitTour();
  byId("lab").hidden = view !== "lab";
  for (const name of ["tour", "lab"]) byId("view-" + name).setAttribute("aria-current", name === view ? "page" : "false");
}

function showSteps() {
  byId("undo").disabled = visit.depth === 0;
  byId("redo").disabled = visit.depth >= visit.top;
}

// Whether the address is what is seen.
export function isKept() {
  return visit.wait === 0 && !visit.isReading;
}

// Writes the address, as a step of history where something was edited.
export function keepAddress() {
  clearTimeout(visit.wait);
  const { isEdit } = visit, hash = hashOf(store.now, EXAMPLES);
  visit.wait = 0;
  visit.isEdit = false;
  if (store.now.view !== "lab") return;
  visit.lab = hash;
  if (hash === location.hash) return;
  if (hash.length > MOST_ADDRESS) {
    tell("This network is too large for an address: Save keeps it, a link doesn't.", "note");
    return;
  }
  if (isEdit) visit.top = visit.depth += 1;
  history[isEdit ? "pushState" : "replaceState"]({ depth: visit.depth }, "", hash);
  showSteps();
}

function keepLater(isEdit) {
  if (visit.isReading || store.now.view !== "lab" || (store.now.isPlaying && !isEdit)) return;
  visit.isEdit = visit.isEdit || isEdit;
  clearTimeout(visit.wait);
  visit.wait = setTimeout(keepAddress, isEdit ? 0 : 300);
}

// What an address says of the network and of its script.
function editsOf(given) {
  const example = EXAMPLES[Number(given.get("example") || 1) - 1] ? Number(given.get("example") || 1) - 1 : 0, has = given.has("topology");
  const one = (name, all, other) => all.includes(given.get(name)) ? given.get(name) : other, text = (name, other) => given.has(name) ? given.get(name) : other;
  const first = has ? { ...EDITS, topology: given.get("topology"), origin: -1, areWeightsShown: given.get("format") === "edgelist" && innerWidth > 640 } : exampleState(example);
  const format = one("format", FORMATS, first.format), script = text("script", first.script), { graph } = readTopology(first.topology, format);
  const places = givenPlaces(given, graph.names);
  return {
    ...first, format, script, kind: one("kind", KINDS.filter(kind => kind !== "landmark" || store.now.takesLandmarks), first.kind), numbering: one("numbering", NUMBERINGS, first.numbering), root: text("root", first.root),
    scriptBy: given.has("script") && script !== "" ? "visitor" : first.scriptBy, trace: text("trace", ""), isOwnTrace: given.has("trace"),
    restamps: /^[0-3]$/.test(given.get("restamps")) ? given.get("restamps") : "0", capacity: /^[1-9]\d{0,3}$/.test(given.get("capacity")) ? given.get("capacity") : "16",
    landmarks: numberOr(given.get("landmarks") || "", 1, MOST_LANDMARKS, ""), stretch: numberOr(given.get("stretch") || "", LEAST_STRETCH, MOST_STRETCH, "300"),
    manual: places.manual, places: places.places || first.places,
  };
}

// What it says of what is looked at, once the network is there.
function lookAt(given) {
  const { graph } = store.now, named = name => graph && graph.numbers.has(given.get(name)) ? { [name]: graph.numbers.get(given.get(name)) } : {};
  store.set({ ...named("from"), ...named("to"), ...named("node") });
  showState();
  for (const [name, field] of [["weights", "areWeightsShown"], ["rows", "areRowsShown"]]) if (/^[01]$/.test(given.get(name))) store.set({ [field]: given.get(name) === "1" });
  byId("weights").checked = store.now.areWeightsShown;
  byId("rows").checked = store.now.areRowsShown;
}

async function visitLab(given, turn) {
  showView("lab");
  store.set({ ...editsOf(given), step: 0, time: 0, chosen: -1, node: LOOKS.node, from: LOOKS.from, to: Infinity, isStale: false, graph: null, plan: null, walk: null, rows: [], commands: [] });
  byId("example").value = store.now.origin < 0 ? "" : store.now.origin;
  readGraph();
  lookAt(given);
  showTab(TABS.includes(given.get("tab")) ? given.get("tab") : "network");
  await refresh();
  if (turn !== visit.turn) return;
  const step = Math.floor(Number(given.get("step"))) || 0;
  if (step > 0 && store.now.isRunDue) await askRun();
  goTo(step);
  const packet = store.now.rows.findIndex(row => String(row.id) === given.get("packet"));
  if (packet >= 0) choose(packet);
  pointAt(store.now.node);
}

// Shows what is after `#` in the page's address; the explainer where there is nothing.
export async function readAddress() {
  const given = new URLSearchParams(location.hash.slice(1)), turn = visit.turn += 1, depth = history.state && history.state.depth;
  clearTimeout(visit.wait);
  Object.assign(visit, { isReading: true, wait: 0, isEdit: false, depth: depth || 0, top: Math.max(visit.top, depth || 0) });
  stopTour();
  try {
    if (given.has("tour") || [...given.keys()].length === 0) {
      showView("tour");
      await beginTour();
      if (given.has("tour")) goToStep(Math.floor(Number(given.get("tour"))) - 1 || 0);
    } else await visitLab(given, turn);
  } finally {
    if (turn === visit.turn) visit.isReading = false;
    showSteps();
  }
}

export function listenToAddress() {
  store.on(["topology", "format", "kind", "numbering", "root", "script", "trace", "isOwnTrace", "restamps", "capacity", "landmarks", "stretch", "places", "manual"], () => keepLater(true));
  store.on(["tab", "step", "chosen", "node", "from", "to", "areWeightsShown", "areRowsShown", "isPlaying"], () => keepLater(false));
  window.addEventListener("popstate", readAddress);
  byId("view-tour").onclick = () => { location.hash = "tour=1"; };
  byId("view-lab").onclick = () => { location.hash = visit.lab; };
  byId("undo").onclick = () => history.back();
  byId("redo").onclick = () => history.forward();
  document.addEventListener("keydown", event => {
    if (store.now.view !== "lab" || /^(TEXTAREA|INPUT)$/.test(event.target.tagName) || !(event.ctrlKey || event.metaKey) || event.altKey) return;
    const isRedo = event.key.toLowerCase() === "y" || (event.key.toLowerCase() === "z" && event.shiftKey);
    if (!isRedo && event.key.toLowerCase() !== "z") return;
    event.preventDefault();
    byId(isRedo ? "redo" : "undo").click();
  });
}
