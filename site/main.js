// What clicks, keys and files do, and the beginning.
import { MOST_BYTES } from "./reading.js";
import { withLines } from "./network.js";
import { byId, made } from "./page.js";
import { drawRows, hoverLink, layers, linkAt, pictureText, pointAt } from "./drawing.js";
import { listenToSight, look, nameNodes, pointOf } from "./sight.js";
import { EDITED, listenToTabs, showGutter, showTab, tell } from "./panels.js";
import { listenToPlayer } from "./replay.js";
import { askFigures, askRun, askWalk, desk, redraw, refreshPlan } from "./asking.js";
import { EXAMPLES, breakLink, isReplaced, nodeMoved, ownNetwork, pick, scaleOf, sendPacket, setExample, setFormat, setScript, setTopology, sheetClicked, showKind, takeTopology, walkBetween } from "./editing.js";
import { SAVED, copy, copySaved, save } from "./saving.js";
import { isKept, keepAddress, listenToAddress, readAddress } from "./visiting.js";
import { filmOfTour, listenToTour } from "./explainer.js";
import { LEAST_STRETCH, MOST_LANDMARKS, MOST_STRETCH, numberOr } from "./landmarks.js";
import { store } from "./state.js";

// What a file holds as text. A byte that is not UTF-8 becomes one that no word may have.
async function openFile(name, file) {
  if (!file) return;
  if (file.size > MOST_BYTES) {
    tell(`${file.name}: more than ${MOST_BYTES} bytes`, "fault");
    return;
  }
  const text = new TextDecoder("utf-8", { ignoreBOM: true }).decode(await file.arrayBuffer());
  if (name === "topology") {
    takeTopology(text, /\.(edgelist|wel)$/.test(file.name) ? "edgelist" : /\.adjlist$/.test(file.name) ? "adjlist" : null);
    showTab("network");
  } else if (name === "script") setScript(text);
  else ownTrace(text);
}

function ownTrace(text) {
  store.set({ trace: text, isOwnTrace: true });
  byId("trace").value = text;
  byId("again").disabled = false;
  askRun();
}

// Calls that wait for a quarter of a second.
const delayed = new Set();

// A function that is called once no further call came for a quarter of a second.
function later(call) {
  let wait = 0;
  return () => {
    clearTimeout(wait);
    delayed.delete(wait);
    wait = setTimeout(() => { delayed.delete(wait); call(); }, 250);
    delayed.add(wait);
  };
}

// Whether the page shows what was asked of it, and nothing is on its way.
function isSettled() {
  return delayed.size === 0 && desk.calls.size === 0 && isKept();
}

function listenToTexts() {
  let isPasted = false;
  const changed = {
    topology: later(() => {
      const text = byId("topology").value;
      if (isPasted || isReplaced(store.now.topology, text)) takeTopology(text);
      else setTopology(text, true);
      isPasted = false;
    }),
    script: later(() => setScript(byId("script").value)),
    trace: later(() => ownTrace(byId("trace").value)),
  };
  for (const name of EDITED) {
    byId(name).addEventListener("input", () => { showGutter(name); changed[name](); });
    byId(name).addEventListener("scroll", () => showGutter(name));
    new ResizeObserver(() => showGutter(name)).observe(byId(name));
    byId(name + "-file").onchange = event => openFile(name, event.target.files[0]);
    byId(name + "-file").onclick = event => { event.target.value = ""; };
  }
  byId("topology").addEventListener("input", event => { if (/^insertFrom/.test(event.inputType)) isPasted = true; });
  document.addEventListener("dragover", event => {
    event.preventDefault();
    document.body.classList.add("dropping");
  });
  document.addEventListener("dragleave", event => { if (!event.relatedTarget) document.body.classList.remove("dropping"); });
  document.addEventListener("drop", event => {
    event.preventDefault();
    document.body.classList.remove("dropping");
    const file = event.dataTransfer.files[0];
    if (file) openFile(/\.script$/.test(file.name) ? "script" : /\.trace$/.test(file.name) ? "trace" : "topology", file);
  });
}

function listenToChoices() {
  byId("example").onchange = () => { if (byId("example").value !== "") setExample(Number(byId("example").value)); };
  for (const id of ["kind", "numbering"]) byId(id).onchange = () => {
    store.set({ [id]: byId(id).value });
    showKind();
    refreshPlan();
  };
  const bounds = { landmarks: [1, MOST_LANDMARKS, ""], stretch: [LEAST_STRETCH, MOST_STRETCH, "300"] };
  for (const [id, [least, most, usual]] of Object.entries(bounds)) byId(id).onchange = () => {
    byId(id).value = numberOr(byId(id).value.trim(), least, most, usual);
    store.set({ [id]: byId(id).value });
    refreshPlan();
  };
  byId("root").oninput = later(() => { store.set({ root: byId("root").value.trim() }); refreshPlan(); });
  for (const radio of document.querySelectorAll("input[name=format]")) radio.onchange = () => { setFormat(radio.value); ownNetwork(); };
  byId("restamps").onchange = () => { store.set({ restamps: byId("restamps").value }); askRun(); };
  byId("capacity").onchange = () => { store.set({ capacity: byId("capacity").value || "16" }); askRun(); };
  for (const radio of document.querySelectorAll("input[name=tool]")) radio.onchange = () => {
    store.set({ tool: radio.value });
    byId("drawing").setAttribute("class", radio.value);
    pick(null);
  };
  byId("node").onchange = () => pointAt(Number(byId("node").value));
  for (const id of ["from", "to"]) byId(id).onchange = () => { store.set({ [id]: Number(byId(id).value) }); askWalk(); };
  byId("swap").onclick = () => walkBetween(store.now.to, store.now.from);
  byId("rows").onchange = () => { store.set({ areRowsShown: byId("rows").checked }); drawRows(); };
  byId("weights").onchange = () => { store.set({ areWeightsShown: byId("weights").checked }); redraw(); };
}

// The part of the drawing that is seen, and the link under the pointer where a tool takes links.
function listenToDrawing() {
  layers.onPoint = nameNodes;
  layers.onDrawn = () => look(store.now.sight);
  listenToSight({ onMoved: nodeMoved });
  store.on(["drawing"], (now, changed) => { if (changed.includes("graph")) store.set({ sight: null }); });
  byId("drawing").addEventListener("click", event => { if (!event.target.closest(".node") && !store.now.isStale) sheetClicked(event); });
  byId("drawing").addEventListener("pointermove", event => {
    const isTaken = ["break", "erase"].includes(store.now.tool) && !event.target.closest(".node");
    hoverLink(isTaken ? linkAt(pointOf(event), 9 * scaleOf()) : null);
  });
}

function listenToButtons() {
  byId("break").onclick = () => { if (store.now.graph.links[byId("edge").value]) breakLink(store.now.graph.links[byId("edge").value]); };
  byId("send").onclick = sendPacket;
  byId("compare").onclick = () => askFigures(true);
  byId("drain").onclick = () => setScript(withLines(store.now.script, ["drain"], false));
  byId("again").onclick = () => setScript(store.now.script);
  byId("stop").onclick = () => desk.stop();
  byId("save").onclick = save;
  byId("copy").onclick = copySaved;
  byId("link").onclick = () => {
    keepAddress();
    copy(location.href, "the link");
  };
}

// Offers the kind landmark where the engine takes it.
async function askKinds() {
  const answer = await desk.ask("kinds", ["plan", "--kind", "landmark", "topology"], "a b\n");
  if (!answer || answer.status !== 0) return;
  store.set({ takesLandmarks: true });
  made(byId("kind"), "option", "landmark");
}

let busySince = 0;
desk.onBusy = calls => {
  clearTimeout(busySince);
  if (calls === 0) byId("busy").hidden = true;
  else busySince = setTimeout(() => { byId("busy").hidden = false; }, 400);
};

async function begin() {
  EXAMPLES.forEach(({ name }, i) => { made(byId("example"), "option", name).value = i; });
  for (const name of Object.keys(SAVED)) made(byId("save-what"), "option", name).value = name;
  byId("save-what").value = "plan";
  listenToTabs();
  store.on(["tab"], () => askFigures());
  listenToTexts();
  listenToChoices();
  listenToButtons();
  listenToDrawing();
  listenToPlayer(askRun);
  listenToTour();
  listenToAddress();
  pick(null);
  const wide = window.matchMedia("(min-width: 641px)"), fold = () => { byId("more").open = wide.matches; };
  wide.addEventListener("change", fold);
  fold();
  try {
    await desk.begin();
  } catch (error) {
    tell("this browser cannot run the engine's module: " + error.message, "fault");
    return;
  }
  await askKinds();
  await readAddress();
  document.documentElement.dataset.ready = "yes";
}

// What a test of the page asks for.
globalThis.lab = { store, desk, isSettled, pictureText, EXAMPLES, SAVED, filmOfTour };

begin();
