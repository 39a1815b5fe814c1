// The first screen: a drawing, one sentence and Play, and the story that it plays.
import { pairOf, readPlaces, readPlans, readTopology } from "./reading.js";
import { hopsBetween, placed } from "./placing.js";
import { byId, drawn, interval, isCalm, made } from "./page.js";
import { filmOf } from "./painting.js";
import { desk } from "./asking.js";
import { EXAMPLES } from "./editing.js";
import { STEPS, lengthOf, spaced, storyOf } from "./story.js";
import { store } from "./state.js";

const FROM = "SaltLakeCity", TO = "Ithaca", PLANS = [["tree", "Houston"], ["shortest", "Seattle"]];

// The scene: its graph and places, the story, and what is drawn of it.
const scene = { graph: null, drawing: null, story: null, plans: [], links: new Map(), nodes: [], run: 0 };

// The beats of the story as the switch of the last step has it.
function beats() {
  const { beats: all, kept } = scene.story;
  return store.now.isMixed ? all : [...all.filter(beat => beat.step < 4), ...kept];
}

function firstOf(step) {
  return beats().findIndex(beat => beat.step === step);
}

// Asks the engine for both plans, and draws the network.
export function beginTour() {
  scene.begun = scene.begun || makeScene();
  return scene.begun;
}

async function makeScene() {
  const { topology, places } = EXAMPLES[0], { graph } = readTopology(topology, "edgelist");
  for (const [i, [kind, root]] of PLANS.entries()) {
    const { output } = await desk.ask("tour" + i, ["plan", "--kind", kind, "--root", root, "--format", "edgelist", "topology"], topology);
    scene.plans.push(readPlans(output, graph).plans[0]);
  }
  scene.graph = graph;
  scene.given = readPlaces(places, graph).points;
  scene.story = storyOf(graph, scene.plans, graph.numbers.get(FROM), graph.numbers.get(TO));
  drawTour();
  showBeat();
}

function drawTour() {
  const svg = byId("tour-drawing"), { graph } = scene, width = Math.max(430, Math.min(1000, svg.parentNode.clientWidth));
  const names = { ...graph, names: graph.names.map(spaced) };
  scene.width = width;
  scene.drawing = placed(names, () => hopsBetween(graph), width, scene.given, { room: width < 600 ? 15 : 23, above: 26, perLine: 6 });
  const { sheet, points, names: at } = scene.drawing;
  svg.textContent = "";
  svg.setAttribute("viewBox", `0 0 ${sheet.width} ${sheet.height}`);
  const links = drawn(svg, "g");
  scene.links = new Map(graph.links.map(({ u, v }) => [pairOf(u, v), drawn(links, "line", { class: "link", x1: points[u].x, y1: points[u].y, x2: points[v].x, y2: points[v].y })]));
  scene.trail = drawn(svg, "g");
  scene.nodes = points.map(({ x, y }) => drawn(svg, "g", { transform: `translate(${x} ${y})` }));
  scene.names = at.map(({ x, y }) => drawn(svg, "text", { class: "name", x, y, "text-anchor": "middle" }));
  scene.names.forEach((text, u) => { text.textContent = names.names[u]; });
  scene.ring = drawn(svg, "g");
  scene.packets = drawn(svg, "g");
  reserveCaption();
}

// As much room as the longest caption takes, so that nothing moves below it.
function reserveCaption() {
  const caption = byId("tour-caption"), trial = caption.parentNode.cloneNode(true), text = trial.querySelector("p");
  for (const element of [trial, ...trial.querySelectorAll("[id]")]) element.removeAttribute("id");
  text.removeAttribute("aria-live");
  trial.classList.add("away");
  caption.parentNode.after(trial);
  const { beats: all, kept } = scene.story, longest = [...all, ...kept].map(beat => beat.caption).sort((a, b) => b.length - a.length).slice(0, 12);
  trial.style.minHeight = "0";
  const heights = longest.map(said => {
    text.textContent = said;
    return trial.getBoundingClientRect().height;
  });
  trial.remove();
  caption.parentNode.style.minHeight = Math.ceil(Math.max(...heights)) + "px";
}

// Whether the drawing is a phone's, where two labels of a node stand one above the other.
function isNarrow() {
  return scene.width < 600;
}

// The labels of a node: a circle for each, in the colour of its epoch.
function showLabels(group, labels, isChanged) {
  group.textContent = "";
  if (labels.length === 0) drawn(group, "circle", { class: "spot", r: 7 });
  labels.forEach(({ epoch, label }, i) => {
    const aside = labels.length > 1 ? i * 21 - 10.5 : 0, x = isNarrow() ? 0 : aside, y = isNarrow() ? aside : 0;
    drawn(group, "circle", { class: `badge epoch-${epoch}` + (isChanged ? " changed" : ""), cx: x, cy: y, r: 11 });
    drawn(group, "text", { class: "badge-said", x, y: y + 4.5 }).textContent = label;
  });
}

// Where the interval of a link stands: near the node on the link, and aside of a packet that would cover it.
function placeOf(p, q, parcels) {
  const far = Math.hypot(q.x - p.x, q.y - p.y), at = part => ({ x: p.x + (q.x - p.x) * part, y: p.y + (q.y - p.y) * part });
  const covering = ({ x, y }) => parcels.find(it => Math.abs(x - it.x) < 46 && Math.abs(y - it.y) < 24);
  const places = [56, 74, 92].map(it => at(Math.min(0.5, it / far))), first = places[0], parcel = covering(first);
  return places.find(it => !covering(it)) || { x: parcel.x + (first.x < parcel.x ? -48 : 48), y: first.y };
}

// The intervals of a node, each on the link that serves it.
function showIntervals({ ring, lit, packets }) {
  scene.ring.textContent = "";
  for (const line of scene.links.values()) line.setAttribute("class", "link");
  if (!ring) return;
  const { points } = scene.drawing, row = scene.plans[ring.epoch - 1].rows[ring.node], said = new Map();
  for (const it of row.intervals) said.set(it.to, [...said.get(it.to) || [], interval(it)]);
  const p = points[ring.node], parcels = packets.map(packet => ({ x: points[packet.node].x, y: points[packet.node].y - lift(packet.node) }));
  for (const [to, texts] of said) {
    const q = points[to], at = placeOf(p, q, parcels);
    const isLit = lit && lit.u === ring.node && lit.v === to;
    if (lit && !isLit && ring.epoch === 2) continue;
    scene.links.get(pairOf(ring.node, to)).setAttribute("class", `link serves epoch-${ring.epoch}` + (isLit ? " lit" : ""));
    const text = drawn(scene.ring, "text", { class: `interval epoch-${ring.epoch}` + (isLit ? " lit" : ""), x: at.x, y: at.y + 4 });
    if (isLit) text.textContent = interval(lit.found);
    else text.textContent = texts.length > 3 ? texts.slice(0, 3).join(" ") + " \u2026" : texts.join(" ");
  }
}

// The names; on a phone, where there is no room for all, those that a beat is about.
function showSomeNames({ ring, packets, trail }) {
  const about = new Set([...packets.map(packet => packet.node), ...trail.slice(0, 1).map(it => it.u)]);
  if (ring) [ring.node, ...scene.plans[ring.epoch - 1].rows[ring.node].intervals.map(it => it.to)].forEach(u => about.add(u));
  scene.names.forEach((text, u) => text.classList.toggle("away", isNarrow() && about.size > 0 && !about.has(u)));
}

function showTrail(beat) {
  const { points } = scene.drawing;
  scene.trail.textContent = "";
  for (const { u, v, epoch } of beat.trail) {
    const aside = epoch === 1 ? -3 : 3, p = points[Math.min(u, v)], q = points[Math.max(u, v)], far = Math.hypot(q.x - p.x, q.y - p.y) || 1;
    const dx = -(q.y - p.y) / far * aside, dy = (q.x - p.x) / far * aside;
    drawn(scene.trail, "line", { class: `tour-trail epoch-${epoch}` + (beat.isMixed ? " mixed" : ""), x1: p.x + dx, y1: p.y + dy, x2: q.x + dx, y2: q.y + dy });
  }
}

// How far above its node a packet stands: above both labels where they stand one above the other.
function lift(node) {
  return 29 + (isNarrow() && scene.nodes[node].querySelectorAll(".badge").length > 1 ? 10 : 0);
}

// The packets on their way from where they were; `part` is 1 where they have come.
function showPackets(beat, before, part) {
  const { points } = scene.drawing, smooth = part * part * (3 - 2 * part);
  scene.packets.textContent = "";
  for (const packet of beat.packets) {
    const was = (before && before.packets.find(it => it.id === packet.id)) || packet, p = points[was.node], q = points[packet.node];
    const shift = beat.packets.some(it => it.id < packet.id && it.node === packet.node) ? 38 : 0;
    const group = drawn(scene.packets, "g", { class: "parcel", transform: `translate(${p.x + (q.x - p.x) * smooth + shift} ${p.y + (q.y - p.y) * smooth - lift(packet.node)})` });
    drawn(group, "path", { class: `parcel-back epoch-${packet.epoch}`, d: "M-15 -11h30a4 4 0 0 1 4 4v13a4 4 0 0 1 -4 4h-10l-5 7l-5 -7h-10a4 4 0 0 1 -4 -4v-13a4 4 0 0 1 4 -4z" });
    drawn(group, "text", { class: "parcel-said", y: 4 }).textContent = packet.label;
    drawn(group, "title").textContent = `packet ${packet.id}, for the label ${packet.label} of epoch ${packet.epoch}`;
  }
}

// All of the picture of the beat that it is at.
export function showBeat() {
  if (!scene.story) return;
  const all = beats(), { beat: at, isTourPlaying } = store.now, beat = all[Math.min(at, all.length - 1)], before = at > 0 ? all[at - 1] : null;
  beat.labels.forEach((labels, u) => showLabels(scene.nodes[u], labels, beat.isMixed && labels.some(it => it.epoch === 2)));
  showIntervals(beat);
  showSomeNames(beat);
  showTrail(beat);
  showPackets(beat, before, 1);
  const isStart = at === 0 && !isTourPlaying && !store.now.isTourBegun;
  byId("tour-title").textContent = isStart ? "How a packet finds its way by numbers" : `${beat.step + 1}. ${STEPS[beat.step]}`;
  byId("tour-caption").textContent = isStart
    ? "Each node keeps a few ranges of numbers in place of a table of all destinations, and the numbers can change while packets travel." : beat.caption;
  byId("tour-mixed").hidden = !beat.isMixed;
  byId("tour-switch").classList.toggle("away", beat.step !== 4);
  STEPS.forEach((_, i) => byId("tour-step-" + i).setAttribute("aria-current", i === beat.step && !isStart ? "step" : "false"));
  byId("tour-back").disabled = at === 0;
  byId("tour-next").disabled = at === all.length - 1;
  byId("tour-play").textContent = isTourPlaying ? "Pause" : at === all.length - 1 ? "Play again" : "Play";
}

function goToBeat(beat) {
  if (!scene.story) return;
  stopTour();
  store.set({ beat: Math.max(0, Math.min(beats().length - 1, beat)), isTourBegun: true });
}

export function goToStep(step) {
  if (scene.story) goToBeat(firstOf(Math.max(0, Math.min(STEPS.length - 1, step))));
}

export function stopTour() {
  scene.run += 1;
  store.set({ isTourPlaying: false });
}

// Plays from here, or from the start where the end is reached.
function playTour() {
  if (!scene.story) return;
  const run = scene.run += 1;
  store.set({ isTourPlaying: true, isTourBegun: true, beat: store.now.beat >= beats().length - 1 ? 0 : store.now.beat });
  let since = null;
  const frame = now => {
    if (run !== scene.run) return;
    const all = beats(), beat = all[store.now.beat];
    since = since ?? now;
    const gone = (now - since) * Number(byId("tour-speed").value);
    if (!isCalm() && gone < 900) showPackets(beat, store.now.beat > 0 ? all[store.now.beat - 1] : null, Math.min(1, gone / 700));
    if (gone > lengthOf(beat)) {
      if (store.now.beat === all.length - 1) {
        stopTour();
        return;
      }
      since = now;
      store.set({ beat: store.now.beat + 1 });
      if (!isCalm()) showPackets(all[store.now.beat], beat, 0);
    }
    requestAnimationFrame(frame);
  };
  requestAnimationFrame(frame);
}

// The story from a step on as a moving picture, at a width.
export async function filmOfTour(width, step = 0) {
  stopTour();
  const all = beats(), first = firstOf(step), moves = 3, shown = all.slice(first);
  const film = await filmOf(shown.length * (moves + 1), i => {
    const at = first + Math.floor(i / (moves + 1)), part = i % (moves + 1), beat = all[at];
    store.set({ beat: at, isTourBegun: true });
    if (part < moves) showPackets(beat, at > first ? all[at - 1] : null, (part + 1) / (moves + 1));
    else showPackets(beat, null, 1);
    const captions = [{ text: `${beat.step + 1}. ${STEPS[beat.step]}`, font: "bold 18px system-ui, sans-serif" }, { text: (beat.isMixed ? "Not Bentzolu: " : "") + beat.caption, font: "15px system-ui, sans-serif" }];
    return { svg: byId("tour-drawing"), width, captions, high: 84, delay: part < moves ? 10 : Math.round(lengthOf(beat) / 16) };
  });
  return film;
}

// Makes the drawing as wide as its place, and the room of the captions anew.
export function fitTour() {
  const wide = byId("tour-drawing").parentNode.clientWidth, width = Math.max(430, Math.min(1000, wide));
  if (!scene.story || store.now.view !== "tour" || scene.seen === wide) return;
  scene.seen = wide;
  if (Math.abs(width - scene.width) < 60) {
    reserveCaption();
    return;
  }
  drawTour();
  showBeat();
}

export function listenToTour() {
  const steps = byId("tour-steps");
  STEPS.forEach((title, i) => {
    const button = made(steps, "button");
    button.id = "tour-step-" + i;
    made(button, "b", String(i + 1));
    made(button, "span", title);
    button.onclick = () => goToStep(i);
  });
  byId("tour-play").onclick = () => store.now.isTourPlaying ? stopTour() : playTour();
  byId("tour-back").onclick = () => goToBeat(store.now.beat - 1);
  byId("tour-next").onclick = () => goToBeat(store.now.beat + 1);
  byId("tour-mix").onchange = () => {
    store.set({ isMixed: byId("tour-mix").checked });
    goToStep(4);
  };
  store.on(["beat", "isTourPlaying", "isMixed", "isTourBegun"], showBeat);
  document.addEventListener("keydown", event => {
    if (store.now.view !== "tour" || /^(INPUT|SELECT)$/.test(event.target.tagName) || event.ctrlKey || event.altKey || event.metaKey) return;
    if (event.key === "ArrowLeft") goToBeat(store.now.beat - 1);
    else if (event.key === "ArrowRight") goToBeat(store.now.beat + 1);
    else if (event.key === " " && event.target.tagName !== "BUTTON") byId("tour-play").click();
    else return;
    event.preventDefault();
  });
  new ResizeObserver(fitTour).observe(byId("tour-drawing").parentNode);
}
