// What the engine is asked of the network as it is now.
import { MOST_DRAWN, faultLines, readPlaces, readPlans, readScript, readTopology, readTrace } from "./reading.js";
import { arranged, hopsBetween, placed } from "./placing.js";
import { ownScript, sentencesOf, textWithout } from "./network.js";
import { readSteps, walkAlong } from "./playing.js";
import { inPage } from "./wording.js";
import { Desk, bytesOf } from "./desk.js";
import { byId, made, many } from "./page.js";
import { drawBlocks, drawNetwork, drawWalk, pointAt } from "./drawing.js";
import { showComparison, showFaults, showFigures, showGutter, showNames, showPlan, showWalk, tell } from "./panels.js";
import { choose, drawTokens, goTo, listPackets, play, schedule, show, showControls } from "./replay.js";
import { isNumbered, landmarkWords, landmarksOf } from "./landmarks.js";
import { store } from "./state.js";

export const desk = new Desk(bytesOf(byId("module").textContent), byId("worker").textContent);

// What a click on a node and on a link does, as the tools say it, and on a button beside a sentence.
export const clicks = { onNode: () => {}, onSet: () => {} };

// The words of a plan of what is chosen. Labels that are kept are at first a tour's.
export function planWords(numbering = store.now.numbering === "keep" ? "tour" : store.now.numbering) {
  const { kind, format, root } = store.now, words = ["--kind", kind, "--format", format];
  if (kind === "landmark") words.push(...landmarkWords(store.now));
  else if (numbering !== "depth-first") words.push("--numbering", numbering);
  if (root !== "") words.push("--root", root);
  return words;
}

function runWords() {
  const further = store.now.kind !== "landmark" && store.now.takesLandmarks ? landmarkWords(store.now) : [];
  return [...planWords(store.now.numbering), ...further, "--capacity", store.now.capacity, "--restamps", store.now.restamps];
}

function keepText(name, text) {
  store.set({ texts: { ...store.now.texts, [name]: text } });
}

// The places that are given for all nodes, or null.
function mapOf(graph) {
  const { points } = readPlaces(store.now.places, graph);
  return points && points.every(Boolean) ? points : null;
}

// Reads the topology for the drawing. What is wrong with it the engine says.
export function readGraph() {
  const { topology, format, manual, node, from, to } = store.now, { graph, fault } = readTopology(topology, format);
  const isDrawn = !fault && graph.names.length > 0 && graph.names.length <= MOST_DRAWN;
  if (!isDrawn) {
    const isStale = Boolean(store.now.graph) && topology.trim() !== "" && graph.names.length <= MOST_DRAWN;
    store.set(isStale ? { isStale } : { graph: null, drawing: null, isStale });
    return;
  }
  const width = Math.max(460, Math.min(1000, byId("drawing").parentNode.clientWidth)), last = graph.names.length - 1;
  const isManual = manual && graph.names.every(name => manual.places.has(name));
  const drawing = isManual ? arranged(graph, manual.sheet, graph.names.map(name => ({ ...manual.places.get(name) })))
    : placed(graph, () => hopsBetween(graph), width, mapOf(graph));
  const within = u => u > last ? 0 : u, start = within(from), end = within(to);
  store.set({ graph, drawing, isStale: false, manual: isManual ? manual : null, node: within(node), from: start, to: start === end ? last : end });
}

function saidOfPlan(graph, answer) {
  const [, kind, nodes, intervals] = answer.output.split("\n", 1)[0].split(" ");
  return `${kind} plan of ${many(Number(nodes), "node")} and ${many(graph.links.length, "link")}: ${many(Number(intervals), "interval")}, made in ${answer.took.toFixed(0)} ms`;
}

// Further lines that can't be read, in the engine's words: it ends at the first.
async function furtherFaults(first) {
  const { topology, format } = store.now, lines = topology.split("\n"), own = [...first];
  for (const line of faultLines(topology, format, 5).filter(it => !first.some(fault => fault.line === it))) {
    const alone = "\n".repeat(line - 1) + lines[line - 1] + "\n";
    const answer = await desk.ask("fault", ["plan", "--explain", "--format", format, "topology"], alone);
    if (!answer || store.now.topology !== topology) return;
    own.push(...sentencesOf(answer.faults).filter(it => it.file === "topology"));
  }
  showFaults("topology", own);
}

// The action of a sentence as a button.
function actionsOf(sentences) {
  const actions = sentences.map(it => inPage(it.said).action).filter(Boolean);
  return [...new Map(actions.map(action => [action.name, { name: action.name, call: () => clicks.onSet(action.set) }])).values()].slice(0, 1);
}

// A plan of more nodes that takes longer, in milliseconds, is not made a second time before it is wanted.
const LONG = 400, MANY = 200;

// Answers how long it took, or null where a newer question was asked.
async function askPlan() {
  const answer = await desk.ask("plan", ["plan", "--explain", ...planWords(), "topology"], store.now.topology);
  if (!answer) return null;
  const { graph, topology, isStale } = store.now;
  const sentences = sentencesOf(answer.faults), own = sentences.filter(it => it.file === "topology"), isMade = answer.status === 0;
  const actions = actionsOf(sentences), said = sentences.map(it => inPage(it.said).said);
  showFaults("topology", isMade ? [] : own);
  if (!isMade && own.length > 0) furtherFaults(own);
  const { compared, comparedOf } = store.now.texts;
  store.set({ texts: { compared, comparedOf, plan: isMade ? answer.output : "" }, isLong: answer.took > LONG && Boolean(graph) && graph.names.length > MANY });
  store.set({ plan: isMade && graph && !isStale ? readPlans(answer.output, graph).plans[0] || null : null });
  if (isMade && graph) tell([saidOfPlan(graph, answer), ...said].join(". "), said.length > 0 ? "note" : "dim", actions);
  else if (isMade) tell(`Plans of more than ${MOST_DRAWN} nodes are not drawn; Save has this one as text.`);
  else if (topology.trim() === "") tell("No network yet: paste one, open a file, or draw.");
  else tell((sentences.map(it => (it.line > 0 ? `Line ${it.line}: ` : "") + inPage(it.said).said)[0] || "refused") + (isStale ? " (the drawing shows the last network that could be read)" : ""), "fault", actions);
  showPlan();
  store.set({ isRunDue: false });
  return answer.took;
}

// The walk is looked up in the plan that is there.
export function askWalk() {
  const { plan, graph, from, to } = store.now;
  store.set({ walk: plan && graph.names.length > 1 ? walkAlong(plan, graph, from, to) : null });
  showWalk();
}

// The words and the text of an order by which the engine need not look for a tour again.
export function knownWords() {
  const { plan, graph } = store.now, words = planWords(), at = words.indexOf("tour");
  if (at < 0 || !plan || !isNumbered(store.now.kind)) return { words, order: [] };
  words[at] = "order";
  return { words, order: [orderText(graph, plan)] };
}

// The names of the nodes by label, a line each.
function orderText(graph, plan) {
  return graph.names.map((name, u) => [plan.rows[u].label, name]).sort(([a], [b]) => a - b).map(([, name]) => name).join("\n") + "\n";
}

// How the plan of an install is numbered: the words, and the text of the order that it keeps.
function installWords(moment, kind, root) {
  const { numbering, graph, plans } = store.now, before = plans[moment.epochs - 2];
  if (numbering === "keep" && moment.name === "install" && isNumbered(kind) && before) return { words: ["--numbering", "order"], order: [orderText(graph, before)] };
  return { words: ["--root", root, ...(numbering !== "depth-first" && isNumbered(kind) ? ["--numbering", "tour"] : [])], order: [] };
}

function chooseRow(set) {
  clicks.onSet(set);
}

// The figures of the plan that is there, once; null where it is another one by now.
async function statsText() {
  const { plan, topology, texts } = store.now;
  if (texts.stats) return texts.stats;
  const { words, order } = knownWords(), answer = await desk.ask("stats", ["stats", ...words, "topology"], topology, ...order);
  if (!answer || store.now.plan !== plan) return null;
  keepText("stats", answer.status === 0 ? answer.output : "");
  return store.now.texts.stats;
}

// The landmarks of a plan of that kind, and its blocks; none of other kinds.
async function askLandmarks() {
  const { plan, kind, graph } = store.now;
  store.set({ landmarkNodes: [] });
  if (plan && kind === "landmark" && graph) {
    const text = await statsText();
    if (text === null || store.now.plan !== plan) return;
    store.set({ landmarkNodes: landmarksOf(text, graph) });
  }
  drawBlocks();
}

// The figures of the plan and the comparison, once their tab is open; of a large network the comparison waits for its button.
export async function askFigures(isWanted = false) {
  const { tab, plan, topology, format, root, texts, isLong } = store.now;
  if (!plan) {
    showFigures("");
    showComparison("");
  }
  byId("compare").hidden = true;
  if (!plan || tab !== "figures") return;
  if (!texts.stats && await statsText() === null) return;
  showFigures(store.now.texts.stats);
  const key = JSON.stringify([topology, format, root]);
  if (store.now.texts.comparedOf === key) showComparison(store.now.texts.compared, chooseRow);
  else if (isLong && !isWanted) {
    showComparison("");
    byId("compare").hidden = false;
  } else {
    showComparison("");
    const answer = await desk.ask("compare", ["compare", "--format", format, ...root === "" ? [] : ["--root", root], "topology"], topology);
    if (!answer || store.now.plan !== plan || answer.status !== 0) return;
    store.set({ texts: { ...store.now.texts, compared: answer.output, comparedOf: key } });
    showComparison(answer.output, chooseRow);
  }
}

// Gives a network that has no script one of the page's own, until the visitor writes one.
function giveScript() {
  const { script, scriptBy, plan, graph, isOwnTrace } = store.now;
  if (scriptBy === "visitor" || script.trim() !== "" || isOwnTrace || !plan || graph.names.length < 2) return;
  store.set({ script: ownScript(graph, plan), scriptBy: "page" });
  byId("script").value = store.now.script;
  showGutter("script");
}

// The playback of a large network waits until it is wanted.
export function deferRun() {
  giveScript();
  takeRun("", [], []);
  store.set({ isRunDue: true });
  showControls();
}

// Plays the script, or judges the trace that is the visitor's own.
export async function askRun() {
  giveScript();
  store.set({ isRunDue: false });
  const { isOwnTrace: own, plan, topology, script, trace } = store.now;
  const words = own ? ["check", "--explain", ...planWords(), "topology", "script", "trace"] : ["sim", "--explain", ...runWords(), "topology", "script"];
  if (!plan) {
    takeRun("", [], []);
    return;
  }
  const answer = await desk.ask("run", words, topology, script, own ? trace : "");
  if (!answer || !store.now.graph) return;
  const sentences = sentencesOf(answer.faults), of = file => sentences.filter(it => it.file === file);
  showFaults("script", of("script"));
  showFaults("trace", own && answer.status !== 0 ? of("trace") : []);
  const further = sentences.filter(it => it.file === "").map(it => it.said);
  if (answer.status > 1 && further.length > 0) tell(inPage(further[0]).said, "fault");
  if (own) byId("own").open = true;
  if (own && answer.status === 0) made(byId("trace-told"), "li", `check: ${answer.output.trim()}`);
  const steps = await stepsText(topology, script);
  if (steps === null || !store.now.graph) return;
  takeRun(own ? trace : answer.output, readScript(script, store.now.graph).commands, readSteps(steps));
  await askEpochs();
}

// What the engine says that the script comes to, as JSON; nothing where it refuses it, and null where a newer one was asked for.
async function stepsText(topology, script) {
  const answer = await desk.ask("steps", ["sim", "--steps", "--json", ...runWords(), "topology", "script"], topology, script);
  if (!answer) return null;
  return answer.status === 0 ? answer.output : "";
}

// A trace to be played, beside the steps of its script.
function takeRun(trace, commands, steps) {
  const { graph, plan, isOwnTrace, resumed } = store.now;
  keepText("trace", trace);
  if (!isOwnTrace) {
    byId("trace").value = trace;
    showGutter("trace");
  }
  store.set({ rows: graph && trace !== "" ? readTrace(trace, graph).rows : [], commands: graph ? commands : [], steps, plans: plan ? [plan] : [], resumed: null });
  schedule();
  const moment = resumed && store.now.moments.find(it => it.line === resumed.line);
  if (!moment) return;
  goTo(moment.step);
  if (resumed.isPlaying) play();
}

// The plans of the epochs that a script makes, by which a packet's intervals are shown.
async function askEpochs() {
  const { moments, graph, format, topology } = store.now;
  const installs = moments.filter(moment => ["install", "renumber"].includes(moment.name) && !moment.refused).slice(0, 15);
  for (const moment of installs) {
    const [, kind, root] = moment.text.split(" "), text = textWithout(graph, format, moment.down);
    const numbered = installWords(moment, kind, root);
    const words = ["plan", "--kind", kind, "--format", format, ...numbered.words, ...(kind === "landmark" ? landmarkWords(store.now) : [])];
    const answer = await desk.ask("epoch", [...words, "topology"], moment.down.size === 0 ? topology : text, ...numbered.order);
    if (!answer || store.now.moments !== moments) return;
    if (answer.status !== 0) continue;
    const plans = [...store.now.plans];
    plans[moment.epochs - 1] = readPlans(answer.output, graph).plans[0];
    store.set({ plans });
  }
  if (installs.length === 0) return;
  const { chosen } = store.now;
  listPackets();
  choose(chosen);
}

// Draws all anew, over the plan and the packets that are there.
export function redraw() {
  drawNetwork(clicks);
  drawTokens();
  show();
  pointAt(store.now.node);
  drawWalk();
}

export async function refresh() {
  store.set({ plan: null, walk: null, rows: [], commands: [], steps: [] });
  readGraph();
  drawNetwork(clicks);
  showNames();
  schedule();
  await refreshPlan();
}

// Asks for all that the plan's choices change.
export async function refreshPlan() {
  if (store.now.scriptBy === "page") store.set({ script: "", scriptBy: "" });
  try {
    const took = await askPlan();
    if (took === null) return;
    if (store.now.isLong && store.now.scriptBy !== "visitor" && !store.now.isOwnTrace) deferRun();
    askWalk();
    await askLandmarks();
    await Promise.all([...store.now.isRunDue ? [] : [askRun()], askFigures()]);
  } catch (error) {
    tell(error.message === "stopped" ? "stopped: nothing was made" : "the engine stopped: " + error.message, "fault");
  }
}
