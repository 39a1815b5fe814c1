// What can be saved and copied.
import { sentencesOf } from "./network.js";
import { inPage } from "./wording.js";
import { byId } from "./page.js";
import { pictureText } from "./drawing.js";
import { tell } from "./panels.js";
import { pngOf } from "./painting.js";
import { filmOfPlayback } from "./replay.js";
import { desk, knownWords } from "./asking.js";
import { store } from "./state.js";

// What can be saved, with the name of its file and how it comes to be.
export const SAVED = {
  network: ["network", () => store.now.topology], script: ["script", () => store.now.script], trace: ["trace", () => store.now.texts.trace || ""],
  plan: ["plan", () => store.now.texts.plan || ""], "order of labels": ["order", () => asked("plan", "--order")], walk: ["walk", walkText],
  figures: ["stats", () => asked("stats")], prefixes: ["prefixes", () => asked("prefixes")], ranges: ["ranges", () => asked("ranges")],
  "drawing for Graphviz": ["dot", () => asked("draw")], "circle of the node (SVG)": ["svg", () => asked("draw", "--node", store.now.graph.names[store.now.node], "--svg")], "picture (SVG)": ["svg", pictureText],
  "picture (PNG)": ["png", () => pngOf(byId("drawing"), 1600)], "playback (GIF)": ["gif", () => filmOfPlayback(800)],
};

function walkText() {
  const { graph, from, to } = store.now;
  return asked("walk", "--from", graph.names[from], "--to", graph.names[to]);
}

async function asked(sub, ...further) {
  const { words, order } = knownWords(), { status, output, faults } = await desk.ask("save", [sub, "--explain", ...further, ...words, "topology"], store.now.topology, ...order);
  if (status !== 0) tell(inPage(sentencesOf(faults)[0].said).said, "fault");
  return status === 0 ? output : "";
}

export async function save() {
  const [ending, text] = SAVED[byId("save-what").value], whole = await text();
  if (whole === "") return;
  const data = whole instanceof Blob ? whole : new Blob([whole], { type: ending === "svg" ? "image/svg+xml" : "text/plain" });
  const link = document.createElement("a"), isNetwork = ending === "network";
  link.href = URL.createObjectURL(data);
  link.download = "network." + (isNetwork ? store.now.format : ending);
  link.click();
  setTimeout(() => URL.revokeObjectURL(link.href), 1000);
}

export async function copySaved() {
  const what = byId("save-what").value, text = await SAVED[what][1]();
  if (text instanceof Blob) tell(`${what[0].toUpperCase()}${what.slice(1)}: only texts can be copied; Save makes a file of it.`, "note");
  else if (text !== "") copy(text, what);
}

export async function copy(text, said) {
  try {
    await navigator.clipboard.writeText(text);
    tell(`${said[0].toUpperCase()}${said.slice(1)}: copied.`);
  } catch (error) {
    tell(`${said[0].toUpperCase()}${said.slice(1)}: the browser did not allow copying.` + (said === "the link" ? " The link is in the address bar." : " Save makes a file of it."), "note");
  }
}
