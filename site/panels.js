// What is beside the drawing: the texts with their faults, the plan, the walk, the figures.
import { inPage } from "./wording.js";
import { byId, interval, made, many } from "./page.js";
import { drawRows, drawWalk, pointAt } from "./drawing.js";
import { COMPARED, comparisonOf, figuresOf } from "./figures.js";
import { TABS, store } from "./state.js";

export function showTab(name, isFocused) {
  store.set({ tab: name });
  for (const tab of TABS) {
    const button = byId("tab-" + tab);
    button.setAttribute("aria-selected", String(tab === name));
    button.tabIndex = tab === name ? 0 : -1;
    byId("panel-" + tab).hidden = tab !== name;
  }
  if (isFocused) byId("tab-" + name).focus();
  for (const text of EDITED) showGutter(text);
  drawWalk();
}

export function listenToTabs() {
  TABS.forEach((tab, i) => {
    byId("tab-" + tab).onclick = () => showTab(tab);
    byId("tab-" + tab).onkeydown = event => {
      const to = { ArrowRight: i + 1, ArrowLeft: i + TABS.length - 1, Home: 0, End: TABS.length - 1 }[event.key];
      if (to === undefined) return;
      event.preventDefault();
      event.stopPropagation();
      showTab(TABS[to % TABS.length], true);
    };
  });
}

// The texts that are written in the page, and the faults of each by their lines.
export const EDITED = ["topology", "script", "trace"];
const faults = { topology: [], script: [], trace: [] };

// The numbers of lines beside a text, where lines with a fault are marked.
export function showGutter(name) {
  const area = byId(name), gutter = area.parentNode.querySelector(".gutter");
  if (area.offsetParent === null) return;
  const marked = new Set(faults[name].map(fault => fault.line)), lines = Math.min(area.value.split("\n").length, 20000);
  const high = parseFloat(getComputedStyle(area).lineHeight), first = Math.floor(area.scrollTop / high);
  gutter.textContent = "";
  const inner = made(gutter, "div");
  inner.style.transform = `translateY(${first * high - area.scrollTop}px)`;
  for (let line = first + 1; line <= Math.min(lines, first + area.clientHeight / high + 2); line++) {
    made(inner, "span", line, marked.has(line) ? "marked" : "");
  }
}

// Puts the cursor to a line of a text.
export function goToLine(name, line) {
  const area = byId(name), lines = area.value.split("\n");
  const from = lines.slice(0, line - 1).reduce((sum, it) => sum + it.length + 1, 0);
  area.focus();
  area.setSelectionRange(from, from + (lines[line - 1] || "").length);
  area.scrollTop = Math.max(0, (line - 4) * parseFloat(getComputedStyle(area).lineHeight));
  showGutter(name);
}

// Says the faults of a text below it.
export function showFaults(name, list) {
  faults[name] = list;
  const told = byId(name + "-told");
  told.textContent = "";
  for (const { line, said } of list.slice(0, 64)) {
    const item = made(told, "li");
    if (line > 0) {
      const button = made(item, "button", "line " + line);
      button.onclick = () => goToLine(name, line);
    }
    made(item, "span", " " + inPage(said).said, "fault");
  }
  byId(name).setAttribute("aria-invalid", String(list.length > 0));
  showGutter(name);
}

// Says how it went: a `fault`, a `note` on what may be amiss, or by the way; with buttons for what helps.
export function tell(said, kind = "dim", actions = []) {
  const told = byId("told");
  told.textContent = "";
  made(told, "span", said, kind);
  for (const { name, call } of actions) made(told, "button", name).onclick = call;
}

function fillNames(id, names, chosen) {
  const select = byId(id);
  select.textContent = "";
  names.forEach((name, i) => { made(select, "option", name).value = i; });
  select.value = names.length > 0 ? chosen : "";
}

// The lists of nodes and of links.
export function showNames() {
  const { graph, node, from, to } = store.now, names = graph ? graph.names : [], links = graph ? graph.links : [];
  fillNames("node", names, node);
  fillNames("from", names, from);
  fillNames("to", names, to);
  fillNames("edge", links.map(({ u, v }) => `${names[u]} - ${names[v]}`), 0);
  const list = byId("names");
  list.textContent = "";
  for (const name of names.slice(0, 1024)) made(list, "option").value = name;
  for (const id of ["node", "from", "to", "edge", "swap", "break", "send", "drain"]) byId(id).disabled = names.length === 0;
}

export function showPlan() {
  byId("plan").textContent = store.now.texts.plan || "";
  drawRows();
  pointAt(store.now.node);
}

export function showWalk() {
  const body = byId("walk"), { walk, graph, to: goalNode } = store.now;
  body.textContent = "";
  drawWalk();
  byId("walk-told").textContent = "";
  if (!walk) return;
  const goal = walk.hops[walk.hops.length - 1];
  byId("walk-told").textContent = `${many(walk.count, "hop")}, weight ${walk.weight}. The packet carries ${goal.label}, the label of ${graph.names[goalNode]}; each node looks for the interval that holds it.`;
  for (const { node, label, start, end, to, weight } of walk.hops) {
    const line = made(body, "tr");
    made(line, "td", node);
    made(line, "td", label);
    made(line, "td", start === undefined ? "" : interval({ start, end }));
    made(line, "td", to === undefined ? "" : to);
    made(line, "td", weight === undefined ? "" : weight);
  }
}

function fillFigures(rows) {
  const table = byId("figures");
  table.textContent = "";
  for (const [head, value] of rows) {
    const row = made(table, "tr");
    made(row, "th", head).scope = "row";
    made(row, "td", value);
  }
}

export function showFigures(text) {
  fillFigures(text ? figuresOf(text) : []);
}

// The plans of all kinds and numberings beside each other; a click chooses one.
export function showComparison(text, onChosen) {
  const head = byId("compared-head"), body = byId("compared"), { now } = store;
  head.textContent = body.textContent = "";
  byId("compare-table").hidden = !text;
  if (!text) return;
  for (const name of COMPARED) made(head, "th", name).scope = "col";
  for (const row of comparisonOf(text)) {
    const line = made(body, "tr"), isOf = name => Boolean(row.set) && row.set[name] === now[name];
    const isChosen = isOf("kind") && (now.kind === "landmark" ? isOf("landmarks") && isOf("stretch") : row.numbering === (now.kind === "tree" ? "depth-first" : now.numbering));
    row.cells.forEach((cell, i) => {
      if (i > 0 || row.kind === "") made(line, "td", cell);
      else {
        const button = made(made(line, "td"), "button", cell);
        button.setAttribute("aria-pressed", String(isChosen));
        button.title = `Use ${row.kind}, numbered ${row.numbering}`;
      }
    });
    line.classList.toggle("chosen", isChosen);
    if (row.kind !== "") line.onclick = () => onChosen(row.set);
  }
}
