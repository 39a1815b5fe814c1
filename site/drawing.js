// The drawing: the network, and the ring of intervals round a node.
import { pairOf } from "./reading.js";
import { NODE, neighboursOf, shortName } from "./placing.js";
import { byId, drawn, interval, made, many } from "./page.js";
import { blocksOf, tintOf } from "./landmarks.js";
import { store } from "./state.js";

// The parts of the drawing that are drawn anew while the network stays.
export const layers = { links: new Map(), circles: [], names: [], neighbours: [], onPoint: () => {}, onDrawn: () => {} };

// The tints of ports that the style sheet has; beside its tint each has its number.
const MOST_TINTS = 6;

// The tint of each port of a row, by the neighbour.
export function portColours(row) {
  const ports = [...new Set(row.intervals.map(it => it.to))].sort((a, b) => a - b);
  return new Map(ports.map((port, i) => [port, `var(--port-${i % MOST_TINTS + 1})`]));
}

// A row in words: its label and its intervals, by the names of its ports.
export function rowInWords(row, names) {
  return `${row.label}: ` + (row.intervals.map(it => interval(it) + " " + names[it.to]).join("  ") || "no interval");
}

// An arc of the circle of n labels from one label up to another, at a radius; all of the circle where they are the same.
export function arcPath(n, start, end, x, y, radius) {
  const count = (end - start + n - 1) % n + 1, gap = Math.min(0.06, 0.8 / n);
  const from = 2 * Math.PI * (start - 0.5) / n - Math.PI / 2 + gap, to = from + 2 * Math.PI * count / n - 2 * gap;
  const point = angle => `${(x + radius * Math.cos(angle)).toFixed(2)} ${(y + radius * Math.sin(angle)).toFixed(2)}`;
  const middle = (from + to) / 2;
  return `M${point(from)}A${radius} ${radius} 0 0 1 ${point(middle)}A${radius} ${radius} 0 0 1 ${point(to)}`;
}

export function drawArcs(parent, row, names, x, y, radius, width) {
  const colours = portColours(row);
  return row.intervals.map(({ start, end, to }) => {
    const arc = drawn(parent, "path", { d: arcPath(names.length, start, end, x, y, radius), class: "arc", "stroke-width": width });
    arc.style.stroke = colours.get(to);
    drawn(arc, "title").textContent = `${interval({ start, end })} to ${names[to]}`;
    return { arc, to };
  });
}

// A line over the link of two nodes.
function over(layer, u, v, attributes) {
  const { points } = store.now.drawing;
  return drawn(layer, "line", { x1: points[u].x, y1: points[u].y, x2: points[v].x, y2: points[v].y, ...attributes });
}

// The ring round a node of the drawing, with its links in the colours of its ports.
export function drawRing(u) {
  if (!layers.ring) return;
  layers.ring.textContent = layers.ringLabel.textContent = layers.ports.textContent = layers.lit.textContent = "";
  const { plan, graph, drawing } = store.now, row = plan && plan.rows[u];
  if (!row || !graph) return;
  const { x, y } = drawing.points[u];
  drawArcs(layers.ring, row, graph.names, x, y, 19, 7);
  for (const [to, colour] of portColours(row)) over(layers.ports, u, to, { class: "port" }).style.stroke = colour;
  drawn(layers.ringLabel, "text", { class: "label", x, y: y + 4 }).textContent = row.label;
}

// The links that are down, over those that are drawn.
export function drawDown(pairs) {
  if (!layers.down) return;
  layers.down.textContent = "";
  for (const { u, v } of pairs.size > 0 ? store.now.graph.links : []) {
    if (!pairs.has(pairOf(u, v))) continue;
    over(layers.down, u, v, { class: "cover" });
    over(layers.down, u, v, { class: "link down" });
  }
}

// The link to a neighbour, its arcs and its line of the table, under the pointer.
function lightPort(u, to) {
  if (layers.lit) layers.lit.textContent = "";
  if (to !== null && layers.lit) over(layers.lit, u, to, { class: "lit-link" });
  for (const line of byId("ports").children) line.classList.toggle("chosen", line.dataset.to === String(to));
}

// How many intervals of a neighbour are written out.
const MOST_INTERVALS = 12;

// The table beside the circle: colour, neighbour, intervals, labels.
function listPorts(u, row, names) {
  const body = byId("ports"), colours = portColours(row), n = names.length;
  body.textContent = "";
  [...colours].forEach(([to, colour], i) => {
    const line = made(body, "tr"), own = row.intervals.filter(it => it.to === to);
    line.dataset.to = to;
    const swatch = made(made(line, "td"), "span", i + 1, "port-swatch");
    swatch.style.background = colour;
    made(line, "td", names[to]);
    made(line, "td", own.slice(0, MOST_INTERVALS).map(interval).join(" ") + (own.length > MOST_INTERVALS ? ` and ${own.length - MOST_INTERVALS} more` : ""));
    const labels = own.reduce((sum, { start, end }) => sum + (end - start + n - 1) % n + 1, 0) - (own.some(it => holds(it, row.label, n)) ? 1 : 0);
    made(line, "td", labels);
    line.onpointerenter = () => lightPort(u, to);
    line.onpointerleave = () => lightPort(u, null);
  });
}

function holds({ start, end }, label, n) {
  return (label - start + n) % n < (end - start + n - 1) % n + 1;
}

// The circle of labels beside the drawing, with the names where there is room for them, and the table of its colours.
export function drawCircle(u) {
  const svg = byId("circle"), { plan, graph } = store.now, row = plan && plan.rows[u];
  svg.textContent = "";
  byId("row").textContent = "";
  byId("ports").textContent = "";
  if (!row) return;
  const { names } = graph, n = names.length, rows = plan.rows;
  const numbers = new Map([...portColours(row).keys()].map((to, i) => [to, i + 1]));
  drawArcs(svg, row, names, 180, 180, 112, 22).forEach(({ arc, to }, i) => {
    arc.addEventListener("pointerenter", () => lightPort(u, to));
    arc.addEventListener("pointerleave", () => lightPort(u, null));
    const { start, end } = row.intervals[i], count = (end - start + n - 1) % n + 1, angle = 2 * Math.PI * (start + (count - 1) / 2) / n - Math.PI / 2;
    if (count * 12 >= n || n <= 30) drawn(svg, "text", { class: "port-number", x: 180 + Math.cos(angle) * 112, y: 184.5 + Math.sin(angle) * 112 }).textContent = numbers.get(to);
  });
  rows.forEach((other, v) => {
    const angle = 2 * Math.PI * other.label / n - Math.PI / 2, x = 180 + Math.cos(angle) * 94, y = 180 + Math.sin(angle) * 94;
    if (v === u || n <= 72) drawn(svg, "circle", { class: v === u ? "dot own" : "dot", cx: x, cy: y, r: v === u ? 5 : 2.5 });
    if (n > 72 && v !== u) return;
    const isLeft = Math.cos(angle) < -1e-9, turn = angle * 180 / Math.PI + (isLeft ? 180 : 0);
    const text = drawn(svg, "text", {
      class: v === u ? "around own" : "around", "text-anchor": isLeft ? "end" : "start", y: 4, x: isLeft ? -128 : 128, transform: `translate(180 180) rotate(${turn.toFixed(2)})`,
    });
    text.textContent = `${other.label} ${shortName(names[v], 12)}`;
    if (n > 40) text.classList.add("small");
  });
  drawn(svg, "text", { class: "middle", x: 180, y: 178 }).textContent = shortName(names[u]);
  drawn(svg, "text", { class: "around", x: 180, y: 200, "text-anchor": "middle" }).textContent = "label " + row.label;
  const shown = { label: row.label, intervals: row.intervals.slice(0, MOST_INTERVALS) };
  byId("row").textContent = names[u] + " " + rowInWords(shown, names) + (row.intervals.length > MOST_INTERVALS ? `  and ${row.intervals.length - MOST_INTERVALS} more` : "");
  listPorts(u, row, names);
}

export function pointAt(u) {
  if (!store.now.graph) {
    for (const id of ["circle", "row", "ports"]) byId(id).textContent = "";
    return;
  }
  if (layers.circles[store.now.node]) layers.circles[store.now.node].setAttribute("tabindex", -1);
  store.set({ node: u });
  if (layers.circles[u]) layers.circles[u].setAttribute("tabindex", 0);
  byId("node").value = u;
  drawRing(u);
  drawCircle(u);
  layers.onPoint();
}

// More links are one line of the picture, so that it can be moved quickly.
const MOST_LINES = 1500;

function drawLinks(svg) {
  const { drawing: { points, weights }, graph, areWeightsShown } = store.now, links = drawn(svg, "g");
  layers.links = new Map();
  if (graph.links.length > MOST_LINES) {
    const round = number => number.toFixed(1);
    drawn(links, "path", { class: "link many", d: graph.links.map(({ u, v }) => `M${round(points[u].x)} ${round(points[u].y)}L${round(points[v].x)} ${round(points[v].y)}`).join("") });
  } else for (const { u, v } of graph.links) layers.links.set(pairOf(u, v), over(links, u, v, { class: "link" }));
  for (const name of ["down", "hover", "ports", "lit", "way", "trails", "lost"]) layers[name] = drawn(svg, "g");
  if (!weights || !areWeightsShown) return;
  graph.links.forEach(({ weight }, i) => { drawn(svg, "text", { class: "weight", x: weights[i].x, y: weights[i].y }).textContent = weight; });
}

// The link that is nearest to a point, if it is near.
export function linkAt(at, near) {
  const { drawing, graph } = store.now;
  let best = null, least = near;
  for (const edge of graph ? graph.links : []) {
    const p = drawing.points[edge.u], q = drawing.points[edge.v], dx = q.x - p.x, dy = q.y - p.y;
    const part = Math.max(0, Math.min(1, ((at.x - p.x) * dx + (at.y - p.y) * dy) / (dx * dx + dy * dy || 1))), far = Math.hypot(at.x - p.x - part * dx, at.y - p.y - part * dy);
    if (far < least) { best = edge; least = far; }
  }
  return best;
}

// Shows which link a click would take.
export function hoverLink(edge) {
  if (!layers.hover) return;
  layers.hover.textContent = "";
  if (edge) over(layers.hover, edge.u, edge.v, { class: "hover" });
}

// The nearest node from one in a direction, or itself.
function nodeBeside(u, key) {
  const { points } = store.now.drawing, [wx, wy] = { ArrowLeft: [-1, 0], ArrowRight: [1, 0], ArrowUp: [0, -1], ArrowDown: [0, 1] }[key];
  let best = u, least = Infinity;
  points.forEach((p, v) => {
    const dx = p.x - points[u].x, dy = p.y - points[u].y, ahead = dx * wx + dy * wy, aside = Math.abs(dx * wy - dy * wx);
    if (v !== u && ahead > 0 && ahead + 2 * aside < least) { best = v; least = ahead + 2 * aside; }
  });
  return best;
}

function drawNodes(svg, onNode) {
  const { drawing: { points, names }, graph, node } = store.now, isLarge = graph.names.length > 300;
  layers.neighbours = neighboursOf(graph);
  layers.circles = graph.names.map((name, u) => {
    const group = drawn(svg, "g", { class: "node", role: "button", "aria-label": "node " + name, tabindex: u === node ? 0 : -1 });
    if (!isLarge) drawn(group, "circle", { class: "catch", cx: points[u].x, cy: points[u].y, r: 16 });
    const circle = drawn(group, "circle", { class: "spot", cx: points[u].x, cy: points[u].y, r: names ? NODE : NODE * 0.7 });
    if (!isLarge) drawn(circle, "title").textContent = name;
    group.addEventListener("pointerenter", () => pointAt(u));
    group.addEventListener("focus", () => pointAt(u));
    group.addEventListener("click", event => { event.stopPropagation(); onNode(u); });
    group.addEventListener("keydown", event => {
      if (/^Arrow/.test(event.key) && !event.ctrlKey && !event.altKey && !event.metaKey) layers.circles[nodeBeside(u, event.key)].focus();
      else if (event.key === "Enter" || event.key === " ") onNode(u);
      else return;
      event.preventDefault();
      event.stopPropagation();
    });
    return group;
  });
  layers.names = names ? graph.names.map((name, u) => {
    const text = drawn(svg, "text", { class: "name", x: names[u].x, y: names[u].y, "text-anchor": "middle" });
    text.textContent = shortName(name);
    return text;
  }) : [];
}

// A node at another place while it is dragged.
layers.moveNode = (u, at) => {
  const { points } = store.now.drawing, by = `translate(${at.x - points[u].x} ${at.y - points[u].y})`;
  for (const part of [layers.circles[u], layers.names[u]]) if (part) part.setAttribute("transform", by);
  for (const v of layers.neighbours[u]) {
    const line = layers.links.get(pairOf(u, v)), isFirst = line && Number(line.getAttribute("x1")) === points[u].x && Number(line.getAttribute("y1")) === points[u].y;
    if (!line) continue;
    const end = line.dataset.moved || (isFirst ? "1" : "2");
    line.dataset.moved = end;
    line.setAttribute("x" + end, at.x);
    line.setAttribute("y" + end, at.y);
  }
  layers.ring.textContent = layers.ports.textContent = layers.ringLabel.textContent = "";
};

export function drawNetwork({ onNode }) {
  byId("drawing").parentNode.classList.toggle("stale", store.now.isStale);
  const { drawing, graph, topology } = store.now, svg = byId("drawing"), sheet = drawing ? drawing.sheet : { width: 1000, height: 620 };
  svg.textContent = "";
  svg.style.aspectRatio = `${sheet.width} / ${sheet.height}`;
  for (const name of ["down", "hover", "ports", "lit", "way", "trails", "lost", "blocks", "ring", "rows", "ringLabel", "packets", "matches", "seen"]) layers[name] = null;
  layers.links = new Map();
  layers.circles = layers.names = [];
  if (!graph) {
    svg.setAttribute("viewBox", "0 0 1000 620");
    const empty = drawn(svg, "text", { x: 500, y: 310, "text-anchor": "middle", class: "empty" });
    empty.textContent = topology.trim() === "" ? "Choose an example, paste a network, or draw one: \u2018Draw\u2019, then click here." : "There is no network to draw.";
    return;
  }
  drawLinks(svg);
  layers.blocks = drawn(svg, "g");
  layers.ring = drawn(svg, "g", { class: "ring" });
  drawNodes(svg, onNode);
  for (const name of ["seen", "rows", "ringLabel", "packets", "matches"]) layers[name] = drawn(svg, "g", name === "ringLabel" ? { class: "ring" } : {});
  drawBlocks();
  drawRows();
  layers.onDrawn();
}

// The blocks of labels of a plan by landmarks: a tint under each node, with a square round a landmark.
export function drawBlocks() {
  if (!layers.blocks) return;
  layers.blocks.textContent = "";
  const { plan, graph, drawing, landmarkNodes } = store.now, isThere = Boolean(plan) && landmarkNodes.length > 0;
  byId("blocks-told").hidden = !isThere;
  if (!isThere) return;
  const radius = drawing.names ? NODE + 6 : NODE, blocks = blocksOf(graph, landmarkNodes);
  blocks.forEach((place, u) => {
    const { x, y } = drawing.points[u], landmark = landmarkNodes[place];
    if (landmark === u) drawn(layers.blocks, "rect", { class: `block landmark ${tintOf(place)}`, x: x - radius, y: y - radius, width: 2 * radius, height: 2 * radius });
    else drawn(layers.blocks, "circle", { class: `block ${tintOf(place)}`, cx: x, cy: y, r: radius });
  });
  const named = landmarkNodes.slice(0, 8).map(u => graph.names[u]).join(", ");
  byId("blocks-told").textContent = `${many(landmarkNodes.length, "landmark")}, in squares: ${named}${landmarkNodes.length > 8 ? " and more" : ""}. Nodes of one tint are nearest to the same landmark, and their labels are one block.`;
}

// Each node's row beside it, if that is wanted: away from the middle, where the sheet has room there.
export function drawRows() {
  if (!layers.rows) return;
  layers.rows.textContent = "";
  const { areRowsShown, plan, drawing, graph } = store.now;
  if (!areRowsShown || !plan || !drawing.names) return;
  const { names } = graph, { points } = drawing;
  const said = plan.rows.map(row => rowInWords(row, names.map(name => shortName(name, 9))).split(/: | {2}/));
  const heights = points.map(p => p.y), middle = heights.reduce((sum, y) => sum + y, 0) / heights.length;
  said.forEach((parts, u) => {
    const p = points[u], shown = parts.slice(0, 7), high = 38 + shown.length * 12;
    const below = p.y >= middle ? p.y + high < drawing.sheet.height : p.y < high;
    shown.forEach((part, i) => {
      const y = below ? p.y + 38 + i * 12 : p.y - 38 - (shown.length - 1 - i) * 12;
      const text = drawn(layers.rows, "text", { class: i === 0 ? "said own" : "said", x: p.x, y });
      text.textContent = i === 6 && parts.length > 7 ? ".." : part;
    });
  });
}

// The walk on the drawing, while its tab is open.
export function drawWalk() {
  if (!layers.way) return;
  layers.way.textContent = "";
  const { walk, tab, drawing, graph } = store.now;
  if (!walk || tab !== "walk") return;
  const nodes = walk.hops.map(hop => graph.numbers.get(hop.node));
  for (let i = 1; i < nodes.length; i++) {
    const p = drawing.points[nodes[i - 1]], q = drawing.points[nodes[i]], angle = Math.atan2(q.y - p.y, q.x - p.x) * 180 / Math.PI;
    drawn(layers.way, "line", { class: "way", x1: p.x, y1: p.y, x2: q.x, y2: q.y });
    drawn(layers.way, "path", { class: "way-arrow", d: "M-6 -7L8 0L-6 7z", transform: `translate(${(p.x + q.x) / 2} ${(p.y + q.y) / 2}) rotate(${angle})` });
  }
}

// The drawing as a file: its styles are in it, with the colours that the page has now.
export function pictureText() {
  const svg = byId("drawing").cloneNode(true), look = getComputedStyle(document.documentElement);
  for (const element of svg.querySelectorAll(".catch, .hover, title")) element.remove();
  const colours = ["back", "ink", "dim", "link", "node", "fault", "on-epoch", ...Array.from({ length: 8 }, (_, i) => `epoch-${i + 1}`), ...Array.from({ length: 6 }, (_, i) => `port-${i + 1}`), ...Array.from({ length: 6 }, (_, i) => `block-${i + 1}`)].map(name => `--${name}:${look.getPropertyValue("--" + name).trim()}`);
  const rules = [...document.styleSheets[0].cssRules].filter(rule => rule.selectorText && /^(svg|\.(link|port|cover|spot|epoch|name|weight|arc|label|said|way|trail|lost|token|match|ahead|astray|block))/.test(rule.selectorText));
  const style = document.createElementNS("http://www.w3.org/2000/svg", "style");
  style.textContent = `svg{${colours.join(";")};background:var(--back)} ` + rules.map(rule => rule.cssText).join(" ");
  svg.insertBefore(style, svg.firstChild);
  svg.setAttribute("xmlns", "http://www.w3.org/2000/svg");
  return new XMLSerializer().serializeToString(svg) + "\n";
}
