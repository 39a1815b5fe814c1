// What part of the drawing is seen: a wheel zooms, a drag moves it, a node may be dragged, and a node is found by its name.
import { shortName } from "./placing.js";
import { byId, drawn } from "./page.js";
import { layers, pointAt } from "./drawing.js";
import { store } from "./state.js";

// A node is dragged, or a drag begins, once the pointer has moved so far.
const MOVED = 4;
const MOST_ZOOM = 40;

function whole() {
  const { drawing } = store.now, { width, height } = drawing ? drawing.sheet : { width: 1000, height: 620 };
  return { x: 0, y: 0, w: width, h: height };
}

// Shows this part of the sheet; all of it where that is no less.
export function look(sight) {
  const all = whole(), isWhole = !sight || sight.w >= all.w;
  store.set({ sight: isWhole ? null : sight });
  const { x, y, w, h } = isWhole ? all : sight;
  byId("drawing").setAttribute("viewBox", `${x} ${y} ${w} ${h}`);
  byId("fit").disabled = byId("smaller").disabled = isWhole;
  byId("drawing").parentNode.classList.toggle("near", !isWhole);
  nameNodes();
}

// In a network too large for all names those that are seen have theirs, where these are few.
export function nameNodes() {
  const { drawing, graph, sight, node } = store.now, layer = layers.seen;
  if (!layer) return;
  layer.textContent = "";
  if (!drawing || drawing.names) return;
  const { x, y, w, h } = sight || whole(), scale = w / Math.max(200, byId("drawing").clientWidth);
  const seen = graph.names.map((_, u) => u).filter(u => drawing.points[u].x > x && drawing.points[u].x < x + w && drawing.points[u].y > y && drawing.points[u].y < y + h);
  const near = layers.neighbours ? layers.neighbours[node] : [], taken = [];
  for (const u of seen.length <= 70 ? seen : [node, ...near.slice(0, 64)]) {
    const p = drawing.points[u], wide = 7.6 * scale * shortName(graph.names[u]).length;
    if (taken.some(it => Math.abs(it.x - p.x) < (it.wide + wide) / 2 && Math.abs(it.y - p.y) < 15 * scale)) continue;
    taken.push({ ...p, wide });
    const text = drawn(layer, "text", { class: u === node ? "name own" : "name", x: drawing.points[u].x, y: drawing.points[u].y - 7 * Math.min(1, scale * 1.6), "text-anchor": "middle" });
    text.textContent = shortName(graph.names[u]);
    text.style.fontSize = 13 * scale + "px";
    text.style.strokeWidth = 3 * scale + "px";
  }
}

// Zooms about a point of the sheet.
function zoom(by, at) {
  const all = whole(), { x, y, w, h } = store.now.sight || all, factor = Math.max(by, all.w / MOST_ZOOM / w);
  const about = at || { x: x + w / 2, y: y + h / 2 };
  look({ x: about.x - (about.x - x) * factor, y: about.y - (about.y - y) * factor, w: w * factor, h: h * factor });
}

export function pointOf(event) {
  const at = new DOMPoint(event.clientX, event.clientY).matrixTransform(byId("drawing").getScreenCTM().inverse());
  return { x: at.x, y: at.y };
}

// Looks at the node of a name, or at the first that begins with it; whether there is one.
export function findNode(name) {
  const { graph, drawing } = store.now;
  if (!graph || name === "") return false;
  const u = graph.numbers.has(name) ? graph.numbers.get(name) : graph.names.findIndex(it => it.toLowerCase().startsWith(name.toLowerCase()));
  if (u < 0) return false;
  const all = whole(), w = graph.names.length > 60 ? all.w / Math.max(2, Math.sqrt(graph.names.length) / 4) : all.w, h = w * all.h / all.w, { x, y } = drawing.points[u];
  store.set({ node: u });
  look(w < all.w ? { x: x - w / 2, y: y - h / 2, w, h } : null);
  pointAt(u);
  layers.circles.forEach((group, v) => group.classList.toggle("found", u === v));
  return true;
}

// A drag of the sheet moves the picture as it is, and draws it anew at its end.
function dragSheet(svg, from) {
  let by = { x: 0, y: 0 };
  return {
    move: event => {
      by = { x: event.clientX - from.clientX, y: event.clientY - from.clientY };
      svg.classList.add("moving");
      svg.style.transform = `translate(${by.x}px, ${by.y}px)`;
    },
    end: () => {
      const { x, y, w, h } = store.now.sight || whole(), scale = w / svg.clientWidth;
      svg.style.transform = "";
      svg.classList.remove("moving");
      look({ x: x - by.x * scale, y: y - by.y * scale, w, h });
    },
  };
}

export function listenToSight({ onMoved }) {
  const svg = byId("drawing");
  let drag = null, isDragged = false;
  svg.addEventListener("wheel", event => {
    if (!store.now.graph || (!event.ctrlKey && !store.now.sight && store.now.graph.names.length < 60)) return;
    event.preventDefault();
    zoom(event.deltaY > 0 ? 1.2 : 1 / 1.2, pointOf(event));
  }, { passive: false });
  svg.addEventListener("pointerdown", event => {
    const group = event.target.closest("g.node"), node = group ? layers.circles.indexOf(group) : -1;
    isDragged = false;
    if (event.button !== 0 || store.now.isStale || (node < 0 && !store.now.sight) || (event.pointerType === "touch" && node < 0 && !store.now.sight)) return;
    drag = { from: event, node, sheet: dragSheet(svg, event) };
  });
  window.addEventListener("pointermove", event => {
    if (!drag || (!isDragged && Math.hypot(event.clientX - drag.from.clientX, event.clientY - drag.from.clientY) < MOVED)) return;
    if (!isDragged && drag.node < 0) svg.setPointerCapture(event.pointerId); // no element is looked for under the pointer
    isDragged = true;
    if (drag.node < 0) drag.sheet.move(event);
    else if (store.now.tool === "look") layers.moveNode(drag.node, pointOf(event));
  });
  window.addEventListener("pointerup", event => {
    if (!drag) return;
    const { node, sheet } = drag;
    drag = null;
    if (!isDragged) return;
    if (node < 0) sheet.end();
    else if (store.now.tool === "look") onMoved(node, pointOf(event));
  });
  svg.addEventListener("click", event => {
    if (isDragged) event.stopPropagation();
    isDragged = false;
  }, true);
  byId("larger").onclick = () => zoom(1 / 1.5);
  byId("smaller").onclick = () => zoom(1.5);
  byId("fit").onclick = () => look(null);
  byId("find").onchange = () => {
    const isThere = findNode(byId("find").value.trim());
    byId("find").setAttribute("aria-invalid", String(!isThere && byId("find").value.trim() !== ""));
  };
}
