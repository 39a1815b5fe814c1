// What the page's address says: all that is to be seen, in the text after `#`. Nothing here draws.
import { readPlaces } from "./reading.js";

const OF_EXAMPLE = { kind: "shortest", root: "", script: "", numbering: "depth-first", restamps: "0", capacity: "16", landmarks: "", stretch: "300" };

// The places of nodes in their order: those to which they were moved, with the sheet, or those that are given.
function placesOf({ manual, places, graph }, isExample) {
  if (!graph) return {};
  const joined = points => points.map(({ x, y }) => `${x},${y}`).join(";");
  if (manual) {
    const { width, height } = manual.sheet, at = graph.names.map(name => manual.places.get(name));
    if (!at.every(Boolean)) return {};
    return { sheet: `${Math.round(width)},${Math.round(height)}`, at: joined(at.map(({ x, y }) => ({ x: Math.round(x), y: Math.round(y) }))) };
  }
  if (isExample || places === "") return {};
  const { points } = readPlaces(places, graph), round = number => Math.round(number * 100) / 100;
  return points && points.every(Boolean) ? { map: joined(points.map(({ x, y }) => ({ x: round(x), y: round(-y) }))) } : {};
}

// What is looked at, where it is not what the page begins with.
function looksOf({ tab, step, last, time, chosen, rows, node, from, to, graph, areWeightsShown, areRowsShown, format }) {
  const looks = {};
  if (tab !== "network") looks.tab = tab;
  if (last > 0 && time > 0) looks.step = step;
  if (rows[chosen]) looks.packet = rows[chosen].id;
  if (!graph) return looks;
  if (node > 0) looks.node = graph.names[node];
  if (from > 0 || to !== graph.names.length - 1) Object.assign(looks, { from: graph.names[from], to: graph.names[to] });
  if (areWeightsShown !== (format === "edgelist")) looks.weights = areWeightsShown ? 1 : 0;
  if (areRowsShown !== graph.names.length <= 10) looks.rows = areRowsShown ? 1 : 0;
  return looks;
}

// The address of what is seen now: of an example its number and what differs from it.
export function hashOf(now, examples) {
  const example = examples[now.origin], isExample = Boolean(example) && example.topology === now.topology && example.format === now.format;
  const kept = isExample ? { example: now.origin + 1 } : { format: now.format, kind: now.kind, topology: now.topology };
  for (const [name, usual] of Object.entries(OF_EXAMPLE)) {
    const wanted = isExample ? example[name] || usual : usual;
    if (now[name] !== wanted && !(name === "script" && now.scriptBy === "page")) kept[name] = now[name];
  }
  if (now.isOwnTrace) kept.trace = now.trace;
  return "#" + new URLSearchParams({ ...kept, ...placesOf(now, isExample), ...looksOf(now) });
}

function pointsOf(text) {
  const points = text.split(";").map(pair => pair.split(",").map(Number));
  return points.every(point => point.length === 2 && point.every(Number.isFinite)) ? points.map(([x, y]) => ({ x, y })) : [];
}

// The places that an address gives, over the names of its network: { manual, places } as the store has them.
export function givenPlaces(given, names) {
  const at = given.has("at") ? pointsOf(given.get("at")) : [], [sheet] = given.has("sheet") ? pointsOf(given.get("sheet")) : [];
  const map = given.has("map") ? pointsOf(given.get("map")) : [];
  const manual = sheet && sheet.x > 0 && sheet.y > 0 && at.length === names.length
    ? { sheet: { width: sheet.x, height: sheet.y }, places: new Map(names.map((name, u) => [name, at[u]])) } : null;
  return { manual, places: map.length === names.length ? names.map((name, u) => `${name} ${map[u].x} ${map[u].y}\n`).join("") : "" };
}
