// The kind landmark: its options, its landmarks and the blocks of labels, of which each has its landmark. Nothing here draws.

const TINTS = 6;

export const MOST_LANDMARKS = 65535, LEAST_STRETCH = 100, MOST_STRETCH = 300;

// The number of a field within its bounds, as the program takes it; otherwise the usual text.
export function numberOr(text, least, most, usual) {
  const number = /^[0-9]{1,5}$/.test(text) ? Number(text) : NaN;
  return number >= least && number <= most ? String(number) : usual;
}

// Whether plans of a kind can be numbered along a tour.
export function isNumbered(kind) {
  return kind !== "tree" && kind !== "landmark";
}

// The words for what is chosen of landmarks, where it is not what the program takes by itself.
export function landmarkWords({ landmarks, stretch }) {
  return [...landmarks === "" ? [] : ["--landmarks", landmarks], ...stretch === "300" ? [] : ["--stretch", stretch]];
}

// The landmarks of a text of `stats`, by the numbers of their nodes; none where there is no such line.
export function landmarksOf(text, graph) {
  const line = text.split("\n").find(it => it.startsWith("landmarks "));
  return line ? line.split(" ").slice(1).map(name => graph.numbers.get(name)) : [];
}

// Each node's landmark, by its place in the list: the nearest one, and of several as near that of the least number.
export function blocksOf(graph, landmarks) {
  const links = graph.names.map(() => []), found = graph.names.map(() => ({ far: Infinity, landmark: Infinity })), queue = [];
  for (const { u, v, weight } of graph.links) {
    links[u].push([v, weight || 1]);
    links[v].push([u, weight || 1]);
  }
  const reach = (u, far, landmark) => {
    const is = found[u];
    if (far > is.far || (far === is.far && landmark >= is.landmark)) return;
    found[u] = { far, landmark };
    queue.push(u);
  };
  for (const u of landmarks) reach(u, 0, u);
  for (let i = 0; i < queue.length; i++) for (const [v, weight] of links[queue[i]]) reach(v, found[queue[i]].far + weight, found[queue[i]].landmark);
  return found.map(({ landmark }) => landmarks.indexOf(landmark));
}

// The class that tints a block.
export function tintOf(place) {
  return `block-${place % TINTS + 1}`;
}
