// Figures of plans in plain words. Nothing here draws.

function ratio(text) {
  const [above, below] = text.split("/").map(Number);
  return below > 0 ? above / below : 1;
}

function stretchInWords(times) {
  return times === 1 ? "1 (all are shortest)" : times.toFixed(2);
}

// The lines of `stats` as heads and values in words.
export function figuresOf(text) {
  const of = new Map(text.trim().split("\n").map(line => [line.split(" ", 1)[0], line.split(" ").slice(1)])), worst = of.get("worst"), most = of.get("compactness"), greatest = of.get("greatest-row");
  const landmarks = of.get("landmarks"), stretch = of.get("stretch");
  const walks = Number(of.get("walks")), distances = Number(of.get("distances")), ring = of.get("dependencies");
  const rows = [
    ["Plan", `${of.get("stats")[0]}, ${of.get("stats")[1]} nodes, ${of.get("links")} links`],
    ["Intervals", `${of.get("starts")}; full tables have ${of.get("entries")} entries`],
    ["Bits", `${of.get("bits")[0]}; full tables have ${of.get("bits")[1]}`],
    ["Most intervals at a node", greatest.length > 1 ? `${greatest[1]}, at ${greatest[0]}` : greatest.join(" ")],
    ["Paths, over the shortest", stretchInWords(distances > 0 ? walks / distances : 1)],
  ];
  if (worst && worst.length === 4) {
    const [from, to, walk, distance] = worst, times = Number(walk) / Number(distance);
    rows.push(["Worst detour", times === 1 ? "none" : `${from} to ${to}, ${walk} for ${distance} (${times.toFixed(1)} times)`]);
  }
  if (landmarks) rows.push(["Landmarks", landmarks.slice(0, 24).join(", ") + (landmarks.length > 24 ? ` and ${landmarks.length - 24} more` : "")]);
  if (stretch) rows.push(["Longest allowed path", `${stretch[0]} percent of the distance`]);
  if (most && most.length === 3) rows.push(["Most intervals at a link", `${most[2]}, at ${most[0]} to ${most[1]}`]);
  rows.push(["Deadlock", ring[0] === "cycle" ? `possible where full queues hold packets back: links can wait in a ring through ${ring.slice(1, 8).join(", ")}${ring.length > 8 ? ", \u2026" : ""}` : "none possible"]);
  return rows;
}

// The rows of `compare`: { kind, numbering, cells, set }, where `set` is what a click on the row chooses; full tables have no
// kind. A row of landmarks has its stretch in its first word.
export function comparisonOf(text) {
  return text.trim().split("\n").slice(2).map(line => {
    const [kind, numbering, intervals, greatest, bits, mean, worst, dependencies] = line.split(" ");
    if (kind === "tables") return { kind: "", numbering: "", cells: ["full tables", "", "", "", bits, "1.00", "1.00", ""] };
    const stretch = /^landmark-([0-9]+)$/.exec(kind);
    const set = stretch ? { kind: "landmark", landmarks: "", stretch: stretch[1] } : { kind, numbering };
    return { kind, numbering, set, cells: [kind, numbering, intervals, greatest, bits, ratio(mean).toFixed(2), ratio(worst).toFixed(2), dependencies === "cycle" ? "possible" : "none"] };
  });
}

export const COMPARED = ["Kind", "Numbering", "Intervals", "At a node", "Bits", "Paths", "Worst path", "Dead\u00adlock"];
