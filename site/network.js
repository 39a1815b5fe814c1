// Changes of a topology's text and of a script's, as the drawing asks for them. Nothing here draws.
import { pairOf } from "./reading.js";
import { Player, intervalFor, joined, momentAt } from "./playing.js";
import { hopsFrom } from "./placing.js";

// A word of a line, up to its comment.
export function plainWords(line) {
  const comment = line.indexOf("#");
  return (comment < 0 ? line : line.slice(0, comment)).split(/[\t\v\f\r ]+/).filter(word => word !== "");
}

// The lines of a text after a change of each; a line that comes to nothing goes.
export function changedLines(text, change) {
  return text.split("\n").map(line => {
    const words = plainWords(line);
    if (words.length === 0) return line;
    const left = change(words);
    return left === words ? line : left.length === 0 ? null : left.join(" ");
  }).filter(line => line !== null).join("\n");
}

export function withLine(text, line) {
  return text + (text === "" || text.endsWith("\n") ? "" : "\n") + line + "\n";
}

export function withLink(text, format, source, target, weight) {
  return withLine(text, format === "edgelist" ? `${source} ${target} ${weight}` : `${source} ${target}`);
}

// Without the links between two nodes. A node of an adjacency list stays, by the front of its line.
export function withoutLink(text, format, a, b) {
  if (format === "edgelist") {
    return changedLines(text, words => words[0] === a && words[1] === b || words[0] === b && words[1] === a ? [] : words);
  }
  return changedLines(text, words => {
    const other = words[0] === a ? b : words[0] === b ? a : null;
    return other !== null && words.slice(1).includes(other) ? words.filter((word, i) => i === 0 || word !== other) : words;
  });
}

export function withoutNode(text, format, name) {
  if (format === "edgelist") return changedLines(text, words => words.slice(0, 2).includes(name) ? [] : words);
  return changedLines(text, words => {
    if (!words.includes(name)) return words;
    return words[0] === name ? words.slice(1).filter(word => word !== name) : words.filter(word => word !== name);
  });
}

// A name that no node has: a letter, or a letter and a number.
export function freshName(graph) {
  for (let i = 0; ; i++) {
    const name = String.fromCharCode(97 + i % 26) + (i < 26 ? "" : Math.floor(i / 26));
    if (!graph || !graph.numbers.has(name)) return name;
  }
}

// The lines after a link that goes down or comes up again: a plan over the links that are up, by which packets are stamped
// from then on. Where the links that are left join no longer all nodes, no plan is made.
export function breakLines(graph, { down, epochs }, edge, kind, root) {
  const pair = pairOf(edge.u, edge.v), next = new Set(down), isDown = down.has(pair);
  if (isDown) next.delete(pair);
  else next.add(pair);
  const lines = [`${isDown ? "up" : "down"} ${graph.names[edge.u]} ${graph.names[edge.v]}`];
  if (!joined(graph, next)) return [...lines, "# no plan connects all nodes now"];
  return [...lines, `install ${kind} ${root}`, `learn ${epochs + 1}`];
}

// A script with lines that act at a step of its playback: { text, line } with the lines of what was done by then, these, the
// first of them at `line`, and what comes after, in which later epochs have one number more for each epoch that is new.
export function scriptAt({ graph, rows, commands, steps }, step, lines) {
  const player = new Player(graph, rows, commands, steps), now = momentAt(player.moments, step), done = player.linesUpTo(step);
  const more = lines.filter(line => /^(install|renumber) /.test(line)).length;
  const isOver = command => command.name === "drain" ? player.drained.get(command.line) <= step : player.lines.some(it => it.number === command.line && it.step <= step);
  const rest = commands.filter(command => !isOver(command)).map(({ name, text, given }) =>
    (name === "learn" || name === "retire") && given[0] > now.epochs ? `${name} ${given[0] + more}` : text);
  const all = [...done, ...lines, ...rest];
  if (all.some(line => line.startsWith("inject ")) && all.at(-1) !== "drain") all.push("drain");
  return { text: all.join("\n") + "\n", line: done.length + 1 };
}

// A script for a network that has none: two packets between nodes that are far apart, and a new plan while they travel.
export function ownScript(graph, plan) {
  const far = from => {
    const hops = hopsFrom(graph, from);
    return hops.reduce((best, hop, u) => hop > hops[best] ? u : best, from);
  };
  const u = far(0), v = far(u), { names } = graph;
  if (u === v) return "";
  const way = [u], label = plan.rows[v].label;
  while (plan.rows[way.at(-1)].label !== label && way.length <= names.length) way.push(intervalFor(plan.rows[way.at(-1)], label).to);
  const lines = ["# Two packets, and a new plan while they travel", `inject ${names[u]} ${names[v]}`, `inject ${names[v]} ${names[u]}`];
  for (let i = 0; i < Math.min(20, Math.floor(way.length / 2)); i++) lines.push(`take ${names[way[i]]} ${i === 0 ? "inbox" : "from " + names[way[i - 1]]}`, `act ${names[way[i]]}`);
  return [...lines, `install ${plan.kind === "tree" ? "shortest" : "tree"} ${names[v]}`, "learn 2", `inject ${names[u]} ${names[v]}`, "drain"].join("\n") + "\n";
}

// Lines at the end of a script; before a drain at its end if `isBefore`, which then is still its end.
export function withLines(script, lines, isBefore) {
  const own = script.replace(/\s*$/, "").split("\n");
  const at = isBefore && /^\s*drain\s*(#.*)?$/.test(own[own.length - 1]) ? own.length - 1 : own.length;
  own.splice(at, 0, ...lines);
  return own.filter((line, i) => i > 0 || line !== "").join("\n") + "\n";
}

// The text of the network without links that are down, in which nodes have the same order: an edge of a node to itself, which
// is no link, names a node of an edge list before its links.
export function textWithout(graph, format, down) {
  const left = [...graph.edges.values()].filter(({ u, v }) => u !== v && !down.has(pairOf(u, v)));
  const lines = left.map(({ u, v, weight }) => graph.names[u] + " " + graph.names[v] + (format === "edgelist" ? " " + weight : ""));
  return [...graph.names.map(name => format === "edgelist" ? `${name} ${name} 1` : name), ...lines].join("\n") + "\n";
}

// The faults that sentences of `--explain` tell: { file, line, said }, with the line 0 where they name none.
export function sentencesOf(faults) {
  const lines = faults.split("\n").filter(line => line !== ""), told = lines.filter(line => line.startsWith("route: "));
  return (told.length > 0 ? told : lines).map(line => {
    const at = /^route: (topology|script|trace):(\d+): (.*)$/.exec(line);
    return at ? { file: at[1], line: Number(at[2]), said: at[3] } : { file: "", line: 0, said: line.replace(/^route: /, "") };
  });
}
