// The explainer's story: five steps of pictures with a caption each. Nothing here draws.
import { intervalFor } from "./playing.js";
import { interval } from "./page.js";

// A name with its words apart, as Salt Lake City for SaltLakeCity.
export function spaced(name) {
  return name.replace(/([a-z])([A-Z])/g, "$1 $2");
}

// Where a label leads from a node: at each node the row that it has there is asked. It ends at the label's node, or after
// `most` nodes.
export function followed(rowAt, source, label, most) {
  const hops = [];
  for (let node = source; hops.length < most;) {
    const row = rowAt(node);
    if (row.label === label) return [...hops, { node, found: null }];
    const found = intervalFor(row, label);
    hops.push({ node, found });
    node = found.to;
  }
  return hops;
}

// The hop at whose node a new table sends a packet back to where it came from, while all others have the old one; -1 where
// there is none.
export function loopAt(plans, source, dest) {
  const label = plans[0].rows[dest].label, hops = followed(u => plans[0].rows[u], source, label, plans[0].rows.length);
  return hops.findIndex((hop, i) => i > 1 && hop.found && plans[1].rows[hop.node].label !== label
    && intervalFor(plans[1].rows[hop.node], label).to === hops[i - 1].node);
}

// What stays the same from beat to beat of a story, and the beats so far.
class Story {
  constructor(graph, plans, source, dest) {
    Object.assign(this, { graph, plans, source, dest, beats: [], step: 0 });
    this.names = graph.names.map(spaced);
    this.labels = plans.map(plan => plan.rows[dest].label);
  }

  // A picture: what is not given is not shown.
  beat(caption, further) {
    this.beats.push({ step: this.step, caption, labels: this.of([0]), ring: null, lit: null, packets: [], trail: [], isMixed: false, ...further });
  }

  // The labels of each node by these plans; a node of `other` has those of the plans given there alone.
  of(plans, other = new Map()) {
    return this.graph.names.map((_, u) => (other.get(u) || plans).map(i => ({ epoch: i + 1, label: this.plans[i].rows[u].label })));
  }

  // A beat for each node that a packet comes to; `said(hop, i)` is its caption.
  travel(hops, packet, epochAt, said, further) {
    const { trail: before, packets: others, labels } = { trail: [], packets: [], labels: this.of([0]), ...further };
    hops.forEach((hop, i) => {
      const trail = [...before];
      for (let j = 1; j <= i; j++) trail.push({ u: hops[j - 1].node, v: hops[j].node, epoch: packet.epoch });
      this.beat(said(hop, i), {
        ...further, labels, trail, packets: [...others, { ...packet, node: hop.node }],
        ring: { node: hop.node, epoch: epochAt(hop.node) }, lit: hop.found && { u: hop.node, v: hop.found.to, found: hop.found },
      });
    });
  }

  // Where a label is found, in words.
  found(hop, label, which) {
    return `at ${this.names[hop.node]}, ${label} is in ${interval(hop.found)}${which}, so on to ${this.names[hop.found.to]}`;
  }
}

function tellLabels(story) {
  const { graph, plans } = story, order = graph.names.map((_, u) => u).sort((a, b) => plans[0].rows[a].label - plans[0].rows[b].label);
  for (const shown of [1, 2, 3, 5, 8, 11, order.length].filter(it => it <= order.length)) {
    const some = new Set(order.slice(0, shown));
    story.beat("Each node gets a number, its label. Labels follow the links, so that nodes nearby have numbers nearby.",
      { labels: story.of([0]).map((labels, u) => some.has(u) ? labels : []), isShort: true });
  }
  story.beat(`${order.length} nodes, labels 0 to ${order.length - 1}. A label is a node's address: a packet carries the label of the node that it is for.`);
}

// Words with commas and an `and`.
function listed(words) {
  return words.length < 2 ? words.join("") : `${words.slice(0, -1).join(", ")} and ${words.at(-1)}`;
}

// The labels of an interval in words: 6 to 13 for [6,0).
function labelsOf({ start, end }, count) {
  const last = (end + count - 1) % count;
  return start === last ? `label ${start}` : start < last ? `labels ${start} to ${last}` : `labels ${start} to ${count - 1} and 0 to ${last}`;
}

function tellIntervals(story) {
  const { graph, plans, names } = story, count = graph.names.length, way = followed(u => plans[0].rows[u], story.source, story.labels[0], count);
  const nodes = [way[1].node, way.find(hop => plans[0].rows[hop.node].intervals.length > 2)?.node ?? way[2].node];
  nodes.forEach((node, i) => {
    const row = plans[0].rows[node], last = row.intervals.at(-1), said = row.intervals.map(it => `${labelsOf(it, count)} to ${names[it.to]}`), ring = { node, epoch: 1 };
    story.beat((i === 0 ? "An interval is a range of labels, written on the link that serves it. " : "") + `${names[node]} sends ${listed(said)}.`, { ring });
    if (i === 0) story.beat(`So ${interval(last)} is ${labelsOf(last, count)}: from ${last.start} up to, but not including, ${last.end}. After ${count - 1} comes 0.`, { ring });
  });
  const intervals = plans[0].rows.reduce((sum, row) => sum + row.intervals.length, 0);
  story.beat(`That is what intervals are for: ${intervals} of them lead to every node from everywhere. Tables with a row for each destination would have ${count * (count - 1)} rows.`);
}

function tellPacket(story) {
  const { plans, names, labels: [label], source, dest } = story, hops = followed(u => plans[0].rows[u], source, label, plans[0].rows.length);
  story.travel(hops, { id: 0, epoch: 1, label }, () => 1, (hop, i) => hop.found
    ? (i === 0 ? `A packet for ${names[dest]} carries its label, ${label}: ` : "") + capital(story.found(hop, label, ""), i > 0) + "."
    : `${names[hop.node]} has the label ${label}: the packet has arrived. No node knew the path; each looked up one number.`);
}

function capital(text, isFirst) {
  return isFirst ? text[0].toUpperCase() + text.slice(1) : text;
}

// The nodes that both packets come to when the numbers change after so many hops of the first.
function tellChange(story, at) {
  const { plans, names, labels, source, dest } = story, count = plans[0].rows.length;
  const first = followed(u => plans[0].rows[u], source, labels[0], count), second = followed(u => plans[1].rows[u], source, labels[1], count);
  const early = first.slice(0, at);
  story.travel(early, { id: 0, epoch: 1, label: labels[0] }, () => 1, (hop, i) => i === 0
    ? `Packet 0 sets out again for ${names[dest]}. It is stamped with epoch 1: the blue numbers and their intervals.`
    : capital(`packet 0: ${story.found(hop, labels[0], " of epoch 1")}.`, true));
  const trailOf = (hops, epoch) => hops.slice(1).map((hop, i) => ({ u: hops[i].node, v: hop.node, epoch }));
  const both = story.of([0, 1]), still = { id: 0, epoch: 1, label: labels[0], node: early.at(-1).node };
  story.beat("Shorter paths are wanted, so all nodes are numbered anew. A numbering with its intervals is an epoch: 1 is blue, 2 is orange. For a while each node keeps both.",
    { labels: both, packets: [still], trail: trailOf(early, 1) });
  const rounds = Math.max(first.length - at, second.length);
  for (let i = 0; i < rounds; i++) {
    const one = Math.min(at + i, first.length - 1), two = Math.min(i, second.length - 1), hop = first[one], other = second[two];
    const isLast = i === rounds - 1, seen = i === 0 || !hop.found ? other : hop;
    const said = [[0, 1, hop, at + i < first.length], [1, 2, other, i < second.length]].filter(it => it[3]).map(([id, epoch, it]) =>
      it.found ? `Packet ${id}${id === 1 && i === 0 ? " sets out" : ""}: ${story.found(it, labels[epoch - 1], ` of epoch ${epoch}`)}.` : `Packet ${id} has arrived.`);
    story.beat(isLast ? "Both have arrived. That is what epochs are for: a packet keeps to the numbers that it set out with, at every node. That is proved of Bentzolu." : said.join(" "), {
      labels: both, trail: [...trailOf(first.slice(0, one + 1), 1), ...trailOf(second.slice(0, two + 1), 2)],
      packets: [{ ...still, node: hop.node }, { id: 1, epoch: 2, label: labels[1], node: other.node }],
      ring: seen.found ? { node: seen.node, epoch: seen === hop ? 1 : 2 } : null, lit: seen.found && { u: seen.node, v: seen.found.to, found: seen.found },
    });
  }
}

// The same without epochs: the node after the change has the new numbers alone, those before it the old ones.
function tellLoop(story, at) {
  const { plans, names, labels: [label], source, dest } = story, changed = followed(u => plans[0].rows[u], source, label, plans[0].rows.length)[at].node;
  const epochAt = u => u === changed ? 2 : 1, labels = story.of([0], new Map([[changed, [1]]]));
  const other = plans[1].rows.findIndex(row => row.label === label), hops = followed(u => plans[epochAt(u) - 1].rows[u], source, label, at + 7);
  const seen = new Set();
  story.travel(hops, { id: 0, epoch: 1, label }, epochAt, (hop, i) => {
    const isAgain = seen.has(hop.node);
    seen.add(hop.node);
    if (i === 0) return `Without epochs each node has one table. Packet 0 sets out for ${names[dest]} with the label ${label}.`;
    if (i === hops.length - 1) return `And so on, for ever: two nodes with tables of different ages send the packet back and forth. Epochs exclude this.`;
    if (isAgain) return capital(`${story.found(hop, label, hop.node === changed ? " of the new numbers" : " of the old numbers")} again.`, true);
    if (hop.node === changed) return `${names[changed]} has the new numbers already, where ${label} is ${names[other]}: ${label} is in ${interval(hop.found)}, so back to ${names[hop.found.to]}.`;
    return capital(story.found(hop, label, " of the old numbers") + ".", true);
  }, { labels, isMixed: true, trail: [], packets: [] });
}

// The same switch with epochs.
function tellNoLoop(story, at) {
  const { plans, names, labels: [label], source } = story, hops = followed(u => plans[0].rows[u], source, label, plans[0].rows.length);
  story.travel(hops, { id: 0, epoch: 1, label }, () => 1, (hop, i) => hop.found
    ? capital(story.found(hop, label, " of epoch 1"), true) + (i === at ? ". The new numbers are there too, and are not looked at." : ".")
    : `With epochs it arrives at ${names[hop.node]}.`, { labels: story.of([0, 1]), trail: [], packets: [] });
}

export const STEPS = ["A label for each node", "An interval for each link", "A packet, label by label", "The numbers change", "Without epochs"];

// The story of a packet from one node to another, by a plan and the plan that comes after it: { beats, loops }. The beats of
// the last step are there twice: `isMixed` ones, and in `kept` those with epochs.
export function storyOf(graph, plans, source, dest) {
  const story = new Story(graph, plans, source, dest), at = loopAt(plans, source, dest);
  const tellers = [tellLabels, tellIntervals, tellPacket, () => tellChange(story, Math.max(2, at)), () => at > 0 && tellLoop(story, at)];
  tellers.forEach((teller, step) => {
    story.step = step;
    teller(story);
  });
  const kept = new Story(graph, plans, source, dest);
  kept.step = 4;
  if (at > 0) tellNoLoop(kept, at);
  return { beats: story.beats, kept: kept.beats };
}

// How long a beat stays, in milliseconds: as long as its caption is read, or moments where it follows its like.
export function lengthOf(beat) {
  return beat.isShort ? 450 : 1500 + 30 * beat.caption.length;
}
