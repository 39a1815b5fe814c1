// What happens to packets at a step, in words. Nothing here draws.
import { intervalFor, standing } from "./playing.js";
import { interval } from "./page.js";

const ENDS = { delivered: "has arrived", retired: "is dropped: its epoch is retired", left: "is left there at the end of the script", down: "is lost: its link is down", full: "is lost: the queue of its link is full" };

// One packet at a step: null before it starts, and after the step at which it ended.
export function captionOf(packet, plans, names, step) {
  const place = standing(packet, step), { row } = packet;
  if (!place || (place.ended && packet.ends < step && step > packet.times.at(-1) + 1)) return null;
  const at = `Packet ${row.id}: at ${names[place.node]}`;
  if (place.ended) return `${at}, it ${ENDS[row.fate[0]]}.`;
  const next = packet.stations[place.passed], rows = plans[place.epoch - 1] ? plans[place.epoch - 1].rows : [];
  if (next && next.node === place.node) return `${at}, it gets a new stamp: epoch ${next.epoch}.`;
  if (!rows[place.node] || !rows[row.dest]) return next ? `${at}, on to ${names[next.node]}.` : `${at}.`;
  const { label } = rows[row.dest];
  if (place.node === row.dest) return `${at}, which has the label ${label} in epoch ${place.epoch}.`;
  const found = intervalFor(rows[place.node], label), on = next ? `, so on to ${names[next.node]}` : `, which ${names[found.to]} serves`;
  return `${at}, ${label} is in ${interval(found)} of epoch ${place.epoch}${on}.`;
}

// The captions of a step: of the chosen packet, or of the first that are under way.
export function captionsAt(packets, plans, names, step, chosen, most = 3) {
  const some = (chosen < 0 ? packets : [packets[chosen]]).map(packet => captionOf(packet, plans, names, step)).filter(Boolean);
  return some.length > most ? [...some.slice(0, most - 1), `${some.length - most + 1} more packets are there or under way.`] : some;
}
