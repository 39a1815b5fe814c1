// A place on the page for each node, name and weight. The same graph is always drawn alike.

// The neighbours of each node.
export function neighboursOf(graph) {
  const near = graph.names.map(() => []);
  for (const { u, v } of graph.links) { near[u].push(v); near[v].push(u); }
  return near;
}

// How many links away each node is from one; -1 where there is no way.
export function hopsFrom(graph, start, near = neighboursOf(graph)) {
  const hops = new Int32Array(graph.names.length).fill(-1), queue = [start];
  hops[start] = 0;
  for (let i = 0; i < queue.length; i++) {
    for (const w of near[queue[i]]) {
      if (hops[w] < 0) { hops[w] = hops[queue[i]] + 1; queue.push(w); }
    }
  }
  return hops;
}

// For each node how many links away each other one is; -1 where there is no way.
export function hopsBetween(graph) {
  const near = neighboursOf(graph);
  return graph.names.map((_, start) => hopsFrom(graph, start, near));
}

// Numbers from 0 below `most` that look random, and are the same each time (xorshift).
export function seeded() {
  let s = 2463534242;
  return most => {
    s ^= s << 13; s ^= s >>> 17; s ^= s << 5;
    return (s >>> 0) % most;
  };
}

// Points whose distances come near to the numbers of links between nodes, by the least stress: pair after pair in random
// order is moved together or apart, by ever smaller steps (Zheng, Pawar and Goodman 2018).
export function leastStress(hops) {
  const n = hops.length, random = seeded(), pairs = new Int32Array(n * (n - 1) / 2);
  const far = 1 + hops.reduce((most, row) => row.reduce((a, b) => Math.max(a, b), most), 1);
  for (let u = 0, i = 0; u < n; u++) for (let v = u + 1; v < n; v++) pairs[i++] = u * n + v;
  const x = Float64Array.from(hops, (_, u) => -Math.cos(2 * Math.PI * u / n) * n / 6);
  const y = Float64Array.from(hops, (_, u) => -Math.sin(2 * Math.PI * u / n) * n / 6);
  const rounds = n > 600 ? 12 : n > 300 ? 25 : 80;
  for (let round = 0; round < rounds; round++) {
    const step = far * far * Math.pow(0.1 / (far * far), round / (rounds - 1));
    for (let i = pairs.length - 1; i >= 0; i--) {
      const j = random(i + 1), pair = pairs[j];
      pairs[j] = pairs[i];
      pairs[i] = pair;
      const u = Math.floor(pair / n), v = pair % n, wanted = hops[u][v] < 0 ? far : hops[u][v];
      const dx = x[u] - x[v], dy = y[u] - y[v], is = Math.max(Math.sqrt(dx * dx + dy * dy), 1e-6);
      const move = Math.min(1, step / (wanted * wanted)) * (is - wanted) / (2 * is);
      x[u] -= move * dx; y[u] -= move * dy;
      x[v] += move * dx; y[v] += move * dy;
    }
  }
  return hops.map((_, u) => ({ x: x[u], y: y[u] }));
}

// A grid's nodes as columns and rows: from a corner and another, by how many links away each node is; null for another network.
export function gridOf(graph) {
  const near = neighboursOf(graph), n = graph.names.length, corners = near.map((_, u) => u).filter(u => near[u].length === 2);
  if (n < 9 || corners.length !== 4 || near.some(of => of.length > 4)) return null;
  const from = hopsFrom(graph, corners[0], near);
  for (const corner of corners.slice(1)) {
    const to = hopsFrom(graph, corner, near), wide = from[corner], seen = new Set();
    const points = Array.from(from, (hop, u) => ({ x: (hop - to[u] + wide) / 2, y: (hop + to[u] - wide) / 2 }));
    for (const { x, y } of points) if (Number.isInteger(x) && Number.isInteger(y) && x >= 0 && x <= wide && y >= 0) seen.add(`${x} ${y}`);
    const isGrid = seen.size === n && n % (wide + 1) === 0 && graph.links.every(({ u, v }) => Math.abs(points[u].x - points[v].x) + Math.abs(points[u].y - points[v].y) === 1);
    if (isGrid && wide + 1 < n) return points;
  }
  return null;
}

// The nodes of a network of layers, one above the other: names of a layer begin with the same letters, and its links go to
// the layers beside it alone. Null for another network.
export function layersOf(graph) {
  const kinds = graph.names.map(name => (/^[A-Za-z]+/.exec(name) || [""])[0].toLowerCase()), all = [...new Set(kinds)];
  if (all.length < 3 || all.length > 6 || graph.names.length < 12 || all.includes("")) return null;
  const beside = new Map(all.map(kind => [kind, new Set()]));
  for (const { u, v } of graph.links) { beside.get(kinds[u]).add(kinds[v]); beside.get(kinds[v]).add(kinds[u]); }
  const ends = all.filter(kind => beside.get(kind).size === 1), many = kind => kinds.filter(it => it === kind).length;
  if (ends.length !== 2 || all.some(kind => beside.get(kind).has(kind) || beside.get(kind).size > 2)) return null;
  const order = [ends.sort((a, b) => many(a) - many(b))[0]];
  for (let next = order[0]; next !== undefined;) {
    next = [...beside.get(next)].find(kind => !order.includes(kind));
    if (next !== undefined) order.push(next);
  }
  if (order.length !== all.length) return null;
  const points = [], wide = graph.names.length;
  order.forEach((kind, y) => {
    const own = graph.names.map((_, u) => u).filter(u => kinds[u] === kind).sort((u, v) => graph.names[u].localeCompare(graph.names[v], "en", { numeric: true }));
    own.forEach((u, i) => { points[u] = { x: (i + 0.5) / own.length * wide, y: y * wide / order.length }; });
  });
  return points;
}

// Turns the points so that their long side lies across and the first node is at the upper left; where no side is the long
// one the first node is at 45 degrees.
export function turned(points) {
  const n = points.length, mx = points.reduce((sum, p) => sum + p.x, 0) / n, my = points.reduce((sum, p) => sum + p.y, 0) / n;
  const middled = points.map(p => ({ x: p.x - mx, y: p.y - my }));
  let xx = 0, xy = 0, yy = 0;
  for (const p of middled) { xx += p.x * p.x; xy += p.x * p.y; yy += p.y * p.y; }
  const round = Math.hypot(xx - yy, 2 * xy) < 0.1 * (xx + yy);
  const angle = round ? Math.atan2(middled[0].y, middled[0].x) + Math.PI * 3 / 4 : Math.atan2(2 * xy, xx - yy) / 2;
  const c = Math.cos(angle), s = Math.sin(angle);
  const flat = middled.map(p => ({ x: c * p.x + s * p.y, y: c * p.y - s * p.x }));
  const flipX = flat[0].x > 0 ? -1 : 1, flipY = flat[0].y > 0 ? -1 : 1;
  return flat.map(p => ({ x: flipX * p.x, y: flipY * p.y }));
}

// Puts the points into a sheet, as large as the sheet allows; one direction may be stretched by a third, on a narrow sheet
// to the triple.
export function fitted(points, sheet, margin) {
  const xs = points.map(p => p.x), ys = points.map(p => p.y);
  const left = Math.min(...xs), top = Math.min(...ys);
  const wide = Math.max(Math.max(...xs) - left, 1e-3), high = Math.max(Math.max(...ys) - top, 1e-3);
  const perX = (sheet.width - 2 * margin.x) / wide, perY = (sheet.height - 2 * margin.y) / high;
  const most = Math.min(perX, perY) * (sheet.width < 700 ? 3 : 1.33), scaleX = Math.min(perX, most, 320), scaleY = Math.min(perY, most, 320);
  return points.map(p => ({
    x: sheet.width / 2 + (p.x - left - wide / 2) * scaleX,
    y: sheet.height / 2 + (p.y - top - high / 2) * scaleY,
  }));
}

// Moves points apart that are nearer than `least`.
export function parted(points, least) {
  for (let round = 0; round < 40; round++) {
    let moved = false;
    for (let u = 0; u < points.length; u++) {
      for (let v = u + 1; v < points.length; v++) {
        const dx = points[v].x - points[u].x, dy = points[v].y - points[u].y, is = Math.hypot(dx, dy);
        if (is >= least) continue;
        const ux = is > 1e-6 ? dx / is : 1, uy = is > 1e-6 ? dy / is : 0, by = (least - is) / 2 + 0.5;
        points[u].x -= ux * by; points[u].y -= uy * by; points[v].x += ux * by; points[v].y += uy * by;
        moved = true;
      }
    }
    if (!moved) break;
  }
  return points;
}

export function overlap(a, b) {
  return a.x < b.x + b.w && b.x < a.x + a.w && a.y < b.y + b.h && b.y < a.y + a.h;
}

// Whether the line from p to q meets a box.
export function meets(p, q, box) {
  let from = 0, to = 1;
  for (const [start, way, low, high] of [[p.x, q.x - p.x, box.x, box.x + box.w], [p.y, q.y - p.y, box.y, box.y + box.h]]) {
    if (Math.abs(way) < 1e-9) {
      if (start < low || start > high) return false;
    } else {
      const a = (low - start) / way, b = (high - start) / way;
      from = Math.max(from, Math.min(a, b));
      to = Math.min(to, Math.max(a, b));
    }
  }
  return from <= to;
}

// Of boxes the first with the least cost: its own, and what it hides of what is there, lines less than boxes.
export function leastHidden(boxes, taken, lines, sheet, perLine = 1) {
  let best = null, least = Infinity;
  for (const box of boxes) {
    let cost = box.cost;
    if (box.x < 0 || box.y < 0 || box.x + box.w > sheet.width || box.y + box.h > sheet.height) cost += 200;
    for (const other of taken) if (overlap(box, other)) cost += 40;
    for (const [p, q] of lines) if (cost < least && meets(p, q, box)) cost += perLine;
    if (cost < least) { best = box; least = cost; }
  }
  return best;
}

// A name, cut where it is longer than there is room for.
export function shortName(name, most = 16) {
  return name.length > most ? name.slice(0, most - 1) + "\u2026" : name;
}

export const NODE = 7, TOKEN = 10, FONT = 14;

// Where each name is: beside its node, on the side where it hides least.
export function namePlaces(graph, points, lines, sheet, taken, room = TOKEN, perLine = 1) {
  return points.map((p, u) => {
    const w = shortName(graph.names[u]).length * FONT * 0.58 + 4, h = FONT + 3, boxes = [];
    for (const off of [room + 3, room + 15]) {
      for (const [x, y] of [[1, 0], [-1, 0], [0, -1], [0, 1], [0.7, -0.8], [-0.7, -0.8], [0.7, 0.8], [-0.7, 0.8]]) {
        boxes.push({ x: p.x + x * off + w * (Math.sign(x) - 1) / 2, y: p.y + y * (off + h / 2) - h / 2, w, h, cost: off > room + 3 ? 4 : 0 });
      }
    }
    const box = leastHidden(boxes, taken, lines, sheet, perLine);
    taken.push(box);
    return { x: box.x + w / 2, y: box.y + h - 4, angle: Math.atan2(box.y + h / 2 - p.y, box.x + w / 2 - p.x) };
  });
}

// Where each weight is: on its link, where it hides least.
export function weightPlaces(graph, points, lines, sheet, taken) {
  return graph.links.map(({ u, v, weight }, i) => {
    const w = String(weight).length * 6.4 + 4, h = 13, others = lines.filter((_, j) => j !== i);
    const boxes = [0.5, 0.42, 0.58, 0.35, 0.65, 0.28, 0.72].map(t => ({
      x: points[u].x + t * (points[v].x - points[u].x) - w / 2, y: points[u].y + t * (points[v].y - points[u].y) - h / 2, w, h, cost: 0,
    }));
    const box = leastHidden(boxes, taken, others, sheet);
    taken.push(box);
    return { x: box.x + w / 2, y: box.y + h - 3 };
  });
}

// The whole drawing: { sheet, points, names, weights, taken, lines }; no names or weights where there are too many to be read.
// The nodes stand at the points that are given, each with so much `room` round it, and some `above` it.
export function arranged(graph, sheet, points, { room = points.length > 64 ? TOKEN : 20, above = 0, perLine = 1 } = {}) {
  const lines = graph.links.map(({ u, v }) => [points[u], points[v]]), half = above > 0 ? room : NODE + 1;
  const taken = points.map(p => ({ x: p.x - half, y: p.y - half - above, w: 2 * half, h: 2 * half + above }));
  const names = points.length > 300 ? null : namePlaces(graph, points, lines, sheet, taken, room, perLine);
  const weights = graph.links.length > 400 ? null : weightPlaces(graph, points, lines, sheet, taken);
  return { sheet, points, names, weights, taken, lines };
}

// The sheet without what is empty above and below the points, which move with it.
export function cropped(sheet, points, margin) {
  const ys = points.map(p => p.y), top = ys.reduce((a, b) => Math.min(a, b)), height = ys.reduce((a, b) => Math.max(a, b)) - top + 2 * margin;
  const least = Math.max(height, 0.36 * sheet.width), by = margin - top + (least - height) / 2;
  for (const p of points) p.y += by;
  return { width: sheet.width, height: least };
}

// The same with the nodes at the places that are given, as far as the sheet allows, else at places that are found here.
export function placed(graph, hops, width, given, around = {}) {
  const n = graph.names.length, grow = Math.min(3, Math.max(1, Math.sqrt(n / 40)));
  const sheet = { width: width * grow, height: width * grow * (width < 700 ? 0.95 : 0.62) };
  const longest = graph.names.reduce((most, name) => Math.max(most, shortName(name).length), 0);
  const margin = { x: 24 + longest * 5, y: 40 + (around.above || 0) / 2 };
  const points = n === 1 ? [{ x: sheet.width / 2, y: sheet.height / 2 }]
    : parted(fitted(given || gridOf(graph) || layersOf(graph) || turned(leastStress(hops())), sheet, margin), n > 300 ? 11 : 26);
  return arranged(graph, cropped(sheet, points, margin.y), points, around);
}

// Where texts of some nodes stand: beside their nodes, where they hide least. A text is { node, said }.
export function textPlaces({ sheet, points, taken, lines }, all) {
  const now = [...taken];
  return all.map(({ node, said }) => {
    const w = said.length * 6.9 + 4, h = 15, p = points[node], boxes = [];
    for (const off of [TOKEN + 4, TOKEN + 18, TOKEN + 34]) {
      for (const [x, y] of [[0, -1], [0, 1], [1, 0], [-1, 0], [0.7, -0.8], [-0.7, -0.8], [0.7, 0.8], [-0.7, 0.8]]) {
        boxes.push({ x: p.x + x * off + w * (Math.sign(x) - 1) / 2, y: p.y + y * (off + h / 2) - h / 2, w, h, cost: (off - TOKEN) / 5 });
      }
    }
    const box = leastHidden(boxes, now, lines, sheet);
    now.push(box);
    return { x: box.x + w / 2, y: box.y + h - 4 };
  });
}
