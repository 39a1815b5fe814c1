// panning.js PAGE.html [NODES LINKS]: frames a second of the page while its drawing is panned and zoomed, in a Chromium without
// a window. The network has 1,000 nodes and 5,000 links by chance, of a fixed seed. CHROMIUM names the browser. What it prints
// depends on the machine and on what else runs there: each line has the processor time of the page's script beside it.
import fs from "node:fs";
import os from "node:os";
import path from "node:path";
import { pathToFileURL } from "node:url";
import { Browser, pause } from "../site/test/browser.js";

const SECONDS = 4;

// A connected network by chance: each node is linked to one before it, and then pairs are.
function network(nodes, links) {
  let seed = 7;
  const below = n => { seed = (seed * 1103515245 + 12345) % 2147483648; return Math.floor(seed / 2147483648 * n); };
  const pairs = new Set();
  for (let v = 1; v < nodes; v++) pairs.add(`n${below(v)} n${v}`);
  while (pairs.size < links) {
    const u = below(nodes), v = below(nodes);
    if (u !== v && !pairs.has(`n${v} n${u}`)) pairs.add(`n${u} n${v}`);
  }
  return [...pairs].join("\n") + "\n";
}

// Counts frames in the page until it is asked for them.
const COUNT = "globalThis.frames = []; globalThis.isCounting = true; (function count(at) { frames.push(at); if (isCounting) requestAnimationFrame(count); })(performance.now()); 0";

// The frames of so many seconds of an action, by their distances in milliseconds.
async function measured(page, name, act) {
  const spent = async () => (await page.send("Performance.getMetrics")).metrics.find(it => it.name === "TaskDuration").value;
  await page.value(COUNT);
  const begun = Date.now(), before = await spent();
  let count = 0;
  for (; Date.now() - begun < SECONDS * 1000; count++) await act(count);
  const frames = await page.value("isCounting = false, frames"), task = (await spent()) - before;
  const gaps = frames.slice(2).map((at, i) => at - frames[i + 1]).sort((a, b) => a - b), all = gaps.reduce((sum, gap) => sum + gap, 0);
  const ninth = gaps[Math.floor(gaps.length * 0.95)];
  console.log(`${name}: ${(1000 * gaps.length / all).toFixed(1)} frames a second, 95 of 100 within ${ninth.toFixed(1)} ms, ${count} moves, ${(1000 * task / gaps.length).toFixed(1)} ms of the page's thread a frame`);
}

async function main() {
  const [file, nodes = "1000", links = "5000"] = process.argv.slice(2), topology = network(Number(nodes), Number(links));
  const url = pathToFileURL(path.resolve(file)).href;
  const page = await Browser.open(url + "#" + new URLSearchParams({ format: "adjlist", kind: "shortest", topology }));
  await page.until("document.documentElement.dataset.ready === 'yes'");
  await page.until("lab.isSettled()");
  await page.send("Performance.enable", { timeDomain: "threadTicks" });
  console.log(`${nodes} nodes, ${links} links, ${os.cpus().length} processors, load ${os.loadavg()[0].toFixed(1)}, ${fs.readFileSync("/proc/cpuinfo", "utf8").match(/model name\s*: (.*)/)?.[1] ?? ""}`);
  await page.value("document.getElementById('drawing').scrollIntoView({ block: 'center' })");
  const [x, y] = await page.value("(() => { const box = document.getElementById('drawing').parentNode.getBoundingClientRect(); return [box.left + box.width / 2, box.top + box.height / 2]; })()");
  const mouse = (type, at, further) => page.send("Input.dispatchMouseEvent", { type, x: at[0], y: at[1], ...further });
  await measured(page, "at rest", () => pause(50));
  for (let i = 0; i < 3; i++) await page.click("#larger");
  // A drag begins on the sheet, at a place without a node.
  const from = await page.value(`(() => { for (let d = 0; d < 200; d += 3) { const at = document.elementFromPoint(${x} + d, ${y}); if (at && !at.closest("g.node")) return [${x} + d, ${y}]; } return [${x}, ${y}]; })()`);
  await mouse("mousePressed", from, { button: "left", clickCount: 1 });
  await measured(page, "a drag", i => mouse("mouseMoved", [from[0] + 150 * Math.sin(i / 20), from[1] + 100 * Math.cos(i / 20)], { button: "left", buttons: 1 }));
  await mouse("mouseReleased", from, { button: "left", clickCount: 1 });
  await measured(page, "a wheel", async i => { await mouse("mouseWheel", from, { deltaX: 0, deltaY: i % 8 < 4 ? -120 : 120 }); await pause(30); });
  await page.close();
}

await main();
