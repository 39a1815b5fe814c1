// lab.js PAGE.html [PART]: the page in a Chromium without a window, or in the Firefox that FIREFOX names, by real clicks and keys. Told is what differs, and how much agrees.
import path from "node:path";
import { pathToFileURL } from "node:url";
import { Browser } from "./browser.js";
import { contrasts } from "./contrast.js";
import { Firefox } from "./firefox.js";

const Kind = process.env.FIREFOX ? Firefox : Browser;
const counts = [0, 0];

function same(name, is, wanted) {
  const fits = JSON.stringify(is) === JSON.stringify(wanted);
  if (!fits) console.log(`FAILED ${name}: ${JSON.stringify(is)} in place of ${JSON.stringify(wanted)}`);
  counts[fits ? 0 : 1] += 1;
}

const shown = (page, selector) => page.value(`[...document.querySelectorAll(${JSON.stringify(selector)})].map(it => it.textContent)`);
const textOf = (page, id) => page.value(`document.getElementById(${JSON.stringify(id)}).textContent`);
const node = name => `g.node[aria-label="node ${name}"] .spot`;

// Waits until the page shows what was asked of it.
async function settled(page) {
  await page.until("lab.isSettled()");
}

async function ready(page) {
  same("the page is ready", await page.until("document.documentElement.dataset.ready === 'yes'"), true);
  await settled(page);
}

// Chooses the example of a place, by keys.
async function example(page, place) {
  await page.value("document.getElementById('example').focus()");
  await page.key("Home");
  for (let i = 0; i <= place; i++) await page.key("ArrowDown");
  await settled(page);
}

// The explainer: one sentence and Play, five steps, and the same without epochs.
async function tryTour(page, url) {
  const tour = await Kind.open(url, 390, 844), caption = () => textOf(tour, "tour-caption"), at = () => tour.value("lab.store.now.beat");
  await ready(tour);
  same("the first screen is a drawing with Play", await tour.value("[document.getElementById('tour').hidden, document.getElementById('lab').hidden, document.querySelectorAll('#tour-drawing .link').length]"), [false, true, 21]);
  same("one sentence", (await caption()).split(". ").length, 1);
  same("Play is seen without scrolling on a phone", await tour.value("document.getElementById('tour-play').getBoundingClientRect().bottom <= innerHeight"), true);
  same("nothing is wider than a phone", await tour.value("document.documentElement.scrollWidth <= innerWidth"), true);
  await tour.click("#tour-play");
  same("it plays", await tour.until("lab.store.now.beat > 1"), true);
  await tour.click("#tour-play");
  const stopped = await at();
  same("it pauses", [await at() === stopped, await textOf(tour, "tour-play")], [true, "Play"]);
  const said = await tour.value("(() => { const said = []; for (let beat = 0; beat < 40; beat++) { lab.store.set({ beat }); said.push(document.getElementById('tour-caption').textContent); } return said.join(' '); })()");
  for (const what of ["A label is a node's address", "An interval is a range of labels", "That is what intervals are for", "A numbering with its intervals is an epoch", "That is what epochs are for"]) same("it says: " + what, said.includes(what), true);
  await tour.click("#tour-step-2");
  await tour.click("#tour-next");
  same("a packet is followed label by label", await caption(), "At Boulder, 10 is in [6,0), so on to Lincoln.");
  await tour.value("document.activeElement.blur()");
  await tour.key("ArrowRight");
  same("by a key", await caption(), "At Lincoln, 10 is in [7,0), so on to Champaign.");
  await tour.click("#tour-step-3");
  same("both numberings are there", await tour.until("document.querySelectorAll('#tour-drawing .badge').length === 14"), true);
  await tour.click("#tour-step-4");
  same("the mixture is marked", await tour.value("document.getElementById('tour-mixed').hidden"), false);
  await tour.value("lab.store.set({ beat: 1e9 })");
  same("it loops", /for ever/.test(await caption()), true);
  await tour.click("#tour-mix");
  await tour.value("lab.store.set({ beat: 1e9 })");
  same("with epochs it arrives", await caption(), "With epochs it arrives at Ithaca.");
  await tour.click("#view-lab");
  await tour.until("!document.getElementById('lab').hidden");
  await settled(tour);
  same("editors are under the own network", await tour.value("document.getElementById('tour').hidden"), true);
  same("no fault in the explainer", tour.faults, []);
  await tour.close();
}

async function tryPlan(page) {
  same("the first example", (await textOf(page, "told")).split(",")[0], "tree plan of 14 nodes and 21 links: 26 intervals");
  await page.type("#topology", "home desk tv phone\ndesk printer\n");
  await page.until("lab.store.now.topology.startsWith('home')");
  await settled(page);
  same("an own network behind an example", (await textOf(page, "told")).split(",")[0], "shortest plan of 5 nodes and 4 links: 8 intervals");
  same("what belonged to the example is gone", await page.value("[lab.store.now.root, /Princeton/.test(lab.store.now.script), /Princeton/.test(document.getElementById('script').value)]"), ["", false, false]);
  await example(page, 1);
  same("a plan", await textOf(page, "plan"), "plan shortest 6 10\na 0 1 b 4 c\nb 1 2 d 3 e 4 a\nc 4 0 a 5 f\nd 2 3 b\ne 3 4 b\nf 5 0 c\n");
  await page.click("#tab-plan");
  await page.value("document.getElementById('node').focus()");
  await page.key("ArrowDown");
  same("the row of a node", await textOf(page, "row"), "b 1: [2,3) d  [3,4) e  [4,2) a");
  same("its arcs", await page.value("document.querySelectorAll('#circle .arc').length"), 3);
  same("a table beside the circle", await shown(page, "#ports td:nth-child(2)"), ["a", "d", "e"]);
  await page.value("document.getElementById('circle').scrollIntoView({ block: 'center' })");
  const lit = "document.querySelectorAll('#drawing .lit-link').length", [x, y] = await page.value("(() => { const arc = document.querySelector('#circle .arc'), at = arc.getPointAtLength(arc.getTotalLength() / 2).matrixTransform(arc.getScreenCTM()); return [at.x, at.y]; })()");
  await page.moveTo(x, y);
  same("a pointer on an arc lights its link", await page.until(lit + " > 0"), true);
  await page.value("document.getElementById('kind').focus()");
  await page.key("ArrowDown");
  await settled(page);
  same("another kind", (await textOf(page, "plan")).split("\n")[0], "plan tree 6 10");
}

async function tryWalk(page) {
  await page.click(node("d"));
  await page.click(node("f"));
  await settled(page);
  same("a walk between two nodes that are clicked", await shown(page, "#walk td:first-child"), ["d", "b", "a", "c", "f"]);
  same("the intervals that they find", await shown(page, "#walk td:nth-child(3)"), ["[3,3)", "[4,2)", "[4,1)", "[5,0)", ""]);
  await page.click("#tab-walk");
  await page.key("ArrowRight");
  await page.key("ArrowRight");
  same("the figures, by arrows", await page.value("document.getElementById('panel-figures').hidden"), false);
  await settled(page);
  same("a figure", (await shown(page, "#figures td"))[1], "10; full tables have 30 entries");
  const withLandmarks = await page.value("lab.store.now.takesLandmarks") ? ["landmark-150", "landmark-200", "landmark-300"] : [];
  same("all kinds beside each other", await shown(page, "#compared td:first-child"), ["shortest", "shortest", "compact", "compact", "tree", ...withLandmarks, "full tables"]);
  await page.click("#compared tr:nth-child(4) button");
  await settled(page);
  same("a click chooses the row", await page.value("[lab.store.now.kind, lab.store.now.numbering, document.querySelectorAll('#compared tr.chosen').length]"), ["compact", "tour", 1]);
}

async function tryFaults(page) {
  await page.click("#tab-network");
  await page.type("#topology", "a b\nb \u00e9\n");
  await settled(page);
  same("a fault is at its line", [await shown(page, ".gutter .marked"), await shown(page, "#topology-told button")], [["2"], ["line 2"]]);
  same("it is a sentence", (await shown(page, "#topology-told .fault"))[0].length > 12, true);
  await page.type("#topology", "a b\nc d\n");
  await settled(page);
  same("a network in two parts", /parts|no path|Disconnected/.test(await textOf(page, "told")), true);
  await page.type("#topology", "<b> a\n<b> c\n");
  await settled(page);
  same("names are texts", [await page.value("document.querySelectorAll('td b, svg b, option b').length"), (await shown(page, "#node option"))[0]], [0, "<b>"]);
}

// What is pasted is read as what it is, whatever was there before.
async function tryPasting(page) {
  const told = () => textOf(page, "told").then(text => text.split(",")[0]), format = () => page.value("document.querySelector('input[name=format]:checked').value");
  await example(page, 0);
  await page.click("#tab-network");
  await page.click("input[name=format][value=adjlist]");
  await settled(page);
  await page.type("#topology", "#/home/u/lab.py\n# GMT Tue Jul 14 08:12:31 2026\n#\n0 1 4 5\n1 2\n2 3\n3 4\n");
  await settled(page);
  same("an adjacency list that NetworkX wrote", [await told(), await format()], ["shortest plan of 6 nodes and 6 links: 12 intervals", "adjlist"]);
  same("nothing of the example is left", await page.value("[lab.store.now.root, /Princeton/.test(lab.store.now.script)]"), ["", false]);
  await page.type("#topology", "# three\na b 4\nb c 2\nc a 1\n");
  await settled(page);
  same("a weighted edge list after it", [await format(), await page.value("lab.store.now.graph.names.length")], ["edgelist", 3]);
  await page.click("input[name=format][value=adjlist]");
  await settled(page);
  same("a hint is a button", await shown(page, "#told button"), ["Read it as a weighted edge list"]);
  await page.click("#told button");
  await settled(page);
  same("the button reads it so", [await format(), await page.value("lab.store.now.graph.names.length")], ["edgelist", 3]);
  await page.type("#topology", "a b 4\nb c x\nc a 0\na a\nc d 1\n");
  await settled(page);
  await page.until("document.querySelectorAll('#topology-told li').length > 1");
  await settled(page);
  same("each line with a fault is said", await shown(page, "#topology-told button"), ["line 2", "line 3", "line 4"]);
  same("the last drawing stays, in grey", await page.value("[document.querySelectorAll('#drawing g.node').length, document.querySelector('.drawing').classList.contains('stale')]"), [3, true]);
  await page.value("lab.store.set({ root: 'z' })");
  await page.type("#topology", "a b 4\nb c 3\nc a 2\nc d 1\n");
  await settled(page);
  same("a root that is not there is the first node", [await told(), await page.value("document.getElementById('root').value")], ["shortest plan of 4 nodes and 4 links: 8 intervals", ""]);
}

async function tryDrawing(page) {
  await page.type("#topology", "a b\nb c\n");
  await settled(page);
  await page.click("input[value=draw]");
  await page.click("#drawing", 0.9, 0.1);
  await settled(page);
  same("a node is drawn", (await page.value("lab.store.now.topology")).split("\n").length, 4);
  await page.click(node("a"));
  await settled(page);
  same("a new node waits for its link", (await page.value("lab.store.now.topology")).includes("\nd a\n"), true);
  await page.click(node("a"));
  await page.click(node("c"));
  await settled(page);
  same("a link is drawn", (await page.value("lab.store.now.topology")).includes("\na c\n"), true);
  await page.click("input[value=erase]");
  await page.click(node("b"));
  await settled(page);
  same("a node is erased", /\bb\b/.test(await page.value("lab.store.now.topology")), false);
}

// Clicks the middle of a link.
async function clickLink(page, a, b) {
  const at = await page.value(`(() => { document.getElementById("drawing").scrollIntoView({ block: "center" }); const { names } = lab.store.now.graph, { points } = lab.store.now.drawing, svg = document.getElementById("drawing");
    const p = points[names.indexOf("${a}")], q = points[names.indexOf("${b}")], at = new DOMPoint((p.x + q.x) / 2, (p.y + q.y) / 2).matrixTransform(svg.getScreenCTM()); return [at.x, at.y]; })()`);
  await page.clickAt(...at);
}

// Clicks a button until the playback is at a step.
async function goTo(page, step) {
  await page.value("lab.store.now.step > 0 && document.getElementById('first').click()");
  for (let i = 0; i < step; i++) await page.value("document.getElementById('forward').click()");
}

async function tryRelabelling(page) {
  await example(page, 2);
  await goTo(page, 3);
  await page.click("input[value=break]");
  await clickLink(page, "n3", "n4");
  await settled(page);
  const script = () => page.value("document.getElementById('script').value.trim().split('\\n')");
  same("a link breaks at the step of the playback", await script(), ["inject n2 n6", "take n2 inbox", "act n2", "inject n2 n6", "down n3 n4", "install shortest n0", "learn 2", "drain"]);
  await page.click("#last");
  await page.click("#send");
  await settled(page);
  same("packets of two epochs", await shown(page, "#packets td:nth-child(3)"), ["1", "1", "2"]);
  await page.click("#first");
  same("at the first step", await shown(page, "#packets td:last-child"), ["not yet", "not yet", "not yet"]);
  await page.value("document.activeElement.blur()");
  await page.key("ArrowRight");
  same("a step by a key", await page.value("lab.store.now.step"), 1);
  await page.value("document.getElementById('speed').value = '8'");
  await page.click("#play");
  same("the playback comes to its end", await page.until("!lab.store.now.isPlaying && lab.store.now.step === lab.store.now.last"), true);
  same("the link is down", await page.value("document.querySelectorAll('#drawing .link.down').length"), 1);
  same("none is under way at the end", (await shown(page, "#packets td:last-child")).filter(it => /^at |not yet/.test(it)), []);
  await page.click("#tab-network");
  await page.type("#topology", "p q 1\nq r 1\nr s 1\ns p 1\n");
  await settled(page);
  await page.click("#tab-run");
  await page.click("#first");
  await page.click("#break");
  await settled(page);
  await page.click("#last");
  await settled(page);
  same("the first link broken: each epoch has its plan", await page.value("[lab.store.now.plans.length > 1, lab.store.now.plans.map(plan => plan.rows.length).filter(it => it !== 4)]"), [true, []]);
  await example(page, 3);
  same("a network without a script gets one", await page.value("lab.store.now.last > 4 && !document.getElementById('play').disabled"), true);
  await goTo(page, 1);
  same("a caption by packet", /^Packet 0: at \S+, \d+ is in \[\d+,\d+\) of epoch 1, so on to \S+\.$/.test((await shown(page, "#moment .caption-line"))[0]), true);
  await example(page, 2);
  await page.type("#script", "inject n0 n9\n");
  await settled(page);
  same("a fault of a script is at its line", [await shown(page, "#panel-run .gutter .marked"), await shown(page, "#script-told button")], [["1"], ["line 1"]]);
}

// A large network: it is drawn in layers, moved, zoomed, searched, and its plan is made once.
async function tryLarge(page) {
  await page.value("globalThis.asked = []; globalThis.sendAs = lab.desk.send.bind(lab.desk); lab.desk.send = message => { asked.push(JSON.stringify([message.words, message.texts])); return sendAs(message); }; 0");
  await example(page, 8);
  same("the engine is asked nothing twice", await page.value("new Set(asked).size === asked.length && asked.length > 1"), true);
  same("a fat tree is drawn in layers", await page.value("new Set(lab.store.now.drawing.points.map(p => Math.round(p.y))).size"), 3);
  await page.type("#find", "e3_4");
  await page.key("Enter");
  same("a node is found", await page.value("[lab.store.now.graph.names[lab.store.now.node], lab.store.now.sight !== null, document.querySelectorAll('#drawing .name').length > 0]"), ["e3_4", true, true]);
  const before = await page.value("lab.store.now.sight");
  await page.value("document.getElementById('drawing').scrollIntoView({ block: 'center' })");
  const [x, y] = await page.value("(() => { const box = document.getElementById('drawing').parentNode.getBoundingClientRect(); return [box.left + 20, box.top + 20]; })()");
  await page.drag(x, y, [20, 10], [60, 30], [100, 50]);
  same("a drag moves it", await page.until(`lab.store.now.sight.x < ${before.x}`), true);
  await page.wheel(x + 50, y + 50, 120);
  same("a wheel zooms", await page.until(`lab.store.now.sight === null || lab.store.now.sight.w > ${before.w}`), true);
  await page.click("#fit");
  same("all of it is seen again", await page.value("lab.store.now.sight"), null);
  await example(page, 6);
  same("a grid is drawn as a grid", await page.value("[new Set(lab.store.now.drawing.points.map(p => Math.round(p.x))).size, new Set(lab.store.now.drawing.points.map(p => Math.round(p.y))).size]"), [8, 8]);
}

async function tryMemory(page) {
  const grid = await page.value("lab.EXAMPLES.find(it => it.name.startsWith('a fat tree')).topology");
  await page.value("lab.desk.keepBelow(3 << 20)");
  await page.click("#tab-network");
  await page.type("#topology", grid);
  await settled(page);
  same("refused memory is told", /memory/.test(await textOf(page, "told")), true);
  await page.value("lab.desk.keepBelow(1 << 30)");
  await page.type("#topology", "a b\nb c\nc a\n");
  await settled(page);
  same("the next run works", (await textOf(page, "told")).split(",")[0], "shortest plan of 3 nodes and 3 links: 6 intervals");
}

// The kind landmark, where the engine takes it: its fields, the landmarks in squares, the nodes of a landmark in one tint.
async function tryLandmarks(page) {
  const takes = await page.value("lab.store.now.takesLandmarks"), kinds = ["shortest", "tree", "compact"];
  same("the kinds are those of the engine", await page.value("[...document.getElementById('kind').options].map(it => it.value)"), takes ? [...kinds, "landmark"] : kinds);
  same("no field of landmarks with another kind", await page.value("document.getElementById('landmark-fields').hidden"), true);
  if (!takes) return;
  await page.value("location.hash = 'example=1&kind=landmark&landmarks=3&stretch=150'");
  await page.until("lab.store.now.kind === 'landmark' && lab.store.now.landmarkNodes.length > 0");
  await settled(page);
  same("a plan by landmarks", /^landmark plan of 14 nodes and 21 links/.test(await textOf(page, "told")), true);
  same("the fields of landmarks", await page.value("[document.getElementById('landmark-fields').hidden, ...['landmarks', 'stretch'].map(id => document.getElementById(id).value), document.getElementById('numbering').disabled]"), [false, "3", "150", true]);
  same("landmarks are in squares, each node in a tint", await page.value("['rect.landmark', '.block'].map(name => document.querySelectorAll('#drawing ' + name).length)"), [3, 14]);
  same("they are named, the root first", (await textOf(page, "blocks-told")).startsWith("3 landmarks, in squares: Houston, "), true);
  await page.click("#tab-figures");
  await settled(page);
  same("figures have the bound", (await shown(page, "#figures td")).includes("150 percent of the distance"), true);
  same("the comparison has rows of landmarks", (await shown(page, "#compared td:first-child")).filter(name => name.startsWith("landmark-")), ["landmark-150", "landmark-200", "landmark-300"]);
  await page.value("document.getElementById('stretch').value = '90'; document.getElementById('stretch').dispatchEvent(new Event('change')); 0");
  await settled(page);
  same("a stretch beyond the bounds is the usual one", await page.value("[document.getElementById('stretch').value, lab.store.now.stretch]"), ["300", "300"]);
  await example(page, 1);
  same("another example has its own kind", await page.value("[lab.store.now.kind, document.getElementById('blocks-told').hidden]"), ["shortest", true]);
}

// The address is the state: an edit is a step of history, and a reload shows what was there.
async function tryHistory(page) {
  await page.click("#tab-network");
  await example(page, 1);
  await page.click("#last");
  await settled(page);
  same("an example is a short address", await page.value("location.hash"), "#example=2&step=" + await page.value("lab.store.now.last"));
  await page.click("#tab-network");
  await page.type("#topology", "x y\ny z\nz x\n");
  await settled(page);
  await page.value("document.getElementById('kind').focus()");
  await page.key("ArrowDown");
  await settled(page);
  same("an edit is in the address", new URLSearchParams((await page.value("location.hash")).slice(1)).get("topology"), "x y\ny z\nz x\n");
  await page.click("#undo");
  await page.until("lab.store.now.kind === 'shortest'");
  await settled(page);
  await page.click("#undo");
  await page.until("lab.store.now.origin === 1");
  await settled(page);
  same("undo goes back to the example", await page.value("[document.getElementById('topology').value.slice(0, 5), document.getElementById('redo').disabled]"), ["a b c", false]);
  await page.click("#redo");
  await page.until("lab.store.now.topology.startsWith('x y')");
  await settled(page);
  same("redo brings the network back", [(await textOf(page, "told")).split(",")[0], await page.value("lab.store.now.kind")], ["shortest plan of 3 nodes and 3 links: 6 intervals", "shortest"]);
  await page.value("globalThis.isBefore = true; location.reload()");
  await page.until("!globalThis.isBefore && document.readyState === 'complete' && document.documentElement.dataset.ready === 'yes'");
  await settled(page);
  same("a reload keeps the network", await page.value("document.getElementById('topology').value"), "x y\ny z\nz x\n");
}

async function tryAddress(page, url) {
  await page.click("#tab-network");
  await page.type("#topology", "a b\nb c\nc a\n");
  await settled(page);
  await page.click("#link");
  const hash = await page.value("location.hash");
  same("the link has the network", new URLSearchParams(hash.slice(1)).get("topology"), "a b\nb c\nc a\n");
  same("the picture is a file of its own", /^<svg [^>]*xmlns=.*<style/s.test(await page.value("lab.pictureText()")), true);
  const other = await Kind.open(url + hash, 400, 900);
  await ready(other);
  same("the link opens it again", await textOf(other, "plan"), await textOf(page, "plan"));
  same("nothing is wider than a narrow screen", await other.value("document.documentElement.scrollWidth <= innerWidth"), true);
  same("no fault on a narrow screen", other.faults, []);
  await other.close();
}

// Shows what is after `#` in this page, in a window of this size.
async function visit(page, hash, width, height) {
  await page.size(width, height);
  await page.value(`location.hash = ${JSON.stringify(hash)}`);
  await page.until(hash.includes("tour") ? "!document.getElementById('tour').hidden" : "!document.getElementById('lab').hidden");
  await settled(page);
}

// Texts are seen well in the light and in the dark.
async function tryContrast(page) {
  for (const scheme of ["light", "dark"]) {
    const seen = await page.inScheme(scheme);
    same(`it is ${scheme}`, await seen.value("matchMedia('(prefers-color-scheme: dark)').matches"), scheme === "dark");
    for (const look of ["tour=1", "tour=4", "tour=5", ...["network", "plan", "walk", "run", "figures", "about"].map(tab => `example=1&tab=${tab}&step=9&packet=1`)]) {
      await visit(seen, look, 1280, 900);
      const { bad, measured } = await seen.value(`(${contrasts})()`);
      same(`contrast of ${look} in the ${scheme}`, [bad, measured > 20], [[], true]);
    }
    if (seen !== page) await seen.close();
  }
  await page.inScheme("");
}

// Nothing jumps while tools are chosen and the playback goes on, at the widths of desks, tablets and phones.
async function tryWidths(page) {
  for (const [width, height] of [[1280, 800], [768, 1024], [390, 844], [320, 640]]) {
    await visit(page, `example=1&step=${width % 2}`, width, height);
    const tops = new Set(), measure = async () => tops.add(await page.value("[document.getElementById('drawing'), document.getElementById('play')].map(it => Math.round(it.getBoundingClientRect().top + scrollY)).join(' ')"));
    for (const tool of ["look", "draw", "break", "erase", "look"]) {
      await page.value(`document.querySelector('input[value=${tool}]').click()`);
      await measure();
    }
    const rest = new Set(), below = async () => rest.add(await page.value("Math.round(document.getElementById('speed').getBoundingClientRect().top + scrollY)"));
    for (let step = 0; step < 12; step++) {
      await page.value("document.getElementById('forward').click()");
      await below();
    }
    same(`nothing jumps at ${width}`, [tops.size, rest.size, await page.value("document.documentElement.scrollWidth <= innerWidth")], [1, 1, true]);
    await visit(page, "tour=4", width, height);
    const scene = new Set();
    for (let beat = 0; beat < 12; beat++) {
      scene.add(await page.value("Math.round(document.getElementById('tour-play').getBoundingClientRect().top + scrollY)"));
      await page.value("document.getElementById('tour-next').click()");
    }
    same(`the explainer doesn't jump at ${width}`, [scene.size, await page.value("document.documentElement.scrollWidth <= innerWidth")], [1, true]);
  }
  await page.size(1400, 1000);
}

// The drawing is one stop of Tab, and arrows go on inside; pictures are files.
async function tryKeys(page) {
  await visit(page, "example=1", 1280, 900);
  same("one stop of the drawing", await page.value("document.querySelectorAll('#drawing [tabindex=\"0\"]').length"), 1);
  await page.value("document.querySelector('#drawing g.node').focus()");
  await page.key("ArrowDown");
  same("arrows go on inside", await page.value("[document.activeElement.getAttribute('aria-label'), lab.store.now.step, document.querySelectorAll('#drawing [tabindex=\"0\"]').length]"), ["node PaloAlto", 0, 1]);
  await page.key("Enter");
  await page.key("ArrowRight");
  await page.key("Enter");
  await settled(page);
  same("a walk by keys", await page.value("lab.store.now.walk.hops[0].node"), "PaloAlto");
  same("a picture is a PNG", await page.value("lab.SAVED['picture (PNG)'][1]().then(blob => blob.slice(1, 4).text())"), "PNG");
  await visit(page, "example=2", 1280, 900);
  same("the playback is a GIF", await page.value("lab.SAVED['playback (GIF)'][1]().then(blob => blob.slice(0, 6).text())"), "GIF89a");
}

const PARTS = [tryPlan, tryWalk, tryFaults, tryPasting, tryDrawing, tryRelabelling, tryLarge, tryLandmarks, tryMemory, tryHistory, tryAddress, tryKeys, tryWidths, tryContrast, tryTour];

async function main() {
  const url = pathToFileURL(path.resolve(process.argv[2])).href, page = await Kind.open(url + "#example=1"), only = process.argv[3];
  try {
    await ready(page);
    for (const part of PARTS.filter(it => !only || it.name.toLowerCase() === "try" + only)) await part(page, url);
    same("no script failed, and nothing was asked of another host", page.faults, []);
  } catch (error) {
    same("it went on", String(error.stack), "");
  }
  await page.close();
  console.log(`${counts[0]} passed, ${counts[1]} failed`);
  process.exitCode = counts[1] > 0 ? 1 : 0;
}

await main();
