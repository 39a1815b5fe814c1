// film.js PAGE.html OUT.gif [WIDTH]: the explainer of the page as a moving picture, from its third step on; docs/tour.gif is
// one of a width of 560. It wants chromium.
import fs from "node:fs";
import path from "node:path";
import { pathToFileURL } from "node:url";
import { Browser } from "./test/browser.js";

const [file, out, width = "640"] = process.argv.slice(2), page = await Browser.open(pathToFileURL(path.resolve(file)).href, 860, 900);
try {
  await page.until("document.documentElement.dataset.ready === 'yes'");
  const text = await page.value(`lab.filmOfTour(${Number(width)}, 2).then(film => film.arrayBuffer()).then(buffer => [...new Uint8Array(buffer)].map(byte => String.fromCharCode(byte)).join("")).then(btoa)`);
  fs.writeFileSync(out, Buffer.from(text, "base64"));
} finally {
  await page.close();
}
