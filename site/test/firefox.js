// A Firefox without a window, driven by WebDriver BiDi: the same calls as of a Chromium, as far as tests of the page want them.
import { spawn } from "node:child_process";
import fs from "node:fs";
import os from "node:os";
import path from "node:path";
import { Browser, MOST } from "./browser.js";

const SCHEMES = { dark: 0, light: 1 }; // as a preference of Firefox has them
const KEYS = { Enter: "\ue007", Home: "\ue011", End: "\ue010", ArrowLeft: "\ue012", ArrowUp: "\ue013", ArrowRight: "\ue014", ArrowDown: "\ue015", Tab: "\ue004" };

// A value as BiDi writes it.
function plain({ type, value }) {
  if (type === "array") return value.map(plain);
  if (type === "object") return Object.fromEntries(value.map(([name, it]) => [name, plain(it)]));
  return type === "null" || type === "undefined" ? null : value;
}

export class Firefox extends Browser {
  static async open(url, width = 1400, height = 1000, scheme = "") {
    const it = new Firefox();
    it.profile = fs.mkdtempSync(path.join(os.tmpdir(), "lab-"));
    it.faults = [];
    it.url = url;
    if (scheme) fs.writeFileSync(path.join(it.profile, "user.js"), `user_pref("layout.css.prefers-color-scheme.content-override", ${SCHEMES[scheme]});\n`);
    it.process = spawn(process.env.FIREFOX || "firefox-esr", ["--headless", "--no-remote", "--remote-debugging-port=0", "--profile", it.profile, "about:blank"], { stdio: ["ignore", "ignore", "pipe"] });
    const port = await new Promise((found, lost) => {
      let said = "";
      it.process.stderr.on("data", data => { said += data; const match = said.match(/ws:\/\/127\.0\.0\.1:(\d+)/); if (match) found(match[1]); });
      it.process.on("exit", () => lost(new Error("the browser ended: " + said.slice(-300))));
      setTimeout(() => lost(new Error("the browser did not start")), MOST * 1000).unref();
    });
    await it.join(new URL(`ws://127.0.0.1:${port}/session`));
    await it.send("session.new", { capabilities: {} });
    await it.send("session.subscribe", { events: ["log.entryAdded", "network.beforeRequestSent"] });
    it.context = (await it.send("browsingContext.getTree", {})).contexts[0].context;
    await it.size(width, height);
    await it.send("browsingContext.navigate", { context: it.context, url, wait: "complete" });
    return it;
  }

  told(message) {
    if (message.method === "log.entryAdded" && message.params.level === "error") this.faults.push(message.params.text);
    else if (message.method === "network.beforeRequestSent" && !/^(file|data|blob|about|resource|chrome):/.test(message.params.request.url)) this.faults.push("a request: " + message.params.request.url);
    else if (message.id) super.told(message.type === "error" ? { id: message.id, error: { message: `${message.error}: ${message.message}` } } : message);
  }

  async value(expression) {
    const { type, result, exceptionDetails } = await this.send("script.evaluate", { expression, target: { context: this.context }, awaitPromise: true, resultOwnership: "none", userActivation: true });
    if (type === "exception") throw new Error(exceptionDetails.text);
    return plain(result);
  }

  async clickAt(x, y) {
    const at = { x: Math.round(x), y: Math.round(y) };
    await this.pointer({ type: "pointerMove", ...at }, { type: "pointerDown", button: 0 }, { type: "pointerUp", button: 0 });
  }

  async pointer(...actions) {
    await this.send("input.performActions", { context: this.context, actions: [{ type: "pointer", id: "mouse", actions }] });
  }

  async drag(x, y, ...steps) {
    const to = (dx, dy) => ({ type: "pointerMove", x: Math.round(x + dx), y: Math.round(y + dy), duration: 0 });
    await this.pointer(to(0, 0), { type: "pointerDown", button: 0 }, ...steps.map(([dx, dy]) => to(dx, dy)), { type: "pointerUp", button: 0 });
  }

  async moveTo(x, y) {
    await this.pointer({ type: "pointerMove", x: Math.round(x), y: Math.round(y), duration: 0 });
  }

  async wheel(x, y, deltaY) {
    await this.send("input.performActions", { context: this.context, actions: [{ type: "wheel", id: "wheel", actions: [{ type: "scroll", x: Math.round(x), y: Math.round(y), deltaX: 0, deltaY }] }] });
  }

  async size(width, height) {
    await this.send("browsingContext.setViewport", { context: this.context, viewport: { width, height } });
  }

  async inScheme(scheme) {
    if (!scheme) return this;
    const other = await Firefox.open(this.url, 1280, 900, scheme);
    await other.until("document.documentElement.dataset.ready === 'yes'");
    return other;
  }

  async key(key) {
    const value = KEYS[key] || key;
    await this.send("input.performActions", { context: this.context, actions: [{ type: "key", id: "keys", actions: [{ type: "keyDown", value }, { type: "keyUp", value }] }] });
  }

  async type(selector, text) {
    await this.click(selector);
    await this.value(`document.querySelector(${JSON.stringify(selector)}).select(); document.execCommand("insertText", false, ${JSON.stringify(text)}); 0`);
  }

  async close() {
    this.process.removeAllListeners("exit");
    const ended = new Promise(done => this.process.on("exit", done));
    this.send("browser.close", {}).catch(() => {});
    await Promise.race([ended, new Promise(done => setTimeout(done, 10000))]);
    this.socket.destroy();
    this.process.kill("SIGKILL");
    this.clean();
  }
}
