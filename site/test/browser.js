// A Chromium without a window, driven by its DevTools port: real clicks and keys, in real time. No package is wanted.
import { spawn } from "node:child_process";
import crypto from "node:crypto";
import fs from "node:fs";
import net from "node:net";
import os from "node:os";
import path from "node:path";

export const pause = time => new Promise(done => setTimeout(done, time));

// How many seconds is waited for what has to come: generous, as the machine may be busy.
export const MOST = Number(process.env.LAB_SECONDS || 180);

// What a call answers, made again until it answers something, or has not for too long.
export async function answered(call, what) {
  let why = "";
  for (const end = Date.now() + MOST * 1000; Date.now() < end; await pause(100)) {
    try {
      const found = await call();
      if (found) return found;
    } catch (error) {
      why = String(error.message);
    }
  }
  throw new Error(`${what} did not come: ${why}`);
}

// A frame of a WebSocket from a client.
function framed(text) {
  const body = Buffer.from(text), mask = crypto.randomBytes(4);
  const head = body.length < 126 ? Buffer.from([0x81, 0x80 | body.length])
    : body.length < 65536 ? Buffer.from([0x81, 0xfe, body.length >> 8, body.length & 255])
      : Buffer.concat([Buffer.from([0x81, 0xff, 0, 0, 0, 0]), Buffer.from(new Uint32Array([body.length]).buffer).reverse()]);
  return Buffer.concat([head, mask, Buffer.from(body.map((byte, i) => byte ^ mask[i & 3]))]);
}

// The length of the frame at the front, and where its body begins; null where it is not there yet.
function frameAt(buffer) {
  if (buffer.length < 2) return null;
  const short = buffer[1] & 127, start = short === 126 ? 4 : short === 127 ? 10 : 2;
  if (buffer.length < start) return null;
  const size = short === 126 ? buffer.readUInt16BE(2) : short === 127 ? Number(buffer.readBigUInt64BE(2)) : short;
  return buffer.length < start + size ? null : { start, size, isLast: Boolean(buffer[0] & 128), kind: buffer[0] & 15 };
}

export class Browser {
  static async open(url, width = 1400, height = 1000, flags = []) {
    const it = new Browser();
    it.profile = fs.mkdtempSync(path.join(os.tmpdir(), "lab-"));
    it.faults = [];
    const wanted = ["--headless=new", "--no-sandbox", "--disable-gpu", "--disable-dev-shm-usage", "--hide-scrollbars", "--no-first-run", "--remote-debugging-port=0",
      `--window-size=${width},${height}`, "--user-data-dir=" + it.profile];
    it.process = spawn(process.env.CHROMIUM || "chromium", [...wanted, ...flags, url], { stdio: ["ignore", "ignore", "pipe"] });
    const port = await new Promise((found, lost) => {
      let said = "";
      it.process.stderr.on("data", data => { said += data; const match = said.match(/ws:\/\/127\.0\.0\.1:(\d+)/); if (match) found(match[1]); });
      it.process.on("exit", () => lost(new Error("the browser ended: " + said.slice(-300))));
      setTimeout(() => lost(new Error("the browser did not start")), MOST * 1000).unref();
    });
    await it.connect(port);
    await it.size(width, height);
    return it;
  }

  async connect(port) {
    const target = await answered(async () => (await (await fetch(`http://127.0.0.1:${port}/json`)).json()).find(it => it.type === "page"), "the page");
    await this.join(new URL(target.webSocketDebuggerUrl));
    await this.send("Runtime.enable");
    await this.send("Log.enable");
    await this.send("Network.enable");
  }

  // A WebSocket to the browser.
  async join(url) {
    this.socket = net.connect(url.port, url.hostname);
    this.socket.on("error", () => {});
    this.socket.on("close", () => this.waiting.forEach(({ lost }) => lost(new Error("the browser is gone"))));
    this.waiting = new Map();
    this.next = 1;
    this.socket.write(`GET ${url.pathname} HTTP/1.1\r\nHost: ${url.host}\r\nUpgrade: websocket\r\nConnection: Upgrade\r\n`
      + `Sec-WebSocket-Key: ${crypto.randomBytes(16).toString("base64")}\r\nSec-WebSocket-Version: 13\r\n\r\n`);
    await new Promise(up => this.listen(up));
  }

  listen(up) {
    let buffer = Buffer.alloc(0), parts = [], isUp = false;
    this.socket.on("data", data => {
      buffer = Buffer.concat([buffer, data]);
      if (!isUp) {
        const end = buffer.indexOf("\r\n\r\n");
        if (end < 0) return;
        buffer = buffer.subarray(end + 4);
        isUp = true;
        up();
      }
      for (let frame = frameAt(buffer); frame; frame = frameAt(buffer)) {
        const body = buffer.subarray(frame.start, frame.start + frame.size);
        buffer = buffer.subarray(frame.start + frame.size);
        if (frame.kind > 2) continue;
        parts.push(body);
        if (!frame.isLast) continue;
        this.told(JSON.parse(Buffer.concat(parts).toString()));
        parts = [];
      }
    });
  }

  told({ id, method, params, result, error }) {
    if (id) {
      const { done, lost } = this.waiting.get(id);
      this.waiting.delete(id);
      if (error) lost(new Error(error.message));
      else done(result);
    } else if (method === "Runtime.exceptionThrown") {
      this.faults.push(params.exceptionDetails.exception ? params.exceptionDetails.exception.description : params.exceptionDetails.text);
    } else if (method === "Log.entryAdded" && params.entry.level === "error") this.faults.push(params.entry.text);
    else if (method === "Network.requestWillBeSent" && !/^(file|data|blob):/.test(params.request.url)) this.faults.push("a request: " + params.request.url);
  }

  send(method, params = {}) {
    const id = this.next++;
    return new Promise((done, lost) => {
      this.waiting.set(id, { done, lost });
      this.socket.write(framed(JSON.stringify({ id, method, params })));
    });
  }

  // What an expression of the page comes to.
  async value(expression) {
    const { result, exceptionDetails } = await this.send("Runtime.evaluate", { expression, awaitPromise: true, returnByValue: true });
    if (exceptionDetails) throw new Error(exceptionDetails.exception ? exceptionDetails.exception.description : exceptionDetails.text);
    return result.value;
  }

  // Waits until an expression holds, which in a page that is still being loaded may fail.
  async until(expression) {
    await answered(() => this.value(expression), expression);
    return true;
  }

  // A click at a point of an element, in parts of its width and height.
  async click(selector, x = 0.5, y = 0.5) {
    const found = JSON.stringify(selector);
    const at = await this.value(`(() => { const it = document.querySelector(${found}); it.scrollIntoView({ block: "center" }); const box = it.getBoundingClientRect(); return [box.left + box.width * ${x}, box.top + box.height * ${y}]; })()`);
    await this.clickAt(...at);
  }

  async clickAt(x, y) {
    const mouse = { x, y, button: "left", clickCount: 1 };
    await this.send("Input.dispatchMouseEvent", { type: "mouseMoved", x, y });
    await this.send("Input.dispatchMouseEvent", { type: "mousePressed", ...mouse });
    await this.send("Input.dispatchMouseEvent", { type: "mouseReleased", ...mouse });
  }

  // The left button down at a point, moved by so much in steps, and up.
  async drag(x, y, ...steps) {
    await this.send("Input.dispatchMouseEvent", { type: "mousePressed", x, y, button: "left", clickCount: 1 });
    for (const [dx, dy] of steps) await this.send("Input.dispatchMouseEvent", { type: "mouseMoved", x: x + dx, y: y + dy, button: "left", buttons: 1 });
    const [dx, dy] = steps.at(-1);
    await this.send("Input.dispatchMouseEvent", { type: "mouseReleased", x: x + dx, y: y + dy, button: "left", clickCount: 1 });
  }

  async wheel(x, y, deltaY) {
    await this.send("Input.dispatchMouseEvent", { type: "mouseWheel", x, y, deltaX: 0, deltaY });
  }

  async size(width, height) {
    await this.send("Emulation.setDeviceMetricsOverride", { width, height, deviceScaleFactor: 1, mobile: false });
  }

  // A page in the light or in the dark: this one, or another that has to be closed.
  async inScheme(scheme) {
    await this.send("Emulation.setEmulatedMedia", { features: scheme ? [{ name: "prefers-color-scheme", value: scheme }] : [] });
    return this;
  }

  async moveTo(x, y) {
    await this.send("Input.dispatchMouseEvent", { type: "mouseMoved", x, y });
  }

  async key(key, code = key, modifiers = 0) {
    const text = key.length === 1 ? key : key === "Enter" ? "\r" : undefined;
    const number = { Enter: 13, Tab: 9, " ": 32, ArrowLeft: 37, ArrowUp: 38, ArrowRight: 39, ArrowDown: 40, Home: 36, End: 35 }[key] || key.toUpperCase().charCodeAt(0);
    await this.send("Input.dispatchKeyEvent", { type: "keyDown", key, code, text, modifiers, windowsVirtualKeyCode: number });
    await this.send("Input.dispatchKeyEvent", { type: "keyUp", key, code, modifiers, windowsVirtualKeyCode: number });
  }

  // Text in place of all that an element has, typed.
  async type(selector, text) {
    await this.click(selector);
    await this.value(`document.querySelector(${JSON.stringify(selector)}).select()`);
    await this.send("Input.insertText", { text });
  }

  async picture(file) {
    const { data } = await this.send("Page.captureScreenshot", { format: "png" });
    fs.writeFileSync(file, Buffer.from(data, "base64"));
  }

  async close() {
    this.process.removeAllListeners("exit");
    const ended = new Promise(done => this.process.on("exit", done));
    if (this.process.exitCode === null) {
      this.send("Browser.close").catch(() => {});
      await Promise.race([ended, pause(10000)]);
    }
    this.socket.destroy();
    this.process.kill("SIGKILL");
    this.clean();
  }

  // Takes the profile away.
  clean() {
    try {
      fs.rmSync(this.profile, { recursive: true, force: true, maxRetries: 20, retryDelay: 200 });
    } catch (error) {
      console.error(`${this.profile} is left there: ${error.message}`);
    }
  }
}
