// Where calls of the engine wait: a worker makes them one after another, and of calls of one topic the newest alone counts.
import { Engine } from "./engine.js";

// Memory that the engine may take in a page.
export const MOST_MEMORY = 1 << 30;

export function bytesOf(base64) {
  return Uint8Array.from(atob(base64.trim()), letter => letter.charCodeAt(0));
}

export class Desk {
  // Of the bytes of the module, and the source of the worker.
  constructor(module, source) {
    this.module = module;
    this.source = source;
    this.most = MOST_MEMORY;
    this.calls = new Map();
    this.waiting = new Map();
    this.next = 1;
    this.busy = 0;
    this.onBusy = () => {};
  }

  // Begins with a worker; without one, in the page itself.
  async begin() {
    try {
      this.worker = new Worker(URL.createObjectURL(new Blob([this.source], { type: "text/javascript" })));
      this.worker.onmessage = ({ data }) => this.answered(data);
      this.worker.onerror = event => { event.preventDefault(); this.alone(); };
      await this.send({ module: this.module, most: this.most });
    } catch (error) {
      await this.alone();
    }
  }

  // No worker: the calls are made in the page.
  async alone() {
    this.worker = null;
    if (!this.engine) {
      this.engine = await Engine.of(this.module);
      this.engine.keepBelow(this.most);
    }
    for (const { message, answer } of [...this.calls.values()]) {
      this.calls.delete(message.id);
      answer(this.here(message));
    }
    this.told();
  }

  here({ words, texts, most }) {
    if (most !== undefined) this.engine.keepBelow(most);
    const begun = performance.now();
    return words ? { ...this.engine.run(words, ...texts), took: performance.now() - begun } : { status: 0 };
  }

  send(message) {
    message.id = this.next++;
    return new Promise((answer, refuse) => {
      this.calls.set(message.id, { message, answer, refuse });
      this.told();
      if (this.worker) this.worker.postMessage(message);
      else if (this.engine) setTimeout(() => this.alone(), 0);
    });
  }

  answered({ id, broken, ...answer }) {
    const call = this.calls.get(id);
    if (!call) return;
    this.calls.delete(id);
    this.told();
    if (broken) call.refuse(new Error(broken));
    else call.answer(answer);
  }

  told() {
    this.onBusy(this.calls.size);
  }

  // Ends what the worker does, and begins anew; the calls that wait come to nothing.
  async stop() {
    const calls = [...this.calls.values()];
    this.calls.clear();
    if (this.worker) this.worker.terminate();
    for (const { refuse } of calls) refuse(new Error("stopped"));
    await this.begin();
  }

  keepBelow(most) {
    this.most = most;
    return this.send({ most });
  }

  // The answer to a call as texts; null where a newer call of the same topic was made since.
  async ask(topic, words, ...texts) {
    const turn = (this.waiting.get(topic) || 0) + 1, text = new TextDecoder();
    this.waiting.set(topic, turn);
    await null;
    if (this.waiting.get(topic) !== turn) return null;
    const { status, output, faults, took } = await this.send({ words, texts });
    if (this.waiting.get(topic) !== turn) return null;
    return { status, output: text.decode(output), faults: text.decode(faults), took };
  }
}
