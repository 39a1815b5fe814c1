// The engine in a thread of its own: each message is a call, or the module to begin with.
import { Engine } from "./engine.js";

let engine = null;
self.onmessage = async ({ data: { id, module, most, words, texts } }) => {
  try {
    if (module) engine = await Engine.of(module);
    if (most !== undefined) engine.keepBelow(most);
    const begun = performance.now();
    const answer = words ? engine.run(words, ...texts) : { status: 0, output: new Uint8Array(), faults: new Uint8Array() };
    self.postMessage({ id, ...answer, took: performance.now() - begun });
  } catch (error) {
    self.postMessage({ id, broken: String(error) });
  }
};
