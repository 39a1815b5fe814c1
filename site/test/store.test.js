import assert from "node:assert/strict";
import test from "node:test";
import { Store } from "../store.js";

test("a listener hears once of a change of its names", () => {
  const store = new Store({ step: 0, time: 0, node: 1 }), heard = [];
  store.on(["step", "time"], (now, changed) => heard.push([now.step, changed]));
  store.set({ step: 2, time: 2 });
  store.set({ node: 3 });
  store.set({ step: 2 });
  assert.deepEqual(heard, [[2, ["step", "time"]]]);
});

test("what was read stays as it was", () => {
  const store = new Store({ step: 0 }), before = store.now;
  store.set({ step: 1 });
  assert.equal(before.step, 0);
  assert.throws(() => { store.now.step = 5; }, TypeError);
});

test("a name that the store has not is refused", () => {
  assert.throws(() => new Store({ step: 0 }).set({ stpe: 1 }), /no stpe/);
});

test("a listener that was taken away hears nothing", () => {
  const store = new Store({ step: 0 });
  let heard = 0;
  const stop = store.on(["step"], () => { heard += 1; });
  stop();
  store.set({ step: 1 });
  assert.equal(heard, 0);
});
