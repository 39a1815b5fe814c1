import assert from "node:assert/strict";
import test from "node:test";
import { givenPlaces, hashOf } from "../address.js";
import { readTopology } from "../reading.js";
import { exampleNow } from "./now.js";

const example = { topology: "a b\nb c\n", format: "adjlist", kind: "tree", root: "b", script: "inject a c\ndrain\n" };

test("an example that is not edited is a short address", () => {
  assert.equal(hashOf(exampleNow(example), [example]), "#example=1");
  assert.equal(hashOf({ ...exampleNow(example), step: 3, time: 3, last: 4, tab: "run" }, [example]), "#example=1&tab=run&step=3");
  assert.equal(hashOf({ ...exampleNow(example), kind: "shortest" }, [example]), "#example=1&kind=shortest");
});

test("what is edited is in the address", () => {
  const topology = "a b\nb c\nc d\n", { graph } = readTopology(topology, "adjlist");
  const given = new URLSearchParams(hashOf({ ...exampleNow(example), topology, graph, to: 3 }, [example]).slice(1));
  assert.deepEqual([given.get("topology"), given.get("format"), given.get("kind"), given.get("root"), given.get("script")], [topology, "adjlist", "tree", "b", example.script]);
});

test("a script that the page gave is not in the address", () => {
  assert.equal(hashOf({ ...exampleNow({ ...example, script: "" }), script: "inject a c\n", scriptBy: "page" }, [{ ...example, script: "" }]), "#example=1");
});

test("places go into the address and come back", () => {
  const manual = { sheet: { width: 1000, height: 500.4 }, places: new Map([["a", { x: 1.2, y: 2 }], ["b", { x: 30, y: 40.6 }], ["c", { x: 5, y: 6 }]]) };
  const given = new URLSearchParams(hashOf({ ...exampleNow(example), manual }, [example]).slice(1)), { manual: back } = givenPlaces(given, ["a", "b", "c"]);
  assert.deepEqual([back.sheet, back.places.get("b")], [{ width: 1000, height: 500 }, { x: 30, y: 41 }]);
  assert.equal(givenPlaces(given, ["a", "b"]).manual, null);
});

test("places that are given stay with a network that was edited", () => {
  const now = { ...exampleNow(example), origin: -1, places: "a 1.234 2\nb 3 4\nc 5 6\n" };
  const given = new URLSearchParams(hashOf(now, []).slice(1));
  assert.equal(givenPlaces(given, ["a", "b", "c"]).places, "a 1.23 2\nb 3 4\nc 5 6\n");
});
