// The table of a module for 64-bit addresses gets 32-bit places, and calls through it still find their functions.
import assert from "node:assert/strict";
import { spawnSync } from "node:child_process";
import fs from "node:fs";
import os from "node:os";
import path from "node:path";
import test from "node:test";
import { fileURLToPath } from "node:url";

const program = fileURLToPath(new URL("../lower_table.py", import.meta.url));
const section = (kind, ...bytes) => [kind, bytes.length, ...bytes];
const func = (...bytes) => [bytes.length + 2, 0, ...bytes, 0x0b];
const I64 = 0x7e;

// Two functions in a table from place 1 on, and run(place, value), which calls through the table.
function module(operations) {
  return Uint8Array.from([
    0, 0x61, 0x73, 0x6d, 1, 0, 0, 0,
    ...section(1, 2, 0x60, 1, I64, 1, I64, 0x60, 2, I64, I64, 1, I64),
    ...section(3, 3, 0, 0, 1),
    ...section(4, 1, 0x70, 5, 3, 3),
    ...section(7, 1, 3, 0x72, 0x75, 0x6e, 0, 2),
    ...section(9, 1, 0, 0x42, 1, 0x0b, 2, 0, 1),
    ...section(10, 3, ...func(0x20, 0, 0x42, 1, 0x7c), ...func(0x20, 0, 0x42, 2, 0x7e), ...func(...operations)),
    ...section(0, 4, 0x6e, 0x61, 0x6d, 0x65),
  ]);
}

function lowered(bytes) {
  const folder = fs.mkdtempSync(path.join(os.tmpdir(), "table-")), [given, made] = ["given.wasm", "made.wasm"].map(name => path.join(folder, name));
  fs.writeFileSync(given, bytes);
  const ran = spawnSync("python3", [program, given, made], { encoding: "utf8" }), out = ran.status === 0 ? fs.readFileSync(made) : null;
  fs.rmSync(folder, { recursive: true });
  return { out, faults: ran.stderr };
}

const call = [0x20, 1, 0x20, 0, 0x11, 0, 0x80, 0x80, 0x80, 0x80, 0]; // the table's number in five bytes
const run = bytes => new WebAssembly.Instance(new WebAssembly.Module(bytes)).exports.run;

test("indirect calls find their functions", () => {
  const it = run(lowered(module(call)).out);
  assert.deepEqual([it(1n, 20n), it(2n, 20n)], [21n, 40n]);
  assert.throws(() => it(0n, 20n), WebAssembly.RuntimeError);
});

test("a byte inside another operation is no indirect call", () => {
  const constants = [0x44, 0x11, 0, 0, 0, 0, 0, 0, 0x11, 0x1a, 0x43, 0x11, 0x11, 0x11, 0x11, 0x1a, 0x42, 0x91, 0x11, 0x1a, 0x41, 0x11, 0x1a];
  const branches = [0x02, 0x40, 0x02, 0x40, 0x41, 0, 0x0e, 1, 0, 1, 0x0b, 0x0b];
  const it = run(lowered(module([...constants, ...branches, ...call])).out);
  assert.deepEqual([it(1n, 20n), it(2n, 20n)], [21n, 40n]);
});

test("an unknown operation is named", () => {
  assert.match(lowered(module([0xfd, 0, ...call])).faults, /operation 0xfd is unknown/);
});
