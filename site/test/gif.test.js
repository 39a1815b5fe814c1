import assert from "node:assert/strict";
import test from "node:test";
import { changedPart, gifOf, indexed, packed, paletteOf } from "../gif.js";

// The numbers that LZW of 8 bits packed, read as a viewer reads them.
function unpacked(bytes) {
  const out = [];
  let table = [], bits = 9, at = 0, before = null;
  const clear = () => {
    table = Array.from({ length: 258 }, (_, i) => [i]);
    bits = 9;
    before = null;
  };
  clear();
  for (;;) {
    let code = 0;
    for (let i = 0; i < bits; i++, at++) code |= (bytes[at >> 3] >> (at & 7) & 1) << i;
    if (code === 257) return out;
    if (code === 256) {
      clear();
      continue;
    }
    const entry = code < table.length ? table[code] : [...before, before[0]];
    out.push(...entry);
    if (before !== null && table.length < 4096) table.push([...before, entry[0]]);
    if (table.length === 1 << bits && bits < 12) bits += 1;
    before = entry;
  }
}

test("what is packed is unpacked again", () => {
  let s = 1;
  for (const length of [1, 2, 300, 70000]) {
    const numbers = Uint8Array.from({ length }, () => { s = s * 48271 % 2147483647; return s % (length > 1000 ? 200 : 4); });
    assert.deepEqual(unpacked(packed(numbers)), [...numbers]);
  }
});

test("like colours are one, and the nearest is taken", () => {
  const pixels = Uint8Array.from([255, 255, 255, 255, 254, 254, 254, 255, 0, 0, 0, 255]), palette = paletteOf([{ pixels }]);
  assert.equal(palette.length, 2);
  assert.deepEqual([...indexed(pixels, palette, new Map())], [0, 0, 1]);
});

test("a frame has what changed", () => {
  const before = Uint8Array.from([0, 0, 0, 0, 0, 0]), now = Uint8Array.from([0, 0, 0, 0, 1, 1]);
  assert.deepEqual(changedPart(before, now, 3), { x: 1, y: 1, w: 2, h: 1 });
  assert.deepEqual(changedPart(null, now, 3), { x: 0, y: 0, w: 3, h: 2 });
  assert.deepEqual(changedPart(now, now, 3), { x: 0, y: 0, w: 1, h: 1 });
});

test("a GIF has its size and its frames", () => {
  const frame = red => ({ pixels: Uint8Array.from(Array.from({ length: 12 }, () => [red, 0, 0, 255]).flat()), delay: 10 });
  const bytes = gifOf([frame(0), frame(200)], 4, 3), text = String.fromCharCode(...bytes.slice(0, 6));
  assert.deepEqual([text, bytes[6], bytes[8], bytes.at(-1)], ["GIF89a", 4, 3, 0x3b]);
});
