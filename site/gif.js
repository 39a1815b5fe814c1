// Moving pictures as a file: a GIF of frames of colours. Nothing here draws.

const MOST_COLOURS_OF_GIF = 255;

// A colour without its lowest bits, by which like colours count as one.
function coarse(pixels, at) {
  return (pixels[at] >> 3) << 10 | (pixels[at + 1] >> 3) << 5 | pixels[at + 2] >> 3;
}

// The colours that most pixels of these frames have, as bytes.
export function paletteOf(frames) {
  const counts = new Map();
  for (const { pixels } of frames) {
    for (let at = 0; at < pixels.length; at += 4) {
      const key = coarse(pixels, at), seen = counts.get(key);
      if (seen) seen.count += 1;
      else counts.set(key, { count: 1, colour: [pixels[at], pixels[at + 1], pixels[at + 2]] });
    }
  }
  return [...counts.values()].sort((a, b) => b.count - a.count).slice(0, MOST_COLOURS_OF_GIF).map(({ colour }) => colour);
}

// For each pixel the number of the nearest colour.
export function indexed(pixels, palette, known) {
  const numbers = new Uint8Array(pixels.length / 4);
  for (let at = 0; at < pixels.length; at += 4) {
    const key = coarse(pixels, at);
    let found = known.get(key);
    if (found === undefined) {
      let least = Infinity;
      palette.forEach(([r, g, b], i) => {
        const far = (r - pixels[at]) ** 2 + (g - pixels[at + 1]) ** 2 + (b - pixels[at + 2]) ** 2;
        if (far < least) { least = far; found = i; }
      });
      known.set(key, found);
    }
    numbers[at / 4] = found;
  }
  return numbers;
}

// The part of a frame that differs from the one before: { x, y, w, h }; a single pixel where none does.
export function changedPart(before, now, width) {
  let left = width, right = -1, top = -1, bottom = -1;
  for (let at = 0; at < now.length; at++) {
    if (before && before[at] === now[at]) continue;
    const x = at % width, y = (at - x) / width;
    if (top < 0) top = y;
    bottom = y;
    if (x < left) left = x;
    if (x > right) right = x;
  }
  return top < 0 ? { x: 0, y: 0, w: 1, h: 1 } : { x: left, y: top, w: right - left + 1, h: bottom - top + 1 };
}

// Bytes, in which numbers of so many bits are packed from the lowest on.
class Packed {
  constructor() {
    this.bytes = [];
    this.held = 0;
    this.count = 0;
  }

  put(number, bits) {
    this.held |= number << this.count;
    for (this.count += bits; this.count >= 8; this.count -= 8) {
      this.bytes.push(this.held & 255);
      this.held >>>= 8;
    }
  }

  end() {
    if (this.count > 0) this.bytes.push(this.held & 255);
    return this.bytes;
  }
}

// The numbers of colours as LZW packs them, of 8 bits each.
export function packed(numbers) {
  const CLEAR = 256, END = 257, out = new Packed();
  let codes = new Map(), next = 258, bits = 9, prefix = numbers[0];
  out.put(CLEAR, bits);
  for (let i = 1; i < numbers.length; i++) {
    const key = prefix << 8 | numbers[i], code = codes.get(key);
    if (code !== undefined) {
      prefix = code;
      continue;
    }
    out.put(prefix, bits);
    prefix = numbers[i];
    if (next === 4096) {
      out.put(CLEAR, bits);
      codes = new Map();
      next = 258;
      bits = 9;
    } else {
      if (next === 1 << bits) bits += 1;
      codes.set(key, next++);
    }
  }
  out.put(prefix, bits);
  out.put(END, bits);
  return out.end();
}

function short(number) {
  return [number & 255, number >> 8];
}

// A GIF of frames { pixels, delay }: red, green, blue and a fourth byte for each pixel, and hundredths of a second.
export function gifOf(frames, width, height) {
  const palette = paletteOf(frames.filter((_, i) => i % 4 === 0)), known = new Map(), table = new Uint8Array(768);
  palette.forEach((colour, i) => table.set(colour, 3 * i));
  const parts = [[71, 73, 70, 56, 57, 97, ...short(width), ...short(height), 0xf7, 0, 0, ...table], [0x21, 0xff, 11, ...[..."NETSCAPE2.0"].map(it => it.charCodeAt(0)), 3, 1, 0, 0, 0]];
  let before = null;
  for (const { pixels, delay } of frames) {
    const now = indexed(pixels, palette, known), { x, y, w, h } = changedPart(before, now, width), part = new Uint8Array(w * h);
    for (let row = 0; row < h; row++) part.set(now.subarray((y + row) * width + x, (y + row) * width + x + w), row * w);
    parts.push([0x21, 0xf9, 4, 4, ...short(delay), 0, 0, 0x2c, ...short(x), ...short(y), ...short(w), ...short(h), 0, 8]);
    const bytes = packed(part);
    for (let at = 0; at < bytes.length; at += 255) parts.push([Math.min(255, bytes.length - at), ...bytes.slice(at, at + 255)]);
    parts.push([0]);
    before = now;
  }
  parts.push([0x3b]);
  const whole = new Uint8Array(parts.reduce((sum, part) => sum + part.length, 0));
  parts.reduce((at, part) => { whole.set(part, at); return at + part.length; }, 0);
  return whole;
}
