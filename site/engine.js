// The engine: run(words, texts) answers { status, output, faults } as the program `route` would, over texts in memory.

export const FAULT_ROOM = 1 << 16, FIRST_ROOM = 1 << 20;

export class Engine {
  static async of(bytes) {
    return new Engine(await WebAssembly.compile(bytes));
  }

  constructor(module) {
    this.module = module;
    this.most = 0;
    this.start();
  }

  start() {
    this.exports = new WebAssembly.Instance(this.module, {}).exports;
    this.outputRoom = FIRST_ROOM;
    this.exports.keep_below(BigInt(this.most));
  }

  // The most bytes of memory that the engine may take; 0 where it may take all that there is.
  keepBelow(most) {
    this.most = most;
    this.start();
  }

  room(size) {
    const at = this.exports.room(BigInt(Math.max(size, 1)));
    if (at === 0n) throw new RangeError("no room");
    this.held.push(at);
    return at;
  }

  put(bytes) {
    const at = this.room(bytes.length);
    new Uint8Array(this.exports.memory.buffer, Number(at), bytes.length).set(bytes);
    return [at, BigInt(bytes.length)];
  }

  get(at, size) {
    return new Uint8Array(this.exports.memory.buffer, Number(at), size).slice();
  }

  // One call, and with a larger room another where the output was longer than the room.
  called(inputs) {
    const told = this.room(FAULT_ROOM), lengths = this.room(16), given = inputs.flatMap(bytes => this.put(bytes));
    for (;;) {
      const room = this.outputRoom, at = this.room(room);
      const status = this.exports.bentzolu_run(...given, at, BigInt(room), told, BigInt(FAULT_ROOM), lengths);
      const view = new DataView(this.exports.memory.buffer, Number(lengths), 16);
      const [output, faults] = [0, 8].map(place => Number(view.getBigUint64(place, true)));
      if (output <= room) return { status, output: this.get(at, output), faults: this.get(told, Math.min(faults, FAULT_ROOM)) };
      this.exports.let_go(this.held.pop());
      this.outputRoom = output + (output >> 1);
    }
  }

  // The words of the command line, and the texts of up to three inputs, each a string or bytes. After a trap, and where
  // memory was refused, the engine begins anew, so that the next run has all of it.
  run(words, ...texts) {
    const code = new TextEncoder();
    const inputs = [words.map(word => word + "\n").join(""), ...[0, 1, 2].map(i => texts[i] || "")]
      .map(text => typeof text === "string" ? code.encode(text) : text);
    this.held = [];
    try {
      const answer = this.called(inputs);
      if (answer.status === 3) this.start();
      else this.held.forEach(at => this.exports.let_go(at));
      return answer;
    } catch (error) {
      this.start();
      if (!(error instanceof RangeError)) throw error;
      return { status: 3, output: new Uint8Array(), faults: code.encode("out of memory\n") };
    }
  }
}
