// One store of all that the page shows. It is changed by `set` alone; who listens hears of the names that changed.

export class Store {
  #now;
  #listeners = [];

  constructor(initial) {
    this.#now = Object.freeze({ ...initial });
  }

  // All values as they are now. What is read here stays as it is; a later `set` makes a new one.
  get now() {
    return this.#now;
  }

  // Changes values, and calls those that listen to one of them, each once.
  set(changes) {
    const changed = Object.keys(changes).filter(name => this.#now[name] !== changes[name]);
    const unknown = Object.keys(changes).find(name => !Object.hasOwn(this.#now, name));
    if (unknown !== undefined) throw new RangeError(`the store has no ${unknown}`);
    if (changed.length === 0) return;
    this.#now = Object.freeze({ ...this.#now, ...changes });
    for (const { names, call } of this.#listeners) if (changed.some(name => names.has(name))) call(this.#now, changed);
  }

  // Calls `call(now, changed)` after each change of one of these names.
  on(names, call) {
    const listener = { names: new Set(names), call };
    this.#listeners.push(listener);
    return () => { this.#listeners = this.#listeners.filter(other => other !== listener); };
  }
}
