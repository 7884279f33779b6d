'use strict';

const PART_UNITS = 1 << 15;
const MOST_PART_UNITS = 1 << 28;

// Closes the snapshots that were collected before they were closed.
const collected = new FinalizationRegistry((close) => close());

class Snapshot {
  #read;
  #close;
  #left;
  #isOver = false;

  /** `read` reads the given number of units, and `close` closes the snapshot, if it is open. */
  constructor(read, close, length) {
    this.#read = read;
    this.#close = close;
    this.#left = length;
    collected.register(this, close, this);
  }

  read(most = MOST_PART_UNITS) {
    if (typeof most !== 'number') throw new TypeError('most is a number');
    const part = this.#read(Math.min(most, Math.max(this.#left, 2)));
    this.#left -= part.length;
    return part;
  }

  close() {
    collected.unregister(this);
    this.#close();
  }

  next() {
    const value = this.#isOver ? '' : this.read(PART_UNITS);
    return value === '' ? this.return() : { done: false, value };
  }

  return() {
    this.#isOver = true;
    this.close();
    return { done: true, value: undefined };
  }

  [Symbol.iterator]() {
    return this;
  }
}

module.exports = { Snapshot };
