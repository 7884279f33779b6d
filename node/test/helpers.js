'use strict';

const assert = require('node:assert/strict');
const { TextModelError } = require('..');

const SMILE = '\u{1F600}';

/** Fails unless a call throws an error of this code, with these fields and no others. */
function refused(call, code, fields = {}) {
  assert.throws(call, (error) => {
    assert.ok(error instanceof TextModelError && error instanceof Error, `${error}`);
    assert.equal(error.name, 'TextModelError');
    assert.deepEqual({ ...error }, { code, ...fields });
    return true;
  });
}

/** Numbers from 0 up to 1, the same ones for the same seed. */
function randomOf(seed) {
  let state = seed >>> 0;
  return () => {
    state = (state + 0x6d2b79f5) >>> 0;
    let mixed = Math.imul(state ^ (state >>> 15), state | 1);
    mixed ^= mixed + Math.imul(mixed ^ (mixed >>> 7), mixed | 61);
    return ((mixed ^ (mixed >>> 14)) >>> 0) / 2 ** 32;
  };
}

/** An integer from 0 up to `most`. */
function below(random, most) {
  return Math.floor(random() * (most + 1));
}

const PARTS = ['a', 'b', ' ', '(', ')', '\n', '\r', '\r\n', 'é', SMILE, '\ud83d', '\ude00'];

function randomText(random, most) {
  return Array.from({ length: below(random, most) }, () => PARTS[below(random, PARTS.length - 1)]).join('');
}

/** Whether an offset is inside a pair of surrogates. */
function cutsPair(text, offset) {
  return /[\ud800-\udbff]/.test(text[offset - 1] ?? '') && /[\udc00-\udfff]/.test(text[offset] ?? '');
}

module.exports = { SMILE, below, cutsPair, randomOf, randomText, refused };
