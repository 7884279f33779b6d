'use strict';
// Random edits beside a plain string. SEED chooses them.

const assert = require('node:assert/strict');
const { test } = require('node:test');
const { Document, Session, TextDocument } = require('..');
const { below, cutsPair, randomOf, randomText, refused } = require('./helpers.js');
const { Plain } = require('./plain.js');

const SEED = Number(process.env.SEED ?? 7);
const EDITS = 5000;
const MOST_UNITS = 300;

function randomSpan(random, length) {
  const [one, other] = [below(random, length), below(random, length)];
  const end = Math.max(one, other);
  return [Math.max(Math.min(one, other), end - below(random, 20)), end];
}

/** The text after some changes. */
function changed(text, changes) {
  return changes.reduce((now, { start, end, text: put }) => now.slice(0, start) + put + now.slice(end), text);
}

/** Compares the lines, and the position of each place. */
function compare(document, text) {
  assert.equal(document.value, text);
  assert.equal(document.length, text.length);
  const lines = text.split(/\r\n|\r|\n/);
  assert.equal(document.lineCount, lines.length);
  lines.forEach((line, at) => assert.equal(document.line(at), line));
  const plain = new Plain(text);
  for (let offset = 0; offset <= text.length; offset++) {
    if (cutsPair(text, offset) || text.slice(offset - 1, offset + 1) === '\r\n') continue;
    assert.deepEqual(document.positionAt(offset), plain.positionAt(offset));
    assert.equal(document.offsetAt(plain.positionAt(offset)), offset);
  }
}

test(`edits, undo and redo beside a string, seed ${SEED}`, () => {
  const random = randomOf(SEED);
  const document = new Document();
  const [before, behind] = [[], []];
  let text = '';
  for (let count = 0; count < EDITS; count++) {
    const old = text;
    const choice = random();
    document.stop();
    if (choice < 0.15) {
      assert.equal(document.undo(), before.length > 0);
      if (before.length > 0) behind.push(text), (text = before.pop());
    } else if (choice < 0.25) {
      assert.equal(document.redo(), behind.length > 0);
      if (behind.length > 0) before.push(text), (text = behind.pop());
    } else {
      const [start, end] = randomSpan(random, text.length);
      const put = randomText(random, text.length > MOST_UNITS ? 2 : 12);
      if (cutsPair(text, start) || cutsPair(text, end)) {
        refused(() => document.edit(start, end, put), 'RANGE');
      } else {
        document.edit(start, end, put);
        before.push(text);
        behind.length = 0;
        text = text.slice(0, start) + put + text.slice(end);
      }
    }
    assert.equal(document.value, text);
    if (text !== old) assert.equal(changed(old, document.changes()), text);
    if (count % 100 === 0) compare(document, text);
  }
  compare(document, text);
});

test(`updates of a text document beside a plain one, seed ${SEED}`, () => {
  const random = randomOf(SEED);
  const document = TextDocument.create('file:///a', 'plaintext', 0, '');
  const plain = new Plain('');
  for (let count = 0; count < EDITS; count++) {
    const near = () => ({ line: below(random, plain.lineCount + 1) - 1, character: below(random, 25) - 1 });
    const range = { start: near(), end: near() };
    const put = randomText(random, plain.text.length > MOST_UNITS ? 2 : 12);
    plain.replace(range, put);
    plain.parse();
    TextDocument.update(document, [{ range, text: put }], count);
    assert.equal(document.getText(), plain.text);
    assert.equal(document.lineCount, plain.lineCount);
    const [asked, offset] = [{ start: near(), end: near() }, below(random, plain.text.length + 5) - 2];
    assert.equal(document.getText(asked), plain.getText(asked));
    assert.deepEqual(document.positionAt(offset), plain.positionAt(offset));
    assert.equal(document.offsetAt(asked.start), plain.offsetAt(asked.start));
  }
});

test(`joint edits of all documents beside strings, seed ${SEED}`, () => {
  const random = randomOf(SEED);
  const session = new Session();
  const texts = new Array(64).fill('');
  for (let count = 0; count < 500; count++) {
    const numbers = texts.map((_, number) => number).filter(() => random() < 0.1);
    const edits = numbers.map((document) => {
      const [start, end] = randomSpan(random, texts[document].length);
      return { document, start, end, text: `${count},` };
    });
    if (edits.length === 0) continue;
    session.joint(edits);
    const old = [...texts];
    for (const { document, start, end, text } of edits) texts[document] = changed(texts[document], [{ start, end, text }]);
    if (edits.length > 1 && random() < 0.3) {
      session.document(numbers[0]).undo();
      for (const number of numbers) assert.equal(session.document(number).value, old[number]);
      session.document(numbers[1]).redo();
    }
    for (const number of numbers) assert.equal(session.document(number).value, texts[number]);
  }
  texts.forEach((text, number) => compare(session.document(number), text));
});

/** Where a text stands between two places, from left to right. */
function spansOf(text, sought) {
  const found = [];
  for (let start = text.indexOf(sought), end; start >= 0; start = text.indexOf(sought, end)) {
    end = start + sought.length;
    if (cutsPair(text, start) || cutsPair(text, end)) end = start + 1;
    else found.push({ start, end });
  }
  return found;
}

test(`searches beside those of a string, seed ${SEED}`, () => {
  const random = randomOf(SEED);
  const document = new Document();
  for (let count = 0; count < 1000; count++) {
    const text = randomText(random, 60);
    const sought = randomText(random, 2) || 'a';
    const [from, most] = [below(random, text.length + 2), below(random, 3)];
    const spans = spansOf(text, sought);
    const told = (some) => (most === 0 ? some : some.slice(0, most));
    document.open(text);
    assert.deepEqual(document.find({ text: sought }), spans);
    assert.deepEqual(document.find({ text: sought, from, most }), told(spans.filter(({ start }) => start >= from)));
    assert.deepEqual(document.find({ text: sought, from, back: true, most }), told(spans.filter(({ end }) => end <= from).reverse()));
    assert.equal(document.replaceAll(sought, '<>'), spans.length);
    assert.equal(document.value, changed(text, [...spans].reverse().map((it) => ({ ...it, text: '<>' }))));
  }
});
