'use strict';
// The text document of language servers.

const assert = require('node:assert/strict');
const { test } = require('node:test');
const { Document, TextDocument } = require('..');
const { SMILE } = require('./helpers.js');

const place = (line, character) => ({ line, character });
const range = (line, character, endLine, endCharacter) => ({ start: place(line, character), end: place(endLine, endCharacter) });
const made = (text, languageId = 'plaintext') => TextDocument.create('file:///a', languageId, 0, text);

test('what it is made of', () => {
  const document = TextDocument.create('file:///a.rs', 'rust', 3, 'fn f() {}\n');
  assert.deepEqual([document.uri, document.languageId, document.version, document.lineCount], ['file:///a.rs', 'rust', 3, 2]);
  assert.equal(document.getText(), 'fn f() {}\n');
  assert.ok(document.model instanceof Document);
  document.close();
});

test('its lines end with LF, CR LF and CR', () => {
  const document = made('a\nb\r\nc\rd');
  assert.equal(document.lineCount, 4);
  assert.deepEqual([0, 1, 2, 3].map((line) => document.offsetAt(place(line, 0))), [0, 2, 5, 7]);
  assert.equal(made('').lineCount, 1);
  assert.equal(made('\r\r\n\n').lineCount, 4);
});

test('positions of offsets are clamped', () => {
  const document = made('ab\ncd');
  assert.deepEqual([-1, -Infinity, 0, 2, 3, 5].map((it) => document.positionAt(it)), [
    place(0, 0), place(0, 0), place(0, 0), place(0, 2), place(1, 0), place(1, 2),
  ]);
  for (const far of [6, 1e9, 2 ** 53, Infinity]) assert.deepEqual(document.positionAt(far), place(1, 2));
});

test('offsets of positions are clamped', () => {
  const document = made('ab\ncd\r\nef');
  const near = [place(0, -1), place(-1, 5), place(0, 2), place(0, 3), place(0, 99)];
  assert.deepEqual(near.map((it) => document.offsetAt(it)), [0, 0, 2, 2, 2]);
  assert.deepEqual([place(1, 1), place(1, 2), place(1, 3), place(1, 4)].map((it) => document.offsetAt(it)), [4, 5, 5, 5]);
  assert.deepEqual([place(2, 2), place(2, 3), place(3, 0), place(9, 9)].map((it) => document.offsetAt(it)), [9, 9, 9, 9]);
  for (const far of [0x7fffffff, 2 ** 53, Infinity]) {
    assert.deepEqual([document.offsetAt(place(0, far)), document.offsetAt(place(far, 0))], [2, 9]);
  }
});

test('a place between a CR and its LF is the end of the line', () => {
  const document = made('ab\r\nc');
  assert.deepEqual(document.positionAt(3), place(0, 2));
  assert.deepEqual(document.positionAt(4), place(1, 0));
  assert.equal(document.offsetAt(place(0, 3)), 2);
});

test('the text of a range', () => {
  const document = made('ab\ncd\nef');
  assert.equal(document.getText(range(0, 1, 1, 1)), 'b\nc');
  assert.equal(document.getText(range(1, 1, 0, 1)), 'b\nc');
  assert.equal(document.getText(range(0, 9, 9, 9)), '\ncd\nef');
  assert.equal(document.getText(range(-1, 0, 0, 1)), 'a');
  assert.equal(document.getText(range(1, 1, 1, 1)), '');
});

test('positions inside a pair of surrogates', () => {
  const document = made(`a${SMILE}b`);
  assert.deepEqual(document.positionAt(2), place(0, 2));
  assert.equal(document.offsetAt(place(0, 2)), 2);
  assert.equal(document.getText(range(0, 0, 0, 2)), `a${SMILE[0]}`);
  assert.equal(document.getText(range(0, 2, 0, 9)), `${SMILE[1]}b`);
  assert.equal(document.getText(range(0, 2, 0, 2)), '');
  TextDocument.update(document, [{ range: range(0, 2, 0, 3), text: '!' }], 1);
  assert.equal(document.getText(), `a${SMILE[0]}!b`);
  TextDocument.update(document, [{ range: range(0, 2, 0, 3), text: SMILE[1] }], 2);
  assert.equal(document.getText(), `a${SMILE}b`);
  TextDocument.update(document, [{ range: range(0, 2, 0, 2), text: '-' }], 3);
  assert.equal(document.getText(), `a${SMILE[0]}-${SMILE[1]}b`);
});

test('update makes the changes one after another', () => {
  const document = made('ab\ncd');
  const changes = [
    { range: range(0, 1, 1, 0), text: '' },
    { range: range(0, 1, 0, 1), rangeLength: 0, text: 'X\r\n' },
    { range: range(1, 9, 1, 0), text: 'z' },
  ];
  assert.equal(TextDocument.update(document, changes, 7), document);
  assert.deepEqual([document.getText(), document.version, document.lineCount], ['aX\r\nz', 7, 2]);
  TextDocument.update(document, [{ text: 'all' }], 8);
  assert.equal(document.getText(), 'all');
  TextDocument.update(document, [], 9);
  assert.equal(document.version, 9);
  document.model.undo();
  assert.equal(document.getText(), 'ab\ncd');
});

test('what cannot be updated', () => {
  const document = made('ab');
  assert.throws(() => TextDocument.update({}, [], 1), /created by TextDocument.create/);
  for (const change of [{}, { text: 5 }, { text: 'a', rangeLength: 5 }, undefined])
    assert.throws(() => TextDocument.update(document, [change], 1), /Unknown change event/);
  assert.deepEqual([document.getText(), document.version], ['ab', 0]);
});

test('applyEdits tells the text after edits', () => {
  const document = made('ab\ncd');
  const edits = [
    { range: range(1, 1, 1, 0), newText: 'X' }, { range: range(0, 1, 0, 1), newText: '1' }, { range: range(0, 1, 0, 2), newText: '2' },
  ];
  assert.equal(TextDocument.applyEdits(document, edits), 'a12\nXd');
  assert.equal(TextDocument.applyEdits(document, []), 'ab\ncd');
  assert.throws(() => TextDocument.applyEdits(document, [edits[2], { range: range(0, 0, 1, 0), newText: '' }]), /Overlapping edit/);
  assert.equal(document.getText(), 'ab\ncd');
});

test('the language chooses what hides brackets', () => {
  const levels = (languageId, text) => made(text, languageId).model.level(place(0, text.length));
  assert.equal(levels('rust', '// ('), 0);
  assert.equal(levels('shellscript', '# ('), 0);
  assert.equal(levels('typescriptreact', '`(`'), 0);
  assert.equal(levels('css', '/* ( */'), 0);
  assert.equal(levels('plaintext', '// ('), 1);
  assert.equal(levels('toString', '// ('), 1);
});
