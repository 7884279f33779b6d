'use strict';
// Each kind of refusal, and that it changes nothing.

const assert = require('node:assert/strict');
const { constants } = require('node:buffer');
const { test } = require('node:test');
const { Document, Session, TextDocument, TextModelError } = require('..');
const { refusal, STATUS } = require('../lib/native.js');
const { SMILE, below, randomOf, refused } = require('./helpers.js');

const place = (line, character) => ({ line, character });
const NO_NUMBERS = [-1, 1.5, NaN, Infinity, -Infinity, 2 ** 53, 2 ** 64];

test('RANGE', () => {
  const document = new Document(`a${SMILE}`);
  const calls = [
    () => document.edit(3, 4, ''), () => document.edit(2, 3, ''), () => document.edit(1, 0, ''),
    () => document.editAt({ start: place(0, 0), end: place(1, 0) }, ''), () => document.getText(2), () => document.line(1),
    () => document.positionAt(2), () => document.offsetAt(place(0, 2)), () => document.offsetAt(place(0, 0x7fffffff)),
    () => document.brackets(0, 1), () => document.match(place(3, 0)), () => document.level(place(3, 0)), () => document.stops(1),
    () => document.find({ text: '' }), () => document.replaceAll('', ''), () => document.decorations(0, 9),
    () => document.batch([]), () => document.decorate(-1, {}), () => document.find({ text: 'a', most: -1 }),
    () => document.snapshot().read(1), () => document.open('', { brackets: [] }), () => document.open('', { brackets: [['', ')']] }),
    () => document.open('', { hiding: { line: '\n' } }),
  ];
  for (const call of calls) refused(call, 'RANGE');
  refused(() => document.batch([{ start: 0, end: 1, text: '' }, { start: 2, end: 2, text: '' }]), 'RANGE', { index: 1, document: 0 });
  refused(() => document.decorate(1, { add: [{ start: 0, end: 1 }, { start: 0, end: 2 }] }), 'RANGE', { index: 1 });
  assert.deepEqual([document.value, document.version], [`a${SMILE}`, 1]);
});

test('numbers that are no offsets', () => {
  const document = new Document('abc');
  for (const n of NO_NUMBERS) {
    refused(() => document.edit(n, 3, ''), 'RANGE');
    refused(() => document.getText(0, n), n > 2 ** 52 && n > constants.MAX_STRING_LENGTH ? 'LIMIT' : 'RANGE');
    refused(() => document.positionAt(n), 'RANGE');
    refused(() => document.offsetAt(place(n, 0)), 'RANGE');
    refused(() => document.line(n), 'RANGE');
    refused(() => document.batch([{ start: n, end: 3, text: '' }]), 'RANGE', { index: 0, document: 0 });
    refused(() => document.decorate(n, {}), 'RANGE');
    refused(() => document.session.document(n), 'UNKNOWN');
    assert.equal(document.decoration(n), undefined);
  }
  assert.equal(document.value, 'abc');
});

test('UNKNOWN', () => {
  const session = new Session();
  const document = session.document(0);
  const [id] = document.decorate(1, { add: [{ start: 0, end: 0 }] });
  refused(() => session.document(64), 'UNKNOWN');
  refused(() => document.decorate(2, { remove: [id] }), 'UNKNOWN', { index: 0 });
  refused(() => document.decorate(1, { remove: [id, id] }), 'UNKNOWN', { index: 1 });
  refused(() => document.mirrored(0), 'UNKNOWN');
  refused(() => document.deliver(1), 'UNKNOWN');
  const snapshot = document.snapshot();
  snapshot.close();
  refused(() => snapshot.read(), 'UNKNOWN');
  const older = document.snapshot();
  document.open('x');
  document.snapshot();
  refused(() => older.read(), 'UNKNOWN');
  older.close();
  const edit = { start: 0, end: 0, text: '' };
  refused(() => session.joint([{ ...edit, document: 0 }, { ...edit, document: 64 }]), 'UNKNOWN', { index: 1, document: 64 });
});

test('OVERLAP', () => {
  const document = new Document('abc');
  const edits = [{ start: 2, end: 3, text: '' }, { start: 0, end: 2, text: '' }, { start: 1, end: 2, text: '' }];
  refused(() => document.batch(edits), 'OVERLAP', { index: 2, document: 0 });
  assert.equal(document.value, 'abc');
});

test('LIMIT', () => {
  const document = new Document('abc');
  const snapshots = Array.from({ length: 1000 }, () => document.snapshot());
  refused(() => document.snapshot(), 'LIMIT');
  snapshots[0].close();
  document.snapshot();
  refused(() => document.getText(0, constants.MAX_STRING_LENGTH + 1), 'LIMIT');
  for (const snapshot of snapshots) snapshot.close();
});

test('ENCODING', () => {
  refused(() => new Document(Buffer.from([0x61, 0xc3, 0xa9, 0xff])), 'ENCODING', { index: 3 });
  refused(() => new Document(Buffer.from([0xed, 0xa0, 0x80])), 'ENCODING', { index: 0 });
});

test('EMPTY', () => {
  const document = new Document('abc');
  const snapshot = document.snapshot();
  document.close();
  const calls = [
    () => document.length, () => document.value, () => document.edit(0, 0, ''), () => document.open(''), () => document.undo(),
    () => document.find({ text: 'a' }), () => document.changes(), () => snapshot.read(), () => document.snapshot(),
    () => document.session.joint([]), () => document.decorate(1, {}), () => document.stops(0), () => document.ending,
  ];
  for (const call of calls) refused(call, 'EMPTY');
  snapshot.close();
  document.close();
});

test('JOINT', () => {
  const session = new Session();
  session.joint([{ document: 0, start: 0, end: 0, text: 'a' }, { document: 7, start: 0, end: 0, text: 'b' }]);
  session.document(7).edit(0, 0, 'c');
  refused(() => session.document(0).undo(), 'JOINT', { document: 7 });
  session.document(7).undo();
  session.document(7).undo();
  assert.equal(session.document(0).value, '');
  session.document(0).redo();
  session.document(7).redo();
  refused(() => session.document(0).undo(), 'JOINT', { document: 7 });
});

test('GAP', () => {
  const document = new Document('abc');
  document.mirror();
  document.edit(0, 0, 'x');
  document.edit(0, 0, 'y');
  const event = document.send();
  refused(() => document.deliver(event.number), 'GAP', { have: 1, need: 2 });
});

test('MEMORY has a message like any other', () => {
  const error = refusal(STATUS.MEMORY, 'edit');
  assert.ok(error instanceof TextModelError);
  assert.deepEqual([error.code, error.message], ['MEMORY', 'edit: out of memory']);
});

test('values of other types', () => {
  const document = new Document('abc');
  const calls = [
    () => document.edit('0', 1, ''), () => document.edit(0, 1), () => document.edit(0, 1, 5), () => document.edit(0n, 1, ''),
    () => document.line(), () => document.find({ text: 5 }), () => document.find({ text: 'a', back: 1 }), () => document.open(5),
    () => document.open(new Uint16Array(2)), () => document.open('', { ending: 'cr' }), () => document.open('', { hiding: 'toString' }),
    () => document.positionAt(0, 'utf-7'), () => document.batch([{ start: 0, end: 1 }]), 
    () => document.batch([{ start: '0', end: 1, text: '' }]),
    () => document.decorate(1, { add: [{ start: 0, end: 1, stick: 'left' }] }), () => document.decorate(1, { remove: ['1'] }),
    () => document.session.document('0'), () => document.offsetAt({ line: 0 }), () => document.snapshot().read('2'),
    () => Document(),
    () => document.constructor.prototype.edit.call({}, 0, 0, ''),
  ];
  for (const call of calls) assert.throws(call, TypeError, String(call));
  assert.equal(document.value, 'abc');
});

test('values of any kind are refused or taken', () => {
  const random = randomOf(7);
  const words = [
    undefined, null, true, 0, 1, 3, -1, 2.5, NaN, 2 ** 53, 10n, '', 'a', 'utf-8', 'crlf', 'c', Symbol('a'), {}, [], [1, 2], [{}],
    [['(', ')']],
    new Float64Array(3), new Uint8Array([97, 200]), Buffer.from('b'), () => 1, place(0, 1), place('0', {}), { start: 0, end: 1, text: 'x' },
    { start: place(0, 0), end: place(0, 1) }, { text: 'a', from: 1 }, { add: [{ start: 0, end: 1 }] }, { add: 5, remove: [1] },
    [{ document: 0, start: 0, end: 1, text: 'y' }], { hiding: { line: 'x'.repeat(40), block: ['', 'y'] } }, { brackets: ['()', '<>'] },
  ];
  const word = () => words[below(random, words.length - 1)];
  const objects = [new Session(), new Document('f(x)'), new Session().document(3), new Document('').snapshot()];
  objects.push(TextDocument.create('a', 'c', 1, 'x\ny'));
  for (let count = 0; count < 20000; count++) {
    const object = objects[below(random, objects.length - 1)];
    const names = Object.getOwnPropertyNames(Object.getPrototypeOf(object)).filter((it) => it !== 'constructor' && it !== 'close');
    const name = names[below(random, names.length - 1)];
    try {
      const member = object[name];
      if (typeof member === 'function') member.apply(object, Array.from({ length: below(random, 4) }, word));
    } catch (error) {
      assert.ok(error instanceof TypeError || error instanceof TextModelError, `${name}: ${error.stack}`);
    }
  }
});
