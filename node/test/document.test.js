'use strict';
// What each call does.

const assert = require('node:assert/strict');
const { test } = require('node:test');
const { Document, LANGUAGES, Session, Snapshot, libraryVersion } = require('..');
const { SMILE } = require('./helpers.js');

const place = (line, character) => ({ line, character });

test('the version of the library', () => {
  assert.match(libraryVersion, /^1\.\d+\.\d+$/);
});

test('open takes strings and bytes', () => {
  const document = new Document(`a${SMILE}`);
  assert.equal(document.value, `a${SMILE}`);
  document.open(Buffer.from(`é${SMILE}`));
  assert.equal(document.value, `é${SMILE}`);
  assert.equal(document.length, 3);
  document.open(Buffer.from('cut out').subarray(4));
  assert.equal(document.value, 'out');
  document.open(new Uint8Array(new SharedArrayBuffer(2)));
  assert.equal(document.value, '\0\0');
  document.open(new Uint8Array(0));
  assert.equal(document.value, '');
  document.open();
  assert.equal(document.version, 1);
  document.close();
});

test('lone surrogates are units like any other', () => {
  const document = new Document('\ude00x\ud83d');
  assert.equal(document.value, '\ude00x\ud83d');
  document.edit(3, 3, '\ude00');
  assert.equal(document.value, `\ude00x${SMILE}`);
  assert.equal(document.line(0), `\ude00x${SMILE}`);
});

test('texts of all lengths cross whole', () => {
  const document = new Document();
  for (const length of [0, 1, 1022, 1023, 1024, 1025, 4096, 100000]) {
    const text = 'xé'.repeat(length).slice(0, length);
    document.open(text);
    assert.equal(document.value, text);
    assert.equal(document.line(0), text);
  }
});

test('open with line endings', () => {
  const document = new Document('a\nb\r\nc\rd', { ending: 'crlf' });
  assert.equal(document.value, 'a\r\nb\r\nc\r\nd');
  assert.equal(document.ending, 'crlf');
  assert.equal(document.setEnding('lf'), true);
  assert.equal(document.setEnding('lf'), false);
  assert.equal(document.value, 'a\nb\nc\nd');
  assert.equal(new Document('a\rb').lineCount, 2);
});

test('open with brackets and what hides them', () => {
  const document = new Document('if (x # )', { hiding: 'shell', brackets: [['if', 'fi'], ['(', ')']] });
  assert.deepEqual(document.brackets(0, 0).map((it) => [it.character, it.length, it.kind, it.state]), [
    [0, 2, 0, 'unclosed'], [3, 1, 1, 'unclosed'],
  ]);
  document.open('( -- (\n{- ( -} ', { hiding: { line: '--', block: ['{-', '-}'] } });
  assert.equal(document.level(place(1, 8)), 1);
  document.open('("(', { hiding: { quotes: '"' } });
  assert.equal(document.level(place(0, 3)), 1);
  for (const hiding of LANGUAGES) assert.equal(new Document('"("', { hiding }).level(place(0, 3)), 0);
});

test('edit, editAt and batch', () => {
  const document = new Document(`one\n${SMILE}two`);
  document.edit(0, 3, '1');
  document.editAt({ start: place(1, 2), end: place(1, 5) }, '2');
  document.editAt({ start: place(1, 4), end: place(1, 5) }, '!', 'utf-8');
  assert.equal(document.value, `1\n${SMILE}!`);
  document.batch([{ start: 4, end: 5, text: '?' }, { start: 0, end: 0, text: '<' }]);
  assert.equal(document.value, `<1\n${SMILE}?`);
});

test('joint edits are undone in all documents', () => {
  const session = new Session();
  session.document(0).open('fn old() {}');
  session.document(63).open('use old;');
  session.joint([
    { document: 0, start: 3, end: 6, text: 'new' },
    { document: 63, start: 4, end: 7, text: 'newer' },
    { document: 63, start: 0, end: 0, text: '// ' },
  ]);
  assert.equal(session.document(0).value, 'fn new() {}');
  assert.equal(session.document(63).value, '// use newer;');
  assert.equal(session.document(0).undo(), true);
  assert.equal(session.document(63).value, 'use old;');
});

test('undo, redo and stop', () => {
  const document = new Document('a');
  assert.equal(document.canUndo || document.canRedo, false);
  assert.equal(document.undo() || document.redo(), false);
  document.edit(1, 1, 'b');
  document.stop();
  document.edit(2, 2, 'c');
  assert.equal(document.undo(), true);
  assert.equal(document.value, 'ab');
  assert.equal(document.canUndo && document.canRedo, true);
  assert.equal(document.redo(), true);
  assert.equal(document.value, 'abc');
});

test('version and alternative', () => {
  const document = new Document('a');
  document.edit(0, 0, 'b');
  assert.equal(document.version, 2);
  document.undo();
  assert.deepEqual([document.version, document.alternative], [3, 1]);
});

test('find and replaceAll', () => {
  const document = new Document('abcabcab');
  assert.deepEqual(document.find({ text: 'ab' }), [{ start: 0, end: 2 }, { start: 3, end: 5 }, { start: 6, end: 8 }]);
  assert.deepEqual(document.find({ text: 'ab', from: 1, most: 1 }), [{ start: 3, end: 5 }]);
  assert.deepEqual(document.find({ text: 'ab', from: 7, back: true }), [{ start: 3, end: 5 }, { start: 0, end: 2 }]);
  assert.deepEqual(document.find({ text: 'ab', back: true, most: 1 }), [{ start: 6, end: 8 }]);
  assert.deepEqual(document.find({ text: 'z' }), []);
  assert.equal(document.replaceAll('ab', 'xyz'), 3);
  assert.equal(document.replaceAll('ab', 'xyz'), 0);
  assert.equal(document.value, 'xyzcxyzcxyz');
  document.undo();
  assert.equal(document.value, 'abcabcab');
});

test('more is found than has room at first', () => {
  const document = new Document('x'.repeat(5000));
  assert.equal(document.find({ text: 'x' }).length, 5000);
  assert.equal(document.stops(0).length, 5000);
  document.decorate(1, { add: Array.from({ length: 5000 }, (_, at) => ({ start: at, end: at + 1 })) });
  assert.equal(document.decorations(0, 5000).length, 5000);
  document.open('()'.repeat(2500));
  assert.equal(document.brackets(0, 0).length, 5000);
});

test('the text and its parts', () => {
  const document = new Document('one\r\ntwo\n');
  assert.equal(document.getText(), document.value);
  assert.equal(document.getText(5), 'two\n');
  assert.equal(document.getText(1, 3), 'ne');
  assert.deepEqual([document.length, document.lineCount], [9, 3]);
  assert.deepEqual([0, 1, 2].map((n) => document.line(n)), ['one', 'two', '']);
});

test('positions and offsets count from 0', () => {
  const document = new Document(`é${SMILE}a\nb`);
  assert.deepEqual(document.positionAt(0), place(0, 0));
  assert.deepEqual(document.positionAt(6), place(1, 1));
  assert.deepEqual(['utf-8', 'utf-16', 'utf-32'].map((it) => document.positionAt(3, it).character), [6, 3, 2]);
  assert.equal(document.offsetAt(place(1, 0)), 5);
  assert.equal(document.offsetAt(place(0, 6), 'utf-8'), 3);
  assert.equal(document.offsetAt(place(0, 2), 'utf-32'), 3);
});

test('stops are where grapheme clusters begin', () => {
  const document = new Document(`e\u0301x${SMILE}y`);
  assert.deepEqual(document.stops(0), [0, 2, 3, 5]);
  assert.deepEqual(document.stops(0, 'utf-32'), [0, 2, 3, 4]);
});

test('decorations move with the text', () => {
  const document = new Document('let x = 1;');
  const add = [{ start: 4, end: 5 }, { start: 8, end: 9, stick: 'none', collapse: true }];
  const [first, second] = document.decorate(7, { add });
  document.edit(0, 3, 'const');
  assert.deepEqual(document.decoration(first), { id: first, owner: 7, start: 6, end: 7, stick: 'both', collapse: false });
  assert.deepEqual(document.decoration(second), { id: second, owner: 7, start: 10, end: 11, stick: 'none', collapse: true });
  assert.deepEqual(document.decorations(0, 12, 7).map((it) => it.id), [first, second]);
  assert.deepEqual(document.decorations(0, 12, 8), []);
  assert.deepEqual(document.decorations(10, 10).map((it) => it.id), [second]);
  assert.deepEqual(document.decorate(7, { remove: [first], add: [{ start: 0, end: 1, stick: 'end' }] }), [second + 1]);
  assert.equal(document.decoration(first), undefined);
  document.batch([{ start: 0, end: 0, text: '_', force: true }]);
  assert.equal(document.decoration(second + 1).start, 1);
});

test('brackets, match and level', () => {
  const document = new Document('f(g[1]) // )\n}', { hiding: 'c' });
  assert.deepEqual(document.brackets(0, 1).map((it) => [it.line, it.character, it.level, it.state]), [
    [0, 1, 0, 'opening'], [0, 3, 1, 'opening'], [0, 5, 1, 'closing'], [0, 6, 0, 'closing'], [1, 0, 0, 'unexpected'],
  ]);
  assert.deepEqual(document.match(place(0, 1)), { line: 0, character: 6, length: 1 });
  assert.equal(document.match(place(0, 0)), undefined);
  assert.equal(document.level(place(0, 4)), 2);
});

test('changes lead from the text before to that of now', () => {
  const document = new Document('one two');
  assert.deepEqual(document.changes(), []);
  document.batch([{ start: 0, end: 3, text: '1' }, { start: 4, end: 7, text: '2' }]);
  const wanted = [{ start: 4, end: 7, text: '2' }, { start: 0, end: 3, text: '1' }];
  assert.deepEqual(document.changes(), wanted);
  assert.deepEqual(document.changes(), wanted);
  document.edit(0, 0, 'x'.repeat(3000));
  assert.deepEqual(document.changes(), [{ start: 0, end: 0, text: 'x'.repeat(3000) }]);
});

test('a snapshot keeps its text', () => {
  const text = `before${SMILE}`.repeat(10000);
  const document = new Document(text);
  const [whole, left, cut] = [document.snapshot(), document.snapshot(), document.snapshot()];
  document.edit(0, text.length, 'after');
  assert.ok(whole instanceof Snapshot);
  const parts = [...whole];
  assert.ok(parts.length > 1);
  assert.equal(parts.join(''), text);
  assert.deepEqual([...whole], []);
  for (const part of left) {
    assert.equal(part, text.slice(0, part.length));
    break;
  }
  assert.deepEqual([cut.read(7), cut.read(2)], ['before', SMILE]);
  assert.equal(cut.read(), text.slice(8));
  assert.equal(cut.read(), '');
  cut.close();
  cut.close();
});

test('a mirror follows by events', () => {
  const document = new Document('ab');
  assert.equal(document.mirrorState, undefined);
  assert.equal(document.send(), undefined);
  assert.equal(document.mirror(), 1);
  document.edit(0, 0, 'x\n');
  assert.deepEqual(document.send(), { number: 1, version: 1 });
  assert.deepEqual([document.mirrored(0), document.mirrorState], ['ab', { version: 1, length: 2, lineCount: 1 }]);
  assert.deepEqual(document.deliver(1), { version: 2, length: 4, lineCount: 2 });
  assert.equal(document.deliver(1), undefined);
  assert.deepEqual([document.mirrored(0), document.mirrored(1)], ['x', 'ab']);
});

test('documents of a session', () => {
  const session = new Session();
  const document = session.document(5);
  assert.equal(session.document(5), document);
  assert.deepEqual([document.session, document.number, document.closed], [session, 5, false]);
  const alone = new Document('x');
  assert.equal(alone.session.document(0), alone);
  assert.throws(() => document.close(), /closed with it/);
  session.close();
  session.close();
  assert.deepEqual([session.closed, document.closed, alone.closed], [true, true, false]);
});
