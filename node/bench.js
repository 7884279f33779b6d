'use strict';
// What a text document costs beside a string that keeps the starts of its lines (test/plain.js), in one run: processor time of a
// call, with what the garbage collector does meanwhile. An edit replaces one to three units at a random place by as many.
//
// node --expose-gc bench.js [BYTES ..]     10 KB, 1 MB and 100 MB where none is named

const { TextDocument, libraryVersion } = require('.');
const { below, randomOf } = require('./test/helpers.js');
const { Plain } = require('./test/plain.js');

const SIZES = [10_000, 1_000_000, 100_000_000];
const LINE = '    if (ready(x[i])) { count += x[i]; }\n'; // 40 units
const LEAST_MICROSECONDS = 300_000;
const MOST_CALLS = 50_000;
const LEAST_CALLS = 5;

/** Both kinds of documents by the same calls. */
const KINDS = {
  Lodvark: {
    open: (text) => TextDocument.create('file:///bench.c', 'c', 1, text),
    edit: (document, range, text) => TextDocument.update(document, [{ range, text }], 2),
    close: (document) => document.close(),
  },
  'plain string': {
    open: (text) => new Plain(text),
    edit: (document, range, text) => document.replace(range, text),
    close: () => {},
  },
};

function textOf(units) {
  return LINE.repeat(Math.ceil(units / LINE.length)).slice(0, units);
}

function spent() {
  const { user, system } = process.cpuUsage();
  return user + system;
}

/** Microseconds of processor time that a call takes. */
function costOf(call) {
  const begun = spent();
  let [count, step] = [0, 1];
  while (count < MOST_CALLS && (count < LEAST_CALLS || spent() - begun < LEAST_MICROSECONDS)) {
    for (let at = 0; at < step; at++) call();
    count += step;
    step = Math.min(2 * step, 1000);
  }
  return (spent() - begun) / count;
}

/** What one kind of document costs for a text, by what is done. */
function costs({ open, edit, close }, text) {
  const random = randomOf(7);
  const place = (document) => ({ line: below(random, document.lineCount - 2), character: below(random, 30) });
  const edits = (document) => {
    const { line, character } = place(document);
    const units = 1 + below(random, 2);
    edit(document, { start: { line, character }, end: { line, character: character + units } }, 'abc'.slice(0, units));
  };
  const asks = (document) => document.offsetAt(document.positionAt(below(random, text.length - 1)));

  const rows = {
    'positionAt and offsetAt': asks,
    'edit, then both': (document) => (edits(document), asks(document)),
    'edit, then the text of a line': (document) => {
      edits(document);
      const { line } = place(document);
      document.getText({ start: { line, character: 0 }, end: { line: line + 1, character: 0 } });
    },
    'edit, then all of the text': (document) => (edits(document), document.getText().charCodeAt(0)),
  };
  const found = { 'open and close': costOf(() => close(open(text))) };
  for (const [name, call] of Object.entries(rows)) {
    globalThis.gc?.();
    const document = open(text);
    found[name] = costOf(() => call(document));
    close(document);
  }
  return found;
}

function spelled(microseconds) {
  const units = [[1e6, 's'], [1e3, 'ms'], [1, 'µs'], [1e-3, 'ns']];
  const [unit, name] = units.find(([it]) => microseconds >= it) ?? units.at(-1);
  return `${Number((microseconds / unit).toPrecision(2))} ${name}`;
}

function sizeOf(bytes) {
  return bytes >= 1e6 ? `${bytes / 1e6} MB` : `${bytes / 1e3} KB`;
}

function main(sizes) {
  console.log(`Node ${process.version}, library ${libraryVersion}\n`);
  console.log(`| units | calls | ${Object.keys(KINDS).join(' | ')} |\n|--:|---|${'--:|'.repeat(Object.keys(KINDS).length)}`);
  for (const size of sizes) {
    const text = textOf(size);
    const found = Object.values(KINDS).map((kind) => costs(kind, text));
    for (const calls of Object.keys(found[0]))
      console.log(`| ${sizeOf(size)} | ${calls} | ${found.map((it) => spelled(it[calls])).join(' | ')} |`);
  }
}

const named = process.argv.slice(2).map(Number);
main(named.length > 0 ? named : SIZES);
