'use strict';
// What is given to calls: words, numbers and lists, as the addon takes them.

const { native, TextModelError } = require('./native.js');

const ENDINGS = ['mixed', 'lf', 'crlf']; // each at its number
const ENCODINGS = { 'utf-8': 8, 'utf-16': 16, 'utf-32': 32 };
const OP_NUMBERS = 5;
const NEW_NUMBERS = 4;
const NO_MARKS = { texts: '', line: 0, opening: 0, closing: 0 };

function numberOf(table, word, what) {
  if (!Object.hasOwn(table, word)) throw new TypeError(`${what} is one of ${Object.keys(table).join(', ')}, not ${String(word)}`);
  return table[word];
}

function encodingNumber(encoding) {
  return numberOf(ENCODINGS, encoding, 'an encoding');
}

function endingNumber(ending) {
  return numberOf({ mixed: 0, lf: 1, crlf: 2 }, ending, 'a line ending');
}

function text(value, what) {
  if (typeof value !== 'string') throw new TypeError(`${what} is a string`);
  return value;
}

/** A text, or bytes that no other thread changes meanwhile. */
function ownBytes(given) {
  return given?.buffer instanceof SharedArrayBuffer ? Uint8Array.from(given) : given;
}

/** Returns the number if the library can take it, an integer from 0 on; else throws. */
function natural(value, what) {
  number(value, what);
  if (!Number.isSafeInteger(value) || value < 0) throw new TextModelError('RANGE', `${what}: ${value} is not a safe integer from 0 on`);
  return value;
}

/** Any number: the addon makes one that is out of range a number that the library refuses. */
function number(value, what) {
  if (typeof value !== 'number') throw new TypeError(`${what} is a number`);
  return value;
}

/** What hides brackets: the marks of a language, or own ones. */
function marksOf(hiding) {
  if (hiding === undefined || hiding === null) return NO_MARKS;
  if (typeof hiding === 'string') return numberOf(native.languages, hiding, 'a language');
  const { line = '', block: [opening, closing] = ['', ''], quotes = '' } = hiding;
  const texts = [text(line, 'line'), text(opening, 'block'), text(closing, 'block'), text(quotes, 'quotes')].join('');
  return { texts, line: line.length, opening: opening.length, closing: closing.length };
}

/** The pairs of brackets: the lengths of their texts, and these one after another. */
function pairsOf(brackets) {
  if (brackets === undefined || brackets === null) return { lengths: new Float64Array(0), texts: '' };
  const pairs = [...brackets];
  if (pairs.length === 0) throw new TextModelError('RANGE', 'open: the list of brackets is empty; leave it out for (), [] and {}');
  const texts = pairs.flatMap(([opening, closing]) => [text(opening, 'a bracket'), text(closing, 'a bracket')]);
  return { lengths: Float64Array.from(texts, (it) => it.length), texts: texts.join('') };
}

/** Edits of a joint edit: their numbers, and their texts one after another. */
function opsOf(edits) {
  const numbers = new Float64Array(edits.length * OP_NUMBERS);
  const texts = edits.map((edit) => text(edit.text, 'the text of an edit'));
  edits.forEach(({ document, start, end, force = false }, at) => {
    const words = [number(document, 'document'), number(start, 'start'), number(end, 'end'), texts[at].length, force ? 1 : 0];
    numbers.set(words, at * OP_NUMBERS);
  });
  return { numbers, texts: texts.join('') };
}

function newDecorations(added) {
  const numbers = new Float64Array(added.length * NEW_NUMBERS);
  added.forEach(({ start, end, stick = 'both', collapse = false }, at) => {
    const words = [number(start, 'start'), number(end, 'end'), stickNumber(stick), collapse ? 1 : 0];
    numbers.set(words, at * NEW_NUMBERS);
  });
  return numbers;
}

const STICKS = ['both', 'none', 'start', 'end']; // each at its number

function stickNumber(stick) {
  return numberOf({ both: 0, none: 1, start: 2, end: 3 }, stick, 'stick');
}

/** Objects of a list that came as numbers, `width` for each. */
function listOf(numbers, width, make) {
  return Array.from({ length: numbers.length / width }, (_, at) => make(numbers, at * width));
}

module.exports = {
  ENDINGS, STICKS, encodingNumber, endingNumber, listOf, marksOf, natural, newDecorations, opsOf, ownBytes, pairsOf,
};
