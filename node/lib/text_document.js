'use strict';
// The text document that language servers know, on a document of the model.

const { Document, placeOf } = require('./model.js');
const { native, done } = require('./native.js');

const { out } = native;

// What hides brackets, by the id that editors give a language. In others nothing does.
const HIDING = {
  c: ['c', 'cpp', 'csharp', 'dart', 'java', 'kotlin', 'objective-c', 'objective-cpp', 'scala', 'swift'],
  javascript: ['go', 'javascript', 'javascriptreact', 'typescript', 'typescriptreact'],
  python: ['coffeescript', 'dockerfile', 'makefile', 'perl', 'python', 'r', 'ruby', 'toml', 'yaml'],
  rust: ['rust'],
  shell: ['shellscript'],
};
const OWN = {
  css: { block: ['/*', '*/'], quotes: '"\'' },
  html: { block: ['<!--', '-->'] },
  json: { quotes: '"' },
  jsonc: { line: '//', block: ['/*', '*/'], quotes: '"' },
  less: { line: '//', block: ['/*', '*/'], quotes: '"\'' },
  lua: { line: '--', block: ['--[[', ']]'], quotes: '"\'' },
  scss: { line: '//', block: ['/*', '*/'], quotes: '"\'' },
  sql: { line: '--', block: ['/*', '*/'], quotes: '"\'' },
  xml: { block: ['<!--', '-->'] },
};
const BY_LANGUAGE = new Map([
  ...Object.entries(HIDING).flatMap(([hiding, ids]) => ids.map((id) => [id, hiding])),
  ...Object.entries(OWN),
]);

class TextDocument {
  #uri;
  #languageId;
  #version;
  #model;

  constructor(uri, languageId, version, content) {
    this.#uri = uri;
    this.#languageId = languageId;
    this.#version = version;
    this.#model = new Document(content, { hiding: BY_LANGUAGE.get(languageId) });
  }

  static create(uri, languageId, version, content) {
    return new TextDocument(uri, languageId, version, content);
  }

  static update(document, changes, version) {
    if (!(document instanceof TextDocument)) throw new Error('TextDocument.update: document must be created by TextDocument.create');
    for (const change of changes) document.#update(change);
    document.#version = version;
    return document;
  }

  static applyEdits(document, edits) {
    const text = document.getText();
    const parts = [];
    let taken = 0;
    for (const { range, newText } of edits.map(forwards).sort((one, other) => compare(one.range.start, other.range.start))) {
      const start = document.offsetAt(range.start);
      if (start < taken) throw new Error('Overlapping edit');
      parts.push(text.slice(taken, start), newText);
      taken = document.offsetAt(range.end);
    }
    return parts.join('') + text.slice(taken);
  }

  get uri() {
    return this.#uri;
  }

  get languageId() {
    return this.#languageId;
  }

  get version() {
    return this.#version;
  }

  get lineCount() {
    return this.#model.lineCount;
  }

  get model() {
    return this.#model;
  }

  getText(range) {
    if (!range) return this.#model.value;
    const { start, end, first, last } = this.#spanOf(range);
    return this.#model.getText(first, last).slice(start - first, end - first);
  }

  positionAt(offset) {
    const { native, number } = placeOf(this.#model);
    done(native.nearPosition(number, Math.max(offset, 0)), 'position');
    return { line: out[0], character: out[1] };
  }

  offsetAt(position) {
    return this.#placeAt(position).offset;
  }

  close() {
    this.#model.close();
  }

  /** The offset of a position, and how many units of a pair of surrogates it cuts off: 1 inside one, else 0. */
  #placeAt({ line, character }) {
    if (line < 0) return { offset: 0, cut: 0 };
    const { native, number } = placeOf(this.#model);
    done(native.nearOffset(number, line, Math.max(character, 0)), 'offset');
    return { offset: out[0], cut: out[1] };
  }

  /** The span of a range, and the span of the pairs of surrogates that it touches. */
  #spanOf(range) {
    const [one, other] = [this.#placeAt(range.start), this.#placeAt(range.end)];
    const [from, to] = one.offset <= other.offset ? [one, other] : [other, one];
    return { start: from.offset, end: to.offset, first: from.offset - from.cut, last: to.offset + to.cut };
  }

  #update(change) {
    if (isIncremental(change)) {
      this.#replace(this.#spanOf(change.range), change.text);
    } else if (isFull(change)) {
      this.#model.edit(0, this.#model.length, change.text);
    } else {
      throw new Error('Unknown change event received');
    }
  }

  /** What a pair of surrogates has outside of the span stays. */
  #replace({ start, end, first, last }, text) {
    const before = first < start ? this.#model.getText(first, first + 2)[0] : '';
    const behind = end < last ? this.#model.getText(last - 2, last)[1] : '';
    this.#model.edit(first, last, before + text + behind);
  }
}

function compare(one, other) {
  return one.line - other.line || one.character - other.character;
}

/** An edit whose range starts before it ends. */
function forwards(edit) {
  const { start, end } = edit.range;
  return compare(start, end) > 0 ? { newText: edit.newText, range: { start: end, end: start } } : edit;
}

function isIncremental({ text, range, rangeLength } = {}) {
  return typeof text === 'string' && range !== undefined && (rangeLength === undefined || typeof rangeLength === 'number');
}

function isFull({ text, range, rangeLength } = {}) {
  return typeof text === 'string' && range === undefined && rangeLength === undefined;
}

module.exports = { TextDocument };
