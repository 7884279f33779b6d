'use strict';

const { constants } = require('node:buffer');
const { native, STATUS, TextModelError, TOLD_OF_DECORATIONS, TOLD_OF_EDITS, done, refusal, told } = require('./native.js');
const { Snapshot } = require('./snapshot.js');
const values = require('./values.js');

const DOCUMENTS = 64;
const STATES = ['opening', 'closing', 'unclosed', 'unexpected']; // each at its number
const SPAN_NUMBERS = 2;
const DECORATION_NUMBERS = 6;
const BRACKET_NUMBERS = 6;
const CHANGE_VALUES = 3;

const { out } = native;
let placeIn, placeOf;

/** Where a document is: `opened` counts how often it was opened. */
class Place {
  constructor(session, native, number) {
    this.session = session;
    this.native = native;
    this.number = number;
    this.opened = 0;
    this.document = undefined;
  }
}

class Session {
  #native = new native.Session();
  #places = [];
  #isClosed = false;

  static {
    placeIn = (session, number) => (session.#places[number] ??= new Place(session, session.#native, number));
  }

  constructor() {
    done(this.#native.make(), 'session');
  }

  document(number) {
    if (typeof number !== 'number') throw new TypeError('the number of a document is a number');
    if (!(Number.isInteger(number) && number >= 0 && number < DOCUMENTS))
      throw new TextModelError('UNKNOWN', `document ${number}: they are numbered from 0 to ${DOCUMENTS - 1}`);
    const place = placeIn(this, number);
    return (place.document ??= new Document(place));
  }

  joint(edits) {
    const { numbers, texts } = values.opsOf([...edits]);
    const status = this.#native.joint(numbers, texts);
    if (status !== STATUS.OK) throw refusal(status, 'joint edit', tellsItem(status) ? TOLD_OF_EDITS : undefined);
  }

  get closed() {
    return this.#isClosed;
  }

  close() {
    this.#isClosed = true;
    this.#native.close();
  }
}

/** Whether a refusal with this status may name the invalid item of a list. */
function tellsItem(status) {
  return status === STATUS.UNKNOWN || status === STATUS.RANGE || status === STATUS.OVERLAP;
}

class Document {
  #place;
  #native;
  #number;
  #isAlone;

  static {
    placeOf = (document) => document.#place;
  }

  constructor(text = '', options = {}) {
    this.#isAlone = !(text instanceof Place);
    this.#place = this.#isAlone ? placeIn(new Session(), 0) : text;
    this.#native = this.#place.native;
    this.#number = this.#place.number;
    this.#place.document = this;
    if (this.#isAlone) this.#openFirst(text, options);
  }

  #openFirst(text, options) {
    try {
      this.open(text, options);
    } catch (error) {
      this.close();
      throw error;
    }
  }

  open(text = '', { ending = 'mixed', brackets, hiding } = {}) {
    const pairs = values.pairsOf(brackets);
    const { texts, line, opening, closing } = values.marksOf(hiding);
    const kind = values.endingNumber(ending);
    const given = values.ownBytes(text);
    done(this.#native.open(this.#number, kind, given, pairs.lengths, pairs.texts, texts, line, opening, closing), 'open');
    this.#place.opened += 1;
  }

  get session() {
    return this.#place.session;
  }

  get number() {
    return this.#number;
  }

  get closed() {
    return this.#place.session.closed;
  }

  close() {
    if (!this.#isAlone) throw new Error('a document of a session is closed with it');
    this.#place.session.close();
  }

  // Edits

  edit(start, end, text) {
    done(this.#native.edit(this.#number, start, end, text), 'edit');
  }

  editAt({ start, end }, text, encoding = 'utf-16') {
    const counts = values.encodingNumber(encoding);
    done(this.#native.editAt(this.#number, start.line, start.character, end.line, end.character, counts, text), 'edit');
  }

  batch(edits) {
    this.#place.session.joint(Array.from(edits, (edit) => ({ ...edit, document: this.#number })));
  }

  replaceAll(sought, replacement) {
    return done(this.#native.replaceAll(this.#number, sought, replacement), 'replace') ? out[0] : 0;
  }

  // History and line endings

  undo() {
    return done(this.#native.undo(this.#number), 'undo');
  }

  redo() {
    return done(this.#native.redo(this.#number), 'redo');
  }

  get canUndo() {
    return done(this.#native.canUndo(this.#number), 'undo');
  }

  get canRedo() {
    return done(this.#native.canRedo(this.#number), 'redo');
  }

  stop() {
    done(this.#native.stop(this.#number), 'stop');
  }

  get ending() {
    done(this.#native.ending(this.#number), 'ending');
    return values.ENDINGS[out[0]];
  }

  setEnding(ending) {
    return done(this.#native.setEnding(this.#number, values.endingNumber(ending)), 'ending');
  }

  changes() {
    const found = told(this.#native.changes(this.#number), 'changes');
    return values.listOf(found, CHANGE_VALUES, (it, at) => ({ start: it[at], end: it[at + 1], text: it[at + 2] }));
  }

  // The text

  get length() {
    done(this.#native.length(this.#number), 'length');
    return out[0];
  }

  get lineCount() {
    done(this.#native.lineCount(this.#number), 'lines');
    return out[0];
  }

  get version() {
    done(this.#native.versions(this.#number), 'version');
    return out[0];
  }

  get alternative() {
    done(this.#native.versions(this.#number), 'version');
    return out[1];
  }

  get value() {
    return this.getText();
  }

  getText(start = 0, end = this.length) {
    if (end - start > constants.MAX_STRING_LENGTH)
      throw new TextModelError('LIMIT', `text: a string has at most ${constants.MAX_STRING_LENGTH} units`);
    return told(this.#native.value(this.#number, start, end), 'text');
  }

  line(number) {
    return told(this.#native.line(this.#number, number), 'line');
  }

  positionAt(offset, encoding = 'utf-16') {
    const isThere = done(this.#native.position(this.#number, offset, values.encodingNumber(encoding)), 'position');
    if (!isThere) throw new TextModelError('RANGE', `position: ${offset} is no place of the text`);
    return { line: out[0], character: out[1] };
  }

  offsetAt({ line, character }, encoding = 'utf-16') {
    const isThere = done(this.#native.offset(this.#number, line, character, values.encodingNumber(encoding)), 'offset');
    if (!isThere) throw new TextModelError('RANGE', `offset: ${line}:${character} is no position of the text`);
    return out[0];
  }

  stops(line, encoding = 'utf-16') {
    return Array.from(told(this.#native.stops(this.#number, line, values.encodingNumber(encoding)), 'stops'));
  }

  find({ text, from, back = false, most = 0 }) {
    const first = from === undefined ? (back ? Number.MAX_SAFE_INTEGER : 0) : values.natural(from, 'from');
    const found = told(this.#native.find(this.#number, text, first, back, values.natural(most, 'most')), 'find');
    return values.listOf(found, SPAN_NUMBERS, (it, at) => ({ start: it[at], end: it[at + 1] }));
  }

  // Decorations

  decorate(owner, { add = [], remove = [] }) {
    const added = [...add];
    const removed = Float64Array.from(remove, (id) => values.natural(id, 'decoration'));
    const status = this.#native.decorate(this.#number, values.natural(owner, 'owner'), removed, values.newDecorations(added));
    if (status !== STATUS.OK) throw refusal(status, 'decorate', tellsItem(status) ? TOLD_OF_DECORATIONS : undefined);
    const first = out[0];
    return added.map((_, at) => first + at);
  }

  decoration(id) {
    return done(this.#native.decoration(this.#number, id), 'decoration') ? decorationOf(out, 0) : undefined;
  }

  decorations(start, end, owner) {
    const whose = owner === undefined ? 0 : values.natural(owner, 'owner');
    const found = told(this.#native.decorations(this.#number, start, end, whose, owner === undefined), 'decorations');
    return values.listOf(found, DECORATION_NUMBERS, decorationOf);
  }

  // Brackets

  brackets(first, last, encoding = 'utf-16') {
    const found = told(this.#native.brackets(this.#number, first, last, values.encodingNumber(encoding)), 'brackets');
    return values.listOf(found, BRACKET_NUMBERS, bracketOf);
  }

  match({ line, character }, encoding = 'utf-16') {
    const isThere = done(this.#native.match(this.#number, line, character, values.encodingNumber(encoding)), 'match');
    return isThere ? { line: out[0], character: out[1], length: out[2] } : undefined;
  }

  level({ line, character }, encoding = 'utf-16') {
    done(this.#native.level(this.#number, line, character, values.encodingNumber(encoding)), 'level');
    return out[0];
  }

  // Snapshots

  snapshot() {
    done(this.#native.snapshot(this.#number), 'snapshot');
    const [place, id, opened] = [this.#place, out[0], this.#place.opened];
    const read = (most) => {
      if (opened !== place.opened) throw new TextModelError('UNKNOWN', 'snapshot: its document was opened anew');
      return told(place.native.readSnapshot(place.number, id, most), 'snapshot');
    };
    const close = () => {
      if (opened === place.opened) place.native.closeSnapshot(place.number, id);
    };
    return new Snapshot(read, close, this.length);
  }

  // Mirrors

  mirror() {
    done(this.#native.mirror(this.#number), 'mirror');
    return out[0];
  }

  get mirrorState() {
    return done(this.#native.mirrorState(this.#number), 'mirror') ? stateOf() : undefined;
  }

  send() {
    return done(this.#native.send(this.#number), 'send') ? { number: out[0], version: out[1] } : undefined;
  }

  deliver(number) {
    return done(this.#native.deliver(this.#number, number), 'deliver') ? stateOf() : undefined;
  }

  mirrored(line) {
    return told(this.#native.mirrored(this.#number, line), 'mirror');
  }
}

function decorationOf(it, at) {
  const [id, owner, start, end, stick, collapse] = it.subarray(at, at + DECORATION_NUMBERS);
  return { id, owner, start, end, stick: values.STICKS[stick], collapse: collapse === 1 };
}

function bracketOf(it, at) {
  const [line, character, length, kind, level, state] = it.subarray(at, at + BRACKET_NUMBERS);
  return { line, character, length, kind, level, state: STATES[state] };
}

function stateOf() {
  return { version: out[0], length: out[1], lineCount: out[2] };
}

module.exports = { Document, Session, placeOf };
