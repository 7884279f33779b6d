'use strict';
// The addon, and what its statuses mean.

const native = load();
const STATUSES = ['OK', 'NOTHING', 'UNKNOWN', 'RANGE', 'OVERLAP', 'LIMIT', 'MEMORY', 'ENCODING', 'EMPTY', 'SHORT', 'JOINT', 'GAP'];
const STATUS = Object.freeze(Object.fromEntries(STATUSES.map((name, number) => [name, number])));
const MAJOR = 1;

function load() {
  try {
    return require('../build/textmodel.node');
  } catch (error) {
    const hint = 'make builds the addon, and finds the library by pkg-config or where TEXTMODEL_LIB says';
    throw new Error(`textmodel: the addon is not there or cannot be loaded: ${hint}`, { cause: error });
  }
}

function spelled(version) {
  return [version / 10000, (version / 100) % 100, version % 100].map(Math.floor).join('.');
}

const libraryVersion = spelled(native.version);
if (Math.floor(native.version / 10000) !== MAJOR)
  throw new Error(`textmodel: the library has version ${libraryVersion}, and major version ${MAJOR} is needed`);

// The fields of a fault that its status sets, in `out`. A field of -1 is not set.
const TOLD = {
  [STATUS.ENCODING]: { index: 0 },
  [STATUS.JOINT]: { document: 1 },
  [STATUS.GAP]: { have: 2, need: 3 },
};
const TOLD_OF_EDITS = { index: 0, document: 1 };
const TOLD_OF_DECORATIONS = { index: 0 };

class TextModelError extends Error {
  constructor(code, message, fields = {}) {
    super(message);
    this.code = code;
    Object.assign(this, fields);
  }
}
Object.defineProperty(TextModelError.prototype, 'name', { value: 'TextModelError', configurable: true, writable: true });

/** The fields of the last fault, as a table says where they stand. */
function faultFields(table) {
  if (native.out[0] < 0 && table.index !== undefined) return {};
  return Object.fromEntries(Object.entries(table).map(([name, at]) => [name, native.out[at]]));
}

/** The error of a status. */
function refusal(status, what, table = TOLD[status] ?? {}) {
  const fields = faultFields(table);
  const details = Object.entries(fields).map(([name, value]) => `, ${name} ${value}`);
  return new TextModelError(STATUSES[status] ?? 'UNKNOWN', `${what}: ${native.messages[status]}${details.join('')}`, fields);
}

/** Throws if a call was refused; else returns whether it did or found something. */
function done(status, what) {
  if (status > STATUS.NOTHING) throw refusal(status, what);
  return status === STATUS.OK;
}

/** Returns the result of a call; throws if it is the status of a refusal. */
function told(answer, what) {
  if (typeof answer === 'number') throw refusal(answer, what);
  return answer;
}

module.exports = {
  libraryVersion, native, STATUS, TextModelError, TOLD_OF_DECORATIONS, TOLD_OF_EDITS, done, refusal, told,
};
