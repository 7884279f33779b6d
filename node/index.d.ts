/**
 * A proved text model: documents with undo, decorations, brackets, search, snapshots and mirrors.
 *
 * Offsets and lengths count UTF-16 units, as the index of a string does. Offsets, lines and characters count from 0. A valid
 * offset is from 0 to the length of the text, not inside a surrogate pair, and not inside a CR LF if the document has CR LF line
 * endings. A span from `start` up to `end` excludes the unit at `end`; in a valid one both are valid, and `start` is not above
 * `end`. Lone surrogates are allowed.
 *
 * A call that throws has changed nothing. An unknown keyword, as for an encoding, or a value of a wrong type throws a TypeError.
 */

/** Why a call was refused. */
export type ErrorCode =
  /** There is no such decoration, document, snapshot, mirror or event. */
  | 'UNKNOWN'
  /** An offset, position, line, span or other argument is out of range or invalid. */
  | 'RANGE'
  /** Two edits of a batch overlap. */
  | 'OVERLAP'
  /** A limit would be passed: of the library, or of the length of a string. */
  | 'LIMIT'
  /** Out of memory. */
  | 'MEMORY'
  /** The bytes are not valid UTF-8. */
  | 'ENCODING'
  /** The session is closed. */
  | 'EMPTY'
  /** A joint step is not the next one in each of its documents: undo or redo the other steps first. */
  | 'JOINT'
  /** A mirror lacks earlier events. */
  | 'GAP';

/** A call was refused, and changed nothing. */
export class TextModelError extends Error {
  constructor(code: ErrorCode, message: string, fields?: { index?: number; document?: number; have?: number; need?: number });
  readonly code: ErrorCode;
  /**
   * For `ENCODING`, the index of the first invalid byte. For a joint edit or a batch, the index of the invalid edit; for
   * `decorate`, that of the invalid id in `remove` (`UNKNOWN`) or of the invalid decoration in `add` (`RANGE`).
   */
  readonly index?: number;
  /** For a joint edit, the document of the invalid edit. For `JOINT`, a document whose last or next step is another one. */
  readonly document?: number;
  /** For `GAP`, the version of the mirror. */
  readonly have?: number;
  /** For `GAP`, the version from which the event leads. */
  readonly need?: number;
}

/** The version of the library, such as `1.0.0`. */
export const libraryVersion: string;

/** A language in whose comments and strings brackets are ignored. */
export type Language = 'c' | 'python' | 'rust' | 'javascript' | 'shell';

/** The languages that `hiding` may name. */
export const LANGUAGES: readonly Language[];

/** The unit of the character of a position: bytes of UTF-8, UTF-16 units, or code points. */
export type Encoding = 'utf-8' | 'utf-16' | 'utf-32';

/** Line endings: each as it came, or all LF, or all CR LF, in text inserted later too. */
export type Ending = 'mixed' | 'lf' | 'crlf';

/** The ends of a decoration at which typed text makes it grow: both, neither, its start or its end. */
export type Stick = 'both' | 'none' | 'start' | 'end';

/** A line and a character, both from 0. */
export interface Position {
  line: number;
  character: number;
}

/** From one position up to another. */
export interface Range {
  start: Position;
  end: Position;
}

/** The units from `start` up to `end`. */
export interface Span {
  start: number;
  end: number;
}

/** A text that replaces the units from `start` up to `end`. */
export interface Edit extends Span {
  text: string;
  /** Moves decorations at the span to the end of the new text, whatever their `stick`. */
  force?: boolean;
}

/** An edit of a joint edit. */
export interface JointEdit extends Edit {
  /** The number of the document. */
  document: number;
}

/** An edit of the last change. Its span refers to the text after the edits before it. */
export interface Change extends Span {
  text: string;
}

/**
 * The texts that begin and end comments and strings, in which brackets are ignored. If one is left out, there are no such
 * comments or strings. Each text has at most 32 units and no line break.
 */
export interface Marks {
  /** The text that begins a comment up to the end of its line. */
  line?: string;
  /** The texts that begin and end a block comment. */
  block?: readonly [opening: string, closing: string];
  /** At most 8 units, each of which begins and ends strings. A string ends with its line at the latest. */
  quotes?: string;
}

export interface OpenOptions {
  /** `mixed` by default. */
  ending?: Ending;
  /** At most 64 pairs of an opening and a closing text, all different; `()`, `[]` and `{}` by default. */
  brackets?: Iterable<readonly [opening: string, closing: string]>;
  /** The comments and strings: those of a language, or others. There are none by default. */
  hiding?: Language | Marks;
}

export interface FindOptions {
  text: string;
  /** Returns the spans that start at or after this offset; with `back`, those that end at or before it. */
  from?: number;
  /** Returns the last span first. */
  back?: boolean;
  /** Returns at most this many; all by default, or if it is 0. */
  most?: number;
}

export interface NewDecoration extends Span {
  /** `both` by default. */
  stick?: Stick;
  /** Whether it becomes empty if an edit replaces all of its text. */
  collapse?: boolean;
}

export interface Decoration extends Required<NewDecoration> {
  id: number;
  owner: number;
}

/** The opening or closing bracket of a pair; an opening one never closed; or a closing one without an opening one. */
export type BracketState = 'opening' | 'closing' | 'unclosed' | 'unexpected';

export interface Bracket extends Position {
  /** Its length, in the unit of the character. */
  length: number;
  /** The index of its pair, from 0. */
  kind: number;
  /** The number of brackets open around it. */
  level: number;
  state: BracketState;
}

/** The other bracket of a pair. */
export interface Partner extends Position {
  length: number;
}

/** A change that a mirror can take: its number, from 1, and the version before it. */
export interface Event {
  number: number;
  version: number;
}

export interface MirrorState {
  version: number;
  length: number;
  lineCount: number;
}

/** 64 documents, numbered from 0 to 63, all empty at first. `close` or the garbage collector frees them. */
export class Session {
  constructor();
  /** Returns the document with this number; the same object each time. `UNKNOWN` if there is none. */
  document(number: number): Document;
  /**
   * Carries out edits in one or several documents, all or none. The edits of one document are adjacent, and their spans refer to
   * its text before the call. Edits of several documents are one step, which one undo reverts in all of them. `RANGE`, `UNKNOWN`,
   * `OVERLAP`, each with `index` and `document`; `LIMIT`.
   */
  joint(edits: Iterable<JointEdit>): void;
  readonly closed: boolean;
  /** Frees all documents now. Later calls on them throw `EMPTY`. */
  close(): void;
}

/** A text with its history, decorations and brackets: one of the documents of a session, or one in a session of its own. */
export class Document {
  /** Makes a document in a session of its own. See `open`. */
  constructor(text?: string | Uint8Array, options?: OpenOptions);
  /**
   * Replaces the document by a new one, in version 1. Decorations, snapshots, history, mirror and events are lost. Bytes are
   * UTF-8: `ENCODING` with the `index` of the first invalid byte. `RANGE` if brackets or marks are invalid; `LIMIT`.
   */
  open(text?: string | Uint8Array, options?: OpenOptions): void;
  readonly session: Session;
  /** The number of the document in its session. */
  readonly number: number;
  readonly closed: boolean;
  /** Frees a document with a session of its own now. For a document of another session it throws an Error: close the session. */
  close(): void;

  /** Replaces the units from `start` up to `end` by the text. `RANGE` if the span is invalid; `LIMIT`. */
  edit(start: number, end: number, text: string): void;
  /** Like `edit`, from one position up to another. */
  editAt(range: Range, text: string, encoding?: Encoding): void;
  /**
   * Carries out several edits, all or none. Spans refer to the text before the call. `RANGE` and `OVERLAP` with `index`;
   * `LIMIT`.
   */
  batch(edits: Iterable<Edit>): void;
  /** Replaces each span that `find` finds, as one undo step. Returns their number. `RANGE` if the sought text is empty; `LIMIT`. */
  replaceAll(sought: string, replacement: string): number;

  /** Undoes the last step, in all of its documents; false if there is none. `JOINT` if it is not the last step of each. */
  undo(): boolean;
  /**
   * Redoes the step that was undone last, in all of its documents; false if there is none. `JOINT` if it is not the next step
   * of each.
   */
  redo(): boolean;
  readonly canUndo: boolean;
  readonly canRedo: boolean;
  /** Makes the next edit begin a new undo step. Without it, consecutive edits are one step. */
  stop(): void;
  readonly ending: Ending;
  /** Converts all line endings to this kind, as an undo step of its own; false if the document has it already. `LIMIT`. */
  setEnding(ending: Ending): boolean;
  /**
   * Returns the edits of the last change, which is an edit, an undo, a redo or new line endings. Applied in order, they turn the
   * text before it into the present one. Empty in version 1.
   */
  changes(): Change[];

  /** The length of the text in units. */
  readonly length: number;
  /** The number of lines, at least 1. */
  readonly lineCount: number;
  /** The version: 1 at first, and 1 more after each change, an undo too. */
  readonly version: number;
  /** An edit sets it to the version. An undo or redo restores that of the text that it restores. */
  readonly alternative: number;
  /** The text. `LIMIT` if it is longer than a string may be. */
  readonly value: string;
  /** The text from `start`, by default 0, up to `end`, by default the end. `RANGE`; `LIMIT` as for `value`. */
  getText(start?: number, end?: number): string;
  /** The line with this number, from 0, without its line ending. `RANGE` if there is none. */
  line(number: number): string;
  /** The position of an offset. `RANGE` if the offset is invalid. */
  positionAt(offset: number, encoding?: Encoding): Position;
  /** The offset of a position. `RANGE` if the position is invalid: it is not clamped. */
  offsetAt(position: Position, encoding?: Encoding): number;
  /** The characters of a line at which a cursor may stop, except its end: the starts of grapheme clusters. `RANGE`. */
  stops(line: number, encoding?: Encoding): number[];
  /** The valid spans at which the text occurs; none overlaps the one before. `RANGE` if the text is empty. */
  find(options: FindOptions): Span[];

  /**
   * Removes decorations of an owner, a number from 0 on, and adds others, all or none. Returns the ids of the new ones. `UNKNOWN` if
   * one to be removed is missing, has another owner, or is repeated; `RANGE` if a span is invalid; `LIMIT`.
   */
  decorate(owner: number, changes: { add?: Iterable<NewDecoration>; remove?: Iterable<number> }): number[];
  /** The decoration with this id, or undefined. */
  decoration(id: number): Decoration | undefined;
  /** The decorations that overlap or touch a span, those of an owner or all. `RANGE` if the span is invalid. */
  decorations(start: number, end: number, owner?: number): Decoration[];

  /** The brackets of the lines from `first` to `last`, both included. `RANGE` if a line is missing. */
  brackets(first: number, last: number, encoding?: Encoding): Bracket[];
  /**
   * The bracket that matches the one at a position; undefined if no bracket starts there, or it has no match. `RANGE` if the
   * position is invalid.
   */
  match(position: Position, encoding?: Encoding): Partner | undefined;
  /** The number of brackets that are open after those that start before a position. `RANGE` if the position is invalid. */
  level(position: Position, encoding?: Encoding): number;

  /** Keeps the present text, to be read while the document changes. `LIMIT` if 1,000 are open. */
  snapshot(): Snapshot;

  /** Starts a mirror with the present text: a second text that follows the document by its events. Returns its version. */
  mirror(): number;
  /** The state of the mirror, or undefined. */
  readonly mirrorState: MirrorState | undefined;
  /** Keeps the last change as an event; undefined in version 1. `LIMIT` if 65,536 were sent. */
  send(): Event | undefined;
  /**
   * Delivers an event to the mirror. Returns its new state, or undefined if it is past that event. `GAP` if it lacks earlier
   * ones; `UNKNOWN`.
   */
  deliver(number: number): MirrorState | undefined;
  /** A line of the mirror, from 0, without its line ending. `UNKNOWN` if there is no mirror; `RANGE`. */
  mirrored(line: number): string;
}

/**
 * The text that a document had, as an iterator of its parts. It is closed at its end, when a loop over it ends, by `close`, or by
 * the garbage collector. A read after that, or after its document was opened anew, throws `UNKNOWN`.
 */
export class Snapshot implements IterableIterator<string> {
  private constructor();
  /**
   * The next units, at most `most`, one fewer if that would split a surrogate pair. Empty at the end. `RANGE` if `most` is
   * below 2.
   */
  read(most?: number): string;
  /** Closes it. Does nothing if it is closed already. */
  close(): void;
  next(): IteratorResult<string, undefined>;
  return(): IteratorResult<string, undefined>;
  [Symbol.iterator](): this;
}

/** A change of a text document: of a range, or of all of it. */
export type TextDocumentContentChangeEvent = { range: Range; rangeLength?: number; text: string } | { text: string };

/** A text that replaces a range. */
export interface TextEdit {
  range: Range;
  newText: string;
}

/**
 * A text document as language servers know it. Lines and characters count from 0; characters count UTF-16 units. Positions and
 * offsets out of range are clamped: a character beyond its line to the end of the line, before the line ending; a line beyond the
 * last to the end of the text; a number below 0 to 0. A position may be inside a surrogate pair. Lines end with LF, CR LF or CR.
 * The language chooses the comments and strings of `model`.
 */
export class TextDocument {
  private constructor();
  /** Makes a document. `close` or the garbage collector frees it. */
  static create(uri: string, languageId: string, version: number, content: string): TextDocument;
  /** Applies the changes in order. Each range refers to the text after the changes before it. Returns the document itself. */
  static update(document: TextDocument, changes: readonly TextDocumentContentChangeEvent[], version: number): TextDocument;
  /**
   * Returns the text that the edits would give; the document is unchanged. Their ranges refer to its text. Throws an Error if
   * they overlap.
   */
  static applyEdits(document: TextDocument, edits: readonly TextEdit[]): string;
  readonly uri: string;
  readonly languageId: string;
  /** The version that the client sent. */
  readonly version: number;
  readonly lineCount: number;
  /** The document of the model, for brackets, undo and more. */
  readonly model: Document;
  /** The text, or that of a range. */
  getText(range?: Range): string;
  positionAt(offset: number): Position;
  offsetAt(position: Position): number;
  /** Frees the document now. */
  close(): void;
}
