'use strict';
// A text document that is a string with the starts of its lines, by the rules that language servers know. The tests compare with
// it, and so does bench.js.

const isEnding = (unit) => unit === 10 || unit === 13;

/** Where the lines behind those of a text begin, `from` units further on. */
function startsIn(text, from) {
  const found = [];
  for (let at = 0; at < text.length; at++) {
    const unit = text.charCodeAt(at);
    if (!isEnding(unit)) continue;
    if (unit === 13 && text.charCodeAt(at + 1) === 10) at++;
    found.push(from + at + 1);
  }
  return found;
}

class Plain {
  constructor(text) {
    this.text = text;
    this.starts = [0].concat(startsIn(text, 0));
  }

  get lineCount() {
    return this.starts.length;
  }

  getText(range) {
    return range ? this.text.substring(this.offsetAt(range.start), this.offsetAt(range.end)) : this.text;
  }

  positionAt(offset) {
    offset = Math.max(Math.min(offset, this.text.length), 0);
    const line = this.lineOf(offset);
    return { line, character: this.beforeEnding(offset, this.starts[line]) - this.starts[line] };
  }

  offsetAt({ line, character }) {
    if (line >= this.starts.length) return this.text.length;
    if (line < 0) return 0;
    const start = this.starts[line];
    const next = this.starts[line + 1] ?? this.text.length;
    return character <= 0 ? start : this.beforeEnding(Math.min(start + character, next), start);
  }

  beforeEnding(offset, start) {
    while (offset > start && isEnding(this.text.charCodeAt(offset - 1))) offset--;
    return offset;
  }

  lineOf(offset) {
    let [low, high] = [0, this.starts.length];
    while (low < high) {
      const middle = (low + high) >> 1;
      if (this.starts[middle] > offset) high = middle;
      else low = middle + 1;
    }
    return low - 1;
  }

  /** Replaces a range, and moves the starts of the lines behind it. */
  replace(range, text) {
    const [one, other] = [this.offsetAt(range.start), this.offsetAt(range.end)];
    this.edit(Math.min(one, other), Math.max(one, other), text);
  }

  edit(start, end, text) {
    const [first, last] = [this.lineOf(start), this.lineOf(end)];
    const moved = text.length - (end - start);
    this.text = this.text.slice(0, start) + text + this.text.slice(end);
    const added = startsIn(text, start);
    for (let line = last + 1; line < this.starts.length; line++) this.starts[line] += moved;
    if (added.length < 10000) this.starts.splice(first + 1, last - first, ...added);
    else this.starts = this.starts.slice(0, first + 1).concat(added, this.starts.slice(last + 1));
  }

  /** Looks for the lines anew: an edit may have made a CR LF of a CR and an LF, or two of one. */
  parse() {
    this.starts = [0].concat(startsIn(this.text, 0));
  }
}

module.exports = { Plain };
