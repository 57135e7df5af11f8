// Pattern files (docs/FORMATS.md, Pattern files): the record of a file, or its first fault and the line that has it.
// The archive checks deposits; the pages use this to draw a file before, and to draw the archive's answers.

import { GREATEST_COUNT, LONGEST_FILE, LONGEST_SIDE, LONGEST_TEXT, MOST_COMMENTS } from '../shared/limits.js';
import { LIFE, readRule } from './rule.js';

/** Why a file is refused: the number of the fault and of the line, or 0 if it concerns no particular line. */
export class Fault extends Error {
  /** Whether the file only has more comments than the archive takes. */
  isTooMany = false;
  /** The text of a rule that the archive doesn't take. */
  rule = '';

  constructor(number, line = 0, details = {}) {
    super(`fault ${number} of a pattern file`);
    this.number = number;
    this.line = line;
    Object.assign(this, details);
  }
}

/** The lines of a file without line ends: where each begins, and its bytes as one character each. */
function* linesOf(bytes) {
  // One character per byte: characters over 127 are not those of the file, but no syntax depends on them.
  const all = new TextDecoder('latin1').decode(bytes);
  for (let begin = 0, number = 1; begin < all.length; number += 1) {
    const found = all.indexOf('\n', begin);
    const end = found < 0 ? all.length : found;
    yield { number, begin, text: all.slice(begin, end) };
    begin = end + 1;
  }
}

/** The text after the mark of a line, without blanks at its ends, and its length in bytes. */
function textOf(bytes, line) {
  const [blanks] = /^[ \t\r]*/.exec(line.text);
  const rest = line.text.slice(blanks.length + 2);
  const [before] = /^[ \t\r]*/.exec(rest);
  const length = rest.replace(/[ \t\r]+$/, '').length - before.length;
  const begin = line.begin + blanks.length + 2 + before.length;
  return length <= 0
    ? { length: 0, text: '' }
    : { length, text: new TextDecoder().decode(bytes.subarray(begin, begin + length)) };
}

/** The content of the `#` lines before the header. */
class Notes {
  name = null;
  author = null;
  comments = [];
  rule = null;
  /** The lines of comments beyond those that the archive takes. */
  left = [];

  constructor(isCut) {
    this.isCut = isCut;
  }

  take(bytes, line) {
    const bare = line.text.replace(/^[ \t\r]+/, '');
    const mark = bare.slice(0, 2);
    if (bare.startsWith('#CXRLE')) return;
    const { length, text } = textOf(bytes, line);
    if (mark === '#r') {
      if (length > 0) this.rule ??= { text: line.text.slice(line.text.indexOf('#r') + 2), line: line.number };
    } else if (mark === '#N' || mark === '#O') {
      if (length > 0) this.#keep(mark === '#N' ? 'name' : 'author', length, text, line);
    } else if (mark === '#C' || mark === '#c') {
      this.#keep('comment', length, text, line);
    }
  }

  #keep(kind, length, text, line) {
    const isComment = kind === 'comment' || this[kind] !== null;
    const isFull = isComment && this.comments.length === MOST_COMMENTS;
    if (isFull && this.isCut) {
      this.left.push(line);
      return;
    }
    if (length > LONGEST_TEXT) throw new Fault(2, line.number);
    if (isFull) throw new Fault(2, line.number, { isTooMany: true });
    if (isComment) this.comments.push(text);
    else this[kind] = text;
  }
}

/** The rule in the header, otherwise the one in the `#` lines, otherwise Life. */
function ruleOf(line, notes) {
  const bare = line.text.replace(/[ \t\r]/g, '');
  if (!/^[xX]/.test(bare)) throw new Fault(3, line.number);
  const found = /^x=[0-9]+,y=[0-9]+(?:,rule=(.*))?$/is.exec(bare);
  if (!found) throw new Fault(4, line.number);
  if (found[1] === undefined && notes.rule === null) return LIFE;
  const [text, number] = found[1] === undefined ? [notes.rule.text, notes.rule.line] : [found[1], line.number];
  const rule = readRule(text);
  if (typeof rule === 'string') throw new Fault(rule === 'bad-rule' ? 5 : 6, number, { rule: text });
  return rule;
}

/** Reads the body item by item: the runs of live cells, at their positions in the file. */
class Body {
  constructor(widest) {
    this.widest = widest;
    this.rows = new Map();
    this.column = 0;
    this.row = 0;
    this.count = 0;
    this.counted = false;
    this.ended = false;
  }

  take(byte, line) {
    if (byte >= '0' && byte <= '9') {
      this.count = Math.min(this.count * 10 + Number(byte), GREATEST_COUNT + 1);
      this.counted = true;
      return;
    }
    if (this.counted && (this.count === 0 || this.count > GREATEST_COUNT)) throw new Fault(8, line);
    const many = this.counted ? this.count : 1;
    if (byte === 'b') this.column += many;
    else if (byte === 'o') this.#live(many, line);
    else if (byte === '$') {
      this.row += many;
      this.column = 0;
    } else if (byte === '!') {
      if (this.counted) throw new Fault(8, line);
      this.ended = true;
    } else throw new Fault(7, line);
    this.count = 0;
    this.counted = false;
  }

  #live(many, line) {
    const end = this.column + many;
    if (end - 1 > this.widest || this.row > this.widest) throw new Fault(9, line);
    if (!this.rows.has(this.row)) this.rows.set(this.row, []);
    const runs = this.rows.get(this.row);
    if (runs.at(-1) === this.column) runs[runs.length - 1] = end;
    else runs.push(this.column, end);
    this.column = end;
  }
}

/** The cells moved so that the least column and row are 0: for each row its runs, `[begin, end, begin, end, ..]`. */
export function normal(rows) {
  const numbers = [...rows.keys()];
  if (numbers.length === 0) return { width: 0, height: 0, population: 0, rows: [] };
  const top = numbers[0];
  const height = numbers.at(-1) - top + 1;
  let left = Infinity;
  let right = 0;
  let population = 0;
  for (const runs of rows.values()) {
    left = Math.min(left, runs[0]);
    right = Math.max(right, runs.at(-1));
    for (let at = 0; at < runs.length; at += 2) population += runs[at + 1] - runs[at];
  }
  const moved = Array.from({ length: height }, (_, row) => (rows.get(row + top) ?? []).map((column) => column - left));
  return { width: right - left, height, population, rows: moved };
}

/**
 * The record of a file: its texts, its rule and its pattern. With `ours`, for a file from the archive itself, it may be
 * longer and wider. With `isCut`, the comments after the last one that the archive takes are left out, and `left` has
 * their lines.
 */
export function readFile(bytes, { ours = false, isCut = false } = {}) {
  if (!ours && bytes.length > LONGEST_FILE) throw new Fault(1);
  const notes = new Notes(isCut);
  const body = new Body(ours ? Infinity : LONGEST_SIDE - 1);
  let rule = null;
  let lastLine = 0;
  for (const line of linesOf(bytes)) {
    lastLine = line.number;
    const bare = line.text.replace(/^[ \t\r]+/, '');
    if (bare === '') continue;
    if (bare.startsWith('#')) {
      if (rule === null) notes.take(bytes, line);
    } else if (rule === null) {
      rule = ruleOf(line, notes);
    } else {
      for (const byte of bare) {
        if (byte === ' ' || byte === '\t' || byte === '\r') continue;
        body.take(byte, line.number);
        if (body.ended) break;
      }
      if (body.ended) break;
    }
  }
  if (rule === null) throw new Fault(3, 0);
  if (!body.ended) throw new Fault(body.counted ? 8 : 10, lastLine);
  return {
    name: notes.name,
    author: notes.author,
    comments: notes.comments,
    left: notes.left,
    rule,
    pattern: normal(body.rows),
  };
}
