// A worker that computes generations for playing. Rows are words of 32 cells, and bitwise sums step a word at a time.
// The results are the page's own; the player compares them with the archive's answers.

/** Dead words and rows around the live cells, so that a pattern can grow for some time before it needs more room. */
const MARGIN_WORDS = 2;
const MARGIN_ROWS = 48;
/**
 * The distance between stored generations, so that playing back need not start over; more are stored near the last one.
 */
const KEPT_EACH = 64;
const KEPT_NEAR = 16;
const NEAR = 128;

/** A field of cells: rows of words, and the position of its first column and row on the plane. */
class Field {
  /** @param {number} words @param {number} rows @param {number} column @param {number} row */
  constructor(words, rows, column, row) {
    this.words = words;
    this.rows = rows;
    this.column = column;
    this.row = row;
    this.bits = new Uint32Array(words * rows);
  }

  copy() {
    const other = new Field(0, 0, this.column, this.row);
    [other.words, other.rows, other.bits] = [this.words, this.rows, this.bits.slice()];
    return other;
  }

  set(column, row) {
    this.bits[row * this.words + (column >>> 5)] |= 1 << (column & 31);
  }

  /** The first and last row and word with a live cell; null if no cell is alive. */
  box() {
    const { words, rows, bits } = this;
    let [top, bottom, left, right] = [rows, -1, words, -1];
    for (let row = 0, at = 0; row < rows; row += 1) {
      for (let word = 0; word < words; word += 1, at += 1) {
        if (bits[at] !== 0) {
          top = Math.min(top, row);
          bottom = row;
          left = Math.min(left, word);
          right = Math.max(right, word);
        }
      }
    }
    return bottom < 0 ? null : { top, bottom, left, right };
  }

  /** The same cells with room for a step on all sides. */
  withRoom() {
    const box = this.box();
    if (!box || (box.top > 0 && box.bottom < this.rows - 1 && box.left > 0 && box.right < this.words - 1)) return this;
    const other = new Field(box.right - box.left + 1 + 2 * MARGIN_WORDS, box.bottom - box.top + 1 + 2 * MARGIN_ROWS,
      this.column + (box.left - MARGIN_WORDS) * 32, this.row + box.top - MARGIN_ROWS);
    for (let row = box.top; row <= box.bottom; row += 1) {
      const from = row * this.words;
      other.bits.set(
        this.bits.subarray(from + box.left, from + box.right + 1),
        (row - box.top + MARGIN_ROWS) * other.words + MARGIN_WORDS,
      );
    }
    return other;
  }
}

/** The field of a pattern: for each row its runs. */
function fieldOf(pattern) {
  const field = new Field(Math.ceil(Math.max(1, pattern.width) / 32), Math.max(1, pattern.height), 0, 0);
  for (const [row, runs] of pattern.rows.entries()) {
    for (let at = 0; at < runs.length; at += 2) {
      for (let column = runs[at]; column < runs[at + 1]; column += 1) field.set(column, row);
    }
  }
  return field;
}

/** The sum of each cell with its left and right neighbours, as bits of value 1 and 2, for each word of a row. */
function sumRow(bits, from, words, ones, twos) {
  for (let word = 0; word < words; word += 1) {
    const here = bits[from + word];
    const left = (here << 1) | (word > 0 ? bits[from + word - 1] >>> 31 : 0);
    const right = (here >>> 1) | (word < words - 1 ? bits[from + word + 1] << 31 : 0);
    ones[word] = left ^ here ^ right;
    twos[word] = (left & here) | (right & (left ^ here));
  }
}

/** The counts of nine cells, including the middle one, that make a live cell, for a dead and for a live middle. */
const countsOf = ({ births, survivals }) => ({
  dead: [...births.keys()].filter((count) => births[count]),
  live: [...survivals.keys()].filter((count) => survivals[count]).map((count) => count + 1),
});

/** The cells whose count, given by four words of bits, is one of some numbers. */
function isOneOf(numbers, bit1, bit2, bit4, bit8) {
  let found = 0;
  for (const number of numbers) {
    found |= (number & 1 ? bit1 : ~bit1) & (number & 2 ? bit2 : ~bit2)
      & (number & 4 ? bit4 : ~bit4) & (number & 8 ? bit8 : ~bit8);
  }
  return found;
}

/** The next words of a row, from the sums of the rows above, of it, and below. */
function stepRow(field, next, row, sums, counts) {
  const [[aboveOnes, aboveTwos], [ones, twos], [belowOnes, belowTwos]] = sums;
  for (let word = 0, at = row * field.words; word < field.words; word += 1, at += 1) {
    const [a, b, c] = [aboveOnes[word], ones[word], belowOnes[word]];
    const [d, e, f] = [aboveTwos[word], twos[word], belowTwos[word]];
    if ((a | b | c | d | e | f) === 0) continue;
    const bit1 = a ^ b ^ c;
    const carry = (a & b) | (c & (a ^ b));
    const [low, lowCarry] = [d ^ e, d & e];
    const [high, highCarry] = [f ^ carry, f & carry];
    const bit2 = low ^ high;
    const carried = low & high;
    const bit4 = lowCarry ^ highCarry ^ carried;
    const bit8 = (lowCarry & highCarry) | (carried & (lowCarry ^ highCarry));
    const here = field.bits[at];
    next.bits[at] = (here & isOneOf(counts.live, bit1, bit2, bit4, bit8))
      | (~here & isOneOf(counts.dead, bit1, bit2, bit4, bit8));
  }
}

/** The next generation of a field. */
export function following(source, counts) {
  const field = source.withRoom();
  const next = new Field(field.words, field.rows, field.column, field.row);
  const sums = [0, 1, 2].map(() => [new Uint32Array(field.words), new Uint32Array(field.words)]);
  sumRow(field.bits, 0, field.words, ...sums[2]);
  for (let row = 0; row < field.rows; row += 1) {
    sums.push(sums.shift());
    if (row + 1 < field.rows) sumRow(field.bits, (row + 1) * field.words, field.words, ...sums[2]);
    else sums[2].forEach((words) => words.fill(0));
    stepRow(field, next, row, sums, counts);
  }
  return next;
}

/**
 * Writes the columns at which a row changes from dead to live and back into a list, from an index on; returns the index
 * after them.
 */
function edgesOf(bits, from, words, list, place) {
  let lastBit = 0;
  for (let word = 0; word < words; word += 1) {
    const here = bits[from + word];
    let edges = here ^ ((here << 1) | lastBit);
    lastBit = here >>> 31;
    while (edges !== 0) {
      const lowest = edges & -edges;
      list[place] = word * 32 + 31 - Math.clz32(lowest);
      place += 1;
      edges ^= lowest;
    }
  }
  if (lastBit === 1) {
    list[place] = words * 32;
    place += 1;
  }
  return place;
}

let room = new Int32Array(0);

/**
 * A field as a pattern whose least column and row are 0: its size, its population, and its runs row by row in one list;
 * and its corner.
 */
export function patternOf(field) {
  const longest = field.rows * (field.words * 32 + 1);
  if (room.length < longest) room = new Int32Array(longest);
  const ends = [];
  let [place, left, right, top] = [0, Infinity, 0, -1];
  for (let row = 0; row < field.rows; row += 1) {
    const begin = place;
    place = edgesOf(field.bits, row * field.words, field.words, room, place);
    if (place > begin) {
      if (top < 0) top = row;
      left = Math.min(left, room[begin]);
      right = Math.max(right, room[place - 1]);
    }
    if (top >= 0) ends.push(place);
  }
  while (ends.length > 1 && ends[ends.length - 1] === ends[ends.length - 2]) ends.pop();
  const list = room.slice(0, place);
  return {
    ...counted(list, left),
    width: place === 0 ? 0 : right - left,
    height: ends.length,
    column: field.column + (place === 0 ? 0 : left),
    row: field.row + Math.max(top, 0),
    list,
    ends: Uint32Array.from(ends),
  };
}

/** Moves runs to the left edge, and counts their cells. */
function counted(list, left) {
  let population = 0;
  for (let at = 0; at < list.length; at += 2) {
    population += list[at + 1] - list[at];
    list[at] -= left;
    list[at + 1] -= left;
  }
  return { population };
}

// ---- the worker

/** The stored fields by generation, the first known generation, and the number of the last pattern. */
const state = { kept: new Map(), counts: null, first: 0, turn: 0 };

/** Starts over from a generation: nothing before it is known. */
function begin({ pattern, rule, first, turn }) {
  state.counts = countsOf(rule);
  state.kept = new Map([[first, fieldOf(pattern)]]);
  Object.assign(state, { first, turn });
}

/** Stores a field, and drops those that are far away and not at one of the multiples that stay. */
function keep(at, field) {
  if (at % KEPT_NEAR !== 0 || state.kept.has(at)) return;
  state.kept.set(at, field);
  for (const other of state.kept.keys()) {
    if (other !== state.first && other % KEPT_EACH !== 0 && Math.abs(other - at) > NEAR) state.kept.delete(other);
  }
}

/** Sends every `by`-th generation from one to another, each as a message. */
function answer({ from, to, by, turn }) {
  if (turn !== state.turn) return;
  let at = Math.max(...[...state.kept.keys()].filter((number) => number <= from));
  let field = state.kept.get(at);
  for (; at <= to; at += 1) {
    keep(at, field);
    if (at >= from && (at - from) % by === 0) {
      const found = patternOf(field);
      /** @type {any} */ (globalThis).postMessage({ at, turn, ...found }, [found.list.buffer, found.ends.buffer]);
    }
    if (at < to) field = following(field, state.counts);
  }
}

/** The number of bits that are set in a word. */
function bitsOf(word) {
  let sums = word - ((word >>> 1) & 0x55555555);
  sums = (sums & 0x33333333) + ((sums >>> 2) & 0x33333333);
  return Math.imul((sums + (sums >>> 4)) & 0x0f0f0f0f, 0x01010101) >>> 24;
}

/** @param {Field} field */
export const populationOf = ({ bits }) => bits.reduce((sum, word) => (word === 0 ? sum : sum + bitsOf(word)), 0);

/** For how many milliseconds generations are counted before the page gets the numbers. */
const COUNTING = 50;
const counting = { at: 0, field: null, counts: null };

/** Starts counting from a pattern on. */
function beginCount({ pattern, rule }) {
  Object.assign(counting, { at: 0, field: fieldOf(pattern), counts: countsOf(rule) });
}

/** Sends the populations of the next generations, at least one, up to a last one. */
function count({ lastGeneration }) {
  const [from, populations, begun] = [counting.at, [], performance.now()];
  do {
    populations.push(populationOf(counting.field));
    counting.field = following(counting.field, counting.counts);
    counting.at += 1;
  } while (counting.at <= lastGeneration && performance.now() - begun < COUNTING);
  globalThis.postMessage({ from, populations });
}

/** Handles a message to the worker. */
function act(data) {
  if (data.toCount) beginCount(data);
  else if (data.lastGeneration !== undefined) count(data);
  else if (data.pattern) begin(data);
  else answer(data);
}

if ('WorkerGlobalScope' in globalThis) addEventListener('message', ({ data }) => act(data));
