// A pattern is a set of live cells whose least column and row are 0, as `rle.js` reads it: width, height, population,
// and for each row its runs `[begin, end, begin, end, ..]`. The archive gives each generation that way, so this module
// computes how far its corner has moved, and how a speed is written.

const EMPTY = [];

/** Writes a row's cells into a line of bytes with a dead margin of two on the left. */
function put(line, runs, value) {
  for (let at = 0; at < runs.length; at += 2) line.fill(value, runs[at] + 2, runs[at + 1] + 2);
}

/**
 * The first live column of the next generation of the middle row among those before `limit`, or `limit`; columns may be
 * -1.
 */
function firstLive(lines, rule, limit) {
  const [above, row, below] = lines;
  for (let column = -1; column < limit; column += 1) {
    const at = column + 2;
    const round = above[at - 1] + above[at] + above[at + 1]
      + row[at - 1] + row[at + 1]
      + below[at - 1] + below[at] + below[at + 1];
    if (row[at] ? rule.survivals[round] : rule.births[round]) return column;
  }
  return limit;
}

/**
 * How far the corner of the next generation is from that of the pattern, in columns and rows; null if the next one is
 * empty.
 */
export function nextCorner(pattern, rule) {
  const { width, height, rows } = pattern;
  const runsOf = (row) => rows[row] ?? EMPTY;
  const lines = [0, 1, 2].map(() => new Uint8Array(width + 5));
  let left = width + 1;
  let top = null;
  put(lines[2], runsOf(0), 1);
  for (let row = -1; row <= height; row += 1) {
    if (runsOf(row - 1).length + runsOf(row).length + runsOf(row + 1).length > 0) {
      const first = firstLive(lines, rule, left);
      // Until a live cell is found, every column is examined; after that only those further left.
      if (first < left) {
        top ??= row;
        left = first;
      }
    }
    put(lines[0], runsOf(row - 1), 0);
    lines.push(lines.shift());
    put(lines[2], runsOf(row + 2), 1);
  }
  return top === null ? null : { column: left, row: top };
}

/** The cells of a pattern as `[column, row]`, row by row. */
export function* cellsOf(pattern) {
  for (let row = 0; row < pattern.height; row += 1) {
    const runs = pattern.rows[row];
    for (let at = 0; at < runs.length; at += 2) {
      for (let column = runs[at]; column < runs[at + 1]; column += 1) yield [column, row];
    }
  }
}

/** Whether two patterns have the same cells. */
export function isSame(pattern, other) {
  return pattern.width === other.width && pattern.height === other.height && pattern.population === other.population
    && pattern.rows.every((runs, row) => (
      runs.length === other.rows[row].length && runs.every((column, at) => column === other.rows[row][at])
    ));
}

const divisor = (number, other) => (other === 0 ? number : divisor(other, number % other));

/**
 * The speed of a spaceship that moves by columns and rows in a period, as it is usually written: `c/4 diagonal`,
 * `2c/5 orthogonal`, `(2,1)c/6`.
 * @param {number} columns
 * @param {number} rows
 * @param {number} period
 */
export function speedText(columns, rows, period) {
  const [near, far] = [Math.abs(columns), Math.abs(rows)].sort((distance, other) => distance - other);
  const common = divisor(divisor(far, near), period);
  const [shortWay, longWay, time] = [near, far, period].map((number) => number / common);
  const over = time === 1 ? 'c' : `c/${time}`;
  if (shortWay !== 0 && shortWay !== longWay) return `(${longWay},${shortWay})${over}`;
  return `${longWay === 1 ? '' : longWay}${over} ${shortWay === 0 ? 'orthogonal' : 'diagonal'}`;
}
