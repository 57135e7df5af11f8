// Drawing cells smaller than a pixel: the color of each pixel shows the share of it that is live.

import { OLDEST, between, shadesOfAges } from './shades.js';

/** How much of a pixel a lone cell darkens, however small it is, so that it is seen. */
const FAINTEST = 0.3;
/** How many different shares have their own color. */
const SHARES = 64;

/**
 * Adds a span of a line, from one position to another in pixels: each pixel gains the part of it that is covered.
 * @param {Float32Array} covered
 * @param {number} line the index of the line's first pixel
 * @param {number} begin
 * @param {number} end
 * @param {number} weight
 */
function addSpan(covered, line, begin, end, weight) {
  const [firstPixel, lastPixel] = [Math.floor(begin), Math.floor(end)];
  if (firstPixel === lastPixel) {
    covered[line + firstPixel] += (end - begin) * weight;
    return;
  }
  covered[line + firstPixel] += (firstPixel + 1 - begin) * weight;
  for (let at = firstPixel + 1; at < lastPixel; at += 1) covered[line + at] += weight;
  if (end > lastPixel) covered[line + lastPixel] += (end - lastPixel) * weight;
}

/**
 * How much of each pixel is covered by live cells smaller than a pixel; `weights` has a weight for each cell of the
 * box, if they have weights.
 * @returns {Float32Array}
 */
function coverOf(width, height, pattern, view, weights) {
  const covered = new Float32Array(width * height);
  const { size } = view;
  for (let row = 0; row < pattern.height; row += 1) {
    const top = (row + view.place.row - view.top) * size;
    const line = Math.floor(top);
    // A row is less than a pixel high, so it covers one line or two.
    const below = Math.max(0, top + size - line - 1);
    for (const [at, share] of [[line, size - below], [line + 1, below]]) {
      if (at >= 0 && at < height && share > 1e-9) {
        coverLine(
          covered,
          at * width,
          width,
          pattern.rows[row],
          share,
          view,
          weights && weights.subarray(row * pattern.width),
        );
      }
    }
  }
  return covered;
}

/** Adds the runs of a row to a line of pixels. */
function coverLine(covered, line, width, runs, share, view, weights) {
  const { size } = view;
  const shift = view.place.column - view.left;
  const add = (from, to, weight) => {
    const [begin, end] = [Math.max(0, (from + shift) * size), Math.min(width, (to + shift) * size)];
    if (begin < end) addSpan(covered, line, begin, end, share * weight);
  };
  for (let at = 0; at < runs.length; at += 2) {
    if (!weights) add(runs[at], runs[at + 1], 1);
    else for (let column = runs[at]; column < runs[at + 1]; column += 1) add(column, column + 1, weights[column]);
  }
}

/**
 * Draws a pattern with cells smaller than a pixel: each pixel gets the color of its share of live cells, and a lone
 * cell stays visible.
 */
export function paintShares(words, width, height, pattern, view, shades) {
  const covered = coverOf(width, height, pattern, view, null);
  const ages = view.ages ? coverOf(width, height, pattern, view, view.ages) : null;
  const colors = (ages ? shadesOfAges(shades) : [shades.live]).map((live) => (
    Array.from({ length: SHARES + 1 }, (_, share) => between(shades.dead, live, share / SHARES))
  ));
  const lone = FAINTEST / view.size ** 2;
  for (let at = 0; at < covered.length; at += 1) {
    const share = covered[at];
    // A share this small is a rounding error.
    if (share < 1e-4) continue;
    const seen = Math.min(1, Math.max(share, Math.min(FAINTEST, share * lone)));
    words[at] = colors[ages ? Math.min(OLDEST, Math.round(ages[at] / share)) : 0][Math.round(seen * SHARES)];
  }
}
