// The age of each live cell: for how many generations it has been live without a break, including the one shown. Ages
// have a maximum, so only a few earlier generations, which the page computes, are needed.

import { OLDEST } from '../drawing/shades.js';

/**
 * The ages of a generation's cells, row by row in its box; if the generation before is unknown, every cell has age 1.
 */
function agesOf({ pattern: { width, height, rows }, corner }, before) {
  const ages = new Uint8Array(width * height);
  const right = before ? corner.column - before.corner.column : 0;
  const down = before ? corner.row - before.corner.row : 0;
  for (let row = 0; row < height; row += 1) {
    const runs = rows[row];
    const was = before && row + down >= 0 && row + down < before.height ? (row + down) * before.width : -1;
    for (let at = 0; at < runs.length; at += 2) {
      for (let column = runs[at]; column < runs[at + 1]; column += 1) {
        const inside = was >= 0 && column + right >= 0 && column + right < before.width;
        ages[row * width + column] = Math.min(OLDEST, 1 + (inside ? before.ages[was + column + right] : 0));
      }
    }
  }
  return { ages, width, height, corner };
}

/** The ages of the cells that a player shows, while they are needed. */
export class Ages {
  isOn = false;
  #wanted = 0;
  /** The ages that were computed last, and their generation. */
  #lastAges = null;

  /** `made(at)` returns a generation that the page computes; `listener` gets the ages of the one shown, or null. */
  constructor(made, listener) {
    this.made = made;
    this.listener = listener;
  }

  /** Turns ages on or off, and returns once they are shown. */
  async turn(isOn) {
    this.isOn = isOn;
    if (isOn) await this.show(this.#wanted);
    else this.listener(null);
  }

  /** Computes the ages of a generation, and reports them if it is still shown. */
  async show(at) {
    this.#wanted = at;
    if (!this.isOn) return;
    try {
      const found = await this.#find(at);
      if (this.isOn && this.#wanted === at) this.listener(found);
    } catch {
      // If the page computes no generations, cells have no age.
    }
  }

  /**
   * @param {number} at
   * @param {boolean} mayBeginAnew whether to try again if the page restarted its generations meanwhile
   */
  async #find(at, mayBeginAnew = true) {
    let { found, of } = this.#lastAges ?? { found: null, of: -Infinity };
    if (of > at || at - of >= OLDEST) [found, of] = [null, Math.max(0, at - OLDEST + 1) - 1];
    for (of += 1; of <= at; of += 1) {
      const made = await this.made(of);
      // Positions from two different starts can't be compared.
      if (found && found.turn !== made.turn) {
        this.#lastAges = null;
        return mayBeginAnew ? this.#find(at, false) : null;
      }
      found = { ...agesOf(made, found), turn: made.turn };
    }
    this.#lastAges = { found, of: at };
    return found;
  }
}
