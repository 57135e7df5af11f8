// A plot of the population over time: of the generations that were shown and, in the background, of all from the first
// on. A click opens one.

import { element, withCommas } from '../shared/dom.js';
import { GENERATION_LIMIT } from '../shared/limits.js';

const HEIGHT = 48;
/** The axis has at least this many generations, so that the first ones are no wide blocks. */
const SHORTEST = 16;

export class Plot {
  #populations = new Float64Array(GENERATION_LIMIT + 1).fill(-1);
  #most = 1;
  #lastGeneration = 0;
  #at = 0;
  #asked = false;

  /** A plot that calls `go` with the generation that is clicked. @param {(at: number) => void} go */
  constructor(go) {
    this.canvas = element('canvas', { class: 'plot', role: 'img', click: (event) => {
      const box = this.canvas.getBoundingClientRect();
      go(Math.min(Math.round((event.clientX - box.left) / box.width * this.#length), GENERATION_LIMIT));
    } });
    this.canvas.redraw = () => this.#draw();
    this.words = element('figcaption', { class: 'source' });
    this.figure = element('figure', { class: 'population' }, this.canvas, this.words);
  }

  /** How many generations the axis has: as many as are known. */
  get #length() {
    return Math.max(SHORTEST, this.#lastGeneration);
  }

  /** Takes the population of a generation that is shown. */
  add(at, population) {
    this.#put(at, population);
    this.#at = at;
    this.#draw();
  }

  /**
   * Takes the populations of generations that are not shown. A population that is known stays.
   * @param {number} from
   * @param {number[]} populations
   */
  fill(from, populations) {
    for (const [step, population] of populations.entries()) {
      if (this.#populations[from + step] < 0) this.#put(from + step, population);
    }
    this.#draw();
  }

  #put(at, population) {
    this.#populations[at] = population;
    this.#most = Math.max(this.#most, population);
    this.#lastGeneration = Math.max(this.#lastGeneration, at);
  }

  #draw() {
    if (this.#asked) return;
    this.#asked = true;
    requestAnimationFrame(() => {
      this.#asked = false;
      this.#paint();
    });
  }

  #paint() {
    const style = getComputedStyle(document.documentElement);
    const context = this.canvas.getContext('2d');
    const width = this.canvas.width = Math.max(1, this.canvas.clientWidth);
    this.canvas.height = HEIGHT;
    const x = (at) => at / this.#length * (width - 1);
    context.fillStyle = style.getPropertyValue('--quiet');
    for (let at = 0; at <= this.#lastGeneration; at += 1) {
      const population = this.#populations[at];
      if (population >= 0) {
        context.fillRect(
          x(at),
          HEIGHT - population / this.#most * (HEIGHT - 2),
          1,
          Math.max(1, population / this.#most * (HEIGHT - 2)),
        );
      }
    }
    context.fillStyle = style.getPropertyValue('--accent');
    context.fillRect(x(this.#at), 0, 1, HEIGHT);
    this.#describe();
  }

  #describe() {
    const [end, most] = [this.#lastGeneration, this.#most].map(withCommas);
    const text = `Population of generations 0 to ${end}: at most ${most}`;
    this.canvas.setAttribute('aria-label', text);
    this.words.replaceChildren(`${text}. Computed by your browser; press to go there.`);
  }
}
