// The deposit that plays on the first page. The browser computes its generations, and the page says so; its own page
// has those of the archive.

import { depositAddress } from '../shared/address.js';
import { deposit, generation } from '../requests/archive.js';
import { element, icon, withCommas } from '../shared/dom.js';
import { GENERATION_LIMIT } from '../shared/limits.js';
import { Maker } from '../player/maker.js';
import { paint, sizeFor } from '../drawing/draw.js';

/** For how many milliseconds a generation is shown, and after how many it begins again. */
const [SHOWN, LAST] = [100, 300];
/** How much larger than the pattern the view is, and the largest cell in CSS pixels. */
const [ROOM, LARGEST] = [1.5, 8];

export class Playing {
  canvas = element('canvas', { id: 'playing', role: 'img' });
  link = element('a', {});
  pause = element('button', { type: 'button', id: 'pause', hidden: true, click: () => this.#toggle() });
  /** The first generation that it plays, with its record; and the generation at which it starts over. */
  first = 0;
  record = null;
  lastGeneration = LAST;
  #turn = null;
  #view = { left: 0, top: 0, size: 1 };

  /**
   * @param {any} page
   * @param {{ seen: HTMLElement, line: HTMLElement, play: HTMLAnchorElement }} places for the canvas, for a line about
   *   it, and the link that opens the deposit
   */
  constructor(page, places) {
    this.page = page;
    this.places = places;
    this.canvas.redraw = () => this.#draw();
    const watch = new ResizeObserver(() => this.#fit());
    watch.observe(this.canvas);
    page.signal.addEventListener('abort', () => watch.disconnect());
  }

  /**
   * Shows the first of these deposits that the archive gives.
   * @param {import('../shared/collection.js').Item[]} items
   * @returns {Promise<boolean>} whether there is one
   */
  async show(items) {
    const { signal } = this.page;
    for (const { number, at } of items) {
      try {
        const [original, later] = await Promise.all([
          deposit(number, signal),
          at ? generation(number, at, signal) : null,
        ]);
        this.record = (later ?? original).record;
        [this.first, this.lastGeneration] = [at, Math.min(at + LAST, GENERATION_LIMIT)];
        this.name = original.record.name ?? `Deposit ${withCommas(number)}`;
        this.#begin(depositAddress(number, at));
        return true;
      } catch (error) {
        signal.throwIfAborted();
        if (!['withdrawn', 'no-such-deposit', 'out-of-limit'].includes(error.name)) throw error;
      }
    }
    return false;
  }

  #begin(address) {
    const { seen, line, play } = this.places;
    play.href = this.link.href = address;
    play.ariaLabel = `Play ${this.name}`;
    this.link.replaceChildren(this.name);
    line.replaceChildren(this.link, ', computed by your browser');
    this.canvas.setAttribute('aria-label', this.name);
    seen.append(this.canvas, this.pause);
    this.shown = { pattern: this.record.pattern, corner: { column: 0, row: 0 } };
    this.at = this.first;
    this.#fit();
  }

  /** Plays it, unless the member wants to see no motion. Without a worker it stays as it is. */
  run() {
    try {
      this.maker = new Maker(null, GENERATION_LIMIT, this.page.signal);
    } catch {
      return;
    }
    this.maker.begin(this.record, this.first);
    this.pause.hidden = false;
    this.#mark();
    if (!matchMedia('(prefers-reduced-motion: reduce)').matches) this.#toggle();
  }

  #toggle() {
    this.#turn = this.#turn ? null : {};
    this.#mark();
    if (this.#turn) this.#play(this.#turn);
  }

  #mark() {
    this.pause.replaceChildren(icon(this.#turn ? 'pause' : 'play'));
    this.pause.ariaLabel = this.pause.title = this.#turn ? 'Pause' : 'Play here';
  }

  async #play(turn) {
    const isSeen = () => !document.hidden && this.canvas.getBoundingClientRect().bottom > 0;
    while (this.#turn === turn && !this.page.signal.aborted) {
      const next = new Promise((resolve) => setTimeout(resolve, SHOWN));
      if (isSeen()) await this.#step().catch(() => { this.#turn = null; });
      await next;
    }
  }

  async #step() {
    if (this.at === this.lastGeneration) {
      this.maker.begin(this.record, this.first);
      this.at = this.first - 1;
    }
    const shown = await this.maker.get(this.at + 1);
    this.at += 1;
    this.shown = shown;
    this.#follow();
    this.#draw();
  }

  /** Fits the view to the first generation. */
  #fit() {
    if (!this.shown) return;
    const scale = Math.min(window.devicePixelRatio || 1, 2);
    this.canvas.width = Math.max(1, Math.round(this.canvas.clientWidth * scale));
    this.canvas.height = Math.max(1, Math.round(this.canvas.clientHeight * scale));
    const { width, height } = this.record.pattern;
    const { width: wide, height: high } = this.canvas;
    this.#view.size = sizeFor(width * ROOM + 2, height * ROOM + 2, wide, high, LARGEST * scale);
    this.#center();
    this.#draw();
  }

  #center() {
    const { size } = this.#view;
    const { pattern, corner } = this.shown;
    this.#view.left = corner.column + pattern.width / 2 - this.canvas.width / size / 2;
    this.#view.top = corner.row + pattern.height / 2 - this.canvas.height / size / 2;
  }

  /** Moves the view along with a pattern that fits into it, such as a spaceship, and back at its beginning. */
  #follow() {
    const { left, top, size } = this.#view;
    const { pattern: { width, height }, corner: { column, row } } = this.shown;
    const [wide, high] = [this.canvas.width / size, this.canvas.height / size];
    const isInside = column >= left && row >= top && column + width <= left + wide && row + height <= top + high;
    if (this.at === this.first || (!isInside && width <= wide && height <= high)) this.#center();
  }

  #draw() {
    if (this.shown) paint(this.canvas, this.shown.pattern, { ...this.#view, place: this.shown.corner, grid: false });
  }
}
