// Playing a deposit. When stopped, it shows the archive's own answer. While it plays, the page computes the generations
// itself (maker.js), and compares every hundredth one, and the one at which it stops, with the archive's.

import { generation } from '../requests/archive.js';
import { GENERATION_LIMIT } from '../shared/limits.js';
import { Maker } from './maker.js';
import { isSame, nextCorner } from '../patterns/pattern.js';

const TOGETHER = 3;
const KEPT = 160;
const COMPARED_EACH = 100;
/** How many generations are requested ahead while it rests. */
const RESTING = 2;
/** The longest jump whose position is computed by steps, and the most cells that the boxes of these steps may have. */
const NEAR = 256;
const FEW_CELLS = 20_000_000;
/** How far back the page starts computing when it plays backwards, at least; farther if the pattern is small. */
const BACK = 64;
/** Frames per second: at higher speeds, a frame advances several generations. */
const MOST_PICTURES = 60;

export class Player {
  #known = new Map();
  #places = new Map();
  #going = new Map();
  #timer = null;
  /** The generation that is shown, and the one that is requested. */
  at = 0;
  wanted = 0;
  /** 1 while it plays forward, -1 while it plays back, otherwise 0. */
  direction = 0;
  /** Generations per second. */
  speed = 10;
  /** The generation at which the pattern returns, if it is known, and whether to loop there. */
  period = null;
  isLoop = false;
  /** The generation at which playing stops. */
  until = GENERATION_LIMIT;
  #maker = null;
  #isDoubted = false;

  /**
   * Calls the functions of `listener`. `shown(at, record, bytes, place)` is called for each generation that is shown,
   * and returns its position; `place` is null if the position isn't known, and `bytes` if the page computed the
   * generation. `changed()` is called when playing begins and ends, `failed(error)` if a generation did not arrive,
   * `compared(at, isSame)` after a comparison, `ended()` at the last generation.
   */
  constructor(deposit, signal, listener) {
    this.deposit = deposit;
    this.signal = signal;
    this.listener = listener;
    signal.addEventListener('abort', () => this.#stop());
  }

  /** A generation, requested once. */
  #fetch(at) {
    if (this.#known.has(at)) return Promise.resolve(this.#known.get(at));
    if (!this.#going.has(at)) {
      const asked = generation(this.deposit, at, this.signal).then((found) => {
        this.#known.set(at, found);
        return found;
      }).finally(() => this.#going.delete(at));
      this.#going.set(at, asked);
    }
    return this.#going.get(at);
  }

  /** Requests the next ones, a few at a time: as many as are shown in a second and a half. */
  #ahead() {
    const direction = this.direction || 1;
    const many = this.direction === 0 ? RESTING : Math.max(8, Math.ceil(this.speed * 1.5));
    for (let step = 1; step <= many && this.#going.size < TOGETHER; step += 1) {
      const at = this.at + step * direction;
      if (at < 0 || at > GENERATION_LIMIT) break;
      if (!this.#known.has(at) && !this.#going.has(at)) this.#fetch(at).then(() => this.#ahead(), () => {});
    }
    for (const at of this.#known.keys()) {
      if (this.#known.size > KEPT && Math.abs(at - this.at) > KEPT / 2) this.#known.delete(at);
    }
  }

  /**
   * The position of a generation. The archive moves each one to the corner, so it is computed from the generation
   * before.
   */
  #placeOf(at) {
    const [before, after] = [at - 1, at + 1];
    if (!this.#places.has(at)) {
      const corner = (from) => nextCorner(this.#known.get(from).record.pattern, this.#known.get(from).record.rule);
      if (this.#places.has(before) && this.#known.has(before)) {
        this.#put(at, this.#places.get(before), corner(before), 1);
      } else if (this.#places.has(after) && this.#known.has(at)) {
        this.#put(at, this.#places.get(after), corner(at), -1);
      }
    }
    return this.#places.get(at) ?? null;
  }

  #put(at, place, corner, sign) {
    if (corner) {
      this.#places.set(at, { column: place.column + sign * corner.column, row: place.row + sign * corner.row });
    }
  }

  /** Shows a generation once it has arrived; returns whether it did. */
  async show(at) {
    this.wanted = at;
    try {
      const { record, bytes } = await this.#fetch(at);
      if (this.wanted !== at || this.signal.aborted) return false;
      const place = this.#placeOf(at) ?? await this.#madePlace(at);
      if (this.wanted !== at || this.signal.aborted) return false;
      if (place === null) this.#places.clear();
      this.#compare(at, record.pattern);
      this.at = at;
      this.#places.set(at, this.listener.shown(at, record, bytes, place));
      this.#ahead();
      return true;
    } catch (error) {
      if (!this.signal.aborted) {
        this.pause();
        this.listener.failed(error);
      }
      return false;
    }
  }

  /**
   * Loads the module that computes generations, so that playing starts at once, even if the connection is lost by then.
   */
  preload() {
    this.#worker();
  }

  #worker() {
    if (this.#isDoubted || this.#maker?.ended) return null;
    try {
      this.#maker ??= new Maker(null, GENERATION_LIMIT, this.signal);
    } catch {
      this.#isDoubted = true;
      return null;
    }
    return this.#maker;
  }

  /**
   * The module that computes generations, started so that a generation is only a few steps away; null if it can't run
   * or was found to be wrong. It starts from the archive's answer for that generation, not from the deposit.
   * @param {number} at
   */
  async #making(at) {
    const maker = this.#worker();
    if (!maker || maker.reaches(at)) return maker;
    const { record } = await this.#fetch(at);
    if (!maker.reaches(at)) maker.begin(record, at);
    return maker;
  }

  /** A generation that the page computed, with its position, and the start that the position refers to. */
  async made(at) {
    const maker = await this.#making(at);
    if (!maker) throw new Error('the page makes no generations');
    const { turn } = maker;
    return { ...await maker.get(at), turn };
  }

  /** The generation from which to compute up to a given one when playing back. */
  #beginningBefore(at) {
    const { width, height } = this.#shownMade?.pattern ?? this.#known.get(this.at).record.pattern;
    return Math.max(0, at + 1 - Math.max(BACK, Math.floor(FEW_CELLS / (width * height + 1))));
  }

  /**
   * Two generations with positions from the same start. When playing back, the page starts some generations before
   * them.
   */
  async #pair(from, at) {
    const maker = this.#worker();
    if (!maker) return null;
    if (!maker.reaches(from) || !maker.reaches(at)) await this.#making(at < from ? this.#beginningBefore(at) : from);
    const before = await maker.get(from, this.direction, this.stride);
    return { before, after: await maker.get(at, this.direction, this.stride) };
  }

  /** The position of a generation, from the steps between it and the one shown; null if there are too many. */
  async #madePlace(at) {
    const shown = this.#places.get(this.at);
    const { width, height } = this.#known.get(at).record.pattern;
    const steps = Math.abs(at - this.at);
    if (!shown || steps > NEAR || steps * width * height > FEW_CELLS) return null;
    try {
      const maker = await this.#making(Math.min(at, this.at));
      const [there, here] = maker ? [(await maker.get(this.at)).corner, (await maker.get(at)).corner] : [];
      return here ? { column: shown.column + here.column - there.column, row: shown.row + here.row - there.row } : null;
    } catch {
      return null;
    }
  }

  /** Compares a generation with the archive's answer, if the page computed it. */
  #compare(at, archivePattern) {
    const made = this.#shownMade?.at === at ? this.#shownMade.pattern : null;
    if (!made) return;
    const good = isSame(made, archivePattern);
    this.#isDoubted ||= !good;
    this.listener.compared(at, good);
    if (!good) this.#maker.end();
  }

  #shownMade = null;

  /** Shows a generation that the page computes; returns whether it did. */
  async #showMade(at) {
    const from = this.at;
    const turn = this.#timer;
    this.wanted = at;
    try {
      const pair = await this.#pair(from, at);
      if (!pair) return this.show(at);
      if (this.wanted !== at || this.#timer !== turn || this.signal.aborted) return false;
      const { before: { corner: before }, after: { pattern, corner } } = pair;
      const place = this.#places.get(from);
      this.at = at;
      this.#shownMade = { at, pattern };
      const put = this.listener.shown(
        at,
        { pattern },
        null,
        place
          ? { column: place.column + corner.column - before.column, row: place.row + corner.row - before.row }
          : null,
      );
      this.#places.clear();
      this.#places.set(at, put);
      // At a higher speed, the generation to compare may be skipped; then the next one is compared.
      if (Math.floor(at / COMPARED_EACH) !== Math.floor((at - this.stride) / COMPARED_EACH)) this.#check(at, pattern);
      return true;
    } catch {
      return this.signal.aborted || this.#timer !== turn ? false : this.show(at);
    }
  }

  /** Requests a generation while playing, and compares it. If no reply comes, that shows again when playing stops. */
  async #check(at, made) {
    try {
      const { record } = await this.#fetch(at);
      const good = isSame(made, record.pattern);
      this.listener.compared(at, good);
      if (good) return;
      this.#isDoubted = true;
      this.#maker.end();
      this.go(at);
    } catch {
      // As further up.
    }
  }

  /** Plays to a generation, forward or back, and stops. */
  runTo(at) {
    const goal = Math.min(Math.max(Math.trunc(at) || 0, 0), GENERATION_LIMIT);
    if (goal === this.at) return;
    this.play(goal > this.at ? 1 : -1);
    this.until = goal;
  }

  /** How many generations a frame advances. */
  get stride() {
    return Math.max(1, Math.round(this.speed / MOST_PICTURES));
  }

  /** Jumps to a generation, or to the last one if it is beyond that, and stops. */
  async go(at) {
    this.pause();
    const wanted = Math.max(Math.trunc(at) || 0, 0);
    const isShown = await this.show(Math.min(wanted, GENERATION_LIMIT));
    if (isShown && wanted > GENERATION_LIMIT) this.listener.ended();
    return isShown;
  }

  /** Moves some generations forward or back, and stops. */
  step(many) {
    return this.go(this.wanted + many);
  }

  play(direction) {
    this.#stop();
    if (direction > 0 && this.at >= GENERATION_LIMIT && !(this.isLoop && this.period)) {
      this.listener.ended();
      return;
    }
    this.direction = direction;
    this.until = direction > 0 ? GENERATION_LIMIT : 0;
    this.listener.changed();
    this.#next(performance.now());
  }

  /** The generation that comes next while it plays; null at the end. */
  #following() {
    if (this.isLoop && this.period && this.direction > 0) return this.at % this.period + 1;
    const left = (this.until - this.at) * this.direction;
    return left <= 0 ? null : this.at + this.direction * Math.min(this.stride, left);
  }

  async #next(due) {
    const turn = this.#timer = {};
    const at = this.#following();
    if (at === null) {
      this.pause();
      if (this.at >= GENERATION_LIMIT) this.listener.ended();
      return;
    }
    const done = await this.#showMade(at);
    if (!done || this.#timer !== turn) return;
    // Delays are not made up for.
    const next = Math.max(due + 1000 / Math.min(this.speed, MOST_PICTURES), performance.now());
    setTimeout(() => { if (this.#timer === turn) this.#next(next); }, next - performance.now());
  }

  #stop() {
    this.#timer = null;
    this.direction = 0;
  }

  pause() {
    const played = this.direction !== 0;
    this.#stop();
    if (!played) return;
    this.listener.changed();
    // When it stops, it shows the archive's own answer.
    if (this.#shownMade?.at === this.at) this.show(this.at);
  }
}
