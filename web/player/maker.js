// Generations that the page computes itself for playing, with the worker in stepper.js: one block at a time, ahead of
// the generation shown.

import { STEPPER } from '../shared/files.js';

const BLOCK = 16;
const KEPT = 48;
/** The number of steps that counts as few. */
const FEW = 64;
// The site's policy forbids script addresses from plain text (life-site.conf). This one is always the same.
const policy = globalThis.trustedTypes?.createPolicy('life-stepper', { createScriptURL: () => STEPPER });

/** A generation in the pages' form: the runs of each row, and the position of its corner relative to generation 0. */
function generationOf({ list, ends, width, height, population, column, row }) {
  const rows = Array.from(ends, (end, at) => list.subarray(at === 0 ? 0 : ends[at - 1], end));
  return { pattern: { width, height, population, rows }, corner: { column, row } };
}

const newWorker = () => new Worker(policy ? policy.createScriptURL('') : STEPPER, { type: 'module' });

/** How long to wait until a page that is hidden or busy may be seen and idle, in milliseconds. */
const WAIT = 500;

/**
 * Counts the cells of all generations in a worker of its own, while the page is seen and `isBusy` is false.
 * @param {{pattern: object, rule: object}} record
 * @param {number} lastGeneration
 * @param {(from: number, populations: number[]) => void} found called with the populations of some generations after
 *   another
 * @param {() => boolean} isBusy
 * @param {AbortSignal} signal
 */
export function countAll({ pattern, rule }, lastGeneration, found, isBusy, signal) {
  const worker = newWorker();
  const ask = () => {
    if (signal.aborted) return;
    if (document.hidden || isBusy()) setTimeout(ask, WAIT);
    else worker.postMessage({ lastGeneration });
  };
  worker.addEventListener('message', ({ data: { from, populations } }) => {
    found(from, populations);
    if (from + populations.length <= lastGeneration) ask();
    else worker.terminate();
  });
  signal.addEventListener('abort', () => worker.terminate());
  worker.postMessage({ toCount: true, pattern, rule });
  ask();
}

export class Maker {
  #made = new Map();
  #waiting = new Map();
  #going = null;
  /** The generation that it starts from, and the last one that was requested: those in between need few steps. */
  #first = 0;
  #reach = -1;
  /** How often it was started: answers for an earlier start are ignored. */
  #turn = 0;

  /**
   * Computes generations of a record, up to a last one; without a record it waits until it is started.
   * @param {{pattern: object, rule: object} | null} record
   * @param {number} lastGeneration
   * @param {AbortSignal} signal
   */
  constructor(record, lastGeneration, signal) {
    this.lastGeneration = lastGeneration;
    this.worker = newWorker();
    this.worker.addEventListener('message', ({ data }) => this.#take(data));
    this.worker.addEventListener('error', () => this.end());
    signal.addEventListener('abort', () => this.end());
    if (record) this.begin(record, 0);
  }

  /** The start that its positions refer to: only positions from the same start can be compared. */
  get turn() {
    return this.#turn;
  }

  /**
   * Starts again from a generation, to which all positions are relative.
   * @param {{pattern: object, rule: object}} record
   * @param {number} first
   */
  begin({ pattern, rule }, first) {
    this.#turn += 1;
    [this.#first, this.#reach, this.#going] = [first, first, null];
    this.#made.clear();
    this.#fail('the stepper starts over');
    this.worker.postMessage({ pattern, rule, first, turn: this.#turn });
  }

  /**
   * Whether a generation is only a few steps from a known one.
   * @param {number} at
   */
  reaches(at) {
    return this.#turn > 0 && at >= this.#first && at <= this.#reach + FEW;
  }

  end() {
    this.worker.terminate();
    this.ended = true;
    this.#fail('the stepper has ended');
  }

  #fail(why) {
    for (const { reject } of this.#waiting.values()) reject(new Error(why));
    this.#waiting.clear();
  }

  #take(data) {
    if (data.turn !== this.#turn) return;
    const found = generationOf(data);
    this.#made.set(data.at, found);
    this.#waiting.get(data.at)?.resolve(found);
    this.#waiting.delete(data.at);
    if (data.at === this.#going?.to) {
      this.#going = null;
      const [first] = this.#waiting.keys();
      if (first !== undefined) this.#ask(first, 1, 1);
    }
  }

  /** Requests a block that begins or ends with a generation and has every `by`-th one. */
  #ask(at, direction, by) {
    const many = (end) => Math.max(0, Math.min(BLOCK - 1, Math.floor(end / by)));
    const [from, to] = direction < 0
      ? [at - many(at - this.#first) * by, at]
      : [at, at + many(this.lastGeneration - at) * by];
    this.#going = { from, to };
    this.#reach = Math.max(this.#reach, to);
    this.worker.postMessage({ from, to, by, turn: this.#turn });
  }

  /**
   * A generation; the following ones in a direction are computed ahead.
   * @param {number} at
   * @param {number} direction
   * @param {number} by how many generations a frame advances
   */
  get(at, direction = 1, by = 1) {
    for (const kept of this.#made.keys()) if (Math.abs(kept - at) > KEPT * by) this.#made.delete(kept);
    const next = at + direction * Math.ceil(BLOCK / 2) * by;
    if (!this.#going && !this.#made.has(at)) {
      this.#ask(at, direction, by);
    } else if (!this.#going && next >= this.#first && next <= this.lastGeneration && !this.#made.has(next)) {
      this.#ask(next, direction, by);
    }
    if (this.#made.has(at)) return Promise.resolve(this.#made.get(at));
    if (this.ended) return Promise.reject(new Error('the stepper has ended'));
    if (!this.#waiting.has(at)) {
      const waiting = {};
      waiting.promise = new Promise((resolve, reject) => Object.assign(waiting, { resolve, reject }));
      waiting.promise.catch(() => {});
      this.#waiting.set(at, waiting);
    }
    return this.#waiting.get(at).promise;
  }
}
