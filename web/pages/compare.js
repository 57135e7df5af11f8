// Two deposits or generations side by side with one clock, and whether they are the same but for a move, a turn or a
// reflection; and the deposit that has the same cells as a pattern.

import { depositAddress } from '../shared/address.js';
import { deposit, generation } from '../requests/archive.js';
import { element, plural, refusal, withCommas } from '../shared/dom.js';
import { allDeposits } from '../requests/index.js';
import { GENERATION_LIMIT } from '../shared/limits.js';
import { Maker } from '../player/maker.js';
import { Refused } from '../requests/refusals.js';
import { ruleText } from '../patterns/rule.js';
import { sidesOf, turnBetween } from '../patterns/turns.js';
import { View } from '../drawing/view.js';

/** A deposit in the address, with a generation or without one. */
const FORM = /^([0-9]{1,15})(?:\/at\/([0-9]{1,4}))?$/;
/** For how many milliseconds a generation is shown. */
const SHOWN = 100;
/** Patterns with more cells are only compared as they are, since turning them takes long. */
const MOST_CELLS = 20_000;
/** How many deposits of the same size are compared with a pattern. */
const MOST_COMPARED = 20;

/** @param {object} pattern @param {object} other */
const turnOf = (pattern, other) => (pattern.population > MOST_CELLS ? null : turnBetween(pattern, other));

/**
 * The first deposit with the same cells and rule, wherever they are and however they are turned; null if the index has
 * none.
 * @param {{ rule: object, pattern: object }} record
 * @param {AbortSignal} signal
 */
export async function sameDeposit({ rule, pattern }, signal) {
  const all = await allDeposits(() => {}, signal);
  const alike = all.filter((row) => (
    row.population === pattern.population && sidesOf(row) === sidesOf(pattern) && row.rule === ruleText(rule)
  ));
  for (const { id } of alike.reverse().slice(0, MOST_COMPARED)) {
    const { record } = await deposit(id, signal);
    const turn = turnOf(record.pattern, pattern);
    if (turn !== null) return { number: id, turn };
  }
  return null;
}

/** One of the two. */
class Side {
  canvas = element('canvas', { class: 'large', role: 'img', tabindex: 0 });

  constructor(number, from, record, name, page) {
    this.number = number;
    this.from = from;
    this.page = page;
    this.rule = ruleText(record.rule);
    this.view = new View(this.canvas, page.signal);
    this.maker = new Maker(null, GENERATION_LIMIT, page.signal);
    this.maker.begin(record, from);
    this.link = element('a', {});
    this.name = name ?? `Deposit ${number}`;
    this.root = element('section', {}, element('h2', {}, this.link), element('div', { class: 'seen' }, this.canvas));
  }

  /** Shows the generation at a time: at rest the archive's own answer. Returns its pattern. */
  async show(time, isResting) {
    const at = this.from + time;
    const made = await this.maker.get(at);
    const { pattern } = isResting ? (await generation(this.number, at, this.page.signal)).record : made;
    this.view.show(pattern, made.corner);
    this.link.href = depositAddress(this.number, at);
    this.link.replaceChildren(`${this.name}${at === 0 ? '' : `, generation ${withCommas(at)}`}`);
    const cells = plural(pattern.population, 'live cell');
    this.canvas.setAttribute('aria-label', `${this.name}, generation ${at}: ${cells}`);
    return pattern;
  }
}

/** The sentence about two patterns. */
function verdict(pattern, other, rules) {
  const turn = turnOf(pattern, other);
  const cells = turn === null
    ? `Different: ${plural(pattern.population, 'cell')} and ${plural(other.population, 'cell')}.`
    : `The same cells${turn ? `, ${turn}` : ''}.`;
  return rules[0] === rules[1] ? cells : `${cells} The rules differ: ${rules.join(' and ')}.`;
}

/** The clock of both: its display and its buttons. */
class Clock {
  time = 0;
  #turn = null;

  constructor(sides, page) {
    this.sides = sides;
    this.page = page;
    this.lastTime = GENERATION_LIMIT - Math.max(...sides.map(({ from }) => from));
    this.message = element('p', { id: 'verdict', role: 'status' });
    this.play = element('button', { type: 'button', class: 'main', id: 'play', click: () => this.toggle() }, 'Play');
    const button = (id, label, time) => (
      element('button', { type: 'button', id, click: () => this.go(time()) }, label)
    );
    this.number = element('span', { id: 'time' }, '0');
    this.bar = element('p', { class: 'row' },
      button('first', 'Beginning', () => 0),
      button('step-back', 'Step back', () => this.time - 1),
      this.play,
      button('step', 'Step', () => this.time + 1),
      element('span', {}, 'Generations from there: ', this.number),
    );
  }

  /** Shows a time, and stops. */
  async go(time) {
    const turn = this.#turn = {};
    this.play.replaceChildren('Play');
    await this.#show(Math.min(Math.max(time, 0), this.lastTime), true, turn);
  }

  async #show(time, isResting, turn) {
    try {
      const [pattern, other] = await Promise.all(this.sides.map((side) => side.show(time, isResting)));
      if (this.#turn !== turn) return;
      this.time = time;
      this.number.replaceChildren(withCommas(time));
      if (isResting) this.message.replaceChildren(verdict(pattern, other, this.sides.map(({ rule }) => rule)));
    } catch (error) {
      if (!this.page.signal.aborted) this.message.replaceChildren(refusal(error));
    }
  }

  async toggle() {
    if (this.play.textContent === 'Pause') {
      this.go(this.time);
      return;
    }
    const turn = this.#turn = {};
    this.play.replaceChildren('Pause');
    this.message.replaceChildren('Computed by your browser while it plays.');
    while (this.#turn === turn && this.time < this.lastTime && !this.page.signal.aborted) {
      const next = new Promise((resolve) => setTimeout(resolve, SHOWN));
      await this.#show(this.time + 1, false, turn);
      await next;
    }
    if (this.#turn === turn) this.go(this.time);
  }
}

/** A deposit that the address names, at its generation. */
async function sideOf(address, page) {
  const found = FORM.exec(address ?? '');
  if (!found) throw new Refused('no-such-page');
  const [number, from] = [Number(found[1]), Number(found[2] ?? 0)];
  const [{ record: { name } }, { record }] = await Promise.all([
    deposit(number, page.signal),
    generation(number, from, page.signal),
  ]);
  return new Side(number, from, record, name, page);
}

/** The page of two deposits, such as `/compare?one=4/at/30&other=7`. */
export async function comparePage(page) {
  const words = new URLSearchParams(location.search);
  page.title('Compare');
  page.root.append(element('h1', { tabindex: -1 }, 'Compare'));
  const sides = await Promise.all(['one', 'other'].map((name) => sideOf(words.get(name), page)));
  const clock = new Clock(sides, page);
  page.root.append(
    clock.message,
    element('div', { class: 'compared' }, sides.map(({ root }) => root)),
    clock.bar,
  );
  Object.assign(page.keys, {
    ' ': () => clock.toggle(),
    ArrowRight: () => clock.go(clock.time + 1),
    ArrowLeft: () => clock.go(clock.time - 1),
    Home: () => clock.go(0),
  });
  await clock.go(0);
  for (const { view } of sides) view.fit();
}
