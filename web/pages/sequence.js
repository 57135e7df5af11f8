// The deposits of a collection, played one after the other in one player.

import { Ages } from '../player/ages.js';
import { controls, keysOf } from './controls.js';
import { againButton, element, plural, refusal, withCommas } from '../shared/dom.js';
import { Player } from '../player/player.js';
import { View } from '../drawing/view.js';

/** The player of a collection: a canvas with its controls, and buttons to the deposit before and the next one. */
export class Sequence {
  canvas = element('canvas', { class: 'large', role: 'img', tabindex: 0 });
  link = element('a', { id: 'now' });
  caption = element('span', { class: 'caption', dir: 'auto' });
  place = element('span', { id: 'place' });
  source = element('p', { class: 'source' });
  message = element('div');
  bar = element('div');
  /** The entry that is shown, and the player of its deposit. @type {import('./collected.js').Entry | null} */
  entry = null;
  player = null;
  #end = new AbortController();

  /** @param {import('./collected.js').Entry[]} entries @param {any} page */
  constructor(entries, page) {
    this.entries = entries;
    this.page = page;
    this.view = new View(this.canvas, page.signal);
    page.signal.addEventListener('abort', () => this.#end.abort());
    const button = (id, text, by) => element('button', { type: 'button', id, click: () => this.go(by) }, text);
    this.before = button('before', '← Previous', -1);
    this.next = button('next', 'Next →', 1);
    this.root = element('div', { class: 'stage sequence' },
      element('div', { class: 'row' }, this.before, this.place, this.next, this.link, this.caption),
      element('div', { class: 'seen' }, this.canvas),
      this.bar,
      this.source,
      this.message,
    );
    page.keys['['] = () => this.go(-1);
    page.keys[']'] = () => this.go(1);
    page.keys.w = () => this.#turnFull();
  }

  #turnFull() {
    // The browser may refuse; then nothing changes.
    (document.fullscreenElement ? document.exitFullscreen() : this.root.requestFullscreen()).catch(() => {});
  }

  /** Says where the entry is, after the collection has changed too. */
  mark() {
    const at = this.entries.indexOf(this.entry);
    this.before.disabled = at <= 0;
    this.next.disabled = at < 0 || at + 1 >= this.entries.length;
    this.place.replaceChildren(`${withCommas(at + 1)} of ${withCommas(this.entries.length)}`);
    this.caption.replaceChildren(this.entry?.item.caption ?? '');
  }

  /** Shows the next entry, or the one before. If it plays, the other one plays too. @param {number} by */
  go(by) {
    const other = this.entries[this.entries.indexOf(this.entry) + by];
    if (other) this.show(other, this.player?.direction === 1);
  }

  /**
   * Shows an entry, and plays it.
   * @param {import('./collected.js').Entry} entry
   * @param {boolean} isPlayed
   */
  async show(entry, isPlayed) {
    this.#end.abort();
    this.#end = new AbortController();
    const { signal } = this.#end;
    if (this.page.signal.aborted) return;
    this.entry = entry;
    this.message.replaceChildren();
    this.link.href = entry.address;
    this.mark();
    this.#begin(entry.item.number, signal);
    const name = () => { if (!signal.aborted) this.link.replaceChildren(entry.title); };
    name();
    entry.load().then(name, () => {});
    if (!await this.player.show(entry.item.at) || signal.aborted) return;
    this.view.fit();
    this.page.say(`${this.place.textContent}: ${entry.title}. ${entry.item.caption}`);
    if (isPlayed) this.player.play(1);
    else this.player.preload();
  }

  /** Shows no entry, until the next one is added to an empty collection. */
  end() {
    this.#end.abort();
    this.entry = null;
  }

  /** A player for a deposit, with its own controls. */
  #begin(number, signal) {
    const player = this.player = new Player(number, signal, this);
    this.ages = new Ages((at) => player.made(at), (found) => this.view.showAges(found));
    this.controls = controls(player, this.view, this.ages, () => this.#turnFull());
    this.bar.replaceChildren(this.controls.bar);
    const [before, next] = [this.page.keys['['], this.page.keys[']']];
    keysOf(this.page, player, this.view, this.controls.toggle, () => null);
    Object.assign(this.page.keys, { '[': before, ']': next });
  }

  // ---- calls from the player

  shown(at, { pattern }, bytes, place) {
    const put = this.view.show(pattern, place);
    if (this.player.direction === 0 || this.player.stride === 1) this.ages.show(at);
    this.controls.at(at);
    const cells = plural(pattern.population, 'live cell');
    this.canvas.setAttribute('aria-label', `${this.entry.name}, generation ${at}: ${cells}`);
    this.source.replaceChildren(bytes === null ? 'Computing…' : `✓ Proved: generation ${withCommas(at)}`);
    return put;
  }

  changed() {
    this.controls.changed();
  }

  compared(at, isSame) {
    if (isSame) return;
    this.message.replaceChildren(element('p', { class: 'refusal', role: 'alert' },
      `The page’s generation ${withCommas(at)} differs from the archive’s, which is shown from here on.`,
    ));
  }

  ended() {
    this.player.show(this.player.at);
  }

  failed(error) {
    this.message.replaceChildren(...[
      refusal(error),
      againButton(error, () => this.show(this.entry, false)),
    ].filter(Boolean));
  }
}
