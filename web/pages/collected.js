// The deposits of a collection: each with its card, on which one can write its caption, move it and remove it; and all
// of them as one file.

import { deposit, generation } from '../requests/archive.js';
import { thumbnail } from '../drawing/draw.js';
import { depositAddress } from '../shared/address.js';
import { LONGEST_CAPTION } from '../shared/collection.js';
import { element, plural, withCommas } from '../shared/dom.js';
import { sentenceOf } from '../requests/refusals.js';
import { originOf, withOrigin } from '../patterns/writer.js';
import { zipOf } from '../shared/zip.js';

const [WIDTH, HEIGHT] = [176, 120];
/** A ZIP file is made in memory, so the texts in it have at most this many bytes. */
const MOST_BYTES = 200_000_000;
/** How many characters of a name are in the name of a file. */
const LONGEST_NAME = 60;

/** A deposit of a collection, with its card. */
export class Entry {
  #loading = null;
  #isDrawn = false;

  /**
   * @param {import('../shared/collection.js').Item} item
   * @param {any} page
   * @param {{ play: () => void, move: (by: number) => void, remove: () => void,
   *   caption: (text: string) => boolean }} acts what its buttons do; `caption` returns whether it fits
   */
  constructor(item, page, acts) {
    this.item = item;
    this.page = page;
    this.name = `Deposit ${withCommas(item.number)}`;
    this.address = depositAddress(item.number, item.at);
    this.place = element('span', { class: 'place' });
    this.picture = element('span', { class: 'picture' });
    this.heading = element('strong', {}, this.title);
    this.facts = element('span', { class: 'facts' }, `No. ${withCommas(item.number)}`);
    this.caption = element('p', { class: 'caption', dir: 'auto' });
    this.edit = this.#editPart(acts);
    this.card = element('li', {},
      element('a', { href: this.address },
        this.picture,
        element('span', {}, this.place, ' ', this.heading),
        this.facts,
      ),
      this.caption,
      element('p', { class: 'on-paper address' }, location.host + this.address),
      element('button', {
        type: 'button',
        class: 'quiet',
        'aria-label': `Play here: ${this.title}`,
        click: acts.play,
      }, 'Play here'),
      this.edit,
    );
    this.showCaption();
  }

  #editPart(acts) {
    const input = element('input', { maxlength: LONGEST_CAPTION, 'aria-label': `Caption of ${this.title}` });
    input.value = this.item.caption;
    input.addEventListener('change', () => {
      if (acts.caption(input.value)) this.showCaption();
      input.value = this.item.caption;
    });
    const button = (label, text, act) => element('button', {
      type: 'button',
      'aria-label': `${label}: ${this.title}`,
      title: label,
      click: act,
    }, text);
    return element('div', { class: 'edit', hidden: true },
      input,
      element('p', { class: 'row' },
        button('Earlier', '↑', () => acts.move(-1)),
        button('Later', '↓', () => acts.move(1)),
        button('Remove', 'Remove', acts.remove),
      ),
    );
  }

  /** Its name and its generation. */
  get title() {
    return this.item.at === 0 ? this.name : `${this.name}, generation ${withCommas(this.item.at)}`;
  }

  showCaption() {
    this.caption.replaceChildren(this.item.caption);
  }

  /** The file and the record of the generation; its title is known then. */
  load() {
    const { number, at } = this.item;
    this.#loading ??= Promise.all([
      deposit(number, this.page.signal),
      at === 0 ? null : generation(number, at, this.page.signal),
    ]).then(([original, later]) => {
      this.name = original.record.name ?? this.name;
      this.heading.replaceChildren(this.title);
      return later ?? original;
    }).catch((error) => {
      this.#loading = null;
      throw error;
    });
    return this.#loading;
  }

  /** Draws it on its card, once. */
  async draw() {
    if (this.#isDrawn) return;
    this.#isDrawn = true;
    try {
      const { record: { pattern } } = await this.load();
      this.picture.replaceChildren(thumbnail(pattern, WIDTH, HEIGHT));
      this.facts.replaceChildren(`No. ${withCommas(this.item.number)} · ${plural(pattern.population, 'cell')}`);
    } catch (error) {
      if (this.page.signal.aborted) return;
      this.#isDrawn = false;
      this.picture.replaceChildren({ withdrawn: 'withdrawn', 'no-such-deposit': 'no such deposit' }[error.name]
        ?? 'not drawn');
    }
  }
}

/** A text as a part of the name of a file, on any system. @param {string} text */
const fileName = (text) => text
  .normalize('NFC')
  .replace(/[^\p{L}\p{N}\p{M}]+/gu, '-')
  .replace(/^-+/, '')
  .slice(0, LONGEST_NAME)
  .replace(/[\p{Cs}-]+$/u, '');

/**
 * A ZIP file with the text of each deposit, in order, and a list of them. A deposit that the archive does not give is
 * only in the list.
 * @param {Entry[]} entries
 * @param {{ title: string, url: string }} from
 * @param {(count: number) => void} came called with how many texts have arrived
 * @param {AbortSignal} signal
 */
export async function packed(entries, { title, url: address }, came, signal) {
  const digits = String(entries.length).length;
  const files = [];
  const lines = [...(title ? [title] : []), address, ''];
  let size = 0;
  for (const [at, entry] of entries.entries()) {
    came(at);
    const place = String(at + 1).padStart(digits, '0');
    const { number, at: shown, caption } = entry.item;
    const url = location.origin + entry.address;
    let name = '';
    try {
      const { bytes, record } = await entry.load();
      signal.throwIfAborted();
      name = `${place}-${fileName(entry.title) || 'deposit'}.rle`;
      const from = { title: shown ? entry.title : record.name, origin: originOf(number, shown, url) };
      files.push({ name, bytes: withOrigin(bytes, record, from) });
      size += bytes.length;
      if (size > MOST_BYTES) throw new RangeError('too large');
    } catch (error) {
      if (signal.aborted || error instanceof RangeError) throw error;
      name = sentenceOf(error);
    }
    lines.push(...[`${place}. ${entry.title}`, caption, url, name].filter(Boolean), '');
  }
  files.push({ name: 'contents.txt', bytes: new TextEncoder().encode(lines.join('\n')) });
  return zipOf(files, new Date());
}
