// A collection: deposits in an order, with captions, all of which are in the address of the page. They are played one
// after the other, printed ten on a page, and saved as one file.

import { Entry, packed } from './collected.js';
import { Sequence } from './sequence.js';
import {
  collectionAddress,
  captionOf,
  itemsNamed,
  LONGEST_ADDRESS,
  LONGEST_CAPTION,
  MOST_ITEMS,
  readCollection,
} from '../shared/collection.js';
import { copyButton, element, field, plural, refusal, withCommas } from '../shared/dom.js';
import { COLLECTION, keepDraft } from '../shared/storage.js';
import { Refused } from '../requests/refusals.js';
import { save } from '../shared/save.js';

/** What a collection is, for a page without one. */
const EMPTY = 'A collection has deposits in an order of yours, such as those of a lesson, each with a caption. '
  + 'It is only in the address of this page: copy the address to keep it or to send it.';

/** A refusal with a sentence of its own. @param {string} sentence */
const refused = (sentence) => Object.assign(new Refused('out-of-limit'), { sentence });

class Collection {
  /** @type {Entry[]} */
  entries = [];
  heading = element('h1', { tabindex: -1, dir: 'auto' });
  count = element('p', { class: 'count' });
  list = element('ol', { class: 'cards collection' });
  message = element('div', { 'aria-live': 'polite' });
  screen = element('div');

  /** @param {string} list @param {any} page */
  constructor(list, page) {
    const { title, items, unread } = readCollection(list);
    this.page = page;
    this.title = title;
    this.unread = unread;
    this.watch = new IntersectionObserver((seen) => {
      for (const { isIntersecting, target } of seen) {
        if (isIntersecting) this.entries.find(({ card }) => card === target)?.draw();
      }
    }, { rootMargin: '200px' });
    page.signal.addEventListener('abort', () => this.watch.disconnect());
    this.sequence = new Sequence(this.entries, page);
    this.entries.push(...items.map((item) => this.#entry(item)));
    this.list.append(...this.entries.map(({ card }) => card));
    this.form = this.#form();
  }

  get address() {
    return collectionAddress({ title: this.title, items: this.entries.map(({ item }) => item) });
  }

  get url() {
    return location.origin + this.address;
  }

  /** @param {import('../shared/collection.js').Item} item */
  #entry(item) {
    const entry = new Entry(item, this.page, {
      play: () => {
        this.screen.scrollIntoView();
        this.sequence.show(entry, true);
      },
      move: (by) => this.#move(entry, by),
      remove: () => this.#remove(entry),
      caption: (text) => this.#changed(() => { item.caption = captionOf(text); }),
    });
    this.watch.observe(entry.card);
    return entry;
  }

  /** Makes a change, and puts it into the address; returns whether it fits. Otherwise nothing has changed. */
  #changed(act) {
    const [title, entries] = [this.title, [...this.entries]];
    const captions = entries.map(({ item }) => item.caption);
    act();
    this.message.replaceChildren();
    const isTooLong = this.address.length > LONGEST_ADDRESS;
    if (isTooLong || this.entries.length > MOST_ITEMS) {
      this.title = title;
      this.entries.splice(0, Infinity, ...entries);
      for (const [at, { item }] of entries.entries()) item.caption = captions[at];
      this.message.replaceChildren(refusal(refused(isTooLong
        ? `The address would have more than ${withCommas(LONGEST_ADDRESS)} characters. Shorten captions, or make two `
          + 'collections.'
        : `A collection has at most ${withCommas(MOST_ITEMS)} deposits. Make two collections.`)));
      return false;
    }
    history.replaceState(history.state, '', this.address);
    keepDraft(COLLECTION, this.address);
    this.show();
    return true;
  }

  #move(entry, by) {
    const at = this.entries.indexOf(entry);
    const to = at + by;
    if (to < 0 || to >= this.entries.length) return;
    const isMoved = this.#changed(() => this.entries.splice(to, 0, ...this.entries.splice(at, 1)));
    if (!isMoved) return;
    const pressed = /** @type {HTMLElement} */ (document.activeElement);
    this.list.insertBefore(entry.card, this.entries[to + 1]?.card ?? null);
    pressed.focus();
    this.page.say(`${entry.title} is ${to + 1} of ${this.entries.length}.`);
  }

  #remove(entry) {
    const at = this.entries.indexOf(entry);
    this.#changed(() => this.entries.splice(at, 1));
    this.watch.unobserve(entry.card);
    entry.card.remove();
    const other = this.entries[Math.min(at, this.entries.length - 1)];
    if (this.sequence.entry === entry) {
      if (other) this.sequence.show(other, false);
      else this.sequence.end();
    }
    (other?.edit.querySelector('input') ?? this.form.querySelector('input')).focus();
    this.page.say(`${entry.title} is removed.`);
  }

  /** Adds what a text names, once the archive has it. */
  async #add(text) {
    const items = itemsNamed(text);
    if (items.length === 0) throw refused('Type the number of a deposit, such as 7, or paste its address.');
    const added = items.map((item) => this.#entry(item));
    await added[0].load();
    if (!this.#changed(() => this.entries.push(...added))) return false;
    for (const { card, edit } of added) {
      edit.hidden = this.form.hidden;
      this.list.append(card);
    }
    if (!this.sequence.entry) this.sequence.show(added[0], false);
    return true;
  }

  /** The form that is there while the collection is edited. */
  #form() {
    const title = element('input', { id: 'title', maxlength: LONGEST_CAPTION, autocomplete: 'off' });
    title.value = this.title;
    title.addEventListener('change', () => {
      this.#changed(() => { this.title = captionOf(title.value); });
      title.value = this.title;
    });
    const added = element('input', { id: 'added', autocomplete: 'off', placeholder: '7, 7 at 30, or an address' });
    const button = element('button', { id: 'add' }, 'Add');
    const submit = async (event) => {
      event.preventDefault();
      this.message.replaceChildren();
      button.disabled = true;
      try {
        if (added.value.trim() && await this.#add(added.value)) added.value = '';
      } catch (error) {
        if (!this.page.signal.aborted) this.message.replaceChildren(refusal(error));
      } finally {
        button.disabled = false;
      }
    };
    return element('form', { class: 'editing', hidden: true, submit },
      field('Title', title),
      field('A deposit to add', added),
      button,
    );
  }

  /** Shows or hides what edits the collection. */
  edit(isOn) {
    this.form.hidden = !isOn;
    for (const { edit } of this.entries) edit.hidden = !isOn;
    this.editButton.setAttribute('aria-pressed', String(isOn));
    if (isOn) keepDraft(COLLECTION, this.address);
  }

  /** Shows the texts of the collection again. */
  show() {
    const { entries } = this;
    this.heading.replaceChildren(this.title || 'Collection');
    this.page.title(this.title || 'Collection');
    this.count.replaceChildren(entries.length === 0 ? EMPTY : plural(entries.length, 'deposit'));
    for (const [at, { place }] of entries.entries()) place.replaceChildren(`${at + 1}.`);
    this.sequence.root.hidden = this.actions.hidden = entries.length === 0;
    this.screen.classList.toggle('screen', entries.length > 0);
    this.sequence.mark();
  }

  /** The buttons of the whole collection. */
  #actionsPart() {
    this.editButton = element('button', {
      type: 'button',
      id: 'edit',
      'aria-pressed': 'false',
      click: () => this.edit(this.form.hidden),
    }, 'Edit');
    const print = async () => {
      this.page.say('Drawing all…');
      await Promise.all(this.entries.map((entry) => entry.draw()));
      if (!this.page.signal.aborted) globalThis.print();
    };
    this.actions = element('div', { class: 'row' },
      copyButton('Copy the address', () => this.url, this.page.say),
      element('button', {
        type: 'button',
        id: 'pack',
        click: (event) => this.#pack(event.currentTarget),
      }, 'Download all (ZIP)'),
      element('button', { type: 'button', id: 'print', click: print }, 'Print'),
    );
    return element('div', { class: 'row share' }, this.actions, this.editButton);
  }

  async #pack(button) {
    button.disabled = true;
    const stop = new AbortController();
    const { signal } = stop;
    const ended = () => stop.abort();
    this.page.signal.addEventListener('abort', ended);
    const line = element('span');
    const came = (count) => line.replaceChildren(`Requesting the texts: ${count} of ${this.entries.length}…`);
    this.message.replaceChildren(element('p', { class: 'row' },
      line,
      element('button', { type: 'button', id: 'stop-packing', click: ended }, 'Stop'),
    ));
    try {
      save(await packed([...this.entries], this, came, signal), 'collection.zip', 'application/zip');
      this.message.replaceChildren();
    } catch (error) {
      if (this.page.signal.aborted) return;
      const isLarge = error instanceof RangeError;
      this.message.replaceChildren(signal.aborted
        ? 'Stopped.'
        : refusal(isLarge ? refused('These texts are too large for one file. Make two collections.') : error));
    } finally {
      button.disabled = false;
    }
  }

  /** All parts of the page. */
  get parts() {
    const share = this.#actionsPart();
    this.screen.append(element('div', { class: 'title' }, this.heading, this.count), this.sequence.root);
    const unread = this.unread > 0
      ? element('p', { class: 'refusal', role: 'alert' },
        `${plural(this.unread, 'part')} of this address can’t be read. Perhaps it was cut: compare it with its source.`)
      : null;
    return [unread, this.screen, share, this.message, this.form, this.list].filter(Boolean);
  }
}

/** The page of a collection. @param {any} page @param {string} list the address after `/l/` */
export async function collectionPage(page, list = '') {
  const collection = new Collection(list, page);
  page.root.append(...collection.parts);
  collection.show();
  if (collection.entries.length === 0) collection.edit(true);
  else await collection.sequence.show(collection.entries[0], false);
}
