// The generation of a deposit that is shown: its address, its text, and depositing it.

import { depositAddress, go } from '../shared/address.js';
import { collectionAddress, LONGEST_ADDRESS, MOST_ITEMS, readCollection } from '../shared/collection.js';
import { copyButton, element, refusal, withCommas } from '../shared/dom.js';
import { load } from '../shared/groups.js';
import { COLLECTION, COPIED, draft, keepDraft } from '../shared/storage.js';
import { LONGEST_SIDE } from '../shared/limits.js';
import { passFiles } from '../shared/handover.js';
import { ruleText } from '../patterns/rule.js';
import { save } from '../shared/save.js';
import { fileOf, originOf, withOrigin } from '../patterns/writer.js';

/**
 * What a member can do with the generation that is shown: cite its address, copy its text, take a census. It is updated
 * with each generation.
 */
export class Share {
  /**
   * @param {number} number
   * @param {{ bytes: Uint8Array, record: object }} original the deposit itself
   * @param {object} page
   */
  constructor(number, original, page) {
    this.number = number;
    this.original = original;
    this.first = original.record;
    this.name = this.first.name ?? `Deposit ${number}`;
    this.page = page;
    this.address = element('a', { class: 'address' });
    this.text = element('textarea', { id: 'text', readonly: true, rows: 8, spellcheck: 'false', wrap: 'off' });
    this.load = element('a', { class: 'button', click: (event) => this.#save(event) }, 'RLE');
    this.details = element('details', { toggle: () => this.#fill() },
      element('summary', {}, 'Text'),
      element('label', { for: 'text', class: 'aside' }, 'Text of the generation'),
      this.text,
    );
  }

  get at() {
    return this.seen?.at;
  }

  get url() {
    return location.origin + depositAddress(this.number, this.at);
  }

  /** Sets the generation that is shown. If the page computed it, it has no bytes, and only its pattern is known. */
  take(at, bytes, record) {
    // Only the deposit itself has its texts.
    this.seen = at === 0 ? { at, ...this.original } : { at, bytes, record: { ...record, rule: this.first.rule } };
    if (bytes === null) return;
    this.answer = this.seen;
    this.address.href = this.url;
    this.address.replaceChildren(this.url);
    this.load.href = at === 0 ? `/deposits/${this.number}` : `/deposits/${this.number}/at/${at}`;
    this.load.download = this.fileName;
    this.#fill();
  }

  /**
   * What a saved file says: its title, and where it comes from. Only generation 0, the file itself, has the deposit's
   * own name.
   */
  get from() {
    const { at, bytes } = this.seen;
    const computed = bytes === null ? 'computed by a browser, ' : '';
    return {
      title: at === 0 ? this.first.name : `${this.name}, generation ${at}`,
      origin: originOf(this.number, at, `${computed}${this.url}`),
    };
  }

  get fileName() {
    return `deposit-${this.number}${this.at === 0 ? '' : `-at-${this.at}`}.rle`;
  }

  /** The generation that is seen as a file, while it plays too. */
  get file() {
    const { bytes, record } = this.seen;
    return withOrigin(
      bytes ?? new TextEncoder().encode(fileOf(record.pattern, ruleText(record.rule))),
      record,
      this.from,
    );
  }

  /** Opens the form for a deposit with these cells. They say where they are from, but have no name yet. */
  #edit() {
    const bytes = new TextEncoder().encode(fileOf(this.seen.record.pattern, ruleText(this.first.rule)));
    passFiles([new Blob([withOrigin(bytes, {}, { title: null, origin: this.from.origin })])]);
    go('/new');
  }

  #save(event) {
    event.preventDefault();
    save(this.file, this.fileName, 'text/plain');
  }

  /**
   * Updates the page's address and title. Browsers limit how often they may change, so they stay the same while it
   * plays.
   */
  cite() {
    this.page.title(this.at === 0 ? this.name : `${this.name}, generation ${this.at}`);
    history.replaceState(history.state, '', depositAddress(this.number, this.at));
  }

  #fill() {
    if (this.details.open) this.text.value = new TextDecoder().decode(this.answer.bytes);
  }

  /** Offers to deposit the generation, so that playing can continue from there. */
  depositPart() {
    const { pattern } = this.answer.record;
    if (Math.max(pattern.width, pattern.height) > LONGEST_SIDE) {
      return element('span', {},
        `It is ${withCommas(pattern.width)} by ${withCommas(pattern.height)}, `
          + `and the archive takes patterns of up to ${withCommas(LONGEST_SIDE)} by ${withCommas(LONGEST_SIDE)}.`,
      );
    }
    const click = () => {
      passFiles([new File([this.file], this.fileName)]);
      go('/new');
    };
    return element('button', { type: 'button', id: 'deposit-generation', click }, 'Deposit this generation');
  }

  /** What saves the generation that is seen. The part for pictures is loaded once this is opened. */
  #downloads() {
    const pictures = element('div');
    const open = async () => {
      if (pictures.childElementCount > 0) return;
      try {
        const { saveParts } = await load('lazyPages');
        pictures.replaceChildren(...saveParts(this, this.page));
      } catch (error) {
        pictures.replaceChildren(refusal(error));
      }
    };
    return element('details', { class: 'panel', id: 'download', toggle: open },
      element('summary', {}, 'Download'),
      element('p', { class: 'row' }, 'The text:', this.load),
      pictures,
    );
  }

  /**
   * Opens the collection that was edited last in this window, with this generation at its end; or a new one, if that is
   * full.
   */
  #collect() {
    const { title, items } = readCollection(draft(COLLECTION)?.slice('/l/'.length) ?? '');
    const item = { number: this.number, at: this.at, caption: '' };
    const longerAddress = collectionAddress({ title, items: [...items, item] });
    const isFull = items.length >= MOST_ITEMS || longerAddress.length > LONGEST_ADDRESS;
    const address = isFull ? collectionAddress({ title: '', items: [item] }) : longerAddress;
    keepDraft(COLLECTION, address);
    go(address);
  }

  /** Asks for another deposit to compare with. */
  #compareForm() {
    const id = 'compare-with';
    const other = element('input', { id, type: 'number', min: 1, required: true, inputmode: 'numeric' });
    const submit = (event) => {
      event.preventDefault();
      go(`/compare?one=${depositAddress(this.number, this.at).slice(3)}&other=${Math.trunc(Number(other.value))}`);
    };
    return element('form', { class: 'inline', submit },
      element('label', { for: other.id }, 'Compare with no.'),
      other,
      element('button', { id: 'compare' }, 'Compare'),
    );
  }

  /** The actions for the visible generation: its address, its text, files of it. */
  part() {
    const copied = () => {
      const text = new TextDecoder().decode(this.file);
      keepDraft(COPIED, text);
      return text;
    };
    // The forums at conwaylife.com play a pattern between these marks.
    const forum = () => `[viewer]\n${copied()}[/viewer]\n[url]${this.url}[/url]\n`;
    const { say } = this.page;
    return element('section', { class: 'share' },
      element('h2', {}, 'Share'),
      element('p', {}, this.address),
      element('div', { class: 'row' },
        copyButton('Copy the address', () => this.url, say),
        copyButton('Copy as RLE', copied, say),
        copyButton('Copy for the forum', forum, say),
        element('button', { type: 'button', id: 'edit', click: () => this.#edit() }, 'Edit'),
        element('button', { type: 'button', click: () => print() }, 'Print'),
        element('button', { type: 'button', id: 'collect', click: () => this.#collect() }, 'Add to a collection'),
        this.#compareForm(),
      ),
      this.#downloads(),
      this.details,
    );
  }
}
