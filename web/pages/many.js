// Many files at once: each gets a small drawing; those that are refused are folded by reason. One press deposits all
// good ones, one after the other, and a table shows the results, even after a reload.

import { depositAddress, memberAddress } from '../shared/address.js';
import { depositRows, sendDeposit } from '../requests/archive.js';
import { collectionAddress, MOST_ITEMS } from '../shared/collection.js';
import { element, field, isMember, plural, refusal, withCommas } from '../shared/dom.js';
import { thumbnail } from '../drawing/draw.js';
import { cutButton, oldChoice, readGiven, refusedBy } from '../patterns/input.js';
import { draft, keepDraft } from '../shared/storage.js';
import { LONGEST_FILE, LONGEST_TEXT } from '../shared/limits.js';
import { learnMember, memberPart, rememberMember } from '../shared/member.js';
import { baseName, folderOf, pathOf, withTexts } from '../patterns/names.js';
import { Refused, sentenceOf } from '../requests/refusals.js';
import { ruleText } from '../patterns/rule.js';
import { sumOf } from '../patterns/sha256.js';

const SIDE = 48;
/** How many milliseconds to wait after "too many requests", if the reply does not say. */
const REST = 1000;
const DRAFT = 'many';
/** The number of the fault of a file that is too long. */
const TOO_LONG = 1;

/**
 * The additions to files: the name of the file, if a pattern has no name; an author, if it has none; and the folder of
 * the file as a comment.
 * @typedef {{ isNamed: boolean, author: string, hasFolder: boolean }} Additions
 */

/**
 * A file in the table. Its result is `kept` with a number, `refused` with a sentence and `where` with the line, or
 * nothing yet.
 */
class Row {
  kept = null;
  refused = null;
  where = '';
  /** The file as the page read it; null before that. @type {import('../patterns/input.js').Given | null} */
  read = null;
  choices = { asOld: true, isCut: false };

  /**
   * @param {any} file
   * @param {() => void} changed called when the member chose what to do about the file
   */
  constructor(file, changed = () => {}) {
    this.file = file;
    this.changed = changed;
    this.name = pathOf(file);
    this.picture = element('td', { class: 'drawn' });
    this.facts = element('small');
    this.outcome = element('td', { class: 'outcome' });
    this.line = element('tr', {}, this.picture, element('th', { scope: 'row' }, this.name, this.facts), this.outcome);
  }

  /** Loads and reads the file. */
  async load() {
    this.bytes = new Uint8Array(this.file.size > LONGEST_FILE ? 0 : await this.file.arrayBuffer());
    if (this.file.size > LONGEST_FILE) this.refuse(new Refused('bad-pattern', 7, TOO_LONG));
    else this.#read();
    this.say();
  }

  /** Reads the file again, as the member chose. @param {Partial<import('../patterns/input.js').Choices>} changes */
  choose(changes) {
    if (!this.read || this.kept !== null) return;
    Object.assign(this.choices, changes);
    this.#read();
    this.say();
  }

  /** Draws the file, or shows its fault. */
  #read() {
    this.read = readGiven(this.bytes, this.choices);
    this.refused = null;
    const { record, fault, line, notes } = this.read;
    this.facts.replaceChildren();
    this.picture.replaceChildren();
    if (fault) {
      this.refuse(refusedBy(fault), line ? ` ${line}` : '');
      return;
    }
    const { pattern, name, rule } = record;
    this.facts.replaceChildren([
      `${name ? `${name}: ` : ''}${plural(pattern.population, 'cell')}, `
        + `${pattern.width} by ${pattern.height}, ${ruleText(rule)}`,
      ...notes,
    ].join('. '));
    this.picture.replaceChildren(thumbnail(pattern, SIDE, SIDE));
  }

  get record() {
    return this.read?.record ?? null;
  }

  refuse(error, where = '') {
    this.refused = sentenceOf(error);
    this.where = where;
  }

  /**
   * The bytes to send: those of the file, with the additions that the member chose.
   * @param {Additions} additions
   */
  content({ isNamed, author, hasFolder }) {
    return withTexts(
      this.read.bytes,
      this.record,
      isNamed ? baseName(this.name) : '',
      author,
      hasFolder ? folderOf(this.name) : '',
    );
  }

  get isOpen() {
    return this.record && this.kept === null && this.refused === null;
  }

  /** Offers to leave out the comments that are too many. */
  #cut() {
    return cutButton(() => {
      this.choose({ isCut: true });
      this.changed();
    });
  }

  say(text = '') {
    this.line.className = this.refused ? 'bad' : '';
    if (this.kept !== null) {
      const href = depositAddress(this.kept);
      this.outcome.replaceChildren(element('a', { href }, `deposit ${withCommas(this.kept)}`));
    } else {
      this.outcome.replaceChildren(
        element('span', { class: 'reason' }, this.refused ?? ''),
        this.refused === null ? text : this.where,
        ...(this.read?.fault?.isTooMany ? [' ', this.#cut()] : []),
      );
    }
  }
}

/**
 * The parts of a table that the window stores: the member, and the name and the result of each file.
 * @param {Row[]} rows
 * @param {string} member
 */
const keepTable = (rows, member) => keepDraft(DRAFT, JSON.stringify({
  member,
  rows: rows.map(({ name, kept, refused, where }) => ({ name, kept, refused, where })),
}));

export const forgetTable = () => keepDraft(DRAFT, null);

/** The table from before a reload, with its member; without rows if there was none. */
export function keptTable() {
  try {
    const { member, rows } = JSON.parse(draft(DRAFT));
    return {
      member,
      rows: rows.map((line) => (
        Object.assign(new Row({ name: line.name, size: 0 }), line)
      )),
    };
  } catch {
    return { member: '', rows: [] };
  }
}

/**
 * Sends one file, and again as long as the archive only asks to wait. Returns whether it was stored or finally refused.
 */
async function sendRow(row, member, additions, page) {
  const bytes = row.content(additions);
  for (;;) {
    try {
      row.say('sending…');
      row.kept = await sendDeposit(member, sumOf(bytes), bytes, () => row.say('sent again…'), page.signal);
      row.say();
      return;
    } catch (error) {
      if (!(error instanceof Refused)
        || ['no-reply', 'unavailable', 'password', 'bad-member', 'full', 'unknown'].includes(error.name)) {
        row.say();
        throw error;
      }
      if (error.name !== 'too-many-requests') {
        row.refuse(error);
        row.say();
        return;
      }
      row.say('waiting, since the archive limits requests…');
      await new Promise((resolve) => setTimeout(resolve, error.wait || REST));
      page.signal.throwIfAborted();
    }
  }
}

/** @param {Row[]} rows @param {string} caption */
const tableOf = (rows, caption) => element('table', { class: 'census files' },
  element('caption', { class: 'aside' }, caption),
  element('thead', {},
    element('tr', {},
      element('td', {}),
      element('th', { scope: 'col' }, 'File'),
      element('th', { scope: 'col' }, 'Result'),
    ),
  ),
  element('tbody', {}, rows.map(({ line }) => line)),
);

/** Links to collections of the deposits of files, in the order of the table. @param {Row[]} rows */
function collectionLinks(rows) {
  const items = rows.filter(({ kept }) => kept !== null).map(({ kept }) => ({ number: kept, at: 0, caption: '' }));
  const title = rows[0].name.includes('/') ? rows[0].name.split('/')[0] : '';
  const begins = Array.from({ length: Math.ceil(items.length / MOST_ITEMS) }, (_, at) => at * MOST_ITEMS);
  return begins.flatMap((begin, at) => [
    ' · ',
    element('a', {
      class: 'in-order',
      href: collectionAddress({ title, items: items.slice(begin, begin + MOST_ITEMS) }),
    }, begins.length === 1 ? 'as a collection' : `as a collection, part ${at + 1}`),
  ]);
}

/** The table of some files, and the form that deposits the good ones. */
export class Table {
  rows = [];
  /** Whose deposits these are. */
  owner = '';

  /**
   * @param {object} page
   * @param {() => void} ended called when the member wants to deposit a text in place of these files
   */
  constructor(page, ended) {
    this.page = page;
    this.member = memberPart('many-member');
    this.author = element('input', { id: 'many-author', maxlength: LONGEST_TEXT, autocomplete: 'off' });
    this.name = element('input', { id: 'many-name', type: 'checkbox' });
    this.folder = element('input', { id: 'many-folder', type: 'checkbox' });
    this.folders = element('p', { class: 'check', hidden: true },
      this.folder,
      element('label', { for: 'many-folder' }, ' Add the folder of each file as a comment, which searches find'),
    );
    this.send = element('button', { class: 'main', id: 'send-many' });
    this.old = oldChoice(
      'many-old',
      true,
      'Read files that are not UTF-8 as windows-1252',
      (asOld) => this.#choose({ asOld }),
    );
    this.bar = element('progress', { hidden: true, 'aria-label': 'Files done' });
    this.count = element('p', { class: 'count', role: 'status' });
    this.message = element('div');
    this.seen = element('p');
    this.instead = element('button', {
      type: 'button',
      class: 'quiet',
      id: 'text-instead',
      click: ended,
    }, 'Paste a text instead');
    this.tables = element('div');
    this.form = element('form', { submit: (event) => this.#submit(event) },
      this.member.part,
      element('p', { class: 'check' },
        this.name,
        element('label', { for: 'many-name' }, ' Use file names for patterns that have no name'),
      ),
      this.folders,
      this.old,
      field('Author', this.author, 'Added to files without an author. Leave it empty to keep the files as they are.'),
      element('p', { class: 'row' }, this.send, this.bar),
    );
    this.root = element('section', { class: 'many' },
      this.count,
      this.seen,
      this.form,
      this.message,
      element('p', {}, this.instead),
      this.tables,
    );
  }

  /** The good files in one table, and those that are refused in one for each reason, folded. */
  #arrange() {
    const groups = new Map();
    for (const row of this.rows) groups.set(row.refused, [...groups.get(row.refused) ?? [], row]);
    const good = groups.get(null) ?? [];
    groups.delete(null);
    const open = new Set([...this.tables.querySelectorAll('details[open]')].map((details) => details.dataset.reason));
    this.tables.replaceChildren(
      ...(good.length ? [tableOf(good, 'The files and their results')] : []),
      ...[...groups].map(([reason, rows]) => element('details', {
        class: 'refused-files',
        'data-reason': reason,
        open: open.has(reason),
      },
      element('summary', {}, `${withCommas(rows.length)} refused: ${reason}`),
      tableOf(rows, reason))),
    );
  }

  get open() {
    return this.rows.filter((row) => row.isOpen);
  }

  #say() {
    const [kept, refused] = [
      this.rows.filter((row) => row.kept !== null).length,
      this.rows.filter((row) => row.refused).length,
    ];
    const parts = [
      kept ? `${withCommas(kept)} deposited` : null,
      refused ? `${withCommas(refused)} refused` : null,
      this.open.length ? `${withCommas(this.open.length)} to deposit` : null,
    ];
    this.count.replaceChildren(`${plural(this.rows.length, 'file')}: ${parts.filter(Boolean).join(', ')}.`);
    this.send.replaceChildren(`Deposit ${plural(this.open.length, 'file')}`);
    this.form.hidden = this.send.disabled = this.open.length === 0;
    this.#arrange();
    this.#sayWhose(kept);
  }

  /** Once all files are done: links to the deposits of their member, and to these in their order. */
  #sayWhose(kept) {
    const isDone = kept > 0 && this.open.length === 0 && this.owner;
    this.seen.replaceChildren(...(isDone
      ? [
        element('a', { id: 'see-them', href: memberAddress(this.owner) }, `${withCommas(kept)} deposited: see them`),
        ...collectionLinks(this.rows),
      ]
      : []));
  }

  /** Shows a table that the window has stored. */
  showKept({ member, rows }) {
    this.owner = member;
    this.rows = rows;
    this.instead.hidden = true;
    for (const row of rows) {
      if (row.kept === null && row.refused === null) {
        row.refused = 'Not sent. Drop the files again: each is stored only once.';
      }
      row.say();
    }
    this.#say();
  }

  /** Replaces the files, and reads the new ones one after the other. */
  async take(files) {
    const rows = this.rows = files.map((file) => new Row(file, () => this.#chosen()));
    this.instead.hidden = false;
    this.#arrange();
    for (const row of rows) {
      await row.load();
      if (this.rows !== rows || this.page.signal.aborted) return;
    }
    // Without names, these deposits would be listed by their numbers for ever. Files that have one keep it.
    this.name.checked = this.open.some((row) => row.record.name === null);
    this.old.hidden = !rows.some((row) => row.read?.isOld);
    this.folders.hidden = !rows.some((row) => folderOf(row.name));
    this.folder.checked = false;
    this.#chosen();
  }

  /** Reads all files again. */
  #choose(changes) {
    for (const row of this.rows) row.choose(changes);
    this.#chosen();
  }

  /** Shows what is to be sent now. */
  #chosen() {
    this.#say();
    keepTable(this.rows, this.owner);
    this.page.say(this.count.textContent);
  }

  async #submit(event) {
    event.preventDefault();
    this.message.replaceChildren();
    this.send.disabled = true;
    try {
      if (!isMember(this.member.input.value)) throw new Refused('bad-member');
      rememberMember(this.owner = this.member.input.value);
      await this.#sendAll();
      await this.#learnOwner();
    } catch (error) {
      if (!this.page.signal.aborted) {
        this.message.replaceChildren(refusal(error, 'Press the button again: each file is stored only once.'));
      }
    } finally {
      this.bar.hidden = true;
      this.#say();
      this.page.say(this.count.textContent);
    }
  }

  /** Asks the archive whose the last deposit is: with passwords it is the member's who logged in. */
  async #learnOwner() {
    const lastRow = this.rows.filter((row) => row.kept !== null).at(-1);
    const { row } = lastRow ? await depositRows(lastRow.kept, this.page.signal) : { row: null };
    if (!row) return;
    const text = learnMember(this.member.typed(), row.member);
    if (text) this.message.replaceChildren(element('p', { class: 'note' }, text));
    this.owner = row.member;
    keepTable(this.rows, this.owner);
  }

  async #sendAll() {
    const open = this.open;
    const additions = { isNamed: this.name.checked, author: this.author.value, hasFolder: this.folder.checked };
    Object.assign(this.bar, { max: open.length, value: 0, hidden: false });
    for (const row of open) {
      await sendRow(row, this.member.input.value, additions, this.page);
      this.bar.value += 1;
      keepTable(this.rows, this.owner);
    }
  }
}
