// Depositing: a file is dropped, chosen or pasted, or its cells are drawn, and it is sent under a member's name and a
// token.

import { depositAddress, go } from '../shared/address.js';
import { lastDeposit, sendDeposit } from '../requests/archive.js';
import { sameDeposit } from './compare.js';
import { element, field, isMember, plural, refusal, withCommas } from '../shared/dom.js';
import { Editor } from '../drawing/editor.js';
import { cutButton, oldChoice, readGiven, refusedBy } from '../patterns/input.js';
import { draft, keepDraft } from '../shared/storage.js';
import { LONGEST_FILE, LONGEST_MEMBER, LONGEST_SIDE, LONGEST_TEXT, LONGEST_TOKEN } from '../shared/limits.js';
import { Table, forgetTable, keptTable } from './many.js';
import { memberPart, rememberMember } from '../shared/member.js';
import { NO_FILES, baseName, patternsOf, withTexts } from '../patterns/names.js';
import { keepNote, passedFiles } from '../shared/handover.js';
import { Refused } from '../requests/refusals.js';
import { Fault } from '../patterns/rle.js';
import { ruleText } from '../patterns/rule.js';
import { sumOf } from '../patterns/sha256.js';
import { withPattern } from '../patterns/writer.js';

/** After how many milliseconds without a change it is asked whether a deposit has the same cells. */
const RESTED = 700;
/** The number of the fault of a file that is too long. */
const TOO_LONG = 1;
const NO_PATTERN = { width: 0, height: 0, population: 0, rows: [] };
const TOKEN = new RegExp(`^[A-Za-z0-9-]{1,${LONGEST_TOKEN}}$`);

/** What to send: the bytes, and the token computed from them. */
class Content {
  bytes = new Uint8Array();
  fault = null;
  fileName = '';
  /** The file as the page read it; null for an empty one. @type {import('../patterns/input.js').Given | null} */
  read = null;
  /** The last file without a fault, whose lines stay if its cells are edited. */
  #good = null;
  #resting = 0;

  constructor(text, token, page) {
    this.page = page;
    this.text = text;
    this.token = token;
    this.message = element('div', { 'aria-live': 'polite' });
    this.editor = new Editor(page, (pattern) => this.#draw(pattern));
    this.preview = element('div', { class: 'preview' }, this.editor.root, this.message);
    this.texts = {
      name: this.#textInput('text-name', 'no name yet'),
      author: this.#textInput('text-author', 'no author yet'),
    };
  }

  #textInput(id, placeholder) {
    const input = element('input', {
      id,
      maxlength: LONGEST_TEXT,
      autocomplete: 'off',
      placeholder,
      input: () => {
        keepDraft(id, input.value);
        this.#compose();
      },
    });
    return input;
  }

  /** The name and the author that the window keeps with a text that was typed. */
  get drafts() {
    return Object.values(this.texts).map((input) => draft(input.id));
  }

  /** Puts them into their fields again. @param {(string | null)[]} texts */
  restore(texts) {
    for (const [at, input] of Object.values(this.texts).entries()) {
      if (!input.disabled && texts[at]) input.value = texts[at];
      keepDraft(input.id, texts[at]);
    }
    this.#compose();
  }

  /** Sets the bytes. */
  take(bytes, shown) {
    this.input = bytes;
    this.choices = { asOld: true, isCut: false };
    this.#read(shown);
  }

  /** Puts the cells that were drawn into the text. */
  #draw(pattern) {
    this.input = withPattern(this.#good, pattern);
    this.#read(true, false);
    keepDraft('pattern', this.text.value || null);
  }

  /**
   * Reads the bytes, as the member chose.
   * @param {boolean} shown whether the text is put into its field
   * @param {boolean} isNew whether the cells are not those that the editor shows
   */
  #read(shown, isNew = true) {
    this.read = this.input.length > 0 ? readGiven(this.input, this.choices) : null;
    this.patternBytes = this.read?.bytes ?? this.input;
    this.record = this.read?.record ?? null;
    this.fault = this.read?.fault ?? null;
    if (shown) {
      this.text.value = new TextDecoder(this.read?.isOld && this.choices.asOld ? 'windows-1252' : 'utf-8')
        .decode(this.input);
    }
    if (this.record) this.editor.rule = ruleText(this.record.rule);
    if (this.record || !this.read) this.#good = this.record && { bytes: this.patternBytes, record: this.record };
    if (isNew && !this.fault) this.editor.show(this.record?.pattern ?? NO_PATTERN);
    // A text with a fault has no cells to draw; but what was drawn can still be undone.
    this.editor.root.hidden = isNew && this.fault !== null;
    this.message.replaceChildren(...this.#seen());
    this.#offer(shown && isNew);
    this.#compose();
    this.#findSame();
  }

  /** Says if a deposit has the same cells, once they rest. */
  #findSame() {
    clearTimeout(this.#resting);
    const { record } = this;
    if (!record?.pattern.population) return;
    this.#resting = setTimeout(async () => {
      const found = await sameDeposit(record, this.page.signal).catch(() => null);
      if (!found || this.record !== record) return;
      this.message.append(element('p', { class: 'note', id: 'same' },
        element('a', { href: depositAddress(found.number) }, `Deposit ${withCommas(found.number)}`),
        ` has the same cells${found.turn ? `, ${found.turn}` : ''}.`,
      ));
    }, RESTED);
  }

  #choose(changes) {
    Object.assign(this.choices, changes);
    this.#read(true);
  }

  /** Shows fields for a name and an author if the file has none. */
  #offer(isNew) {
    for (const [name, input] of Object.entries(this.texts)) {
      const has = this.record?.[name] ?? null;
      if (isNew) keepDraft(input.id, null);
      if (isNew || input.disabled || has !== null) input.value = has ?? '';
      input.disabled = has !== null || !this.record;
    }
    const offered = baseName(this.fileName);
    this.offer.hidden = !offered || this.texts.name.disabled;
    this.offer.replaceChildren(`Name it “${offered}”`);
  }

  /** Offers the file name as a name. */
  offer = element('button', { type: 'button', id: 'offer', hidden: true, click: () => {
    this.texts.name.value = baseName(this.fileName);
    this.#compose();
  } });

  /**
   * The bytes to send, with a missing name and author added. The token is their digest, as in
   * examples/scripts/put-folder.
   */
  #compose() {
    const { name, author } = this.texts;
    this.bytes = this.record ? withTexts(this.patternBytes, this.record, name.value, author.value) : this.patternBytes;
    this.token.value = this.bytes.length === 0 || this.bytes.length > LONGEST_FILE ? '' : sumOf(this.bytes);
  }

  /** Shows only a fault, for a file that is not read. */
  takeFault(fault) {
    this.take(new Uint8Array(), true);
    this.fault = fault;
    this.editor.root.hidden = true;
    this.message.replaceChildren(this.refused(refusedBy(fault)));
  }

  get isTooLong() {
    return this.fault?.number === TOO_LONG;
  }

  /** Shows how this page reads the file, before the archive has it. */
  #seen() {
    if (!this.read) {
      return [element('p', { class: 'empty' }, 'Press cells to draw them. Zoom with two fingers or the wheel.')];
    }
    const { record, notes, isOld, fault } = this.read;
    const old = isOld
      ? [oldChoice(
        'as-old',
        this.choices.asOld,
        'This file is not UTF-8: read it as windows-1252',
        (asOld) => this.#choose({ asOld }),
      )]
      : [];
    if (fault) {
      return [
        this.refused(refusedBy(fault)),
        ...(fault.isTooMany ? [cutButton(() => this.#choose({ isCut: true }))] : []),
        ...old,
      ];
    }
    const { name, rule, pattern } = record;
    const facts = `${name ? `${name}: ` : ''}${plural(pattern.population, 'cell')}, `
      + `${pattern.width} by ${pattern.height}, ${ruleText(rule)}`;
    return [
      element('p', {}, facts),
      ...notes.map((note) => element('p', { class: 'note' }, note)),
      ...old,
    ];
  }

  refused(error) {
    if (!error.fault || error.fault !== this.fault?.number) return refusal(error);
    return refusal(refusedBy(this.fault), this.read?.line);
  }
}

/** Accepts a file. It is not read if it is too long, since a large one would block the page. */
async function takeFile(content, file, page) {
  const isTooLong = file.size > LONGEST_FILE;
  content.fileName = file.name ?? '';
  if (isTooLong) content.takeFault(new Fault(TOO_LONG));
  else content.take(new Uint8Array(await file.arrayBuffer()), true);
  page.say(`${file.name ?? 'The pasted text'} is ${isTooLong ? 'too long' : 'loaded'}.`);
}

/** The area for dropping, choosing or pasting files. */
function dropPart(content, take, page) {
  const chooser = element('input', {
    id: 'file',
    class: 'aside',
    type: 'file',
    multiple: true,
    accept: '.rle,.cells,.lif,.life,.txt,text/plain',
    change: () => take([...chooser.files]),
  });
  const found = () => {
    const files = patternsOf([...folder.files]);
    if (files.length > 0) take(files);
    else page.sayNothing(NO_FILES);
  };
  const folder = element('input', { id: 'folder', class: 'aside', type: 'file', webkitdirectory: true, change: found });
  content.text.addEventListener('input', () => {
    content.take(new TextEncoder().encode(content.text.value), false);
    keepDraft('pattern', content.text.value);
  });
  return element('div', { class: 'drop' },
    element('p', {}, 'Or drop files or a folder anywhere:'),
    element('p', { class: 'row' },
      chooser,
      element('label', { class: 'button', for: 'file' }, 'Choose files'),
      folder,
      element('label', { class: 'button', for: 'folder' }, 'Choose a folder'),
    ),
    field(
      'Text of the pattern',
      content.text,
      `RLE, plaintext or Life 1.06: at most 1 MiB, and ${LONGEST_SIDE} by ${LONGEST_SIDE} cells.`,
    ),
  );
}

/** Sends the content, and opens the new deposit. */
async function send(content, { input: name, typed }, message, page) {
  if (!isMember(name.value)) throw new Refused('bad-member');
  if (content.isTooLong) throw new Refused('bad-pattern', 7, TOO_LONG);
  if (!TOKEN.test(content.token.value)) throw new Refused('bad-token');
  rememberMember(name.value);
  const waiting = (error) => {
    message.replaceChildren(element('p', {}, error.name === 'too-many-requests'
      ? 'The archive is busy; trying again…'
      : 'No reply yet; sending it again with the same token…'));
    page.say(message.textContent);
  };
  page.say('Sending…');
  message.replaceChildren(element('p', { class: 'waiting' }, 'Sending…'));
  const lastNumber = await lastDeposit(page.signal).catch(() => 0);
  const number = await sendDeposit(name.value, content.token.value, content.bytes, waiting, page.signal);
  page.say(`Stored as deposit ${number}.`);
  for (const name of ['pattern', 'text-name', 'text-author']) keepDraft(name, null);
  const text = number > lastNumber ? 'Deposited.' : 'You had already deposited this; it keeps its number.';
  keepNote(number, text, typed());
  go(depositAddress(number));
}

/** The fields for one file, and what happens when they are sent. */
function singlePart(content, token, page) {
  const member = memberPart('member', `Your name here: 1 to ${LONGEST_MEMBER} characters, a to z, 0 to 9 and "-".`);
  const message = element('div', { id: 'sent' });
  const button = element('button', { class: 'main', id: 'send' }, 'Deposit');
  let asked = '';
  const submit = async (event) => {
    event.preventDefault();
    message.replaceChildren();
    // A deposit stays for good, so it asks once whether an empty one is meant.
    if (content.record?.pattern.population === 0 && asked !== token.value) {
      asked = token.value;
      message.replaceChildren(element('p', { class: 'refusal', role: 'alert' },
        'This pattern has no live cells. Press Deposit again to store it all the same.',
      ));
      return;
    }
    button.disabled = true;
    try {
      await send(content, member, message, page);
    } catch (error) {
      if (!page.signal.aborted) {
        message.replaceChildren(content.refused(error));
        if (error.name === 'no-reply') button.replaceChildren('Send again');
      }
    } finally {
      button.disabled = false;
    }
  };
  const part = element('div', {},
    element('div', { class: 'texts' },
      field('Name', content.texts.name, 'Added if the file has none.'),
      field('Author', content.texts.author),
    ),
    content.offer,
    member.part,
    element('p', { class: 'row' },
      button,
      element('span', { class: 'hint' }, 'A deposit can’t be changed or deleted.'),
    ),
    message,
    element('details', {},
      element('summary', {}, 'Token'),
      field('Token', token, 'Made of the file. Sent again under the same token, a file is kept once.'),
    ),
  );
  return { part, submit };
}

/** The table of many files, which replaces the fields for one; returns the function that accepts files. */
function takerOf(form, single, content, page) {
  const table = new Table(page, () => {
    forgetTable();
    showTable(false);
    content.text.focus();
  });
  const showTable = (isMany) => {
    for (const part of [single, content.preview, content.text.closest('.field')]) part.hidden = isMany;
    if (isMany) form.after(table.root);
    else table.root.remove();
  };
  content.text.addEventListener('input', () => showTable(false));
  const kept = keptTable();
  if (kept.rows.length > 0) {
    form.after(table.root);
    table.showKept(kept);
  }
  return (files) => {
    if (files.length === 0) return null;
    showTable(files.length > 1);
    if (files.length > 1) return table.take(files);
    forgetTable();
    return takeFile(content, files[0], page);
  };
}

export function depositForm(page) {
  page.title('New deposit');
  const text = element('textarea', {
    id: 'pattern',
    rows: 4,
    spellcheck: 'false',
    autocapitalize: 'none',
    autocomplete: 'off',
    placeholder: 'x = 3, y = 3, rule = B3/S23\nbo$2bo$3o!',
  });
  const token = element('input', {
    id: 'token',
    maxlength: LONGEST_TOKEN,
    autocapitalize: 'none',
    autocomplete: 'off',
    spellcheck: 'false',
  });
  const content = new Content(text, token, page);
  const { part, submit } = singlePart(content, token, page);
  const form = element('form', { class: 'deposit', submit },
    content.preview,
    element('div', {}, dropPart(content, (files) => page.acceptFiles(files), page), part),
  );
  page.root.append(element('h1', { tabindex: -1 }, 'New deposit'), form);
  page.acceptFiles = takerOf(form, part, content, page);
  const typed = draft('pattern');
  const texts = content.drafts;
  const passed = passedFiles();
  content.take(passed || !typed ? new Uint8Array() : new TextEncoder().encode(typed), true);
  if (passed) page.acceptFiles(passed);
  else if (typed) content.restore(texts);
}
