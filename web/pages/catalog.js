// All objects in the censuses of a rule, from the search index: a table to sort and filter, and its CSV.

import { depositAddress, go, objectAddress } from '../shared/address.js';
import { limitOf, objectNames, patternOf } from '../patterns/code.js';
import { element, field, plural, withCommas } from '../shared/dom.js';
import { thumbnail } from '../drawing/draw.js';
import { indexHead, indexNote, objectsOfRule, rulesWithObjects } from '../requests/index.js';
import { KINDS } from './object.js';
import { groupsOf, leastCells } from '../patterns/parts.js';
import { Refused } from '../requests/refusals.js';
import { readRule, ruleAddress, ruleOfAddress, ruleText } from '../patterns/rule.js';
import { save } from '../shared/save.js';
import { Heads, sorted } from '../shared/sorts.js';

const LIFE = 'B3/S23';
const SHOWN = 100;
const SIDE = 48;

/**
 * @typedef {object} Row an object of the table
 * @property {string} code
 * @property {ReturnType<typeof patternOf>} pattern what the code spells
 * @property {string} name its name, or what it is made of; empty if it has neither
 * @property {string} kind
 * @property {number} period
 * @property {number} cells those of its smallest phase, once they are counted
 * @property {number} count
 * @property {number} grouped how many more of it are in groups
 * @property {boolean} isGroup whether it is several objects side by side
 * @property {number} deposits
 * @property {number} first the first deposit that has it
 * @property {string} day
 */

/**
 * How often an object occurs: alone or, if groups are split, in groups too.
 * @param {Row} row
 * @param {boolean} isSplit
 */
const countOf = (row, isSplit) => (isSplit ? row.count + row.grouped : row.count);

/** The columns. Numbers are first sorted in descending order. @type {import('../shared/sorts.js').Column[]} */
const COLUMNS = [
  { id: 'name', head: 'Object', value: (row) => row.name || '\uffff', isUp: true },
  { id: 'kind', head: 'Kind', value: (row) => row.kind, isUp: true, isExtra: true },
  { id: 'period', head: 'Period', value: (row) => row.period, isNumber: true, isUp: true, isExtra: true },
  { id: 'cells', head: 'Cells', value: (row) => row.cells, isNumber: true, isUp: true, isExtra: true },
  { id: 'count', head: 'Count', value: countOf, isNumber: true },
  { id: 'deposits', head: 'Deposits', value: (row) => row.deposits, isNumber: true, isExtra: true },
  { id: 'first', head: 'First in', value: (row) => row.first, isNumber: true, isUp: true, isExtra: true },
];

/** A row of an object as the index has it. */
function rowOf(object, names) {
  const pattern = patternOf(object.code);
  return {
    code: object.code,
    pattern,
    name: names.get(object.code) ?? '',
    kind: KINDS[object.code[1]],
    period: limitOf(object.code),
    cells: pattern?.population ?? 0,
    count: object.count,
    grouped: 0,
    isGroup: false,
    deposits: object.deposits.size,
    first: object.first?.deposit ?? 0,
    day: object.first?.day ?? '',
  };
}

/** A range as it is typed: `3`, `3-8`, `3-` or `-8`. Any other text means all numbers. */
function rangeOf(text) {
  const found = /^\s*([0-9]*)\s*(-|–|to|\.\.)?\s*([0-9]*)\s*$/.exec(text);
  if (!found || (found[1] === '' && found[3] === '')) return () => true;
  const [least, most] = [Number(found[1] || 0), found[2] ? Number(found[3] || Infinity) : Number(found[1])];
  return (number) => number >= least && number <= most;
}

/** The order and the filters in the address. */
function askedBy(query) {
  const words = new URLSearchParams(query);
  const [, isDown, sort] = /^(-?)([a-z]+)$/.exec(words.get('sort') ?? '') ?? [null, '-', 'count'];
  const column = COLUMNS.find(({ id }) => id === sort) ?? COLUMNS.find(({ id }) => id === 'count');
  return {
    sort: column.id,
    isUp: isDown !== '-',
    text: words.get('text') ?? '',
    kind: words.get('kind') ?? '',
    period: words.get('period') ?? '',
    cells: words.get('cells') ?? '',
    groups: words.get('groups') ?? '',
  };
}

/** The query of the address for an order and filters. */
function queryOf({ sort, isUp, ...filters }) {
  const words = new URLSearchParams(Object.entries(filters).filter(([, value]) => value !== ''));
  if (sort !== 'count' || isUp) words.set('sort', `${isUp ? '' : '-'}${sort}`);
  const query = words.toString();
  return query && `?${query}`;
}

/**
 * The matching rows, in the requested order.
 * @param {Row[]} rows
 */
function fitting(rows, asked) {
  const text = asked.text.trim().toLowerCase();
  const [period, cells] = [rangeOf(asked.period), rangeOf(asked.cells)];
  const isSplit = asked.groups === 'split';
  const found = rows.filter((row) => (
    !(isSplit && row.isGroup)
    && (row.name.toLowerCase().includes(text) || row.code.includes(text))
    && (!asked.kind || row.code[1] === asked.kind)
    && period(row.period)
    && cells(row.cells)
  ));
  return sorted(found.sort((row, other) => other.count - row.count), COLUMNS, asked, isSplit);
}

/** How often an object occurs, and how many of these are in groups. */
function countCell(row, isSplit) {
  const groupText = isSplit ? `${withCommas(row.count)} alone` : `+ ${withCommas(row.grouped)} in groups`;
  const number = withCommas(countOf(row, isSplit));
  return element('td', { class: 'number' }, number, row.grouped ? element('small', {}, groupText) : null);
}

/** @param {Row} row @param {string} rule @param {boolean} isSplit */
function lineOf(row, rule, isSplit) {
  const note = `${row.kind}${row.period > 1 ? `, period ${withCommas(row.period)}` : ''}, ${plural(row.cells, 'cell')}`;
  return element('tr', {},
    element('td', { class: 'drawn' }, row.pattern ? thumbnail(row.pattern, SIDE, SIDE) : null),
    element('th', { scope: 'row' },
      element('a', { href: objectAddress(rule, row.code) }, row.name || element('code', {}, row.code)),
      row.name ? element('small', {}, element('code', {}, row.code)) : null,
      element('small', { class: 'narrow' }, note),
    ),
    element('td', { class: 'more' }, row.kind),
    element('td', { class: 'more number' }, withCommas(row.period)),
    element('td', { class: 'more number' }, withCommas(row.cells)),
    countCell(row, isSplit),
    element('td', { class: 'more number' }, withCommas(row.deposits)),
    element('td', { class: 'more number' },
      row.first ? element('a', { href: depositAddress(row.first) }, `#${withCommas(row.first)}`) : '',
      row.first ? element('small', {}, row.day) : null,
    ),
  );
}

/** A cell of a CSV file (RFC 4180). */
const cellOf = (value) => (/[",\r\n]/.test(value) ? `"${String(value).replaceAll('"', '""')}"` : value);

/** @param {Row[]} rows */
const csvOf = (rows) => [
  'code,name,kind,period,cells,count,in_groups,deposits,first_deposit,first_day',
  ...rows.map((row) => (
    [row.code, row.name, row.kind, row.period, row.cells, row.count, row.grouped, row.deposits, row.first, row.day]
      .map(cellOf)
      .join()
  )),
  '',
].join('\r\n');

/** The choice of a rule. */
function ruleField(rules, rule) {
  const choice = element('select', { id: 'objects-rule', change: () => go(`/o/${ruleAddress(choice.value)}`) },
    rules.map(([text, count]) => (
      element('option', { value: text, selected: text === rule }, `${text} (${withCommas(count)})`)
    )),
  );
  return field('Rule', choice);
}

/** The table of objects with its filters. */
class Catalog {
  /** @type {Row[]} */
  #fitting = [];
  #shown = 0;

  /**
   * @param {object} page
   * @param {string} rule
   * @param {Row[]} rows
   * @param {[string, number][]} rules the rules that can be chosen, each with the number of its objects
   */
  constructor(page, rule, rows, rules) {
    this.page = page;
    this.rule = rule;
    this.rows = rows;
    this.asked = askedBy(location.search);
    this.count = element('p', { class: 'count', role: 'status' });
    this.body = element('tbody');
    this.moreButton = element('button', { type: 'button', class: 'more', click: () => this.#showMore() });
    this.heads = new Heads(COLUMNS, this.asked, (order) => {
      this.asked = { ...this.asked, ...order };
      this.show();
    });
    this.form = this.#formOf(rules);
    this.root = element('div', {},
      this.form,
      this.count,
      element('table', { class: 'census catalog' },
        element('caption', { class: 'aside' }, `Objects of the censuses of deposits under ${rule}`),
        element('thead', {}, element('tr', {}, element('td', {}), this.heads.cells)),
        this.body,
      ),
      element('p', {}, this.moreButton),
    );
    this.show();
  }

  get #isSplit() {
    return this.asked.groups === 'split';
  }

  #formOf(rules) {
    const input = (name, placeholder) => {
      const found = element('input', {
        id: `objects-${name}`,
        autocapitalize: 'none',
        autocomplete: 'off',
        spellcheck: 'false',
        placeholder,
        input: () => this.#filter(name, found.value),
      });
      found.value = this.asked[name];
      return found;
    };
    const kind = element('select', { id: 'objects-kind', change: () => this.#filter('kind', kind.value) },
      [['', 'any'], ...Object.entries(KINDS)].map(([value, text]) => (
        element('option', { value, selected: value === this.asked.kind }, text)
      )),
    );
    const csv = element('button', {
      type: 'button',
      id: 'objects-csv',
      click: () => save(csvOf(this.#fitting), `objects-${this.rule.replace('/', '-')}.csv`, 'text/csv'),
    }, 'Download CSV');
    return element('form', { class: 'filters', submit: (event) => event.preventDefault() },
      rules.length > 1 ? ruleField(rules, this.rule) : null,
      field('Name or code', input('text', 'loaf, 4 blinkers, xq4')),
      field('Kind', kind),
      field('Period', input('period', '2 or 2-8')),
      field('Cells', input('cells', '4 or 4-10')),
      element('p', { class: 'row' }, this.#splitOf(), csv),
    );
  }

  /**
   * Counts each object of a group separately, as a catalogue of separated objects does. Parts are known only in
   * Conway's Life.
   */
  #splitOf() {
    const split = element('input', {
      id: 'objects-split',
      type: 'checkbox',
      checked: this.asked.groups === 'split',
      change: () => this.#filter('groups', split.checked ? 'split' : ''),
    });
    return this.rule === LIFE
      ? element('span', { class: 'check' },
        split,
        element('label', { for: split.id, title: 'Count each object in a group separately' }, 'Split groups'),
      )
      : null;
  }

  #filter(name, value) {
    this.asked = { ...this.asked, [name]: value };
    this.show();
  }

  /** Shows the matching rows from the first on. */
  show() {
    this.#fitting = fitting(this.rows, this.asked);
    this.#shown = 0;
    this.body.replaceChildren();
    const all = this.#fitting.reduce((sum, row) => sum + countOf(row, this.#isSplit), 0);
    this.count.replaceChildren(
      plural(this.#fitting.length, 'object')
        + (this.#fitting.length < this.rows.length ? ` of ${withCommas(this.rows.length)}` : '')
        + `, counted ${plural(all, 'time')}`,
    );
    history.replaceState(history.state, '', location.pathname + queryOf(this.asked));
    this.#showMore();
  }

  #showMore() {
    this.body.append(...this.#fitting
      .slice(this.#shown, this.#shown + SHOWN)
      .map((row) => lineOf(row, this.rule, this.#isSplit)));
    this.#shown = Math.min(this.#shown + SHOWN, this.#fitting.length);
    this.moreButton.hidden = this.#shown >= this.#fitting.length;
    this.moreButton.textContent = `Show ${withCommas(Math.min(SHOWN, this.#fitting.length - this.#shown))} more `
      + `of ${withCommas(this.#fitting.length)}`;
  }
}

/** Counts the cells of each object's smallest phase, as its page does. */
async function countCells(catalog, signal) {
  const rule = /** @type {any} */ (readRule(catalog.rule));
  const least = await leastCells(catalog.rows.map(({ code }) => code), rule, signal);
  for (const row of catalog.rows) row.cells = least.get(row.code) ?? row.cells;
  catalog.show();
}

/** Finds the groups of other objects, and marks their rows. */
async function nameGroups(catalog, signal) {
  const { texts, grouped } = await groupsOf(catalog.rows, catalog.rule, signal);
  if (texts.size === 0) return;
  for (const row of catalog.rows) {
    const text = texts.get(row.code);
    if (text) Object.assign(row, { name: row.name ? `${row.name} (${text})` : text, isGroup: true });
    row.grouped = grouped.get(row.code) ?? 0;
  }
  catalog.show();
}

/** The rule in an address. */
function ruleGiven(ruleAddress) {
  const rule = readRule(ruleOfAddress(decodeURIComponent(ruleAddress)));
  if (typeof rule === 'string') throw new Refused('bad-rule');
  return ruleText(rule);
}

/** The page of all objects of a rule. */
export async function catalogPage(page, ruleAddress) {
  const head = await indexHead();
  const wanted = ruleAddress === undefined ? null : ruleGiven(ruleAddress);
  page.title(wanted ? `Objects of ${wanted}` : 'Objects');
  page.root.append(element('h1', { tabindex: -1 }, 'Objects'));
  if (!head) {
    page.root.append(element('p', { class: 'empty' },
      'This archive has no search index, so there is no list of objects. ',
      element('a', { href: '/find' }, 'Look one up by its code'),
      '.',
    ));
    return;
  }
  const rules = await rulesWithObjects(page.signal);
  const rule = wanted ?? (rules.some(([text]) => text === LIFE) ? LIFE : rules[0]?.[0] ?? LIFE);
  const [objects, names] = await Promise.all([
    objectsOfRule(rule, page.signal),
    rule === LIFE ? objectNames() : new Map(),
  ]);
  page.root.append(element('p', { class: 'by' },
    `All objects that censuses of deposits under ${rule} have found, the most frequent first. `,
    element('a', { href: '/about#census' }, 'How objects are counted'),
  ));
  if (objects.length === 0) {
    page.root.append(
      element('p', { class: 'empty' },
        `No census of a deposit under ${rule} has found an object yet. `,
        rules.length > 0
          ? ['There are objects of ', element('a', { href: `/o/${ruleAddress(rules[0][0])}` }, rules[0][0]), '.']
          : 'To begin, count the objects of a deposit.',
      ),
      indexNote(head),
    );
    return;
  }
  const catalog = new Catalog(page, rule, objects.map((object) => rowOf(object, names)), rules);
  page.root.append(catalog.root, indexNote(head));
  page.say(`${plural(objects.length, 'object')} of ${rule}.`);
  countCells(catalog, page.signal).then(() => nameGroups(catalog, page.signal)).catch(() => {});
}
