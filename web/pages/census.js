// A census: its table, with bars, whether its field is steady, and its CSV.

import { censusAddress, depositAddress, go, objectAddress } from '../shared/address.js';
import { census, deposit } from '../requests/archive.js';
import { objectNames, patternOf } from '../patterns/code.js';
import { copyButton, element, plural, withCommas } from '../shared/dom.js';
import { thumbnail } from '../drawing/draw.js';
import { groupsOf } from '../patterns/parts.js';
import { ruleText } from '../patterns/rule.js';
import { entryState, keepEntryState } from '../shared/storage.js';
import { Heads, keepOrder, keptOrder, sorted } from '../shared/sorts.js';

const SIDE = 48;

/** The bar of a count, relative to the greatest one. */
function barOf(count, most, className = '') {
  const bar = element('span', { class: `bar ${className}`, 'aria-hidden': 'true', hidden: count === 0 });
  bar.style.inlineSize = `${100 * count / most}%`;
  return element('td', { class: 'bars' }, bar);
}

const LIFE = 'B3/S23';

/**
 * How the objects of a table are shown: the names of well-known ones, the parts of groups, and how often an object is
 * in groups. Groups are found after the table is shown. The window's history keeps whether they are split.
 */
export class Labels {
  #names;
  #groups = { texts: new Map(), grouped: new Map() };
  #lines = new Map();
  #isSplit = Boolean(entryState().isSplit);
  /** Shows the table again; called when groups are split, or found. */
  changed = () => {};

  /**
   * @param {string} rule
   * @param {Map<string, string>} names
   */
  constructor(rule, names) {
    this.rule = rule;
    this.#names = rule === LIFE ? names : new Map();
  }

  /**
   * The rows with their counts. If groups are split, they are missing, and their objects count separately.
   * @template {{code: string, count: number}} Row
   * @param {Row[]} rows
   * @returns {Row[]}
   */
  counted(rows) {
    const { texts, grouped } = this.#groups;
    return this.#isSplit
      ? rows
        .filter(({ code }) => !texts.has(code))
        .map((row) => ({ ...row, count: row.count + (grouped.get(row.code) ?? 0) }))
      : rows;
  }

  /** The choice to split groups, if there is one: parts are known only in Conway's Life. */
  get choice() {
    const box = element('input', {
      id: 'split',
      type: 'checkbox',
      checked: this.#isSplit,
      change: () => {
        this.#isSplit = box.checked;
        keepEntryState({ isSplit: box.checked });
        this.changed();
      },
    });
    return this.rule === LIFE
      ? [element('p', { class: 'check' },
        box,
        element('label', { for: box.id, title: 'Count each object in a group separately' }, 'Split groups'),
      )]
      : [];
  }

  /** The line below a code, which is updated when the groups are known. */
  lineOf(code) {
    const line = element('small');
    this.#lines.set(code, line);
    this.#fill(code);
    return line;
  }

  #fill(code) {
    const [name, parts, grouped] = [
      this.#names.get(code),
      this.#groups.texts.get(code),
      this.#groups.grouped.get(code),
    ];
    const groups = [
      parts && `${name ? ': ' : ''}${parts}`,
      grouped && `${name || parts ? ' · ' : ''}${withCommas(grouped)} ${this.#isSplit ? 'of them' : 'more'} in groups`,
    ].filter(Boolean);
    this.#lines.get(code)?.replaceChildren(...[
      name ? element('span', { class: 'name' }, name) : null,
      groups.length ? element('span', { class: 'groups' }, groups) : null,
    ].filter(Boolean));
  }

  /**
   * Finds the groups among the rows of a table.
   * @param {{code: string, count: number}[]} rows
   * @param {AbortSignal} signal
   */
  async findGroups(rows, signal) {
    this.#groups = await groupsOf(rows, this.rule, signal);
    for (const code of this.#lines.keys()) this.#fill(code);
    if (this.#isSplit) this.changed();
  }
}

/** The note above a table of objects: its counts differ from those that readers may know from elsewhere. */
export const countNote = () => element('p', { class: 'hint' },
  'A cluster counts as one object even if its parts never change each other, '
    + 'so these counts differ from apgsearch’s. ',
  element('a', { href: '/about#census' }, 'How objects are counted'),
);

/**
 * A row of a table: an object, its name, its count, and a bar.
 * @param {{code: string, count: number}} object
 * @param {number} most
 * @param {Labels} labels
 */
export function objectRow({ code, count }, most, labels) {
  const pattern = patternOf(code);
  return element('tr', {},
    element('td', { class: 'drawn' }, pattern ? thumbnail(pattern, SIDE, SIDE) : null),
    element('th', { scope: 'row' },
      element('a', { href: objectAddress(labels.rule, code) }, element('code', {}, code)),
      labels.lineOf(code),
    ),
    element('td', { class: 'number' }, withCommas(count)),
    barOf(count, most),
  );
}

/** The row of the clusters without a code. */
export function unresolvedRow(count, most) {
  return element('tr', {},
    element('td', { class: 'drawn' }),
    element('th', { scope: 'row' }, 'unresolved', element('small', {}, 'no code within the limit')),
    element('td', { class: 'number' }, withCommas(count)),
    barOf(count, most, 'none'),
  );
}

/** The columns by which the table can be sorted. @type {import('../shared/sorts.js').Column[]} */
const COLUMNS = [
  { id: 'code', head: 'Code', value: (row) => row.code, isUp: true },
  { id: 'count', head: 'Count', value: (row) => row.count, isNumber: true },
];

/** The greatest count of a table. */
export const mostOf = (rows, unresolved) => (
  rows.reduce((most, { count }) => Math.max(most, count), Math.max(1, unresolved))
);

/** The table of the objects; the archive sorts by code, and this table by count at first. */
function objectsTable(number, found, labels) {
  const body = element('tbody');
  let [rows, lines, unresolvedLine] = [[], new Map(), null];
  const show = (order) => body.replaceChildren(
    ...sorted(rows, COLUMNS, order).map((row) => lines.get(row)),
    unresolvedLine,
  );
  const heads = new Heads(COLUMNS, keptOrder({ sort: 'count', isUp: false }), (order) => {
    keepOrder(order);
    show(order);
  });
  labels.changed = () => {
    rows = labels.counted(found.rows);
    const most = mostOf(rows, found.unresolved);
    lines = new Map(rows.map((row) => [row, objectRow(row, most, labels)]));
    unresolvedLine = unresolvedRow(found.unresolved, most);
    show(heads.order);
  };
  labels.changed();
  return element('table', { class: 'census' }, element('caption', { class: 'aside' }, `Objects of census ${number}`),
    element('thead', {}, element('tr', {}, element('td', {}), heads.cells, element('td', {}))), body);
}

function steadyText(found) {
  return found.steady
    ? 'Steady: all clusters are still lifes and oscillators that never come near each other, '
      + 'so from now on each of them runs as if there were no other.'
    : 'Not steady: a cluster moves, does not return within the limit, or comes near another.';
}

export async function censusPage(page, digits) {
  const number = Number(digits);
  page.title(`Census ${number}`);
  const found = await census(number, page.signal);
  const [{ record }, names] = await Promise.all([deposit(found.deposit, page.signal), objectNames()]);
  const rule = ruleText(record.rule);
  const { rows } = found;
  const labels = new Labels(rule, names);
  const url = location.origin + censusAddress(number);
  const place = depositAddress(found.deposit, found.generation);
  page.keys['['] = () => { if (number > 1) go(censusAddress(number - 1)); };
  page.keys[']'] = () => { go(censusAddress(number + 1)); };
  page.root.append(
    element('h1', { tabindex: -1 }, `Census ${withCommas(number)}`),
    element('p', { class: 'by' },
      'Of ',
      element('a', { href: place }, `generation ${withCommas(found.generation)} of deposit ${found.deposit}`),
      `${record.name ? `, ${record.name}` : ''}, under ${rule}, with periods up to ${withCommas(found.limit)}.`,
    ),
    element('dl', { class: 'facts' }, [
      ['Clusters', withCommas(found.clusters)],
      ['Objects', plural(rows.length, 'code')],
      ['Unresolved', withCommas(found.unresolved)],
    ].map(([term, description]) => element('div', {}, element('dt', {}, term), element('dd', {}, description)))),
    element('p', { class: found.steady ? 'steady yes' : 'steady' }, steadyText(found)),
    countNote(),
    ...labels.choice,
    objectsTable(number, found, labels),
    element('p', { class: 'row' },
      element('a', {
        class: 'button',
        href: `/censuses/${number}/csv`,
        download: `census-${number}.csv`,
      }, 'Download CSV'),
      element('a', { class: 'address', href: url }, url),
      copyButton('Copy the address', () => url, page.say),
    ),
  );
  labels.findGroups(rows, page.signal).catch(() => {});
  page.say(`Census ${number}: ${plural(found.clusters, 'cluster')}, ${plural(rows.length, 'code')}, `
    + `${found.unresolved} unresolved.`);
}
