// Lists of censuses from the index: all of them, those of a deposit, and those that contain an object.

import { censusAddress, depositAddress } from '../shared/address.js';
import { element, plural, withCommas } from '../shared/dom.js';
import {
  censusesOfObject,
  censusesWith,
  indexHead,
  indexNote,
  indexedCensus,
  indexedDeposit,
} from '../requests/index.js';
import { Heads, keepOrder, keptOrder, sorted } from '../shared/sorts.js';

/** How many lines a table shows at first, and adds with each press. */
const LINES = 20;

const nameOf = async (id) => (await indexedDeposit(id))?.name || null;

/** A line in a list of censuses: its number, deposit, generation and result. */
async function censusLine(row, count) {
  const place = depositAddress(row.deposit, row.generation);
  const name = await nameOf(row.deposit);
  return element('tr', {},
    element('th', { scope: 'row' }, element('a', { href: censusAddress(row.id) }, withCommas(row.id))),
    element('td', {},
      element('a', { href: place }, `${name ?? `Deposit ${row.deposit}`}`),
      element('small', {}, `deposit ${withCommas(row.deposit)}, generation ${withCommas(row.generation)}`),
      element('small', { class: 'narrow' }, `${row.steady ? 'steady' : 'not steady'}, ${row.day}`),
    ),
    count === undefined ? null : element('td', { class: 'number' }, withCommas(count)),
    element('td', { class: 'number' }, withCommas(row.clusters)),
    element('td', {}, row.steady ? 'steady' : 'not steady', element('small', {}, row.day)),
  );
}

/**
 * The columns of a table of censuses; `counts` says how often each has an object.
 * @type {import('../shared/sorts.js').Column[]}
 */
const COLUMNS = [
  { id: 'census', head: 'Census', value: (row) => row.id },
  { id: 'of', head: 'Of', value: (row) => row.deposit * 10_000 + row.generation, isUp: true },
  { id: 'count', head: 'Of it', value: (row, counts) => counts.get(row.id), isNumber: true },
  { id: 'clusters', head: 'Clusters', value: (row) => row.clusters, isNumber: true },
  { id: 'field', head: 'Field', value: (row) => `${row.steady ? 'a' : 'b'}${row.day}`, isUp: true },
];

/** A table of censuses, the newest first until it is sorted, with a button that shows more. */
async function censusTable(page, rows, caption, counts) {
  const body = element('tbody');
  const moreButton = element('button', { type: 'button', class: 'more' });
  const columns = COLUMNS.filter(({ id }) => counts || id !== 'count');
  let shown = [];
  const show = async () => {
    const [from, currentRows] = [body.childElementCount, shown];
    const lines = await Promise.all(
      currentRows.slice(from, from + LINES).map((row) => censusLine(row, counts?.get(row.id))),
    );
    page.signal.throwIfAborted();
    // It may have been sorted meanwhile.
    if (currentRows !== shown || body.childElementCount !== from) return;
    body.append(...lines);
    moreButton.hidden = body.childElementCount >= rows.length;
    moreButton.textContent = `Show ${withCommas(Math.min(LINES, rows.length - body.childElementCount))} more `
      + `of ${withCommas(rows.length)}`;
  };
  const heads = new Heads(columns, keptOrder({ sort: 'census', isUp: false }), (order) => {
    keepOrder(order);
    shown = sorted(rows, columns, order, counts);
    body.replaceChildren();
    show();
  });
  shown = sorted(rows, columns, heads.order, counts);
  moreButton.addEventListener('click', show);
  await show();
  return [
    element('table', { class: 'census censuses' },
      element('caption', { class: 'aside' }, caption),
      element('thead', {}, element('tr', {}, heads.cells)),
      body,
    ),
    element('p', {}, moreButton),
  ];
}

/** The censuses of a deposit, as a section of its page; nothing if there is no index or no census. */
export async function censusesSection(page, number) {
  const head = await indexHead();
  const rows = head ? await censusesWith((row) => row.deposit === number, page.signal) : [];
  if (rows.length === 0) return [];
  return [element('section', { id: 'censuses' },
    element('h2', {}, plural(rows.length, 'census', 'censuses')),
    ...await censusTable(page, rows, `Censuses of deposit ${number}`),
    indexNote(head),
  )];
}

/** Where an object occurs: the censuses that contain it, and the number of their deposits. */
export async function occurrences(page, rule, code) {
  const head = await indexHead();
  if (!head) return [];
  const found = await censusesOfObject(rule, code, page.signal);
  const rows = (await Promise.all(found.map(({ id }) => indexedCensus(id)))).filter(Boolean);
  const deposits = new Set(rows.map((row) => row.deposit));
  const message = rows.length === 0
    ? 'No census in the index contains it.'
    : `In ${plural(rows.length, 'census', 'censuses')} of ${plural(deposits.size, 'deposit')}, the newest first.`;
  const table = rows.length === 0 ? [] : await censusTable(
    page,
    rows,
    `Censuses that contain ${code}`,
    new Map(found.map(({ id, count }) => [id, count])),
  );
  return [element('section', { id: 'occurrences' },
    element('h2', {}, 'Where it occurs'),
    element('p', {}, message),
    ...table,
    indexNote(head),
  )];
}

/** The list of censuses, the newest first. */
export async function censusesPage(page) {
  page.title('Censuses');
  page.root.append(element('h1', { tabindex: -1 }, 'Censuses'));
  const head = await indexHead();
  if (!head) {
    page.root.append(element('p', { class: 'empty' },
      'This archive has no index, so you can only open a census by its number: ',
      element('a', { href: '/find' }, 'find one'),
      '.',
    ));
    return;
  }
  const rows = await censusesWith(() => true, page.signal);
  if (rows.length === 0) {
    page.root.append(
      element('p', { class: 'empty' }, 'There is no census yet. You can take one on the page of a deposit.'),
    );
  } else {
    page.root.append(
      element('p', { class: 'count' }, plural(rows.length, 'census', 'censuses')),
      ...await censusTable(page, rows, 'Censuses, the newest first'),
    );
  }
  page.root.append(indexNote(head));
  page.say(`${plural(rows.length, 'census', 'censuses')}.`);
}
