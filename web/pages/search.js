// Searching the index: a form, and the matching deposits.

import { addressOf, isSearch, namedLines } from './box.js';
import { go } from '../shared/address.js';
import { element, field, plural, withCommas } from '../shared/dom.js';
import { NOTHING, addComments, allDeposits, indexHead, indexNote, search } from '../requests/index.js';
import { shownRows } from './list.js';
import { readRule, ruleText } from '../patterns/rule.js';

/** The fields besides the text: their names in an address, labels and types; a range has two. */
const FIELDS = [['member', 'Member', 'text'], ['author', 'Author', 'text'], ['rule', 'Rule', 'text']];
const RANGES = [['cells', 'Cells', 'number'], ['side', 'Longer side', 'number'], ['day', 'First seen', 'date']];

/** The query in an address, such as `text=glider&cells=5..10`. */
function askedBy(query) {
  const words = new URLSearchParams(query);
  const valueOf = (name) => words.get(name) ?? '';
  const rangeOf = (name) => [0, 1].map((at) => valueOf(name).split('..')[at] ?? '');
  const rule = readRule(valueOf('rule'));
  return {
    text: valueOf('text'),
    member: valueOf('member').toLowerCase(),
    author: valueOf('author'),
    rule: typeof rule === 'string' ? valueOf('rule') : ruleText(rule),
    cells: rangeOf('cells'),
    side: rangeOf('side'),
    day: rangeOf('day'),
  };
}

/** The address of a search. */
export function searchAddress(asked) {
  const words = new URLSearchParams();
  for (const [name, value] of Object.entries({ ...NOTHING, ...asked })) {
    const text = Array.isArray(value) ? value.join('..').replace(/^\.\.$/, '') : value;
    if (text) words.set(name, text);
  }
  return `/find?${words}`;
}

function input(id, type, value) {
  const found = element('input', {
    id,
    type,
    autocapitalize: 'none',
    autocomplete: 'off',
    spellcheck: 'false',
    ...(type === 'number' ? { min: 0, inputmode: 'numeric' } : {}),
  });
  found.value = value;
  return found;
}

/** @param {string[]} range */
function rangeField([name, label, type], [least, greatest]) {
  const [from, to] = [input(`search-${name}`, type, least), input(`search-${name}-to`, type, greatest)];
  from.setAttribute('aria-label', `${label}, from`);
  to.setAttribute('aria-label', `${label}, to`);
  return {
    name,
    value: () => [from.value, to.value],
    part: element('fieldset', { class: 'range' }, element('legend', {}, label), from, element('span', {}, 'to'), to),
  };
}

/** The form of a search. */
export function searchForm(asked = NOTHING) {
  const text = input('search-text', 'search', asked.text);
  const fields = FIELDS.map(([name, label, type]) => {
    const found = input(`search-${name}`, type, asked[name]);
    return { name, value: () => found.value.trim(), part: field(label, found) };
  });
  const all = [...fields, ...RANGES.map((range) => rangeField(range, asked[range[0]]))];
  const submit = (event) => {
    event.preventDefault();
    const [words, fieldValues] = [text.value.trim(), Object.fromEntries(all.map(({ name, value }) => [name, value()]))];
    // As in the search box of other pages, a code, a number or a rule leads to its page. Other words are searched for,
    // with the fields.
    const address = addressOf(words);
    go(words === '' || isSearch(address) ? searchAddress({ text: words, ...fieldValues }) : address);
  };
  const open = asked === NOTHING || all.some(({ value }) => [value()].flat().some(Boolean));
  return element('form', { class: 'search', role: 'search', submit },
    element('div', { class: 'row' },
      field('Name, code, rule or comment', text),
      element('button', { class: 'main' }, 'Search'),
    ),
    element('details', { open },
      element('summary', {}, 'Rule, size, day'),
      element('div', { class: 'fields' }, all.map(({ part }) => part)),
    ),
  );
}

/** The deposits that match the query in an address. */
export async function results(page, query) {
  const message = element('p', { class: 'count', role: 'status' }, 'Reading the index…');
  page.root.append(message);
  const head = await indexHead();
  if (!head) {
    message.replaceChildren('This archive has no index, so its deposits can’t be searched.');
    message.before(...await namedLines(askedBy(query).text, []));
    return;
  }
  const all = await allDeposits((number, of) => {
    if (number < of) message.replaceChildren(`Reading the index: ${withCommas(number)} of ${withCommas(of)} blocks…`);
  }, page.signal);
  const asked = askedBy(query);
  if (asked.text) await addComments(all, page.signal);
  const rows = search(all, asked);
  message.before(...await namedLines(asked.text, [...new Set(all.map(({ member }) => member))]));
  message.replaceChildren(rows.length === 0
    ? `None of ${plural(all.length, 'deposit')} matches.`
    : `${plural(rows.length, 'deposit')} of ${withCommas(all.length)}, best matches first.`);
  page.root.append(...shownRows(page, rows), indexNote(head));
}

/** The form with a search, or an empty one whose fields are open. */
export const formOf = (query) => searchForm(query ? askedBy(query) : NOTHING);
