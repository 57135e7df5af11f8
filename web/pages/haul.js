// A haul: you drop or choose a table from `life-haul`, and the page shows its objects with the soups that have them,
// most frequent first; press a head to sort.

import { go } from '../shared/address.js';
import { Labels, countNote, mostOf, objectRow, unresolvedRow } from './census.js';
import { objectNames } from '../patterns/code.js';
import { element, field, plural, withCommas } from '../shared/dom.js';
import { draft, entryState, keepDraft, keepEntryState } from '../shared/storage.js';
import { passFiles, passedFiles } from '../shared/handover.js';
import { Heads, keepOrder, keptOrder, sorted } from '../shared/sorts.js';
import { sumOf } from '../patterns/sha256.js';

/** How many objects are shown at first, and how many more by each press. Each has a drawing. */
const SHOWN = 100;
/** The longest table that is read, in bytes: about 200,000 codes. */
const LONGEST_TABLE = 16_777_216;
const HEADINGS = ['root', 'rule', 'generation', 'limit'];
const HEAD = 'code,count,first';
/** The symmetries of soups by name: how many cells a row has, and which row is the mirror image of row 0, if any. */
const SYMMETRIES = {
  C1: [16],
  '8x32': [32],
  '4x64': [64],
  '2x128': [128],
  '1x256': [256],
  'D2_+1': [16, 0],
  'D2_+2': [16, -1],
};
const NAMED = /^# symmetry (.*)$/;
const ROW = /^(x[spq][1-9][0-9]*_[0-9a-z]+),([1-9][0-9]{0,15}),([0-9]{1,16})$/;
const ENDS = [
  /^unresolved,([0-9]{1,16}),[0-9]{0,16}$/,
  /^clusters,([0-9]{1,16}),$/,
  /^soups,([0-9]{1,16}),([0-9]{1,16})$/,
];

/** The content of a table; null if the text is not a table or its counts do not add up. */
export function readTable(text) {
  const lines = text.split('\n');
  const values = HEADINGS.map((name, at) => (
    lines[at]?.startsWith(`# ${name} `) ? lines[at].slice(name.length + 3) : null
  ));
  // A table with symmetry C1 does not name it.
  const named = NAMED.exec(lines[HEADINGS.length]);
  const symmetry = named ? named[1] : 'C1';
  if (!Object.hasOwn(SYMMETRIES, symmetry) || (named && symmetry === 'C1')) return null;
  if (named) lines.splice(HEADINGS.length, 1);
  const ends = ENDS.map((form, at) => form.exec(lines.at(at - 4) ?? ''));
  const rows = lines.slice(HEADINGS.length + 1, -4).map((line) => ROW.exec(line));
  if ([...values, ...ends, ...rows].includes(null)) return null;
  if (lines.at(-1) !== '' || lines[HEADINGS.length] !== HEAD) return null;
  const [root, rule, generation, limit] = values;
  const [unresolved, clusters, soups, first] = [ends[0][1], ends[1][1], ends[2][1], ends[2][2]].map(Number);
  const objects = rows.map(([, code, count, seen]) => ({ code, count: Number(count), first: Number(seen) }));
  if (objects.reduce((sum, { count }) => sum + count, unresolved) !== clusters) return null;
  return {
    root,
    rule,
    symmetry,
    generation: Number(generation),
    limit: Number(limit),
    unresolved,
    clusters,
    soups,
    first,
    objects,
  };
}

/** The symmetry as words that follow the root; nothing for C1. */
const symmetryWords = (symmetry) => (symmetry === 'C1' ? '' : ` (${symmetry})`);

/**
 * A soup as a pattern file: the bits of the SHA-256 digest of its root and its number, row by row, with their mirror
 * image before them.
 */
export function soupFile(root, rule, number, symmetry = 'C1') {
  const digest = sumOf(new TextEncoder().encode(`${root}${number}`));
  const cells = [...digest]
    .map((digit) => parseInt(digit, 16).toString(2).padStart(4, '0').replaceAll('0', 'b').replaceAll('1', 'o'))
    .join('');
  const [width, image] = SYMMETRIES[symmetry];
  const rows = cells.match(new RegExp(`.{${width}}`, 'g'));
  const images = image === undefined ? [] : rows.slice(image + 1).reverse();
  return `#N soup ${number} of ${root}${symmetryWords(symmetry)}\n`
    + `x = ${width}, y = ${images.length + rows.length}, rule = ${rule}\n`
    + `${[...images, ...rows].join('$\n')}!\n`;
}

/** A button that opens a soup on the page for depositing files. */
function soupButton(haul, number) {
  const click = () => {
    passFiles([new File([soupFile(haul.root, haul.rule, number, haul.symmetry)], `soup-${number}.rle`)]);
    go('/new');
  };
  const title = `Soup ${number}: see it, deposit it`;
  return element('button', { type: 'button', click, 'aria-label': title }, withCommas(number));
}

function rowOf(object, most, haul, labels) {
  const row = objectRow(object, most, labels);
  row.append(element('td', { class: 'number' }, soupButton(haul, object.first)));
  return row;
}

/** @type {import('../shared/sorts.js').Column[]} */
const COLUMNS = [
  { id: 'code', head: 'Code', isUp: true, value: ({ code }) => code },
  { id: 'count', head: 'Count', isNumber: true, value: ({ count }) => count },
  { id: 'first', head: 'First soup', isNumber: true, isUp: true, value: ({ first }) => first },
];

/** The last row of the table: the clusters without a code. */
function lastRow(haul, most) {
  const row = unresolvedRow(haul.unresolved, most);
  row.append(element('td'));
  return row;
}

/**
 * The table of objects, which its heads sort, with a button that shows more. The window's history keeps the order, and
 * how many are shown.
 */
function objectsOf(haul, labels) {
  const [body, foot] = [element('tbody'), element('tfoot')];
  const moreButton = element('button', { type: 'button' });
  let objects = [];
  let most = 1;
  let shown = 0;
  const showUpTo = (end) => {
    body.append(...objects.slice(shown, end).map((object) => rowOf(object, most, haul, labels)));
    shown = Math.min(end, objects.length);
    moreButton.hidden = shown === objects.length;
    const next = Math.min(SHOWN, objects.length - shown);
    moreButton.textContent = `Show ${withCommas(next)} more of ${withCommas(objects.length)}`;
  };
  const show = () => {
    const end = Math.max(shown, SHOWN);
    const rows = labels.counted(haul.objects);
    most = mostOf(rows, haul.unresolved);
    objects = sorted(rows, COLUMNS, heads.order);
    foot.replaceChildren(lastRow(haul, most));
    body.replaceChildren();
    shown = 0;
    showUpTo(end);
  };
  moreButton.addEventListener('click', () => {
    showUpTo(shown + SHOWN);
    keepEntryState({ shown });
  });
  const heads = new Heads(COLUMNS, keptOrder({ sort: 'count', isUp: false }), (order) => {
    keepOrder(order);
    show();
  });
  labels.changed = show;
  shown = entryState().shown ?? SHOWN;
  show();
  const [code, count, first] = heads.cells;
  return [
    element('table', { class: 'census haul' },
      element('caption', { class: 'aside' }, 'Objects of the haul'),
      element('thead', {}, element('tr', {}, element('td'), code, count, element('td', { class: 'bars' }), first)),
      body,
      foot,
    ),
    element('p', {}, moreButton),
  ];
}

function shownHaul(haul, labels) {
  const facts = [
    ['Soups', withCommas(haul.soups)],
    ['Clusters', withCommas(haul.clusters)],
    ['Objects', plural(haul.objects.length, 'code')],
    ['Unresolved', withCommas(haul.unresolved)],
  ];
  return [
    element('p', { class: 'by' },
      `Soups ${withCommas(haul.first)} to ${withCommas(haul.first + Math.max(haul.soups, 1) - 1)} of `,
      element('code', {}, haul.root),
      `${symmetryWords(haul.symmetry)}, at generation ${withCommas(haul.generation)} under ${haul.rule}, `
        + `with periods up to ${withCommas(haul.limit)}.`,
    ),
    element('dl', { class: 'facts' }, facts.map(([term, description]) => (
      element('div', {}, element('dt', {}, term), element('dd', {}, description))
    ))),
    countNote(),
    ...labels.choice,
    ...objectsOf(haul, labels),
    element('p', { class: 'hint' },
      'This page shows the file’s table, which the archive has not checked. '
        + 'If you deposit a soup, the archive counts it itself.',
    ),
  ];
}

/** The name under which the window keeps the table, if it is not too large for that. */
const DRAFT = 'haul';

export async function haulPage(page) {
  page.title('Haul');
  const place = element('div');
  const show = async (text, name) => {
    const names = await objectNames();
    const haul = text === null ? null : readTable(text);
    const refused = element('p', { class: 'refusal', role: 'alert' }, `${name} is not a complete table of life-haul.`);
    const labels = haul ? new Labels(haul.rule, names) : null;
    place.replaceChildren(...(haul ? shownHaul(haul, labels) : [refused]));
    labels?.findGroups(haul.objects, page.signal).catch(() => {});
    page.say(haul
      ? `${plural(haul.soups, 'soup')}, ${plural(haul.objects.length, 'code')}.`
      : 'That is not a table of a haul.');
    if (!haul) return;
    // If this one is too large to be kept, an earlier one must not come back in its place.
    keepDraft(DRAFT, null);
    keepDraft(DRAFT, text);
  };
  const take = async (files) => {
    const file = files[0];
    if (file) await show(file.size > LONGEST_TABLE ? null : await file.text(), file.name ?? 'The text');
  };
  const input = element('input', {
    id: 'haul-file',
    type: 'file',
    accept: '.csv,text/csv',
    change: () => take([...input.files]),
  });
  page.acceptFiles = take;
  page.root.append(
    element('h1', { tabindex: -1 }, 'A haul'),
    field(
      'A table of life-haul',
      input,
      'Choose it, or drop it anywhere on the page. '
        + 'It never leaves this computer, and this window keeps it until you close it. '
        + 'Tables of apgsearch can’t be read here.',
    ),
    place,
  );
  const [passed, kept] = [passedFiles(), draft(DRAFT)];
  if (passed) await take(passed);
  else if (kept) await show(kept, 'The table');
}
