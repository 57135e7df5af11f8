// An object's pattern: its kind, cells and speed, its phases, played or side by side, its text, and where else to look
// it up.

import { objectAddress } from '../shared/address.js';
import { copyButton, element, plural, withCommas } from '../shared/dom.js';
import { thumbnail } from '../drawing/draw.js';
import { Maker } from '../player/maker.js';
import { speedText } from '../patterns/pattern.js';
import { readRule, ruleText } from '../patterns/rule.js';
import { save } from '../shared/save.js';
import { fileOf, withOrigin } from '../patterns/writer.js';

const SIDE = 120;
const MOST_PHASES = 60;
/** For how many milliseconds a phase is shown. */
const SHOWN = 250;

/** What objects are called by the second letter of their code. */
export const KINDS = { s: 'still life', p: 'oscillator', q: 'spaceship' };

/**
 * The kind, the period and the cells of an object, and a spaceship's speed. What only the phases say is added by
 * `listener`.
 * @param {string} code
 * @param {number} period
 * @param {object} pattern
 */
export function objectFacts(code, period, pattern) {
  const cells = element('span', {}, period === 1 ? withCommas(pattern.population) : '…');
  const speed = element('span', {}, '…');
  const facts = [
    ['Kind', KINDS[code[1]]],
    ['Period', withCommas(period)],
    ['Cells', cells],
    code[1] === 'q' ? ['Speed', speed] : null,
  ].filter(Boolean);
  const listener = ({ least, isSame, moved }) => {
    cells.replaceChildren(`${withCommas(least)}${isSame ? '' : ' in the smallest phase'}`);
    speed.replaceChildren(speedText(moved.column, moved.row, period));
  };
  const list = element('dl', { class: 'facts' }, facts.map(([term, description]) => (
    element('div', {}, element('dt', {}, term), element('dd', {}, description))
  )));
  return { list, listener };
}

/**
 * The first phases of a pattern, moved into one box; of all of them the least population, and whether all have it; and
 * how far it moves in a period.
 */
export async function phasesOf(pattern, rule, period, signal) {
  const maker = new Maker({ pattern, rule }, period, signal);
  try {
    const made = [];
    let [least, isSame] = [pattern.population, true];
    for (let at = 0; at < period; at += 1) {
      const phase = await maker.get(at);
      if (at < MOST_PHASES) made.push(phase);
      isSame &&= phase.pattern.population === pattern.population;
      least = Math.min(least, phase.pattern.population);
    }
    return { phases: boxed(made), least, isSame, moved: (await maker.get(period)).corner };
  } finally {
    maker.end();
  }
}

function boxed(made) {
  const least = (side) => Math.min(...made.map(({ corner }) => corner[side]));
  const [left, top] = [least('column'), least('row')];
  const width = Math.max(...made.map(({ corner, pattern }) => corner.column - left + pattern.width));
  const height = Math.max(...made.map(({ corner, pattern }) => corner.row - top + pattern.height));
  return made.map(({ corner, pattern }) => {
    const rows = Array.from({ length: height }, (_, row) => (
      [...(pattern.rows[row - corner.row + top] ?? [])].map((column) => column + corner.column - left)
    ));
    return { width, height, population: pattern.population, rows };
  });
}

/** A button that plays the phases in a loop in place of the picture. */
function playButton(picture, phases, code, signal) {
  let [timer, at] = [null, 0];
  const show = () => {
    at = (at + 1) % phases.length;
    picture.replaceChildren(thumbnail(phases[at], 320, 200, `The object ${code}, phase ${at}`));
  };
  const stop = () => {
    clearInterval(timer);
    timer = null;
    button.replaceChildren('Play');
  };
  const button = element('button', { type: 'button', id: 'play-object', click: () => {
    if (timer !== null) {
      stop();
      return;
    }
    timer = setInterval(show, SHOWN);
    button.replaceChildren('Pause');
  } }, 'Play');
  signal.addEventListener('abort', stop);
  return button;
}

/**
 * Where else to look up an object: by its code, under which a group of objects is not listed there, and by its name.
 */
function lookUp(code, rule, { isGroup, name }) {
  const place = rule.toLowerCase().replace('/', '');
  const page = name && encodeURIComponent((name[0].toUpperCase() + name.slice(1)).replaceAll(' ', '_'));
  const links = [
    isGroup ? null : ['Catagolue', `https://catagolue.hatsya.com/object/${code}/${place}`],
    page ? ['LifeWiki', `https://conwaylife.com/wiki/${page}`] : null,
  ].filter(Boolean);
  return links.length === 0 ? null : element('p', { class: 'look-up' },
    'Look it up: ',
    links.flatMap(([text, href], at) => [at === 0 ? '' : ', ', element('a', { href, rel: 'noreferrer' }, text)]),
    '.',
  );
}

/** An object as a pattern file, with its name and its address. */
function textOf(pattern, code, rule, title) {
  const bytes = new TextEncoder().encode(fileOf(pattern, rule));
  return new TextDecoder().decode(withOrigin(
    bytes,
    {},
    { title, origin: `${code} of ${rule}, ${location.origin}${objectAddress(rule, code)}` },
  ));
}

/**
 * The parts of an object's page: the play button, its text to copy or download, its phases, and where else to look it
 * up.
 */
export async function objectParts(
  pattern,
  code,
  period,
  ruleWord,
  picture,
  page,
  { title = '', name = null, isGroup = false, listener = (_found) => {} } = {},
) {
  const rule = readRule(ruleWord);
  const text = () => textOf(pattern, code, ruleText(rule), title);
  const load = element('button', {
    type: 'button',
    id: 'load-object',
    click: () => save(text(), `${code}.rle`, 'text/plain'),
  }, 'Download');
  const copy = copyButton('Copy as RLE', text, page.say);
  const found = period > 1 ? await phasesOf(pattern, rule, period, page.signal) : null;
  if (found) listener(found);
  const phases = found?.phases ?? [];
  const play = phases.length > 1 ? playButton(picture, phases, code, page.signal) : null;
  const summary = period > MOST_PHASES
    ? `The first ${MOST_PHASES} of ${plural(period, 'phase')}, computed by your browser`
    : `${plural(period, 'phase')}, computed by your browser`;
  const drawn = phases.length > 1
    ? [element('details', { id: 'phases' },
      element('summary', {}, summary),
      element('div', { class: 'phases' }, phases.map((phase, at) => thumbnail(phase, SIDE, SIDE, `Phase ${at}`))),
    )]
    : [];
  if (play && !page.signal.aborted) picture.after(element('p', {}, play));
  return [
    element('p', { class: 'row' }, copy, load),
    ...drawn,
    ...[lookUp(code, ruleText(rule), { isGroup, name })].filter(Boolean),
  ];
}
