// Pictures to save, made in the page: the same SVG documents as from `life-draw svg` and `life-draw animation`
// (docs/FORMATS.md, Pictures), with a line that says where they come from, and a PNG.

import { generation } from '../requests/archive.js';
import { element, refusal } from '../shared/dom.js';
import { GENERATION_LIMIT, MOST_FRAMES } from '../shared/limits.js';
import { Maker } from '../player/maker.js';
import { isSame } from '../patterns/pattern.js';
import { apngOf, pngOf } from './png.js';
import { Refused } from '../requests/refusals.js';
import { save } from '../shared/save.js';

/** The longest side of a picture in pixels, unless it has more cells. */
const LONGEST_SIDE = 2048;
/** The same for an animation, which forums and chats show smaller. */
const LONGEST_MOVING = 800;
const LARGEST_CELL = 16;
/** From this size on, in bytes, an animated SVG is saved only after a question. */
const LARGE = 5_000_000;
// For how many milliseconds a frame is shown.
const FRAME_TIME = 125;

/** A text in a document: characters that XML forbids become U+FFFD. */
const escaped = (text) => text
  .replace(/[\u0000-\u0008\u000b\u000c\u000e-\u001f\ufffe\uffff]|\p{Cs}/gu, '\ufffd')
  .replaceAll('&', '&amp;')
  .replaceAll('<', '&lt;')
  .replaceAll('>', '&gt;')
  .replaceAll('\r', '&#13;');

/** The rectangles for the runs of a pattern whose corner is at this position. */
function pathOf(pattern, left = 0, top = 0) {
  const parts = [];
  for (const [row, runs] of pattern.rows.entries()) {
    for (let at = 0; at < runs.length; at += 2) {
      parts.push(`M${runs[at] + left} ${row + top}h${runs[at + 1] - runs[at]}v1h-${runs[at + 1] - runs[at]}z`);
    }
  }
  return parts.join('');
}

/** A document for a box with these columns and rows, and a border of one cell. */
function documentOf(width, height, { title, origin }, inside) {
  const [wide, high] = [width + 2, height + 2];
  return `<svg xmlns="http://www.w3.org/2000/svg" viewBox="-1 -1 ${wide} ${high}" shape-rendering="crispEdges">\n`
    + (title ? `<title>${escaped(title)}</title>\n` : '')
    + `<desc>${escaped(origin)}</desc>\n`
    + `<rect x="-1" y="-1" width="${wide}" height="${high}" fill="white"/>\n${inside}</svg>\n`;
}

export const svgOf = (pattern, from) => (
  documentOf(pattern.width, pattern.height, from, `<path d="${pathOf(pattern)}"/>\n`)
);

/** The pixels of a cell: the largest whole number that keeps the picture within its limit. */
const cellSize = (width, height, longest) => (
  Math.max(1, Math.min(LARGEST_CELL, Math.floor(longest / (Math.max(width, height) + 2))))
);

/** What a PNG says, by the keywords of its specification. */
const textsOf = ({ title, origin }) => ({ Title: title, Description: origin });

/** The box of frames: the least column and row that one of them reaches, and its width and height. */
function boxOf(frames) {
  const boxes = frames.filter(({ pattern }) => pattern.width > 0);
  const [left, top] = ['column', 'row'].map((side) => (
    boxes.length ? Math.min(...boxes.map(({ corner }) => corner[side])) : 0
  ));
  const right = Math.max(left, ...boxes.map(({ corner, pattern }) => corner.column + pattern.width));
  const bottom = Math.max(top, ...boxes.map(({ corner, pattern }) => corner.row + pattern.height));
  return { left, top, width: right - left, height: bottom - top };
}

/** A document that shows frames in one box in a loop: the same as from `life-draw animation`. */
export function animationOf(frames, from) {
  const { left, top, width, height } = boxOf(frames);
  const data = frames.map(({ corner, pattern }) => `M0 0${pathOf(pattern, corner.column - left, corner.row - top)}`);
  return documentOf(
    width,
    height,
    from,
    `<path d="${data[0]}"><animate attributeName="d" calcMode="discrete" dur="${frames.length * FRAME_TIME}ms" `
      + `repeatCount="indefinite" values="${data.join(';')}"/></path>\n`,
  );
}

/** The same as an animated PNG. */
function movingPng(frames, from, signal) {
  const { left, top, width, height } = boxOf(frames);
  const placed = frames.map(({ corner, pattern }) => ({
    pattern,
    place: { column: corner.column - left, row: corner.row - top },
  }));
  return apngOf(
    placed,
    { width, height, size: cellSize(width, height, LONGEST_MOVING) },
    FRAME_TIME,
    textsOf(from),
    signal,
  );
}

/**
 * This many generations of a deposit, from the archive, with positions that the page computes. `came` gets how many
 * have arrived.
 */
async function framesOf(number, record, from, count, came, signal) {
  const end = new AbortController();
  const maker = new Maker(record, GENERATION_LIMIT, /** @type {any} */ (AbortSignal).any([signal, end.signal]));
  try {
    const frames = [];
    for (let at = from; at < from + count; at += 1) {
      came(at - from);
      const [{ record: { pattern } }, made] = await Promise.all([generation(number, at, signal), maker.get(at)]);
      if (!isSame(pattern, made.pattern)) throw new Refused('unknown');
      frames.push({ pattern, corner: made.corner });
    }
    return frames;
  } finally {
    end.abort();
  }
}

/** The question whether to save a large SVG. @param {number} size in bytes @param {() => void} act */
const sizeQuestion = (size, act) => [
  element('p', {}, `This SVG has ${Math.round(size / 1e6)} MB. A PNG is usually much smaller.`),
  element('button', { type: 'button', id: 'save-large', click: act }, 'Save the SVG'),
];

/**
 * The buttons that save pictures of the generation that is seen, or of some from there on.
 * @param {import('../pages/share.js').Share} shown
 */
export function saveParts(shown, page) {
  const { number, first } = shown;
  const count = element('input', {
    id: 'frames',
    type: 'number',
    min: 1,
    max: MOST_FRAMES,
    inputmode: 'numeric',
    'aria-label': 'Generations of the animation',
  });
  count.value = 60;
  const message = element('div');
  const nameOf = (ending) => shown.fileName.replace(/rle$/, ending);
  const button = (id, label, act) => element('button', {
    type: 'button',
    id,
    click: () => act().catch((error) => {
      if (!page.signal.aborted) message.replaceChildren(refusal(error));
    }),
  }, label);
  const svg = button('save-svg', 'SVG', async () => {
    save(svgOf(shown.seen.record.pattern, shown.from), nameOf('svg'), 'image/svg+xml');
  });
  const png = button('save-png', 'PNG', async () => {
    const [{ record: { pattern } }, name, from] = [shown.seen, nameOf('png'), shown.from];
    save(
      await pngOf(pattern, { ...pattern, size: cellSize(pattern.width, pattern.height, LONGEST_SIDE) }, textsOf(from)),
      name,
      'image/png',
    );
  });
  /** Requests the generations, and saves what `form` makes of them, unless it is stopped. */
  const saveMoving = async (ending, type, form) => {
    const { at, url } = shown;
    const asked = Math.min(Math.max(1, Math.trunc(Number(count.value)) || 1), MOST_FRAMES, GENERATION_LIMIT + 1 - at);
    const stop = new AbortController();
    const signal = /** @type {any} */ (AbortSignal).any([page.signal, stop.signal]);
    const line = element('span');
    const came = (many) => line.replaceChildren(`Requesting the generations: ${many} of ${asked}…`);
    message.replaceChildren(element('p', { class: 'row' },
      line,
      element('button', { type: 'button', id: 'stop-saving', click: () => stop.abort() }, 'Stop'),
    ));
    animation.disabled = moving.disabled = true;
    try {
      const frames = await framesOf(number, first, at, asked, came, signal);
      line.replaceChildren('Making the file…');
      const origin = `Generations ${at} to ${at + frames.length - 1} of deposit ${number}, ${url}`;
      const content = await form(frames, { title: first.name, origin }, signal);
      const saveIt = () => {
        message.replaceChildren();
        save(content, `deposit-${number}-from-${at}.${ending}`, type);
      };
      if (ending === 'svg' && content.length > LARGE) message.replaceChildren(...sizeQuestion(content.length, saveIt));
      else saveIt();
    } catch (error) {
      if (!stop.signal.aborted) throw error;
      message.replaceChildren('Stopped.');
    } finally {
      animation.disabled = moving.disabled = false;
    }
  };
  const animation = button('save-animation', 'SVG', () => saveMoving('svg', 'image/svg+xml', animationOf));
  const moving = button('save-moving', 'PNG', () => saveMoving('png', 'image/png', movingPng));
  animation.ariaLabel = 'SVG animation';
  moving.ariaLabel = 'PNG animation';
  return [
    element('p', { class: 'row' }, 'A picture:', png, svg),
    element('p', { class: 'row' }, 'An animation of', count, 'generations from here on:', moving, animation),
    message,
  ];
}
