// The buttons under the canvas of a deposit, and the keys that do the same.

import { depositAddress, go } from '../shared/address.js';
import { element, icon, withCommas } from '../shared/dom.js';
import { keepSetting, setting } from '../shared/storage.js';
import { GENERATION_LIMIT } from '../shared/limits.js';

/** Generations per second. From 120 on, each of the 60 frames per second advances several generations, at most 32. */
const SPEEDS = [1, 2, 5, 10, 20, 40, 60, 120, 240, 480, 960, 1920];
const STEPS = [1, 10, 100];
const FIRST_GOAL = 100;
/** After how many milliseconds the ages of cells are late. */
const LATE = 300;

const button = (label, text, click, attributes = {}) => (
  element('button', { type: 'button', 'aria-label': label, title: label, click, ...attributes }, text)
);
const pair = (...inside) => element('span', { class: 'pair' }, inside);
const labelled = (label, input) => pair(element('label', { for: input.id }, label), input);

/** The speed, which this browser remembers. */
function speedPart(player) {
  player.speed = SPEEDS.find((rate) => String(rate) === setting('speed')) ?? player.speed;
  const change = () => keepSetting('speed', player.speed = Number(speed.value));
  const speed = element('select', { id: 'speed', change },
    SPEEDS.map((rate) => element('option', { value: rate, selected: rate === player.speed }, `${withCommas(rate)}/s`)));
  speed.title = 'Generations per second; from 120/s on, some generations are not shown';
  return labelled('Speed', speed);
}

/** Running to a generation. */
function runPart(player) {
  const goal = element('input', {
    id: 'run-to',
    type: 'number',
    min: 0,
    max: GENERATION_LIMIT,
    inputmode: 'numeric',
    'aria-label': 'Run to generation',
  });
  goal.value = FIRST_GOAL;
  return pair(
    button(
      'Run to this generation, forward or back',
      'Run to',
      () => player.runTo(Math.trunc(Number(goal.value))),
      { id: 'run' },
    ),
    goal,
  );
}

function viewParts(view, ages) {
  const label = element('label', { for: 'ages', title: 'Young cells are orange, old ones blue' }, 'Color by age');
  const aged = element('input', { id: 'ages', type: 'checkbox', change: async () => {
    keepSetting('ages', aged.checked ? 'yes' : null);
    const late = setTimeout(() => label.replaceChildren('Counting…'), LATE);
    await ages.turn(aged.checked);
    clearTimeout(late);
    label.replaceChildren('Color by age');
  } });
  ages.isOn = aged.checked = setting('ages') === 'yes';
  const grid = element('input', {
    id: 'grid',
    type: 'checkbox',
    checked: true,
    change: () => view.showGrid(grid.checked),
  });
  const zooms = pair(
    button('Zoom out', '−', () => view.zoomStep(-1), { id: 'zoom-out' }),
    button('Zoom in', '+', () => view.zoomStep(1), { id: 'zoom-in' }),
  );
  const fit = button('Fit: show all of the pattern', 'Fit', () => view.fit(), { id: 'fit' });
  return {
    zooms,
    fit,
    marks: [
      pair(grid, element('label', { for: 'grid' }, 'Grid')),
      pair(aged, label),
    ],
  };
}

/** On a phone, the less important controls are behind a button. */
function foldedPart(parts) {
  const inside = element('span', { class: 'folded', id: 'view-parts' }, parts);
  const open = button('View: size of cells, grid, colors', 'View', () => {
    open.setAttribute('aria-expanded', String(inside.classList.toggle('open')));
  }, { id: 'view-more', 'aria-expanded': 'false', 'aria-controls': 'view-parts' });
  return [element('span', { class: 'at-right' }, open), inside];
}

/** For a periodic pattern: a mark where it returns, and a button for looping there. `take` gets the period, or null. */
function backPart(player) {
  const loop = element('input', { id: 'loop', type: 'checkbox', change: () => { player.isLoop = loop.checked; } });
  const part = element('span', { class: 'pair', hidden: true });
  const ticks = element('datalist', { id: 'ticks' });
  const take = (period) => {
    player.period = period;
    part.hidden = period === null;
    if (period === null) return;
    ticks.replaceChildren(element('option', { value: period }));
    part.replaceChildren(
      loop,
      element('label', { for: 'loop' }, 'Loop'),
      button(
        `back at ${withCommas(period)}, the generation that equals generation 0`,
        `back at ${withCommas(period)}`,
        () => player.go(period),
        { id: 'back-at' },
      ),
    );
  };
  return { parts: [part, ticks], take };
}

/**
 * All controls: the bar, and the functions to call for playing and pausing, for a period, for a shown generation, and
 * when playing changes.
 */
export function controls(player, view, ages, turnFull) {
  const play = button('Play', icon('play'), () => toggle(1), { class: 'main', id: 'play' });
  const back = button('Play back', icon('back'), () => toggle(-1), { id: 'back' });
  const toggle = (direction) => (player.direction === direction ? player.pause() : player.play(direction));
  const number = element('input', {
    id: 'generation',
    type: 'number',
    min: 0,
    max: GENERATION_LIMIT,
    inputmode: 'numeric',
    change: () => player.go(Number(number.value)),
  });
  const slider = element('input', {
    id: 'slider',
    type: 'range',
    min: 0,
    max: GENERATION_LIMIT,
    list: 'ticks',
    'aria-label': 'Generation',
    change: () => player.go(Number(slider.value)),
    input: () => { number.value = slider.value; },
  });
  const step = element('select', { id: 'step-size' }, STEPS.map((size) => element('option', { value: size }, size)));
  const { parts, take } = backPart(player);
  const { zooms, fit, marks } = viewParts(view, ages);
  // Not every phone can do it.
  const full = document.fullscreenEnabled ? button('Full screen', icon('full'), turnFull, { id: 'full' }) : null;
  const row = (...inside) => element('div', { class: 'controls-row' }, ...inside);
  const bar = element('div', { class: 'controls', role: 'group', 'aria-label': 'Generations' },
    row(
      element('span', { class: 'transport' },
        button('Generation 0', icon('first'), () => player.go(0), { id: 'first' }),
        back,
        button('One step back', icon('less'), () => player.step(-Number(step.value)), { id: 'step-back' }),
        play,
        button('One step forward', icon('more'), () => player.step(Number(step.value)), { id: 'step' }),
      ),
      labelled('Generation', number),
      slider,
      element('span', { class: 'at-right' }, fit),
    ),
    row(speedPart(player), labelled('Step', step), runPart(player), parts, foldedPart([...marks, zooms, full])),
  );
  const changed = () => {
    for (const [control, direction, label, name] of [[play, 1, 'Play', 'play'], [back, -1, 'Play back', 'back']]) {
      const playing = player.direction === direction;
      control.replaceChildren(icon(playing ? 'pause' : name));
      control.ariaLabel = control.title = playing ? 'Pause' : label;
    }
  };
  return { bar, toggle, periodic: take, changed, at: (at) => { number.value = at; slider.value = at; } };
}

/**
 * The keys of a deposit's page; `next()` returns the row of the next deposit, if there is one, or a promise of it: the
 * list with it may come after the press.
 */
export function keysOf(page, player, view, toggle, next) {
  Object.assign(page.keys, {
    ' ': () => (player.direction === 0 ? toggle(1) : player.pause()),
    b: () => toggle(-1),
    ArrowRight: () => player.step(1),
    ArrowLeft: () => player.step(-1),
    Home: () => player.go(0),
    End: () => player.go(GENERATION_LIMIT),
    '+': () => view.zoomStep(1),
    '=': () => view.zoomStep(1),
    '-': () => view.zoomStep(-1),
    0: () => view.fit(),
    'shift ArrowLeft': () => view.pan(-0.1, 0),
    'shift ArrowRight': () => view.pan(0.1, 0),
    'shift ArrowUp': () => view.pan(0, -0.1),
    'shift ArrowDown': () => view.pan(0, 0.1),
    ']': async () => {
      const found = await next();
      if (found && !page.signal.aborted) go(depositAddress(found.id));
    },
  });
}
