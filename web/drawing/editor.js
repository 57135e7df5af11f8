// Drawing and editing cells by mouse, touch and keys: a canvas with its tools. edits.js changes the cells.

import { element, icon, plural } from '../shared/dom.js';
import * as edits from '../patterns/edits.js';
import { COPIED, draft, keepDraft } from '../shared/storage.js';
import { isSame } from '../patterns/pattern.js';
import { readGiven } from '../patterns/input.js';
import { View } from './view.js';
import { fileOf } from '../patterns/writer.js';

/** The largest cell in CSS pixels at first: wide enough for a finger. */
const LARGEST = 24;
const ARROWS = { ArrowLeft: [-1, 0], ArrowRight: [1, 0], ArrowUp: [0, -1], ArrowDown: [0, 1] };
const TOOLS = {
  pencil: ['Pencil: draws cells, or erases if you begin on a live one', 'M2 14l1-4 7-7 3 3-7 7-4 1zM9 4l3 3'],
  eraser: ['Eraser', 'M2 10l6-7 6 5-5 6H6zM5 7l6 5M5 14h9'],
  select: ['Select a box; drag it to move its cells', 'M2 5V2h3M8 2h3M14 5V2h-1M14 8v3M11 14h3v-1M5 14h3M2 11v3M2 8v1'],
  hand: ['Move the plane', 'M8 1v14M1 8h14M8 1L6 3M8 1l2 2M8 15l-2-2M8 15l2-2M1 8l2-2M1 8l2 2M15 8l-2-2M15 8l-2 2'],
};
const ACTIONS = {
  undo: ['Undo', 'M4 3L1 6l3 3M1 6h8a4 4 0 010 8H6'],
  redo: ['Redo', 'M12 3l3 3-3 3M15 6H7a4 4 0 000 8h3'],
  turn: ['Turn clockwise', 'M13 3v4H9M13 7a5.5 5.5 0 10 0 4'],
  columns: ['Reflect left to right', 'M8 1v14M6 4L1 12h5zM10 4l5 8h-5z'],
  rows: ['Reflect top to bottom', 'M1 8h14M4 6l8-5v5zM4 10l8 5v-5z'],
  copy: ['Copy', 'M5 5h9v9H5zM5 11H2V2h9v3'],
  paste: ['Paste', 'M5 3H3v11h10V3h-2M5 2h6v3H5zM6 9h4M8 7v4'],
  clear: ['Delete the selected cells, or all', 'M2 4h12M6 4V2h4v2M4 4l1 10h6l1-10'],
};
/** The keys that the dialog lists as long as there is a drawing. */
const KEYS = [
  ['arrows, space', 'move the cursor, draw or erase its cell'],
  ['shift and arrows', 'select a box; ctrl a: all'],
  ['ctrl and arrows', 'move the selection'],
  ['r, h, v', 'turn it, reflect it across or up and down'],
  ['delete, esc', 'delete the selection, end it'],
  ['ctrl c, x, v', 'copy, cut, paste'],
  ['ctrl z, y', 'undo, redo'],
];
const encoded = (text) => new TextEncoder().encode(text);

/** The pattern in a text of any form that the pages read, or null. @param {string} text */
const patternIn = (text) => readGiven(encoded(text), { asOld: true, isCut: true }).record?.pattern ?? null;

/** Adds these keys to the dialog. @param {AbortSignal} signal */
function showKeys(signal) {
  const lines = KEYS.map(([keys, what]) => element('div', {}, element('dt', {}, keys), element('dd', {}, what)));
  const part = element('div', {}, element('h2', {}, 'While the drawing has the focus'), element('dl', {}, lines));
  document.querySelector('#keys dl').after(part);
  signal.addEventListener('abort', () => part.remove());
}

export class Editor {
  canvas = element('canvas', { class: 'large', role: 'application', tabindex: 0, id: 'drawing' });
  #history = new edits.History();
  /** The visible drawing: while a pointer is down, the one that it would make. */
  #seen = edits.EMPTY;
  /** The pointer's action: returns the drawing that it makes with its last cell, and whether that is a step to undo. */
  #gesture = null;
  /** The cell that keys act on, where their selection began, and whether it is shown. */
  #cursor = null;
  #anchor = null;
  #isByKeys = false;

  /**
   * @param {object} page
   * @param {(pattern: object) => void} changed called with the cells after each step
   */
  constructor(page, changed) {
    this.page = page;
    this.changed = changed;
    /** The rule that copied texts have. */
    this.rule = 'B3/S23';
    this.view = new View(this.canvas, page.signal);
    this.view.largest = LARGEST;
    this.view.over = (context, place) => this.#drawOver(context, place);
    this.tools = this.#buttonsOf(TOOLS, (name) => this.choose(name));
    this.actions = this.#buttonsOf(ACTIONS, (name) => this.act(name));
    const button = (text, label, click) => (
      element('button', { type: 'button', title: label, 'aria-label': label, click }, text)
    );
    this.root = element('div', { class: 'editor' },
      element('div', { class: 'tools', role: 'group', 'aria-label': 'Drawing' },
        Object.values(this.tools),
        Object.values(this.actions),
        button('−', 'Zoom out', () => this.view.zoomStep(-1)),
        button('+', 'Zoom in', () => this.view.zoomStep(1)),
        button('Fit', 'Fit: show all cells', () => this.view.fit()),
      ),
      element('div', { class: 'seen' }, this.canvas),
    );
    this.#listen();
    showKeys(page.signal);
    this.choose('pencil');
    this.#render();
  }

  #buttonsOf(named, press) {
    return Object.fromEntries(Object.entries(named).map(([name, [label, path]]) => [name, element('button', {
      type: 'button',
      id: `draw-${name}`,
      title: label,
      'aria-label': label,
      click: () => press(name),
    }, icon('less', path))]));
  }

  #listen() {
    this.canvas.addEventListener('keydown', (event) => this.#keyed(event));
    this.canvas.addEventListener('paste', (event) => {
      event.stopPropagation();
      event.preventDefault();
      this.paste(event.clipboardData.getData('text/plain'));
    });
    for (const name of ['copy', 'cut']) {
      this.canvas.addEventListener(name, (event) => {
        event.preventDefault();
        event.clipboardData.setData('text/plain', this.copied());
        if (name === 'cut') this.act('clear');
      });
    }
    Object.assign(this.page.keys, {
      '+': () => this.view.zoomStep(1),
      '=': () => this.view.zoomStep(1),
      '-': () => this.view.zoomStep(-1),
      0: () => this.view.fit(),
    });
  }

  /** Chooses a tool. @param {string} name */
  choose(name) {
    for (const [tool, button] of Object.entries(this.tools)) button.setAttribute('aria-pressed', String(tool === name));
    const begin = { pencil: this.#draws(), eraser: this.#draws(false), select: this.#selects() }[name];
    this.view.tool = begin ? {
      down: (cell) => {
        this.#isByKeys = false;
        this.#cursor = cell;
        this.#gesture = { ...begin(cell), from: cell };
        this.view.tool.move(cell);
      },
      move: (cell) => {
        if (!this.#gesture) return;
        this.#seen = this.#gesture.make(cell);
        this.#render();
      },
      up: () => this.#endGesture(),
      cancel: () => {
        this.#gesture = null;
        this.#show();
      },
    } : null;
    this.canvas.classList.toggle('drawn', begin !== undefined);
  }

  /** The action of a pencil or an eraser. @param {boolean | null} isLive null for the opposite of the first cell */
  #draws(isLive = null) {
    return (first) => {
      const is = isLive ?? !edits.has(edits.cellsIn(this.#history.now), first);
      const cells = [];
      let lastCell = first;
      const draw = (cell) => {
        cells.push(...edits.lineBetween(lastCell, cell));
        lastCell = cell;
        return edits.drawn(this.#history.now, cells, is);
      };
      return { make: draw, isStep: true };
    };
  }

  /** The action of the tool that selects. Inside the selection it moves the selected cells. */
  #selects() {
    return (first) => {
      const { now } = this.#history;
      if (now.box && edits.isIn(now.box, first)) {
        return { make: ([column, row]) => edits.moved(now, column - first[0], row - first[1]), isStep: true };
      }
      const isFirst = ([column, row]) => column === first[0] && row === first[1];
      const select = (cell) => edits.selected(now, isFirst(cell) ? null : edits.boxBetween(first, cell));
      return { make: select, isStep: false };
    };
  }

  #endGesture() {
    if (!this.#gesture) return;
    const { isStep } = this.#gesture;
    this.#gesture = null;
    if (isStep) this.#put(this.#seen);
    else {
      this.#history.now = this.#seen;
      this.#show();
    }
  }

  /** Makes a step. @param {import('../patterns/edits.js').Drawing} next */
  #put(next) {
    this.#history.put(next);
    this.#tell();
  }

  /** Shows the drawing, and tells what its cells are. */
  #tell() {
    this.view.following = false;
    this.#show();
    const { pattern } = this.#pattern;
    this.changed(pattern);
    this.page.say(plural(pattern.population, 'live cell'));
  }

  get #pattern() {
    return edits.patternOf(edits.cellsIn(this.#history.now));
  }

  /** Shows the cells of a text, with its corner where the last one was. */
  show(pattern) {
    const before = this.#pattern;
    if (isSame(pattern, before.pattern)) return;
    this.#history.put({ ...edits.EMPTY, base: edits.planeOf(pattern, before.place) });
    this.#show();
    this.view.fit();
  }

  #show() {
    this.#seen = this.#history.now;
    this.#render();
  }

  #render() {
    const { pattern, place } = edits.patternOf(edits.cellsIn(this.#seen));
    this.view.show(pattern, place);
    this.actions.undo.disabled = !this.#history.canUndo;
    this.actions.redo.disabled = !this.#history.canRedo;
    for (const name of ['turn', 'columns', 'rows', 'copy', 'clear']) {
      this.actions[name].disabled = pattern.population === 0;
    }
    this.canvas.setAttribute('aria-label',
      `Drawing: ${plural(pattern.population, 'live cell')}. Arrows move the cursor, space draws a cell.`);
  }

  /** The frame of the selection, and the cell that keys act on. */
  #drawOver(context, { left, top, size }) {
    const frame = (box, dashes) => {
      context.setLineDash(dashes);
      context.strokeRect(
        (box.left - left) * size - 1,
        (box.top - top) * size - 1,
        (box.right - box.left) * size,
        (box.bottom - box.top) * size,
      );
    };
    context.strokeStyle = getComputedStyle(this.canvas).getPropertyValue('--accent');
    context.lineWidth = 2;
    if (this.#seen.box) frame(this.#seen.box, [6, 4]);
    if (this.#isByKeys && this.#cursor) frame(edits.boxBetween(this.#cursor, this.#cursor), []);
  }

  // ---- buttons and keys

  /** Does what a button says. @param {string} name */
  act(name) {
    const { now } = this.#history;
    if (name === 'undo' || name === 'redo') {
      this.#history[name]();
      this.#tell();
    } else if (name === 'copy') {
      this.copied();
    } else if (name === 'paste') {
      this.paste(draft(COPIED) ?? '');
    } else if (name === 'clear') {
      this.#put(edits.cleared(now.box ? now : edits.all(now)));
    } else {
      this.#put(edits.turnedBy(now, /** @type {'turn' | 'columns' | 'rows'} */ (name)));
    }
  }

  /** The selected cells, or all, as a text, which the window keeps. */
  copied() {
    const { now } = this.#history;
    const { pattern } = edits.patternOf(now.box ? now.lifted : edits.cellsIn(now));
    const text = fileOf(pattern, this.rule);
    keepDraft(COPIED, text);
    navigator.clipboard?.writeText(text).catch(() => {});
    this.page.say('Copied.');
    return text;
  }

  /** Puts the pattern of a text to the cursor, or into the middle, and selects it. @param {string} text */
  paste(text) {
    const pattern = patternIn(text);
    if (!pattern?.population) {
      this.page.say('There is no pattern to paste. Copy one first.');
      return;
    }
    const [column, row] = this.#isByKeys && this.#cursor ? this.#cursor : this.view.middleCell;
    const [left, top] = this.#isByKeys
      ? [column, row]
      : [column - Math.floor(pattern.width / 2), row - Math.floor(pattern.height / 2)];
    this.choose('select');
    this.#put(edits.pasted(this.#history.now, pattern, { column: left, row: top }));
  }

  #moveCursor([columns, rows], isSelecting) {
    const [column, row] = this.#cursor ?? this.view.middleCell;
    this.#anchor = isSelecting ? this.#anchor ?? [column, row] : null;
    // The first key only shows the cursor.
    this.#cursor = this.#isByKeys || isSelecting ? [column + columns, row + rows] : [column, row];
    this.#isByKeys = true;
    this.view.following = false;
    this.view.see(this.#cursor);
    if (this.#anchor) {
      this.#history.now = edits.selected(this.#history.now, edits.boxBetween(this.#anchor, this.#cursor));
    }
    this.#show();
    const isLive = edits.has(edits.cellsIn(this.#seen), this.#cursor);
    this.page.say(`Column ${this.#cursor[0]}, row ${this.#cursor[1]}: ${isLive ? 'live' : 'dead'}`);
  }

  #toggle() {
    if (!this.#isByKeys) this.#moveCursor([0, 0], false);
    const { now } = this.#history;
    this.#put(edits.drawn(now, [this.#cursor], !edits.has(edits.cellsIn(now), this.#cursor)));
  }

  #select(box) {
    this.#history.now = edits.selected(this.#history.now, box);
    this.#show();
  }

  /** What a key does; nothing if it does nothing here. @param {string} key @param {KeyboardEvent} event */
  #actOf(key, { ctrlKey, metaKey, shiftKey }) {
    const isCommand = ctrlKey || metaKey;
    const step = ARROWS[key];
    if (step) {
      return isCommand
        ? () => this.#put(edits.moved(this.#history.now, ...step))
        : () => this.#moveCursor(step, shiftKey);
    }
    if (isCommand) {
      return {
        z: () => this.act(shiftKey ? 'redo' : 'undo'),
        y: () => this.act('redo'),
        a: () => { this.#history.now = edits.all(this.#history.now); this.#show(); },
      }[key.toLowerCase()];
    }
    return {
      ' ': () => this.#toggle(),
      Delete: () => this.act('clear'),
      Backspace: () => this.act('clear'),
      Escape: () => this.#select(null),
      r: () => this.act('turn'),
      h: () => this.act('columns'),
      v: () => this.act('rows'),
    }[key];
  }

  #keyed(event) {
    const act = event.altKey ? null : this.#actOf(event.key, event);
    if (!act) return;
    event.preventDefault();
    event.stopPropagation();
    act();
  }
}
