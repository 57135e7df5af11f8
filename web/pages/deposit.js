// One deposit: its generations on a large canvas, played forward and back, its kind and code, its file, and a census of
// it.

import { censusAddress, depositAddress, go, memberAddress, objectAddress } from '../shared/address.js';
import { Ages } from '../player/ages.js';
import { deposit, depositRows, kind, sendCensus } from '../requests/archive.js';
import { objectNames } from '../patterns/code.js';
import { commentsPart } from './comments.js';
import { controls, keysOf } from './controls.js';
import { Plot } from './plot.js';
import {
  addLater,
  againButton,
  copyButton,
  element,
  field,
  isMember,
  plural,
  refusal,
  withCommas,
} from '../shared/dom.js';
import { GENERATION_LIMIT, PERIOD_LIMIT } from '../shared/limits.js';
import { countAll } from '../player/maker.js';
import { learnMember, memberPart, rememberMember } from '../shared/member.js';
import { noteOf } from '../shared/handover.js';
import { speedText } from '../patterns/pattern.js';
import { Player } from '../player/player.js';
import { Refused } from '../requests/refusals.js';
import { ruleText } from '../patterns/rule.js';
import { censusesSection } from './censuses.js';
import { Share } from './share.js';
import { View } from '../drawing/view.js';

/** For how many milliseconds the hint about scrolling and zooming is shown. */
const SAID = 2500;
/** After how many milliseconds the plot of all generations begins. */
const LATER = 300;
/** The limit that finds the objects of ash: a multiple of the common periods. */
const USUAL_LIMIT = 60;

const across = (columns, rows) => [
  columns === 0 ? null : `${plural(Math.abs(columns), 'column')} to the ${columns < 0 ? 'left' : 'right'}`,
  rows === 0 ? null : `${plural(Math.abs(rows), 'row')} ${rows < 0 ? 'up' : 'down'}`,
].filter(Boolean).join(' and ');

function kindText(found, limit) {
  switch (found.kind) {
    case 'empty': return 'empty: no cell is live';
    case 'still': return 'still life';
    case 'oscillator': return `oscillator of period ${withCommas(found.period)}`;
    case 'ship': return `spaceship of period ${withCommas(found.period)}, `
      + `${speedText(found.dx, found.dy, found.period)}, moves ${across(found.dx, found.dy)}`;
    default: return `does not return within ${plural(limit, 'generation')}`;
  }
}

/** The kind of the deposit, with a form for another limit. */
function kindParts(number, record, page, periodic) {
  const message = element('span', {}, '…');
  const code = element('span', {}, '…');
  const limit = element('input', {
    id: 'limit',
    type: 'number',
    min: 1,
    max: PERIOD_LIMIT,
    required: true,
    inputmode: 'numeric',
  });
  limit.value = USUAL_LIMIT;
  const ask = async (event) => {
    event?.preventDefault();
    const within = Math.trunc(Number(limit.value));
    try {
      const found = await kind(number, within, page.signal);
      message.replaceChildren(kindText(found, within));
      const isPeriodic = !['empty', 'unresolved'].includes(found.kind);
      periodic(isPeriodic ? found.period ?? 1 : null);
      const rule = ruleText(record.rule);
      const name = found.code && rule === 'B3/S23' ? (await objectNames()).get(found.code) : null;
      code.replaceChildren(...(found.code
        ? [
          element('a', { href: objectAddress(rule, found.code) }, element('code', {}, found.code)),
          name ? ` ${name} ` : ' ',
          copyButton('Copy', () => found.code, page.say),
        ]
        : [isPeriodic ? 'none: no phase fits into 40 by 40 cells' : 'none']));
    } catch (error) {
      if (page.signal.aborted) return;
      message.replaceChildren(refusal(error));
      code.replaceChildren('');
    }
  };
  ask();
  const form = element('form', { class: 'inline', submit: ask },
    element('label', { for: 'limit' }, 'limit'),
    limit,
    element('button', {}, 'Show'),
  );
  return [['Kind', [message, form]], ['Code', [code]]];
}

/**
 * Takes a census of the generation that is shown. Its token consists of the arguments, like that of
 * examples/scripts/census-all.
 */
function censusPart(shown, page) {
  const { part: member, input: name } = memberPart('census-member');
  const limit = element('input', {
    id: 'census-limit',
    type: 'number',
    min: 1,
    max: PERIOD_LIMIT,
    required: true,
    inputmode: 'numeric',
  });
  limit.value = USUAL_LIMIT;
  const message = element('div');
  const send = element('button', { id: 'count' }, 'Count the objects');
  const ask = async (event) => {
    event.preventDefault();
    message.replaceChildren();
    send.disabled = true;
    try {
      if (!isMember(name.value)) throw new Refused('bad-member');
      rememberMember(name.value);
      message.replaceChildren(element('p', { class: 'waiting' }, 'Counting…'));
      page.say('Counting…');
      const waiting = (time) => {
        message.replaceChildren(element('p', { class: 'waiting' },
          'Many censuses come from your address, so this one waits. '
            + `It is sent again every ${plural(Math.ceil(time / 1000), 'second')}…`,
        ));
        page.say(message.textContent);
      };
      const [at, within] = [shown.at, Math.trunc(Number(limit.value))];
      const number = await sendCensus(
        name.value,
        `g${at}-l${within}-d${shown.number}`,
        shown.number,
        at,
        within,
        waiting,
        page.signal,
      );
      go(censusAddress(number));
    } catch (error) {
      if (!page.signal.aborted) message.replaceChildren(refusal(error));
    } finally {
      send.disabled = false;
    }
  };
  return element('details', { class: 'panel', id: 'census' },
    element('summary', {}, 'Count the objects'),
    element('p', {},
      'A census counts the objects in this generation. The archive stores the count under a number. ',
      element('a', { href: '/about#census' }, 'What is a census?'),
    ),
    element('form', { submit: ask },
      member,
      field('Longest period', limit, '60 finds all common objects. A larger one can take long on a large field.'),
      send,
    ),
    message,
  );
}

/** The title, the author, and the member, who is added once the row of the deposit has arrived. */
function heading(number, record, rows) {
  const by = element('p', { class: 'by' }, record.author ? `By ${record.author}. ` : null);
  const { line, typed } = noteOf(number);
  rows.then(({ row }) => {
    if (!row) return;
    by.append('Deposited by ', element('a', { href: memberAddress(row.member) }, row.member), '.');
    const message = typed === undefined ? null : learnMember(typed, row.member);
    if (message) line.append(` ${message}`);
  }, () => {});
  return element('div', { class: 'title' },
    element('h1', { tabindex: -1 },
      record.name ?? `Deposit ${number}`,
      record.name ? element('small', {}, ` deposit ${withCommas(number)}`) : null,
    ),
    by,
    line,
  );
}

/** The links to the deposits before and after this one. */
function neighbours(number, rows) {
  const nav = element('nav', { class: 'pager', 'aria-label': 'Other deposits' },
    number > 1 ? element('a', { href: depositAddress(number - 1) }, `← ${withCommas(number - 1)}`) : null,
  );
  rows.then(({ next }) => {
    if (next) nav.append(element('a', { href: depositAddress(next.id) }, `${withCommas(next.id)} →`));
  }, () => {});
  return nav;
}

/** The canvas of a deposit, with the facts about the generation that it shows and where that came from. */
class Stage {
  canvas = element('canvas', { class: 'large', role: 'img', tabindex: 0 });
  facts = { population: element('span'), box: element('span') };
  message = element('div');
  doubt = element('div');
  end = element('p', { class: 'over end', role: 'status' });
  hint = element('p', { class: 'over', hidden: true }, 'Click the pattern to zoom with the wheel, or hold Ctrl.');
  badge = element('summary');
  source = element('span');
  equal = element('span');

  constructor(number, original, page) {
    this.page = page;
    this.text = new Share(number, original, page);
    this.view = new View(this.canvas, page.signal, () => this.#sayScrolled());
    this.plot = new Plot((at) => this.player.go(at));
    this.player = new Player(number, page.signal, this);
    this.ages = new Ages((at) => this.player.made(at), (found) => this.view.showAges(found));
    this.bar = controls(this.player, this.view, this.ages, () => this.turnFull());
    this.stage = element('div', { class: 'stage' },
      element('div', { class: 'seen' }, this.canvas, this.hint, this.end),
      this.bar.bar,
    );
  }

  /** Shows the canvas and its controls on the whole screen, or no longer. */
  turnFull() {
    // The browser may refuse; then nothing changes.
    (document.fullscreenElement ? document.exitFullscreen() : this.stage.requestFullscreen()).catch(() => {});
  }

  /** Shows a generation; `bytes` is null if the page computed it. Returns its position. */
  shown(at, record, bytes, place) {
    const { pattern } = record;
    const put = this.view.show(pattern, place);
    // At a higher speed, most of the generations in between are missing, so ages can't be counted.
    if (this.player.direction === 0 || this.player.stride === 1) this.ages.show(at);
    this.bar.at(at);
    this.end.replaceChildren();
    this.facts.population.replaceChildren(withCommas(pattern.population));
    this.facts.box.replaceChildren(`${withCommas(pattern.width)} by ${withCommas(pattern.height)}`);
    this.canvas.setAttribute(
      'aria-label',
      `Generation ${at}: ${plural(pattern.population, 'live cell')} in ${pattern.width} by ${pattern.height}`,
    );
    this.text.take(at, bytes, record);
    this.plot.add(at, pattern.population);
    this.badge.replaceChildren(bytes === null ? 'Computing…' : `✓ Proved: generation ${withCommas(at)}`);
    this.source.replaceChildren(bytes === null
      ? 'Computed by your browser, and compared with the archive later.'
      : 'The archive’s own answer.');
    if (bytes !== null) this.message.replaceChildren();
    this.#settle();
    return put;
  }

  changed() {
    this.bar.changed();
    this.#settle();
  }

  compared(at, isSame) {
    if (isSame) {
      this.equal.replaceChildren(`At generation ${withCommas(at)} it matched the archive’s answer.`);
    } else {
      this.doubt.replaceChildren(element('p', { class: 'refusal', role: 'alert' },
        `The page’s generation ${withCommas(at)} differs from the archive’s. `
          + 'From here on, every generation comes from the archive.',
      ));
    }
  }

  /** Shown at the last generation, even if playing continues from there. */
  async ended() {
    await this.player.show(this.player.at);
    if (this.player.at < GENERATION_LIMIT) return;
    this.end.replaceChildren(
      `${withCommas(GENERATION_LIMIT)} is the last generation here. To play on: `,
      this.text.depositPart(),
    );
  }

  #saidScrolled = false;

  /** Shown once per page: the wheel scrolls the page until the canvas has the focus. */
  #sayScrolled() {
    if (this.#saidScrolled) return;
    this.#saidScrolled = true;
    this.hint.hidden = false;
    setTimeout(() => { this.hint.hidden = true; }, SAID);
  }

  failed(error) {
    this.message.replaceChildren(...[
      refusal(error),
      againButton(error, () => this.player.go(this.player.wanted)),
    ].filter(Boolean));
  }

  #settle() {
    if (this.player.direction !== 0 || this.text.at === undefined) return;
    this.text.cite();
    this.page.say(this.canvas.getAttribute('aria-label'));
  }

  /** The parts below the canvas and its controls. */
  get parts() {
    const source = element('details', { class: 'source' },
      this.badge,
      element('p', {}, this.source, ' ', this.equal, ' ', element('a', { href: '/about#proof' }, 'What is proved?')),
    );
    return [source, this.doubt, this.message, this.plot.figure];
  }
}

/**
 * Counts the cells of all generations for the plot, once the page is there. Without a worker the plot has only what was
 * shown.
 */
function countLater({ plot, player }, record, page) {
  const begin = () => {
    try {
      countAll(
        record,
        GENERATION_LIMIT,
        (from, populations) => plot.fill(from, populations),
        () => player.direction !== 0,
        page.signal,
      );
    } catch {
      // As above.
    }
  };
  setTimeout(() => { if (!page.signal.aborted) begin(); }, LATER);
}

/** The page of a deposit, at a generation. */
export async function depositPage(page, digits, at = '0') {
  const number = Number(digits);
  page.keys['['] = () => { if (number > 1) go(depositAddress(number - 1)); };
  const rows = depositRows(number, page.signal);
  const next = rows.then((found) => found.next, () => null);
  const original = await deposit(number, page.signal);
  const { record } = original;
  const stage = new Stage(number, original, page);
  const { player, view, bar, text, facts } = stage;
  keysOf(page, player, view, bar.toggle, () => next);
  page.keys.w = () => stage.turnFull();
  const list = [
    ['Cells', [facts.population]],
    ['Box', [facts.box]],
    ['Rule', [ruleText(record.rule)]],
    ...kindParts(number, record, page, bar.periodic),
  ];
  const censuses = element('div');
  page.root.append(...[
    element('div', { class: 'screen' }, heading(number, record, rows), stage.stage),
    ...stage.parts,
    commentsPart(record.comments),
    element('dl', { class: 'facts' }, list.map(([term, description]) => (
      element('div', {}, element('dt', {}, term), element('dd', {}, description))
    ))),
    text.part(),
    censusPart(text, page),
    censuses,
    neighbours(number, rows),
  ].filter(Boolean));
  await player.show(Math.min(Number(at), GENERATION_LIMIT));
  view.fit();
  player.preload();
  countLater(stage, record, page);
  addLater(page, censuses, censusesSection(page, number));
  if (Number(at) > GENERATION_LIMIT) stage.message.replaceChildren(refusal(new Refused('out-of-limit')));
}
