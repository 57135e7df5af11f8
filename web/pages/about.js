// The page about the archive: what it is and how to use it.

import { element, withCommas } from '../shared/dom.js';
import { GENERATION_LIMIT, LONGEST_SIDE } from '../shared/limits.js';

const link = (href, text) => element('a', { href }, text);
const code = (text) => element('code', {}, text);

/**
 * The sections, each with an anchor, a heading and paragraphs.
 * @returns {[string, string, any[][]][]}
 */
const sections = () => [
  ['deposit', 'Deposit a pattern', [
    [
      'Drop an RLE file on any page, paste its text, or choose it at ',
      link('/new', 'Make a deposit'),
      '. The page draws it and, before sending anything, reports any error with its line number. '
        + 'You need no account, only a name for yourself. Some clubs also ask for a password.',
    ],
    [
      'Plaintext, Life 1.05 and 1.06, RLE without a header, and texts that are not UTF-8 are read too. '
        + 'The page then shows the text that it sends.',
    ],
    [
      'A deposit gets a number and keeps it. No deposit can be changed or deleted later, '
        + 'so give a pattern its name first. If you deposit the same file twice, it keeps its first number.',
    ],
    [
      `The archive accepts rules such as B3/S23, up to ${withCommas(LONGEST_SIDE)} by ${withCommas(LONGEST_SIDE)} `
        + 'cells and 1 MiB. It does not accept Generations, isotropic (Hensel) and LifeHistory rules, rules with B0, '
        + 'or bounded grids.',
    ],
  ]],
  ['play', 'Play it', [
    [
      'Space plays and pauses; the arrow keys step. ',
      element('kbd', {}, 'Run to'),
      ` plays to a generation, forward or back. The last generation is ${withCommas(GENERATION_LIMIT)}; `
        + 'from there you can deposit that generation and continue.',
    ],
    [
      'While a pattern plays, your browser computes the generations. Every hundredth, and the one where you stop, '
        + 'is compared with the archive’s answer, and the page says whether they are the same.',
    ],
    [
      'Click the pattern to zoom with the wheel; until then the wheel scrolls the page. '
        + 'Pinching on a trackpad or a touch screen always zooms. Drag to move. '
        + 'The button with four corners fills the screen.',
    ],
  ]],
  ['cite', 'Cite it', [
    [
      'To cite something, use the address of its page: ',
      code('/d/7/at/30'),
      ' is generation 30 of deposit 7, ',
      code('/c/3'),
      ' is census 3, ',
      code('/o/B3-S23/xq4_153'),
      ' is the glider. These addresses never change their meaning.',
    ],
    ['Copied and saved patterns, pictures and animations say which generation they are, and its address.'],
  ]],
  ['census', 'How objects are counted', [
    [
      'A census splits one generation of a deposit into clusters, and counts the clusters by their codes. ',
      link('/o', 'Objects'),
      ' adds up all censuses of a rule.',
    ],
    [
      'These counts are not apgsearch’s, although most codes are spelled as on Catagolue. '
        + 'A census does not separate objects: live cells within two cells of each other belong to one cluster, '
        + 'even if neither changes the other. Four blinkers in a traffic light are one object here, ',
      code('xp2_s01110szw222'),
      '. The pages name such a group by its parts, “4 blinkers”, '
        + 'and next to “blinker” they say how many more are in groups.',
    ],
    [
      'In a shell, ',
      code('life object B3/S23 xq4_153 4'),
      ' prints the object that a code names, if its period is at most the last number.',
    ],
    [
      'A census does not run the pattern until it settles. A cluster that does not return within the limit has no code '
        + 'and counts as unresolved: guns, puffers, and anything still changing. '
        + 'A limit of 60 finds all common objects. Compare censuses only if they have the same limit.',
    ],
  ]],
  ['proof', 'What is proved', [
    [
      'The program that computes generations, kinds, codes and censuses is proved correct: it meets their definitions. '
        + 'That covers everything that these pages show as the archive’s own answer. '
        + 'It does not cover the pages, the search index, the names of objects, '
        + 'or the generations that your browser computes while a pattern plays.',
    ],
  ]],
];

/** The page about the archive. */
export async function aboutPage(page) {
  page.title('About');
  page.root.append(
    element('h1', { tabindex: -1 }, 'About this archive'),
    element('p', { class: 'lead' },
      'Here a club keeps its patterns for Conway’s Game of Life and similar rules. '
        + 'Anyone can view and play them, and look up which objects they contain. Members add new ones.',
    ),
    ...sections().map(([id, heading, paragraphs]) => element('section', { id, class: 'prose' },
      element('h2', {}, heading),
      paragraphs.map((parts) => element('p', {}, parts)),
    )),
    element('section', { class: 'prose' },
      element('h2', {}, 'More'),
      element('ul', { class: 'links' },
        element('li', {}, link('/words', 'The words of the archive')),
        element('li', {}, link('/c', 'All censuses')),
        element('li', {}, link('/haul', 'Show a haul')),
        element('li', {}, link('/index/feed.xml', 'New deposits as a feed')),
      ),
    ),
  );
}
