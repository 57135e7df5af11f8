// Rules: two sets of neighbour counts, and the three forms of their texts (docs/FORMATS.md, Rules).

/** Each form, and which of its parts has the births and which the survivals. */
/** @type {[RegExp, number, number][]} */
const FORMS = [
  [/^[Bb]([0-8]*)\/?[Ss]([0-8]*)$/, 1, 2],
  [/^[Ss]([0-8]*)\/?[Bb]([0-8]*)$/, 2, 1],
  [/^([0-8]*)\/([0-8]*)$/, 2, 1],
];

const flags = (digits) => Array.from({ length: 9 }, (_, count) => digits.includes(String(count)));
const digitsOf = (counts) => counts.map((is, count) => (is ? count : '')).join('');

/** The rule of a text; 'bad-rule' if it has none of the forms, 'birth-zero' if 0 is among its births. */
export function readRule(text) {
  const bare = text.replace(/[ \t\r]/g, '');
  for (const [form, births, survivals] of FORMS) {
    const found = form.exec(bare);
    if (found) {
      const rule = { births: flags(found[births]), survivals: flags(found[survivals]) };
      return rule.births[0] ? 'birth-zero' : rule;
    }
  }
  return 'bad-rule';
}

/** `B3/S23`. */
export const ruleText = (rule) => `B${digitsOf(rule.births)}/S${digitsOf(rule.survivals)}`;

/** The rule of Conway's Life. */
export const LIFE = /** @type {{ births: boolean[], survivals: boolean[] }} */ (readRule('B3/S23'));

/**
 * The form for paths of the archive: the canonical text without its slash. A text that is not a rule stays as it is, so
 * that the archive refuses it.
 */
export function rulePart(text) {
  const rule = readRule(text);
  return typeof rule === 'string' ? encodeURIComponent(text.replaceAll('/', '')) : ruleText(rule).replace('/', '');
}

/** The form for addresses of these pages: `B3-S23`. */
export const ruleAddress = (text) => encodeURIComponent(text.replaceAll('/', '-'));
export const ruleOfAddress = (text) => text.replaceAll('-', '/');
