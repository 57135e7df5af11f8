// Why something was refused, and what to do.

// sentences: written by tools/make-tables from docs/refusals.csv
export const REFUSALS = {
  'no-such-deposit': 'There is no deposit with this number. Look at the newest deposits, or check the number against '
    + 'your source.',
  'no-such-census': 'There is no census with this number. Check the number against your source, or ask for a census of '
    + 'a deposit.',
  'bad-member': 'This is not a valid member name. Use 1 to 32 of the letters a to z, digits and "-".',
  'bad-token': 'This is not a valid token. Use 1 to 64 of the letters A to Z and a to z, digits and "-". The SHA-256 '
    + 'digest of the file is a good one.',
  'token-reused': 'This member has already used this token for something else, which stays as it is. Take another '
    + 'token, such as the SHA-256 digest of the file.',
  'out-of-limit': 'A generation must be from 0 to 2048, and a limit on the period from 1 to 2048. Choose a number in '
    + 'that range.',
  'bad-pattern': 'The file is not a pattern that the archive accepts. The fault that comes with this refusal says why: '
    + 'fix it, and send the file again.',
  'bad-rule': 'This is not a supported rule. Write it in digits, like B3/S23, without a 0 among the births.',
  'bad-code': 'No object has this code under this rule within this limit. Check it against your source: codes are in '
    + 'lower case, an object has only one, and other rules have other objects.',
  full: 'The archive is full. Tell whoever runs it; everything stored in it stays.',
  unavailable: 'The archive could not do this now. Wait a little and try again; with the same token, nothing is stored '
    + 'twice. If that does not help, tell whoever runs it.',
  'no-such-page': 'There is no such page in this archive. Check the address against your source, or start from the '
    + 'newest deposits.',
  'bad-method': 'Wrong method: use GET to read and POST to store. If a web page says this, reload it; if that does not '
    + 'help, tell whoever runs the archive.',
  'bad-message': 'The request could not be read. A file may have at most 1,048,576 bytes: send a smaller one. If a web '
    + 'page says this about a smaller file, reload the page.',
};

/** The gateway's own refusals, and the one if no reply comes at all. */
export const GATEWAY = {
  'no-reply': 'No reply came. What you sent may have been stored all the same: send it again with the same token, and '
    + 'it is stored only once.',
  password: 'This club checks passwords. Send it again with the name and the password that you were given.',
  'too-many-requests': 'Too many requests in a short time. Wait a few seconds and try again; nothing was lost.',
  unknown: 'The reply did not come from an archive. Check the address, or reload the web page; if that does not help, '
    + 'tell whoever runs the archive.',
};

/** The faults of pattern files by number: their names, and what to do. */
export const FAULTS = [
  null,
  ['too-long', 'The file has more than 1,048,576 bytes. Use a smaller one, or leave out comments.'],
  ['text-limit', 'A name, an author or a comment has more than 200 bytes, or there are more than 64 comments. Shorten '
    + 'it, or split it into two comments.'],
  ['no-header', 'The header line before the body is missing. Put the line "x = 0, y = 0" in front. If the file is in '
    + 'another format (plaintext, Life 1.06, macrocell), open it in Golly and save it as RLE.'],
  ['bad-header', 'The header line is malformed. Write it like "x = 3, y = 3, rule = B3/S23", with the commas.'],
  ['bad-rule', 'The rule is not supported. Write it in digits, like B3/S23, without a name and without a bounded grid '
    + 'such as ":T100,100".'],
  ['birth-zero', 'The rule has 0 among its births, so it would make cells out of nothing. Take another rule.'],
  ['other-tag', 'The body has an item other than "b", "o", "$" and "!". For a rule of two states, write "b" for "." '
    + 'and "o" for "A".'],
  ['bad-count', 'A count is 0 or over 1,000,000, or it comes before "!" or at the end of the file. Correct the count; '
    + 'if the file was cut off, copy it again.'],
  ['too-wide', 'A live cell is in a column or row beyond 1023. Move the cells, or use only a part of the pattern.'],
  ['no-end', 'The body ends without "!". Add it at the end; if the file was cut off, copy it again.'],
];
// end of sentences

/** What only the gateway says: the program has no sentence for it. */
const WITHDRAWN = 'The club has withdrawn this deposit.';

/** What a read says if no reply came: it sends nothing that the archive would keep. */
const NO_REPLY_TO_READ = 'No reply came, and nothing has changed. Wait a little and try again; '
  + 'if that does not help, tell whoever runs the archive.';

/** The refusal of a reply: its name, its number, and the fault of the file where it is one. */
export class Refused extends Error {
  /** Whether a read was refused, and not a deposit or a census. */
  isRead = false;
  /** How long the gateway wants a client to wait, in milliseconds. */
  wait = 0;
  /** A sentence that fits better than the usual one. */
  sentence = '';

  constructor(name, number = 0, fault = 0) {
    super(name);
    this.name = name;
    this.number = number;
    this.fault = fault;
  }
}

/** The name by which the documents have it: that of the fault of a file, else that of the refusal. */
export const nameOf = (error) => FAULTS[error.fault]?.[0] ?? error.name;

/** The sentence that says what to do. */
export function sentenceOf(error) {
  if (error.sentence) return error.sentence;
  if (error.fault) return FAULTS[error.fault]?.[1] ?? REFUSALS['bad-pattern'];
  if (error.isRead && error.name === 'no-reply') return NO_REPLY_TO_READ;
  if (error.name === 'withdrawn') return WITHDRAWN;
  return REFUSALS[error.name] ?? GATEWAY[error.name] ?? GATEWAY.unknown;
}

/** The refusal that a reply of another status than 200 and 201 says. */
export function refusalOf(status, text) {
  if (status === 401) return new Refused('password');
  if (status === 410) return new Refused('withdrawn');
  try {
    const { error, refusal, rle } = JSON.parse(text);
    if (error in REFUSALS || error in GATEWAY) return new Refused(error, refusal ?? 0, rle ?? 0);
  } catch {
    // A reply that is not JSON does not come from an archive.
  }
  return new Refused(status >= 502 ? 'no-reply' : 'unknown');
}
