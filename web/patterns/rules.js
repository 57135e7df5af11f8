// Well-known rules by their names (LifeWiki, List of Life-like rules). In names only letters and digits count.

const RULES = new Map(Object.entries({
  life: 'B3/S23',
  conwayslife: 'B3/S23',
  highlife: 'B36/S23',
  daynight: 'B3678/S34678',
  dayandnight: 'B3678/S34678',
  seeds: 'B2/S',
  morley: 'B368/S245',
  move: 'B368/S245',
  replicator: 'B1357/S1357',
  '2x2': 'B36/S125',
  '34life': 'B34/S34',
  diamoeba: 'B35678/S5678',
  anneal: 'B4678/S35678',
  maze: 'B3/S12345',
  mazectric: 'B3/S1234',
  coral: 'B3/S45678',
  lifewithoutdeath: 'B3/S012345678',
  flakes: 'B3/S012345678',
  drylife: 'B37/S23',
  pedestrianlife: 'B38/S23',
  flock: 'B3/S12',
  amoeba: 'B357/S1358',
  longlife: 'B345/S5',
  gnarl: 'B1/S1',
  stains: 'B3678/S235678',
  walledcities: 'B45678/S2345',
  serviettes: 'B234/S',
  livefreeordie: 'B2/S0',
  pseudolife: 'B357/S238',
  assimilation: 'B345/S4567',
  coagulations: 'B378/S235678',
}));

/**
 * The rule with a name, in digits; undefined if the name isn't known.
 * @param {string} name
 */
export const ruleNamed = (name) => (
  /^[ -~’]+$/.test(name) ? RULES.get(name.toLowerCase().replace(/[^a-z0-9]/g, '')) : undefined
);
