// The group of all pages but the lists and a deposit's, with what drops, pastes, the first page and the search box need
// of them.

export { aboutPage } from './about.js';
export { addressOf } from './box.js';
export { catalogPage } from './catalog.js';
export { censusPage } from './census.js';
export { censusesPage } from './censuses.js';
export { codePage, findPage } from './find.js';
export { mayBePattern } from '../patterns/formats.js';
export { frequentParts } from './frequent.js';
export { haulPage } from './haul.js';
export { NO_FILES, filesOf } from '../patterns/names.js';
export { collectionPage } from './collection.js';
export { comparePage } from './compare.js';
export { depositForm } from './new.js';
export { newAddress } from './oldAddresses.js';
export { Playing } from './playing.js';
export { saveParts } from '../drawing/picture.js';
