// Limits of the archive, which docs/limits.csv explains. Written by tools/make-tables.

export const GENERATION_LIMIT = 2048;
export const PERIOD_LIMIT = 2048;
export const LONGEST_FILE = 1_048_576;
export const LONGEST_TEXT = 200;
export const MOST_COMMENTS = 64;
export const GREATEST_COUNT = 1_000_000;
export const LONGEST_SIDE = 1024;
export const LONGEST_LINE = 70;
export const LONGEST_MEMBER = 32;
export const LONGEST_TOKEN = 64;
export const LONGEST_LIST = 100;
export const MOST_FRAMES = 240;
