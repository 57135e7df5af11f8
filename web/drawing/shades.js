// Colors as 32-bit words of an image, and colors between two of them.

/** The greatest age that is shown; older cells look the same. */
export const OLDEST = 32;

/** A color `#rrggbb` as a 32-bit word of an image. */
export function wordOf(color) {
  const [red, green, blue] = [1, 3, 5].map((at) => parseInt(color.slice(at, at + 2), 16));
  return (0xff000000 | (blue << 16) | (green << 8) | red) >>> 0;
}

/** A color between two; `share` is that of the second. */
export function between(color, other, share) {
  const part = (shift) => (
    Math.round(((color >>> shift) & 255) * (1 - share) + ((other >>> shift) & 255) * share) << shift
  );
  return (0xff000000 | part(16) | part(8) | part(0)) >>> 0;
}

// ---- colors by age: between two colors in OKLCH (B. Ottosson, 2020), which avoids dull colors in between

const linear = (part) => (part <= 0.04045 ? part / 12.92 : ((part + 0.055) / 1.055) ** 2.4);
const encoded = (part) => (
  Math.round(255 * Math.min(1, Math.max(0, part <= 0.0031308 ? part * 12.92 : 1.055 * part ** (1 / 2.4) - 0.055)))
);

/**
 * Lightness, chroma and hue of a 32-bit word of an image.
 * @param {number} word
 */
function oklchOf(word) {
  const [r, g, b] = [0, 8, 16].map((shift) => linear(((word >>> shift) & 255) / 255));
  const l = Math.cbrt(0.4122214708 * r + 0.5363325363 * g + 0.0514459929 * b);
  const m = Math.cbrt(0.2119034982 * r + 0.6806995451 * g + 0.1073969566 * b);
  const s = Math.cbrt(0.0883024619 * r + 0.2817188376 * g + 0.6299787005 * b);
  const greenRed = 1.9779984951 * l - 2.428592205 * m + 0.4505937099 * s;
  const blueYellow = 0.0259040371 * l + 0.7827717662 * m - 0.808675766 * s;
  return {
    lightness: 0.2104542553 * l + 0.793617785 * m - 0.0040720468 * s,
    chroma: Math.hypot(greenRed, blueYellow),
    hue: Math.atan2(blueYellow, greenRed),
  };
}

/**
 * The 32-bit word of a color given by lightness, chroma and hue.
 * @param {{lightness: number, chroma: number, hue: number}} color
 */
function wordOfOklch({ lightness, chroma, hue }) {
  const [greenRed, blueYellow] = [chroma * Math.cos(hue), chroma * Math.sin(hue)];
  const l = (lightness + 0.3963377774 * greenRed + 0.2158037573 * blueYellow) ** 3;
  const m = (lightness - 0.1055613458 * greenRed - 0.0638541728 * blueYellow) ** 3;
  const s = (lightness - 0.0894841775 * greenRed - 1.291485548 * blueYellow) ** 3;
  const red = encoded(4.0767416621 * l - 3.3077115913 * m + 0.2309699292 * s);
  const green = encoded(-1.2684380046 * l + 2.6097574011 * m - 0.3413193965 * s);
  const blue = encoded(-0.0041960863 * l - 0.7034186147 * m + 1.707614701 * s);
  return (0xff000000 | (blue << 16) | (green << 8) | red) >>> 0;
}

/**
 * A color between two, on the path through pink and violet: the other path from orange to blue goes through green.
 * @param {number} color
 * @param {number} other
 * @param {number} share
 */
function betweenHues(color, other, share) {
  const [from, to] = [oklchOf(color), oklchOf(other)];
  const turn = ((to.hue - from.hue - 2 * Math.PI) % (2 * Math.PI));
  const part = (name) => from[name] + (to[name] - from[name]) * share;
  return wordOfOklch({ lightness: part('lightness'), chroma: part('chroma'), hue: from.hue + turn * share });
}

/**
 * The color of each age, from young to old; it changes fast at first.
 * @param {{ young?: number, old?: number }} shades the two ends
 */
export const shadesOfAges = ({ young, old }) => Array.from(
  { length: OLDEST + 1 },
  (_, age) => betweenHues(young, old, Math.log2(Math.max(1, age)) / Math.log2(OLDEST)),
);
