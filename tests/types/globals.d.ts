// What the pages add to elements.

interface HTMLCanvasElement {
  /** Redraws the canvas in the colors of the theme. */
  redraw?: () => void;
}
