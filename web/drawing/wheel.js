// The wheel and the trackpad over the canvas. As with a map in a page, the page scrolls until the canvas has the focus
// or Ctrl is held.

/** The pixels of a wheel's notch, and of a pinch on a trackpad, for one zoom step. */
const NOTCH = 100;
const PINCH = 25;
/** The pixels of a line, for browsers that count in lines, and of a page. */
const UNITS = [1, 33, 600];

/**
 * How far an event scrolls down, in pixels.
 * @param {WheelEvent} event
 */
const pixelsOf = ({ deltaY, deltaMode }) => deltaY * UNITS[deltaMode];

export class Wheel {
  /**
   * @param {HTMLCanvasElement} canvas
   * @param {() => void} scrolled called when the wheel scrolls the page
   */
  constructor(canvas, scrolled) {
    this.canvas = canvas;
    this.scrolled = scrolled;
  }

  /**
   * The zoom steps of an event, a fraction for a small movement; 0 if the page should scroll.
   * @param {WheelEvent} event
   */
  steps(event) {
    // Browsers report a pinch on a trackpad as a wheel event with Ctrl.
    if (!event.ctrlKey && document.activeElement !== this.canvas) {
      this.scrolled();
      return 0;
    }
    event.preventDefault();
    return -pixelsOf(event) / (event.ctrlKey && Math.abs(pixelsOf(event)) < NOTCH / 2 ? PINCH : NOTCH);
  }
}
