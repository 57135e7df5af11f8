"""The parts of tests/test_web.py on drawings: the cells that a canvas shows, those of a file, and each size of a cell.
"""
import base64
import glob
import os
import random
from collections.abc import Iterable

import life
import reference
from browser import Browser
from clients import HERE, check, left_out, run, same
from pages import content

TOP = os.path.join(HERE, "..")
GOLLY = "/usr/share/golly/Patterns"


def runs_of(cells: Iterable[tuple[int, int]]) -> list[list[int]]:
    """For each row its runs of live cells, `[begin, end, begin, end, ..]`, as the pages have a pattern."""
    rows: list[list[int]] = [[] for _ in range(1 + max((row for _, row in cells), default=-1))]
    for column, row in sorted(cells, key=lambda cell: (cell[1], cell[0])):
        if rows[row] and rows[row][-1] == column:
            rows[row][-1] = column + 1
        else:
            rows[row] += [column, column + 1]
    return rows


# The cells that a canvas shows, from the pixels that are of the color of live ones: given the size of a cell, it finds
# where the first one is seen. Each live cell has its left upper pixel of that color, and there are no others.
SEEN = """
const canvas = document.querySelector(words[0]);
const { colors } = await import('/sources/drawing/draw.js');
await new Promise((resolve) => requestAnimationFrame(() => requestAnimationFrame(resolve)));
const { width, height } = canvas;
const pixels = new Uint32Array(canvas.getContext('2d').getImageData(0, 0, width, height).data.buffer);
const { live } = colors();
const cells = [];
for (let at = 0; at < pixels.length; at += 1)
  if (pixels[at] === live && pixels[at - 1] !== live && pixels[at - width] !== live)
    cells.push([at % width, Math.floor(at / width)]);
return cells;
"""


def seen(browser: Browser) -> tuple[set[tuple[int, int]], tuple[float, float, float]]:
    """The cells that the large canvas shows, apart from one another as gaps are, moved to the corner; and where that
    is. A canvas that is being redrawn may show none: then they are nowhere."""
    pixels = browser.wait_for(SEEN, "canvas.large")
    if len(pixels) < 2:
        nowhere = float("inf")
        return set(), (nowhere, nowhere, nowhere)
    left, top = min(x for x, _ in pixels), min(y for _, y in pixels)
    steps = {x - left for x, _ in pixels} | {y - top for _, y in pixels}
    size = min(step for step in steps if step > 0)
    return {((x - left) // size, (y - top) // size) for x, y in pixels}, (left, top, size)


def later(text: bytes, generations: int) -> set[tuple[int, int]]:
    """The cells of a generation of a file by the reference, moved to the corner."""
    rule, cells = life.read_file(text)[3:]
    return set(life.normal(life.generation(rule, cells, generations)))


# The rows of runs that are drawn of a file, at a pixel a cell, or the number of its fault.
DRAWN = """
const [encoded] = words;
const { readFile, Fault } = await import('/sources/patterns/rle.js');
const { paint, colors } = await import('/sources/drawing/draw.js');
let pattern;
try {
  pattern = readFile(Uint8Array.from(atob(encoded), (byte) => byte.charCodeAt(0))).pattern;
} catch (error) {
  if (error instanceof Fault) return error.number;
  throw error;
}
const canvas = document.createElement('canvas');
canvas.width = pattern.width + 3;
canvas.height = pattern.height + 3;
paint(canvas, pattern, { left: -1, top: -2, size: 1, place: { column: 0, row: 0 } });
const { width, height } = canvas;
const pixels = new Uint32Array(canvas.getContext('2d').getImageData(0, 0, width, height).data.buffer);
const { live } = colors();
const rows = [];
for (let row = 0; row < height; row += 1) {
  const runs = [];
  for (let column = 0; column < width; column += 1) {
    if (pixels[row * width + column] !== live) continue;
    if (runs.at(-1) === column - 1) runs[runs.length - 1] = column;
    else runs.push(column - 1, column);
  }
  rows.push(runs);
}
return {
  before: rows.slice(0, 2),
  rows: rows.slice(2, 2 + pattern.height),
  after: rows.slice(2 + pattern.height),
  population: pattern.population
};
"""


def drawing(browser: Browser, base: str) -> None:
    """What the pages read and draw of a file is what the program has of it, or the program's fault."""
    browser.open(f"{base}/find")
    files = {os.path.basename(path): content(path) for path in glob.glob(os.path.join(TOP, "examples", "*.rle"))}
    files |= {os.path.basename(path): content(path) for path in glob.glob(os.path.join(HERE, "cases", "*", "*.stdin"))}
    soup = random.Random(7)
    files |= {
        f"soup-{size}": life.file_text(
            (
                None,
                None,
                (),
                life.LIFE,
                life.normal({(x, y) for x in range(size) for y in range(size) if soup.random() < 0.4}),
            )
        )
        for size in (1, 5, 33, 200)
    }
    if os.path.isdir(GOLLY):
        files |= {
            os.path.relpath(path, GOLLY): content(path) for path in glob.glob(GOLLY + "/**/*.rle", recursive=True)
        }
    numbers = {name: number for number, name in reference.RLE_NAMES.items()}
    good = {"drawn": 0, "refused": 0}
    for name, file in sorted(files.items()):
        status, printed, refused = run("generation", "0", data=file)
        found = browser.wait_for(DRAWN, base64.b64encode(file).decode())
        if status != 0:
            right = found == numbers.get(refused.decode().split()[-1])
            good["refused"] += right
        else:
            cells = life.read_file(printed)[4]
            right = (
                isinstance(found, dict)
                and found["rows"] == runs_of(cells)
                and found["population"] == len(cells)
                and not any(found["before"])
                and not any(found["after"])
            )
            good["drawn"] += right
        check(f"the drawing of {name}", right)
    check(f"files drawn and refused: {good}", good["drawn"] > 40 and good["refused"] > 10)
    if not os.path.isdir(GOLLY):
        left_out(f"there is no {GOLLY}, so its files are not drawn")


def sizes(browser: Browser, base: str) -> None:
    """At each size of a cell all live cells are seen and no others, wherever the view begins."""
    browser.open(f"{base}/find")
    found = browser.wait_for(
        """
        const { paint, colors, SIZES } = await import('/sources/drawing/draw.js');
        const { live } = colors();
        const cells = [];
        for (let cell = 0; cell < 200; cell += 1) cells.push([(cell * 37) % 61, (cell * 11) % 43]);
        const rows = Array.from({ length: 43 }, (_, row) => [
          ...new Set(cells.filter((cell) => cell[1] === row).map((cell) => cell[0]))
        ].sort((a, b) => a - b).flatMap((column) => [column, column + 1]));
        const wrong = [];
        for (const size of SIZES) for (const shift of [0, -3.25, 5.5]) {
          const canvas = document.createElement('canvas');
          canvas.width = 300;
          canvas.height = 200;
          paint(canvas, { width: 61, height: 43, rows }, {
            left: shift, top: shift, size, place: { column: 2, row: 1 }
          });
          const pixels = new Uint32Array(canvas.getContext('2d').getImageData(0, 0, 300, 200).data.buffer);
          const wanted = new Set();
          for (const [column, row] of cells) {
            const [x, y] = [(column + 2 - shift) * size, (row + 1 - shift) * size].map(Math.floor);
            if (x >= 0 && y >= 0 && x < 300 && y < 200) wanted.add(y * 300 + x);
          }
          const lit = new Set([...pixels.keys()].filter((at) => pixels[at] === live));
          const within = (at) => cells.some(([column, row]) => {
            const x = (column + 2 - shift) * size; const y = (row + 1 - shift) * size;
            return at % 300 >= Math.floor(x) && at % 300 < Math.max(x + size, Math.floor(x) + 1)
              && Math.floor(at / 300) >= Math.floor(y) && Math.floor(at / 300) < Math.max(y + size, Math.floor(y) + 1);
          });
          if ([...wanted].some((at) => !lit.has(at)) || [...lit].some((at) => !within(at))) wrong.push([size, shift]);
        }
        return wrong;"""
    )
    same(f"sizes of cells: {found}", found, [])
