"""The parts of tests/test_web.py on the player: generations that the page makes, their comparison with the archive's,
steps, loops and plots.
"""
import random
import time
from typing import Any

import life
from browser import Browser
from clients import check, same
from gateways import Gateway
from pages import asked, kept

GENERATION = "return Number(document.getElementById('generation').value)"
SOURCE = "return document.querySelector('.source p').textContent"
OWN, ENTER = "The archive’s own answer.", "\ue007"
# The generations that the page has asked the archive for.
ASKED = (
    "return performance.getEntriesByType('resource')"
    ".map((entry) => /[/]at[/]([0-9]+)$/.exec(entry.name)).filter(Boolean).map((found) => Number(found[1]))"
)
# Makes generations of a file in the page: for each its corner and its rows of runs.
MADE = """
const [encoded, numbers] = words;
const { readFile } = await import('/sources/patterns/rle.js');
const { Maker } = await import('/sources/player/maker.js');
const end = new AbortController();
const maker = new Maker(readFile(new TextEncoder().encode(encoded)), 2048, end.signal);
const found = [];
for (const number of numbers) {
  const { pattern, corner } = await maker.get(number);
  found.push([
    corner.column, corner.row, pattern.population, pattern.width, pattern.height,
    pattern.rows.map((runs) => [...runs])
  ]);
}
end.abort();
return found;
"""
# How long the page takes for each of some generations, in milliseconds.
TIMED = """
const { readFile } = await import('/sources/patterns/rle.js');
const { Maker } = await import('/sources/player/maker.js');
const end = new AbortController();
const reply = await fetch(words[0]);
const maker = new Maker(readFile(new Uint8Array(await reply.arrayBuffer())), 2048, end.signal);
await maker.get(0);
let least = Infinity;
for (let at = 1; at <= words[1]; at += 10) {
  const begun = performance.now();
  for (let one = at; one < at + 10; one += 1) await maker.get(one);
  least = Math.min(least, (performance.now() - begun) / 10);
}
end.abort();
return least;
"""


def runs(cells: Any) -> list[Any]:
    """The corner of cells, and what MADE says of them."""
    if not cells:
        return [0, 0, 0, 0, 0, []]
    left, top = min(x for x, _ in cells), min(y for _, y in cells)
    width, height = max(x for x, _ in cells) - left + 1, max(y for _, y in cells) - top + 1
    rows: list[list[int]] = [[] for _ in range(height)]
    for x, y in sorted(cells, key=lambda cell: (cell[1], cell[0])):
        row = rows[y - top]
        if row and row[-1] == x - left:
            row[-1] += 1
        else:
            row += [x - left, x - left + 1]
    return [left, top, len(cells), width, height, rows]


def made(_gateway: Gateway, browser: Browser, base: str, _folder: str) -> None:
    """What the page makes is what the rule says, under several rules, over borders of words, and where it puts it."""
    chance = random.Random(31)
    browser.open(f"{base}/find")
    for rule in ("B3/S23", "B36/S23", "B1/S012345678", "B2/S", "B12345678/S0", "B8/S8", "B3678/S34678"):
        for size in (1, 3, 31, 33, 64):
            cells = {(x, y) for x in range(size) for y in range(size) if chance.random() < 0.45} | {(0, 0)}
            text = life.file_text((None, None, (), life.read_rule(rule.encode()), life.normal(cells))).decode()
            numbers = [0, 1, 2, 7, 6, 25, 3]
            wanted, now, known = [], frozenset(cells), {}
            for number in range(max(numbers) + 1):
                known[number] = now
                now = life.following(life.read_rule(rule.encode()), now)
            wanted = [runs(known[number]) for number in numbers]
            found = browser.wait_for(MADE, text, numbers)
            # The place of an empty generation is nowhere.
            good = all(
                one[2:] == other[2:] and (one[:2] == other[:2] or other[2] == 0) for one, other in zip(found, wanted)
            )
            check(f"generations of {size} by {size} under {rule}", good)


def compared(gateway: Gateway, browser: Browser, base: str, _folder: str) -> None:
    """Playing asks the archive for each hundredth generation and the last one alone, and says what was compared."""
    number = kept(gateway, "played", b"#N R-pentomino\nx = 3, y = 3\nb2o$2o$bo!\n")
    browser.open(f"{base}/d/{number}")
    check("at rest it is the archive's own", browser.run(SOURCE).startswith(OWN))
    browser.run(
        "const speed = document.getElementById('speed'); speed.value = '60'; "
        "speed.dispatchEvent(new Event('change')); performance.clearResourceTimings()"
    )
    browser.type("#run-to", "230")
    browser.one("#run").click()
    seen = browser.until(lambda: "At generation 100 it matched" in browser.run(SOURCE) and browser.run(SOURCE))
    check("while it plays it is said that the page makes it", bool(seen) and "Computed by your browser" in seen)
    check(
        "it stops where it should",
        browser.at(f"/d/{number}/at/230")
        and browser.until(lambda: "At generation 230 it matched" in browser.run(SOURCE) and OWN in browser.run(SOURCE)),
    )
    requests = browser.run(ASKED)
    check(f"few requests: {requests}", {100, 200, 230} <= set(requests) and len(requests) < 20)
    shown = browser.run(
        "return document.getElementById('text') && "
        "[...document.querySelectorAll('.facts dd')].slice(0, 2).map((fact) => fact.textContent)"
    )
    own = life.read_file(asked(gateway.life_port, f"/deposits/{number}/at/230")[1])[4]
    same("what is shown is the archive's", shown[0], f"{len(own):,}")
    browser.run("localStorage.removeItem('speed')")


# Answers another generation in the place of the hundredth.
FALSE = """
const whole = window.fetch;
window.fetch = (path, options) => whole(
  `${path}`.endsWith('/at/100') ? `${path}`.replace('/at/100', '/at/99') : path,
  options
);
"""


def doubted(gateway: Gateway, browser: Browser, base: str, _folder: str) -> None:
    """If what the page made is not what the archive answers, it says so, shows the archive's, and plays by the archive
    alone."""
    number = kept(gateway, "doubted", b"#N Pi\nx = 3, y = 3\n3o$obo$obo!\n")
    browser.open(f"{base}/d/{number}")
    browser.run(FALSE)
    browser.type("#run-to", "150")
    browser.run(
        "const speed = document.getElementById('speed'); speed.value = '60'; speed.dispatchEvent(new Event('change'))"
    )
    browser.one("#run").click()
    check(
        "a difference is shown",
        browser.until(lambda: "generation 100 differs from the archive" in browser.text(".refusal")),
    )
    check("the archive's answer is shown", browser.at("/at/100") and browser.until(lambda: OWN in browser.run(SOURCE)))
    browser.type("#run-to", "110")
    browser.one("#run").click()
    check(
        "from there on the archive answers each",
        browser.at("/at/110")
        and set(range(101, 111)) <= set(browser.run(ASKED))
        and browser.run(SOURCE).startswith(OWN),
    )
    browser.run("localStorage.removeItem('speed')")


def controls(gateway: Gateway, browser: Browser, base: str, _folder: str) -> None:
    """Steps of 10 and 100, the generation at which a pattern is back, playing it over and over, the grid, and the
    plot."""
    pulsar = kept(gateway, "pulsar", b"#N Blinker\nx = 3, y = 1\n3o!\n")
    browser.open(f"{base}/d/{pulsar}")
    for size, wanted in (("10", 10), ("100", 110), ("1", 111)):
        browser.run("document.getElementById('step-size').value = arguments[0]", size)
        browser.one("#step").click()
        check(
            f"a step of {size}",
            browser.until(lambda: browser.run(GENERATION) == wanted) and browser.at(f"/at/{wanted}"),
        )
    browser.run("document.getElementById('step-size').value = '10'")
    browser.one("#step-back").click()
    check("a step of 10 back", browser.until(lambda: browser.run(GENERATION) == 101))
    check(
        "where it is back is said",
        browser.until(lambda: browser.text("#back-at") == "back at 2")
        and browser.run("return document.querySelector('#ticks option').value") == "2",
    )
    browser.one("#back-at").click()
    check("and leads there", browser.at("/at/2"))
    browser.one("#loop").click()
    browser.one("#play").click()
    seen = set()
    until = time.monotonic() + 2
    while time.monotonic() < until:
        seen.add(browser.run(GENERATION))
    browser.one("#play").click()
    same(f"it plays over and over: {seen}", seen, {1, 2})
    shades = (
        "const canvas = document.querySelector('canvas.large'); "
        "return new Set(new Uint32Array(canvas.getContext('2d')"
        ".getImageData(0, 0, canvas.width, canvas.height).data.buffer)).size"
    )
    check("a grid is drawn", browser.until(lambda: browser.run(shades) == 3))
    browser.one("#grid").click()
    check("and is not, if it is not wanted", browser.until(lambda: browser.run(shades) == 2))
    gun = kept(gateway, "none", b"#N Glider alone\nx = 3, y = 3\nbo$2bo$3o!\n#\n")
    browser.open(f"{base}/d/{gun}")
    label = "Population of generations 0 to 2,048: at most 5"
    check(
        "the plot of all generations is seen and named",
        browser.until(lambda: browser.one("canvas.plot").get_attribute("aria-label") == label)
        and browser.text(".population figcaption").startswith(label),
    )
    browser.run(
        "const plot = document.querySelector('canvas.plot'); const box = plot.getBoundingClientRect(); "
        "plot.dispatchEvent(new MouseEvent('click', { clientX: box.left + box.width / 2, bubbles: true }))"
    )
    check("a press on the plot leads to its generation", browser.until(lambda: 1020 <= browser.run(GENERATION) <= 1028))
    browser.type("#generation", "3000" + ENTER)
    check(
        "a generation beyond the last one is the last one, and the page says so",
        browser.at(f"/d/{gun}/at/2048") and browser.until(lambda: "2,048 is the last" in browser.text(".end")),
    )
    browser.picture("player")
    browser.screen(320, 780)
    browser.open(f"{base}/d/{gun}")
    check(
        "the player fits a phone",
        browser.run("return document.documentElement.scrollWidth") <= 320 and browser.unnamed() == [],
    )
    browser.screen()


def large(gateway: Gateway, browser: Browser, base: str, _folder: str) -> None:
    """A soup of 1000 by 1000 is made at 30 generations a second and more: in the best of twelve times ten generations,
    as others may be at work."""
    chance = random.Random(32)
    rows = ["".join(chance.choice("bo") for _ in range(1000)) for _ in range(1000)]
    number = kept(gateway, "soup", ("#N Soup\nx = 1000, y = 1000\n" + "$\n".join(rows) + "!\n").encode())
    browser.open(f"{base}/find")
    took = browser.wait_for(TIMED, f"/deposits/{number}", 120)
    check(f"a generation of 1000 by 1000 in {took:.1f} ms", took < 1000 / 30)


# The populations of all generations of a file, as the page counts them in the background.
COUNTED = """
const { readFile } = await import('/sources/patterns/rle.js');
const { countAll } = await import('/sources/player/maker.js');
const all = [];
await new Promise((resolve) => {
  let pauses = 3;
  const isBusy = () => (pauses -= 1) >= 0;
  const take = (from, populations) => {
    if (from !== all.length) throw new Error(`${from} after ${all.length}`);
    all.push(...populations);
    if (all.length > words[1]) resolve();
  };
  countAll(readFile(new TextEncoder().encode(words[0])), words[1], take, isBusy, new AbortController().signal);
});
return all;
"""


def counted(gateway: Gateway, browser: Browser, base: str, _folder: str) -> None:
    """The populations of the plot are those of the rule; its axis ends at the last one that is known."""
    browser.open(f"{base}/find")
    for rule, last in (("B3/S23", 250), ("B36/S23", 60), ("B2/S", 40)):
        now = life.read_file(f"x = 3, y = 3, rule = {rule}\nb2o$2o$bo!".encode())[4]
        wanted = []
        for _ in range(last + 1):
            wanted.append(len(now))
            now = life.following(life.read_rule(rule.encode()), now)
        same(
            f"populations under {rule}",
            browser.wait_for(COUNTED, f"x = 3, y = 3, rule = {rule}\nb2o$2o$bo!", last),
            wanted,
        )
    number = kept(gateway, "plotted", b"#N Dies\nx = 3, y = 1\nobo!\n")
    browser.open(f"{base}/d/{number}")
    browser.run("document.querySelector('canvas.plot').scrollIntoView()")
    words = "return document.querySelector('.population figcaption').textContent"
    check("words from the first picture on", browser.run(words).startswith("Population of generations 0 to"))
    check("what dies is known to the end", browser.until(lambda: "0 to 2,048: at most 2." in browser.run(words)))
    found = browser.wait_for(
        """
        const { Plot } = await import('/sources/pages/plot.js');
        const went = [];
        const plot = new Plot((at) => went.push(at));
        document.querySelector('main').append(plot.figure);
        const box = plot.canvas.getBoundingClientRect();
        const press = (share) => plot.canvas.dispatchEvent(
          new MouseEvent('click', { clientX: box.left + box.width * share }));
        plot.add(0, 7);
        press(1);
        plot.fill(0, Array(401).fill(3));
        press(0.5);
        press(1);
        await new Promise((resolve) => requestAnimationFrame(() => requestAnimationFrame(resolve)));
        return [went, plot.canvas.getAttribute('aria-label')];"""
    )
    same(
        "the axis is as long as what is known",
        found,
        [[16, 200, 400], "Population of generations 0 to 400: at most 7"],
    )


def whole_screen(_gateway: Gateway, browser: Browser, base: str, _folder: str) -> None:
    """The canvas and its controls fill the screen by a button and a key, and keys still work there."""
    browser.open(f"{base}/d/4")
    browser.one("#full").click()
    full = "return document.fullscreenElement?.className ?? null"
    check("a button", browser.until(lambda: browser.run(full) == "stage"))
    check(
        "the canvas and the controls are there",
        browser.run(
            """const [canvas, bar] = ['canvas.large', '.controls']
              .map((name) => document.querySelector(name).getBoundingClientRect());
            return canvas.height > innerHeight / 2 && bar.bottom <= innerHeight && canvas.width > innerWidth * 0.9"""
        ),
    )
    browser.press("\ue014")
    check("a step there", browser.until(lambda: browser.run(GENERATION) == 1))
    browser.picture("full-screen")
    browser.press("w")
    check("a key leaves it", browser.until(lambda: browser.run(full) is None))


PARTS = [made, compared, doubted, controls, counted, whole_screen, large]
