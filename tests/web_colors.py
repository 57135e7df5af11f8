"""The parts of tests/test_web.py on colors: the ages of cells, and the theme.
"""
import life
from browser import Browser
from clients import check, same
from gateways import Gateway
from typing import Any
from pages import kept, told

GENERATION = "return Number(document.getElementById('generation').value)"
ENTER, OLDEST = "\ue007", 32
# Each cell that the large canvas shows, by its left upper pixel, with its color: what is neither dead nor grid. Between
# cells is a gap.
SHOWN = """
const { colors } = await import('/sources/drawing/draw.js');
await new Promise((resolve) => requestAnimationFrame(() => requestAnimationFrame(resolve)));
const canvas = document.querySelector('canvas.large');
const { width, height } = canvas;
const pixels = new Uint32Array(canvas.getContext('2d').getImageData(0, 0, width, height).data.buffer);
const { dead, grid } = colors();
const is = (at) => pixels[at] !== dead && pixels[at] !== grid;
const cells = [];
for (let at = 0; at < pixels.length; at += 1)
  if (is(at) && !is(at - 1) && !is(at - width)) cells.push([at % width, Math.floor(at / width), pixels[at]]);
return cells;
"""
COLORS = "const { colors } = await import('/sources/drawing/draw.js'); return colors();"


def channels(word: int) -> list[int]:
    return [word >> shift & 255 for shift in (0, 8, 16)]


def luminance(word: int) -> float:
    parts = [part / 255 for part in channels(word)]
    red, green, blue = [part / 12.92 if part <= 0.03928 else ((part + 0.055) / 1.055) ** 2.4 for part in parts]
    return float(0.2126 * red + 0.7152 * green + 0.0722 * blue)


def contrast(one: int, other: int) -> float:
    bright, dark = sorted((luminance(one), luminance(other)), reverse=True)
    return (bright + 0.05) / (dark + 0.05)


def colored(browser: Browser) -> dict[tuple[int, int], int]:
    """The cells that are shown, moved to the corner, each with its color."""
    cells = browser.wait_for(SHOWN)
    if len(cells) < 2:
        return {}
    left, top = min(x for x, _, _ in cells), min(y for _, y, _ in cells)
    size = min(step for step in {x - left for x, _, _ in cells} | {y - top for _, y, _ in cells} if step > 0)
    return {((x - left) // size, (y - top) // size): color for x, y, color in cells}


def aged(text: bytes, last: int) -> list[dict[tuple[int, int], int]]:
    """For each generation up to a last one its cells with their ages, moved to the corner."""
    rule, cells = life.read_file(text)[3:]
    ages, found = {cell: 1 for cell in cells}, []
    for _ in range(last + 1):
        left, top = life.corner(frozenset(ages))
        found.append({(x - left, y - top): min(age, OLDEST) for (x, y), age in ages.items()})
        ages = {cell: ages.get(cell, 0) + 1 for cell in life.following(rule, frozenset(ages))}
    return found


def is_colored(shown: Any, ages: Any, of_age: Any, wanted: Any) -> Any:
    """Whether cells are shown in one color for each age, which is the same in all generations that were seen: these are
    then in `of_age`."""
    if set(shown) != set(ages):
        return False
    all_of_age = dict(of_age)
    for cell, age in ages.items():
        if all_of_age.setdefault(age, shown[cell]) != shown[cell]:
            return False
    if (
        len(set(all_of_age.values())) < len(all_of_age)
        or all_of_age.get(1, wanted["young"]) != wanted["young"]
        or all_of_age.get(OLDEST, wanted["old"]) != wanted["old"]
    ):
        return False
    of_age.update(all_of_age)
    return True


def ages(gateway: Gateway, browser: Browser, base: str, _folder: str) -> None:
    """Cells are colored by their age if one wishes: after steps, after leaps, back, and after playing; and that is
    kept."""
    number = kept(gateway, "aged", b"#N Aged\nx = 9, y = 3\nbo4b3o$2o$b2o!\n")
    wanted = aged(told(gateway, f"/deposits/{number}"), 90)
    of_age: dict[int, int] = {}
    browser.screen(1100, 900, "light")
    browser.open(f"{base}/d/{number}")
    browser.until(lambda: set(colored(browser)) == set(wanted[0]))
    named = browser.wait_for(COLORS)
    same("at first all cells have one color", set(colored(browser).values()), {named["live"]})
    browser.one("#ages").click()
    check("the ages of generation 0", browser.until(lambda: is_colored(colored(browser), wanted[0], of_age, named)))
    for at in (1, 2):
        browser.one("#step").click()
        check(
            f"the ages of generation {at} after a step",
            browser.until(
                lambda: browser.run(GENERATION) == at and is_colored(colored(browser), wanted[at], of_age, named)
            ),
        )
    for at in (90, 40, 39, 7, 70):
        browser.type("#generation", f"{at}{ENTER}")
        check(
            f"the ages of generation {at} after a leap",
            browser.at(f"/at/{at}") and browser.until(lambda: is_colored(colored(browser), wanted[at], of_age, named)),
        )
    browser.type("#run-to", "85")
    browser.one("#run").click()
    check(
        "the ages after playing",
        browser.at("/at/85") and browser.until(lambda: is_colored(colored(browser), wanted[85], of_age, named)),
    )
    check(f"{len(of_age)} ages were seen, the oldest too", len(of_age) > 12 and OLDEST in of_age)
    far = [
        sum(abs(one - other) for one, other in zip(channels(of_age[age]), channels(int(named["young"]))))
        for age in sorted(of_age)
    ]
    check("the older, the further from the color of young ones", far == sorted(far) and len(set(far)) > len(far) / 2)
    browser.picture("ages")
    browser.open(f"{base}/d/{number}/at/85")
    check(
        "it is kept",
        browser.run("return document.getElementById('ages').checked")
        and browser.until(lambda: is_colored(colored(browser), wanted[85], of_age, named)),
    )
    browser.one("#ages").click()
    check("and is not, if it is not wanted", browser.until(lambda: set(colored(browser).values()) == {named["live"]}))
    browser.open(f"{base}/d/{number}/at/85")
    check(
        "that is kept, too",
        not browser.run("return document.getElementById('ages').checked")
        and browser.until(lambda: set(colored(browser).values()) == {named["live"]}),
    )


BACK = "return getComputedStyle(document.documentElement).backgroundColor"
# The theme at the moment at which the page's body begins.
EARLY = """
new MutationObserver((_, watch) => {
  if (!document.body) return;
  window.early = document.documentElement.dataset.theme;
  watch.disconnect();
}).observe(document, { childList: true, subtree: true });
"""


def themes(_gateway: Gateway, browser: Browser, base: str, _folder: str) -> None:
    """The theme is the system's, or what is chosen, from the first drawing on, in each window, also of what is on the
    page."""
    seen = {}
    watching = browser.driver.execute_cdp_cmd("Page.addScriptToEvaluateOnNewDocument", {"source": EARLY})
    for scheme in ("light", "dark"):
        browser.screen(1100, 900, scheme)
        browser.open(f"{base}/d/4")
        same(f"as the system: {scheme}", browser.run("return document.getElementById('theme').value"), "system")
        seen[scheme] = browser.run(BACK), browser.wait_for(COLORS)
        named = seen[scheme][1]
        low = min(contrast(named[name], named["dead"]) for name in ("live", "young", "old"))
        check(f"cells are seen in {scheme}: {low:.2f}", low >= 3)
    check(
        "the themes differ",
        seen["light"][0] != seen["dark"][0]
        and all(seen["light"][1][name] != seen["dark"][1][name] for name in seen["dark"][1]),
    )
    for chosen, scheme in (("light", "dark"), ("dark", "light")):
        browser.screen(1100, 900, scheme)
        browser.open(f"{base}/d/4")
        browser.until(lambda: len(browser.wait_for(SHOWN)) > 30)
        browser.run(
            "const theme = document.getElementById('theme'); theme.value = arguments[0]; "
            "theme.dispatchEvent(new Event('change'))",
            chosen,
        )
        same(f"{chosen} is chosen where the system is {scheme}", browser.run(BACK), seen[chosen][0])
        check(
            f"the canvas is {chosen}, too",
            browser.until(lambda: {color for _, _, color in browser.wait_for(SHOWN)} == {seen[chosen][1]["live"]}),
        )
        same(
            f"controls are {chosen}",
            browser.run("return getComputedStyle(document.documentElement).colorScheme"),
            chosen,
        )
        browser.open(f"{base}/find")
        same(
            f"{chosen} is kept",
            (browser.run(BACK), browser.run("return document.getElementById('theme').value")),
            (seen[chosen][0], chosen),
        )
        same(f"{chosen} is set before anything can be drawn", browser.run("return window.early"), chosen)
    browser.screen(1100, 900, "dark")
    same("a change of the system does not change what is chosen", browser.run(BACK), seen["dark"][0])
    browser.run("localStorage.removeItem('theme'); dispatchEvent(new StorageEvent('storage'))")
    same(
        "what another window chose is here, too", browser.run("return document.getElementById('theme').value"), "system"
    )
    browser.screen(1100, 900, "light")
    check("without a choice it is the system's again", browser.until(lambda: browser.run(BACK) == seen["light"][0]))
    browser.driver.execute_cdp_cmd("Page.removeScriptToEvaluateOnNewDocument", watching)
    browser.screen()


PARTS = [ages, themes]
