"""The parts of tests/test_web.py on comparing: whether two patterns are the same but for a move, a turn or a
reflection; two deposits side by side; and a deposit that has the cells of a new pattern.
"""
import os

import life
from browser import Browser
from clients import HERE, check, same
from gateways import Gateway
from pages import content, index, kept
from web_drawings import SEEN, later, runs_of

GUN = os.path.join(HERE, "..", "examples", "gosper-gun.rle")
# What each turn of tests/life.py is called.
NAMES = [
    "",
    "turned by 90°",
    "turned by 180°",
    "turned by 270°",
    "reflected left to right",
    "reflected top to bottom",
    "reflected in a diagonal",
    "reflected in the other diagonal",
]


def turned(cells: life.Cells, turn: int) -> life.Cells:
    return life.normal(frozenset(life.TURNS[turn](x, y) for x, y in cells))


def pattern_of(cells: life.Cells) -> dict[str, object]:
    """Cells as the pages have a pattern."""
    width, height = life.box(cells)
    return {"width": width, "height": height, "population": len(cells), "rows": runs_of(cells)}


def turns(_gateway: Gateway, browser: Browser, base: str, _folder: str) -> None:
    """Each of the eight turns is found, and no other pattern is taken for the same."""
    gun = life.read_file(content(GUN))[4]
    other = life.normal(frozenset(gun - {min(gun)} | {(17, 0)}))
    browser.open(f"{base}/find")
    between = (
        "const { turnBetween } = await import('/sources/patterns/turns.js');"
        "return words[1].map((other) => turnBetween(words[0], other));"
    )
    patterns = [pattern_of(turned(gun, turn)) for turn in range(8)]
    same("the turns", browser.wait_for(between, pattern_of(gun), patterns), NAMES)
    same("as many cells in as large a box", (len(other), life.box(other)), (len(gun), life.box(gun)))
    same("other cells", browser.wait_for(between, pattern_of(gun), [pattern_of(other)]), [None])


def shown(browser: Browser, place: int) -> set[tuple[int, int]]:
    """The cells on one of the two canvases, moved to the corner."""
    pixels = browser.wait_for(SEEN, f".compared section:nth-child({place}) canvas")
    left, top = (min(pixel[side] for pixel in pixels) for side in (0, 1)) if pixels else (0, 0)
    steps = [step for x, y in pixels for step in (x - left, y - top) if step > 0]
    size = min(steps, default=1)
    return {((x - left) // size, (y - top) // size) for x, y in pixels}


def side_by_side(gateway: Gateway, browser: Browser, base: str, _folder: str) -> None:
    """Two deposits run by one clock; the page says whether they are the same but for a turn."""
    gun = life.read_file(content(GUN))[4]
    texts = [life.file_text((None, None, (), life.LIFE, turned(gun, turn))) for turn in (0, 1)]
    numbers = [kept(gateway, f"compared-{at}", text) for at, text in enumerate(texts)]
    browser.open(f"{base}/d/{numbers[0]}/at/2")
    browser.until(lambda: browser.run("return document.getElementById('generation').value") == "2")
    browser.type("#compare-with", str(numbers[1]))
    browser.one("#compare").click()
    check("the form leads there", browser.at(f"/compare?one={numbers[0]}/at/2&other={numbers[1]}"))
    check("different cells", browser.until(lambda: browser.text("#verdict").startswith("Different: ")))
    browser.open(f"{base}/compare?one={numbers[0]}&other={numbers[1]}")
    turn = "The same cells, turned by 90°."
    check("the same but for a turn", browser.until(lambda: browser.text("#verdict") == turn))
    for _ in range(2):
        before = browser.text("#time")
        browser.one("#step").click()
        browser.until(lambda: browser.text("#time") != before)
    for place, text in enumerate(texts, 1):
        check(f"generation 2 of {place}", browser.until(lambda: shown(browser, place) == later(text, 2)))
    check("still the same", browser.until(lambda: browser.text("#verdict") == turn))
    browser.one("#play").click()
    browser.until(lambda: int(browser.text("#time")) > 5)
    browser.one("#play").click()
    check("the same after playing", browser.until(lambda: browser.text("#verdict") == turn))
    at = int(browser.text("#time"))
    check(f"generation {at}", browser.until(lambda: shown(browser, 2) == later(texts[1], at)))
    browser.open(f"{base}/compare?one=900000&other=1")
    check("no such deposit", browser.until(lambda: "no deposit with this number" in browser.text(".refusal")))
    browser.open(f"{base}/compare?one=1")
    check("only one", browser.until(lambda: "no such page" in browser.text(".refusal")))


def known(gateway: Gateway, browser: Browser, base: str, folder: str) -> None:
    """The page of a new deposit says that a deposit has the same cells, and how they are turned."""
    cells = life.normal(frozenset({(0, 0), (5, 0), (6, 2), (1, 7)}))
    number = kept(gateway, "known", life.file_text((b"Known", None, (), life.LIFE, cells)))
    check("an index", index(gateway, os.path.join(folder, "club.db")))
    browser.open(f"{base}/new")
    text = life.file_text((None, None, (), life.LIFE, turned(cells, 4))).decode()
    browser.type("#pattern", text)
    said = f"Deposit {number:,} has the same cells, reflected left to right."
    check("that is said", browser.until(lambda: browser.text("#same") == said))
    same("with a link", browser.one("#same a").get_attribute("href"), f"{base}/d/{number}")
    browser.type("#pattern", text.replace("B3/S23", "B36/S23"))
    browser.until(lambda: "B36/S23" in browser.text(".preview"))
    check("nothing of another rule", browser.wait_for("await new Promise((done) => setTimeout(done, 1500));") is None)
    same("it is not said", browser.text("#same"), "")
    browser.run("sessionStorage.clear()")


PARTS = [turns, side_by_side, known]
