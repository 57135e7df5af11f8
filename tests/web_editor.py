"""The parts of tests/test_web.py on drawing: cells by mouse, touch and keys; selections that are moved, turned and
copied; and that the text and the drawing are always the same pattern.
"""
import os
import re
from collections.abc import Iterable

import life
from browser import Browser
from clients import HERE, check, same
from gateways import Gateway
from pages import content, kept, told

GUN = os.path.join(HERE, "..", "examples", "gosper-gun.rle")
SHIFT, CONTROL, SPACE = "\ue008", "\ue009", " "
LEFT, UP, RIGHT, DOWN, ESCAPE, DELETE = "\ue012", "\ue013", "\ue014", "\ue015", "\ue00c", "\ue017"
# The pixels of a cell of an empty drawing.
CELL = 24
GLIDER = {(1, 0), (2, 1), (0, 2), (1, 2), (2, 2)}
TEXT = "return document.getElementById('pattern').value"
# The middle of the drawing in the window: there is the corner of cell (0, 0) of an empty one.
MIDDLE = """
const box = document.getElementById('drawing').getBoundingClientRect();
return [box.x + document.getElementById('drawing').clientLeft + document.getElementById('drawing').clientWidth / 2,
  box.y + document.getElementById('drawing').clientTop + document.getElementById('drawing').clientHeight / 2];
"""
Cell = tuple[int, int]


def point(browser: Browser, cell: Cell) -> tuple[float, float]:
    """Where a cell of a drawing that was empty is in the window."""
    x, y = browser.run(MIDDLE)
    return x + (cell[0] + 0.5) * CELL, y + (cell[1] + 0.5) * CELL


def drag(browser: Browser, *cells: Cell) -> None:
    """Presses the mouse on the first cell, moves it over the others, and releases it."""
    kinds = ["mousePressed", *["mouseMoved"] * (len(cells) - 1), "mouseReleased"]
    for kind, cell in zip(kinds, [*cells, cells[-1]]):
        x, y = point(browser, cell)
        words = {"type": kind, "x": x, "y": y, "button": "left", "buttons": 1, "clickCount": 1}
        browser.driver.execute_cdp_cmd("Input.dispatchMouseEvent", words)


def touch(browser: Browser, kind: str, points: Iterable[tuple[float, float]]) -> None:
    browser.driver.execute_cdp_cmd(
        "Input.dispatchTouchEvent", {"type": kind, "touchPoints": [{"x": x, "y": y} for x, y in points]}
    )


def tap(browser: Browser, cell: Cell) -> None:
    touch(browser, "touchStart", [point(browser, cell)])
    touch(browser, "touchEnd", [])


def cells_in(browser: Browser) -> set[Cell]:
    """The cells of the text, moved to the corner; none if it is empty."""
    text = str(browser.run(TEXT))
    return set(life.read_file(text.encode())[4]) if text else set()


def draws(browser: Browser, name: str, cells: Iterable[Cell]) -> None:
    """Checks that the text soon has these cells, wherever they are."""
    wanted = set(life.normal(cells))
    check(f"{name}: {sorted(cells_in(browser))}", browser.until(lambda: cells_in(browser) == wanted))


def opened(browser: Browser, base: str) -> None:
    """A form with an empty drawing."""
    browser.open(f"{base}/new")
    browser.run("sessionStorage.clear()")
    browser.open(f"{base}/new")
    browser.one("#drawing")
    browser.run("scrollTo(0, 0)")


def newcomer(gateway: Gateway, browser: Browser, base: str, _folder: str) -> None:
    """From the first page: New, five cells, a name, Deposit. The drawing is seen at once, on a phone too."""
    for width, height in ((1280, 720), (390, 844), (844, 390)):
        browser.screen(width, height)
        browser.open(f"{base}/")
        browser.one("header a[href='/new']").click()
        browser.at("/new")
        browser.run("sessionStorage.clear()")
        x, y = point(browser, (0, 0))
        check(f"the drawing is seen on {width} by {height}", 0 < x < width and 0 < y < height)
    browser.screen(390, 844)
    opened(browser, base)
    for cell in sorted(GLIDER):
        tap(browser, cell)
    draws(browser, "five taps", GLIDER)
    browser.type("#text-name", "First")
    browser.type("#member", "ann")
    browser.one("#send").click()
    check("it is deposited", browser.until(lambda: browser.text("h1").startswith("First deposit")))
    number = browser.run("return location.pathname.split('/')[2]")
    same("what is kept", told(gateway, f"/deposits/{number}"), b"#N First\nx = 3, y = 3, rule = B3/S23\nbo$2bo$3o!\n")
    browser.screen()


def one_thing(gateway: Gateway, browser: Browser, base: str, _folder: str) -> None:
    """The text and the drawing are one pattern: each follows the other, and comments and the rule stay."""
    opened(browser, base)
    for cell in sorted(GLIDER):
        drag(browser, cell)
    draws(browser, "five clicks", GLIDER)
    check("it is said", browser.until(lambda: "5 cells, 3 by 3, B3/S23" in browser.text(".preview")))
    drag(browser, (1, 0))
    draws(browser, "a live cell is erased", GLIDER - {(1, 0)})
    drag(browser, (-3, 5), (3, 5))
    draws(browser, "a line", GLIDER - {(1, 0)} | {(x, 5) for x in range(-3, 4)})
    browser.one("#draw-undo").click()
    browser.one("#draw-undo").click()
    draws(browser, "undone twice", GLIDER)
    browser.one("#draw-redo").click()
    draws(browser, "and redone", GLIDER - {(1, 0)})
    browser.one("#draw-eraser").click()
    drag(browser, (0, 2), (2, 2))
    draws(browser, "the eraser", {(2, 1)})
    same("a name that is typed stays", typed_name(browser), "Two")
    browser.type("#pattern", "#C Kept\nx = 2, y = 1, rule = B36/S23\n2o!")
    check("the text is drawn", browser.until(lambda: "2 cells, 2 by 1, B36/S23" in browser.text(".preview")))
    browser.one("#draw-copy").click()
    check("what is copied has the rule", "rule = B36/S23\n" in str(browser.run("return sessionStorage.copied")))
    browser.one("#draw-columns").click()
    browser.one("#draw-clear").click()
    same("lines of the text stay", browser.run(TEXT), "#C Kept\nx = 0, y = 0, rule = B36/S23\n!\n")
    browser.one("#draw-undo").click()
    same("and its cells are back", browser.run(TEXT), "#C Kept\nx = 2, y = 1, rule = B36/S23\n2o!\n")
    browser.type("#pattern", "x = 2, y = 1\n2o")
    check(
        "a text with a fault hides the drawing",
        browser.until(lambda: browser.text(".preview .refusal")) and not browser.one("#drawing").is_displayed(),
    )


def typed_name(browser: Browser) -> str:
    """Types a name, draws a cell and erases it, and returns the name."""
    browser.type("#text-name", "Two")
    browser.one("#draw-pencil").click()
    drag(browser, (5, 5))
    browser.one("#draw-undo").click()
    return str(browser.run("return document.getElementById('text-name').value"))


def selections(_gateway: Gateway, browser: Browser, base: str, _folder: str) -> None:
    """A box is selected; its cells are moved, turned, reflected, copied, pasted and deleted. What they covered is there
    again."""
    opened(browser, base)
    for cell in sorted(GLIDER):
        drag(browser, cell)
    drag(browser, (5, 0))
    browser.one("#draw-select").click()
    drag(browser, (-1, -1), (3, 3))
    browser.one("#draw-turn").click()
    # The box has five columns and rows, from -1 on.
    turned = {(-1 + 4 - (y + 1), -1 + (x + 1)) for x, y in GLIDER}
    draws(browser, "turned clockwise", turned | {(5, 0)})
    browser.one("#draw-rows").click()
    browser.one("#draw-columns").click()
    reflected = {(2 - x, 2 - y) for x, y in turned}
    draws(browser, "reflected twice", reflected | {(5, 0)})
    drag(browser, (0, 0), (4, 1))
    draws(browser, "moved over another cell", {(x + 4, y + 1) for x, y in reflected} | {(5, 0)})
    drag(browser, (4, 1), (0, 0))
    draws(browser, "and back", reflected | {(5, 0)})
    browser.one("#draw-copy").click()
    browser.one("#draw-clear").click()
    draws(browser, "deleted", {(5, 0)})
    browser.one("#draw-paste").click()
    check("pasted", browser.until(lambda: len(cells_in(browser)) in (5, 6)))
    browser.one("#drawing").send_keys(ESCAPE)
    browser.one("#draw-undo").click()
    draws(browser, "the paste is undone", {(5, 0)})


def keys(_gateway: Gateway, browser: Browser, base: str, _folder: str) -> None:
    """Everything by keys: a glider, a selection that is moved and turned, a copy, undo."""
    opened(browser, base)
    drawing = browser.one("#drawing")
    drawing.send_keys(LEFT)
    drawing.send_keys(SPACE, RIGHT, SPACE, DOWN, SPACE)
    draws(browser, "three cells by keys", {(0, 0), (1, 0), (1, 1)})
    check("the cell is said", browser.until(lambda: "cell" in browser.text("#status")))
    drawing.send_keys(UP, LEFT)
    check("the cursor is said", browser.until(lambda: browser.text("#status").endswith("row 0: live")))
    drawing.send_keys(SHIFT, DOWN, SHIFT)
    drawing.send_keys("h")
    draws(browser, "a column of one cell reflected", {(0, 0), (1, 0), (1, 1)})
    drawing.send_keys("v")
    draws(browser, "and up and down", {(0, 1), (1, 0), (1, 1)})
    drawing.send_keys(CONTROL, LEFT, CONTROL)
    draws(browser, "moved by a key", {(-1, 1), (1, 0), (1, 1)})
    drawing.send_keys(CONTROL, "z", CONTROL)
    draws(browser, "undone by a key", {(0, 1), (1, 0), (1, 1)})
    drawing.send_keys(CONTROL, "a", CONTROL)
    drawing.send_keys("r")
    draws(browser, "all turned by a key", {(1 - y, x) for x, y in ((0, 1), (1, 0), (1, 1))})
    drawing.send_keys(DELETE)
    same("all deleted by a key", browser.run(TEXT), "")
    check("the keys are listed", "draw or erase its cell" in browser.text("#keys"))
    browser.go("/find")
    browser.at("/find")
    check("only while there is a drawing", "draw or erase" not in browser.text("#keys"))


def fingers(_gateway: Gateway, browser: Browser, base: str, _folder: str) -> None:
    """Two fingers draw nothing: they zoom and move."""
    browser.screen(390, 844)
    opened(browser, base)
    (x, y), away = point(browser, (0, 0)), 40
    touch(browser, "touchStart", [(x, y)])
    touch(browser, "touchStart", [(x, y), (x + away, y)])
    for step in range(1, 6):
        touch(browser, "touchMove", [(x, y - 4 * step), (x + away + 16 * step, y - 4 * step)])
    touch(browser, "touchEnd", [])
    same("nothing is drawn by two fingers", browser.run(TEXT), "")
    tap(browser, (0, 0))
    check("a tap draws after that", browser.until(lambda: len(cells_in(browser)) == 1))
    browser.screen()


def parts_of_a_gun(gateway: Gateway, browser: Browser, base: str, _folder: str) -> None:
    """Two parts of a gun, each a deposit, are put together and deposited: one is edited, the other one copied."""
    gun = set(life.read_file(content(GUN))[4])
    halves = [{cell for cell in gun if cell[0] < 18}, {cell for cell in gun if cell[0] >= 18}]
    numbers = [
        kept(gateway, f"half-{at}", life.file_text((None, None, (), life.LIFE, life.normal(half))))
        for at, half in enumerate(halves)
    ]
    browser.open(f"{base}/d/{numbers[1]}")
    browser.until(lambda: browser.text(".source"))
    browser.run("[...document.querySelectorAll('button')].find((one) => one.textContent === 'Copy as RLE').click()")
    browser.go(f"/d/{numbers[0]}")
    browser.at(f"/d/{numbers[0]}")
    browser.one("#edit").click()
    check("the form has the first part", browser.at("/new"))
    draws(browser, "the first part", halves[0])
    check("it says where it is from", f"#C Deposit {numbers[0]}, {base}/d/{numbers[0]}\n" in browser.run(TEXT))
    # The cursor goes to the corner of the second part, so that it is pasted there.
    left, top = (min(cell[side] for cell in halves[0]) for side in (0, 1))
    corner = min(x for x, _ in halves[1]) - left, min(y for _, y in halves[1]) - top
    drawing = browser.one("#drawing")
    drawing.send_keys(RIGHT)
    browser.until(lambda: browser.text("#status").startswith("Column"))
    column, row = (int(number) for number in re.findall("-?[0-9]+", browser.text("#status")))
    for steps, (more, less) in ((corner[0] - column, (RIGHT, LEFT)), (corner[1] - row, (DOWN, UP))):
        drawing.send_keys((more if steps > 0 else less) * abs(steps))
    browser.one("#draw-paste").click()
    draws(browser, "a gun of two parts", gun)
    browser.type("#text-name", "Gun of two parts")
    browser.type("#member", "ann")
    browser.one("#send").click()
    check("the gun is deposited", browser.until(lambda: browser.text("h1").startswith("Gun of two parts")))
    number = browser.run("return location.pathname.split('/')[2]")
    same("its cells", set(life.read_file(told(gateway, f"/deposits/{number}"))[4]), set(life.normal(gun)))


PARTS = [newcomer, one_thing, selections, keys, fingers, parts_of_a_gun]
