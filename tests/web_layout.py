"""The parts of tests/test_web.py on the layout: nothing jumps while a page loads, and what matters is seen without
scrolling, in windows of several sizes.
"""
from browser import Browser
from clients import check, same
from gateways import Gateway

# Windows of a desk, and phones, upright and on their side.
WINDOWS = [(1280, 720), (1366, 768), (1280, 900), (1024, 768)]
PHONES = [(390, 844), (412, 915)]
ON_ITS_SIDE = (844, 390)
# At most so much of the window may move while a page loads: what web.dev calls a good layout shift.
MOST_SHIFT = 0.1
PATHS = ["/", "/d", "/d/4", "/d/of/ann", "/c", "/c/1", "/o", "/o/B3-S23/xq4_153", "/find", "/about", "/new", "/haul"]
PATHS += ["/compare?one=4&other=1", "/l", "/l/~Lesson_3,4~A_gun,1,2at1"]
OBSERVE = """
window.shifts = [];
new PerformanceObserver((list) => shifts.push(...list.getEntries())).observe({ type: 'layout-shift', buffered: true });
"""
SHIFT = "return shifts.filter((one) => !one.hadRecentInput).reduce((sum, one) => sum + one.value, 0)"
BOTTOM = "return document.querySelector(arguments[0]).getBoundingClientRect().bottom"


def still(_gateway: Gateway, browser: Browser, base: str, _folder: str) -> None:
    """While a page loads, hardly anything that is seen moves: after its address was typed, and after a link."""
    for path in PATHS:
        browser.open(base + path)
        browser.run(OBSERVE)
        browser.settled()
        shift = browser.run(SHIFT)
        check(f"{path} shifts by {shift}", shift < MOST_SHIFT)
    for path in PATHS:
        browser.run("shifts.length = 0")
        browser.go(base + path)
        browser.settled()
        shift = browser.run(SHIFT)
        check(f"{path} shifts by {shift} after a link", shift < MOST_SHIFT)


def proof(_gateway: Gateway, browser: Browser, base: str, _folder: str) -> None:
    """The mark that says whose answer is shown is above the fold, even after some generations. Press it for more."""
    for width, height in [*WINDOWS, *PHONES]:
        browser.screen(width, height)
        browser.open(f"{base}/d/4")
        browser.until(lambda: "own answer" in browser.text(".source"))
        browser.one("#play").click()
        browser.until(lambda: int(browser.run("return document.getElementById('generation').value")) > 5)
        browser.one("#play").click()
        browser.until(lambda: "it matched" in browser.text(".source"))
        bottom = browser.run(BOTTOM, ".source")
        check(f"the mark ends at {bottom} of {height}, {width} wide", bottom <= height)
        at = browser.run("return document.getElementById('generation').value")
        same("what it says", browser.text(".source summary"), f"✓ Proved: generation {at}")
        check("no more until it is pressed", not browser.one(".source p").is_displayed())
        browser.one(".source summary").click()
        check("more once it is pressed", browser.one(".source a[href='/about#proof']").is_displayed())
    browser.screen()


def on_its_side(_gateway: Gateway, browser: Browser, base: str, _folder: str) -> None:
    """On a phone on its side, and in a small window, the pattern, Play and the mark are seen together."""
    for width, height in (ON_ITS_SIDE, (1280, 720)):
        browser.screen(width, height)
        browser.open(f"{base}/d/4")
        bottom = browser.run(BOTTOM, "#play")
        check(f"Play ends at {bottom} of {height}", bottom <= height)
        top = browser.run("return document.querySelector('canvas.large').getBoundingClientRect().height")
        check(f"the canvas has {top} of {height}", top >= 120)
        bottom = browser.run(BOTTOM, ".source")
        check(f"the mark ends at {bottom} of {height}", bottom <= height)
    browser.screen(*ON_ITS_SIDE)
    browser.run("sessionStorage.clear()")
    browser.open(f"{base}/new")
    bottom = browser.run(BOTTOM, "#drawing")
    check(f"the drawing of the form ends at {bottom} of {ON_ITS_SIDE[1]}", 0 < bottom <= ON_ITS_SIDE[1])
    browser.screen()


def depositing(_gateway: Gateway, browser: Browser, base: str, _folder: str) -> None:
    """With a pattern in the form, its drawing and the button are seen together; on a phone the drawing and the
    text."""
    for width, height in WINDOWS:
        browser.screen(width, height)
        browser.open(f"{base}/new")
        browser.type("#pattern", "#C A row\nx = 3, y = 1\n3o!")
        browser.until(lambda: "3 cells" in browser.text(".preview"))
        browser.run("scrollTo(0, 0)")
        for name, selector in (("button", "#send"), ("drawing", "#drawing")):
            bottom = browser.run(BOTTOM, selector)
            check(f"the {name} ends at {bottom} of {height}, {width} wide", 0 < bottom <= height)
    for width, height in PHONES:
        browser.screen(width, height)
        browser.open(f"{base}/new")
        browser.type("#pattern", "#C A row\nx = 3, y = 1\n3o!")
        browser.until(lambda: "3 cells" in browser.text(".preview"))
        browser.run("scrollTo(0, 150)")
        top = browser.run("return document.querySelector('#drawing').getBoundingClientRect().top")
        bottom = browser.run(BOTTOM, "#pattern")
        check(f"the drawing begins at {top}, and the text ends at {bottom} of {height}", 0 <= top < bottom <= height)
    browser.screen()
    browser.run("sessionStorage.clear()")


PARTS = [still, proof, on_its_side, depositing]
