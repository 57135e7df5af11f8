"""The parts of tests/test_web.py on what a designer and a phone found: one row to share, one screen to deposit, tables,
an object's page, colors, the head of a phone, and waits that are said.
"""
from typing import Any

from browser import Browser
from clients import check, same
from gateways import Gateway

BOX = """
const { left, top, right, bottom } = document.querySelector(arguments[0]).getBoundingClientRect();
return [left, top, right, bottom];
"""
STYLE = "return getComputedStyle(document.querySelector(arguments[0])).getPropertyValue(arguments[1])"
# The texts that a label had, from the moment on when it is watched.
WATCHED = """
window.texts = [];
new MutationObserver(() => window.texts.push(document.querySelector('label[for=ages]').textContent))
  .observe(document.querySelector('label[for=ages]'), { childList: true, subtree: true });
const post = Worker.prototype.postMessage;
Worker.prototype.postMessage = function (...words) { setTimeout(() => post.apply(this, words), 600); };
"""


def box(browser: Browser, selector: str) -> Any:
    """The left, the top, the right and the bottom of an element in the window."""
    return browser.run(BOX, selector)


def shared(_gateway: Gateway, browser: Browser, base: str, _folder: str) -> None:
    """Below a deposit one row shares it; downloads and the census are folded."""
    browser.open(f"{base}/d/4")
    labels = browser.run(
        "return [...document.querySelectorAll('.share > .row > button')].map((one) => one.textContent)"
    )
    wanted = ["Copy the address", "Copy as RLE", "Copy for the forum", "Edit", "Print", "Add to a collection"]
    same("what shares a deposit", labels, wanted)
    tops = {browser.run("return arguments[0].offsetTop", one) for one in browser.all(".share > .row > button")}
    same("one row", len(tops), 1)
    left, first = (box(browser, selector)[0] for selector in (".share .inline label", ".share .row button"))
    same("Compare begins below the first", left, first)
    folded = browser.run("return ['download', 'census'].map((id) => document.getElementById(id).open)")
    same("what is folded", folded, [False, False])


def deposited(_gateway: Gateway, browser: Browser, base: str, _folder: str) -> None:
    """The form has buttons of the site for files, says that a deposit stays, and says in sight that it is sending."""
    browser.screen(1280, 720)
    browser.open(f"{base}/new")
    for field in ("#file", "#folder"):
        same(f"no button of the system for {field}", browser.run(STYLE, field, "clip-path"), "inset(50%)")
    check("its own buttons", browser.one("label[for=folder].button").is_displayed())
    check("a deposit stays", "can’t be changed or deleted" in browser.one("#send + .hint").text)
    browser.type("#pattern", "x = 3, y = 1\n3o!")
    browser.type("#member", "ann")
    browser.run("window.fetch = () => new Promise(() => {})")
    browser.one("#send").click()
    check("that it sends", browser.until(lambda: browser.text("#sent") == "Sending…"))
    bottom = box(browser, "#sent")[3]
    check(f"that is seen, at {bottom}", 0 < bottom <= 720)
    browser.run("sessionStorage.clear()")
    browser.screen()


def objects(_gateway: Gateway, browser: Browser, base: str, _folder: str) -> None:
    """An object's page begins with the name, has its picture left of its facts, and no line for a shell."""
    browser.screen(1280, 720)
    browser.open(f"{base}/o/B3-S23/xq4_153")
    same("the name comes first", browser.run("return document.querySelector('h1').firstChild.textContent"), "glider")
    browser.until(lambda: browser.all(".object .picture button"))
    picture, facts = box(browser, ".object .picture"), box(browser, ".object .facts")
    check(f"the picture is left of the facts: {picture}, {facts}", picture[2] <= facts[0] and facts[1] < picture[3])
    check("Play is at the picture", browser.all(".object .picture button, .object > :first-child button"))
    check("no shell", "life-draw" not in browser.text("main") and "$ " not in browser.text("main"))
    browser.screen()


def found(_gateway: Gateway, browser: Browser, base: str, _folder: str) -> None:
    """The page that searches has one form."""
    browser.open(f"{base}/find")
    same("forms", len(browser.all("main form")), 1 if browser.all("form.search") else 0)


def tables(_gateway: Gateway, browser: Browser, base: str, _folder: str) -> None:
    """Columns of a table are 2rem apart, and numbers are in the text's face with figures of one width."""
    browser.screen(1280, 720)
    browser.open(f"{base}/c/1")
    same("between columns", browser.run(STYLE, ".census tbody th", "padding-inline-end"), "32px")
    same("figures", browser.run(STYLE, ".census .number", "font-variant-numeric"), "tabular-nums")
    faces = [browser.run(STYLE, selector, "font-family") for selector in (".census .number", "body")]
    same("their face", faces[0], faces[1])
    browser.screen()


def colors(_gateway: Gateway, browser: Browser, base: str, _folder: str) -> None:
    """Boxes that are ticked have the color of the site. The place of the scrollbar is kept."""
    browser.open(f"{base}/d/4")
    accent = browser.run(STYLE, "#grid", "accent-color")
    check(f"the accent is {accent}", accent == browser.run(STYLE, ".source summary", "color"))
    same("the scrollbar", browser.run(STYLE, "html", "scrollbar-gutter"), "stable")


def phone(_gateway: Gateway, browser: Browser, base: str, _folder: str) -> None:
    """On a phone the logo and the search are in one row, a field is not enlarged when it is pressed, and what is about
    keys is hidden where there are none."""
    for width, most in ((390, 100), (320, 125)):
        browser.screen(width, 844)
        browser.open(f"{base}/new")
        logo, search, links = (box(browser, selector) for selector in ("header .home", "#box", "header nav"))
        check(f"one row at {width}: {logo}, {search}", search[1] < logo[3] and logo[2] <= search[0] <= width - 100)
        check(f"the head ends at {links[3]} at {width}", links[3] <= most)
        small = browser.run(
            "return [...document.querySelectorAll('input:not([type=file], [type=checkbox]), textarea, select')]"
            ".filter((one) => parseFloat(getComputedStyle(one).fontSize) < 16).map((one) => one.id)"
        )
        same(f"small fields at {width}", small, [])
    if browser.run("return matchMedia('(hover: none)').matches"):
        check("no choice about keys", not browser.one("#letters").is_displayed())
    browser.screen()


def counting(_gateway: Gateway, browser: Browser, base: str, _folder: str) -> None:
    """A census that takes long says so, in sight."""
    browser.open(f"{base}/d/4")
    browser.unfold()
    browser.type("#census-member", "ann")
    browser.run("window.fetch = () => new Promise(() => {})")
    browser.one("#count").click()
    check("that it counts", browser.until(lambda: browser.text("#census .waiting") == "Counting…"))


def counted(_gateway: Gateway, browser: Browser, base: str, _folder: str) -> None:
    """Ages that take long say so."""
    browser.open(f"{base}/d/4/at/40")
    browser.run(WATCHED)
    browser.one("#ages").click()
    check(
        "they are counted", browser.until(lambda: browser.run("return window.texts.join()") == "Counting…,Color by age")
    )
    browser.one("#ages").click()
    browser.run("localStorage.clear()")


PARTS = [shared, deposited, objects, found, tables, colors, phone, counting, counted]
