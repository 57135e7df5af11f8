"""The parts of tests/test_web.py on the first page: the pattern that plays there, the club's choice, and the way of a
pupil from there to a first deposit.
"""
import os
from collections.abc import Iterator
from contextlib import contextmanager
from typing import Any

from browser import Browser
from clients import check, note, same
from gateways import Gateway
from pages import asked, kept, told
from web_editor import CELL, MIDDLE
from web_layout import MOST_SHIFT, OBSERVE, SHIFT

FIRST_PORT = 10800
FILES = ["#N Blinker\nx = 3, y = 1\n3o!", "#N Glider\nx = 3, y = 3\nbo$2bo$3o!", "#N Toad\nx = 4, y = 2\nb3o$3o!"]
CARDS = "return [...document.querySelectorAll('#chosen li')].map((one) => one.innerText.trim().split('\\n'))"
HREFS = "return [...document.querySelectorAll('#chosen a')].map((one) => one.getAttribute('href'))"
# A number for what the canvas shows.
PICTURE = """
const canvas = document.getElementById('playing');
const { data } = canvas.getContext('2d').getImageData(0, 0, canvas.width, canvas.height);
return new Uint32Array(data.buffer).reduce((sum, pixel, at) => (pixel & 128 ? sum : (31 * sum + at) % 1e9), 0);
"""
# Whether an element is seen, with nothing over it.
IS_SEEN = """
const box = arguments[0].getBoundingClientRect();
const found = document.elementFromPoint(box.x + box.width / 2, box.y + box.height / 2);
return box.width > 0 && (arguments[0].contains(found) || found?.contains(arguments[0]) === true);
"""


@contextmanager
def club(folder: str, name: str, *settings: str) -> Iterator[tuple[Gateway, str]]:
    """An archive with three patterns, and its address."""
    gateway = Gateway(os.path.join(folder, f"{name}.db"), FIRST_PORT, *settings, seconds=900)
    try:
        for at, text in enumerate(FILES):
            kept(gateway, f"d{at}", text.encode())
        yield gateway, f"http://127.0.0.1:{gateway.port}"
    finally:
        gateway.end()


def moves(browser: Browser) -> bool:
    """Whether what the canvas shows changes soon."""
    browser.one("#playing")
    before = browser.run(PICTURE)
    return bool(browser.until(lambda: browser.run(PICTURE) != before))


def rests(browser: Browser) -> bool:
    """Whether the canvas shows the same for some generations."""
    before = browser.run(PICTURE)
    browser.wait_for("await new Promise((done) => setTimeout(done, 600))")
    return bool(browser.run(PICTURE) == before)


def chosen(_gateway: Gateway, browser: Browser, _base: str, folder: str) -> None:
    """The first of the club's choice plays beside the heading; the others are listed before the newest. Nothing moves
    while that loads."""
    list_ = "/l/~Of_our_club,2~It_flies,3at1~Later.2C_.22x.22,1"
    with club(folder, "chosen", f"CHOSEN={list_}") as (gateway, base):
        for width, height in ((1280, 720), (390, 844)):
            browser.screen(width, height)
            browser.open(f"{base}/")
            browser.run(OBSERVE)
            check("it plays", moves(browser))
            shift = browser.run(SHIFT)
            check(f"the first page shifts by {shift} at {width}", shift < MOST_SHIFT)
            check("Play is seen", browser.run(IS_SEEN, browser.one("#play-it")))
            check("Deposit yours is seen", browser.run(IS_SEEN, browser.one("#deposit-yours")))
        browser.screen(1280, 720)
        browser.open(f"{base}/")
        headings = [one.text for one in browser.all("h1, h2")]
        same("the order", headings[1:3], ["Of our club", "Newest deposits"])
        wanted = [["Glider", "No. 2"], ['Later, "x"', "No. 3, generation 1"], ["Blinker", "No. 1"]]
        check("the cards", browser.until(lambda: browser.run(CARDS) == wanted))
        same("where they lead", browser.run(HREFS), ["/d/2", "/d/3/at/1", "/d/1", list_])
        same("who plays", browser.text(".playing .hint"), "Glider, computed by your browser")
        pauses(browser)
        browser.one("#play-it").click()
        check("Play opens its page", browser.at("/d/2") and browser.until(lambda: browser.text("h1")[:6] == "Glider"))
        page = asked(gateway.port, "/")[1].decode()
        check("the choice is in the page", f'<meta name="chosen" content="{list_}">' in page)


def pauses(browser: Browser) -> None:
    check("there is a button", browser.until(lambda: browser.one("#pause").is_displayed()))
    browser.one("#pause").click()
    check("it pauses", browser.run("return document.getElementById('pause').title") == "Play here" and rests(browser))
    browser.one("#pause").click()
    check("it plays on", moves(browser))


def unchosen(_gateway: Gateway, browser: Browser, _base: str, folder: str) -> None:
    """Without a choice the first deposit plays; if it is withdrawn, the next one chosen. Who wants no motion sees
    none before it is asked for."""
    withdrawn = os.path.join(folder, "withdrawn-first")
    with open(withdrawn, "w", encoding="ascii") as file:
        file.write("2\n")
    with club(folder, "unchosen") as (_, base):
        browser.open(f"{base}/")
        check(
            "the first deposit", browser.until(lambda: "Blinker" in browser.text(".playing .hint")) and moves(browser)
        )
        same("no list", browser.all("#chosen"), [])
    still = {"features": [{"name": "prefers-reduced-motion", "value": "reduce"}]}
    with club(folder, "unchosen", "CHOSEN=/l/2,900000,3", f"WITHDRAWN={withdrawn}") as (_, base):
        browser.driver.execute_cdp_cmd("Emulation.setEmulatedMedia", still)
        browser.open(f"{base}/")
        check("one that is there", browser.until(lambda: "Toad" in browser.text(".playing .hint")))
        check("it can be played", browser.until(lambda: browser.one("#pause").is_displayed()))
        check("nothing moves by itself", rests(browser))
        browser.one("#pause").click()
        check("once it is asked for", moves(browser))
    browser.screen()


class Pupil:
    """Somebody who does only what is seen, and how many actions that took."""

    def __init__(self, browser: Browser) -> None:
        self.browser, self.actions = browser, 0

    def find(self, selector: str) -> Any:
        found = self.browser.one(selector)
        self.actions += 1
        check(f"{selector} is seen", self.browser.until(lambda: self.browser.run(IS_SEEN, found)))
        return found

    def press(self, selector: str) -> None:
        self.find(selector).click()

    def write(self, selector: str, text: str) -> None:
        self.find(selector).send_keys(text)

    def press_cell(self, column: int, row: int) -> None:
        self.actions += 1
        x, y = self.browser.run(MIDDLE)
        for kind in ("mousePressed", "mouseReleased"):
            words = {"type": kind, "x": x + (column + 0.5) * CELL, "y": y + (row + 0.5) * CELL}
            more = {"button": "left", "buttons": 1, "clickCount": 1}
            self.browser.driver.execute_cdp_cmd("Input.dispatchMouseEvent", words | more)


def pupil(gateway: Gateway, browser: Browser, base: str, _folder: str) -> None:
    """A pupil without Golly, in a browser that knows nothing: from the first page to a glider that is deposited and
    plays, without scrolling and without knowing what RLE is."""
    browser.screen(1280, 720)
    browser.open(f"{base}/")
    browser.run("localStorage.clear(); sessionStorage.clear()")
    browser.open(f"{base}/")
    new = Pupil(browser)
    new.press("#deposit-yours")
    check("the form", browser.at("/new"))
    for cell in ((1, 0), (2, 1), (0, 2), (1, 2), (2, 2)):
        new.press_cell(*cell)
    check("it is drawn", browser.until(lambda: "5 cells, 3 by 3" in browser.text(".preview")))
    new.write("#text-name", "My glider")
    new.write("#member", "dora")
    new.press("#send")
    check("it is deposited", browser.until(lambda: browser.text("h1").startswith("My glider")))
    check("the page says so", browser.until(lambda: "Deposited." in browser.text(".note")))
    number = browser.run("return location.pathname.split('/')[2]")
    wanted = b"#N My glider\nx = 3, y = 3, rule = B3/S23\nbo$2bo$3o!\n"
    same("what is kept", told(gateway, f"/deposits/{number}"), wanted)
    new.press("#play")
    at = "return Number(document.getElementById('generation').value)"
    check("it plays", browser.until(lambda: browser.run(at) > 3))
    same("actions from the first page to a glider that plays", new.actions, 10)
    note(f"web: a pupil's first glider takes {new.actions} actions")
    browser.run("localStorage.clear()")
    browser.screen()


PARTS = [chosen, unchosen, pupil]
