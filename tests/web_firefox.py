"""The main pages once more in a Firefox, over the archive that the tests before it have made by then; and of the newer
ones: drawing, comparing, sharing, collections and the first page.
"""
import io
import os
import zipfile
from collections.abc import Callable, Iterable

import pytest

import firefox
from clients import check, same
from gateways import BUSY, Gateway
from pages import kept, told
from web_editor import CELL, GLIDER, MIDDLE, TEXT

ADDRESSES = (
    "/",
    "/d",
    "/d/4",
    "/d/of/ann",
    "/new",
    "/find",
    "/o",
    "/o/B3-S23/xq4_153",
    "/c",
    "/c/1",
    "/haul",
    "/about",
    "/compare?one=4&other=1",
    "/l",
    "/l/~Lesson_3,4~A_gun,1",
)
ENTER = "\ue007"
ROW = b"x = 1, y = 3\no$o$o!"
FILE = b"#N By Firefox\nx = 4, y = 2\no2bo$4o!\n"


def pages_shown(gateway: Gateway, browser: firefox.Firefox, base: str, folder: str) -> None:
    """Each kind of page has its heading and no refusal."""
    for address in ADDRESSES:
        browser.open(f"{base}{address}")
        check(f"{address} in Firefox", browser.text("h1") != "" and not browser.all("main .refusal"))


def chosen(gateway: Gateway, browser: firefox.Firefox, base: str, folder: str) -> None:
    """A file is chosen, drawn, deposited, and shown."""
    path = os.path.join(folder, "by-firefox.rle")
    with open(path, "wb") as file:
        file.write(FILE)
    browser.open(f"{base}/new")
    browser.one("#file").send_keys(path)
    check("a file is drawn in Firefox", browser.until(lambda: "6 cells, 4 by 2" in browser.text(".preview")))
    browser.type("#member", "ann")
    browser.one("#send").click()
    shown = browser.until(lambda: browser.text("h1").startswith("By Firefox"))
    check("a deposit in Firefox is shown", shown)
    number = browser.run("return location.pathname.split('/')[2]")
    wanted = b"#N By Firefox\nx = 4, y = 2, rule = B3/S23\no2bo$4o!\n"
    same("what is kept of it", told(gateway, f"/deposits/{number}"), wanted)


def looked_up(gateway: Gateway, browser: firefox.Firefox, base: str, folder: str) -> None:
    """A code is looked up from the box of the head, and its object is drawn."""
    browser.open(f"{base}/")
    browser.type("#box", "xq4_153" + ENTER)
    check("a code in Firefox", browser.at("/o/B3-S23/xq4_153") and browser.until(lambda: browser.all("main canvas")))


def drawn(gateway: Gateway, browser: firefox.Firefox, base: str, _folder: str) -> None:
    """From the first page: five cells by the mouse, one by the keys, which is undone; the glider is deposited."""
    browser.open(f"{base}/")
    browser.one("#deposit-yours").click()
    check("the form in Firefox", browser.at("/new"))
    browser.run("scrollTo(0, 0)")
    x, y = browser.run(MIDDLE)
    for column, row in sorted(GLIDER):
        browser.press_at(x + (column + 0.5) * CELL, y + (row + 0.5) * CELL)
    check("a drawing in Firefox", browser.until(lambda: "5 cells, 3 by 3" in browser.text(".preview")))
    browser.one("#drawing").send_keys("\ue014", " ")
    check("a cell by keys", browser.until(lambda: "5 cells, 3 by 3" not in browser.text(".preview")))
    browser.one("#draw-undo").click()
    text = "x = 3, y = 3, rule = B3/S23\nbo$2bo$3o!\n"
    check("undone", browser.until(lambda: browser.run(TEXT) == text))
    browser.type("#text-name", "Drawn in Firefox")
    browser.type("#member", "ann")
    browser.one("#send").click()
    check("it is deposited", browser.until(lambda: browser.text("h1").startswith("Drawn in Firefox")))
    number = browser.run("return location.pathname.split('/')[2]")
    same("what is kept", told(gateway, f"/deposits/{number}"), f"#N Drawn in Firefox\n{text}".encode())


def compared(gateway: Gateway, browser: firefox.Firefox, base: str, _folder: str) -> None:
    """Two deposits run by one clock, and are the same but for a turn."""
    numbers = [kept(gateway, f"firefox-{at}", text) for at, text in enumerate((b"x = 3, y = 1\n3o!", ROW))]
    browser.open(f"{base}/compare?one={numbers[0]}&other={numbers[1]}")
    said = "The same cells, turned by 90°."
    check("the same in Firefox", browser.until(lambda: browser.text("#verdict") == said))
    browser.one("#step").click()
    check("a step of both", browser.until(lambda: browser.text("#time") == "1" and browser.text("#verdict") == said))


def shared(gateway: Gateway, browser: firefox.Firefox, base: str, _folder: str) -> None:
    """A generation is copied, saved as a text and a picture, edited, and added to a collection."""
    browser.open(f"{base}/d/4/at/30")
    origin = f"#C Generation 30 of deposit 4, {base}/d/4/at/30\n".encode()
    browser.run("document.querySelector('.share .row button').click()")
    check("the address is copied", browser.until(lambda: browser.text("#status") == "Copied."))
    browser.one("#download summary").click()
    browser.one("a[download='deposit-4-at-30.rle']").click()
    text, own = browser.loaded("deposit-4-at-30.rle"), told(gateway, "/deposits/4/at/30")
    check("the text is saved in Firefox", origin in text and text.endswith(own.split(b"\n", 1)[1]))
    browser.one("#save-png").click()
    check("and a picture", browser.loaded("deposit-4-at-30.png").startswith(b"\x89PNG\r\n\x1a\n"))
    browser.one("#edit").click()
    check("it is edited", browser.at("/new") and browser.until(lambda: origin.decode() in browser.run(TEXT)))
    browser.run("sessionStorage.clear()")


def collected(gateway: Gateway, browser: firefox.Firefox, base: str, _folder: str) -> None:
    """A collection is made from a deposit, gets a title and another one, is played in a row and saved."""
    browser.open(f"{base}/d/4")
    browser.one("#collect").click()
    check("a collection in Firefox", browser.at("/l/4"))
    browser.one("#edit").click()
    browser.type("#added", "1 at 2")
    browser.one("#add").click()
    check("another one", browser.at("/l/4,1at2"))
    browser.type("#title", "Lesson 3, a gun" + ENTER)
    check("its title", browser.at("/l/~Lesson_3.2C_a_gun,4,1at2"))
    browser.one("#next").click()
    generation = "return document.getElementById('generation').value"
    check("the next one", browser.until(lambda: browser.text("#place") == "2 of 2" and browser.run(generation) == "2"))
    browser.one("#pack").click()
    with zipfile.ZipFile(io.BytesIO(browser.loaded("collection.zip"))) as file:
        same("no file is damaged", file.testzip(), None)
        check("the gun is in it", told(gateway, "/deposits/4").splitlines()[-1] in file.read(file.namelist()[0]))
    browser.run("sessionStorage.clear()")


def first_page(_gateway: Gateway, browser: firefox.Firefox, base: str, _folder: str) -> None:
    """A pattern plays on the first page."""
    browser.open(f"{base}/")
    check("it plays in Firefox", browser.until(lambda: browser.one("#pause").get_attribute("title") == "Pause"))
    same("who plays", browser.text(".playing .hint").split(",")[-1], " computed by your browser")


def in_firefox(gateway: Gateway, base: str, folder: str, parts: Iterable[Callable[..., None]]) -> None:
    """These parts, and those above, in a Firefox, whose console has no error at the end. A part takes a gateway, a
    browser and an address."""
    if firefox.missing():
        pytest.skip("firefox-esr is not installed")
    # It is slower than the other browser.
    browser = firefox.Firefox(folder, 3 * BUSY)
    try:
        for part in (pages_shown, chosen, looked_up, first_page, drawn, compared, shared, collected):
            part(gateway, browser, base, folder)
        for other in parts:
            other(gateway, browser, base)
        same("errors in Firefox's console", browser.errors(), [])
    finally:
        browser.end()
