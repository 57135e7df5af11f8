"""The parts of tests/test_web.py on the page of words: who gets it, its list, and the way from there to the archive
in a browser without scripts.
"""
import os
import re
from collections.abc import Iterator
from contextlib import contextmanager

from browser import Browser
from clients import check, same
from gateways import Gateway
from pages import WEB, asked, content, told
from web_addresses import BAD_METHOD, NO_PAGE, PROGRAMS, READERS, accepting

# Words that a visitor meets who has never seen the archive.
NEEDED = "apgcode census cluster deposit generation oscillator pattern period proved RLE rule spaceship"


@contextmanager
def without_scripts(browser: Browser) -> Iterator[None]:
    """A browser that runs no script of a page."""
    browser.driver.execute_cdp_cmd("Emulation.setScriptExecutionDisabled", {"value": True})
    try:
        yield
    finally:
        browser.driver.execute_cdp_cmd("Emulation.setScriptExecutionDisabled", {"value": False})


def served(gateway: Gateway, _browser: Browser, _base: str, _folder: str) -> None:
    """The page of words is a file without scripts, for whoever asks, with the headers of the other pages."""
    page = content(os.path.join(gateway.folder, "pages", "words.html"))
    check("it has no script", b"<script" not in page)
    security = asked(gateway.port, "/")[2]
    for path in ("/words", "/words/", "/Words"):
        for form in PROGRAMS[:2] + READERS[:1]:
            status, found, lines = asked(gateway.port, path, headers=accepting(form))
            same(f"the page at {path} for {form}", (status, found), (200, page))
            for name in (
                "cache-control",
                "content-security-policy",
                "content-type",
                "cross-origin-opener-policy",
                "referrer-policy",
                "x-content-type-options",
            ):
                same(f"{name} of {path} for {form}", lines.get(name), security[name])
    same("a method that it has not", asked(gateway.port, "/words", "POST", b"x")[:2], (405, BAD_METHOD))
    same("no page below it", asked(gateway.port, "/words/x")[:2], (404, NO_PAGE))


def listed(_gateway: Gateway, browser: Browser, base: str, _folder: str) -> None:
    """The page has the words of the guide in alphabetical order, each with a sentence, and fits a phone. The page about
    the archive leads to it."""
    guide = content(os.path.join(WEB, "..", "docs", "GUIDE.md")).decode().split("\n## Words\n")[1]
    wanted = [[cell.strip() for cell in line.split("|")[1:-1]] for line in guide.strip().split("\n")[2:]]
    browser.open(f"{base}/about")
    browser.one("main a[href='/words']").click()
    check("from the page about the archive", browser.until(lambda: browser.text("h1") == "Words"))
    rows = "return [...document.querySelectorAll('.terms div')].map((row) => [...row.children].map((cell) => cell.%s))"
    found = browser.run(rows % "textContent")
    same("the words and their sentences", found, [[cell.replace("`", "") for cell in row] for row in wanted])
    words = [word for word, _ in found]
    same("their order", words, sorted(words, key=str.lower))
    same("words that are missing", [word for word in [*NEEDED.split(), "still life"] if word not in words], [])
    check("each has a sentence", all(re.fullmatch(r"[A-Z`].*\.", sentence) for _, sentence in found))
    same("the title", browser.run("return document.title"), "Words · Life archive")
    for width in (320, 1100):
        browser.screen(width, 780)
        wide = browser.run("return [document.documentElement.scrollWidth, window.innerWidth]")
        check(f"on {width} pixels: {wide}", wide[0] <= width == wide[1])
        browser.picture(f"words-{width}")
    same("names", browser.unnamed(), [])
    browser.screen()


def followed(gateway: Gateway, browser: Browser, base: str, _folder: str) -> None:
    """Without scripts, the first page leads to the words, and each address among them to a reply of the archive."""
    with without_scripts(browser):
        browser.driver.get(base)
        check("no page is made", not browser.all("h1"))
        browser.one("noscript a[href='/words']").click()
        check("the words", browser.until(lambda: browser.all(".terms dt")))
        paths = [link.get_dom_attribute("href") for link in browser.all("main a")]
        check(f"addresses: {paths}", {"/deposits/1", "/deposits/1/at/30", "/deposits/after/0"} <= set(paths))
        for path in paths:
            check(f"a reply at {path}", asked(gateway.port, path)[0] == 200)
        browser.one(".terms a[href='/deposits/1']").click()
        check("a deposit", browser.until(lambda: browser.driver.current_url == f"{base}/deposits/1"))
        same("its text", browser.text("pre").split(), told(gateway, "/deposits/1").decode().split())


PARTS = [served, listed, followed]
