"""The parts of tests/test_web.py on addresses: who gets the page, and who the archive's words; what a preview of a link
shows; old addresses; links; titles.
"""
import html.parser
import os
import re
from typing import Any

import paths
from browser import Browser, Relay
from clients import HERE, check, same
from gateways import Gateway
from pages import asked, bundled, content

WEB = os.path.join(HERE, "..", "web")
NO_PAGE, BAD_METHOD = b'{"error":"no-such-page","refusal":12}', b'{"error":"bad-method","refusal":13}'
# What a browser asks for, in the words of Firefox and of Chromium.
READERS = [
    "text/html,application/xhtml+xml,application/xml;q=0.9,*/*;q=0.8",
    "text/html,application/xhtml+xml,application/xml;q=0.9,image/avif,image/webp,*/*;q=0.8",
]
PROGRAMS = [None, "*/*", "application/json", "text/plain, text/csv"]
# Addresses with a page, what a preview calls them, and what their title is in a browser; and addresses without one.
GUN = "Gosper glider gun"
ADDRESSES = [
    ("/", "", ""),
    ("/d", "Deposits · ", "Deposits"),
    ("/d/after/3", "Deposits · ", "Deposits after 3"),
    ("/d/of/ann", "Deposits of ann · ", "Deposits of ann"),
    ("/d/of/ann/before/4", "", "Deposits of ann"),
    ("/d/4", "Deposit 4 · ", GUN),
    ("/d/4/at/30", "Deposit 4, generation 30 · ", f"{GUN}, generation 30"),
    ("/c", "Censuses · ", "Censuses"),
    ("/c/1", "Census 1 · ", "Census 1"),
    ("/o/B3-S23/xq4_153", "xq4_153 · ", "glider (xq4_153)"),
    ("/o", "Objects · ", "Objects"),
    ("/o/B3-S23", "", "Objects of B3/S23"),
    ("/about", "About · ", "About"),
    ("/compare?one=4&other=1", "Compare · ", "Compare"),
    ("/l", "Collection · ", "Collection"),
    ("/l/", "Collection · ", "Collection"),
    ("/l/4,1", "Collection · ", "Collection"),
    ("/l/~Lesson_3,4at30~A_gun", "Collection · ", "Lesson 3"),
    ("/new", "New deposit · ", "New deposit"),
    ("/find", "Find · ", "Find"),
    ("/find?text=gun", "Find · ", "gun · Found"),
    ("/find?member=ann&cells=5..9", "Find · ", "member ann · cells 5..9 · Found"),
    ("/haul", "Haul · ", "Haul"),
    ("/D/4", "Deposit 4 · ", GUN),
    ("/d/4/", "Deposit 4 · ", GUN),
    ("/d/4//", "Deposit 4 · ", GUN),
    ("/d/4/at/30/", "Deposit 4, generation 30 · ", f"{GUN}, generation 30"),
    ("/d/", "Deposits · ", "Deposits"),
    ("/o/B3-S23/xq4_153/", "xq4_153 · ", "glider (xq4_153)"),
    ("/c/", "Censuses · ", "Censuses"),
    ("/about/", "About · ", "About"),
]
NOWHERE = [
    "/x",
    "/d/x",
    "/d/4/x/",
    "/d/4/at",
    "/d/4/at/x",
    "/d/-1",
    "/d/1234567890123456",
    "/d/of/a_b",
    "/c/x",
    "/c/1/csv",
    "/o/B3/S23/xs4_33",
    "/new/1",
    "/finds",
    "/deposit/4",
    "/index",
    "/index/",
    "/web",
    "/web/",
    "/%78",
    "/census/1",
    "/index.html",
    "/preview.png",
]
# Routes of the archive, some with a reply that refuses.
ROUTES = [
    *paths.reading(id=1, n=7, limit=4, rule="B3S23", code="xq4_153"),
    "/deposits/after/1000000",
    "/deposits",
    "/deposits/x",
    "/deposits/900",
    "/deposits/1/",
    "/censuses/900",
    "/censuses/x/csv",
    "/objects/B3S23/xq4_154/4",
    "/objects/B3-S23",
    "/objects/",
]
SITE_NAME = "Life archive"
PICTURE = "/web/preview.png"
CODE = "xp3_co9nas0san9oczgoldlo0oldlogz1047210127401"
OLD = {
    "": "/",
    "#deposits": "/",
    "#deposits/after/3": "/d/after/3",
    "#deposits/of/ann": "/d/of/ann",
    "#deposit/4": "/d/4",
    "#deposit/4/at/30": "/d/4/at/30",
    "#DEPOSIT/1": "/d/1",
    "#census/1": "/c/1",
    "#censuses": "/c",
    f"#code/{CODE}/B3-S23": f"/o/B3-S23/{CODE}",
    "#new": "/new",
    "#find": "/find",
    "#find?text=gun&cells=5..": "/find?text=gun&cells=5..",
    "#haul": "/haul",
}


class Previewed(html.parser.HTMLParser):
    """What who previews a link reads of a page: its title and its properties."""

    def __init__(self, page: Any) -> None:
        super().__init__()
        self.said, self.is_title = {"title": ""}, False
        self.feed(page.decode())

    def handle_starttag(self, tag: Any, attributes: Any) -> None:
        of = dict(attributes)
        self.is_title = tag == "title"
        if tag == "meta" and "property" in of:
            self.said[of["property"]] = of["content"]

    def handle_data(self, text: str) -> None:
        if self.is_title:
            self.said["title"] += text

    def handle_endtag(self, _: object) -> None:
        self.is_title = False


def page_of(gateway: Gateway, named: str = "") -> bytes:
    """The page as the gateway gives it, while there is no index, at an address that a preview calls so."""
    page = content(os.path.join(gateway.folder, "pages", "index.html")).decode()
    origin = f"http://127.0.0.1:{gateway.port}"
    put = {"named": "", "life_title": named, "life_origin": origin, "life_chosen": "", "life_picture": PICTURE}
    page = re.sub(r'<!--# echo var="(\w+)" default="" -->', lambda found: put[found[1]], page)
    return re.sub(r"<!--# .*? -->", "", page).encode()


def accepting(form: str | None) -> dict[str, str]:
    return {} if form is None else {"accept": form}


def pages(gateway: Gateway, _browser: Browser, _base: str, _folder: str) -> None:
    """Each address of a page has it, for whoever asks, with its headers."""
    for path, named, _ in ADDRESSES:
        for form in PROGRAMS[:2] + READERS[:1]:
            status, page, lines = asked(gateway.port, path, headers=accepting(form))
            check(
                f"the page at {path} for {form}",
                (status, page) == (200, page_of(gateway, named))
                and lines["content-type"] == "text/html; charset=utf-8"
                and lines["cache-control"] == "no-cache"
                and "default-src 'none'" in lines["content-security-policy"],
            )
    status, _, lines = asked(gateway.port, "/d/4")
    again = asked(gateway.port, "/d/4", headers={"if-modified-since": lines.get("last-modified", "")})
    same("a page that a browser has is not sent again", (again[0], again[1]), (304, b""))
    same("a method that the page has not", asked(gateway.port, "/d/4", "POST", b"x")[:2], (405, BAD_METHOD))
    same(
        "a message that is too long for it",
        asked(gateway.port, "/new", "POST", b" " * 1_048_577)[:2],
        (400, b'{"error":"bad-message","refusal":14}'),
    )


def nowhere(gateway: Gateway, browser: Browser, base: str, _folder: str) -> None:
    """A reader's wrong address has the page, which says so; a program's has the archive's words; and the routes of the
    archive are the same for both."""
    for path in NOWHERE:
        for form in PROGRAMS:
            same(
                f"no page at {path} for {form}", asked(gateway.port, path, headers=accepting(form))[:2], (404, NO_PAGE)
            )
        for form in READERS:
            status, page, lines = asked(gateway.port, path, headers=accepting(form))
            check(
                f"the page at {path} for a reader",
                (status, page) == (404, page_of(gateway))
                and lines["content-type"] == "text/html; charset=utf-8"
                and lines["cache-control"] == "no-store"
                and "default-src 'none'" in lines["content-security-policy"],
            )
    for method, wanted in (("POST", (404, NO_PAGE)), ("PUT", (404, NO_PAGE)), ("HEAD", (404, b""))):
        same(f"{method} by a reader", asked(gateway.port, "/x", method, headers=accepting(READERS[0]))[:2], wanted)
    for path in ROUTES:
        own = asked(gateway.life_port, path)[:2]
        check(
            f"the route {path} for a reader",
            all(asked(gateway.port, path, headers=accepting(form))[:2] == own for form in READERS + PROGRAMS),
        )
    same(
        "a missing file, for a reader",
        asked(gateway.port, "/web/none-AAAAAAAA.js", headers=accepting(READERS[0]))[:2],
        (404, NO_PAGE),
    )
    for path in ("x", "d/x", "deposit/4", "#nothing/1"):
        browser.open(f"{base}/{path}")
        check(
            f"a reader at /{path}",
            browser.until(lambda: "no such page" in browser.text(".refusal"))
            and browser.run("return document.title") == f"Not found · {SITE_NAME}",
        )
    browser.one("main a[href='/']").click()
    check(
        "from there it leads to the deposits",
        browser.at("/") and browser.until(lambda: "archive of Game of Life patterns" in browser.text("h1")),
    )


def previews(gateway: Gateway, browser: Browser, base: str, _folder: str) -> None:
    """A preview of a link has a title that says what it leads to, and a picture; there is an icon, and a word for
    crawlers."""
    for path, named, _ in ADDRESSES + [("/d/4/at/x", "", ""), ("/o/B3-S23/<b>", "", ""), ("/d/of/a%22b", "", "")]:
        said = Previewed(
            asked(gateway.port, path.replace("<", "%3C").replace(">", "%3E"), headers=accepting(READERS[0]))[1]
        ).said
        check(
            f"the preview of {path}: {said['title']}",
            said["title"] == said["og:title"] == named + SITE_NAME and said["og:image"] == f"{base}/web/preview.png",
        )
    other = Previewed(asked(gateway.port, "/d/4", headers={"host": 'a"><script>'})[1]).said
    same("an invalid host is not written into the page", other["og:image"], "/web/preview.png")
    browser.open(f"{base}/find")
    sizes = browser.wait_for(
        """return Promise.all(words[0].map(async (path) => {
        const picture = new Image();
        picture.src = path;
        await picture.decode();
        return [picture.naturalWidth, picture.naturalHeight];
    }));""",
        ["/web/preview.png", "/favicon.ico", "/web/favicon.ico"],
    )
    same(f"the pictures: {sizes}", sizes, [[1200, 630], [32, 32], [32, 32]])
    same("the icon at its place", asked(gateway.port, "/favicon.ico")[1], content(os.path.join(WEB, "favicon.ico")))
    status, rules, lines = asked(gateway.port, "/robots.txt")
    closed = re.findall(r"(?m)^Disallow: (\S+)$", rules.decode())
    check(
        "what crawlers may not read",
        status == 200
        and lines["content-type"] == "text/plain; charset=utf-8"
        and rules.startswith(b"#")
        and b"\nUser-agent: *\n" in rules
        and all(any(path.startswith(one) for one in closed) for path in ROUTES if path.count("/") > 1)
        and not any(path.startswith(one) for path, *_ in ADDRESSES for one in closed),
    )


def old_ones(_gateway: Gateway, browser: Browser, base: str, _folder: str) -> None:
    """An old address leads to the one that took its place, and back leads out of it."""
    for old, new in OLD.items():
        browser.open(f"{base}/{old}")
        check(
            f"'{old}' is {new}",
            browser.until(lambda: browser.driver.current_url == base + new) and browser.text("h1") != "Not found",
        )
    browser.driver.back()
    check("back leads out of it", browser.until(lambda: browser.driver.current_url == "about:blank"))
    browser.open(f"{base}/")
    browser.run("location.hash = '#deposit/4/at/2'")
    check("one that is typed on a page", browser.at("/d/4/at/2") and browser.until(lambda: GUN in browser.text("h1")))


def links(_gateway: Gateway, browser: Browser, base: str, _folder: str) -> None:
    """A link is followed without a full reload, back and forth; one that is to be opened elsewhere, or to load, is the
    browser's."""
    browser.open(f"{base}/d/after/3")
    browser.run("window.mark = 1")
    first = browser.run("return document.querySelector('.cards a').pathname")
    browser.one(".cards a").click()
    check("a link to a deposit", browser.at(first) and browser.until(lambda: browser.all("canvas.large")))
    browser.one("header nav a[href='/new']").click()
    check(
        "a link of the head",
        browser.at("/new")
        and browser.until(lambda: browser.text("h1") == "New deposit")
        and browser.run("return document.querySelector('[aria-current=page]').textContent") == "New deposit",
    )
    for address in (first, "/d/after/3"):
        browser.driver.back()
        check(f"back to {address}", browser.at(address) and browser.until(lambda: browser.all("canvas")))
    browser.driver.forward()
    check("and forth", browser.at(first) and browser.run("return window.mark") == 1)
    taken = browser.run(
        """
        const seen = [];
        addEventListener('click', (event) => { seen.push(event.defaultPrevented); event.preventDefault(); });
        const press = (selector, more) => document.querySelector(selector).dispatchEvent(
          new MouseEvent('click', { bubbles: true, cancelable: true, ...more }));
        press('header a[href="/find"]', { ctrlKey: true });
        press('header a[href="/find"]', { shiftKey: true });
        const load = Object.assign(document.createElement('a'), { href: '/d/4', download: 'x' });
        document.querySelector('main').append(load);
        press('main a[download=x]', {});
        press('header a[href="/find"]', {});
        return seen;"""
    )
    same(f"links that are the browser's: {taken}", taken, [False, False, False, True])
    browser.at("/find")
    length = browser.run("return history.length")
    browser.one("header a[href='/find']").click()
    check(
        "a link to the current address adds no history entry",
        browser.settled() and browser.run("return history.length") == length,
    )


def titles(_gateway: Gateway, browser: Browser, base: str, _folder: str) -> None:
    """Each view has its title, even after a step."""
    for path, _, title in ADDRESSES:
        browser.open(base + path)
        check(
            f"the title of {path}",
            browser.until(lambda: browser.run("return document.title") == (f"{title} · " if title else "") + SITE_NAME),
        )
    browser.open(f"{base}/d/4")
    browser.until(lambda: browser.run("return document.getElementById('generation').value") == "0")
    browser.one("#step").click()
    check(
        "the title after a step",
        browser.until(lambda: browser.run("return document.title") == f"{GUN}, generation 1 · {SITE_NAME}"),
    )


def files(gateway: Gateway, browser: Browser, base: str, _folder: str) -> None:
    """A deposit's address with .rle after it is its text, which has a name to save it under; scripts of other sites may
    read that and what the archive itself answers, and nothing else."""
    for path, route, name in (
        ("/d/4.rle", "/deposits/4", "deposit-4.rle"),
        ("/D/004.rle?x=1", "/deposits/4", "deposit-4.rle"),
        ("/d/4/at/30.rle", "/deposits/4/at/30", "deposit-4-at-30.rle"),
        ("/d/4/at/000.rle", "/deposits/4/at/0", "deposit-4-at-0.rle"),
        ("/d/900.rle", "/deposits/900", None),
        ("/d/4/at/2049.rle", "/deposits/4/at/2049", None),
    ):
        own, (status, text, lines) = asked(gateway.life_port, route), asked(gateway.port, path)
        same(f"the file at {path}", (status, text), own[:2])
        saved = f'attachment; filename="{name}"' if name else None
        same(f"the name of {path}", lines.get("content-disposition"), saved)
        same(f"who may read {path}", lines.get("access-control-allow-origin"), "*")
        kept_for = "no-store" if name is None else "public, max-age=31536000, immutable"
        same(f"how long {path} is kept", lines["cache-control"], kept_for)
    same("a deposit at a file", asked(gateway.port, "/d/4.rle", "POST", b"")[:2], (405, BAD_METHOD))
    for path in ("/d/4.txt", "/d/x.rle", "/d/4/at/.rle", "/c/1.rle", "/d/4.rle/"):
        same(f"no file at {path}", asked(gateway.port, path)[:2], (404, NO_PAGE))
    for path in ("/d/4", "/web/robots.txt", "/x", bundled(gateway, "main.js")):
        lines = asked(gateway.port, path)[2]
        check(f"{path} is for this site", {"access-control-allow-origin", "content-disposition"}.isdisjoint(lines))
    lines = asked(gateway.port, "/deposits", "POST", b"")[2]
    check("other sites make no deposits", "access-control-allow-origin" not in lines)
    # Another port is another site. A text has no policy that keeps its page from reading.
    relay = Relay(gateway.port)
    browser.driver.get(f"http://127.0.0.1:{relay.port}/deposits/4")
    read = "return fetch(words[0]).then((reply) => reply.text(), () => 'not read');"
    found = str(browser.wait_for(read, f"{base}/d/4.rle"))
    same("a page of another site reads a text", found.split("\n")[0], f"#N {GUN}")
    relay.end()


PARTS = [pages, nowhere, previews, old_ones, links, titles, files]
