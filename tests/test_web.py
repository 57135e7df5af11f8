"""The pages of web/ in a Chromium, and some in a Firefox, through the gateway as deploy/try runs it, over the archive's
program.

Each test uses the archive that the ones before it have made. Pictures of the pages are left in tests/out, which is not
kept.
"""
import csv
import io
import json
import os
import re
import sqlite3
from collections.abc import Callable, Iterator
from typing import Any

import pytest

import browser as browsers
import gateways
import life
import paths
import web_haul
import web_home
from browser import Browser, Relay
from clients import HERE, check, run, same
from gateways import BUSY, Gateway
from pages import DIGESTED, asked, bundled, content, kept, told, with_sources
import web_addresses
import web_club
import web_collection
import web_colors
import web_compare
import web_deposits
import web_design
import web_drawings
import web_editor
import web_firefox
import web_files
import web_layout
import web_many
import web_members
import web_pictures
import web_player
import web_previews
import web_search
import web_visits
import web_waiting
import web_withdrawn
import web_words
from web_drawings import later, runs_of, seen

pytestmark = pytest.mark.full

FIRST_PORT = 10500
TOP = os.path.join(HERE, "..")
PICTURES = os.path.join(HERE, "out")
SHIFT, SPACE, RIGHT, LEFT, HOME, ENTER, ESCAPE = "\ue008", " ", "\ue014", "\ue012", "\ue011", "\ue007", "\ue00c"


@pytest.fixture(scope="module")
def gateway(program: str, folder: str) -> Iterator[Gateway]:
    """The gateway of all pages here."""
    if lacking := gateways.missing() + browsers.missing():
        pytest.skip(f"{' and '.join(lacking)} not installed")
    own = Gateway(os.path.join(folder, "club.db"), FIRST_PORT, with_sources(folder), seconds=1800)
    yield own
    own.end()


@pytest.fixture(scope="module")
def base(gateway: Gateway) -> str:
    """The address of the site."""
    return f"http://127.0.0.1:{gateway.port}"


@pytest.fixture(scope="module")
def downloads(folder: str) -> str:
    """Where the browser puts what it downloads."""
    path = os.path.join(folder, "downloads")
    os.makedirs(path, exist_ok=True)
    return path


@pytest.fixture(scope="module")
def browser(gateway: Gateway, downloads: str) -> Iterator[Browser]:
    """The browser of all pages here."""
    os.makedirs(PICTURES, exist_ok=True)
    own = Browser(downloads, PICTURES, BUSY)
    yield own
    own.end()


@pytest.fixture(scope="module")
def tokens() -> set[str]:
    """The tokens under which the pages made deposits."""
    return set()


# ---- the gateway


def test_the_beginning(gateway: Gateway) -> None:
    """The gateway runs."""
    check("the gateway begins", gateway.port != 0)


def test_headers(gateway: Gateway) -> None:
    """The pages have their headers, and hide no route of the archive."""
    status, page, lines = asked(gateway.port, "/")
    check(
        "the page",
        status == 200
        and page == web_addresses.page_of(gateway)
        and lines["content-type"] == "text/html; charset=utf-8",
    )
    policy = dict(part.strip().partition(" ")[::2] for part in lines["content-security-policy"].split(";"))
    check(
        "the policy of the page",
        policy["default-src"] == "'none'"
        and {policy[name] for name in ("script-src", "style-src", "img-src", "connect-src")} == {"'self'"}
        and policy["base-uri"] == policy["form-action"] == policy["frame-ancestors"] == "'none'",
    )
    check(
        "the page is revalidated each time",
        lines["cache-control"] == "no-cache" and lines["x-content-type-options"] == "nosniff",
    )
    types = {
        "css": "text/css; charset=utf-8",
        "csv": "text/csv; charset=utf-8",
        "ico": "image/x-icon",
        "js": "text/javascript; charset=utf-8",
        "png": "image/png",
        "svg": "image/svg+xml",
        "txt": "text/plain; charset=utf-8",
    }
    pages = os.path.join(gateway.folder, "pages")
    names = sorted(set(os.listdir(pages)) - {"index.html", "words.html"})
    for name in names:
        status, file, lines = asked(gateway.port, f"/web/{name}")
        keeping = "public, max-age=31536000, immutable" if DIGESTED.fullmatch(name) else "no-cache"
        same(
            f"the file {name}",
            (status, file, lines["content-type"], lines["cache-control"]),
            (200, content(os.path.join(pages, name)), types[name.rsplit(".")[-1]], keeping),
        )
    same(
        "the files that have the same name in each release",
        [name for name in names if not DIGESTED.fullmatch(name)],
        ["favicon.ico", "preview.png", "robots.txt"],
    )
    for path in (
        "/web/",
        "/web/none-AAAAAAAA.js",
        "/web/main.js",
        "/web/player/stepper.js",
        "/web/index.html",
        "/web/words.html",
        "/web/README.md",
        "/web",
        "/web/../nginx.conf",
        "/x",
        "/deposit/1",
    ):
        same(f"no page at {path}", asked(gateway.port, path)[:2], (404, b'{"error":"no-such-page","refusal":12}'))
    for path in ("/", "/d/1", bundled(gateway, "main.js"), "/favicon.ico"):
        same(
            f"a deposit at {path}",
            asked(gateway.port, path, "POST", b"")[:2],
            (405, b'{"error":"bad-method","refusal":13}'),
        )
    kept(gateway, "glider", content(os.path.join(TOP, "examples", "glider.rle")))
    for path in (
        *paths.reading(id=1, n=7, limit=4, rule="B3S23", code="xq4_153"),
        "/deposits/2",
        "/deposits",
        "/deposits/1/at",
        "/objects/B3S23/xq4_154/4",
    ):
        own, through = asked(gateway.life_port, path), asked(gateway.port, path)
        check(
            f"the route {path} beside the pages",
            own[:2] == through[:2]
            and through[2]["x-content-type-options"] == "nosniff"
            and "x-cache" in through[2] | {"x-cache": ""},
        )
    for path in ("/", "/d/1", bundled(gateway, "main.js")):
        same(f"the program has no page {path}", asked(gateway.life_port, path)[0], 404)


# ---- the form for deposits: web_deposits.py has these tests


def test_pasted(gateway: Gateway, browser: Browser, base: str, tokens: set[str]) -> None:
    web_deposits.pasted(gateway, browser, base, tokens)


def test_dropped(gateway: Gateway, browser: Browser, base: str, folder: str, tokens: set[str]) -> None:
    web_deposits.dropped(gateway, browser, base, folder, tokens)


def test_too_long(gateway: Gateway, browser: Browser, base: str, folder: str) -> None:
    web_deposits.too_long(gateway, browser, base, folder)


def test_faults(browser: Browser, base: str) -> None:
    web_deposits.faults(browser, base)


def test_sentences(browser: Browser, base: str) -> None:
    web_deposits.sentences(browser, base)


# ---- the other pages


def test_played(gateway: Gateway, browser: Browser, base: str) -> None:
    """What is shown is the generation of the archive, on and back, in its place on the plane."""
    gun = told(gateway, "/deposits/4")
    browser.open(f"{base}/d/4")
    check("generation 0 is drawn", browser.until(lambda: seen(browser)[0] == later(gun, 0)))
    _, place = seen(browser)
    browser.one("#step").click()
    check(
        "a step is drawn",
        browser.until(
            lambda: browser.text("canvas.large") is not None
            and browser.run("return document.getElementById('generation').value") == "1"
        )
        and seen(browser)[0] == later(gun, 1)
        and browser.at("/d/4/at/1"),
    )
    browser.run(
        "const speed = document.getElementById('speed'); speed.value = '20'; speed.dispatchEvent(new Event('change'))"
    )
    browser.one("#play").click()
    check(
        "it plays on",
        browser.until(lambda: int(browser.run("return document.getElementById('generation').value")) > 20),
    )
    browser.one("#play").click()
    at = browser.until(
        lambda: browser.run(
            "return location.pathname.split('/at/')[1] === document.getElementById('generation').value "
            "&& location.pathname.split('/at/')[1]"
        )
    )
    same(f"generation {at} is drawn after playing", seen(browser)[0], later(gun, int(at)))
    browser.one("#back").click()
    check(
        "it plays back to the beginning",
        browser.until(lambda: browser.run("return document.getElementById('generation').value") == "0")
        and browser.at("/d/4"),
    )
    check("generation 0 is drawn where it was", browser.until(lambda: seen(browser) == (later(gun, 0), place)))
    # A glider flies over the plane, though the archive gives it at the corner each time.
    browser.open(f"{base}/d/1")
    browser.until(lambda: browser.run("return document.getElementById('generation').value") == "0")
    shape, (left, top, size) = seen(browser)
    for wanted in range(1, 9):
        browser.one("#step").click()
        browser.until(lambda: browser.run("return document.getElementById('generation').value") == str(wanted))
    check("a glider moves", browser.until(lambda: seen(browser) == (shape, (left + 2 * size, top + 2 * size, size))))
    for wanted in range(7, -1, -1):
        browser.one("#step-back").click()
        browser.until(lambda: browser.run("return document.getElementById('generation').value") == str(wanted))
    check("a glider moves back", browser.until(lambda: seen(browser) == (shape, (left, top, size))))
    browser.type("#generation", "2048" + ENTER)
    check("the last generation", browser.at("/d/1/at/2048") and browser.until(lambda: seen(browser)[0] == shape))
    browser.one("#play").click()
    check("playing ends at the last", browser.until(lambda: browser.one("#play").get_attribute("aria-label") == "Play"))


def test_counted(gateway: Gateway, browser: Browser, base: str, downloads: str) -> None:
    """A census is asked for, and shown as a table with bars, whether it is steady, and its CSV."""
    field = kept(gateway, "field", b"x = 34, y = 4\n2o4b2o4b2o5b3o10bo$2o4b2o4b2o17bobo$31bobo$32bo!")
    browser.open(f"{base}/d/{field}")
    browser.unfold()
    browser.type("#census-limit", "2")
    browser.one("#census-limit").send_keys(ENTER)
    check("a census is shown", browser.at("/c/1"))
    rows = list(csv.DictReader(io.StringIO(told(gateway, "/censuses/1/csv").decode())))
    same(
        "what the archive counted",
        rows,
        [
            {"code": "xp2_7", "count": "1"},
            {"code": "xs4_33", "count": "3"},
            {"code": "xs6_696", "count": "1"},
            {"code": "unresolved", "count": "0"},
        ],
    )
    table = browser.run(
        """return [...document.querySelectorAll('tbody tr')].map((row) => [
          row.querySelector('th code, th').firstChild.textContent, row.querySelector('.number').textContent,
          row.querySelector('th small')?.textContent ?? null, row.querySelector('.bar').getBoundingClientRect().width,
          !!row.querySelector('canvas')])"""
    )
    same(
        "the table",
        [row[:3] for row in table],
        [
            ["xs4_33", "3", "block"],
            ["xp2_7", "1", "blinker"],
            ["xs6_696", "1", "beehive"],
            ["unresolved", "0", "no code within the limit"],
        ],
    )
    check("the bars", abs(table[0][3] - 3 * table[1][3]) < 1.5 and table[1][3] == table[2][3] and table[3][3] < 3)
    same("the objects are drawn", [row[4] for row in table], [True, True, True, False])
    check(
        "it is steady",
        browser.text(".steady").startswith("Steady") and json.loads(told(gateway, "/censuses/1"))["steady"] is True,
    )
    browser.picture("census")
    browser.one("a[download='census-1.csv']").click()
    file = os.path.join(downloads, "census-1.csv")
    check(
        "the CSV is loaded",
        browser.until(lambda: os.path.exists(file) and content(file) == told(gateway, "/censuses/1/csv")),
    )
    browser.open(f"{base}/d/1")
    browser.unfold()
    browser.type("#census-limit", "4" + ENTER)
    check("a census of a glider is not steady", browser.at("/c/2") and browser.text(".steady").startswith("Not steady"))
    browser.open(f"{base}/d/1")
    browser.unfold()
    browser.type("#census-limit", "4" + ENTER)
    check("the same census again has its number", browser.at("/c/2"))
    browser.open(f"{base}/c/9")
    check("a census that is not there", browser.until(lambda: "no census with this number" in browser.text(".refusal")))


def test_cited(gateway: Gateway, browser: Browser, base: str) -> None:
    """An address opens what it names, in a browser that knows nothing."""
    browser.run("localStorage.clear()")
    gun = told(gateway, "/deposits/4")
    browser.open(f"{base}/d/4/at/30")
    check(
        "a generation by its address",
        browser.until(lambda: seen(browser)[0] == later(gun, 30))
        and browser.run("return document.getElementById('generation').value") == "30",
    )
    same("the address to cite", browser.text(".share .address"), f"{base}/d/4/at/30")
    browser.picture("deposit-gun")
    same(
        "a file to load",
        browser.one("a[download='deposit-4-at-30.rle']").get_attribute("href"),
        f"{base}/deposits/4/at/30",
    )
    browser.open(f"{base}/c/1")
    check("a census by its address", browser.text("h1") == "Census 1" and len(browser.all("tbody tr")) == 4)
    browser.open(f"{base}/d/400")
    check(
        "a deposit that is not there",
        browser.until(lambda: "no deposit with this number" in browser.text(".refusal"))
        and browser.one("main a[href='/']"),
    )
    browser.open(f"{base}/d/4/at/2049")
    check("a generation out of range", browser.until(lambda: "0 to 2048" in browser.text(".refusal")))
    browser.open(f"{base}/nothing/1")
    check("an unknown address", browser.until(lambda: "no such page" in browser.text(".refusal")))


def test_looked_up(browser: Browser, base: str) -> None:
    """A code is looked up: how often it occurs, and what it looks like as the program opens it."""
    browser.open(f"{base}/find")
    browser.type("#box", "xs4_33" + ENTER)
    check(
        "a code",
        browser.at("/o/B3-S23/xs4_33")
        and "3 times in all censuses of deposits under B3/S23." == browser.text(".total"),
    )
    same("its name", browser.text("h1"), "block xs4_33")
    browser.picture("code")
    for address, rule, cited in (
        ("23-3/xq4_153", "B3/S23", "/o/B3-S23/xq4_153"),
        ("b36s23/xp2_7", "B36/S23", "/o/B36-S23/xp2_7"),
    ):
        browser.open(f"{base}/o/{address}")
        check(
            f"a code by {address}",
            browser.text(".address") == base + cited and f"under {rule}." in browser.text(".total"),
        )
    for address, part in (
        ("B3-S23/xp2_111", "No object has this code"),
        ("Life/xq4_153", "not a supported rule"),
        ("B3-S23/a%20b", "No object has this code"),
        ("B3-S23/xp5000_7", "1 to 2048"),
    ):
        browser.open(f"{base}/o/{address}")
        check(f"a refusal of {address}", browser.until(lambda: part in browser.text(".refusal")))
    with open(os.path.join(TOP, "web", "objects.csv"), encoding="ascii") as table:
        codes = [row["code"] for row in csv.DictReader(line for line in table if not line.startswith("#"))]
    spelled = browser.wait_for(
        "const { patternOf, limitOf } = await import('/sources/patterns/code.js'); "
        "return words[0].map((code) => [patternOf(code).rows, limitOf(code)]);",
        codes,
    )
    for code, (rows, limit) in zip(codes, spelled):
        status, opened, _ = run("object", "B3/S23", code, str(limit))
        check(f"the cells of {code}", status == 0 and runs_of(life.read_file(opened)[4]) == rows)


def test_lost(gateway: Gateway, browser: Browser) -> None:
    """A deposit whose reply is lost is sent again with its token, by itself and then by hand, and is kept once."""
    relay = Relay(gateway.port)
    base = f"http://127.0.0.1:{relay.port}"
    try:
        before = len(json.loads(told(gateway, "/deposits/after/0"))["deposits"])
        browser.open(f"{base}/new")
        relay.left = 1000
        browser.type("#pattern", "#N Lost\nx = 2, y = 2\n2o$2o!")
        browser.type("#member", "ann")
        browser.one("#send").click()
        check(
            "a lost reply is reported",
            browser.until(lambda: "sending it again with the same token" in browser.text("#sent")),
        )
        relay.left = 0
        check("a deposit whose reply was lost is shown", browser.at(f"/d/{before + 1}"))
        same("it was sent with one token", len(set(relay.cut)), 1)
        browser.open(f"{base}/new")
        browser.type("#pattern", "#N Lost again\nx = 2, y = 2\n2o$2o!")
        relay.left = 1000
        browser.one("#send").click()
        found = browsers.until(lambda: "send it again with the same token" in browser.text("#sent .refusal"), 30)
        check("a missing reply is reported", found and browser.text("#send") == "Send again")
        relay.left = 0
        browser.one("#send").click()
        check("a deposit that is sent again by hand is shown", browser.at(f"/d/{before + 2}"))
        same("lost deposits are kept once", len(json.loads(told(gateway, "/deposits/after/0"))["deposits"]), before + 2)
        same("the second had one token too", len(set(relay.cut)), 2)
    finally:
        relay.end()


def test_unanswered(gateway: Gateway, browser: Browser) -> None:
    """A read that gets no reply does not speak of anything that was sent."""
    relay = Relay(gateway.port)
    try:
        browser.open(f"http://127.0.0.1:{relay.port}/find")
        relay.away = True
        for address in ("/d/1", "/c/1", "/d/after/3"):
            browser.go(address)
            found = browser.until(lambda: browser.text(".refusal"))
            check(
                f"no reply to {address}",
                found and "No reply came" in found and not re.search("sen[dt]|token|kept", found),
            )
    finally:
        relay.end()


def test_keyed(browser: Browser, base: str) -> None:
    """The pages by the keys alone."""
    generation = "return document.getElementById('generation').value"
    browser.open(f"{base}/")
    same("the heading has the focus", browser.run("return document.activeElement.tagName"), "H1")
    browser.press("j")
    browser.press("j")
    browser.press("k")
    first = browser.run("return document.activeElement.pathname")
    browser.press(ENTER)
    check("a list by keys", first.startswith("/d/") and browser.at(first))
    browser.open(f"{base}/d/4")
    browser.press(RIGHT)
    browser.until(lambda: browser.run(generation) == "1")
    browser.press(RIGHT)
    check("steps by keys", browser.until(lambda: browser.run(generation) == "2"))
    browser.press(LEFT)
    check("a step back by a key", browser.until(lambda: browser.run(generation) == "1") and browser.at("at/1"))
    browser.press(SPACE)
    check("playing by a key", browser.until(lambda: int(browser.run(generation)) > 3))
    browser.press(SPACE)
    check("a pause by a key", browser.until(lambda: browser.one("#play").get_attribute("aria-label") == "Play"))
    browser.press(HOME)
    check("the beginning by a key", browser.until(lambda: browser.run(generation) == "0"))
    size = seen(browser)[1][2]
    browser.press("-")
    check("zoom by keys", browser.until(lambda: seen(browser)[1][2] < size))
    browser.press("+")
    check("zoom by keys again", browser.until(lambda: seen(browser)[1][2] == size))
    place = seen(browser)[1]
    browser.press(SHIFT, RIGHT)
    check("moving by keys", browser.until(lambda: seen(browser)[1][0] < place[0]))
    browser.press(SHIFT)
    browser.press("0")
    check("all is shown by a key", browser.until(lambda: seen(browser)[1] == place))
    browser.press("]")
    check("the next deposit by a key", browser.at("/d/5"))
    browser.press("?")
    check("the keys are shown", browser.until(lambda: browser.run("return document.getElementById('keys').open")))
    browser.picture("keys")
    browser.press(ESCAPE)
    check("the keys are gone", browser.until(lambda: not browser.run("return document.getElementById('keys').open")))
    browser.press("n")
    check("the form by a key", browser.at("/new"))
    browser.type("#pattern", "fl")
    check(
        "letters in a field are letters",
        browser.driver.current_url.endswith("/new")
        and browser.run("return document.getElementById('pattern').value") == "fl",
    )
    browser.open(f"{base}/")
    same(
        "the first place of the focus passes over the head",
        browser.run("return document.querySelector('button, a, input').id"),
        "skip",
    )
    browser.one("#skip").send_keys(ENTER)
    same("the head is passed over", browser.run("return document.activeElement.id"), "main")


def test_listed(gateway: Gateway, browser: Browser, base: str) -> None:
    """Lists: the newest, those after a number, those of a member."""
    for turn in range(60):
        kept(
            gateway,
            f"list-{turn}",
            f"#N List {turn}\nx = 1, y = 1\n{turn + 1}o!".encode(),
            "bob" if turn % 2 else "eve",
        )
    last = json.loads(told(gateway, "/deposits/after/0"))["deposits"][-1]["id"]
    links = "return [...document.querySelectorAll('.cards a')].map((link) => Number(link.pathname.split('/')[2]))"

    # A list may be two seconds old.
    def newest() -> Any:
        browser.open(f"{base}/")
        return browser.run(links) == list(range(last, last - 24, -1))

    check("the newest", browsers.until(newest, BUSY))
    check(
        "names and drawings",
        browser.until(lambda: "List 59" in browser.text(".cards") and len(browser.all(".cards canvas")) > 5),
    )
    check("what a card tells", f"No. {last} · bob · 60 cells" in browser.text(".cards li"))
    browser.picture("list")
    browser.press("[")
    check(
        "older ones",
        browser.at(f"/d/after/{last - 48}") and browser.run(links) == list(range(last - 24, max(0, last - 48), -1)),
    )
    browser.one(".pager a[href='/d/after/0']").click()
    check("the oldest", browser.at("/d/after/0") and browser.run(links) == list(range(24, 0, -1)))
    same(
        "the links of the oldest",
        browser.run("return [...document.querySelectorAll('.pager a')].map((link) => link.textContent)"),
        ["Newer →", "Newest"],
    )
    browser.open(f"{base}/d/after/3")
    check("those after a number", browser.run(links) == list(range(27, 3, -1)))
    browser.type("#box", "member eve" + ENTER)
    check(
        "those of a member",
        browser.at("/d/of/eve") and browser.run(links) == [last - 1 - 2 * turn for turn in range(24)],
    )
    browser.type("#box", "Member nobody" + ENTER)
    check("those of nobody", browser.at("/d/of/nobody") and browser.until(lambda: "None" in browser.text(".count")))


ADDRESSES = [
    "",
    "d/of/ann",
    "d/4/at/30",
    "d/1",
    "new",
    "find",
    "haul",
    "c/1",
    "o/B3-S23/xp3_co9nas0san9oczgoldlo0oldlogz1047210127401",
    "l",
    "l/~Lesson_3,4~A_gun,1at2",
    "d/900",
    "x",
]


# What other modules try in the pages, in this order.
PARTS: list[Callable[..., None]] = [
    *web_addresses.PARTS,
    *web_many.PARTS,
    *web_files.PARTS,
    *web_player.PARTS,
    *web_colors.PARTS,
    *web_pictures.PARTS,
    *web_editor.PARTS,
    *web_waiting.PARTS,
    *web_layout.PARTS,
    *web_words.PARTS,
    *web_design.PARTS,
    *web_home.PARTS,
    *web_search.PARTS,
    *web_compare.PARTS,
    *web_collection.PARTS,
    # The form of the search needs the index, which is there now.
    web_waiting.contrasts,
    *web_club.PARTS,
    *web_members.PARTS,
    *web_visits.PARTS,
    *web_withdrawn.PARTS,
    *web_previews.PARTS,
]


def name_of(part: Callable[..., None]) -> str:
    """How a part is chosen with -k: `web_many.folders`."""
    return f"{part.__module__}.{part.__name__}"


@pytest.mark.parametrize("part", PARTS, ids=name_of)
def test_part(part: Callable[..., None], gateway: Gateway, browser: Browser, base: str, folder: str) -> None:
    """What the module web_NAME tries: its own words say what."""
    part(gateway, browser, base, folder)


def test_screens(browser: Browser, base: str) -> None:
    """No page is wider than a phone, and each is light or dark as is preferred; and what is on it has a name for who
    hears it."""
    for address in ADDRESSES:
        for width in (320, 390):
            browser.screen(width, 780)
            browser.open(f"{base}/{address}")
            wide = browser.run("return [document.documentElement.scrollWidth, window.innerWidth]")
            check(f"'{address}' on {width} pixels: {wide}", wide[0] <= width == wide[1])
        browser.picture("phone-" + (re.sub("[^a-z0-9]+", "-", address).strip("-")[:20] or "list"))
        same(f"names on '{address}': {(unnamed := browser.unnamed())}", unnamed, [])
        same(f"one heading on '{address}'", len(browser.all("h1")), 1)
    brightness = (
        "return getComputedStyle(document.documentElement).backgroundColor"
        ".match(/[0-9]+/g).slice(0, 3).reduce((sum, part) => sum + Number(part), 0) / 765"
    )
    for scheme in ("light", "dark"):
        browser.screen(1100, 900, scheme)
        browser.open(f"{base}/d/4/at/30")
        found = browser.run(brightness)
        check(f"the page is {scheme}: {found}", found > 0.9 if scheme == "light" else found < 0.15)
        check(
            f"the canvas is {scheme}",
            browser.wait_for(
                """
            await new Promise((resolve) => requestAnimationFrame(() => requestAnimationFrame(resolve)));
            return [...document.querySelector('canvas.large').getContext('2d')
              .getImageData(1, 1, 1, 1).data.slice(0, 3)];"""
            )[0]
            * 1
            // 128
            == (scheme == "light"),
        )
        check(f"the cells are there in {scheme}", len(seen(browser)[0]) > 30)
    browser.picture("dark")
    browser.screen(1100, 900, "light")
    check("a change of the preference is drawn", browser.until(lambda: len(seen(browser)[0]) > 30))
    browser.screen(1100, 900, "light", 2)
    browser.open(f"{base}/d/4/at/30")
    check(
        "a screen of two pixels in one",
        browser.run(
            "const canvas = document.querySelector('canvas.large'); return canvas.width === 2 * canvas.clientWidth"
        ),
    )
    browser.screen()


# ---- drawings: web_drawings.py has these tests


def test_drawing(browser: Browser, base: str) -> None:
    web_drawings.drawing(browser, base)


def test_sizes(browser: Browser, base: str) -> None:
    web_drawings.sizes(browser, base)


# ---- hauls, and what is left at the end


@pytest.mark.parametrize("part", web_haul.PARTS, ids=name_of)
def test_haul(part: Callable[..., None], gateway: Gateway, browser: Browser, base: str, folder: str) -> None:
    """The page on tables of hauls."""
    part(gateway, browser, base, folder)


def test_logs(browser: Browser, base: str) -> None:
    """The pages asked nobody but their own origin, and met no fault of their own."""
    browser.keep_logs()
    own = ("about:", "data:", base)
    same(
        "requests to other origins",
        [url for url in browser.asked if not url.startswith(own) and not re.match(r"http://127\.0\.0\.1:\d+/", url)],
        [],
    )
    check("requests were made", len(browser.asked) > 100)
    # Of the reading of pictures, which these tests do, the browser has an advice of its own.
    faulty = [
        line for line in browser.said if "Failed to load resource" not in line and "willReadFrequently" not in line
    ]
    same(f"faults of the pages: {faulty[:3]}", faulty, [])


def test_firefox(gateway: Gateway, base: str, folder: str) -> None:
    """The main pages in a Firefox, and what is played and cited there."""
    web_firefox.in_firefox(gateway, base, folder, (test_played, test_cited))


def test_rows(gateway: Gateway, folder: str, tokens: set[str]) -> None:
    """What the pages deposited is kept once each, under the sums of the files."""
    gateway.end()
    archive = sqlite3.connect(os.path.join(folder, "club.db"))
    found = dict(archive.execute("SELECT token, member FROM deposits WHERE length(token) = 64"))
    same("tokens that no deposit has", tokens - set(found), set())
    same("whose they are", set(found.values()), {"ann", "dora"})
    same(
        "no file is kept twice",
        archive.execute("SELECT count(*), count(DISTINCT rle) FROM deposits").fetchone(),
        archive.execute("SELECT max(id), max(id) FROM deposits").fetchone(),
    )
    same(
        "the tokens of censuses",
        archive.execute("SELECT token, member FROM censuses WHERE token LIKE 'g%' ORDER BY id").fetchall()[1:],
        [("g0-l4-d1", "ann")],
    )
    archive.close()
