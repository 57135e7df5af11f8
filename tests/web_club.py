"""The parts of tests/test_web.py on what a member who knows the field looks for: who deposited, comments, the wheel,
playing from a cited generation, the search box, objects, groups, the first page and the page about the archive.
"""
import json
import os
import random
import re
import time
from typing import Any

import life
from browser import Browser
from clients import HERE, check, exchanged, message, same
from gateways import Gateway
from pages import asked, content, index, kept

WEB = os.path.join(HERE, "..", "web")
ENTER = "\ue007"
# Above this the first new picture of a play is late, in milliseconds. A machine with other work is slower than the 200
# that are wanted.
LATE = 2000
# Presses *Play* and answers how long it takes until another generation is shown, in milliseconds.
FIRST_PICTURE = """
const shown = document.getElementById('generation');
const [from, begun] = [shown.value, performance.now()];
document.getElementById('play').click();
while (shown.value === from && performance.now() - begun < 20000) await new Promise(requestAnimationFrame);
const took = performance.now() - begun;
document.getElementById('play').click();
return took;
"""


def soup(size: int, seed: int) -> bytes:
    chance = random.Random(seed)
    cells = {(x, y) for x in range(size) for y in range(size) if chance.random() < 0.35}
    return life.file_text((None, None, (), life.LIFE, life.normal(cells)))


def listed(_gateway: Gateway, _browser: Browser, _base: str, _folder: str) -> None:
    """The page about the modules names each of them once, in the row of its folder, and no others."""
    page = content(os.path.join(WEB, "README.md")).decode()
    rows = [line.split("|") for line in page.splitlines() if line.startswith("| `")]
    named = [
        (folder.strip("` ./"), name) for _, folder, what, _ in rows for name in re.findall(r"`([A-Za-z0-9]+)`", what)
    ]
    modules = [
        (os.path.relpath(folder, WEB).strip("."), name[: -len(".js")])
        for folder, _, names in os.walk(WEB)
        for name in names
        if name.endswith(".js")
    ]
    same("the modules of the page", sorted(named), sorted(modules))


def wheel(browser: Browser, pixels: Any, modifiers: int = 0) -> None:
    """A turn of the wheel over the middle of the canvas."""
    box = browser.run(
        "const box = document.querySelector('canvas.large').getBoundingClientRect(); "
        "return [box.x + box.width / 2, box.y + box.height / 2]"
    )
    browser.driver.execute_cdp_cmd(
        "Input.dispatchMouseEvent",
        {"type": "mouseWheel", "x": box[0], "y": box[1], "deltaX": 0, "deltaY": pixels, "modifiers": modifiers},
    )


def deposited(_gateway: Gateway, browser: Browser, base: str, _folder: str) -> None:
    """The page that follows a deposit says who deposited it, also right after the list before it was asked for."""
    for turn in range(3):
        browser.open(f"{base}/new")
        browser.run("sessionStorage.clear()")
        browser.type("#pattern", f"x = {turn + 70}, y = 1\n{turn + 70}o!")
        browser.type("#member", "ann")
        browser.one("#send").click()
        check(
            f"who deposited, try {turn}",
            browser.until(lambda: "Deposited by ann." in browser.text(".by") and "Deposited." in browser.text(".note")),
        )
    same(
        "a link to one's own deposits",
        browser.run("const mine = document.getElementById('mine'); return !mine.hidden && mine.pathname"),
        "/d/of/ann",
    )


def comments(gateway: Gateway, browser: Browser, base: str, _folder: str) -> None:
    """The comments are below the picture: three lines, and all of them by a press."""
    number = kept(
        gateway, "club-comments", b"".join(b"#C line %d\n" % line for line in range(1, 54)) + b"x = 3, y = 1\n3o!\n"
    )
    browser.open(f"{base}/d/{number}")
    top = browser.run("return document.querySelector('canvas.large').getBoundingClientRect().top")
    check(f"the canvas begins at {top}", top < 250)
    check(
        "three lines",
        browser.text("#comments-text") == "line 1\nline 2\nline 3" and browser.text("#all-comments") == "All 53 lines",
    )
    browser.one("#all-comments").click()
    check(
        "all lines",
        browser.text("#comments-text").endswith("line 53")
        and browser.run("return document.getElementById('all-comments').ariaExpanded") == "true",
    )
    for width, height in ((1280, 720), (390, 844)):
        browser.screen(width, height)
        browser.open(f"{base}/d/{number}")
        bottom = browser.run("return document.querySelector('.controls').getBoundingClientRect().bottom")
        check(f"the controls end at {bottom} of {height}", bottom <= height)
    browser.screen()


def wheeled(gateway: Gateway, browser: Browser, base: str, _folder: str) -> None:
    """The wheel scrolls the page until the canvas has the focus; small movements add up to a step of the zoom."""
    number = kept(gateway, "club-wheeled", b"#N Wheeled\nx = 3, y = 3\n3o$o$bo!\n")
    browser.open(f"{base}/d/{number}")
    wheel(browser, 200)
    check("the page scrolls", browser.until(lambda: browser.run("return scrollY") > 0))
    check("it is said how to zoom", browser.run("return !document.querySelector('.over').hidden"))
    browser.run("scrollTo(0, 0); document.querySelector('canvas.large').focus()")
    live = """const canvas = document.querySelector('canvas.large');
        const { width, height } = canvas;
        const { colors } = await import('/sources/drawing/draw.js');
        await new Promise((resolve) => requestAnimationFrame(() => requestAnimationFrame(resolve)));
        const { live } = colors();
        return new Uint32Array(canvas.getContext('2d').getImageData(0, 0, width, height).data.buffer)
          .filter((word) => word === live).length"""
    before = browser.wait_for(live)
    for _ in range(10):
        wheel(browser, -4)
    time.sleep(0.3)
    check(
        "ten small movements are less than a step",
        browser.wait_for(live) == before and browser.run("return scrollY") == 0,
    )
    for _ in range(20):
        wheel(browser, -4)
    check("more of them are a step", browser.until(lambda: browser.wait_for(live) > before))


def cited(gateway: Gateway, browser: Browser, base: str, _folder: str) -> None:
    """Playing from a cited generation begins at once, on and back; at the last one the page offers to deposit it."""
    number = kept(gateway, "club-large", soup(400, 5))
    browser.open(f"{base}/d/{number}/at/1500")
    took = browser.wait_for(FIRST_PICTURE)
    check(f"the first picture after {took:.0f} ms", took < LATE)
    check("it is the archive's", browser.until(lambda: "it matched the archive" in browser.text(".source")))
    browser.run(
        "const speed = document.getElementById('speed'); speed.value = '60'; speed.dispatchEvent(new Event('change'))"
    )
    browser.type("#run-to", "1480")
    browser.one("#run").click()
    check(
        "run to one before",
        browser.at(f"/d/{number}/at/1480")
        and browser.until(lambda: "At generation 1,480 it matched" in browser.text(".source")),
    )
    gun = kept(gateway, "club-acorn", b"#N Acorn\nx = 7, y = 3\nbo$3bo$2o2b3o!\n")
    browser.open(f"{base}/d/{gun}")
    browser.run(
        "const speed = document.getElementById('speed'); speed.value = '1920'; speed.dispatchEvent(new Event('change'))"
    )
    browser.one("#play").click()
    check(
        "32 generations a picture, to the end",
        browser.at("/at/2048") and browser.until(lambda: "2,048 is the last generation" in browser.text(".end")),
    )
    browser.one("#deposit-generation").click()
    check(
        "the last generation is offered",
        browser.at("/new")
        and browser.until(
            lambda: browser.run("return document.getElementById('text-name').value") == "Acorn, generation 2048"
        ),
    )
    browser.run("localStorage.removeItem('speed'); sessionStorage.clear()")


def sought(browser: Browser, text: str) -> None:
    """Types into the search box: the one in the head, or the one of the page that searches."""
    browser.type("#search-text" if browser.all("#search-text") else "#box", text + ENTER)


def boxed(gateway: Gateway, browser: Browser, base: str, folder: str) -> None:
    """The search box leads to an object, a deposit, a census, a rule, or to what has a name or a comment."""
    number = kept(gateway, "club-boxed", b"#N Boxed\n#C Found by D. Greene in 2003\nx = 3, y = 1\n3o!\n")
    check("an index for the box", index(gateway, os.path.join(folder, "club.db")))
    browser.open(f"{base}/about")
    for text, wanted in (
        ("xq4_153", "/o/B3-S23/xq4_153"),
        ("XQ4_153", "/o/B3-S23/xq4_153"),
        (f"#{number}", f"/d/{number}"),
        (str(number), f"/d/{number}"),
        (f"Deposit {number}", f"/d/{number}"),
        ("census 1", "/c/1"),
        ("B36/S23", "/find?rule=B36%2FS23"),
        ("23/36", "/find?rule=B36%2FS23"),
        ("xq4_153 B36/S23", "/o/B36-S23/xq4_153"),
        ("xs7_2596/b36s23", "/o/B36-S23/xs7_2596"),
        ("https://catagolue.example/object/xs7_2596/b3s23", "/o/B3-S23/xs7_2596"),
        ("xp15", "/o?text=xp15"),
        ("XS7_", "/o?text=xs7_"),
        ("Period 3", "/o?kind=p&period=3"),
    ):
        sought(browser, text)
        check(f"the box with {text}", browser.at(wanted))
    named = "return [...document.querySelectorAll('#named-objects a')].map((link) => link.pathname.split('/')[3])"
    for text, code in (("loaves", "xs7_2596"), ("lwss", "xq4_6frc"), ("fishhook", "xs7_178c"), ("PD", "xp15_4r4z4r4")):
        sought(browser, text)
        check(
            f"an object by the name {text}",
            browser.at(f"/find?text={text}") and browser.until(lambda: browser.run(named)) == [code],
        )
    for text in ("滑翔", "كونواي", "??", "c++"):
        sought(browser, text)
        check(
            f"no object by the text {text}",
            browser.until(lambda: browser.text(".count") != "") and browser.all("#named-objects") == [],
        )
    sought(browser, "morley")
    check("a rule by its name", browser.until(lambda: "B368/S245" in browser.text(".named")))
    sought(browser, "greene")
    check(
        "a comment",
        browser.until(
            lambda: browser.run("return [...document.querySelectorAll('.cards a')].map((link) => link.pathname)")
            == [f"/d/{number}"]
        ),
    )


def cells_of_objects(gateway: Gateway, browser: Browser, base: str, folder: str) -> None:
    """The list of objects has the cells of the smallest phase of each, as a catalogue has them: 48 of a pulsar, whose
    code spells a phase of 72."""
    number = kept(
        gateway, "club-pulsar", b"#N Of three\n" + content(os.path.join(HERE, "..", "examples", "pulsar.rle"))
    )
    words = ("x-member: ann", "x-token: club-pulsar")
    exchanged(gateway.life_port, [message("POST", f"/deposits/{number}/censuses/0/3", b"", *words)])
    check("an index with a pulsar", index(gateway, os.path.join(folder, "club.db")))
    browser.open(f"{base}/o?text=pulsar")
    row = "return [...document.querySelectorAll('.catalog tbody tr')].map((row) => row.children[4].textContent)"
    check("a pulsar has 48 cells", browser.until(lambda: browser.run(row) == ["48"]))
    browser.open(f"{base}/o?cells=48")
    check("it is found by them", browser.until(lambda: "pulsar" in browser.text(".catalog tbody")))


def objects(gateway: Gateway, browser: Browser, base: str, folder: str) -> None:
    """The page of objects has the totals of the archive, the most frequent first, sorts and filters them, and names
    groups."""
    number = kept(gateway, "club-field", b"#N Field\nx = 40, y = 9\n2o5b2ob2o5b3o$2o5b2ob2o3$b3o$o5bo$o5bo$o5bo$b3o!\n")
    exchanged(
        gateway.life_port,
        [message("POST", f"/deposits/{number}/censuses/0/4", b"", "x-member: ann", "x-token: club-field")],
    )
    check("an index for the objects", index(gateway, os.path.join(folder, "club.db")))
    browser.open(f"{base}/o")
    lines = (
        "return [...document.querySelectorAll('.catalog tbody tr')].map((row) => "
        "[new URL(row.querySelector('a').href).pathname.split('/')[3], "
        "Number(row.children[5].firstChild.data.replaceAll(',', '')), row.children[1].textContent])"
    )
    rows = browser.run(lines)
    check(
        "the most frequent first",
        len(rows) > 2 and [row[1] for row in rows] == sorted((row[1] for row in rows), reverse=True),
    )
    for code, count, _ in rows[:5]:
        limit = int(code[2 : code.index("_")]) if code[1] != "s" else 1
        same(
            f"the total of {code}",
            json.loads(asked(gateway.life_port, f"/objects/B3S23/{code}/{limit}")[1])["total"],
            count,
        )
    check("a group is named", browser.until(lambda: any("2 blocks" in row[2] for row in browser.run(lines))))
    browser.one("[data-column=period] button").click()
    check(
        "sorted by period",
        browser.run("return document.querySelector('[data-column=period]').ariaSort") == "ascending"
        and browser.run("return location.search") == "?sort=period",
    )
    browser.type("#objects-cells", "3")
    same("filtered by cells", [row[0] for row in browser.run(lines)], ["xp2_7"])
    browser.open(f"{base}/o?groups=split")
    blocks = next(row[1] for row in rows if row[0] == "xs4_33")
    check(
        "groups are split",
        browser.until(
            lambda: all(row[0] != "xs8_rr" for row in browser.run(lines))
            and next(row[1] for row in browser.run(lines) if row[0] == "xs4_33") > blocks
        ),
    )
    browser.open(f"{base}/o/B3-S23?text=glider")
    check("a filter that was cited", [row[0] for row in browser.run(lines)] in (["xq4_153"], []))
    browser.open(f"{base}/o/B3-S23/xs8_rr")
    check(
        "a group's page",
        browser.until(lambda: "2 blocks" in browser.text(".group")) and browser.all("a[href*=catagolue]") == [],
    )
    check("its parts by the archive's count", browser.until(lambda: f"block {blocks:,} time" in browser.text("#parts")))
    browser.open(f"{base}/")
    check(
        "the first page",
        browser.until(lambda: browser.text("#frequent h2") == "Most frequent objects") and browser.all(".cards li"),
    )
    browser.open(f"{base}/about#census")
    check(
        "about the archive",
        browser.text("h1") == "About this archive" and browser.until(lambda: browser.run("return scrollY") > 100),
    )
    for address in ("", "o", "o/B3-S23/xs8_rr", "about", "find?text=loaf"):
        browser.screen(320, 780)
        browser.open(f"{base}/{address}")
        browser.until(lambda: browser.all(".object-link") or address != "")
        wide = browser.run("return document.documentElement.scrollWidth")
        check(f"'{address}' on 320 pixels: {wide}", wide <= 320)
        same(f"names on '{address}': {(unnamed := browser.unnamed())}", unnamed, [])
    browser.screen()


def census_split(gateway: Gateway, browser: Browser, base: str, _folder: str) -> None:
    """The groups of a census can be split: their objects count separately, and single objects stay."""
    number = kept(gateway, "club-split", b"x = 21, y = 2\n2ob2o5b2ob2o5b2o$2ob2o5b2ob2o5b2o!\n")
    names = ("x-member: ann", "x-token: club-split")
    counted = exchanged(gateway.life_port, [message("POST", f"/deposits/{number}/censuses/0/4", b"", *names)])
    census = json.loads(counted.partition(b"\r\n\r\n")[2])["census"]
    browser.open(f"{base}/c/{census}")
    rows = (
        "return [...document.querySelectorAll('.census tbody th')].map((head) => "
        "[head.firstChild.textContent, head.nextSibling.textContent])"
    )
    whole = [["xs8_rr", "2"], ["xs4_33", "1"], ["unresolved", "0"]]
    same("groups are clusters", browser.run(rows), whole)
    check("blocks in groups", browser.until(lambda: "4 more in groups" in browser.text(".census tbody")))
    browser.one("#split").click()
    same("their blocks", browser.run(rows), [["xs4_33", "5"], ["unresolved", "0"]])
    browser.one(".census tbody a").click()
    browser.at("/o/B3-S23/xs4_33")
    browser.driver.back()
    check(
        "split for who comes back",
        browser.until(lambda: browser.run(rows) == [["xs4_33", "5"], ["unresolved", "0"]]),
    )
    browser.one("#split").click()
    same("groups again", browser.run(rows), whole)


def scripted(gateway: Gateway, browser: Browser, base: str, _folder: str) -> None:
    """The scripts of LifeViewer in comments are not shown."""
    number = kept(
        gateway,
        "club-scripted",
        b"#C A gun [[ ZOOM 4 ]] of 1970\n#C [[ AUTOSTART ]]\n#C\n#C [[ THEME 6\n"
        b"#C GPS 10\n#C ]]\n#C [1] a note\nx = 2, y = 1\n2o!\n",
    )
    browser.open(f"{base}/d/{number}")
    same("comments without scripts", browser.text("#comments-text"), "A gun  of 1970\n\n[1] a note")


def single_keys(_gateway: Gateway, browser: Browser, base: str, _folder: str) -> None:
    """Letters, digits and signs that are commands can be turned off; arrows, space and the buttons still work."""
    browser.open(f"{base}/d/4")
    choose = (
        "const keys = document.getElementById('letters'); keys.value = arguments[0]; "
        "keys.dispatchEvent(new Event('change'))"
    )
    at = "return document.getElementById('generation').value"
    browser.run(choose, "off")
    for key in ("n", "?", "/", "+", "b"):
        browser.press(key)
    check(
        "letters do nothing",
        browser.driver.current_url.endswith("/d/4")
        and not browser.run("return document.getElementById('keys').open")
        and browser.run("return document.activeElement.tagName") == "H1",
    )
    browser.press("\ue014")
    check("an arrow is a step", browser.until(lambda: browser.run(at) == "1"))
    browser.driver.refresh()
    browser.settled()
    same("the choice is kept", browser.run("return document.getElementById('letters').value"), "off")
    browser.press("n")
    browser.run(choose, "on")
    browser.press("n")
    check("letters are commands again", browser.at("/new"))
    browser.open(f"{base}/new")
    browser.type("#pattern", "#N Named\nx = 1, y = 1\no!")
    style = (
        "const style = getComputedStyle(document.getElementById(arguments[0])); "
        "return [style.borderStyle, style.opacity]"
    )
    same(
        "a field that is disabled looks so",
        [browser.run(style, name) for name in ("text-name", "text-author")],
        [["dashed", "0.6"], ["solid", "1"]],
    )
    browser.run("sessionStorage.clear()")


# Buttons whose name does not have the words that are seen on them.
MISNAMED = """
return [...document.querySelectorAll('button[aria-label]')].filter((button) => /[a-z]/i.test(button.textContent))
  .filter((button) => !button.ariaLabel.toLowerCase().includes(button.textContent.trim().toLowerCase()))
  .map((button) => button.textContent);
"""


def spoken(_gateway: Gateway, browser: Browser, base: str, _folder: str) -> None:
    """Who says what is seen on a button gets that button, and buttons that do different things have different names."""
    browser.open(f"{base}/d/1")
    check("where it is back", browser.until(lambda: browser.all("#back-at")))
    same("buttons with another name than they show", browser.run(MISNAMED), [])
    for path in ("/d/1", "/new"):
        browser.open(base + path)
        browser.unfold()
        same(f"{path}: buttons with another name than they show", browser.run(MISNAMED), [])
        names = browser.run(
            "return [...document.querySelectorAll('main button')].map((one) => one.ariaLabel ?? one.textContent)"
        )
        check(f"{path}: {names}", len(names) == len(set(names)) > 1)


def sorts(gateway: Gateway, browser: Browser, base: str, folder: str) -> None:
    """The tables of a census and of censuses are sorted by a press on a head."""
    check("an index for the tables", index(gateway, os.path.join(folder, "club.db")))
    browser.open(f"{base}/c/1")
    codes = "return [...document.querySelectorAll('.census tbody th code')].map((code) => code.textContent)"
    most_first = browser.run(codes)
    browser.one("[data-column=code] button").click()
    same("a census by codes", browser.run(codes), sorted(most_first))
    browser.one("[data-column=code] button").click()
    same("a census by codes, descending", browser.run(codes), sorted(most_first, reverse=True))
    same("its last row stays", browser.text(".census tbody tr:last-child th").split("no code")[0], "unresolved")
    browser.one(".census tbody a").click()
    browser.at("/o/B3-S23/xs6_696")
    browser.driver.back()
    check(
        "the order is kept for who comes back",
        browser.at("/c/1") and browser.until(lambda: browser.run(codes) == sorted(most_first, reverse=True)),
    )
    browser.one("[data-column=count] button").click()
    same("a census by counts", browser.run(codes), most_first)
    browser.open(f"{base}/c")
    lines = (
        "return [...document.querySelectorAll('.censuses tbody tr')].map((row) => "
        "[Number(row.querySelector('th').textContent), "
        "Number(row.querySelector('.number').textContent.replaceAll(',', ''))])"
    )
    rows = browser.run(lines)
    same("censuses, the newest first", [row[0] for row in rows], sorted((row[0] for row in rows), reverse=True))
    browser.one("[data-column=clusters] button").click()
    check(
        "censuses by clusters",
        browser.until(
            lambda: [row[1] for row in browser.run(lines)] == sorted((row[1] for row in rows), reverse=True)
            and browser.run("return document.querySelector('[data-column=clusters]').ariaSort") == "descending"
        ),
    )


def printed(_gateway: Gateway, browser: Browser, base: str, _folder: str) -> None:
    """On paper there are the pattern and the text, and no buttons."""
    browser.open(f"{base}/d/4")
    browser.driver.execute_cdp_cmd("Emulation.setEmulatedMedia", {"media": "print"})
    seen = browser.run(
        "return [...document.querySelectorAll('button, input, select, header nav, canvas.large, h1, .address')]"
        ".filter((one) => one.checkVisibility()).map((one) => one.className || one.tagName)"
    )
    browser.screen()
    same("what is on paper", seen, ["H1", "large", "address"])


def nothing_found(_gateway: Gateway, browser: Browser, base: str, _folder: str) -> None:
    """A page without a reply is headed so, and without an index the page that searches says why it has no box."""
    browser.open(f"{base}/about")
    browser.run("window.fetch = () => Promise.reject(new TypeError('away'))")
    browser.go("/find")
    check("no index", browser.until(lambda: "has no search index" in browser.text("main .empty")))
    browser.go("/d/4")
    check(
        "no reply",
        browser.until(lambda: browser.text("h1") == "No reply")
        and browser.run("return document.title") == "No reply · Life archive",
    )


PARTS = [
    listed,
    deposited,
    comments,
    scripted,
    single_keys,
    wheeled,
    cited,
    boxed,
    objects,
    cells_of_objects,
    census_split,
    sorts,
    spoken,
    printed,
    nothing_found,
]
