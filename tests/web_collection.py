"""The parts of tests/test_web.py on collections: their addresses, whatever their captions say; playing, editing,
printing and saving one; and how one begins, with a folder or a deposit.
"""
import base64
import io
import os
import re
import urllib.parse
import zipfile
from typing import Any

from browser import Browser
from clients import check, same
from gateways import Gateway
from pages import asked, content, kept, listed, told
from web_drawings import later, seen
from web_many import written

ENTER = "\ue007"
LINES = ["bo$2bo$3o!", "3o!", "2o$2o!"]
# Captions that an address has to survive. The last one has signs that turn the direction of a text, and no letter.
TEXTS = [
    "Lesson 3",
    "A gun, later",
    "a/../../../etc/passwd",
    "..",
    "x_y.z~!'()*",
    "100% of #7? & more; \\",
    "滑翔 é 😀",
    "<b onclick='x'>&amp;\"</b>",
    ".2F%2F%252F",
    "https://other.example/?a=b#c",
    "مدفع ‮",
]
ROUND = """
const { collectionAddress, readCollection } = await import('/sources/shared/collection.js');
return words[0].map((text) => {
  const items = [{ number: 4, at: 0, caption: text }, { number: 7, at: 30, caption: '' }];
  const address = collectionAddress({ title: text, items });
  const found = readCollection(new URL(address, location.origin).pathname.slice('/l/'.length));
  return [address, found.title, found.items[0].caption, found.items[1].number, found.items[1].at, found.unread];
});
"""
READ = "return (await import('/sources/shared/collection.js')).readCollection(words[0]);"
# Each request waits until `release()`.
HELD = """
const { fetch } = window;
const held = new Promise((resolve) => { window.release = resolve });
window.fetch = (...words) => held.then(() => fetch(...words));
"""
# `saved` counts the files that the page makes.
SAVED = """
const { createObjectURL } = URL;
window.saved = 0;
URL.createObjectURL = (...words) => { window.saved += 1; return createObjectURL(...words); };
"""
SHOWN = """
return [...document.querySelectorAll('.collection li')].map((one) => [
  one.querySelector('.place').textContent, one.querySelector('.caption').textContent,
  one.querySelector('a').getAttribute('href')]);
"""


def named(gateway: Gateway, name: str, count: int) -> list[int]:
    """Some deposits of different files."""
    return [
        kept(gateway, f"{name}-{at}", f"#N {name} {at + 1}\nx = 3, y = 3\n{LINES[at % 3]}".encode())
        for at in range(count)
    ]


def path_of(browser: Browser) -> str:
    return str(browser.run("return location.pathname"))


def addresses(gateway: Gateway, browser: Browser, base: str, _folder: str) -> None:
    """A title and a caption are the same after a trip through an address, which has no sign that a browser, a gateway
    or a chat reads as something else; the gateway has the page there, and the page shows them as texts."""
    number = named(gateway, "addressed", 1)[0]
    browser.open(f"{base}/find")
    found = browser.wait_for(ROUND, TEXTS)
    for text, (address, *came) in zip(TEXTS, found):
        same(f"the trip of {text}", came, [text, text, 7, 30, 0])
        safe = re.fullmatch(r"/l/~(?:[A-Za-z0-9_.-]|%[89A-F][0-9A-F])+,4~[^/?#]+,7at30", address)
        check(f"the address {address}", safe and urllib.parse.unquote(address).count("/") == 2)
        status, page, _ = asked(gateway.port, address)
        check(f"the page at {address}", status == 200 and b'<main id="main"' in page)
        own = address.replace(",4~", f",{number}~").replace(",7at30", "")
        browser.open(base + own)
        same(f"the heading of {own}", browser.text("h1"), text)
        same(f"the caption of {own}", browser.text(".collection .caption"), text)
        same(f"the title of {own}", browser.run("return document.title"), f"{text} · Life archive")
        same(f"its preview says what it is: {own}", asked(gateway.port, own)[1].count(b"Collection \xc2\xb7 "), 2)
    for list_, numbers, unread in (
        ("4,7at30,4", [4, 7, 4], 0),
        ("4,7at2049,x,0,9~%E2%9", [4], 4),
        ("~%E2,4", [4], 1),
        ("~Only_a_title", [], 0),
        ("1" * 16, [], 1),
        (",".join(["4"] * 501), [4] * 500, 1),
    ):
        read = browser.wait_for(READ, list_)
        came = [item["number"] for item in read["items"]], read["unread"]
        same(f"what {list_[:30]} lists", came, (numbers, unread))
    browser.open(f"{base}/l/{number},x")
    check("a part that can't be read", browser.until(lambda: "1 part of this address" in browser.text(".refusal")))


def played(gateway: Gateway, browser: Browser, base: str, _folder: str) -> None:
    """The deposits are played one after the other in one player; one that the archive lacks leaves the others."""
    numbers = named(gateway, "in-a-row", 3)
    texts = [told(gateway, f"/deposits/{number}") for number in numbers]
    browser.open(f"{base}/l/{numbers[0]}~First,{numbers[1]}at1~Second,900000,{numbers[2]}")
    check("the first", browser.until(lambda: seen(browser)[0] == later(texts[0], 0)))
    same("its place", [browser.text("#place"), browser.text(".sequence .caption")], ["1 of 4", "First"])
    labels = browser.run("return [...document.querySelectorAll('.collection li > button')].map((one) => one.ariaLabel)")
    same("the names of the buttons that play one", len(set(labels)), 4)
    check("the first has no deposit before it", browser.one("#before").get_attribute("disabled"))
    browser.one("#next").click()
    check("the second, at its generation", browser.until(lambda: seen(browser)[0] == later(texts[1], 1)))
    check("its name", browser.until(lambda: browser.text("#now") == "in-a-row 2, generation 1"))
    same("its generation", browser.run("return document.getElementById('generation').value"), "1")
    same("its caption", browser.text(".sequence .caption"), "Second")
    browser.press("]")
    check("the third is not there", browser.until(lambda: "no deposit" in browser.text(".sequence .refusal")))
    browser.press("[")
    check("back by a key", browser.until(lambda: seen(browser)[0] == later(texts[1], 1)))
    browser.one("#before").click()
    check("back to the first", browser.until(lambda: browser.text("#place") == "1 of 4"))
    browser.one("#play").click()
    at = "return Number(document.getElementById('generation').value)"
    check("it plays", browser.until(lambda: browser.run(at) > 3))
    browser.one("#next").click()
    check("the next one plays too", browser.until(lambda: browser.text("#place") == "2 of 4" and browser.run(at) > 3))
    browser.one("#play").click()
    check("it stops", browser.until(lambda: browser.text(".sequence .source").startswith("✓ Proved")))
    browser.all(".collection li")[3].find_element("css selector", "button").click()
    check("one that is pressed", browser.until(lambda: browser.text("#place") == "4 of 4" and browser.run(at) > 3))


def at_end(browser: Browser, list_: str) -> bool:
    return bool(browser.until(lambda: path_of(browser) == f"/l/{list_}"))


def edited(gateway: Gateway, browser: Browser, base: str, _folder: str) -> None:
    """One makes a collection on its page: each change is in the address at once, and a new window has it from there."""
    one, two, three = named(gateway, "edited", 3)
    browser.open(f"{base}/d")
    browser.one("main a[href='/l']").click()
    check("an empty one", browser.at("/l") and "only in the address" in browser.text(".count"))
    for typed, list_ in (
        (str(one), f"{one}"),
        (f"{two} at 5", f"{one},{two}at5"),
        (f"{base}/d/{three}/at/7", f"{one},{two}at5,{three}at7"),
    ):
        browser.type("#added", typed)
        browser.one("#add").click()
        check(f"{typed} is added", at_end(browser, list_))
    browser.type("#added", "900000")
    browser.one("#add").click()
    check("one that is not there", browser.until(lambda: "no deposit with this number" in browser.text(".refusal")))
    browser.type("#title", "My guns\t")
    check("a title", at_end(browser, f"~My_guns,{one},{two}at5,{three}at7"))
    browser.type(".collection li:nth-child(2) input", "Later, and <more>\t")
    check("a caption", at_end(browser, f"~My_guns,{one},{two}at5~Later.2C_and_.3Cmore.3E,{three}at7"))
    browser.one(".collection li:nth-child(2) [title=Earlier]").click()
    check("moved", at_end(browser, f"~My_guns,{two}at5~Later.2C_and_.3Cmore.3E,{one},{three}at7"))
    focused = "return document.activeElement.closest('li')?.querySelector('.place').textContent"
    same("the focus moves along", browser.run(focused), "1.")
    browser.one(".collection li:nth-child(2) [title=Remove]").click()
    check("removed", at_end(browser, f"~My_guns,{two}at5~Later.2C_and_.3Cmore.3E,{three}at7"))
    wanted = [["1.", "Later, and <more>", f"/d/{two}/at/5"], ["2.", "", f"/d/{three}/at/7"]]
    same("what is shown", browser.run(SHOWN), wanted)
    browser.run("sessionStorage.clear()")
    browser.open(base + path_of(browser))
    same("a new window", browser.run(SHOWN), wanted)
    same("its heading", browser.text("h1"), "My guns")
    check("nothing to edit before one asks", not browser.one("#title").is_displayed())
    too_many(browser, base, one)


def emptied(gateway: Gateway, browser: Browser, base: str, _folder: str) -> None:
    """A deposit that is added after the last one was removed is shown, and added once if Enter is pressed twice."""
    one, two = named(gateway, "emptied", 2)
    browser.open(f"{base}/l/{one}")
    check("the only one", browser.until(lambda: browser.text("#now") == "emptied 1"))
    browser.one("#edit").click()
    browser.one(".collection [title=Remove]").click()
    check("without deposits there is no player", browser.at("/l") and not browser.one(".sequence").is_displayed())
    browser.run(HELD)
    browser.type("#added", f"{two}{ENTER}{ENTER}")
    browser.run("release()")
    check("the new one is named", browser.until(lambda: browser.text("#now") == "emptied 2"))
    text = told(gateway, f"/deposits/{two}")
    check("the new one is drawn", browser.until(lambda: seen(browser)[0] == later(text, 0)))
    same("it is added once", [path_of(browser), browser.text("#place")], [f"/l/{two}", "1 of 1"])
    browser.type("#added", f"{one}{ENTER}")
    check("another one is added", at_end(browser, f"{two},{one}"))


def too_many(browser: Browser, base: str, one: int) -> None:
    """A collection that is as long as one may be is not changed."""
    browser.open(f"{base}/l/{','.join([str(one)] * 500)}")
    browser.one("#edit").click()
    before = path_of(browser)
    browser.type("#added", str(one))
    browser.one("#add").click()
    check("at most 500", browser.until(lambda: "at most 500 deposits" in browser.text(".refusal")))
    same("the address is as it was", path_of(browser), before)
    long = ",".join([f"{one}~{'a' * 117}"] * 48)
    browser.open(f"{base}/l/{long}")
    browser.one("#edit").click()
    browser.run("document.getElementById('title').value = '\\u6ed1'.repeat(60)")
    browser.one("#title").send_keys("\t")
    browser.run("document.getElementById('title').dispatchEvent(new Event('change'))")
    check("at most 6,000 characters", browser.until(lambda: "6,000 characters" in browser.text(".refusal")))
    same("the long address is as it was", path_of(browser), f"/l/{long}")
    same("a long address has its page", asked(browser_port(base), "/l/" + "4," * 2998 + "4")[0], 200)


def browser_port(base: str) -> int:
    return int(base.rsplit(":", 1)[1])


def packed(gateway: Gateway, browser: Browser, base: str, folder: str) -> None:
    """All texts in one ZIP file, in order, with a list; each says where it is from."""
    one, two, _ = named(gateway, "packed", 3)
    address = f"/l/~Two,{one}~The_glider,{two}at1,900000"
    browser.open(base + address)
    browser.until(lambda: browser.text("#now") == "packed 1")
    browser.run(SAVED)
    browser.run("const pack = document.getElementById('pack'); pack.click(); pack.click()")
    path = os.path.join(folder, "downloads", "collection.zip")
    check("it is loaded", browser.until(lambda: os.path.exists(path)))
    same("it is made once", browser.run("return window.saved"), 1)
    with zipfile.ZipFile(io.BytesIO(content(path))) as file:
        same("no file is damaged", file.testzip(), None)
        names = ["1-packed-1.rle", "2-packed-2-generation-1.rle", "contents.txt"]
        same("the files", file.namelist(), names)
        own, after, said = (file.read(name).decode() for name in names)
    origin = f"#C Deposit {one}, {base}/d/{one}\n"
    text = told(gateway, f"/deposits/{one}").decode()
    same("the first text", own, text.replace("x = ", f"{origin}x = ", 1))
    wanted = told(gateway, f"/deposits/{two}/at/1").decode()
    lines = f"#N packed 2, generation 1\n#C Generation 1 of deposit {two}, {base}/d/{two}/at/1\n"
    same("the second text", after, lines + wanted)
    begin = f"Two\n{base}{address}\n\n1. packed 1\nThe glider\n{base}/d/{one}\n1-packed-1.rle\n"
    check(f"the list: {said}", said.startswith(begin) and "3. Deposit 900,000\n" in said and "no deposit with" in said)


def pages_of(browser: Browser) -> int:
    """On how many pages of paper it would be."""
    words: dict[str, Any] = {"paperWidth": 8.27, "paperHeight": 11.69}
    pdf = base64.b64decode(browser.driver.execute_cdp_cmd("Page.printToPDF", words)["data"])
    return len(re.findall(rb"/Type\s*/Page[^s]", pdf))


def printed(gateway: Gateway, browser: Browser, base: str, _folder: str) -> None:
    """Ten are on a page of paper, all of them drawn."""
    numbers = named(gateway, "printed", 21)
    for count, wanted in ((10, 1), (11, 2), (20, 2), (21, 3)):
        captions = [f"{number}~A_caption_of_some_length_for_number_{number}" for number in numbers[:count]]
        browser.open(f"{base}/l/~On_paper,{','.join(captions)}")
        browser.run("window.print = () => { window.isPrinted = true }")
        browser.one("#print").click()
        check("it is printed", browser.until(lambda: browser.run("return window.isPrinted")))
        same("all are drawn", len(browser.all(".collection canvas")), count)
        same(f"the pages of {count}", pages_of(browser), wanted)


def begun(gateway: Gateway, browser: Browser, base: str, folder: str) -> None:
    """A folder that is deposited ends with its collection. A deposit is added to the collection that was edited last in
    the window."""
    texts = {f"row-{at}/{at}.rle": f"x = {9 + at}, y = 1\n{9 + at}o!".encode() for at in (1, 2)}
    paths = written(os.path.join(folder, "collected"), texts)
    browser.open(f"{base}/new")
    browser.run("sessionStorage.clear()")
    browser.open(f"{base}/new")
    before = len(listed(gateway))
    browser.drop([os.path.dirname(os.path.dirname(paths[0]))], ".drop")
    browser.until(lambda: browser.text("#send-many") == "Deposit 2 files")
    browser.type("#many-member", "ann")
    browser.one("#send-many").click()
    browser.one(".in-order").click()
    list_ = f"~collected,{before + 1},{before + 2}"
    check("the collection of a folder", browser.at(f"/l/{list_}") and browser.text("h1") == "collected")
    browser.one("#edit").click()
    browser.go("/d/4/at/2")
    browser.at("/d/4/at/2")
    browser.one("#collect").click()
    check("a generation is added", browser.at(f"/l/{list_},4at2"))
    browser.run("sessionStorage.clear()")
    browser.go("/d/4")
    browser.at("/d/4")
    browser.one("#collect").click()
    check("a new collection", browser.at("/l/4"))
    browser.run("sessionStorage.clear()")


PARTS = [addresses, played, edited, emptied, packed, printed, begun]
