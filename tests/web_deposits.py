"""The parts of tests/test_web.py on the form for deposits: a file that is pasted, dropped or chosen, one that is too
long, and the sentences for faults and refusals.
"""
import hashlib
import os
import re
import time

from browser import Browser
from clients import HERE, check, same
from gateways import BUSY, Gateway
from pages import content, told

TOP = os.path.join(HERE, "..")
GUN = os.path.abspath(os.path.join(TOP, "examples", "gosper-gun.rle"))
UNFINISHED = "#C Cut.\nx = 1, y = 1\n3o"
CONTROL = "\ue009"


def pasted(gateway: Gateway, browser: Browser, base: str, tokens: set[str]) -> None:
    """A file that is pasted is drawn, deposited under the sum of its bytes, and shown."""
    text = "#N Pasted\n#O Ann\nx = 3, y = 3, rule = B3/S23\nbo$2bo$3o!\n"
    browser.open(f"{base}/new")
    # A paste of the system's clipboard: the text comes into it by a cut.
    browser.type("#pattern", text)
    browser.one("#pattern").send_keys(CONTROL, "a")
    browser.one("#pattern").send_keys(CONTROL, "x")
    same("the text is cut", browser.run("return document.getElementById('pattern').value"), "")
    browser.open(f"{base}/")
    browser.run("document.body.tabIndex = -1; document.body.focus()")
    browser.press(CONTROL, "v")
    check(
        "a paste on a list goes to the form",
        browser.at("/new")
        and browser.until(lambda: browser.run("return document.getElementById('pattern').value") == text),
    )
    check(
        "the pasted file is drawn",
        "Pasted: 5 cells, 3 by 3, B3/S23" in browser.text(".preview") and browser.one(".preview canvas"),
    )
    browser.type("#member", "Ann Smith")
    same("capitals become small letters", browser.run("return document.getElementById('member').value"), "ann smith")
    browser.one("#send").click()
    check("a bad member is explained", browser.until(lambda: "not a valid member name" in browser.text(".refusal")))
    browser.type("#member", "ann")
    browser.picture("deposit-form")
    browser.one("#send").click()
    check(
        "the pasted file is shown",
        browser.at("/d/2") and browser.until(lambda: browser.text("h1") == "Pasted deposit 2"),
    )
    same("what is kept of it", told(gateway, "/deposits/2"), text.encode())
    check(
        "that is said",
        "Generation 0: 5 live cells in 3 by 3" == browser.until(lambda: browser.text("#status"))
        and "By Ann." in browser.text(".by"),
    )
    check(
        "its kind and code",
        browser.until(
            lambda: "spaceship of period 4, c/4 diagonal, moves 1 column to the right and 1 row down"
            in browser.text(".facts")
        )
        and browser.until(lambda: "xq4_153 glider" in browser.text(".facts")),
    )
    browser.picture("deposit-glider")
    tokens.add(hashlib.sha256(text.encode()).hexdigest())


def dropped(gateway: Gateway, browser: Browser, base: str, folder: str, tokens: set[str]) -> None:
    """A file is dropped, one with line ends and bytes that no text field keeps; one is chosen; the same again is the
    same deposit."""
    file = os.path.join(folder, "dropped.rle")
    raw = b"#N Dropped \xff\r\nx = 3, y = 1\r\n3o!\r\n"
    with open(file, "wb") as out:
        out.write(raw)
    browser.open(f"{base}/")
    browser.drop([file], "main")
    check(
        "a drop on a list goes to the form",
        browser.at("/new") and browser.until(lambda: "3 cells, 3 by 1" in browser.text(".preview")),
    )
    token = "return document.getElementById('token').value"
    same(
        "a file that is not UTF-8 is read as windows-1252",
        (browser.run(token), browser.run("return document.getElementById('text-name').value")),
        (hashlib.sha256(raw.decode("cp1252").encode()).hexdigest(), "Dropped ÿ"),
    )
    browser.one("#as-old").click()
    same("the token is the sum of the bytes", browser.run(token), hashlib.sha256(raw).hexdigest())
    same("the member is remembered", browser.run("return document.getElementById('member').value"), "ann")
    browser.one("#send").click()
    check("the dropped file is shown", browser.at("/d/3"))
    same(
        "what is kept of the drop", told(gateway, "/deposits/3"), b"#N Dropped \xff\nx = 3, y = 1, rule = B3/S23\n3o!\n"
    )
    browser.open(f"{base}/new")
    browser.one("#file").send_keys(GUN)
    browser.until(lambda: "Gosper glider gun: 36 cells, 36 by 9" in browser.text(".preview"))
    browser.one("#send").click()
    check(
        "the chosen file is shown",
        browser.at("/d/4") and told(gateway, "/deposits/4").startswith(b"#N Gosper glider gun\n"),
    )
    browser.open(f"{base}/new")
    browser.drop([GUN], ".drop")
    browser.until(lambda: "36 cells" in browser.text(".preview"))
    browser.one("#send").click()
    check("the same file again has its number", browser.at("/d/4"))
    tokens.update((hashlib.sha256(raw).hexdigest(), hashlib.sha256(content(GUN)).hexdigest()))


# Counts the files that a page reads.
COUNT_READS = """
window.reads = 0;
const whole = Blob.prototype.arrayBuffer;
Blob.prototype.arrayBuffer = function () { window.reads += 1; return whole.call(this); };
"""


def too_long(gateway: Gateway, browser: Browser, base: str, folder: str) -> None:
    """A file is read only if it is not longer than the archive takes; the sentence for one that is longer is the usual
    one."""
    longest, longer, huge = (os.path.join(folder, name) for name in ("longest.rle", "longer.rle", "huge.rle"))
    for path, size in ((longest, 1_048_576), (longer, 1_048_577), (huge, 64 << 20)):
        with open(path, "wb") as out:
            out.write(b"x = 3, y = 1\n3o!\n")
            out.truncate(size)
    before = told(gateway, "/deposits/after/0")
    browser.open(f"{base}/new")
    usual = browser.wait_for("const { FAULTS } = await import('/sources/requests/refusals.js'); return FAULTS[1][1];")
    browser.run(COUNT_READS)
    browser.drop([longest], ".drop")
    check(
        "the longest file is read",
        browser.until(lambda: "3 cells, 3 by 1" in browser.text(".preview"))
        and browser.run("return window.reads") == 1,
    )
    for path in (longer, huge):
        begun = time.monotonic()
        browser.drop([path], ".drop")
        name = os.path.basename(path)
        found = browser.until(
            lambda: browser.text("#status") == f"{name} is too long." and browser.text(".preview .refusal p") == usual
        )
        check(
            f"{name} is too long, which is said after {time.monotonic() - begun:.1f} s",
            found and time.monotonic() - begun < BUSY,
        )
        same(f"{name} is not read", browser.run("return window.reads"), 1)
        same(
            f"nothing is left of the file before {name}",
            browser.run("return document.getElementById('pattern').value + document.getElementById('token').value"),
            "",
        )
    browser.type("#member", "ann")
    browser.one("#send").click()
    check(
        "it is said again by the button",
        browser.until(lambda: browser.text("#sent .refusal p") == usual)
        and browser.driver.current_url.endswith("/new"),
    )
    same("no file that is too long is sent", told(gateway, "/deposits/after/0"), before)
    browser.type("#pattern", "x = 2, y = 1\n2o!")
    check(
        "a pattern that is typed after it is taken",
        browser.until(lambda: "2 cells, 2 by 1" in browser.text(".preview")),
    )


def faults(browser: Browser, base: str) -> None:
    """The fault of a file is explained in a sentence, with its line, before it is sent and after."""
    browser.open(f"{base}/new")
    browser.type("#pattern", UNFINISHED)
    check(
        "a fault is shown before sending",
        browser.until(lambda: 'ends without "!"' in browser.text(".preview .refusal"))
        and "Line 3: 3o" in browser.text(".preview"),
    )
    browser.one("#send").click()
    told_after = browser.until(lambda: browser.text("#sent .refusal"))
    check(
        "a refused file is explained",
        "Add it at the end" in told_after
        and "Line 3: 3o" in told_after
        and "no-end" in told_after
        and browser.driver.current_url.endswith("/new"),
    )
    same("a refusal is heard", browser.one("#sent .refusal").get_attribute("role"), "alert")
    browser.picture("refused")
    for rule, wanted in (
        ("LowLife", "Write it in digits"),
        ("LifeHistory", "Generations, isotropic and LifeHistory rules are not taken"),
        ("B2/S/C3", "Generations, isotropic and LifeHistory rules are not taken"),
        ("23/3/8", "Generations, isotropic and LifeHistory rules are not taken"),
        ("B2-a/S12", "Generations, isotropic and LifeHistory rules are not taken"),
        ("B3/S23:T100", "bounded grid"),
    ):
        browser.type("#pattern", f"x = 3, y = 3, rule = {rule}\n3o!")
        check(
            f"the rule {rule} is explained",
            browser.until(lambda: wanted in browser.text(".preview .refusal")),
        )
    browser.type("#pattern", "x = 3, y = 3, rule = LifeHistory\n3o!")
    browser.one("#send").click()
    check(
        "and so is the archive's refusal",
        browser.until(lambda: "are not taken" in browser.text("#sent .refusal")),
    )
    # The token of another pattern.
    browser.type("#pattern", "x = 1, y = 1\no!")
    browser.one("form details summary").click()
    browser.type("#token", "glider")
    browser.one("#send").click()
    check(
        "a used token is explained",
        browser.until(lambda: "Take another token" in browser.text("#sent .refusal")),
    )


def sentences(browser: Browser, base: str) -> None:
    """Each refusal of docs/API.md and each fault of docs/FORMATS.md has a sentence of its own, and its number names
    it."""
    with open(os.path.join(TOP, "docs", "API.md"), encoding="utf-8") as text:
        refusals = [name for number, name in re.findall(r"^\| (\d+) \| `([a-z-]+)` \| \d+ \|", text.read(), re.M)]
    with open(os.path.join(TOP, "docs", "FORMATS.md"), encoding="utf-8") as text:
        faulty = re.findall(
            r"^\| (\d+) \| `([a-z-]+)` \|", text.read().split("**Faults**")[1].split("The last four")[0], re.M
        )
    same("the refusals and faults that are tried", (len(faulty), len(refusals)), (10, 14))
    browser.open(f"{base}/find")
    named = browser.wait_for(
        "const { FAULTS } = await import('/sources/requests/refusals.js'); return FAULTS.map((fault) => fault?.[0]);"
    )
    same("the names of faults", named[1:], [name for _, name in faulty])
    texts = browser.wait_for(
        """
        const { sentenceOf, refusalOf } = await import('/sources/requests/refusals.js');
        const said = words[0].map((name) => sentenceOf(refusalOf(400, JSON.stringify({ error: name, refusal: 1 }))));
        return said.concat(words[1].map((rle) => sentenceOf(
          refusalOf(422, JSON.stringify({ error: 'bad-pattern', refusal: 7, rle })))));""",
        refusals + ["too-many-requests", "no-reply"],
        [int(number) for number, _ in faulty],
    )
    unknown = browser.wait_for(
        "const { sentenceOf, refusalOf } = await import('/sources/requests/refusals.js'); "
        "return [[418, 'x'], [502, '<html>'], [401, '<html>']].map((reply) => sentenceOf(refusalOf(...reply)));"
    )
    check(
        "a sentence for each",
        all(len(text) > 40 and text.endswith(".") for text in texts) and len(set(texts)) == len(texts) == 26,
    )
    check(
        "a reply that is not from an archive",
        unknown[0] not in texts and unknown[1] == texts[15] and "password" in unknown[2],
    )
