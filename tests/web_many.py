"""The parts of tests/test_web.py on names, and on many files at once: a drop, a choice and a folder, under the
gateway's limits as they are.
"""
import hashlib
import os

from browser import Browser, Relay, until
from clients import check, same
from gateways import Gateway
from pages import listed, told

# Ten deposits above the twenty that are let through at once wait for their turn at five a second.
MANY, PATIENCE = 32, 60
CUT = b"#C cut\nx = 1, y = 1\n3o"
LINES = (
    "return [...document.querySelectorAll('.files tbody tr')].map((row) => "
    "[row.querySelector('th').firstChild.textContent, row.querySelector('.outcome').textContent, "
    "!!row.querySelector('canvas')])"
)


def named_file(number: int) -> bytes:
    return f"#N Of many {number}\nx = {number}, y = 1, rule = B3/S23\n{number}o!\n".encode()


def written(folder: str, files: dict[str, bytes]) -> list[str]:
    for name, data in files.items():
        path = os.path.join(folder, name)
        os.makedirs(os.path.dirname(path), exist_ok=True)
        with open(path, "wb") as file:
            file.write(data)
    return [os.path.join(folder, name) for name in files]


def done(browser: Browser) -> str:
    """Waits until nothing is left to deposit; the count that is said."""
    until(
        lambda: browser.run(
            "return document.getElementById('send-many').disabled && document.querySelector('.many progress').hidden"
        ),
        PATIENCE,
    )
    return browser.text(".many .count")


def names(gateway: Gateway, browser: Browser, base: str, folder: str) -> None:
    """A file without a name gets the one that is typed, or its file's, and so its author; one that has them stays byte
    by byte."""
    bare, whole = written(
        os.path.join(folder, "bare"),
        {
            "my-gun.rle": b"#C bare\nx = 3, y = 1\n3o!\n",
            "whole.rle": b"#N Whole\n#O Eve\nx = 4, y = 1, rule = B3/S23\n4o!\n",
        },
    )
    browser.open(f"{base}/new")
    browser.drop([bare], ".drop")
    check(
        "the file's name is offered",
        browser.until(lambda: browser.text("#offer") == "Name it “my-gun”")
        and browser.run("return document.getElementById('text-name').value") == "",
    )
    token = "return document.getElementById('token').value"
    before = browser.run(token)
    browser.one("#offer").click()
    browser.type("#text-author", "Éva")
    wanted = "#N my-gun\n#O Éva\n#C bare\nx = 3, y = 1\n3o!\n".encode()
    check(
        "the token is that of what is sent",
        before == hashlib.sha256(b"#C bare\nx = 3, y = 1\n3o!\n").hexdigest()
        and browser.run(token) == hashlib.sha256(wanted).hexdigest(),
    )
    browser.type("#member", "ann")
    browser.one("#send").click()
    check("it is kept by its name", browser.until(lambda: browser.text("h1").startswith("my-gun ")))
    number = listed(gateway)[-1]["id"]
    same(
        "what is kept of it",
        told(gateway, f"/deposits/{number}"),
        "#N my-gun\n#O Éva\n#C bare\nx = 3, y = 1, rule = B3/S23\n3o!\n".encode(),
    )
    browser.open(f"{base}/new")
    browser.drop([whole], ".drop")
    check(
        "a file with a name keeps it",
        browser.until(
            lambda: browser.run(
                "return ['text-name', 'text-author'].map((id) => "
                "[document.getElementById(id).value, document.getElementById(id).disabled])"
            )
            == [["Whole", True], ["Eve", True]]
        )
        and not browser.one("#offer").is_displayed(),
    )
    found = browser.wait_for(
        """
        const { withTexts, baseName } = await import('/sources/patterns/names.js');
        const text = (...given) => new TextDecoder().decode(withTexts(new TextEncoder().encode('x'), ...given));
        const none = { name: null, author: null };
        return [text(none, 'a\\nb\\r#C', ''), text(none, ' ', '\\t'), text({ name: 'n', author: null }, 'no', 'yes'),
          new TextEncoder().encode(text(none, 'é'.repeat(150), '')).length,
          baseName('a/b/c d.RLE'), baseName('x.txt'), baseName('plain')];"""
    )
    same(
        f"names are one line of at most 200 bytes: {found}",
        found,
        ["#N a b #C\nx", "x", "#O yes\nx", 3 + 200 + 2, "c d", "x", "plain"],
    )
    commented = browser.wait_for(
        """
        const { withTexts, folderOf } = await import('/sources/patterns/names.js');
        const text = (comments, folder) => new TextDecoder().decode(
          withTexts(new TextEncoder().encode('x'), { name: 'n', author: 'o', comments }, '', '', folder));
        return [folderOf('jslife/guns/gun30.rle'), folderOf('glider.rle'),
          text([], 'a/b'), text([], ''), text(['Folder: a/b'], 'a/b'),
          text(Array(63).fill('c'), 'a'), text(Array(64).fill('c'), 'a')];"""
    )
    same(
        "a folder is a comment, once, and never one too many",
        commented,
        ["jslife/guns", "", "#C Folder: a/b\nx", "x", "x", "#C Folder: a\nx", "x"],
    )


def dropped(gateway: Gateway, browser: Browser, base: str, folder: str) -> None:
    """Many files at once: each is drawn or has its fault, one press deposits the good ones, and the table says what
    became of each."""
    files = {f"{number:02}.rle": named_file(number) for number in range(2, MANY + 2)} | {
        "cut.rle": CUT,
        "long.rle": b" " * 1_048_577,
        "again.rle": named_file(2),
    }
    before = len(listed(gateway))
    browser.open(f"{base}/")
    browser.drop(written(os.path.join(folder, "many"), files), "main")
    check(
        "a drop of many goes to the table",
        browser.at("/new")
        and browser.until(
            lambda: f"{len(files)} files: 2 refused, {MANY + 1} to deposit." == browser.text(".many .count")
        ),
    )
    lines = {name: (outcome, drawn) for name, outcome, drawn in browser.run(LINES)}
    check(
        "each good file is drawn",
        all(lines[name] == ("", True) for name in files if name not in ("cut.rle", "long.rle")),
    )
    check(
        "a fault has its sentence and line",
        'ends without "!"' in lines["cut.rle"][0]
        and lines["cut.rle"][0].endswith("Line 3: 3o")
        and not lines["cut.rle"][1],
    )
    check("a file that is too long is said", "1,048,576 bytes" in lines["long.rle"][0])
    summaries = "return [...document.querySelectorAll('.refused-files summary')].map((one) => one.textContent)"
    check(
        "those that are refused come last, by reason",
        [line[0] for line in browser.run(LINES)][-2:] == ["cut.rle", "long.rle"]
        and [text[:11] for text in browser.run(summaries)] == ["1 refused: "] * 2,
    )
    check("they are folded", not browser.one(".refused-files table").is_displayed())
    browser.one(".refused-files summary").click()
    check("and open with the line", browser.one(".refused-files .outcome").text.strip() == "Line 3: 3o")
    same("nothing is sent before it is asked for", len(listed(gateway)), before)
    browser.type("#many-member", "ann")
    browser.picture("many")
    browser.one("#send-many").click()
    check(
        "a bar is seen",
        browser.until(
            lambda: browser.run(
                "const bar = document.querySelector('.many progress'); "
                "return !bar.hidden && bar.value > 3 && bar.max === 33"
            )
        ),
    )
    same("all are deposited", done(browser), f"{len(files)} files: {MANY + 1} deposited, 2 refused.")
    kept = {name: int(outcome.split()[1]) for name, outcome, _ in browser.run(LINES) if outcome.startswith("deposit ")}
    check(
        "each has its number",
        len(kept) == MANY + 1
        and all(told(gateway, f"/deposits/{number}") == files[name] for name, number in kept.items()),
    )
    check(
        "the same file again has the same one",
        kept["again.rle"] == kept["02.rle"] and len(listed(gateway)) == before + MANY,
    )
    table = browser.run(LINES)
    browser.driver.refresh()
    browser.settled()
    same("the table is kept over a reload", [line[:2] for line in browser.run(LINES)], [line[:2] for line in table])
    browser.one(".files a[href^='/d/']").click()
    check("it leads to the deposits", browser.at(f"/d/{kept['02.rle']}"))
    browser.screen(320, 780)
    browser.open(f"{base}/new")
    check(
        "the table fits a phone",
        browser.run("return document.documentElement.scrollWidth") <= 320 and browser.unnamed() == [],
    )
    browser.screen()


def folders(gateway: Gateway, browser: Browser, base: str, folder: str) -> None:
    """A folder, chosen or dropped: its pattern files and those of its folders, by their file's names where they have
    none. A comment with the folder is added if the member wants it.
    """
    room = os.path.join(folder, "guns")
    written(
        room,
        {
            "one.rle": b"x = 5, y = 1\n5o!\n",
            "deep/two.rle": b"#N Two\nx = 6, y = 2\n6o$o!\n",
            "deep/notes.md": b"no pattern",
            "read.txt": b"no pattern",
        },
    )
    browser.open(f"{base}/new")
    browser.one("#folder").send_keys(room)
    check(
        "a folder that is chosen",
        browser.until(lambda: browser.text(".many .count") == "2 files: 2 to deposit.")
        and [line[0] for line in browser.run(LINES)] == ["guns/deep/two.rle", "guns/one.rle"],
    )
    browser.drop([room], ".drop")
    check(
        "a folder that is dropped",
        browser.until(
            lambda: [line[0] for line in browser.run(LINES)] == ["guns/deep/two.rle", "guns/one.rle"]
            and "2 to deposit" in browser.text(".many .count")
        ),
    )
    check(
        "the file without a name is to get its file's",
        browser.run("return document.getElementById('many-name').checked"),
    )
    check(
        "the folder is offered as a comment, and not added by itself",
        browser.one("#many-folder").is_displayed()
        and not browser.run("return document.getElementById('many-folder').checked"),
    )
    tops = "return ['many-name', 'many-folder'].map((id) => document.getElementById(id).getBoundingClientRect().top)"
    name, folder_comment = browser.run(tops)
    check("each choice has its own line", folder_comment > name + 10)
    browser.one("#many-folder").click()
    browser.type("#many-author", "Cid")
    browser.one("#send-many").click()
    same("both are deposited", done(browser), "2 files: 2 deposited.")
    kept = {name: int(outcome.split()[1]) for name, outcome, _ in browser.run(LINES)}
    same(
        "a pattern without a name gets the file's",
        told(gateway, f"/deposits/{kept['guns/one.rle']}"),
        b"#N one\n#O Cid\n#C Folder: guns\nx = 5, y = 1, rule = B3/S23\n5o!\n",
    )
    same(
        "and the author and the folder are written, too",
        told(gateway, f"/deposits/{kept['guns/deep/two.rle']}"),
        b"#N Two\n#O Cid\n#C Folder: guns/deep\nx = 6, y = 2, rule = B3/S23\n6o$o!\n",
    )


SHOWN = """return [
  ...document.querySelectorAll('#pattern, #text-name, #many-name, #send-many, #text-instead, #see-them, .drop')
].filter((element) => element.checkVisibility()).map((element) => element.id || element.className)"""


def nameless(gateway: Gateway, browser: Browser, base: str, folder: str) -> None:
    """A folder in which no file has a name gets those of its files; the field for a text is gone meanwhile; at the end
    a link leads to the deposits."""
    room = os.path.join(folder, "disk")
    written(
        room, {f"{name}.rle": f"#C Nameless {name}\nx = 1, y = 1\no!\n".encode() for name in ("fish", "loaf", "ship")}
    )
    browser.open(f"{base}/new")
    check("a text can be pasted", "pattern" in browser.run(SHOWN))
    browser.drop([room], ".drop")
    browser.until(lambda: browser.text(".many .count") == "3 files: 3 to deposit.")
    check(
        "names are taken from the files",
        browser.run("return document.getElementById('many-name').checked"),
    )
    same("what is seen beside the table", browser.run(SHOWN), ["drop", "many-name", "send-many", "text-instead"])
    browser.type("#many-member", "dora")
    browser.one("#send-many").click()
    same("all are deposited", done(browser), "3 files: 3 deposited.")
    same("no button without a use", browser.run(SHOWN), ["drop", "see-them", "text-instead"])
    same("the link to them", browser.text("#see-them"), "3 deposited: see them")
    browser.driver.refresh()
    browser.settled()
    browser.one("#see-them").click()
    check("it leads to the member's deposits", browser.at("/d/of/dora"))
    check(
        "which have the names of the files",
        browser.until(lambda: {"fish", "loaf", "ship"} <= {name.text for name in browser.all(".cards strong")}),
    )
    browser.open(f"{base}/new")
    browser.drop([room], ".drop")
    browser.until(lambda: browser.text(".many .count") == "3 files: 3 to deposit.")
    browser.one("#text-instead").click()
    check(
        "a text in place of the files",
        browser.run("return document.activeElement.id") == "pattern" and browser.all(".many") == [],
    )
    browser.run("localStorage.setItem('member', 'ann')")


def named_in_part(_gateway: Gateway, browser: Browser, base: str, folder: str) -> None:
    """If one file of a folder has a name and another none, the names of files are taken for those without."""
    room = os.path.join(folder, "disk-with-a-name")
    written(room, {"named.rle": b"#N Named\nx = 2, y = 1\n2o!\n", "plain.rle": b"#C Plain\nx = 3, y = 1\n3o!\n"})
    browser.open(f"{base}/new")
    browser.drop([room], ".drop")
    browser.until(lambda: browser.text(".many .count") == "2 files: 2 to deposit.")
    check("names are taken from files", browser.run("return document.getElementById('many-name').checked"))


def broken_off(gateway: Gateway, browser: Browser, _base: str, folder: str) -> None:
    """If replies stay away it says so, and the same button continues; nothing is kept twice. After a reload the page
    lists what was not sent."""
    relay = Relay(gateway.port)
    try:
        before = len(listed(gateway))
        browser.open(f"http://127.0.0.1:{relay.port}/new")
        browser.drop(
            written(
                os.path.join(folder, "broken"),
                {
                    f"b{number}.rle": f"#N Broken {number}\nx = {number}, y = 1\n{number}o!\n".encode()
                    for number in range(1, 5)
                },
            ),
            ".drop",
        )
        browser.until(lambda: browser.text(".many .count") == "4 files: 4 to deposit.")
        browser.type("#many-member", "ann")
        relay.left = 1000
        browser.one("#send-many").click()
        check(
            "no reply is shown",
            until(lambda: "send it again with the same token" in browser.text(".many .refusal"), PATIENCE),
        )
        relay.left = 0
        browser.one("#send-many").click()
        same("the same button continues", done(browser), "4 files: 4 deposited.")
        same("each is kept once", len(listed(gateway)), before + 4)
        browser.run("scrollTo(0, 0)")
        browser.drop(
            written(
                os.path.join(folder, "broken"),
                {
                    f"c{number}.rle": f"#N Unsent {number}\nx = {number}, y = 1\n{number}o!\n".encode()
                    for number in range(1, 3)
                },
            ),
            ".drop",
        )
        check(
            "other files take the place of those",
            browser.until(lambda: browser.text(".many .count") == "2 files: 2 to deposit."),
        )
        browser.driver.refresh()
        browser.settled()
        same(
            "after a reload the page lists what was not sent",
            [line[1] for line in browser.run(LINES)],
            ["Not sent. Drop the files again: each is stored only once."] * 2,
        )
    finally:
        relay.end()


PARTS = [names, dropped, folders, nameless, named_in_part, broken_off]
