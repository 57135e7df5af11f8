"""The parts of tests/test_web.py on files in other forms: plaintext, Life 1.05 and 1.06, RLE without a header, texts
that are not UTF-8, too many comments; and on drops and pastes without a pattern.
"""
import glob
import hashlib
import os
import random
import shutil
import subprocess
from typing import Any

import life
from browser import Browser
from clients import check, left_out, same
from gateways import Gateway
from pages import content, listed, told
from web_many import written

GOLLY = "/usr/share/golly/Patterns"
CONTROL = "\ue009"
# What the page reads of a text in another form: what it calls the form, and the file that it sends.
READ = (
    "const { readOther } = await import('/sources/patterns/formats.js'); "
    "return words[0].map((text) => readOther(text));"
)
TOKEN = "return document.getElementById('token').value"


def plaintext(cells: Any) -> str:
    """Cells as plaintext, row by row."""
    wide, high = life.box(cells)
    return "".join(
        "".join("O" if (x, y) in cells else "." for x in range(wide)).rstrip(".") + "\n" for y in range(high)
    )


def by_golly(path: str, folder: str) -> Any:
    """The rule and the cells of a file as Golly reads it; nothing without Golly."""
    out = os.path.join(folder, "golly.rle")
    done = subprocess.run(["bgolly", "-m", "0", "-o", out, path], capture_output=True, timeout=60, check=False)
    if done.returncode != 0 or not os.path.exists(out):
        return None
    try:
        return life.read_file(content(out))[3:]
    except life.Fault as fault:
        return fault.args[0]
    finally:
        os.remove(out)


def read(text: str) -> Any:
    """The rule and the cells of a file that the page sends, or its fault, by the reference."""
    try:
        return life.read_file(text.encode())[3:]
    except life.Fault as fault:
        return fault.args[0]


def forms(_gateway: Gateway, browser: Browser, base: str, folder: str) -> None:
    """Fields in other forms are the same cells as RLE, and Golly's own files are what Golly reads."""
    browser.open(f"{base}/find")
    chance = random.Random(17)
    fields = [frozenset({(0, 0)}), frozenset({(0, 0), (5, 0), (1, 3)})] + [
        life.normal({(x, y) for x in range(size) for y in range(size) if chance.random() < 0.4} | {(0, 0)})
        for size in (3, 20, 60)
    ]
    for cells in fields:
        shuffled = sorted((x - 7, y + 2) for x, y in cells)
        chance.shuffle(shuffled)
        body = life.file_text((None, None, (), life.LIFE, cells)).decode().split("\n", 1)[1]
        texts = [
            ("plaintext", plaintext(cells)),
            ("plaintext", "!Name: Field\r\n!\r\n" + plaintext(cells).replace("O", "*").replace("\n", "\r\n")),
            ("Life 1.05", "#Life 1.05\n#D A field\n#N\n#P -7 2\n" + plaintext(cells).replace("O", "*")),
            ("Life 1.06", "#Life 1.06\n" + "".join(f"{x} {y}\n" for x, y in shuffled)),
            ("RLE without a header", body),
            ("RLE without a header", "#C a field\n\n" + body),
        ]
        found = browser.wait_for(READ, [text for _, text in texts])
        same(
            f"forms of {len(cells)} cells",
            [(one["form"], read(one["text"])) for one in found],
            [(form, (life.LIFE, cells)) for form, _ in texts],
        )
    if shutil.which("bgolly"):
        files = sorted(glob.glob(GOLLY + "/**/*.lif", recursive=True))
        check(f"files of Golly in another form: {len(files)}", len(files) > 2)
        found = browser.wait_for(READ, [content(path).decode("latin-1") for path in files])
        for path, one in zip(files, found):
            same(f"{os.path.basename(path)} is what Golly reads", one and read(one["text"]), by_golly(path, folder))
    else:
        left_out("bgolly is not installed, so no file in another form is compared with it")
    others = [
        "",
        "hello",
        "x = 3, y = 3",
        "[M2] (golly 2.0)\n$$$*$",
        "3",
        "$5",
        "#Life 1.06\n1 x\n",
        "!only a comment",
        "a.b",
    ]
    same("texts without these forms", browser.wait_for(READ, others), [None] * len(others))
    named = browser.wait_for(
        READ, ["!Name: A gun\n!Author: Bill Gosper\n! " + "long " * 60 + "\n!\n.O\n", "#Life 1.06\n0 0\n900000000 1\n"]
    )
    long = [("long " * 40).strip().encode(), ("long " * 20).strip().encode()]
    same(
        "the name, the author and the comments of plaintext",
        life.read_file(named[0]["text"].encode())[:3],
        (b"A gun", b"Bill Gosper", tuple(long)),
    )
    same("cells that are far apart", read(named[1]["text"]), 9)


def other(gateway: Gateway, browser: Browser, base: str, folder: str) -> None:
    """Plaintext that is pasted or dropped is drawn, the page says what it sends, and the archive gets RLE."""
    browser.open(f"{base}/new")
    browser.type("#pattern", "!Name: Typed\n.O\n..O\nOOO\n")
    check(
        "plaintext is drawn",
        browser.until(
            lambda: "Typed: 5 cells, 3 by 3, B3/S23" in browser.text(".preview")
            and "Read as plaintext, and sent as RLE." in browser.text(".preview")
        ),
    )
    wanted = b"#N Typed\nx = 3, y = 3, rule = B3/S23\nbo$2bo$3o!\n"
    same("the token is that of what is sent", browser.run(TOKEN), hashlib.sha256(wanted).hexdigest())
    browser.type("#member", "ann")
    browser.one("#send").click()
    browser.until(lambda: browser.text("h1").startswith("Typed "))
    same("what is kept of it", told(gateway, f"/deposits/{listed(gateway)[-1]['id']}"), wanted)
    browser.open(f"{base}/new")
    browser.type("#pattern", "2o$bo")
    check("a body without an end", browser.until(lambda: 'ends without "!"' in browser.text(".preview .refusal")))
    check("no line of it, since the page has made it", "Line" not in browser.text(".preview .refusal"))
    room = os.path.join(folder, "forms")
    written(
        room,
        {
            "a.cells": b"!Author: Ann\nOO\nOO\n",
            "b.lif": b"#Life 1.06\n0 0\n1 0\n2 0\n",
            "c.rle": b"x = 4, y = 1\n4o!\n",
            "d.life": b"#Life 1.05\n#P\n***\n",
            "e.mc": b"[M2]",
        },
    )
    browser.drop([room], ".drop")
    check("a folder of several forms", browser.until(lambda: browser.text(".many .count") == "4 files: 4 to deposit."))
    same(
        "what is said of each",
        browser.run("return [...document.querySelectorAll('.files th small')].map((facts) => facts.textContent)"),
        [
            "4 cells, 2 by 2, B3/S23. Read as plaintext, and sent as RLE.",
            "3 cells, 3 by 1, B3/S23. Read as Life 1.06, and sent as RLE.",
            "4 cells, 4 by 1, B3/S23",
            "3 cells, 3 by 1, B3/S23. Read as Life 1.05, and sent as RLE.",
        ],
    )
    browser.one("#text-instead").click()
    browser.run("sessionStorage.clear()")


def old_text(_gateway: Gateway, browser: Browser, base: str, folder: str) -> None:
    """A file whose text is not UTF-8 is shown as windows-1252, and sent as UTF-8 unless the member says no."""
    raw = "#N Frühling\n#O Jürgen\n#C 5 € für José\nx = 2, y = 1\n2o!\n".encode("cp1252")
    (path,) = written(folder, {"old.rle": raw})
    browser.open(f"{base}/new")
    browser.drop([path], ".drop")
    check("its letters are seen", browser.until(lambda: "Frühling: 2 cells" in browser.text(".preview")))
    check("and asked about", "not UTF-8" in browser.text(".preview"))
    same(
        "its text and its author",
        browser.run("return [document.getElementById('pattern').value, document.getElementById('text-author').value]"),
        [raw.decode("cp1252"), "Jürgen"],
    )
    same("it is sent as UTF-8", browser.run(TOKEN), hashlib.sha256(raw.decode("cp1252").encode()).hexdigest())
    browser.one("#as-old").click()
    check("as it is, if the member says so", browser.until(lambda: "Fr\ufffdhling" in browser.text(".preview")))
    same("then its own bytes are sent", browser.run(TOKEN), hashlib.sha256(raw).hexdigest())
    browser.drop([path, *written(folder, {"new.rle": b"#N New\nx = 1, y = 1\no!\n"})], ".drop")
    facts = "return document.querySelector('.files th small').textContent"
    check("in a table", browser.until(lambda: browser.run(facts).startswith("Frühling:")))
    check("one question for all", browser.one("#many-old").is_displayed())
    browser.one("#many-old").click()
    check("with one answer", browser.until(lambda: browser.run(facts).startswith("Fr\ufffdhling:")))
    browser.one("#text-instead").click()
    browser.run("sessionStorage.clear()")


def too_many(gateway: Gateway, browser: Browser, base: str, folder: str) -> None:
    """Of a file with more than 64 comments the page offers to send the first 64."""
    lines = [b"#C line %d\n" % line for line in range(1, 71)]
    raw, wanted = (b"".join([b"#N Wordy\n", *some, b"x = 2, y = 2\n2o$2o!\n"]) for some in (lines, lines[:64]))
    (path,) = written(folder, {"wordy.rle": raw})
    browser.open(f"{base}/new")
    browser.drop([path], ".drop")
    check("it is refused", browser.until(lambda: "more than 64 comments" in browser.text(".preview .refusal")))
    browser.one(".preview .cut").click()
    check(
        "the first are offered",
        browser.until(lambda: "Of its 70 comments the first 64 are sent." in browser.text(".preview")),
    )
    same("they are sent", browser.run(TOKEN), hashlib.sha256(wanted).hexdigest())
    browser.type("#member", "ann")
    browser.one("#send").click()
    browser.until(lambda: browser.text("h1").startswith("Wordy "))
    kept = told(gateway, f"/deposits/{listed(gateway)[-1]['id']}")
    same("what is kept", kept, wanted.replace(b"y = 2\n", b"y = 2, rule = B3/S23\n"))
    browser.open(f"{base}/new")
    browser.drop([path, *written(folder, {"long.rle": b"#C " + b"x" * 201 + b"\nx = 1, y = 1\no!\n"})], ".drop")
    browser.until(lambda: browser.text(".many .count") == "2 files: 2 refused.")
    same("a comment that is too long is not cut", len(browser.all(".files .cut")), 1)
    browser.unfold()
    browser.one(".files .cut").click()
    check("in a table", browser.until(lambda: browser.text(".many .count") == "2 files: 1 refused, 1 to deposit."))
    browser.run("sessionStorage.clear()")


def marked(_gateway: Gateway, browser: Browser, base: str, _folder: str) -> None:
    """Marks that forums put around a pattern are left out, and a well-known rule may have its name. Both are said."""
    glider, row = "x = 3, y = 3, rule = B3/S23\nbo$2bo$3o!\n", "x = 3, y = 1, rule = {}\n3o!\n"
    marks, named = "The marks around the pattern are not sent.", "The rule {} is sent as {}."
    plain = "x = 3, y = 3, rule = B3/S23\nbo$2bo$3o!\n"
    browser.open(f"{base}/new")
    for text, sent, notes in (
        (f"[code]\n{glider}[/code]\n", glider, [marks]),
        (f"[code]{glider}[/code]", glider, [marks]),
        (f"\n```rle\n{glider}```\n", glider, [marks]),
        ("[CODE=rle]\n.O\n..O\nOOO\n[/CODE]", plain, [marks, "Read as plaintext, and sent as RLE."]),
        (row.format("Conway's Life"), row.format("B3/S23"), [named.format("Conway's Life", "B3/S23")]),
        (row.format("Life"), row.format("B3/S23"), [named.format("Life", "B3/S23")]),
        (row.format("Day & Night"), row.format("B3678/S34678"), [named.format("Day & Night", "B3678/S34678")]),
        ("#r HighLife\nx = 3, y = 1\n3o!\n", "#r B36/S23\nx = 3, y = 1\n3o!\n", [named.format("HighLife", "B36/S23")]),
        (
            f"[code]\n{row.format('HighLife')}[/code]",
            row.format("B36/S23"),
            [marks, named.format("HighLife", "B36/S23")],
        ),
    ):
        browser.type("#pattern", text)
        check(
            f"what is sent of {text!r}",
            browser.until(lambda: browser.run(TOKEN) == hashlib.sha256(sent.encode()).hexdigest()),
        )
        same(
            f"what is said of {text!r}",
            browser.run("return [...document.querySelectorAll('.preview .note')].map((note) => note.textContent)"),
            notes,
        )
    browser.type("#pattern", "[code]\nx = 3, y = 1\n3q!\n[/code]")
    check("a fault has the line of the text", browser.until(lambda: "Line 3: 3q!" in browser.text(".preview .refusal")))
    browser.run("sessionStorage.clear()")


def nothing(_gateway: Gateway, browser: Browser, base: str, folder: str) -> None:
    """A folder without a pattern file, and a paste without a pattern, are answered by a sentence."""
    room = os.path.join(folder, "papers")
    written(room, {"read.txt": b"x = 1, y = 1\no!\n", "deep/notes.md": b"notes"})
    for address in ("/about", "/new"):
        browser.open(base + address)
        browser.drop([room], "h1")
        check(
            f"a folder without a pattern on {address}",
            browser.until(lambda: "no pattern file in this folder" in browser.text(".nothing")),
        )
    browser.open(f"{base}/new")
    browser.one("#folder").send_keys(room)
    check("a folder that is chosen", browser.until(lambda: "no pattern file" in browser.text(".nothing")))
    for text, goes in (
        ("Dear Ann,\nsee you at the club", False),
        ("!Name: Pasted\nOOO\n", True),
        ("bo$2bo$3o!", True),
        ("[code]bo$2bo$3o![/code]", True),
    ):
        browser.open(f"{base}/new")
        browser.type("#pattern", text)
        browser.one("#pattern").send_keys(CONTROL, "a")
        browser.one("#pattern").send_keys(CONTROL, "x")
        browser.open(f"{base}/about")
        browser.run("document.body.tabIndex = -1; document.body.focus()")
        browser.press(CONTROL, "v")
        if goes:
            check(
                f"a paste of {text!r} leads to the form",
                browser.at("/new") and browser.until(lambda: "sent as RLE" in browser.text(".preview")),
            )
        else:
            check(
                "a paste without a pattern",
                browser.until(lambda: "no pattern on the clipboard" in browser.text(".nothing"))
                and browser.driver.current_url.endswith("/about"),
            )
    browser.run("sessionStorage.clear()")


PARTS = [forms, other, old_text, too_many, marked, nothing]
