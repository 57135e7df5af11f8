"""deploy/life-index: the content of its files, for archives that this test writes according to docs/FORMATS.md, and for
one of the program's."""
import gzip
import json
import os
import random
import resource
import shutil
import sqlite3
import subprocess
import tempfile
import threading
import time
from typing import Any
from collections.abc import Callable
import xml.etree.ElementTree

import life
from archives import ADD_DEPOSIT, Entry, add_census, fill, new_archive
from clients import GLIDER, HERE, Server, check, deposit, exchanged, message, same

DEPLOY = os.path.join(os.path.dirname(HERE), "deploy")
MANY = 100_000
# The limits for a large archive: seconds from nothing, seconds if it has grown, bytes as nginx compresses them.
FROM_NOTHING, ADDED, COMPRESSED = 20, 2, 5_000_000
ATOM = "{http://www.w3.org/2005/Atom}"
# A day as the index writes it, and its first second.
Day = tuple[str, int]
FIRST_DAY, SECOND_DAY, THIRD_DAY = ("2026-03-01", 1772323200), ("2026-03-02", 1772409600), ("2026-03-03", 1772496000)


# ---- indexes


def time_of_children() -> float:
    """The seconds for which a processor worked on programs that have ended, for them and for the system."""
    used = resource.getrusage(resource.RUSAGE_CHILDREN)
    return used.ru_utime + used.ru_stime


def life_index(copy: str, folder: str, day: Day = FIRST_DAY, *words: str) -> tuple[tuple[int, str, str], float]:
    """The status of life-index, what it prints on its two streams, and how long a processor worked on it, which other
    work beside it hardly changes."""
    begun = time_of_children()
    own = os.environ | {"SOURCE_DATE_EPOCH": str(day[1])}
    done = subprocess.run(
        [os.path.join(DEPLOY, "life-index"), *words, copy, folder], capture_output=True, text=True, timeout=300, env=own
    )
    return (done.returncode, done.stdout, done.stderr), time_of_children() - begun


def content(*path: str) -> bytes:
    with open(os.path.join(*path), "rb") as file:
        return file.read()


def head_of(folder: str) -> dict[str, Any]:
    head: dict[str, Any] = json.loads(content(folder, "index.json"))
    return head


def blocks(folder: str, kind: str) -> list[dict[str, Any]]:
    return [json.loads(content(folder, name)) for name in head_of(folder)["blocks"][kind]]


def unfolded(column: dict[str, Any]) -> list[Any]:
    return [column["of"][place] for place in column["at"]]


def said(folder: str) -> list[tuple[Any, ...]]:
    """What the index says of each deposit."""
    columns = [
        (
            block["name"],
            unfolded(block["author"]),
            unfolded(block["member"]),
            unfolded(block["rule"]),
            block["cells"],
            block["width"],
            block["height"],
        )
        for block in blocks(folder, "deposits")
    ]
    return [row for block in columns for row in zip(*block)]


def days(folder: str, kind: str) -> dict[int, str]:
    """The day of each deposit or census."""
    found = {}
    for block in blocks(folder, kind):
        ends = [number for number, _ in block["seen"][1:]] + [
            block["first"] + len(block["cells" if kind == "deposits" else "deposit"])
        ]
        for (first, day), end in zip(block["seen"], ends):
            found.update(dict.fromkeys(range(first, end), day))
    return found


def files(folder: str) -> dict[str, bytes]:
    return {name: content(folder, name) for name in os.listdir(folder)}


def names_for_titles(folder: str) -> dict[str, str]:
    """The files of names that the gateway writes into titles."""
    return {name: text.decode() for name, text in files(folder).items() if name.startswith("names-")}


# ---- the parts


def test_large(folder: str) -> None:
    """100,000 deposits: each is said as it is, in the time and the room that there is; what is added is there quickly,
    and full blocks stay."""
    chance, room, copy = random.Random(11), os.path.join(folder, "large"), os.path.join(folder, "large.db")
    entries = [Entry(number, chance) for number in range(1, MANY + 1)]
    database = new_archive(copy)
    fill(database, entries, 1)
    result, took = life_index(copy, room)
    check(
        f"an index of {MANY:,} deposits in {took:.1f} s: {result}",
        result == (0, f"{room}: deposits: {MANY}, censuses: 0\n", "") and took < FROM_NOTHING,
    )
    same("each deposit is said as it is", said(room), [entry.said() for entry in entries])
    size = sum(len(gzip.compress(data, 1)) for data in files(room).values())
    check(f"the index has {size:,} bytes compressed", 100_000 < size < COMPRESSED)
    before, names = files(room), head_of(room)["blocks"]["deposits"]
    more = [Entry(number, chance) for number in range(MANY + 1, MANY + 8)]
    fill(database, more, MANY + 1)
    result, took = life_index(copy, room, SECOND_DAY)
    check(f"seven more in {took:.1f} s: {result}", result[0] == 0 and took < ADDED)
    same("the seven are said", said(room)[MANY:], [entry.said() for entry in more])
    after = files(room)
    check(
        "full blocks stay",
        head_of(room)["blocks"]["deposits"][:-1] == names and all(after[name] == before[name] for name in names),
    )
    found = days(room, "deposits")
    check(
        "the days",
        set(list(found.values())[:MANY]) == {FIRST_DAY[0]}
        and {found[number] for number in range(MANY + 1, MANY + 8)} == {SECOND_DAY[0]},
    )
    database.close()


def test_censuses(folder: str) -> None:
    """Each census is said with its rows, by rule and code; a block that is full never changes, and the last one
    does."""
    chance, room, copy = random.Random(12), os.path.join(folder, "counted"), os.path.join(folder, "counted.db")
    entries = [Entry(number, chance) for number in range(1, 41)]
    database, wanted = new_archive(copy), []
    fill(database, entries, 1)
    for number in range(1, 1203):
        rows = {f"xs{code}_{code}": chance.randint(1, 9) for code in chance.sample(range(4, 30), chance.randint(0, 6))}
        wanted.append((chance.randint(1, 40), rows, number % 2))
        add_census(database, number, *wanted[-1])
        if number == 1100:
            same("an index of 1,100 censuses", life_index(copy, room)[0][0], 0)
            before = files(room), head_of(room)["blocks"]
    same("an index of 1,202", life_index(copy, room, SECOND_DAY)[0], (0, f"{room}: deposits: 40, censuses: 1202\n", ""))
    lines = [
        row
        for block in blocks(room, "censuses")
        for row in zip(
            *(block[name] for name in ("deposit", "generation", "limit", "clusters", "unresolved", "steady"))
        )
    ]
    same(
        "each census is said",
        lines,
        [
            (of, number % 7, 60, 1 + sum(rows.values()), 1, steady)
            for number, (of, rows, steady) in enumerate(wanted, 1)
        ],
    )
    found: dict[tuple[str, str], Any] = {}
    for block in blocks(room, "objects"):
        for rule, codes in block["rules"].items():
            for code, places in codes.items():
                for place, count in zip(places[::2], places[1::2]):
                    found.setdefault(block["first"] + place, {})[rule, code] = count
    own = {
        number: {(entries[of - 1].rule, code): count for code, count in rows.items()}
        for number, (of, rows, _) in enumerate(wanted, 1)
        if rows
    }
    same("each object of each rule has its censuses", found, own)
    names = head_of(room)["blocks"]
    check(
        "the full block of censuses stays",
        all(
            names[kind][0] == before[1][kind][0] and content(room, names[kind][0]) == before[0][names[kind][0]]
            for kind in ("censuses", "objects")
        ),
    )
    check("the last one has changed", all(names[kind][1] != before[1][kind][1] for kind in ("censuses", "objects")))
    same(
        "the days of censuses",
        days(room, "censuses"),
        {number: (FIRST_DAY if number <= 1100 else SECOND_DAY)[0] for number in range(1, 1203)},
    )
    database.close()


def test_grown(folder: str) -> None:
    """An index that has grown in steps has the blocks of one that is made at once, but for the days; nothing is left of
    what it was."""
    chance, copy = random.Random(13), os.path.join(folder, "grown.db")
    steps, whole = os.path.join(folder, "steps"), os.path.join(folder, "whole")
    database = new_archive(copy)
    for first in (1, 400, 1001, 1700, 2001):
        fill(
            database,
            [
                Entry(number, chance)
                for number in range(first, {1: 400, 400: 1001, 1001: 1700, 1700: 2001, 2001: 2500}[first])
            ],
            first,
        )
        same(f"a step from {first} on", life_index(copy, steps)[0][0], 0)
    same("all at once", life_index(copy, whole)[0][0], 0)
    check(
        "it is the same index",
        head_of(steps)["blocks"] == head_of(whole)["blocks"]
        and said(steps) == said(whole)
        and len(said(whole)) == 2499,
    )
    for name in os.listdir(steps):
        os.utime(os.path.join(steps, name), (1, 1))
    same("an old index again", life_index(copy, steps)[0][0], 0)
    named = {name for names in head_of(steps)["blocks"].values() for name in names} | {
        "index.json",
        "feed.xml",
        "rows.json",
        "lock",
    }
    named |= {f"names-{thousand}.txt" for thousand in range(3)}
    same("blocks that are no longer named are removed", set(os.listdir(steps)), named)
    # A block of the folder that is not as it was written is made again.
    name = head_of(steps)["blocks"]["deposits"][0]
    right = content(steps, name)
    with open(os.path.join(steps, name), "wb") as file:
        file.write(right[:-9])
    check("a block that was cut is made again", life_index(copy, steps)[0][0] == 0 and content(steps, name) == right)
    database.close()


def test_other_archives(folder: str) -> None:
    """For another archive, or an older copy, everything is rebuilt; rows that are the same keep their day."""
    chance, copy, room = random.Random(14), os.path.join(folder, "other.db"), os.path.join(folder, "other")
    entries = [Entry(number, chance) for number in range(1, 1500)]
    cases: list[tuple[list[Entry], Day, Callable[[int], Day]]] = [
        (entries, FIRST_DAY, lambda number: FIRST_DAY),
        (entries[:1200], SECOND_DAY, lambda number: FIRST_DAY),
        (entries[:1100] + entries[:300], THIRD_DAY, lambda number: FIRST_DAY if number <= 1100 else THIRD_DAY),
        (entries[::-1], SECOND_DAY, lambda number: SECOND_DAY),
    ]
    for members, day, wanted in cases:
        database = new_archive(copy)
        database.executemany(
            ADD_DEPOSIT,
            (
                entry.row(number)[:2] + (f"t{number}",) + entry.row(number)[3:]
                for number, entry in enumerate(members, 1)
            ),
        )
        database.commit()
        database.close()
        check(
            f"{len(members)} deposits",
            life_index(copy, room, day)[0][0] == 0 and said(room) == [entry.said() for entry in members],
        )
        same(
            f"the names for titles of {len(members)} deposits",
            names_for_titles(room),
            {
                f"names-{thousand}.txt": "".join(
                    f"{number} {entry.name[:80].strip()}\n"
                    for number, entry in enumerate(members, 1)
                    if number // 1000 == thousand and entry.name
                )
                for thousand in range(len(members) // 1000 + 1)
            },
        )
        same(
            f"the days of {len(members)} deposits",
            days(room, "deposits"),
            {number: wanted(number)[0] for number in range(1, len(members) + 1)},
        )


def with_phones(entries: list[Entry], numbers: list[int]) -> None:
    """Has deposits name a person in each of their texts."""
    for number in numbers:
        entry = entries[number - 1]
        entry.name, entry.author, entry.member = f"call {number}", f"Person {number}", f"person-{number}"
        entry.file = (
            f"#N {entry.name}\n#O {entry.author}\n#C Phone 555-{number}.\nx = 1, y = 1, rule = B3/S23\no!\n"
        ).encode()
        entry.rule, entry.cells, entry.width, entry.height = "B3/S23", 1, 1, 1


def named_in(folder: str, number: int) -> list[str]:
    """The files of an index that have a text of such a deposit, or lead to it."""
    texts = (f"call {number}", f"Person {number}", f"person-{number}", f"555-{number}", f'"/d/{number}"')
    return sorted(
        name.split("-")[0] for name, data in files(folder).items() if any(text.encode() in data for text in texts)
    )


def test_withdrawn(folder: str) -> None:
    """No file has a text of a withdrawn deposit, at once and also in a full block; the others keep their days, and it
    is back with its own day if it is no longer withdrawn."""
    chance, copy, room = random.Random(31), os.path.join(folder, "kept.db"), os.path.join(folder, "kept")
    entries = [Entry(number, chance) for number in range(1, 1501)]
    with_phones(entries, [150, 1490])
    database = new_archive(copy)
    fill(database, entries, 1)
    add_census(database, 1, 150, {"xs4_33": 2}, 1)
    same("an index before", life_index(copy, room)[0][0], 0)
    everything = ["comments", "deposits", "names"]
    same("it has them", [named_in(room, 150), named_in(room, 1490)], [everything, sorted([*everything, "feed.xml"])])
    before = said(room), days(room, "deposits")
    withdrawn = os.path.join(folder, "withdrawn")
    with open(withdrawn, "w", encoding="utf-8") as file:
        file.write("# Ours.\n150 a telephone number\n01490\n9999 is not there yet\n")
    words = "--withdrawn", withdrawn
    same("an index without them", life_index(copy, room, SECOND_DAY, *words)[0][0], 0)
    same("no file has them", [named_in(room, 150), named_in(room, 1490)], [[], []])
    same("their numbers are said", [block["withdrawn"] for block in blocks(room, "deposits")], [[150], [1490]])
    nothing = "", "", "", "", 0, 0, 0
    wanted = [nothing if number in (150, 1490) else row for number, row in enumerate(before[0], 1)]
    same("all others are said", said(room), wanted)
    same("each has its day", days(room, "deposits"), before[1])
    same("the same again", life_index(copy, room, THIRD_DAY)[0][0], 0)
    same("it is all back, with its days", (said(room), days(room, "deposits")), before)
    with open(withdrawn, "w", encoding="utf-8") as file:
        file.write("150\nseven\n")
    (status, _, err), _ = life_index(copy, room, THIRD_DAY, *words)
    check(f"a line without a number: {err}", status == 1 and "withdrawn, line 2: " in err and said(room) == before[0])
    database.close()


def test_changed_row(folder: str) -> None:
    """A row in the middle of a full block that has changed is said as it is now. Other blocks stay."""
    chance, copy, room = random.Random(32), os.path.join(folder, "edited.db"), os.path.join(folder, "edited")
    entries = [Entry(number, chance) for number in range(1, 2301)]
    with_phones(entries, [150])
    database = new_archive(copy)
    fill(database, entries, 1)
    same("an index before", life_index(copy, room)[0][0], 0)
    names = head_of(room)["blocks"]["deposits"]
    database.execute(
        "UPDATE deposits SET rle = ?, member = 'ann' WHERE id = 150", (b"x = 1, y = 1, rule = B3/S23\no!\n",)
    )
    database.commit()
    same("an index after", life_index(copy, room, SECOND_DAY)[0][0], 0)
    same("the row as it is now", said(room)[149], ("", "", "ann", "B3/S23", 1, 1, 1))
    same("the other blocks", head_of(room)["blocks"]["deposits"][1:], names[1:])
    database.close()


def test_of_one_club(folder: str) -> None:
    """With --archive only the copies that life-copy made of that archive count: not newer files of other names, nor
    those with a time in the future."""
    chance, place, room = (
        random.Random(21),
        os.path.join(folder, "copies-of-clubs"),
        os.path.join(folder, "of-one-club"),
    )
    os.mkdir(place)
    ours = [Entry(number, chance) for number in range(1, 30)]
    for name, entries in (
        ("club-2020-01-01T0000.db", ours[:9]),
        ("club-2020-01-02T0000.db", ours),
        ("club-2999-01-01T0000.db", ours[:5]),
        ("other.db", ours[:3]),
        ("before-1.0.0.db", ours[:4]),
        ("other-2020-01-03T0000.db", ours[:2]),
        ("club-2020-01-03.db", ours[:1]),
    ):
        database = new_archive(os.path.join(place, name))
        fill(database, entries, 1)
        database.close()
    words = [os.path.join(DEPLOY, "life-index"), "--archive", "/var/lib/life/club.db", place, room]
    done = subprocess.run(
        words, capture_output=True, text=True, timeout=60, env=os.environ | {"SOURCE_DATE_EPOCH": str(FIRST_DAY[1])}
    )
    check(
        f"an index of one club's copies: {done.stderr}",
        done.returncode == 0 and said(room) == [entry.said() for entry in ours],
    )
    empty = subprocess.run([*words[:2], "/srv/none.db", *words[3:]], capture_output=True, text=True, timeout=60)
    check(
        f"no copy of that archive: {empty.stderr}",
        empty.returncode == 1
        and "has no copy of /srv/none.db" in empty.stderr
        and said(room) == [entry.said() for entry in ours],
    )


def test_faults(folder: str) -> None:
    """A copy that is damaged, missing or no archive makes no index, and the one that is there stays byte by byte."""
    chance, copy, room = random.Random(15), os.path.join(folder, "faults.db"), os.path.join(folder, "faults")
    database = new_archive(copy)
    fill(database, [Entry(number, chance) for number in range(1, 300)], 1)
    add_census(database, 1, 5, {"xs4_33": 2}, 1)
    database.close()
    same("an index before the faults", life_index(copy, room)[0][0], 0)
    before, whole = files(room), content(copy)

    def changed(name: str, statement: Any) -> Any:
        path = os.path.join(folder, name)
        shutil.copyfile(copy, path)
        with sqlite3.connect(path) as other:
            other.execute("PRAGMA foreign_keys = OFF")
            other.execute(statement)
        other.close()
        return path

    def written(name: str, data: Any) -> str:
        path = os.path.join(folder, name)
        with open(path, "wb") as file:
            file.write(data)
        return path

    middle = len(whole) // 2 // 4096 * 4096
    with sqlite3.connect(copy) as database:
        token = database.execute("SELECT token FROM deposits WHERE id = 100").fetchone()[0].encode()
    database.close()
    # A token is in its row and in the table's index of tokens: one of them is another.
    untrue = whole.replace(token, b"0" * 64, 1)
    for name, path, part in [
        (
            "a page of zeros",
            written("zeros.db", whole[:middle] + bytes(4096) + whole[middle + 4096 :]),
            "can't be read",
        ),
        ("half a copy", written("half.db", whole[:middle]), "can't be read"),
        ("a changed token", written("untrue.db", untrue), "is damaged"),
        ("an empty file", written("empty.db", b""), "no such table"),
        ("a text", written("text.db", b"no database " * 1000), "not a database"),
        ("no file", os.path.join(folder, "missing.db"), "missing.db: No such file"),
        ("a gap", changed("gap.db", "DELETE FROM deposits WHERE id = 7"), "the deposits have gaps"),
        ("another rule", changed("rule.db", "UPDATE deposits SET rule = 'B2/S' WHERE id = 8"), "deposit 8 is not"),
        ("an invalid file", changed("none.db", "UPDATE deposits SET rle = x'2121' WHERE id = 9"), "deposit 9 is not"),
        ("no flag", changed("flag.db", "DELETE FROM census_flags"), "has no flag"),
        ("a folder without a copy", tempfile.mkdtemp(dir=folder), "has no copy"),
    ]:
        (status, out, err), _ = life_index(path, room)
        check(
            f"{name} makes no index: {err.strip()}",
            (status, out) == (1, "") and err.startswith("life-index: ") and err.count("\n") == 1 and part in err,
        )
        same(f"the index after {name}", files(room), before)


def text_of(element: xml.etree.ElementTree.Element, path: str) -> str:
    """The text of an element below another."""
    return element.findtext(path) or ""


def link_of(entry: xml.etree.ElementTree.Element) -> str:
    """Where an entry of a feed leads to."""
    link = entry.find(ATOM + "link")
    return "" if link is None else link.get("href", "")


def times_of(tree: xml.etree.ElementTree.Element) -> list[str]:
    """The times of the entries of a feed."""
    return [text_of(entry, ATOM + "updated") for entry in tree.findall(ATOM + "entry")]


def test_feed(folder: str) -> None:
    """The feed has the newest fifty, is XML with any name, and gives a deposit the same identity each time."""
    chance, copy, room = random.Random(16), os.path.join(folder, "feed.db"), os.path.join(folder, "feed")
    database = new_archive(copy)
    entries = [Entry(number, chance) for number in range(1, 1010)]
    entries[1008].name = '<b>&"]]>'
    entries[1008].file = b'#N <b>&"]]>\x01\xff\nx = 1, y = 1, rule = B3/S23\no!\n'
    entries[1008].rule = "B3/S23"
    fill(database, entries[:1000], 1)
    life_index(copy, room)
    first = {
        link_of(entry): text_of(entry, ATOM + "id")
        for entry in xml.etree.ElementTree.fromstring(content(room, "feed.xml")).findall(ATOM + "entry")
    }
    fill(database, entries[1000:], 1001)
    second = SECOND_DAY[0], SECOND_DAY[1] + 4321
    same("an index with a name that XML forbids", life_index(copy, room, second)[0][0], 0)
    tree = xml.etree.ElementTree.fromstring(content(room, "feed.xml"))
    found = [
        (
            link_of(entry),
            text_of(entry, ATOM + "title"),
            text_of(entry, f"{ATOM}author/{ATOM}name"),
            text_of(entry, ATOM + "updated")[:10],
        )
        for entry in tree.findall(ATOM + "entry")
    ]
    wanted = [
        (
            f"/d/{number}",
            entries[number - 1].name or f"Deposit {number}",
            entries[number - 1].member,
            (SECOND_DAY if number > 1000 else FIRST_DAY)[0],
        )
        for number in range(1009, 959, -1)
    ]
    wanted[0] = (wanted[0][0], '<b>&"]]>\ufffd\ufffd', *wanted[0][2:])
    same("the newest fifty", found, wanted)
    same("the feed's day", text_of(tree, ATOM + "updated")[:10], SECOND_DAY[0])
    same("the time of new entries", set(times_of(tree)[:9]), {f"{SECOND_DAY[0]}T01:12:01Z"})
    same("the time of older ones", set(times_of(tree)[9:]), {f"{FIRST_DAY[0]}T00:00:00Z"})
    life_index(copy, room, (SECOND_DAY[0], SECOND_DAY[1] + 7200))
    same(
        "an entry keeps its time", times_of(xml.etree.ElementTree.fromstring(content(room, "feed.xml"))), times_of(tree)
    )
    identities = {link_of(entry): text_of(entry, ATOM + "id") for entry in tree.findall(ATOM + "entry")}
    check(
        "identities stay",
        all(identities[link] == first[link] for link in identities.keys() & first.keys())
        and len(set(identities.values())) == 50,
    )
    database.close()


def test_of_the_program(program: str, folder: str) -> None:
    """An archive of the program, copied by life-copy while it is served: the index says what the routes say. Of a
    folder the newest copy counts."""
    database, copies, room = (
        os.path.join(folder, "club.db"),
        os.path.join(folder, "copies"),
        os.path.join(folder, "club"),
    )
    os.mkdir(copies)
    named = b"#N Named \xff\n#O Ann & Bob\n#C x = 9, y = 9, rule = B0/S\nx = 9, y = 9, rule = S23/B36\n3o$2b2o!\n"
    with Server(database, 1000) as server:
        for turn, (member, body) in enumerate([("ann", GLIDER), ("bob", named), ("ann", b"x = 1, y = 1\n!")]):
            exchanged(server.port, [deposit(member, f"t{turn}", body)])
            exchanged(
                server.port,
                [message("POST", f"/deposits/{turn + 1}/censuses/{turn}/4", b"", "x-member: ann", f"x-token: c{turn}")],
            )
            copy = os.path.join(copies, f"copy-{turn}.db")
            done = subprocess.run([os.path.join(DEPLOY, "life-copy"), database, copy], capture_output=True, timeout=60)
            same(f"copy {turn}", done.returncode, 0)
            same(
                f"an index of copy {turn}",
                life_index(copies, room)[0],
                (0, f"{room}: deposits: {turn + 1}, censuses: {turn + 1}\n", ""),
            )
        replies = [
            json.loads(exchanged(server.port, [message("GET", path)]).partition(b"\r\n\r\n")[2])
            for path in ("/deposits/after/0", "/censuses/1", "/censuses/2", "/censuses/3")
        ]
        shown = [
            exchanged(server.port, [message("GET", f"/deposits/{number}")]).partition(b"\r\n\r\n")[2]
            for number in (1, 2, 3)
        ]
    rows = said(room)
    same(
        "the index says what a list says",
        [{"id": number, "member": row[2], "population": row[4], "rule": row[3]} for number, row in enumerate(rows, 1)],
        replies[0]["deposits"],
    )
    for row, text in zip(rows, shown):
        name, author, _, _, cells = life.read_file(text)
        texts = tuple((words or b"").decode(errors="replace") for words in (name, author))
        size = (1 + max((x for x, _ in cells), default=-1), 1 + max((y for _, y in cells), default=-1))
        check(f"the texts and the size of {row}", row[:2] == texts and row[5:] == size)
    block = blocks(room, "censuses")[0]
    found = [
        dict(zip(("deposit", "generation", "limit", "clusters", "unresolved", "steady"), row))
        for row in zip(
            *(block[name] for name in ("deposit", "generation", "limit", "clusters", "unresolved", "steady"))
        )
    ]
    same(
        "the index says what censuses say",
        [row | {"steady": bool(row["steady"])} for row in found],
        [{name: reply[name] for name in row} for row, reply in zip(found, replies[1:])],
    )
    pairs = {
        (rule, code, place + 1, count)
        for rule, codes in blocks(room, "objects")[0]["rules"].items()
        for code, places in codes.items()
        for place, count in zip(places[::2], places[1::2])
    }
    check(
        "and which objects they have",
        pairs
        == {
            (rows[reply["deposit"] - 1][3], row["code"], reply["census"], row["count"])
            for reply in replies[1:]
            for row in reply["rows"]
        }
        and pairs,
    )


def test_while_deposits_come(program: str, folder: str) -> None:
    """Copies and indexes made while members deposit: each is of what there was at one moment, and none is behind what
    was answered before it."""
    database, copy, room = (os.path.join(folder, name) for name in ("busy.db", "busy-copy.db", "busy"))
    answered: list[bytes] = []
    over = threading.Event()
    with Server(database, 100_000) as server:

        def depositing() -> None:
            while not over.is_set():
                text = f"#N Number {len(answered) + 1}\nx = 3, y = 3, rule = B3/S23\nbo$2bo$3o!\n".encode()
                exchanged(server.port, [deposit("ann", f"t{len(answered)}", text)])
                answered.append(text)

        thread = threading.Thread(target=depositing)
        thread.start()
        try:
            for turn in range(5):
                time.sleep(0.2)
                before = len(answered)
                done = subprocess.run(
                    [os.path.join(DEPLOY, "life-copy"), database, copy], capture_output=True, timeout=60
                )
                same(f"copy {turn} beside deposits: {done.stderr!r}", done.returncode, 0)
                same(f"index {turn} beside deposits", life_index(copy, room)[0][0], 0)
                rows = said(room)
                check(
                    f"index {turn} has {len(rows)} deposits, at least {before}",
                    before <= len(rows)
                    and [row[0] for row in rows] == [f"Number {number}" for number in range(1, len(rows) + 1)],
                )
        finally:
            over.set()
            thread.join()
