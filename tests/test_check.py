"""`life check` on sound archives, on archives that sqlite3 damaged in one place, and on files that are no archives.
"""
import contextlib
import os
import pty
import random
import re
import shutil
import sqlite3
import subprocess
import time
from typing import Any

import pytest

import archives
from archives import ADD_DEPOSIT, BLANK, VERSION
from clients import (
    BLOCKS,
    GLIDER,
    GLIDER_TEXT,
    PROGRAM,
    Server,
    check,
    deposit,
    exchanged,
    fresh,
    message,
    run,
    same,
    unavailable,
)

pytestmark = [pytest.mark.full, pytest.mark.usefixtures("program")]

# A statement and its values.
Change = tuple[str, list[Any]]
BLOCK_TEXT = b"x = 2, y = 2, rule = B3/S23\n2o$2o!\n"
OTHER_TEXT = b"x = 3, y = 3, rule = B3/S23\nbo$2bo$ooo!\n"
UNSOUND = b"refused: not-sound\n"
# Why a file is unavailable: its pages do not match their checksums, or a server has it open.
SPOILED = "damaged, cut short, or changed by another program; life-restore puts back the newest copy"
OPEN = "another program has it open"
NO_TABLES = "the tables are not those of an archive"
LAYOUT = "layout: its row is wrong or missing"

# A glider and a block; the block 7 generations later, and the glider 4 generations later.
ROWS: list[Change] = [
    (ADD_DEPOSIT, [1, "ann", "t1", "B3/S23", 5, GLIDER_TEXT]),
    (ADD_DEPOSIT, [2, "ann", "t2", "B3/S23", 4, BLOCK_TEXT]),
    ("INSERT INTO censuses VALUES (1, 'ann', 'c1', 2, 7, 2, 1, 0)", []),
    ("INSERT INTO censuses VALUES (2, 'bob', 'c1', 1, 4, 4, 1, 0)", []),
    ("INSERT INTO census_rows VALUES (1, 'xs4_33', 1)", []),
    ("INSERT INTO census_rows VALUES (2, 'xq4_153', 1)", []),
    ("INSERT INTO census_flags VALUES (1, 1)", []),
    ("INSERT INTO census_flags VALUES (2, 0)", []),
]

# Changes, and what is wrong then: a census whose deposit is wrong can't be counted. Those of the schema come first.
DAMAGED: list[tuple[str, list[Any], str]] = [
    ("ALTER TABLE deposits ADD COLUMN note TEXT", [], NO_TABLES),
    ("ALTER TABLE censuses RENAME COLUMN lim TO most", [], NO_TABLES),
    ("CREATE INDEX by_rule ON deposits (rule)", [], NO_TABLES),
    ("CREATE TABLE notes (note TEXT)", [], NO_TABLES),
    ("CREATE VIEW members AS SELECT member FROM deposits", [], NO_TABLES),
    ("DROP TABLE census_flags", [], NO_TABLES),
    ("UPDATE layout SET version = version + 1", [], LAYOUT),
    ("INSERT INTO layout VALUES (?)", [VERSION], LAYOUT),
    ("DELETE FROM layout", [], LAYOUT),
    ("UPDATE layout SET rowid = 2", [], LAYOUT),
    (ADD_DEPOSIT, [0, "ann", "t3", "B3/S23", 4, BLOCK_TEXT], "deposit 1"),
    (ADD_DEPOSIT, [4, "ann", "t3", "B3/S23", 4, BLOCK_TEXT], "deposit 3"),
    ("UPDATE deposits SET member = 'Ann' WHERE id = 1", [], "deposit 1"),
    ("UPDATE deposits SET token = 't 2' WHERE id = 2", [], "deposit 2"),
    ("UPDATE deposits SET rule = 'B36/S23' WHERE id = 1", [], "deposit 1, census 2"),
    ("UPDATE deposits SET population = 6 WHERE id = 2", [], "deposit 2, census 1"),
    ("UPDATE deposits SET rle = ? WHERE id = 2", [BLOCK_TEXT + b"\n"], "deposit 2, census 1"),
    ("UPDATE deposits SET rle = ? WHERE id = 1", [OTHER_TEXT], "deposit 1, census 2"),
    ("UPDATE deposits SET rle = ? WHERE id = 1", [GLIDER_TEXT.replace(b", rule = B3/S23", b"")], "deposit 1, census 2"),
    ("UPDATE deposits SET rle = ? WHERE id = 1", [b""], "deposit 1, census 2"),
    ("INSERT INTO censuses VALUES (4, 'eve', 'c1', 1, 4, 4, 1, 0)", [], "census 3, census 4"),
    ("UPDATE censuses SET member = '' WHERE id = 1", [], "census 1"),
    ("UPDATE censuses SET token = 'c_1' WHERE id = 2", [], "census 2"),
    ("UPDATE censuses SET deposit = 1 WHERE id = 1", [], "census 1"),
    ("UPDATE censuses SET gens = 2049 WHERE id = 1", [], "census 1"),
    ("UPDATE censuses SET gens = -1 WHERE id = 1", [], "census 1"),
    ("UPDATE censuses SET lim = 0 WHERE id = 1", [], "census 1"),
    ("UPDATE censuses SET lim = 3 WHERE id = 2", [], "census 2"),
    ("UPDATE censuses SET clusters = 2 WHERE id = 2", [], "census 2"),
    ("UPDATE censuses SET unresolved = 1 WHERE id = 1", [], "census 1"),
    ("UPDATE census_rows SET census = 1 WHERE census = 2", [], "census 2"),
    ("UPDATE census_rows SET code = 'xs4_3' WHERE census = 1", [], "census 1"),
    ("UPDATE census_rows SET n = 2 WHERE census = 2", [], "census 2"),
    ("UPDATE census_rows SET rowid = 3 WHERE census = 2", [], "census 2"),
    ("INSERT INTO census_rows VALUES (2, 'xs4_33', 1)", [], "census 3"),
    ("DELETE FROM census_rows WHERE census = 1", [], "census 1"),
    ("UPDATE census_flags SET steady = 0 WHERE census = 1", [], "census 1"),
    ("UPDATE census_flags SET steady = 1 WHERE census = 2", [], "census 2"),
    ("DELETE FROM census_flags WHERE census = 2", [], "census 2"),
]
# Changes that only counting finds.
UNCOUNTED = [
    "UPDATE censuses SET deposit = 1 WHERE id = 1",
    "UPDATE censuses SET lim = 3 WHERE id = 2",
    "UPDATE census_rows SET code = 'xs4_3' WHERE census = 1",
    "UPDATE census_flags SET steady = 0 WHERE census = 1",
    "UPDATE census_flags SET steady = 1 WHERE census = 2",
]
# A change that a quick check finds one census later: the first census then has no clusters with a code.
LATER = {"UPDATE censuses SET unresolved = 1 WHERE id = 1": "census 2"}
# A change that an opening refuses, since a census names the deposit.
REFUSED = "UPDATE deposits SET id = 3 WHERE id = 1"
# Changes that leave an archive: who deposited something, if a request can have that member and that token.
OTHERS = [
    "UPDATE deposits SET member = 'bob' WHERE id = 1",
    "UPDATE deposits SET token = 't9' WHERE id = 1",
    "UPDATE censuses SET member = 'eve' WHERE id = 1",
    "UPDATE censuses SET token = 'c9' WHERE id = 2",
]


def written(folder: str, name: str, changes: list[Change]) -> str:
    """An archive that sqlite3 wrote, after these changes."""
    database = fresh(folder, name)
    kept = archives.new_archive(database)
    for statement, values in ROWS + changes:
        kept.execute(statement, values)
    kept.commit()
    kept.close()
    return database


ENDS = {
    "deposit": ": its row is wrong or missing",
    "census": ": its row, its counts or its flag are wrong or missing",
}


def lines_of(wrong: list[str]) -> bytes:
    """The lines for what is wrong."""
    return "".join(f"{one}{ENDS.get(one.split()[0], '')}\n" for one in wrong).encode()


def found_quickly(statement: str, wrong: str) -> list[str]:
    """What a quick check finds of what the whole one finds. It doesn't count the censuses of a wrong deposit."""
    parts = LATER.get(statement, wrong).split(", ")
    return [one for one in parts if not (parts[0].startswith("deposit") and one.startswith("census"))]


def contents(database: str) -> list[tuple[str, bytes]]:
    """The bytes of the file and of its log, if they are there. An opening restarts a log without a commit."""
    found = []
    for name, least in ((database, 0), (database + "-wal", BLANK + 1)):
        if os.path.exists(name) and os.path.getsize(name) >= least:
            with open(name, "rb") as file:
                found.append((name, file.read()))
    return found


def checks_as(name: str, database: str, wanted: tuple[int, bytes, bytes], *options: str) -> None:
    """A check has this answer, and leaves every byte."""
    before = contents(database)
    same(name, run("check", *options, "--db", database), wanted)
    same(f"{name}: the files", contents(database), before)


def test_archive_of_sqlite(folder: str) -> None:
    checks_as("an archive of sqlite3", written(folder, "sound.db", []), (0, b"sound: 2 deposits, 2 censuses\n", b""))


@pytest.mark.parametrize("statement", OTHERS)
def test_other_members(folder: str, statement: str) -> None:
    database = written(folder, "sound.db", [(statement, [])])
    checks_as(statement, database, (0, b"sound: 2 deposits, 2 censuses\n", b""))


def test_refused_change(folder: str) -> None:
    refused = written(folder, "refused.db", [(REFUSED, [])])
    checks_as(REFUSED, refused, unavailable(refused, SPOILED))


@pytest.mark.parametrize("statement, values, wrong", DAMAGED, ids=[statement for statement, _, _ in DAMAGED])
def test_damage(folder: str, statement: str, values: list[Any], wrong: str) -> None:
    database = written(folder, "damaged.db", [(statement, values)])
    checks_as(statement, database, (1, lines_of(wrong.split(", ")), UNSOUND))


def test_quick_check_of_a_sound_archive(folder: str) -> None:
    sound = (0, b"sound but for counts: 2 deposits, 2 censuses\n", b"")
    checks_as("an archive of sqlite3", written(folder, "quick.db", []), sound, "--quick")


@pytest.mark.parametrize("statement, values, wrong", DAMAGED, ids=[statement for statement, _, _ in DAMAGED])
def test_quick_check_of_damage(folder: str, statement: str, values: list[Any], wrong: str) -> None:
    """A quick check finds what the whole one finds, but for the counts."""
    wanted = (1, lines_of(found_quickly(statement, wrong)), UNSOUND)
    if statement in UNCOUNTED:
        wanted = (0, b"sound but for counts: 2 deposits, 2 censuses\n", b"")
    checks_as(statement, written(folder, "quick.db", [(statement, values)]), wanted, "--quick")


def test_archives_of_the_program(folder: str) -> None:
    """Archives of the program itself, also while a server has one open, and after it was killed."""
    database = fresh(folder, "made.db")
    for token, data in (("t1", GLIDER), ("t2", BLOCKS)):
        run("deposit", "--db", database, "ann", token, data=data)
    checks_as("two deposits", database, (0, b"sound: 2 deposits, 0 censuses\n", b""))
    with Server(database, 3) as server:
        asked = message("POST", "/deposits/1/censuses/30/4", b"", "x-member: ann", "x-token: c1")
        check("a census", exchanged(server.port, [asked]).startswith(b"HTTP/1.1 201 "))
        same("while it is served", run("check", "--db", database), unavailable(database, OPEN))
        exchanged(server.port, [deposit("ann", "t3", GLIDER)])
        server.process.kill()
        server.process.wait()
    checks_as("after a kill", database, (0, b"sound: 3 deposits, 1 censuses\n", b""))
    quick = (0, b"sound but for counts: 3 deposits, 1 censuses\n", b"")
    checks_as("after a kill, without counting", database, quick, "--quick")
    same("the next deposit", run("deposit", "--db", database, "ann", "t4", data=GLIDER), (0, b"deposit 4\n", b""))
    alone = fresh(folder, "alone.db")
    shutil.copyfile(database, alone)
    checks_as("a copy of the file alone", alone, (0, b"sound: 4 deposits, 1 censuses\n", b""))


def test_other_files(folder: str) -> None:
    """Files that are no archives."""
    missing = fresh(folder, "missing.db")
    checks_as("a missing file", missing, unavailable(missing, "no such file"))
    check("it is not created", not os.path.exists(missing))
    empty = fresh(folder, "empty.db")
    with open(empty, "wb"):
        pass
    checks_as("an empty file", empty, unavailable(empty, "an empty file"))
    other = fresh(folder, "other.db")
    kept = sqlite3.connect(other)
    kept.execute("CREATE TABLE songs (name TEXT)")
    kept.commit()
    kept.close()
    checks_as("another program's database", other, (1, lines_of([NO_TABLES]), UNSOUND))
    text = fresh(folder, "text.db")
    with open(text, "wb") as file:
        file.write(b"no database\n" * 1000)
    checks_as("a text", text, unavailable(text, "not an SQLite database"))
    folder_itself = os.path.join(folder, "folder.db")
    os.mkdir(folder_itself)
    same("a folder", run("check", "--db", folder_itself), unavailable(folder_itself, "a folder, not a file"))


def test_spoiled_files(folder: str) -> None:
    """Of an archive with checksums: a row that sqlite3 changed, a file that was cut short, and no right to write."""
    good = fresh(folder, "good.db")
    run("deposit", "--db", good, "ann", "t1", data=GLIDER)
    changed, short, shut = (fresh(folder, name) for name in ("changed.db", "short.db", "shut.db"))
    for path in (changed, short, shut):
        shutil.copyfile(good, path)
    with contextlib.closing(sqlite3.connect(changed)) as rows:
        rows.execute("UPDATE deposits SET member = 'bob'")
        rows.commit()
    checks_as("a row that sqlite3 changed", changed, unavailable(changed, SPOILED))
    os.truncate(short, os.path.getsize(short) // 2)
    checks_as("a file that was cut short", short, unavailable(short, SPOILED))
    os.chmod(shut, 0o400)
    as_nobody = ["setpriv", "--reuid=65534", "--regid=65534", "--clear-groups"] if os.geteuid() == 0 else []
    os.chmod(folder, 0o755)
    done = subprocess.run([*as_nobody, PROGRAM, "check", "--db", shut], capture_output=True)
    check(f"a file without the right to read it: {done.stderr!r}", done.stderr.endswith(b": permission denied\n"))


# ---- several errors

DEPOSITS, CENSUSES, SEEDS = 6, 8, 100
# Changes of a row, with {} for its number: of a deposit, so that its censuses can't be counted; of its member or
# token; of a census.
OF_DEPOSIT = [
    "UPDATE deposits SET rule = 'B36/S23' WHERE id = {}",
    "UPDATE deposits SET population = population + 1 WHERE id = {}",
    "UPDATE deposits SET rle = CAST(rle || x'0a' AS BLOB) WHERE id = {}",
]
OF_NAMES = ["UPDATE deposits SET member = 'Ann' WHERE id = {}", "UPDATE deposits SET token = 't ' || id WHERE id = {}"]
OF_CENSUS = [
    "UPDATE censuses SET member = '' WHERE id = {}",
    "UPDATE censuses SET gens = 2049 WHERE id = {}",
    "UPDATE censuses SET lim = 0 WHERE id = {}",
    "UPDATE censuses SET clusters = 2 WHERE id = {}",
    "UPDATE census_rows SET n = 2 WHERE census = {}",
    "UPDATE census_rows SET code = 'xs4_3' WHERE census = {}",
    "DELETE FROM census_rows WHERE census = {}",
    "UPDATE census_flags SET steady = 1 - steady WHERE census = {}",
    "DELETE FROM census_flags WHERE census = {}",
]


def deposit_of(census: int) -> int:
    return (census - 1) % DEPOSITS + 1


def several(folder: str, changes: list[str]) -> str:
    """An archive of gliders and blocks in turn, after these changes."""
    database = fresh(folder, "several.db")
    kept = archives.new_archive(database)
    for number in range(1, DEPOSITS + 1):
        population, text = (5, GLIDER_TEXT) if number % 2 else (4, BLOCK_TEXT)
        kept.execute(ADD_DEPOSIT, [number, "ann", f"t{number}", "B3/S23", population, text])
    for number in range(1, CENSUSES + 1):
        code, steady = ("xq4_153", 0) if deposit_of(number) % 2 else ("xs4_33", 1)
        kept.execute(
            "INSERT INTO censuses VALUES (?, 'bob', ?, ?, 4, 4, 1, 0)", [number, f"c{number}", deposit_of(number)]
        )
        kept.execute("INSERT INTO census_rows VALUES (?, ?, 1)", [number, code])
        kept.execute("INSERT INTO census_flags VALUES (?, ?)", [number, steady])
    for statement in changes:
        kept.execute(statement)
    kept.commit()
    kept.close()
    return database


def seeded_changes(chance: random.Random) -> tuple[list[str], list[str]]:
    """Changes of one to six rows, and what is wrong then."""
    rows = [("deposit", number) for number in range(1, DEPOSITS + 1)]
    rows += [("census", number) for number in range(1, CENSUSES + 1)]
    statements = []
    deposits: set[int] = set()
    censuses: set[int] = set()
    for table, number in chance.sample(rows, chance.randint(1, 6)):
        kinds = OF_CENSUS if table == "census" else chance.choice([OF_DEPOSIT, OF_NAMES])
        statements.append(chance.choice(kinds).format(number))
        (censuses if table == "census" else deposits).add(number)
        if kinds is OF_DEPOSIT:
            censuses |= {one for one in range(1, CENSUSES + 1) if deposit_of(one) == number}
    wrong = [f"deposit {one}" for one in sorted(deposits)] + [f"census {one}" for one in sorted(censuses)]
    return statements, wrong


@pytest.mark.parametrize("seed", range(SEEDS))
def test_several_errors(folder: str, seed: int) -> None:
    statements, wrong = seeded_changes(random.Random(seed))
    checks_as("; ".join(statements), several(folder, statements), (1, lines_of(wrong), UNSOUND))


def test_a_hundred_errors(folder: str) -> None:
    """Of many errors the first hundred are listed, as numbers that are missing are here."""
    far = [
        "CREATE TEMP TABLE far AS SELECT * FROM deposits WHERE id = 1",
        "UPDATE far SET id = 1000000000, token = 'far'",
        "INSERT INTO deposits SELECT * FROM far",
    ]
    wrong = [f"deposit {number}" for number in range(DEPOSITS + 1, DEPOSITS + 101)]
    checks_as("a gap", several(folder, far), (1, lines_of(wrong), UNSOUND))


# ---- one token twice

# A member and a token side by side, as rows and index entries have them, and those of the row before.
TWICE = {"deposits": (b"annt2", b"annt1"), "censuses": (b"bobc2", b"bobc1")}


@pytest.mark.parametrize("places", [[0, 1], [0], [1]], ids=["both", "first", "second"])
@pytest.mark.parametrize("table", TWICE)
def test_one_token_twice(folder: str, table: str, places: list[int]) -> None:
    """Bytes give a row, its entry in the index, or both, another row's member and token. Such a file is not opened."""
    database, (own, other) = several(folder, []), TWICE[table]
    with open(database, "rb") as file:
        data = bytearray(file.read())
    found = [match.start() for match in re.finditer(own, data)]
    same("a row and an entry", len(found), 2)
    for place in places:
        data[found[place] : found[place] + len(own)] = other
    with open(database, "wb") as file:
        file.write(data)
    checks_as("one token twice", database, unavailable(database, SPOILED))


@pytest.mark.parametrize("table", TWICE)
def test_tables_without_unique(folder: str, table: str) -> None:
    """Tables that let a member use a token twice are not an archive's."""
    database = fresh(folder, "twice.db")
    kept = sqlite3.connect(database)
    for statement in archives.tables():
        is_it = statement.startswith(f"CREATE TABLE {table} ")
        kept.execute(statement.replace("UNIQUE (member, token)", "CHECK (id > 0)") if is_it else statement)
    kept.execute("INSERT INTO layout VALUES (?)", [VERSION])
    for statement, values in ROWS:
        kept.execute(statement, values)
    kept.execute(f"UPDATE {table} SET member = 'ann', token = 't1'")
    kept.commit()
    kept.close()
    checks_as("one token twice", database, (1, lines_of([NO_TABLES]), UNSOUND))


# ---- single bytes, kills, progress


def rows_in(database: str) -> list[Any] | None:
    """All rows without members and tokens, which a byte may change into others; None if sqlite3 can't read them."""
    try:
        kept = sqlite3.connect(database)
        found = [
            kept.execute(f"SELECT {columns} FROM {table} ORDER BY rowid").fetchall()
            for table, columns in (
                ("layout", "*"),
                ("deposits", "id, rule, population, rle"),
                ("censuses", "id, deposit, gens, lim, clusters, unresolved"),
                ("census_rows", "*"),
                ("census_flags", "*"),
            )
        ]
        kept.close()
    except sqlite3.Error:
        return None
    return found


def test_single_bytes(folder: str) -> None:
    """A file of sqlite3 has no checksums. With one byte changed it is sound only if its rows are what they were."""
    database = several(folder, [])
    with open(database, "rb") as file:
        good = file.read()
    before, found = rows_in(database), set()
    for seed in range(SEEDS):
        chance = random.Random(seed)
        # Most of a page is empty, so bytes that are not 0 are changed.
        place = chance.choice([at for at, byte in enumerate(good) if byte])
        changed = bytearray(good)
        changed[place] ^= 1 << chance.randrange(8)
        with open(database, "wb") as file:
            file.write(changed)
        status, output, errors = run("check", "--db", database)
        found.add(errors.split(b"\n")[0])
        if status == 0:
            same(f"byte {place}: the rows", rows_in(database), before)
        else:
            is_refused = errors == UNSOUND or errors.startswith(b"refused: unavailable\n")
            check(f"byte {place}: it is refused", status == 1 and is_refused)
            same(f"byte {place}: an error is named", bool(output), errors == UNSOUND)
    same("all three results came", len(found), 3)


def many(folder: str, count: int) -> str:
    """An archive of many gliders."""
    database = fresh(folder, "many.db")
    kept = archives.new_archive(database)
    kept.executemany(ADD_DEPOSIT, ([n, "ann", f"t{n}", "B3/S23", 5, GLIDER_TEXT] for n in range(1, count + 1)))
    kept.commit()
    kept.close()
    return database


def test_killed_checks(folder: str) -> None:
    database, chance = many(folder, 20000), random.Random(1)
    before = contents(database)
    for number in range(20):
        with subprocess.Popen([PROGRAM, "check", "--db", database], stdout=subprocess.DEVNULL) as process:
            time.sleep(chance.uniform(0, 0.3))
            process.kill()
        same(f"kill {number}: the files", contents(database), before)
    checks_as("after the kills", database, (0, b"sound: 20000 deposits, 0 censuses\n", b""))


def test_progress(folder: str) -> None:
    """On a terminal a line says how far the check is, and goes at the end."""
    database, (ours, its) = many(folder, 150000), pty.openpty()
    with subprocess.Popen([PROGRAM, "check", "--db", database], stdout=subprocess.PIPE, stderr=its) as process:
        os.close(its)
        shown = b""
        while process.poll() is None or not shown.endswith(b"\x1b[K"):
            try:
                shown += os.read(ours, 4096)
            except OSError:
                break
        assert process.stdout is not None
        said = process.stdout.read()
    os.close(ours)
    same("the result", (process.returncode, said), (0, b"sound: 150000 deposits, 0 censuses\n"))
    lines = shown.split(b"\r\x1b[K")
    check(
        "it shows how far it is",
        all(b" deposits and 0 censuses read, " in line for line in lines[1:-1]) and len(lines) > 2,
    )
    same("the line is removed", (lines[0], lines[-1]), (b"", b""))
