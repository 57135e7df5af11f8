"""Archives of schema version 1, which tests/test_archive.py writes and the program migrates."""
import sqlite3

import archives
import life
import reference
from clients import GLIDER

# The statements of schema version 1, which stay as they are.
LAYOUT = "CREATE TABLE layout (version INTEGER NOT NULL) STRICT"

FIRST_TABLES = [
    LAYOUT,
    (
        "CREATE TABLE deposits (id INTEGER PRIMARY KEY, member TEXT NOT NULL, token TEXT NOT NULL, "
        "rule TEXT NOT NULL, population INTEGER NOT NULL CHECK (population >= 0), "
        "rle BLOB NOT NULL, UNIQUE (member, token)) STRICT"
    ),
    (
        "CREATE TABLE censuses (id INTEGER PRIMARY KEY, member TEXT NOT NULL, token TEXT NOT NULL, "
        "deposit INTEGER NOT NULL REFERENCES deposits (id), gens INTEGER NOT NULL, lim INTEGER NOT NULL, "
        "clusters INTEGER NOT NULL, unresolved INTEGER NOT NULL, UNIQUE (member, token)) STRICT"
    ),
    (
        "CREATE TABLE census_rows (census INTEGER NOT NULL REFERENCES censuses (id), "
        "code TEXT NOT NULL, n INTEGER NOT NULL CHECK (n > 0), PRIMARY KEY (census, code)) STRICT"
    ),
    "INSERT INTO layout (version) VALUES (1)",
]
ADD_DEPOSIT = "INSERT INTO deposits (id, member, token, rule, population, rle) VALUES (?, ?, ?, ?, ?, ?)"

# Two blocks; two blinkers whose phases touch; a block and a blinker; a glider.
FIELDS = [b"x = 6, y = 2\n2o2b2o$2o2b2o!\n", b"x = 4, y = 3\no2bo$o2bo$o2bo!\n", b"x = 9, y = 2\n2o4b3o$2o!\n", GLIDER]


def first_archive(path: str, many: int) -> list[tuple[int, int]]:
    """Writes an archive of schema version 1 with this many censuses, using sqlite3; returns the flags that they have to
    get."""
    kept = sqlite3.connect(path)
    kept.execute("PRAGMA journal_mode=WAL")
    for statement in FIRST_TABLES:
        kept.execute(statement)
    records = [life.read_file(field) for field in FIELDS]
    for i, record in enumerate(records):
        rule, cells = record[3:]
        row = (i + 1, "ann", f"t{i}", life.rule_text(rule), len(cells), life.file_text(record))
        kept.execute(ADD_DEPOSIT, row)
    found: dict[tuple[int, int, int], tuple[reference.Tally, bool]] = {}
    flags = []
    for number in range(1, many + 1):
        asked = deposit, n, limit = number % 4 + 1, number % 5, number % 3 + 1
        if asked not in found:
            rule, cells = records[deposit - 1][3:]
            later = life.generation(rule, cells, n)
            found[asked] = reference.tally(rule, later, limit), reference.is_steady(rule, later, limit)
        (rows, unresolved, total), steady = found[asked]
        kept.execute(
            "INSERT INTO censuses (id, member, token, deposit, gens, lim, clusters, unresolved) "
            "VALUES (?, ?, ?, ?, ?, ?, ?, ?)",
            (number, "ann", f"c{number}", deposit, n, limit, total, unresolved),
        )
        kept.executemany(
            "INSERT INTO census_rows (census, code, n) VALUES (?, ?, ?)",
            [(number, code, count) for code, count in rows],
        )
        flags.append((number, int(steady)))
    kept.commit()
    kept.close()
    return flags


def version_kept(path: str, flags: list[tuple[int, int]]) -> int | None:
    """The layout of the file, if it is 1 without flags, or this version's with all of them."""
    kept = sqlite3.connect(path)
    version = kept.execute("SELECT version FROM layout").fetchall()
    tables = {name for (name,) in kept.execute("SELECT name FROM sqlite_schema WHERE type = 'table'")}
    whole = (
        "census_flags" in tables
        and kept.execute("SELECT census, steady FROM census_flags ORDER BY census").fetchall() == flags
    )
    good = kept.execute("PRAGMA integrity_check").fetchall() == [("ok",)]
    kept.close()
    if good and version == [(1,)] and "census_flags" not in tables:
        return 1
    return archives.VERSION if good and version == [(archives.VERSION,)] and whole else None
