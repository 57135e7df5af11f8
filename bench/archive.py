#!/usr/bin/env python3
"""Times the archive's calls, and Python's sqlite3 module with the same statements on the same tables, and prints a
table.

    bench/archive.py

The program is bench/archive.rattle. It is not a crate of the repository, so that the gate does not prove it each time:
it is built here in a folder of its own, over the crates as they are (which are proved on the way, if they are not yet),
and runs there beside python's. Both files lie in that folder; both write a log and wait for the disk at each commit.
"""
import os
import shutil
import sqlite3
import subprocess
import sys
import tempfile
import time
from collections.abc import Callable

HERE = os.path.dirname(os.path.abspath(__file__))
TOP = os.path.dirname(HERE)
sys.path.insert(0, os.path.join(TOP, "tests"))
sys.dont_write_bytecode = True
import archives  # noqa: E402

SIZES = [100, 10_000, 100_000]
BELOW = ["life_core", "life_rle", "life_code", "life_census", "life_store"]
CALLS = [
    ("add", "deposits"),
    ("number", "look-ups by number"),
    ("token", "look-ups by token"),
    ("count", "counts"),
    ("page", "pages of 100"),
]
# The nanoseconds per call, by store, size and name of the call.
Times = dict[tuple[str, int, str], float]
RLE = b"x = 3, y = 3, rule = B3/S23\nbo$2bo$3o!\n"

TABLES = archives.tables()[:2]
NEWEST = "SELECT id FROM deposits ORDER BY id DESC LIMIT 1"
SHOW = "SELECT id, member, token, rle FROM deposits WHERE id = ?1 ORDER BY id"
FIND = "SELECT id, member, token, rle FROM deposits WHERE member = ?1 AND token = ?2 ORDER BY id"
PAGE = "SELECT id, member, population, rule FROM deposits WHERE id > ?1 ORDER BY id LIMIT 100"


def python_calls(conn: sqlite3.Connection) -> dict[str, Callable[[int], object]]:
    """Each call as a function of a number."""

    def add(number: int) -> None:
        rows = conn.execute(NEWEST).fetchall()
        conn.execute(archives.ADD_DEPOSIT, ((rows[0][0] if rows else 0) + 1, "ann", f"t{number}", "B3/S23", 5, RLE))

    return {
        "add": add,
        "number": lambda number: conn.execute(SHOW, (number,)).fetchall(),
        "token": lambda number: conn.execute(FIND, ("ann", f"t{number}")).fetchall(),
        "count": lambda number: conn.execute(NEWEST).fetchall(),
        "page": lambda number: conn.execute(PAGE, (number,)).fetchall(),
    }


def python_times(store: str, path: str, times: Times) -> None:
    conn = sqlite3.connect(path, isolation_level=None)
    for text in ["PRAGMA journal_mode=WAL", "PRAGMA synchronous=FULL", "PRAGMA foreign_keys=ON", *TABLES]:
        conn.execute(text)
    calls = python_calls(conn)
    kept = 0
    for size in SIZES:
        for number in range(kept, size):
            calls["add"](number)
        for name, numbers in [
            ("add", range(size, size + 200)),
            ("number", range(1, 101)),
            ("token", range(1, 101)),
            ("count", range(1000)),
            ("page", range(100)),
        ]:
            start = time.perf_counter()
            for number in numbers:
                calls[name](number)
            times[store, size, name] = (time.perf_counter() - start) / len(numbers) * 1e9
        kept = size + 200
    conn.close()


def built(folder: str) -> str:
    """The program, built over the repository's crates."""
    os.makedirs(f"{folder}/crates/archive_bench/src")
    shutil.copy(f"{HERE}/archive.rattle", f"{folder}/crates/archive_bench/src/main.rt")
    with open(f"{TOP}/crates.txt") as file:
        lines = [line for line in file.read().split("\n") if line.split(":")[0] in BELOW]
    with open(f"{folder}/crates.txt", "w") as file:
        file.write("\n".join(lines) + "\narchive_bench: life_core life_rle life_store sqlite\n")
    for name in BELOW:
        subprocess.run(["cp", "-a", f"{TOP}/crates/{name}", f"{folder}/crates/{name}"], check=True)
    done = subprocess.run(["rt", "run"], cwd=f"{folder}/crates/archive_bench", capture_output=True, text=True)
    program = f"{folder}/crates/archive_bench/out/archive_bench"
    if not os.path.exists(program):
        sys.exit(done.stdout[-2000:] + done.stderr[-2000:])
    return program


def life_times(program: str, folder: str, times: Times) -> None:
    done = subprocess.run([program], cwd=folder, capture_output=True, text=True, check=True)
    for line in done.stdout.splitlines():
        store, size, name, each, ok = line.split()
        if ok != "true":
            sys.exit(line)
        times[store, int(size), name] = float(each)


def opened(path: str) -> str:
    """What SQLite says about the file that life wrote."""
    conn = sqlite3.connect(path)
    (answer,) = conn.execute("PRAGMA integrity_check").fetchone()
    rows = conn.execute(
        "SELECT count(*), min(id), max(id), min(rule), max(rule), sum(population) FROM deposits"
    ).fetchone()
    tables = [name for (name,) in conn.execute("SELECT name FROM sqlite_schema WHERE type = 'table' ORDER BY name")]
    conn.close()
    return f"SQLite on the file that life wrote: integrity_check {answer}; tables {', '.join(tables)}; deposits {rows}"


def main() -> None:
    ours: Times = {}
    theirs: Times = {}
    with tempfile.TemporaryDirectory() as folder:
        program = built(folder)
        os.makedirs(f"{folder}/life")
        life_times(program, f"{folder}/life", ours)
        found = opened(f"{folder}/life/archive.db")
        python_times("memory", ":memory:", theirs)
        python_times("file", f"{folder}/python.db", theirs)
    print(found)
    print(f"python {sys.version.split()[0]}, SQLite {sqlite3.sqlite_version}, load {os.getloadavg()[0]:.1f}")
    print()
    print(
        "| calls | kept | life, memory, a second | python | life / python, time |"
        " life, file, a second | python | life / python, time |"
    )
    print("| --- | --- | --- | --- | --- | --- | --- | --- |")
    for name, words in CALLS:
        for size in SIZES:
            cells = []
            for store in ("memory", "file"):
                life, other = ours[store, size, name], theirs[store, size, name]
                cells += [f"{1e9 / life:,.0f}", f"{1e9 / other:,.0f}", f"{life / other:.2f}"]
            print(f"| {words} | {size:,} | " + " | ".join(cells) + " |")
    print()
    for store in ("memory", "file"):
        grown = ", ".join(
            f"{words} {ours[store, SIZES[-1], name] / ours[store, SIZES[0], name]:.1f}" for name, words in CALLS
        )
        print(
            f"At 100,000 kept a call takes, beside one at 100, in {'memory' if store == 'memory' else 'a file'}: "
            f"{grown} times as long."
        )


main()
