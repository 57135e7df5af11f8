"""Runs the built program on an archive in a file, as members would: `life deposit` and `life serve` on this machine's
loopback, with curl if it is installed, raw sockets and sqlite3. It kills the program and continues.
"""
import itertools
import os
import random
import re
import shutil
import socket
import sqlite3
import struct
import subprocess
import threading
import time

import pytest

import clients
import reference
from archives import BLANK, VERSION
from clients import (
    BLOCKS,
    BLOCKS_TEXT,
    GLIDER,
    GLIDER_TEXT,
    HERE,
    UNAVAILABLE,
    Server,
    check,
    deposit,
    exchanged,
    fresh,
    is_answered,
    message,
    run,
    same,
    unavailable,
)
from old_archives import LAYOUT, first_archive, version_kept
from seeded_messages import seeded_message
from test_allocations import preloaded, replied

# How many bits of a file are turned, how many streams are sent, how often the program is killed, and how many censuses
# it migrates.
BITS, STREAMS, STOPS, CENSUSES = 100, 1000, 25, 1000

pytestmark = [pytest.mark.full, pytest.mark.usefixtures("program")]

# ---- the program on a file


def test_deposits(folder: str) -> None:
    database = os.path.join(folder, "deposits.db")
    wanted = [
        ("first deposit", ("ann", "t1"), GLIDER, (0, b"deposit 1\n", b"")),
        ("repeated deposit", ("ann", "t1"), b"x = 3, y = 3\nbo$2bo$ooo!\n", (0, b"deposit 1\n", b"")),
        ("token with other content", ("ann", "t1"), BLOCKS, (1, b"", b"refused: token-reused\n")),
        ("second deposit", ("ann", "t2"), BLOCKS, (0, b"deposit 2\n", b"")),
        ("bad member", ("Ann", "t3"), GLIDER, (1, b"", b"refused: bad-member\n")),
        ("bad token", ("ann", "t 3"), GLIDER, (1, b"", b"refused: bad-token\n")),
        ("bad file", ("ann", "t3"), b"x = 3, y = 3\nbo$2bo$3o\n", (1, b"", b"refused: bad-pattern no-end\n")),
        ("file too long", ("ann", "t3"), GLIDER + b" " * 1_048_576, (1, b"", b"refused: bad-pattern too-long\n")),
    ]
    for name, (member, token), data, answer in wanted:
        same(name, run("deposit", "--db", database, member, token, data=data), answer)
    kept = sqlite3.connect(database)
    same("integrity", kept.execute("PRAGMA integrity_check").fetchall(), [("ok",)])
    rows = kept.execute("SELECT id, member, token, rule, population, rle FROM deposits ORDER BY id").fetchall()
    same("rows", rows, [(1, "ann", "t1", "B3/S23", 5, GLIDER_TEXT), (2, "ann", "t2", "B3/S23", 8, BLOCKS_TEXT)])
    same("layout", kept.execute("SELECT * FROM layout").fetchall(), [(VERSION,)])
    kept.close()


def copied_alone(database: str, to: str) -> str:
    """A copy of the archive's file without the log beside it."""
    copy = fresh(os.path.dirname(database), to)
    shutil.copyfile(database, copy)
    return copy


def has_deposits(database: str, tokens: list[str]) -> bool:
    """Whether sqlite3 finds these deposits in a sound file."""
    kept = sqlite3.connect(database)
    good = kept.execute("PRAGMA integrity_check").fetchall() == [("ok",)]
    found = kept.execute("SELECT id, token FROM deposits ORDER BY id").fetchall() if good else []
    kept.close()
    return found == list(enumerate(tokens, 1))


def test_file_alone(folder: str) -> None:
    """Once the program has ended the archive's file has all by itself: a copy of it, without the log, is the
    archive."""
    database = fresh(folder, "alone.db")
    for token, data in (("t1", GLIDER), ("t2", BLOCKS)):
        run("deposit", "--db", database, "ann", token, data=data)
    check("no commit in the log after a deposit", os.path.getsize(database + "-wal") <= BLANK)
    check("copy after deposits, by sqlite3", has_deposits(copied_alone(database, "copy.db"), ["t1", "t2"]))
    copy = copied_alone(database, "copy.db")
    with Server(copy, 1) as server:
        wanted = reference.reply(200, "text/plain", GLIDER_TEXT) + reference.reply(200, "text/plain", BLOCKS_TEXT)
        same(
            "copy served",
            exchanged(server.port, [message("GET", "/deposits/1"), message("GET", "/deposits/2")]),
            wanted,
        )
        server.ended()
    same("a deposit into the copy", run("deposit", "--db", copy, "ann", "t3", data=GLIDER), (0, b"deposit 3\n", b""))
    same(
        "refused deposit",
        run("deposit", "--db", database, "ann", "t1", data=BLOCKS),
        (1, b"", b"refused: token-reused\n"),
    )
    check("copy after a refused deposit", has_deposits(copied_alone(database, "copy.db"), ["t1", "t2"]))
    with Server(database, 1) as server:
        exchanged(server.port, [deposit("ann", "t3", GLIDER)])
        server.ended()
    check("no commit in the log after a server's end", os.path.getsize(database + "-wal") <= BLANK)
    check("copy after a server's end", has_deposits(copied_alone(database, "copy.db"), ["t1", "t2", "t3"]))


def test_modes(folder: str) -> None:
    """A log that is made has the mode of the archive's file."""
    database = fresh(folder, "modes.db")
    run("deposit", "--db", database, "ann", "t1", data=GLIDER)
    for mode in (0o600, 0o640, 0o664):
        os.remove(database + "-wal")
        os.chmod(database, mode)
        run("deposit", "--db", database, "ann", "t1", data=GLIDER)
        same(f"mode {mode:o} of a log", os.stat(database + "-wal").st_mode & 0o777, mode)


# ---- turned bits


def sum_of(page: bytes) -> bytes:
    """The sum of a page's bytes, as SQLite's checksum shim says it: two sums over its little-endian words in turn."""
    first = second = 0
    words = struct.unpack(f"<{len(page) // 4}I", page)
    for a, b in zip(words[::2], words[1::2]):
        first = (first + a + second) & 0xFFFFFFFF
        second = (second + b + first) & 0xFFFFFFFF
    return struct.pack("<2I", first, second)


def test_sums(folder: str) -> None:
    """One bit of a new archive's file turned at seeded places: it is refused, or what is answered is right or
    unavailable."""
    chosen = random.Random(5)
    database = fresh(folder, "sums.db")
    soup = (
        b"x = 200, y = 200\n"
        + b"$".join(b"".join(chosen.choice([b"b", b"o"]) for _ in range(200)) for _ in range(200))
        + b"!\n"
    )
    stream = [deposit("ann", f"t{i}", data) for i, data in enumerate((GLIDER, soup, BLOCKS))]
    with Server(database, 1) as server:
        exchanged(server.port, stream)
        server.ended()
    with open(database, "rb") as file:
        whole = file.read()
    same("eight bytes of each page are reserved", whole[20], 8)
    check(
        "each page ends in its sum",
        all(sum_of(whole[at : at + 4088]) == whole[at + 4088 : at + 4096] for at in range(0, len(whole), 4096)),
    )
    check("an archive with sums, by sqlite3", has_deposits(copied_alone(database, "copy.db"), ["t0", "t1", "t2"]))
    archive = reference.Archive()
    archive.replies(b"".join(stream))
    asked = [message("GET", f"/deposits/{i}") for i in (1, 2, 3)]
    unchanged, wrong = 0, 0
    for _ in range(BITS):
        at, bit = chosen.randrange(len(whole)), chosen.randrange(8)
        turned = fresh(folder, "turned.db")
        with open(turned, "wb") as file:
            file.write(whole[:at] + bytes([whole[at] ^ 1 << bit]) + whole[at + 1 :])
        with Server(turned, 1) as server:
            back = exchanged(server.port, asked) if server.line else b""
            status = server.ended()
        good = is_answered(archive, asked, back) if back else status == 1
        unchanged += back != b"" and UNAVAILABLE not in back
        wrong += not good
        if not good:
            print(f"bit {bit} of byte {at} turned: status {status}, {back[:200]!r}", flush=True)
    same(f"{BITS} turned bits, {wrong} answered otherwise", wrong, 0)
    check(f"{BITS} turned bits, {unchanged} not met", unchanged < BITS // 4)


# ---- help

with open(os.path.join(HERE, "..", "crates", "life_words", "src", "life_arguments.rt"), encoding="utf-8") as words:
    SUBCOMMANDS = re.findall(r'named_command\(alloc, "([a-z]+)"', words.read())
PARTS = ["Reads: ", "Prints: ", "Refuses: ", "Example: "]
# What has to be there before an example is run.
BEFORE = {"check": "life deposit --db club.db ann t1 < glider.rle; "}


@pytest.fixture(scope="module")
def examples(program: str, folder: str) -> str:
    """A folder with the examples and the program, by its name."""
    path = os.path.join(folder, "examples")
    os.mkdir(path)
    from_folder = os.path.join(HERE, "..", "examples")
    for name in os.listdir(from_folder):
        if name.endswith(".rle"):
            shutil.copyfile(os.path.join(from_folder, name), os.path.join(path, name))
    os.symlink(program, os.path.join(path, "life"))
    return path


@pytest.mark.parametrize("subcommand", SUBCOMMANDS)
def test_help(examples: str, subcommand: str) -> None:
    """The help of each subcommand says what is read, printed and refused, and its example, run in a folder with the
    examples, is well."""
    status, out, err = run(subcommand, "--help")
    lines = err.decode().split("\n")
    good = status == 2 and out == b"" and all(sum(line.startswith(part) for line in lines) == 1 for part in PARTS)
    check(f"help of {subcommand}", good and err == run("help", subcommand)[2])
    example = next((line for line in lines if line.startswith("Example: ")), "Example: false")[len("Example: ") :]
    if subcommand != "serve":
        here = {**os.environ, "PATH": examples + ":" + os.environ["PATH"]}
        shell = BEFORE.get(subcommand, "") + example
        done = subprocess.run(["sh", "-c", shell], cwd=examples, env=here, capture_output=True, timeout=60)
        check(f"example of {subcommand}: {done}", done.returncode == 0 and done.stdout != b"")


# ---- real clients


def test_curl(folder: str) -> None:
    if not shutil.which("curl"):
        pytest.skip("curl is not installed")
    database = os.path.join(folder, "curl.db")
    body = os.path.join(folder, "body")

    def curl(*words: str) -> str:
        done = subprocess.run(
            ["curl", "-s", "-S", "-m", "60", "-w", "|%{http_code}|%{content_type}|%{num_connects}", *words],
            capture_output=True,
        )
        return done.stdout.decode("latin-1")

    with Server(database, 22) as server:
        same("listening line", server.line, f"listening on 127.0.0.1:{server.port}\n".encode())
        top = f"http://127.0.0.1:{server.port}"

        def post(path: str, data: bytes, member: str = "ann", token: str = "t1") -> str:
            with open(body, "wb") as file:
                file.write(data)
            return curl(
                "-X",
                "POST",
                "-H",
                f"x-member: {member}",
                "-H",
                f"x-token: {token}",
                "-H",
                "content-type:",
                "--data-binary",
                "@" + body,
                top + path,
            )

        def body_of(number: int) -> str:
            return reference.deposit_body(number).decode()

        json = "application/json"
        same("curl deposit", post("/deposits", GLIDER), f"{body_of(1)}|201|{json}|1")
        same("curl again", post("/deposits", GLIDER), f"{body_of(1)}|201|{json}|1")
        same("curl reused", post("/deposits", BLOCKS), f'{{"error":"token-reused","refusal":5}}|409|{json}|1')
        same(
            "curl bad file",
            post("/deposits", b"x = 1\n", token="t2"),
            f'{{"error":"bad-pattern","refusal":7,"rle":4}}|422|{json}|1',
        )
        same("curl blocks", post("/deposits", BLOCKS, token="t2"), f"{body_of(2)}|201|{json}|1")
        same(
            "curl 1 MiB",
            post("/deposits", GLIDER + b" " * (1_048_576 - len(GLIDER)), token="t3"),
            f"{body_of(3)}|201|{json}|1",
        )
        same(
            "curl more",
            post("/deposits", GLIDER + b" " * (1_048_577 - len(GLIDER)), token="t4").split("|")[:2],
            ['{"error":"bad-message","refusal":14}', "400"],
        )
        same("curl show", curl(top + "/deposits/1"), GLIDER_TEXT.decode() + "|200|text/plain|1")
        same(
            "curl later", curl(top + "/deposits/1/at/1"), "x = 3, y = 3, rule = B3/S23\nobo$b2o$bo!\n|200|text/plain|1"
        )
        same(
            "curl past limit", curl(top + "/deposits/9/at/2049"), f'{{"error":"out-of-limit","refusal":6}}|400|{json}|1'
        )
        same(
            "curl kind",
            curl(top + "/deposits/1/kind/4"),
            f'{{"code":"xq4_153","dx":1,"dy":1,"kind":"ship","period":4}}|200|{json}|1',
        )
        check(
            "curl list",
            curl(top + "/deposits/after/1").startswith(
                '{"deposits":[{"id":2,"member":"ann","population":8,"rule":"B3/S23"},{"id":3,'
            ),
        )
        same("curl census", post("/deposits/2/censuses/0/1", b"", token="c1"), f'{{"census":1}}|201|{json}|1')
        check(
            "curl shown",
            curl(top + "/censuses/1").startswith(
                '{"census":1,"clusters":2,"deposit":2,"generation":0,"limit":1,"rows":[{"code":"xs4_33","count":2}]'
            ),
        )
        same("curl csv", curl(top + "/censuses/1/csv"), "code,count\nxs4_33,2\nunresolved,0\n|200|text/csv|1")
        same("curl total", curl(top + "/objects/B3S23/xs4_33/1"), f'{{"total":2}}|200|{json}|1')
        same("curl no code", curl(top + "/objects/B3S23/xs4_330/1"), f'{{"error":"bad-code","refusal":9}}|422|{json}|1')
        same("curl no rule", curl(top + "/objects/B9S23/xs4_33/1"), f'{{"error":"bad-rule","refusal":8}}|422|{json}|1')
        same("curl no page", curl(top + "/deposits/x"), f'{{"error":"no-such-page","refusal":12}}|404|{json}|1')
        same(
            "curl method",
            curl("-X", "DELETE", top + "/deposits/1"),
            f'{{"error":"bad-method","refusal":13}}|405|{json}|1',
        )
        same("curl no deposit", curl(top + "/deposits/9"), f'{{"error":"no-such-deposit","refusal":1}}|404|{json}|1')
        kept = curl(top + "/deposits/1", top + "/censuses/9")
        same(
            "curl keeps alive",
            kept,
            GLIDER_TEXT.decode() + f'|200|text/plain|1{{"error":"no-such-census","refusal":2}}|404|{json}|0',
        )
        same("curl end", server.ended(), 0)


def test_bytes(folder: str) -> None:
    database = os.path.join(folder, "bytes.db")
    with Server(database, 4) as server:
        sent = deposit("ann", "t1", GLIDER) + message("GET", "/deposits/1")
        wanted = reference.Archive().replies(sent)
        same("byte by byte", exchanged(server.port, [sent[k : k + 1] for k in range(len(sent))]), wanted)
        same("one byte short", exchanged(server.port, [deposit("ann", "t2", GLIDER)[:-1]]), reference.refusal(14))
        same("nothing", exchanged(server.port, [b"\r\n"]), b"")
        large = deposit("ann", "t3", GLIDER + b" " * (1_048_576 - len(GLIDER)))
        pieces = [large[:200]] + [large[k : k + 1000] for k in range(200, len(large), 1000)]
        same("1 MiB in pieces", exchanged(server.port, pieces), reference.deposited(2))
        same("bytes end", server.ended(), 0)


# ---- seeded streams


def test_seeded_streams(folder: str) -> None:
    """Streams of good and malformed messages, cut in pieces, on one archive that grows: all replies are the
    reference's."""
    chosen = random.Random(1)
    database = os.path.join(folder, "seeded.db")
    archive, wrong = reference.Archive(), 0
    with Server(database, STREAMS) as server:
        for _ in range(STREAMS):
            stream = b"".join(seeded_message(chosen) for _ in range(chosen.randrange(1, 6)))
            if chosen.random() < 0.1:
                stream = stream[: chosen.randrange(0, len(stream) + 1)]
            pieces, at = [], 0
            while at < len(stream):
                size = chosen.choice([1, 7, 64, 1000, 5000])
                pieces.append(stream[at : at + size])
                at += size
            wanted = archive.replies(stream)
            got = exchanged(server.port, pieces)
            if got != wanted:
                wrong += 1
                if wrong < 4:
                    print(f"for {stream!r}\n  came {got!r}\n  not  {wanted!r}")
        same(f"{STREAMS} seeded streams, {wrong} answered otherwise", wrong, 0)
        same("seeded end", server.ended(), 0)
    kept = sqlite3.connect(database)
    same("seeded rows", kept.execute("SELECT count(*) FROM deposits").fetchone()[0], len(archive.deposits))
    same("seeded censuses", kept.execute("SELECT count(*) FROM censuses").fetchone()[0], len(archive.censuses))
    kept.close()


# ---- stops by force


def test_stops(folder: str) -> None:
    """Kills the server at seeded moments under a stream of deposits: what was acknowledged is stored, once, and the
    next server continues."""
    chosen = random.Random(2)
    database = os.path.join(folder, "stops.db")
    answered: dict[str, int] = {}
    token = 0
    for stop in range(STOPS):
        with Server(database, 1) as server:
            timer = threading.Timer(chosen.random() * 0.05, server.process.kill)
            timer.start()
            try:
                with socket.create_connection(("127.0.0.1", server.port), timeout=10) as peer:
                    while True:
                        token += 1
                        peer.sendall(deposit("ann", f"t{token}", GLIDER))
                        back = b""
                        while not back.endswith(b"}"):
                            more = peer.recv(4096)
                            if not more:
                                raise OSError
                            back += more
                        answered[f"t{token}"] = int(re.findall(rb'"deposit":(\d+)', back)[0])
            except OSError:
                pass
            timer.join()
            server.process.wait(30)
        code, out, _ = run("deposit", "--db", database, "ann", f"after-{stop}", data=GLIDER)
        good = code == 0
        kept = sqlite3.connect(database)
        rows = dict(kept.execute("SELECT token, id FROM deposits").fetchall())
        ids = sorted(number for (number,) in kept.execute("SELECT id FROM deposits"))
        good = good and kept.execute("PRAGMA integrity_check").fetchall() == [("ok",)]
        kept.close()
        good = (
            good
            and ids == list(range(1, len(ids) + 1))
            and all(rows.get(name) == number for name, number in answered.items())
        )
        good = good and out == f"deposit {rows.get(f'after-{stop}')}\n".encode()
        check(f"stop {stop + 1}", good)
    check("deposits were answered between the stops", len(answered) > STOPS)


# ---- syncs

# Adds a byte to the file SYNCS for each sync that succeeds.
COUNTED_SYNCS = r"""
#define _GNU_SOURCE
#include <dlfcn.h>
#include <fcntl.h>
#include <stdlib.h>
#include <unistd.h>

static int counted(const char *name, int file) {
  int (*next)(int) = dlsym(RTLD_NEXT, name);
  if (next(file)) return -1;
  int counts = open(getenv("SYNCS"), O_WRONLY | O_APPEND);
  if (write(counts, "s", 1) != 1) abort();
  close(counts);
  return 0;
}

int fsync(int file) { return counted("fsync", file); }
int fdatasync(int file) { return counted("fdatasync", file); }
"""
# SQLite's documentation of `synchronous=FULL`: a write-ahead log is synced after each commit. The kit says that most
# commits sync as often where `main` opens files as `sqlite::Unknown`, and that each syncs twice as `sqlite::Wary`. The
# first commit after an opening may sync more than once, since it begins the log.
SYNCS_OF_A_COMMIT = 1


@pytest.mark.parametrize("stored", [0, 1], ids=["new", "existing"])
def test_syncs(folder: str, stored: int) -> None:
    """Each deposit after a server's first one is synced once by the time its reply comes: in a new archive, and in one
    that has a deposit already."""
    name = "an existing archive" if stored else "a new archive"
    database, counts = fresh(folder, f"synced-{stored}.db"), os.path.join(folder, f"syncs-{stored}")
    if stored:
        run("deposit", "--db", database, "ann", "t1", data=GLIDER)
    library = preloaded(folder, "counted-syncs", COUNTED_SYNCS)
    with open(counts, "w"):
        pass
    with Server(database, 1, {**os.environ, "LD_PRELOAD": library, "SYNCS": counts}) as server:
        with socket.create_connection(("127.0.0.1", server.port), timeout=60) as peer:
            totals = [os.path.getsize(counts)]
            for number in range(stored + 1, stored + 9):
                reply = replied(peer, deposit("ann", f"t{number}", BLOCKS))
                totals.append(os.path.getsize(counts))
                same(f"deposit {number} in {name}", reply, reference.deposited(number))
            shown = reference.reply(200, "text/plain", GLIDER_TEXT if stored else BLOCKS_TEXT)
            same(f"the first deposit in {name}", replied(peer, message("GET", "/deposits/1")), shown)
        same(f"the end of a server on {name}", server.ended(), 0)
    first, *others = [after - before for before, after in itertools.pairwise(totals)]
    check(f"{first} syncs of the first commit in {name}", first >= SYNCS_OF_A_COMMIT)
    same(f"syncs of the other commits in {name}", others, [SYNCS_OF_A_COMMIT] * len(others))


# ---- archives of schema version 1


def test_killed_migration(folder: str) -> None:
    """Kills the program at seeded moments while it carries an archive of schema version 1 over: the file is as it was,
    or whole."""
    chosen = random.Random(3)
    first = os.path.join(folder, "first.db")
    flags = first_archive(first, CENSUSES)
    whole = os.path.join(folder, "whole.db")
    shutil.copy(first, whole)
    start = time.perf_counter()
    same(
        "an archive of schema version 1 is opened",
        run("deposit", "--db", whole, "ann", "t3", data=GLIDER),
        (0, b"deposit 4\n", b""),
    )
    took = time.perf_counter() - start
    kept = sqlite3.connect(whole)
    same(
        "flags of a migrated archive",
        kept.execute("SELECT census, steady FROM census_flags ORDER BY census").fetchall(),
        flags,
    )
    kept.close()
    seen: list[int | None] = []
    stop = 0
    # Some kills have to come before its end, and some after, however fast this machine is.
    while stop < STOPS or (stop < 8 * STOPS and set(seen) != {1, 2}):
        database = os.path.join(folder, f"carried-{stop}.db")
        shutil.copy(first, database)
        # (it opens the archive before it reads its input, which does not come)
        words = [clients.PROGRAM, "deposit", "--db", database, "ann", "late"]
        with subprocess.Popen(words, stdin=subprocess.PIPE, stdout=subprocess.PIPE, stderr=subprocess.PIPE) as process:
            time.sleep(chosen.random() * 1.2 * took)
            process.kill()
        seen.append(version_kept(database, flags))
        code, _, _ = run("deposit", "--db", database, "ann", "t3", data=GLIDER)
        stop += 1
        check(
            f"stop {stop} of a carrying over",
            seen[-1] is not None and code == 0 and version_kept(database, flags) == VERSION,
        )
    same(f"kills before the end of a carrying over and after it: {seen}", set(seen), {1, VERSION})


# ---- databases that are not an archive's, and rows that none writes

# Databases that have some of an archive's tables but are not archives.
OTHERS = [
    ("a later version", [LAYOUT, f"INSERT INTO layout (version) VALUES ({VERSION + 1})"]),
    ("this version without flags", [LAYOUT, f"INSERT INTO layout (version) VALUES ({VERSION})"]),
    ("version 0", [LAYOUT, "INSERT INTO layout (version) VALUES (0)"]),
    ("no version", [LAYOUT]),
    ("two versions", [LAYOUT, "INSERT INTO layout (version) VALUES (1), (1)"]),
    ("two columns", ["CREATE TABLE layout (version INTEGER, more INTEGER)", "INSERT INTO layout VALUES (1, 1)"]),
    ("a text", ["CREATE TABLE layout (version TEXT)", "INSERT INTO layout VALUES ('1')"]),
    ("deposits alone", ["CREATE TABLE Deposits (n INTEGER)"]),
    ("censuses alone", ["CREATE TABLE censuses (n INTEGER)"]),
    ("census_rows alone", ["CREATE TABLE census_rows (n INTEGER)"]),
    ("census_flags alone", ["CREATE TABLE census_flags (n INTEGER)"]),
    ("a view", ["CREATE TABLE other (n INTEGER)", "CREATE VIEW layout AS SELECT n FROM other"]),
]

# What is changed in an archive of schema version 1, and how its opening is refused then.
FIRST_CHANGES = [
    (f"UPDATE layout SET version = {VERSION}", b"not-ours"),
    (f"UPDATE layout SET version = {VERSION + 1}", b"not-ours"),
    (
        "CREATE TABLE census_flags "
        "(census INTEGER PRIMARY KEY REFERENCES censuses (id), steady INTEGER NOT NULL) STRICT",
        b"not-ours",
    ),
    ("UPDATE censuses SET gens = 2049 WHERE id = 2", b"unavailable"),
]

# Rows that no archive writes: no file; another population; another rule; a text that is read as the record and is not
# canonical.
FOREIGN_ROWS = [
    "UPDATE deposits SET rle = x'00' WHERE id = 1",
    "UPDATE deposits SET population = 9 WHERE id = 3",
    "UPDATE deposits SET rule = 'B36/S23' WHERE id = 4",
    (
        "UPDATE deposits SET rle = CAST(replace(CAST(rle AS TEXT), "
        "'2o2b2o$2o2b2o!', 'oo2b2o$2o2b2o!') AS BLOB) WHERE id = 5"
    ),
    "INSERT INTO censuses VALUES (1, 'ann', 'c1', 2, -1, 1, 0, 0)",
    "INSERT INTO census_flags VALUES (1, 1)",
    "INSERT INTO censuses VALUES (2, 'ann', 'c2', 2, 0, 1, 1, 0)",
    "INSERT INTO census_flags VALUES (2, 1)",
    "INSERT INTO census_rows VALUES (2, 'no code', 1)",
]


def execute(database: str, statements: list[str]) -> None:
    kept = sqlite3.connect(database)
    for statement in statements:
        kept.execute(statement)
    kept.commit()
    kept.close()


def rewritten(database: str, to: str) -> str:
    """The same tables with the same rows in a file that sqlite3 makes, without the sums by which a change would be
    refused."""
    copy = fresh(os.path.dirname(database), to)
    kept = sqlite3.connect(copy)
    kept.execute("PRAGMA journal_mode=WAL")
    kept.executescript("\n".join(dumped(database)))
    kept.close()
    return copy


def dumped(database: str) -> list[str]:
    """The statements that would write the database again."""
    kept = sqlite3.connect(database)
    lines = list(kept.iterdump())
    kept.close()
    return lines


def is_refused(database: str, name: bytes) -> bool:
    """Whether a deposit is refused by this name, and leaves the database as it was, without a log where there was
    none."""
    before, beside = dumped(database), os.path.exists(database + "-wal")
    good = run("deposit", "--db", database, "ann", "t1", data=GLIDER) == (1, b"", b"refused: " + name + b"\n")
    return good and os.path.exists(database + "-wal") == beside and dumped(database) == before


@pytest.mark.parametrize("name, statements", OTHERS, ids=[name for name, _ in OTHERS])
def test_other_database(folder: str, name: str, statements: list[str]) -> None:
    database = fresh(folder, "other.db")
    execute(database, statements)
    check(f"not ours: {name}", is_refused(database, b"not-ours"))


@pytest.mark.parametrize("statement, name", FIRST_CHANGES, ids=[statement for statement, _ in FIRST_CHANGES])
def test_changed_first_archive(folder: str, statement: str, name: bytes) -> None:
    database = fresh(folder, "other.db")
    first_archive(database, 2)
    execute(database, [statement])
    check(f"schema version 1 after {statement}", is_refused(database, name))


def test_beside_another_table(folder: str) -> None:
    database = fresh(folder, "other.db")
    execute(database, ["CREATE TABLE other (n INTEGER)", "INSERT INTO other VALUES (7)"])
    same("beside another table", run("deposit", "--db", database, "ann", "t1", data=GLIDER), (0, b"deposit 1\n", b""))
    check("another table", 'INSERT INTO "other" VALUES(7);' in dumped(database))


def test_no_database(folder: str) -> None:
    junk = os.path.join(folder, "junk.db")
    bytes_of_junk = random.Random(4).randbytes(8192)
    with open(junk, "wb") as file:
        file.write(bytes_of_junk)
    answer = run("deposit", "--db", junk, "ann", "t1", data=GLIDER)
    same("no database", answer, unavailable(junk, "not an SQLite database"))
    with open(junk, "rb") as file:
        same("no database is written over", file.read(), bytes_of_junk)
    check("no log is left beside it", not os.path.exists(junk + "-wal"))


def test_without_a_name() -> None:
    same(
        "a file without a name",
        run("deposit", "--db", "", "ann", "t1", data=GLIDER),
        unavailable("", "no such file"),
    )


def test_foreign_rows(folder: str) -> None:
    """A request that meets a row that no archive writes is unavailable. A list shows its columns, and reads no file."""
    made = fresh(folder, "made.db")
    for i, data in enumerate((GLIDER, BLOCKS, BLOCKS, BLOCKS, BLOCKS), 1):
        run("deposit", "--db", made, "ann", f"t{i}", data=data)
    database = rewritten(made, "foreign.db")
    execute(database, FOREIGN_ROWS)
    shown = reference.reply(200, "text/plain", BLOCKS_TEXT)
    wanted = [
        ("/deposits/1", UNAVAILABLE),
        ("/deposits/2", shown),
        ("/deposits/3", UNAVAILABLE),
        ("/deposits/4", UNAVAILABLE),
        ("/deposits/5", UNAVAILABLE),
        ("/deposits/3/at/0", UNAVAILABLE),
        ("/deposits/4/kind/1", UNAVAILABLE),
        ("/censuses/1", UNAVAILABLE),
        ("/censuses/2", UNAVAILABLE),
        ("/censuses/2/csv", UNAVAILABLE),
    ]
    with Server(database, len(wanted) + 2) as server:
        for target, reply in wanted:
            same(f"foreign rows at {target}", exchanged(server.port, [message("GET", target)]), reply)
        for token, data in (("t1", GLIDER), ("t3", BLOCKS)):
            same(f"foreign rows by token {token}", exchanged(server.port, [deposit("ann", token, data)]), UNAVAILABLE)
        server.ended()


def test_versions(folder: str) -> None:
    """What docs/UPGRADING.md asks of a file, and its way back to a file without sums, which is served as the one with
    them."""
    made, plain = fresh(folder, "with-sums.db"), fresh(folder, "without-sums.db")
    for token, data in (("t1", GLIDER), ("t2", BLOCKS)):
        run("deposit", "--db", made, "ann", token, data=data)
    kept = sqlite3.connect(plain)
    kept.executescript("\n".join(dumped(made)))
    kept.close()
    for database, reserved in ((made, 8), (plain, 0)):
        name = os.path.basename(database)
        with open(database, "rb") as file:
            same(f"byte 20 of {name}", file.read(21)[20], reserved)
        kept = sqlite3.connect(database)
        same(f"the version in {name}", kept.execute("SELECT version FROM layout").fetchall(), [(VERSION,)])
        kept.close()
        same(
            f"a deposit that {name} keeps",
            run("deposit", "--db", database, "ann", "t2", data=BLOCKS),
            (0, b"deposit 2\n", b""),
        )
        with Server(database, 1) as server:
            same(
                f"a page of {name}",
                exchanged(server.port, [message("GET", "/deposits/1")]),
                reference.reply(200, "text/plain", GLIDER_TEXT),
            )
            server.ended()
