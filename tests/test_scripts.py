"""The scripts put-folder, get-folder and census-all of examples/scripts on archives that are served: what they print,
and what the archives have afterwards, over servers that end and start again. tests/test_replies.py has replies that a
test chooses. The tests wait more than they work, so they run side by side with `-n 8`.
"""
import concurrent.futures
import os
import re
import sqlite3
import time

import pytest

import clients
from clients import BLOCKS, GLIDER, Server, check, same
from reference import deposit_body
from scripts import EXAMPLES, TOP, UNFINISHED, Said, digest, is_unanswered, new_folder, script, url

pytestmark = pytest.mark.quick


def example(name: str) -> bytes:
    with open(os.path.join(EXAMPLES, name), "rb") as file:
        return file.read()


def rows(database: str, query: str) -> list[tuple[object, ...]]:
    kept = sqlite3.connect(database)
    try:
        return kept.execute(query).fetchall()
    finally:
        kept.close()


# ---- put-folder


def mixed(room: str, name: str) -> tuple[str, Said]:
    """A folder of files, one of them refused and one with a blank in its name, and what is printed of it."""
    folder = new_folder(
        room,
        name,
        {
            "glider.rle": example("glider.rle"),
            "no-end.rle": UNFINISHED,
            "notes.txt": b"no pattern",
            "pulsar.rle": example("pulsar.rle"),
            "two blocks.rle": BLOCKS,
        },
    )
    printed = f"1\t{folder}/glider.rle\n2\t{folder}/pulsar.rle\n3\t{folder}/two blocks.rle\n"
    return folder, (1, printed, f'{folder}/no-end.rle: no-end: the body ends without "!"\n')


KEPT = [
    ("ann", digest(example("glider.rle")), 5),
    ("ann", digest(example("pulsar.rle")), 48),
    ("ann", digest(BLOCKS), 8),
]


def test_folder_twice(room: str, program: str) -> None:
    """The same command again has the same numbers and makes no row; the same bytes under another name have the number
    that they have."""
    folder, wanted = mixed(room, "twice")
    database = os.path.join(room, "twice.db")
    with Server(database, 100) as server:
        same("a folder", script("put-folder", url(server), "ann", folder), wanted)
        same("a folder again", script("put-folder", url(server) + "/", "ann", folder), wanted)
        with open(os.path.join(folder, "again.rle"), "wb") as copy:
            copy.write(example("pulsar.rle"))
        status, printed, refusals = script("put-folder", url(server), "ann", folder)
        same(
            "the same bytes under another name",
            (status, printed, refusals),
            (1, f"2\t{folder}/again.rle\n" + wanted[1], wanted[2]),
        )
        wrong = "no-such-page: the URL does not lead to an archive, such as http://localhost:8080\n"
        same(
            "censuses at a wrong path",
            script("census-all", url(server) + "/archive", "ann", "0", "60"),
            (1, "", "census-all: " + wrong),
        )
        status, printed, refusals = script("put-folder", url(server) + "/archive", "ann", folder)
        check(
            "a folder at a wrong path",
            (status, printed) == (1, "") and refusals.startswith(f"{folder}/again.rle: {wrong}"),
        )
    same("rows of a folder", rows(database, "SELECT member, token, population FROM deposits ORDER BY id"), KEPT)


# Files and what is sent of them by `--name --author Éva`: the same as what the web pages send of the first
# (tests/web_many.py).
BARE = b"#C bare\nx = 3, y = 1\n3o!\n"
LONG = "a" + 120 * "é"
TEXTS = {
    "my-gun.rle": (BARE, "#N my-gun\n#O Éva\n".encode()),
    "whole.rle": (b"#N Whole\n#O Eve\nx = 4, y = 1, rule = B3/S23\n4o!\n", b""),
    "named.rle": (b"#C first\r\n \t#NNamed\r\nx = 5, y = 1\n5o!\n", "#O Éva\n".encode()),
    "no text.rle": (b"#N \t\r\n#O\nx = 6, y = 1\n6o!\n", "#N no text\n#O Éva\n".encode()),
    "late.rle": (b"\nx = 7, y = 1\n#N Late\n#O Late\n7o!\n", "#N late\n#O Éva\n".encode()),
    "zero.rle": (b"#C \x00\n#O \x00\nx = 8, y = 1\n8o!\n", b"#N zero\n"),
    f"{LONG}.rle": (b"x = 9, y = 1\n9o!\n", f"#N {LONG[:100]}\n#O Éva\n".encode()),
    "back\\tslash.rle": (b"x = 11, y = 1\n11o!\n", "#N back\\tslash\n#O Éva\n".encode()),
    "two  blanks\tand\nlines .rle": (b"x = 10, y = 1\n10o!\n", "#N two  blanks and lines\n#O Éva\n".encode()),
}


def answered(server: Server, content: bytes) -> str:
    """What the archive answers to a deposit of ann under the digest of its content."""
    return (
        clients.exchanged(server.port, [clients.deposit("ann", digest(content), content)])
        .partition(b"\r\n\r\n")[2]
        .decode()
    )


def test_texts_of_a_folder(room: str, program: str) -> None:
    """A name and an author are sent with the files that have none, as the web pages do it; all else is as it is
    without."""
    folder = new_folder(room, "texts", {name: content for name, (content, _) in TEXTS.items()})
    names = sorted(TEXTS, key=os.fsencode)
    # Each name is one field of one line.
    escaped = [name.replace("\\", "\\\\").replace("\t", "\\t").replace("\n", "\\n") for name in names]
    wanted = "".join(f"{number}\t{folder}/{name}\n" for number, name in enumerate(escaped, 1))
    with Server(os.path.join(room, "texts.db"), 300) as server:
        same(
            "a folder with texts",
            script("put-folder", "--name", "--author", "Éva", url(server), "ann", folder),
            (0, wanted, ""),
        )
        same(
            "a folder with texts again",
            script("put-folder", "--author", "Éva", "--name", url(server), "ann", folder),
            (0, wanted, ""),
        )
        for number, name in enumerate(names, 1):
            content, texts = TEXTS[name]
            same(f"what is sent of {name!r}", answered(server, texts + content), deposit_body(number).decode())
            with open(os.path.join(folder, name), "rb") as file:
                same(f"the file {name!r} is as it was", file.read(), content)
        one = new_folder(room, "one text", {"my-gun.rle": BARE})
        same(
            "a folder without texts is another deposit",
            script("put-folder", url(server), "ann", one),
            (0, f"{len(names) + 1}\t{one}/my-gun.rle\n", ""),
        )
        check(
            "an author alone",
            script("put-folder", "--author", " \t", url(server), "ann", one)
            == (0, f"{len(names) + 1}\t{one}/my-gun.rle\n", "")
            and script("put-folder", "--author", "A\nB", url(server), "ann", one)[1]
            == f"{len(names) + 2}\t{one}/my-gun.rle\n"
            and answered(server, b"#O A B\n" + BARE) == deposit_body(len(names) + 2).decode(),
        )
        bad = new_folder(
            room, "bad texts", {"cut.rle": UNFINISHED, "long.rle": b"x = 1, y = 1\no!" + b" " * (1_048_576 - 15)}
        )
        status, printed, refusals = script("put-folder", "--name", url(server), "ann", bad)
        check(
            "files that are refused with texts",
            (status, printed) == (1, "")
            and refusals == f'{bad}/cut.rle: no-end: the body ends without "!"\n'
            f"{bad}/long.rle: too-long: the file has more than 1,048,576 bytes\n",
        )


def test_folder_over_a_restart(room: str, program: str) -> None:
    """A server that ends amid a folder and is started again some time later is sent the file again that it did not
    answer."""
    folder, wanted = mixed(room, "restart")
    database = os.path.join(room, "restart.db")
    with Server(database, 2) as first, concurrent.futures.ThreadPoolExecutor() as beside:
        sent = beside.submit(script, "put-folder", url(first), "ann", folder)
        same("the end of the first server", first.ended(), 0)
        time.sleep(1.5)
        with Server(database, 100, port=first.port):
            same("a folder over a restart", sent.result(), wanted)
    same(
        "rows of a folder over a restart",
        rows(database, "SELECT member, token, population FROM deposits ORDER BY id"),
        KEPT,
    )


def test_folder_without_server(room: str) -> None:
    folder, _ = mixed(room, "nobody")
    nobody = f"http://127.0.0.1:{clients.free_port()}"
    wanted = f"put-folder: {folder}/glider.rle: no reply from {nobody}; run the same command again\n"
    check("a folder without a server", is_unanswered(script("put-folder", nobody, "ann", folder), "", wanted))
    # A password in the URL is not shown.
    with_password = nobody.replace("//", "//ann:secret@")
    check("a password without a server", is_unanswered(script("put-folder", with_password, "ann", folder), "", wanted))


def test_reasons_for_no_reply(room: str) -> None:
    """The scripts show what curl says about a host that is not there."""
    folder = new_folder(room, "reasons", {"a.rle": GLIDER})
    for name, words, kind in (
        ("put-folder", ["ann", folder], f"{folder}/a.rle: "),
        ("census-all", ["ann", "0", "60"], ""),
    ):
        result = script(name, "http://life.invalid", *words, env=os.environ | {"no_proxy": "*"})
        check(
            f"{name} for a host that is not there",
            is_unanswered(result, "", f"{name}: {kind}no reply from http://life.invalid; run the same command again\n")
            and re.match(r"curl: \(6\) .*life\.invalid|curl: \(28\) Resolving timed out", result[2]),
        )


def fault_names() -> dict[int, str]:
    """The numbers and names of the faults of pattern files, as docs/FORMATS.md has them."""
    with open(os.path.join(TOP, "docs", "FORMATS.md"), encoding="utf-8") as text:
        table = text.read().split("**Faults**")[1].split("The last four")[0]
    return {int(number): name for number, name in re.findall(r"^\| (\d+) \| `([a-z-]+)` \|", table, re.M)}


FAULTY = {
    1: GLIDER + b"\n" * (1048577 - len(GLIDER)),
    2: b"#C " + b"a" * 201 + b"\nx = 1, y = 1\no!",
    3: b"o!",
    4: b"x = 1 y = 1\no!",
    5: b"x = 1, y = 1, rule = Life\no!",
    6: b"x = 1, y = 1, rule = B0/S\no!",
    7: b"x = 1, y = 1\n.A!",
    8: b"x = 1, y = 1\n0o!",
    9: b"x = 1, y = 1\n1024bo!",
    10: UNFINISHED,
}


def test_faults(room: str, program: str) -> None:
    """Each fault of a file is said by its name; the longest file is kept."""
    folder = new_folder(
        room,
        "faults",
        {f"{number:02}.rle": content for number, content in FAULTY.items()}
        | {"longest.rle": FAULTY[1][:-1], "empty.rle": b""},
    )
    os.mkdir(os.path.join(folder, "folder.rle"))
    names = fault_names()
    same("the faults that are tried", sorted(names), sorted(FAULTY))
    with Server(os.path.join(room, "faults.db"), 100) as server:
        status, printed, refusals = script("put-folder", url(server), "ann", folder)
    same("what is kept beside faults", (status, printed), (1, f"1\t{folder}/longest.rle\n"))
    told = dict(re.findall(r"^(\S+\.rle): ([a-z -]+)(?:: .*)?$", refusals, re.M))
    same(
        "the names of faults",
        told,
        {f"{folder}/{number:02}.rle": name for number, name in names.items()}
        | {f"{folder}/empty.rle": names[3], f"{folder}/folder.rle": "it cannot be read"},
    )
    # A line for each of them, for the two others, and for the folders.
    entered = f"put-folder: folders in {folder} are not entered: folder.rle"
    same("the lines", (refusals.count("\n"), entered in refusals.splitlines()), (len(FAULTY) + 3, True))


# ---- what is kept already


def test_other_archives(room: str, program: str) -> None:
    """The record of an archive does no harm to another one at the same address."""
    folder = new_folder(room, "others", {"a.rle": GLIDER, "b.rle": BLOCKS})
    printed = f"1\t{folder}/a.rle\n2\t{folder}/b.rle\n"
    port = clients.free_port()
    for turn in ("first", "second"):
        database = os.path.join(room, f"{turn}-other.db")
        with Server(database, 1000, port=port) as server:
            for again in ("", " again"):
                same(
                    f"a folder for the {turn} archive{again}",
                    script("put-folder", url(server), "ann", folder),
                    (0, printed, ""),
                )
                same(
                    f"censuses of the {turn} archive{again}",
                    script("census-all", url(server), "ann", "0", "60"),
                    (0, "1\t1\n2\t2\n", ""),
                )
        same(
            f"rows of the {turn} archive",
            rows(database, "SELECT member, token FROM deposits ORDER BY id"),
            [("ann", digest(GLIDER)), ("ann", digest(BLOCKS))],
        )
        same(
            f"censuses in the {turn} archive", rows(database, "SELECT deposit FROM censuses ORDER BY id"), [(1,), (2,)]
        )
    # In the third the same contents are another member's.
    with Server(os.path.join(room, "third-other.db"), 1000, port=port) as server:
        same("a folder of another member", script("put-folder", url(server), "bob", folder), (0, printed, ""))
        same(
            "a folder beside it",
            script("put-folder", url(server), "ann", folder),
            (0, f"3\t{folder}/a.rle\n4\t{folder}/b.rle\n", ""),
        )


def test_without_a_record(room: str, program: str) -> None:
    """If no record can be written, the same is printed, and each run sends everything."""
    folder = new_folder(room, "unrecorded", {"a.rle": GLIDER})
    with Server(os.path.join(room, "unrecorded.db"), 1000) as server:
        for state in ({"XDG_STATE_HOME": "/dev/null"}, {"XDG_STATE_HOME": "", "HOME": ""}):
            for _ in range(2):
                same(
                    f"a folder without a record, {state}",
                    script("put-folder", url(server), "ann", folder, env=os.environ | state),
                    (0, f"1\t{folder}/a.rle\n", ""),
                )


# ---- get-folder

# Names of deposits, and what becomes of them in the names of files.
SAFE = {
    b"": "",
    b"Gosper gun": "-Gosper-gun",
    b"../../etc/passwd": "-etc-passwd",
    b"-rf *": "-rf",
    "Größe \U0001f600".encode(): "-Gr-e",
    b"\xff\x00\x1b[2J": "-2J",
    b"...": "",
    b"a.b_c-d": "-a.b_c-d",
    b"n" * 70: "-" + "n" * 60,
}


def wide_archive(room: str, name: str) -> tuple[str, list[str]]:
    """A new archive with 300 deposits of three members under nine names, some with equal texts under other tokens; and
    who made each."""
    database = os.path.join(room, name)
    files = [b"#N %s\nx = 3, y = 1\n%do!\n" % (list(SAFE)[n % len(SAFE)], n % 40 + 1) for n in range(300)]
    owners = [("ann", "bob", "club-1")[n * n % 3] for n in range(300)]
    with Server(database, 1) as server:
        back = clients.exchanged(server.port, [clients.deposit(owners[n], f"t{n}", files[n]) for n in range(300)])
    same("an archive of 300 deposits", back.count(b"HTTP/1.1 201 Created"), 300)
    return database, owners


def test_taken_out(room: str, program: str) -> None:
    """Each deposit becomes a file, under a safe name; the same command again writes nothing; put into a new archive in
    their order the files have the same numbers and rows."""
    database, owners = wide_archive(room, "wide.db")
    folder = os.path.join(room, "taken", "out")
    files = [f"{folder}/{n:07}{list(SAFE.values())[(n - 1) % len(SAFE)]}.rle" for n in range(1, 301)]
    wanted = "".join(f"{n}\t{owners[n - 1]}\t{files[n - 1]}\n" for n in range(1, 301))
    with Server(database, 10000) as server:
        same("all deposits", script("get-folder", url(server), folder), (0, wanted, ""))
        same("the folder's files", sorted(os.path.join(folder, name) for name in os.listdir(folder)), files)
        one = os.path.join(room, "taken", "bob")
        theirs = [line.replace(folder, one) for line in wanted.splitlines(keepends=True) if "\tbob\t" in line]
        same("a member's deposits", script("get-folder", url(server), one, "bob"), (0, "".join(theirs), ""))
        same("the deposits of nobody", script("get-folder", url(server), one, "eve"), (0, "", ""))
        os.remove(files[6])
        with open(files[7], "wb") as other:
            other.write(GLIDER)
        times = [os.stat(file).st_mtime_ns for file in files[7:]]
        lines = wanted.splitlines(keepends=True)
        same(
            "a file that is lost, and one that was changed",
            script("get-folder", url(server) + "/", folder),
            (1, "".join(lines[:7] + lines[8:]), f"deposit 8: {files[7]} is another file\n"),
        )
        same("files that exist are left alone", [os.stat(file).st_mtime_ns for file in files[7:]], times)
        with open(files[7], "rb") as changed:
            same("the file that was changed keeps its bytes", changed.read(), GLIDER)
        os.remove(files[7])
        same("the folder is whole again", script("get-folder", url(server), folder, owners[7])[0], 0)
    put_back = os.path.join(room, "back.db")
    with Server(put_back, 1) as server:
        messages = []
        for n, file in enumerate(files, 1):
            with open(file, "rb") as content:
                messages.append(clients.deposit(owners[n - 1], f"deposit-{n}", content.read()))
        clients.exchanged(server.port, messages)
    columns = "SELECT id, member, rule, population, rle FROM deposits ORDER BY id"
    same("an archive that was put back", rows(put_back, columns), rows(database, columns))


# ---- census-all


def test_censuses(room: str, program: str) -> None:
    """Each deposit of more than a page has its census once, also one that comes later; another limit is another
    census."""
    many = 103
    folder = new_folder(
        room, "many", {f"{number:03}.rle": b"#N %d\n" % number + GLIDER for number in range(1, many + 1)}
    )
    database = os.path.join(room, "many.db")
    with Server(database, 10000) as server:
        same(
            "many files",
            script("put-folder", url(server), "ann", folder),
            (0, "".join(f"{n}\t{folder}/{n:03}.rle\n" for n in range(1, many + 1)), ""),
        )
        wanted = "".join(f"{n}\t{n}\n" for n in range(1, many + 1))
        same("a census of all", script("census-all", url(server), "bob", "0", "60"), (0, wanted, ""))
        same("a census of all again", script("census-all", url(server), "bob", "0", "60"), (0, wanted, ""))
        with open(os.path.join(folder, "104.rle"), "wb") as later:
            later.write(BLOCKS)
        same("a file that comes later", script("put-folder", url(server), "ann", folder)[0], 0)
        same(
            "a census of all and a later one",
            script("census-all", url(server), "bob", "0", "60"),
            (0, wanted + "104\t104\n", ""),
        )
        same(
            "a census of all under another limit",
            script("census-all", url(server) + "/", "bob", "1", "2"),
            (0, "".join(f"{n}\t{many + 1 + n}\n" for n in range(1, many + 2)), ""),
        )
        same(
            "a census of all out of limits",
            script("census-all", url(server), "bob", "2049", "60"),
            (1, "", "census-all: out-of-limit: a generation is 0 to 2048, a limit 1 to 2048\n"),
        )
        with open(os.path.join(folder, "105.rle"), "wb") as other:
            other.write(BLOCKS + b"\n")
        check(
            "a file with another layout is another file",
            script("put-folder", url(server), "ann", folder)[1].endswith(f"105\t{folder}/105.rle\n"),
        )
    kept = rows(database, "SELECT member, token, deposit, gens, lim FROM censuses ORDER BY id")
    same(
        "rows of censuses",
        kept,
        [
            ("bob", f"g{gens}-l{limit}-d{n}", n, gens, limit)
            for gens, limit in ((0, 60), (1, 2))
            for n in range(1, many + 2)
        ],
    )


def test_censuses_over_a_restart(room: str, program: str) -> None:
    """A server that ends amid the censuses ends the run; the same command takes those that are left, and no census
    twice."""
    folder = new_folder(room, "counted", {"a.rle": GLIDER, "b.rle": BLOCKS, "c.rle": example("pulsar.rle")})
    database = os.path.join(room, "counted.db")
    # Each of three files is sent and read.
    with Server(database, 6) as server:
        same("files to be counted", script("put-folder", url(server), "ann", folder)[0], 0)
        same("the end of the server of files", server.ended(), 0)
    # A list and two censuses.
    with Server(database, 3) as first:
        left = f"census-all: deposit 3: no reply from {url(first)}; run the same command again\n"
        check(
            "censuses of a server that ends",
            is_unanswered(script("census-all", url(first), "ann", "0", "60"), "1\t1\n2\t2\n", left),
        )
        same("the end of the server of censuses", first.ended(), 0)
    with Server(database, 100) as second:
        same(
            "censuses over a restart",
            script("census-all", url(second), "ann", "0", "60"),
            (0, "1\t1\n2\t2\n3\t3\n", ""),
        )
    same(
        "rows of censuses over a restart",
        rows(database, "SELECT deposit FROM censuses ORDER BY id"),
        [(1,), (2,), (3,)],
    )
