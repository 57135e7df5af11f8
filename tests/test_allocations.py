"""Refused allocations: a library, built with a C compiler, refuses each allocation of the program in turn. Other tests
build their libraries with `preloaded`.

Whatever is not answered has changed nothing: before anything is sent again, the archive's tables are read, and they are
as they were.
"""
import concurrent.futures
import multiprocessing
import os
import re
import shutil
import socket
import sqlite3
import subprocess
from collections.abc import Callable

import pytest

import clients
import reference
from archives import BLANK
from clients import (
    BLOCKS,
    GLIDER,
    UNAVAILABLE,
    Server,
    check,
    deposit,
    exchanged,
    fresh,
    is_answered,
    message,
    run,
)

pytestmark = [pytest.mark.full, pytest.mark.usefixtures("program")]

# Over all requests every 25th allocation is refused.
STEP = 25
SHIM = r"""
#define _GNU_SOURCE
#include <dlfcn.h>
#include <fcntl.h>
#include <link.h>
#include <stdint.h>
#include <stdlib.h>

/* Refuses the allocation of number REFUSE that the program itself asks for, and makes the file REFUSED to say so. */
static uintptr_t low, high;
static long left;

static int of_program(struct dl_phdr_info *info, size_t size, void *data) {
  for (int i = 0; i < info->dlpi_phnum; i++) {
    uintptr_t from = info->dlpi_addr + info->dlpi_phdr[i].p_vaddr, to = from + info->dlpi_phdr[i].p_memsz;
    if (info->dlpi_phdr[i].p_type != PT_LOAD) continue;
    if (!high || from < low) low = from;
    if (to > high) high = to;
  }
  return 1;
}

static int is_refused(void *from) {
  if (!high) {
    const char *number = getenv("REFUSE");
    dl_iterate_phdr(of_program, 0);
    left = number ? atol(number) : 0;
  }
  if ((uintptr_t)from < low || (uintptr_t)from >= high || left == 0 || --left) return 0;
  const char *path = getenv("REFUSED");
  if (path) open(path, O_CREAT | O_WRONLY, 0600);
  return 1;
}

void *malloc(size_t size) {
  static void *(*next)(size_t);
  if (!next) next = dlsym(RTLD_NEXT, "malloc");
  return is_refused(__builtin_return_address(0)) ? 0 : next(size);
}

void *realloc(void *old, size_t size) {
  static void *(*next)(void *, size_t);
  if (!next) next = dlsym(RTLD_NEXT, "realloc");
  return is_refused(__builtin_return_address(0)) ? 0 : next(old, size);
}
"""
DONE, REFUSED = (0, b"deposit 1\n", b""), (1, b"", b"refused: unavailable\n")
# The database of an empty file, as from `tables`.
NO_TABLES = ["BEGIN TRANSACTION;", "COMMIT;"]


def preloaded(folder: str, name: str, source: str) -> str:
    """Builds a library for LD_PRELOAD from a source in C; its path."""
    assert shutil.which("cc"), "a C compiler is not installed"
    library = os.path.join(folder, f"{name}.so")
    words = ["cc", "-shared", "-fPIC", "-O1", "-x", "c", "-o", library, "-", "-ldl"]
    subprocess.run(words, input=source.encode(), check=True)
    return library


class Refusing:
    """A preloaded library that refuses one allocation of a program."""

    def __init__(self, folder: str) -> None:
        self.library, self.mark = preloaded(folder, "refusing", SHIM), os.path.join(folder, "refused")

    def environment(self, allocation: int) -> dict[str, str]:
        if os.path.exists(self.mark):
            os.remove(self.mark)
        return {**os.environ, "LD_PRELOAD": self.library, "REFUSE": str(allocation), "REFUSED": self.mark}

    def has_refused(self) -> bool:
        return os.path.exists(self.mark)


# ---- what an archive has


def copied(database: str, to: str) -> str:
    """The path of a copy of an archive's file and log. A server has both locked, and writes to neither while it gets no
    requests."""
    copy = fresh(os.path.dirname(database), to)
    for ending in ("", "-wal"):
        if os.path.exists(database + ending):
            shutil.copyfile(database + ending, copy + ending)
    return copy


def tables(database: str) -> list[str]:
    """The statements that would recreate an archive's tables with their rows. The archive may be in use, and is only
    read."""
    kept = sqlite3.connect(copied(database, "looked-at.db"))
    try:
        return list(kept.iterdump())
    finally:
        kept.close()


def size_of(archive: reference.Archive) -> tuple[int, int]:
    """How many deposits and censuses an archive of the reference has."""
    return len(archive.deposits), len(archive.censuses)


def has_all(database: str, archive: reference.Archive) -> bool:
    """Whether the tables are sound and hold as much as this archive, which has two deposits and a census at most."""
    kept = sqlite3.connect(database)
    counts = [
        kept.execute(f"SELECT count(*) FROM {table}").fetchone()[0] for table in ("deposits", "censuses", "census_rows")
    ]
    sound = kept.execute("PRAGMA integrity_check").fetchall() == [("ok",)]
    kept.close()
    rows = sum(len(archive.counted(number + 1)[3][0]) for number in range(len(archive.censuses)))
    return sound and counts == [*size_of(archive), rows]


# ---- the work of several processes


def shared(work: Callable[..., tuple[int, ...]], *given: object) -> list[int]:
    """Adds the counts of up to four processes, each of which does its share of the work in parallel."""
    shares = min(4, os.cpu_count() or 1)
    with concurrent.futures.ProcessPoolExecutor(shares, multiprocessing.get_context("fork")) as pool:
        counted = [pool.submit(work, *given, share, shares) for share in range(shares)]
        return [sum(numbers) for numbers in zip(*(it.result() for it in counted))]


def folder_of(folder: str, name: str, share: int) -> str:
    """A new folder for one share of the work."""
    own = os.path.join(folder, f"{name} {share}".replace(" ", "-"))
    os.mkdir(own)
    return own


# ---- `life deposit`


def has_commit(database: str) -> bool:
    """Whether the log beside a database file has more than `sqlite` leaves of a log that is copied into its file."""
    log = database + "-wal"
    return os.path.exists(log) and os.path.getsize(log) > BLANK


def refused_deposits_share(folder: str, share: int, shares: int) -> tuple[int, int, int, int]:
    """How many allocations of one share were refused, after how many of these `refused_deposits` found something wrong,
    how many deposits were refused with them, and how many of these left a log with a commit."""
    folder = folder_of(folder, "deposits", share)
    refusing, database = Refusing(folder), fresh(folder, "refused.db")
    run("deposit", "--db", database, "ann", "t1")
    unchanged = [NO_TABLES, tables(database)]
    run("deposit", "--db", database, "ann", "t1", data=GLIDER)
    kept = tables(database)
    wrong, allocation, tried, refusals, logs = int(kept in unchanged), share + 1 - shares, 0, 0, 0
    while True:
        allocation += shares
        fresh(folder, "refused.db")
        done = subprocess.run(
            [clients.PROGRAM, "deposit", "--db", database, "ann", "t1"],
            input=GLIDER,
            capture_output=True,
            timeout=60,
            env=refusing.environment(allocation),
        )
        # A second line may say why the file can't be used.
        answer = (done.returncode, done.stdout, b"".join(done.stderr.splitlines(True)[:1]))
        logs += answer == REFUSED and has_commit(database)
        refused, left = refusing.has_refused(), tables(database)
        refusals += answer == REFUSED
        good = answer == DONE and left == kept or answer == REFUSED and left in unchanged
        good = good and run("deposit", "--db", database, "ann", "t1", data=GLIDER) == DONE and tables(database) == kept
        if not good:
            wrong += 1
            print(f"allocation {allocation} of a deposit refused: {answer}, then {left}", flush=True)
        if not refused or wrong > 3:
            return tried, wrong, refusals, logs
        tried += 1


def test_refused_deposits(folder: str) -> None:
    """Each allocation of `life deposit` refused in turn, from the start of the program on: it is refused and nothing is
    stored, or it is right. Then it is right."""
    tried, wrong, refusals, logs = shared(refused_deposits_share, folder)
    check(f"{tried} allocations of a deposit refused, {wrong} answered otherwise", wrong == 0 and tried > 10)
    check(f"{refusals} refused deposits", refusals > 0)
    # An opening that is refused after it made the tables leaves them in its log; a deposit that is refused later closes
    # the archive, which copies the log into the file.
    check(f"{logs} of them left a log with a commit", logs > 0)


# ---- `life serve`

MESSAGES = [
    message("POST", "/deposits", GLIDER, "host: a", "x-member: ann", "x-token: t1"),
    message("GET", "/deposits/1"),
    message("GET", "/deposits/1/kind/4"),
    deposit("ann", "t2", BLOCKS),
    message("POST", "/deposits/2/censuses/0/1", b"", "x-member: ann", "x-token: c1"),
    message("GET", "/censuses/1"),
    message("GET", "/censuses/1/csv"),
    message("GET", "/objects/B3S23/xs4_33/1"),
    message("GET", "/deposits/after/0"),
]


def replied(peer: socket.socket, one: bytes) -> bytes:
    """The reply to a message on a connection, or the part of it that came before the connection ended."""
    back = b""
    try:
        peer.sendall(one)
        while not (head := re.match(rb"(?s).*?\r\ncontent-length: (\d+)\r\n\r\n", back)) or len(
            back
        ) < head.end() + int(head[1]):
            if not (more := peer.recv(65536)):
                break
            back += more
    except OSError:
        pass
    return back


def has_ended(peer: socket.socket) -> bool:
    """Whether nothing more comes on a connection after its sending side is closed."""
    try:
        peer.shutdown(socket.SHUT_WR)
        return peer.recv(1) == b""
    except OSError:
        return True


def answered_in_turn(
    server: Server, messages: list[bytes], database: str, archive: reference.Archive
) -> tuple[bool, int]:
    """Sends messages one by one over the server's only connection. Whether each is answered as by this archive of the
    reference, or is unavailable, or ends the connection without a reply; and whether the tables, read before the next
    one is sent, changed with each reply that makes the reference grow and with nothing else. And how many are
    unavailable."""
    unavailable, before, ended = 0, tables(database), True
    with socket.create_connection(("127.0.0.1", server.port), timeout=60) as peer:
        for one in messages:
            back = replied(peer, one)
            if not back or b" HTTP/1.0\r\n" in one:
                # The server ends after its connection, and writes its log into its file: the tables are read once it
                # has.
                ended = has_ended(peer) and server.ended() is not None
            after = tables(database)
            unavailable += back == UNAVAILABLE
            # A repeated token is answered 201 like a new one, and stores nothing.
            size = size_of(archive)
            good = ended and (back == b"" or is_answered(archive, [one], back))
            good = good and (after != before) == (size_of(archive) != size)
            if not good:
                print(
                    f"{one[:60]!r} was answered {back[:200]!r}; tables as before it: {after == before}",
                    flush=True,
                )
            if not good or not back:
                return good, unavailable
            before = after
        return has_ended(peer), unavailable


def made_archive(folder: str, before: list[bytes]) -> tuple[str, list[str], list[str]]:
    """An archive that was asked so much, its tables, and the tables of a file before the first opening if it was asked
    nothing."""
    made = fresh(folder, "made.db")
    with Server(made, 1) as server:
        exchanged(server.port, before)
        server.ended()
    return made, tables(made), tables(made) if before else NO_TABLES


def refused_share(
    folder: str,
    name: str,
    before: list[bytes],
    messages: list[bytes],
    kept: tuple[int, int],
    step: int,
    share: int,
    shares: int,
) -> tuple[int, int, int, int]:
    """How many allocations of one share were refused, after how many of these `refused_messages` found something wrong,
    how many ended the connection, and how many messages were unavailable."""
    folder = folder_of(folder, name, share)
    refusing, (made, opened, unopened) = Refusing(folder), made_archive(folder, before)
    wrong, allocation, tried, ended, unavailable = 0, step * (share + 1 - shares), 0, 0, 0
    while True:
        allocation += step * shares
        database, archive = copied(made, "served.db") if before else fresh(folder, "served.db"), reference.Archive()
        archive.replies(b"".join(before))
        with Server(database, 1, refusing.environment(allocation)) as server:
            # A failed opening has changed nothing, or has created the tables.
            good, more = answered_in_turn(server, messages, database, archive) if server.line else (True, 0)
            good, unavailable = (
                good and (server.line != b"" or tables(database) in (opened, unopened)),
                unavailable + more,
            )
            good = server.ended() in (0, 1) and good
            assert server.process.stderr
            ended += server.process.stderr.read() == b"connection: memory\n"
        refused = refusing.has_refused()
        with Server(database, 1) as server:
            good = (
                good
                and UNAVAILABLE not in (again := exchanged(server.port, messages))
                and is_answered(archive, messages, again)
            )
            good = good and server.ended() == 0
        good = good and has_all(database, archive) and size_of(archive) == kept
        if not good:
            wrong += 1
            print(f"allocation {allocation} over {name} refused: failed", flush=True)
        if not refused or wrong > 3:
            return tried, wrong, ended, unavailable
        tried += 1


# Each allocation of one deposit; of two reads of a deposit that is kept already, the second of which closes and has
# bytes after it; of a census of a deposit that is kept already: it is taken, repeated under its token, and read in both
# forms; and some of a run of all requests. Each run has the messages before it, its own messages, how many deposits and
# censuses are kept in the end, and the step from one allocation to the next.
RUNS = {
    "one deposit": ([], MESSAGES[:1], (1, 0), 1),
    "two reads": (
        MESSAGES[:1],
        [message("GET", "/deposits/1"), message("GET", "/deposits/1/kind/4", version="1.0") + b"any bytes"],
        (1, 0),
        1,
    ),
    "a census": (
        [one for one in MESSAGES if one.startswith(b"POST /deposits ")],
        [one for one in MESSAGES if b"/censuses/0/1 " in one] + [one for one in MESSAGES if b"/censuses/" in one],
        (2, 1),
        1,
    ),
    "all requests": ([], MESSAGES, (2, 1), STEP),
}


@pytest.mark.parametrize("name", RUNS)
def test_refused_messages(folder: str, name: str) -> None:
    """With every n-th allocation of `life serve` refused, one a run: each message is answered right, or it is
    unavailable or ends the connection, and then the tables are as before it. It is answered right when it is sent
    again, and then all deposits and censuses are stored.
    """
    before, messages, kept, step = RUNS[name]
    tried, wrong, ended, unavailable = shared(refused_share, folder, name, before, messages, kept, step)
    check(f"{tried} allocations over {name} refused, {wrong} answered otherwise", wrong == 0 and tried > 10)
    check(f"{ended} connections over {name} ended, out of memory", ended > 0 or step > 1)
    check(f"{unavailable} messages of {name} unavailable", unavailable > 0)
