"""An archive's file and its log: copying, reading and comparing them, and opening them with the program.

The server holds the file's lock, so sqlite3 can't read it. `copied` copies the bytes of the file and then those of its
log. As long as the file and the head of its log do not change, the program only appends to the log, so the copy is what
a crash at that moment would have left. SQLite then merges the log into the file. It must not change any other byte:
`.backup`, VACUUM INTO or another journal mode would leave wrong checksums in the pages.
"""
import contextlib
import datetime
import fcntl
import functools
import http.client
import itertools
import os
import pathlib
import re
import select
import shutil
import socket
import sqlite3
import struct
import subprocess
import time
from collections.abc import Iterable, Iterator
from typing import Any, BinaryIO

from life_operate.signals import started

TRIES = 40
# In these tries the program is stopped, for this many seconds at most: gateways wait 60 for its answer.
STOPPED_TRIES, STOPPED_WITHIN = range(5, 8), 45
# Stops a process until its input ends: it continues even if the one that stopped it is killed.
STOP = 'kill -STOP "$0" && echo stopped && read -r -t "$1"; kill -CONT "$0"'
# How many bytes of a file are compared at once.
BLOCK = 1 << 20
# A log's head, a frame's head and the smallest page of SQLite: a shorter log has no commit.
LEAST_COMMIT = 32 + 24 + 512
# The bytes of a file that SQLite and `life` lock while they have the file open.
LOCK_START, LOCK_LENGTH = 1 << 30, 512
# A flock of Linux on 64 bits: type, whence, start, length, process.
FLOCK = "hhqqi4x"
# How many seconds the program may take to open a copy. A migration takes as long as its censuses took.
OPENED_WITHIN = 1800
# The time in the name of a copy, in UTC.
STAMP = "%Y-%m-%dT%H%M"
# The numbered tables: what a row is called, and the columns that distinguish it from a row of another archive.
TABLES = {"deposits": ("deposit", "member, token, rle"), "censuses": ("census", "member, token, deposit, gens, lim")}


class Refused(Exception):
    """Why something is refused, as a sentence."""


class NoAnswer(Refused):
    """The program did not answer."""


def line_of(fault: BaseException) -> str:
    """One line that says why a script failed."""
    if isinstance(fault, OSError) and fault.filename:
        return f"{fault.filename2 or fault.filename}: {fault.strerror}"
    return str(fault)


# ---- the bytes of an archive


def begin_of(path: str) -> tuple[bytes, int]:
    """The head of a log, which changes when the log starts over, and its length."""
    try:
        with open(path, "rb") as log:
            return log.read(32), os.fstat(log.fileno()).st_size
    except FileNotFoundError:
        return b"", 0


def has_commit(path: str) -> bool:
    """Whether a file's log may contain a commit."""
    return begin_of(path + "-wal")[1] >= LEAST_COMMIT


def state_of(path: str) -> tuple[int, int, int]:
    state = os.stat(path)
    return state.st_ino, state.st_size, state.st_mtime_ns


def renew(file: str, new: str) -> None:
    """Makes a copy the same as its file. Blocks that are the same are not written, so a further try takes less time."""
    if not os.path.exists(new):
        shutil.copyfile(file, new)
        return
    with open(file, "rb", buffering=0) as there, open(new, "r+b", buffering=0) as copy:
        while block := there.read(BLOCK):
            place = copy.tell()
            if copy.read(len(block)) != block:
                copy.seek(place)
                copy.write(block)
        copy.truncate(there.tell())


def copied(archive: str, new: str) -> bool:
    """Whether the copies of the two files are from one moment."""
    file, (head, length) = state_of(archive), begin_of(archive + "-wal")
    renew(archive, new)
    pathlib.Path(new + "-wal").unlink(missing_ok=True)
    if head:
        shutil.copyfile(archive + "-wal", new + "-wal")
    copied_head, copied_length = begin_of(new + "-wal")
    later_head, later_length = begin_of(archive + "-wal")
    return file == state_of(archive) and head == copied_head == later_head and length <= copied_length <= later_length


def copied_in_time(archive: str, new: str) -> None:
    """Copies the two files, and tries again while they change. If they change each time, the program is stopped while
    they are copied."""
    for turn in range(TRIES):
        with stopped(archive) if turn in STOPPED_TRIES else contextlib.nullcontext():
            if copied(archive, new):
                return
        time.sleep(0.02 * (turn + 1))
    raise Refused(f"{archive} changed during each of {TRIES} tries")


def sync(path: str) -> None:
    """Syncs a file, or the names in a folder, to the disk."""
    number = os.open(path, os.O_RDONLY)
    try:
        os.fsync(number)
    finally:
        os.close(number)


def holder(path: str) -> int:
    """The process that has a file locked, as `life` has while it serves it, -1 if it can't be known, and 0 if there is
    none."""
    with open(path, "rb") as file:
        wanted = struct.pack(FLOCK, fcntl.F_WRLCK, os.SEEK_SET, LOCK_START, LOCK_LENGTH, 0)
        kind, _, _, _, process = struct.unpack(FLOCK, fcntl.fcntl(file, fcntl.F_GETLK, wanted))
        return 0 if kind == fcntl.F_UNLCK else int(process) or -1


@contextlib.contextmanager
def stopped(path: str) -> Iterator[None]:
    """Stops the program that serves a file for the time of a block, if this user may."""
    if (process := holder(path)) <= 0:
        yield
        return
    words = ["bash", "-c", STOP, str(process), str(STOPPED_WITHIN)]
    # Its own session keeps a Ctrl-C away.
    with subprocess.Popen(
        words, stdin=subprocess.PIPE, stdout=subprocess.PIPE, stderr=subprocess.DEVNULL, start_new_session=True
    ) as stop:
        assert stop.stdin and stop.stdout, "both are pipes"
        if stop.stdout.readline():
            print(f"{path} changes faster than it can be copied: requests wait while it is read", flush=True)
        try:
            yield
        finally:
            stop.stdin.close()


def locked(path: str) -> BinaryIO | None:
    """Opens a file with a lock that keeps every program from writing to it; None if a program has it open."""
    file = open(path, "rb")
    try:
        fcntl.lockf(file, fcntl.LOCK_SH | fcntl.LOCK_NB, LOCK_LENGTH, LOCK_START)
    except BlockingIOError:
        file.close()
        return None
    return file


# ---- the contents of an archive


class Database:
    """A database, and the name under which messages mention it. An error of SQLite is one with that name."""

    def __init__(self, name: str, address: str) -> None:
        self.name = name
        try:
            self.opened = sqlite3.connect(address, uri=True)
        except sqlite3.Error as fault:
            raise self.refused(fault) from fault

    def first_row(self, query: str, *values: object) -> tuple[Any, ...]:
        """The first row, or an empty tuple if there is none."""
        try:
            return self.opened.execute(query, values).fetchone() or ()
        except sqlite3.Error as fault:
            raise self.refused(fault) from fault

    def refused(self, why: object) -> Refused:
        return Refused(f"{self.name} can't be read as an archive: {why}")


def fold(new: str, archive: str) -> None:
    """Merges the log into its file, and checks the file."""
    database = Database(archive, pathlib.Path(new).as_uri())
    if database.first_row("PRAGMA wal_checkpoint(TRUNCATE)")[0] != 0:
        raise database.refused("its log can't be merged into its file")
    if (found := database.first_row("PRAGMA integrity_check")[0]) != "ok":
        raise database.refused(found.splitlines()[-1])
    database.opened.close()


class Contents(Database):
    """The content of an archive that is one file. The file is only read; a log next to it is ignored."""

    def __init__(self, path: str, name: str) -> None:
        super().__init__(name, pathlib.Path(path).as_uri() + "?mode=ro&immutable=1")
        self.counts = {table: self.count(table) for table in TABLES}

    def count(self, table: str) -> int:
        count, last = self.first_row(f"SELECT count(*), coalesce(max(id), 0) FROM {table}")
        if count != last:
            raise self.refused(f"the {table} have gaps")
        return int(count)

    def row(self, table: str, number: int) -> tuple[Any, ...]:
        return self.first_row(f"SELECT {TABLES[table][1]} FROM {table} WHERE id = ?", number)

    def rows(self, table: str, last: int) -> Iterator[tuple[Any, ...]]:
        """The rows of a table up to a number, one by one."""
        try:
            yield from self.opened.execute(f"SELECT {TABLES[table][1]} FROM {table} WHERE id <= ? ORDER BY id", (last,))
        except sqlite3.Error as fault:
            raise self.refused(fault) from fault

    def text(self) -> str:
        return ", ".join(f"{count} {TABLES[table][0] if count == 1 else table}" for table, count in self.counts.items())

    def text_with_first(self) -> str:
        first = self.row("deposits", 1)
        return self.text() + (f", the first deposit by {first[0]!a}" if first else "")

    def newest(self) -> tuple[str, bytes]:
        """The route of the newest deposit, and the answer that the program has to give."""
        number = self.counts["deposits"]
        return (
            (f"/deposits/{number}", self.row("deposits", number)[2])
            if number
            else ("/deposits/after/0", b'{"deposits":[]}')
        )


@functools.cache
def missing_rows(new: Contents, there: Contents) -> list[str]:
    """The rows that the existing archive has and the new one lacks, or the first one that differs. All rows are
    compared, which takes seconds for a million."""
    found = [f"fewer {table}" for table in TABLES if new.counts[table] < there.counts[table]]
    for table, (one, _) in TABLES.items():
        last = min(new.counts[table], there.counts[table])
        pairs = enumerate(zip(new.rows(table, last), there.rows(table, last)), 1)
        others = (f"another {one} {number}" for number, (row, other) in pairs if row != other)
        found += itertools.islice(others, 1)
    return found


def replacement_fault(new: Contents, there: Contents) -> str:
    """Why a new archive can't replace another one, as a sentence; empty if it can."""
    found = missing_rows(new, there)
    return (
        f"{there.name} was kept, with {there.text_with_first()}; {new.name} has {new.text_with_first()}: "
        f"{', '.join(found)}"
        if found
        else ""
    )


# ---- the copies of a club


class Copies:
    """The copies in the folder of a club, the newest first."""

    def __init__(self, archive: str, folder: str) -> None:
        self.folder, self.stem = folder, os.path.basename(archive).removesuffix(".db")
        form = re.compile(re.escape(self.stem) + r"-(\d{4}-\d\d-\d\dT\d{4})\.db")
        found = [form.fullmatch(name) for name in os.listdir(folder)]
        self.stamps = sorted((name[1] for name in found if name), reverse=True)

    def path(self, stamp: str) -> str:
        return os.path.join(self.folder, f"{self.stem}-{stamp}.db")

    def past(self) -> list[str]:
        """The times of the copies, except those in the future, which come from a clock that was wrong."""
        now = datetime.datetime.now(datetime.timezone.utc).strftime(STAMP)
        return [stamp for stamp in self.stamps if stamp <= now]

    def future(self) -> list[str]:
        return [stamp for stamp in self.stamps if stamp not in self.past()]

    def newest_good(self, stamps: Iterable[str]) -> tuple[Contents | None, list[str]]:
        """The newest readable copy from these times, and the problems of the newer ones."""
        faults: list[str] = []
        for stamp in stamps:
            try:
                return Contents(self.path(stamp), self.path(stamp)), faults
            except Refused as fault:
                faults.append(str(fault))
        return None, faults


# ---- the program


def free_port() -> int:
    with socket.socket() as probe:
        probe.bind(("127.0.0.1", 0))
        return int(probe.getsockname()[1])


def answered(port: int, path: str, timeout: float = 60) -> tuple[int, bytes]:
    """The status and the body of the program's reply."""
    asked = http.client.HTTPConnection("127.0.0.1", port, timeout=timeout)
    try:
        asked.request("GET", path, headers={"connection": "close"})
        reply = asked.getresponse()
        return reply.status, reply.read()
    except (OSError, http.client.HTTPException) as fault:
        raise NoAnswer(f"no answer at port {port}: {fault}") from fault
    finally:
        asked.close()


class Opened:
    """The program, serving a file for one connection on 127.0.0.1. It ends after that by itself."""

    def __init__(self, process: subprocess.Popen[bytes], port: int) -> None:
        self.process, self.port = process, port

    def asked(self, name: str, route: str) -> tuple[int, bytes]:
        """The reply for a route, or why the program doesn't serve the file. Messages call the file by this name."""
        out, errors = self.process.stdout, self.process.stderr
        assert out and errors, "both are pipes"
        if not (select.select([out], [], [], OPENED_WITHIN)[0] and out.readline()):
            self.process.kill()
            said = errors.read().decode().splitlines() or ["it had no output"]
            raise Refused(f"{name} can't be opened by the program: {said[0]}")
        return answered(self.port, route)

    def ended(self) -> bool:
        """Whether the program succeeded after its connection."""
        return self.process.wait(60) == 0


@contextlib.contextmanager
def opened_by_program(program: str, path: str) -> Iterator[Opened]:
    """Has the program serve a file. At the end of the block it is killed if it still runs."""
    port = free_port()
    with started([program, "serve", "--db", path, "--port", str(port), "--connections", "1"]) as process:
        yield Opened(process, port)


def asked_of_program(program: str, path: str, name: str, route: str, ends: bool = False) -> tuple[int, bytes]:
    """The program's answer with a file open; with `ends` it also has to succeed after that. Anybody on the machine
    may use up its one connection, so a question without an answer is asked once more."""
    for last in (False, True):
        with opened_by_program(program, path) as opened:
            try:
                reply = opened.asked(name, route)
            except NoAnswer:
                if last:
                    raise
                continue
            if ends and not opened.ended():
                raise Refused(f"the program failed after opening {name}")
            return reply
    raise AssertionError


def checked_by_program(program: str, *words: str) -> tuple[int, str, str]:
    """The status of `PROGRAM check` with these arguments, and the first lines of its output and of its errors. It
    changes no byte."""
    with started([program, "check", *words]) as process:
        texts = process.communicate()
    said, errors = ((text.decode().splitlines() or [""])[0] for text in texts)
    return process.returncode, said, errors


def try_by_program(program: str, path: str, contents: Contents) -> str:
    """Has the program open a throw-away copy, reads its newest deposit, and has the program look at every row, without
    counting censuses; returns its line about the first wrong row, or ''. The opening comes first: it migrates an
    archive of an earlier schema version.
    """
    route, wanted = contents.newest()
    if asked_of_program(program, path, contents.name, route) != (200, wanted):
        raise contents.refused(f"the program answers {route} with something different")
    status, said, errors = checked_by_program(program, "--quick", "--db", path)
    return (said or errors or f"the check ended with {status}") if status else ""


def made_by_program(program: str, path: str) -> None:
    """Has the program create an archive. Its log is empty, and is removed."""
    if asked_of_program(program, path, path, "/deposits/after/0", ends=True) != (200, b'{"deposits":[]}'):
        raise Refused(f"the program created no archive at {path}")
    if has_commit(path):
        raise Refused(f"the rows of the archive are in {path}-wal, not in {path}")
    os.remove(path + "-wal")
