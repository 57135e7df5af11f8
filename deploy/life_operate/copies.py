"""Copies an archive into one file, even while `life serve` has it open.

    life-copy ARCHIVE COPY
    life-copy [--settings FILE]
    life-copy [--settings FILE] --before VERSION

The second form makes a copy for a club, as its settings (/etc/life/settings) say, with the time in its name:
club-2026-11-26T0715.db in BACKUP_FOLDER, in UTC. It first checks the room on the disk, and has the program open the
copy, read its newest deposit, and look at every row with `life check --quick`. Then it removes surplus copies and sends
the newest one to SECOND_PLACE, one file for each day. The third form makes the copy before an upgrade from VERSION,
before-VERSION.db in the same folder. No rule removes that one. If the archive is missing but should exist, it refuses.

A copy is made in a folder next to its place, and gets its name only when it is complete and on the disk. It must have
everything that the copy of that name, or the club's newest copy, has: at least as many deposits and censuses, and the
same ones. A copy is not replaced if a program has it open, or if a log next to it has a commit. If the copy fails, one
line on standard error says why, and the status is 1.

Run by root, the second form first becomes the user of the archive, and the first form the user who owns the folder of
COPY. If that is root, the user of ARCHIVE makes the copy in a folder next to it, and root takes its bytes: root never
opens a file that another user may have planted.
"""
import argparse
import contextlib
import datetime
import fcntl
import functools
import os
import pwd
import re
import shutil
import sys
import tempfile
import time
from collections.abc import Callable
from typing import BinaryIO

from life_operate import commands, privileges
from life_operate import settings as life_settings
from life_operate.archive import (
    STAMP,
    Contents,
    Copies,
    Refused,
    copied_in_time,
    fold,
    has_commit,
    replacement_fault,
    line_of,
    locked,
    state_of,
    sync,
    try_by_program,
)
from life_operate.exchange import COPY_WITHIN, folder_lock, new_room, remove_old_rooms, say
from life_operate.privileges import Helper
from life_operate.signals import ENDING, Interrupted, Signals, end_by, started

# How many characters of a time name its day, and its month.
DAY, MONTH = len("2026-11-26"), len("2026-11")
# Room for the copy, the files that the program makes of it, and the next copy.
TIMES_THE_ROOM = 3
# How long rsync may take to end after a signal, in seconds.
ENDS_WITHIN = 10
ROOM = ".life-copy-"
# A function that refuses a bad new copy. It gets the copy's path and content.
Check = Callable[[str, Contents], None]


# ---- one copy


def locked_copy(copy: str) -> BinaryIO:
    """Opens the existing copy with a lock that keeps other programs from writing to it."""
    if not (file := locked(copy)):
        raise Refused(f"{copy} was not replaced: a program has it open")
    if has_commit(copy):
        raise Refused(f"{copy} was not replaced: {copy}-wal has rows that were written to it since")
    return file


def replace_copy(new: str, found: Contents, copy: str) -> None:
    """Gives the new copy its name, unless the existing copy has something that it lacks."""
    # The existing copy stays open until the new one has its name: closing it ends the lock.
    with contextlib.ExitStack() as stack:
        if os.path.exists(copy):
            stack.enter_context(locked_copy(copy))
            if why := replacement_fault(found, Contents(copy, copy)):
                raise Refused(why)
        sync(new)
        os.replace(new, copy)
        sync(os.path.dirname(copy))


def make_copy(archive: str, copy: str, check: Check, signals: Signals) -> Contents:
    """Makes the copy in a folder next to it, and returns its content."""
    if os.path.exists(copy) and os.path.samefile(archive, copy):
        raise Refused(f"{copy} is the archive itself")
    remove_old_rooms(os.path.dirname(copy), ROOM)
    with new_room(os.path.dirname(copy), ROOM, signals) as room:
        new = os.path.join(room, "new.db")
        copied_in_time(archive, new)
        fold(new, archive)
        found = Contents(new, archive)
        check(new, found)
        replace_copy(new, found, copy)
        return found


# ---- the copies of a club


def quarter_of(stamp: str) -> str:
    return stamp[:13] + str(int(stamp[13:]) // 15)


def kept(stamps: list[str], counts: list[int]) -> set[str]:
    """The times, newest first, whose copies are kept: the last one in each of the latest quarters of an hour, days and
    months."""
    stay: set[str] = set()
    periods: list[Callable[[str], str]] = [quarter_of, lambda stamp: stamp[:DAY], lambda stamp: stamp[:MONTH]]
    for period, count in zip(periods, counts):
        newest: dict[str, str] = {}
        for stamp in stamps:
            newest.setdefault(period(stamp), stamp)
        stay.update(list(newest.values())[:count])
    return stay


def remove_old(copies: Copies, new: str, counts: list[int]) -> None:
    """Removes surplus copies, except the new one and those that somebody has written to. Copies with a time in the
    future neither count nor are removed: the clock was wrong then, and they would push out all others."""
    past = copies.past()
    stay = kept(past, counts)
    for path in [copies.path(stamp) for stamp in past if stamp not in stay]:
        if path != new and not has_commit(path):
            # The log first: without its copy it would stay for ever.
            with contextlib.suppress(FileNotFoundError):
                os.remove(path + "-wal")
            os.remove(path)


def look_for_room(archive: str, folder: str) -> None:
    sizes = [os.path.getsize(path) for path in (archive, archive + "-wal") if os.path.exists(path)]
    wanted, free = TIMES_THE_ROOM * sum(sizes), shutil.disk_usage(folder).free
    if free < wanted:
        raise Refused(f"{folder} has room for {free:,} bytes, but a copy needs {wanted:,}")


def check_by(program: str, before: list[Contents]) -> Check:
    """The requirements of a club's new copy: it has no less than these, and the program opens it and finds every row
    sound."""

    def check(new: str, found: Contents) -> None:
        for there in before:
            if why := replacement_fault(found, there):
                raise Refused(why)
        trial = new + ".trial"
        shutil.copyfile(new, trial)
        if wrong := try_by_program(program, trial, found):
            raise Refused(f"{found.name} is not sound: {wrong}")

    return check


def send(copy: str, place: str) -> None:
    """Sends a copy to the second place, where there is one file for each day."""
    if place.startswith("/") and os.path.isdir(place) and os.stat(place).st_dev == os.stat(copy).st_dev:
        raise Refused(f"{copy} is good, but {place} is on the same disk: is the other disk mounted?")
    name = os.path.basename(copy).removesuffix(".db")[: -len("T0000")] + ".db"
    status, errors = run_politely(["rsync", "--ignore-times", "--timeout=600", copy, f"{place.rstrip('/')}/{name}"])
    if status:
        said = errors.strip().splitlines() or ["no message"]
        raise Refused(f"{copy} is good, but could not be sent to {place}: {said[0]}")


def run_politely(words: list[str]) -> tuple[int, str]:
    """The status of a program and its lines on standard error. If a signal ends this command, the program gets
    SIGTERM and some time, so that it removes its unfinished files."""
    with started(words, ENDS_WITHIN) as process:
        errors = process.communicate()[1].decode(errors="replace")
    return process.returncode, errors


METRICS = """# HELP life_copy_time_seconds When the newest good copy was made.
# TYPE life_copy_time_seconds gauge
life_copy_time_seconds {moment}
# HELP life_copy_rows The rows of the newest good copy.
# TYPE life_copy_rows gauge
life_copy_rows{{table="deposits"}} {deposits}
life_copy_rows{{table="censuses"}} {censuses}
# HELP life_copy_bytes How large the newest good copy is.
# TYPE life_copy_bytes gauge
life_copy_bytes {size}
"""


def write_metrics(folder: str, copy: str, found: Contents, signals: Signals) -> None:
    """Writes a file for the textfile collector of Prometheus's node exporter. Everybody may read it."""
    path = os.path.join(folder, "life.prom")
    text = METRICS.format(moment=int(time.time()), size=os.path.getsize(copy), **found.counts)
    with contextlib.suppress(FileNotFoundError):
        os.remove(path + ".new")
    with signals.held_back():
        try:
            with open(path + ".new", "x", encoding="utf-8") as file:
                os.fchmod(file.fileno(), 0o644)
                file.write(text)
            os.replace(path + ".new", path)
        finally:
            with contextlib.suppress(FileNotFoundError):
                os.remove(path + ".new")
    signals.check()


def club_copy(settings: dict[str, str], signals: Signals) -> str:
    """Makes a club's copy, and returns the lines that describe it."""
    archive, folder = os.path.realpath(settings["ARCHIVE"]), os.path.realpath(settings["BACKUP_FOLDER"])
    with folder_lock(folder, fcntl.LOCK_EX, COPY_WITHIN, f"another command is using the copies in {folder}"):
        look_for_room(archive, folder)
        copies = Copies(archive, folder)
        # A copy with a time in the future is older than its name says, so it does not count as the newest one.
        found_before = [copies.newest_good(stamps) for stamps in (copies.future(), copies.past())]
        copy = copies.path(datetime.datetime.now(datetime.timezone.utc).strftime(STAMP))
        found = make_copy(
            archive, copy, check_by(settings["PROGRAM"], [before for before, _ in found_before if before]), signals
        )
        remove_old(
            Copies(archive, folder),
            copy,
            [int(settings[name]) for name in ("KEEP_QUARTERS", "KEEP_DAYS", "KEEP_MONTHS")],
        )
    faults = [fault for _, faults in found_before for fault in faults]
    if settings["METRICS_FOLDER"]:
        try:
            write_metrics(settings["METRICS_FOLDER"], copy, found, signals)
        except OSError as fault:
            faults.append(line_of(fault))
    if settings["SECOND_PLACE"]:
        send(copy, settings["SECOND_PLACE"])
    if faults:
        raise Refused(f"{copy} is good with {found.text()}, but {faults[0]}")
    return "\n".join(
        [
            f"{copy}: {found.text()}",
            *(f"{copies.path(stamp)} has a time in the future and is ignored" for stamp in copies.future()),
        ]
    )


def before_upgrade(settings: dict[str, str], version: str, signals: Signals) -> str:
    """Makes the copy before another version opens the archive. No rule removes it, and it replaces none from an earlier
    upgrade."""
    archive, folder = os.path.realpath(settings["ARCHIVE"]), os.path.realpath(settings["BACKUP_FOLDER"])
    if not os.path.lexists(archive):
        if os.listdir(folder):
            raise Refused(f"{archive} is not there, and {folder} has copies: is its disk mounted, is ARCHIVE right?")
        return f"{archive} does not exist, and has no copies"
    copy = os.path.join(folder, f"before-{version}.db")
    if os.path.lexists(copy):
        copy = os.path.join(
            folder, f"before-{version}-{datetime.datetime.now(datetime.timezone.utc).strftime(STAMP + '%S')}.db"
        )
    look_for_room(archive, folder)
    return one_copy(archive, copy, signals)


def one_copy(archive: str, copy: str, signals: Signals) -> str:
    return f"{copy}: {make_copy(archive, copy, lambda new, found: None, signals).text()}"


# ---- rights


def give_up_rights(owner: pwd.struct_passwd) -> None:
    """Does the work as the owner of the folder, if root runs it."""
    if os.geteuid() == 0 and owner.pw_uid != 0:
        privileges.become(owner)


def owner_of_folder(path: str) -> pwd.struct_passwd:
    """Who owns the folder of a file. Root refuses to work in a folder of its own in which others may plant links."""
    folder = os.path.dirname(os.path.abspath(path))
    state = os.stat(folder)
    if os.geteuid() == 0 and state.st_uid == 0 and state.st_mode & 0o022:
        raise Refused(f"others can write to {folder}, so root makes no copy there")
    try:
        return pwd.getpwuid(state.st_uid)
    except KeyError as fault:
        raise Refused(f"{folder} belongs to user {state.st_uid}, who has no name") from fault


def owner_of_archive(path: str) -> pwd.struct_passwd:
    """To whom an archive belongs: the user of its folder or, if that is root, of the file."""
    owner = owner_of_folder(path)
    if owner.pw_uid == 0 and os.path.lexists(path):
        owner = pwd.getpwuid(os.lstat(path).st_uid)
    return owner


class OwnFolder:
    """The steps that root does in a separate folder for a copy that another user makes there: it opens files, and gives
    the new file its name."""

    def __init__(self, copy: str) -> None:
        self.copy, self.room = os.path.realpath(copy), ""
        self.before: tuple[int, int, int] | None = None

    def there(self) -> tuple[str, int | None]:
        """The copy that is there, to be compared with the new one."""
        if not os.path.exists(self.copy):
            return "", None
        file, self.before = locked_copy(self.copy), state_of(self.copy)
        number = os.dup(file.fileno())
        file.close()
        return "", number

    def begin(self) -> tuple[str, int | None]:
        """A new file, for the bytes of the copy."""
        self.room = tempfile.mkdtemp(prefix=ROOM, dir=os.path.dirname(self.copy))
        return "", os.open(os.path.join(self.room, "new.db"), os.O_WRONLY | os.O_CREAT | os.O_EXCL, 0o600)

    def finish(self) -> tuple[str, int | None]:
        # The lock lasts until the function ends, so no other process begins to write to the old file.
        holding = locked_copy(self.copy) if os.path.exists(self.copy) else None
        if (state_of(self.copy) if holding else None) != self.before:
            raise Refused(f"{self.copy} has changed meanwhile")
        new = os.path.join(self.room, "new.db")
        sync(new)
        os.replace(new, self.copy)
        sync(os.path.dirname(self.copy))
        del holding
        return "", None

    def end(self) -> None:
        if self.room:
            shutil.rmtree(self.room, ignore_errors=True)


def copy_for_root(archive: str, copy: str, helper: Helper, signals: Signals) -> None:
    """Makes the copy as the archive's user, and hands its bytes to root."""
    archive = os.path.realpath(archive)
    with new_room(os.path.dirname(archive), ROOM, signals) as room:
        new, there = os.path.join(room, "new.db"), os.path.join(room, "there.db")
        copied_in_time(archive, new)
        fold(new, archive)
        found = Contents(new, archive)
        if (number := helper.file("there")) is not None:
            with os.fdopen(number, "rb") as file, open(there, "xb") as out:
                shutil.copyfileobj(file, out, 1 << 20)
            if why := replacement_fault(found, Contents(there, copy)):
                raise Refused(why)
        place = helper.file("begin")
        assert place is not None, "a new file"
        with os.fdopen(place, "wb") as out, open(new, "rb") as file:
            shutil.copyfileobj(file, out, 1 << 20)
        helper.ask("finish")
    say(f"{copy}: {found.text()}")


def done_for_root(owner: pwd.struct_passwd, archive: str, copy: str) -> None:
    """The copy of another user's archive in root's own folder, and the end of this process."""
    folder, archive = OwnFolder(copy), os.path.abspath(archive)
    remove_old_rooms(os.path.dirname(folder.copy), ROOM)
    worker = functools.partial(
        commands.run_worker,
        "life-copy",
        {},
        lambda _, helper, signals: copy_for_root(archive, folder.copy, helper, signals),
    )
    try:
        status = privileges.split(
            owner, worker, {"there": folder.there, "begin": folder.begin, "finish": folder.finish}
        )
    finally:
        folder.end()
    for number in ENDING:
        if status in (128 + number, -number):
            end_by(number)
    sys.exit(status)


def done(words: argparse.Namespace, signals: Signals) -> str:
    if words.files:
        give_up_rights(owner_of_folder(words.files[1]))
        # The log of an archive is next to the file itself, even if a link leads to the file.
        archive, copy = words.files
        return one_copy(os.path.realpath(archive), os.path.realpath(copy), signals)
    settings = life_settings.end_if_wrong("life-copy", words.settings)
    # rsync needs a current folder that its user may read.
    os.chdir("/")
    give_up_rights(privileges.user_of(settings["LIFE_USER"]))
    return before_upgrade(settings, words.before, signals) if words.before else club_copy(settings, signals)


def main() -> None:
    parser = argparse.ArgumentParser(
        prog="life-copy", description=__doc__, formatter_class=argparse.RawDescriptionHelpFormatter
    )
    parser.add_argument("--settings", default=life_settings.USUAL, metavar="FILE")
    parser.add_argument("--before", metavar="VERSION")
    parser.add_argument("files", nargs="*", metavar="ARCHIVE COPY")
    words = parser.parse_args()
    if words.before and (words.files or not re.fullmatch(r"[A-Za-z0-9.+~:-]+", words.before)):
        parser.error("--before goes with a version, and with no files")
    if len(words.files) not in (0, 2):
        parser.error("an archive and a copy, or neither")
    try:
        if (
            words.files
            and os.geteuid() == 0
            and owner_of_folder(words.files[1]).pw_uid == 0
            and (owner := owner_of_archive(words.files[0])).pw_uid != 0
        ):
            done_for_root(owner, *words.files)
        print(done(words, Signals()))
    except (OSError, Refused) as fault:
        sys.exit(f"life-copy: {line_of(fault)}")
    except Interrupted as end:
        end_by(end.number)
