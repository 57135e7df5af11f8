"""Replaces a club's archive with a copy. Run it as root; everything with files is done as the archive's user.

    life-restore [--settings FILE] [--older | --other] [--with-log] [--unsound] COPY
    life-restore [--settings FILE]

COPY is a file that life-copy made, or the file of a pair (with its log) in a folder whose name begins with before-.
While the service runs, COPY is checked, opened by the program, and compared with the archive and its copies. If
something would be lost, the command says what and refuses. --older accepts a copy of this archive that has less,
--other accepts another archive. If the archive is gone or damaged but its log is there, the newest copy may fit that
log; --with-log takes COPY together with the log. --unsound accepts a copy with a row that no archive writes: such a row
stays as it is, and is answered `unavailable`.

Then the service stops, the archive and its log move away together, nginx's cache is emptied, the copy gets the
archive's name, and the service starts and is asked for the newest deposit. Copies that have more than the archive has
now move away too. An error or a signal before the copy has its name undoes everything. After a kill or a power cut, the
next command finishes or undoes it; without COPY it does only that.

The status is 0 if the copy is served, 1 if not, 2 for a usage error, and 128 + N after signal N.
"""
import argparse
import contextlib
import os
import shlex
import shutil
import stat
from typing import BinaryIO

from life_operate import commands, exchange
from life_operate.archive import LEAST_COMMIT, Contents, Refused, answered, begin_of, fold, has_commit, line_of, sync
from life_operate.exchange import UNIT, say
from life_operate.losses import (
    RESTORE,
    CurrentArchive,
    copies_with_more,
    decide,
    decide_on_row,
    differences,
    gather,
    join,
    lost_numbers,
    remove_files,
    try_copy,
)
from life_operate.privileges import Helper
from life_operate.settings import USUAL
from life_operate.signals import Signals


# ---- the copy


class Source:
    """A copy and its log, open. If the archive's user may not read them, the helper opens them, as root named them."""

    def __init__(self, path: str, helper: Helper) -> None:
        self.path = path
        file = self.opened(path, helper)
        if not file:
            raise Refused(f"{path} is not a file")
        self.file = file
        self.log = self.opened(path + "-wal", helper)

    @staticmethod
    def opened(path: str, helper: Helper) -> BinaryIO | None:
        number: int | None
        try:
            number = os.open(path, os.O_RDONLY | os.O_NONBLOCK)
        except FileNotFoundError:
            return None
        except PermissionError:
            number = helper.file("open", path)
        if number is None:
            return None
        if not stat.S_ISREG(os.fstat(number).st_mode):
            os.close(number)
            return None
        return os.fdopen(number, "rb")

    def is_file(self, path: str) -> bool:
        with contextlib.suppress(OSError):
            return os.path.samestat(os.fstat(self.file.fileno()), os.stat(path))
        return False

    def size(self) -> int:
        return sum(os.fstat(file.fileno()).st_size for file in (self.file, self.log) if file)

    def look(self, archive: str) -> None:
        """Refuses a copy that can't be restored. Only in a folder before-.. a log belongs to its file: elsewhere
        somebody has written to a copy."""
        if self.is_file(archive):
            raise Refused(f"{self.path} is the archive itself")
        written = self.log and os.fstat(self.log.fileno()).st_size >= LEAST_COMMIT
        if written and not os.path.basename(os.path.dirname(os.path.realpath(self.path))).startswith("before-"):
            raise Refused(
                f"{self.path}-wal has rows that were written to the copy since; life-copy makes no such file; "
                "a copy with a log must be in a folder before-.."
            )

    def copy_to(self, new: str) -> None:
        """Copies the file and its log, and merges them into one file."""
        for file, path in ((self.file, new), (self.log, new + "-wal")):
            if file:
                before = os.fstat(file.fileno())
                file.seek(0)
                with open(path, "xb") as out:
                    shutil.copyfileobj(file, out, 1 << 20)
                after = os.fstat(file.fileno())
                if (before.st_size, before.st_mtime_ns) != (after.st_size, after.st_mtime_ns):
                    raise Refused(f"{self.path} changed while it was copied")
        fold(new, self.path)


# ---- the restore


class Restore:
    """A restore, from reading the copy to asking the service for it."""

    def __init__(self, words: argparse.Namespace, settings: dict[str, str], helper: Helper, signals: Signals) -> None:
        self.words, self.settings, self.helper, self.signals = words, settings, helper, signals
        self.archive, self.copies = os.path.realpath(settings["ARCHIVE"]), os.path.realpath(settings["BACKUP_FOLDER"])
        self.folder = os.path.dirname(self.archive)

    def run(self) -> None:
        with exchange.alone(self.archive, self.copies):
            ended = exchange.end_interrupted(self.archive, self.helper, self.signals)
            exchange.remove_old_rooms(self.folder)
            if self.words.copy is None:
                if not ended:
                    raise Refused(f"no restore was interrupted; to put a copy back: {RESTORE} COPY")
                return
            with exchange.new_room(self.folder, exchange.ROOM, self.signals) as room:
                self.prepare(room)
                with self.signals.held_back():
                    self.exchange(room)

    def prepare(self, room: str) -> None:
        """Everything that takes long, while the service runs: the new file, checked, compared, and on the disk."""
        self.source = Source(self.words.copy, self.helper)
        self.source.look(self.archive)
        self.look_for_room()
        self.helper.ask("look-cache")
        self.new = os.path.join(room, "new.db")
        self.source.copy_to(self.new)
        name = self.words.copy
        if self.words.with_log:
            self.with_log(room)
        else:
            self.found = Contents(self.new, name)
        decide_on_row(try_copy(self.settings["PROGRAM"], self.new, self.found), self.words)
        say(f"the copy {name}: {self.found.text_with_first()}")
        self.findings = gather(self.archive, self.copies, room, self.settings["PROGRAM"], self.found)
        if self.words.with_log and self.findings.there.contents:
            raise Refused(f"{self.archive} exists with its log and can be read: {self.findings.there.words}")
        decide(self.found, self.findings, self.words)
        sync(self.new)
        sync(room)

    def with_log(self, room: str) -> None:
        """Makes the new file from the copy and the archive's log."""
        if not has_commit(self.archive):
            raise Refused(f"{self.archive}-wal is missing or empty")
        self.log = begin_of(self.archive + "-wal")
        joined = os.path.join(room, "joined.db")
        plain = os.path.join(room, "plain.db")
        remove_files(plain)
        if os.path.exists(self.new):
            os.rename(self.new, plain)
        else:
            self.source.copy_to(plain)
        self.found = join(plain, self.archive, joined, f"{self.words.copy} with the log that is there")
        os.rename(joined, self.new)
        self.found = Contents(self.new, self.found.name)
        remove_files(plain)
        remove_files(joined)

    def look_for_room(self) -> None:
        """Requires room for the new file and one more: the program's trial, or the copy of the archive that is read."""
        there = sum(os.path.getsize(path) for path in (self.archive, self.archive + "-wal") if os.path.exists(path))
        wanted, free = 2 * self.source.size() + there, shutil.disk_usage(self.folder).free
        if free < wanted:
            raise Refused(f"{self.folder} has room for {free:,} bytes, but a restore needs {wanted:,}")

    def look_again(self) -> bool:
        """Checks the rows that came while the service still ran: merges a log that grew again, or decides again about
        what would be lost."""
        room = os.path.dirname(self.new)
        if self.words.with_log:
            if self.log == begin_of(self.archive + "-wal"):
                return False
            remove_files(self.new)
            self.with_log(room)
            sync(self.new)
            return True
        if self.findings.there.has_changed():
            self.findings.there = CurrentArchive(self.archive, room)
            decide(self.found, self.findings, self.words)
        return False

    def exchange(self, room: str) -> None:
        words = shlex.join([RESTORE, self.words.copy])
        self.aside = exchange.new_aside("restore", [self.folder, self.copies])
        self.plan = plan = exchange.Plan(
            words,
            self.archive,
            self.copies,
            os.path.basename(room),
            self.aside,
            copies_with_more(self.found, self.findings),
        )
        steps = exchange.Exchange(plan, self.helper)
        steps.run(self.signals, self.look_again)
        try:
            steps.finish()
            self.verify()
        except (OSError, Refused) as fault:
            raise Refused(
                f"{self.words.copy} was put back, but {line_of(fault)}: see systemctl status {UNIT}"
            ) from fault
        finally:
            self.report()
            steps.tidy()

    def verify(self) -> None:
        route, wanted = self.found.newest()
        if answered(int(self.settings["LIFE_PORT"]), route) != (200, wanted):
            raise Refused(f"{UNIT} runs, but its answer to {route} differs from the copy")
        say(f"{UNIT} runs with {self.archive}, and its answer to {route} matches the copy")

    def report(self) -> None:
        """Says where everything is, and the command that goes back."""
        there, aside = self.findings.there, os.path.join(self.folder, self.aside)
        if os.path.isdir(aside):
            say(f"the files of {self.archive} are in {aside}: {there.words}")
        if there.contents and differences(self.found, there.contents):
            say(f"it is a different archive from {self.archive} now: the same numbers name other deposits")
        elif there.contents and (gone := lost_numbers(self.found, there.contents)):
            say(f"{gone} from it are not in the archive now: these numbers will be given again")
        if os.path.exists(os.path.join(aside, os.path.basename(self.archive))):
            say(f"to go back: {shlex.join([RESTORE, os.path.join(aside, os.path.basename(self.archive))])}")
        if self.plan.newer:
            say(
                f"copies with more than the archive has now are in {os.path.join(self.copies, self.aside)}: "
                f"{', '.join(self.plan.newer)}"
            )


def main() -> None:
    parser = argparse.ArgumentParser(
        prog=RESTORE, description=__doc__, formatter_class=argparse.RawDescriptionHelpFormatter
    )
    parser.add_argument("--settings", default=USUAL, metavar="FILE")
    which = parser.add_mutually_exclusive_group()
    which.add_argument("--older", action="store_true")
    which.add_argument("--other", action="store_true")
    parser.add_argument("--with-log", action="store_true")
    parser.add_argument("--unsound", action="store_true")
    parser.add_argument("copy", nargs="?", metavar="COPY")
    words = parser.parse_args()
    if words.copy is None and (words.older or words.other or words.with_log or words.unsound):
        parser.error("a copy is missing")
    words.copy = words.copy and os.path.abspath(words.copy)
    commands.run(
        RESTORE,
        words.settings,
        [words.copy, f"{words.copy}-wal"] if words.copy else [],
        lambda settings, helper, signals: Restore(words, settings, helper, signals).run(),
    )
