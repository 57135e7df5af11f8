"""The one procedure that replaces a club's archive with another file.

The new file is checked and on the disk before anything stops. Then the steps are: stop the service, move the archive
and its log away, move away copies that have more, empty nginx's cache, rename the new file, start the service. The
rename decides. Before it, an error or a signal undoes every step; after it, the rest is done. So at every moment the
archive's name has the complete old file, the complete new one, or none, and without a file the service does not start.

A journal next to the archive describes the exchange from its first step to its last. After a kill or a power cut, the
next command compares it with the files that are there, and finishes or undoes the exchange.
"""
import contextlib
import dataclasses
import datetime
import fcntl
import json
import os
import shutil
import tempfile
import time
from collections.abc import Callable, Iterator

from life_operate.archive import Refused, line_of, locked, sync
from life_operate.privileges import Gone, Helper
from life_operate.signals import Signals

UNIT = "life.service"
JOURNAL = ".exchange"
ROOM = ".life-exchange-"
# The commands' private folders. One that a killed command left is removed when it is this old, in seconds.
ROOMS = (ROOM, ".life-copy-", ".life-new-")
OLD_ROOM = 86400
# How many seconds an exchange waits for a copy that is being made.
COPY_WITHIN = 600


def say(line: str) -> None:
    """Prints a line. A closed terminal must not stop the command halfway."""
    with contextlib.suppress(OSError):
        print(line, flush=True)


# ---- locks and rooms


def folder_lock(folder: str, kind: int, within: float, refusal: str) -> contextlib.AbstractContextManager[None]:
    """A lock on a folder itself: it leaves no file, and ends with the process. Whoever can open the folder can hold
    it."""
    return descriptor_lock(os.open(folder, os.O_RDONLY | os.O_DIRECTORY), kind, within, refusal)


def own_lock(path: str, within: float, refusal: str) -> contextlib.AbstractContextManager[None]:
    """A lock on a file that only root and the owner of its folder can open. The file stays."""
    folder = os.path.dirname(path)
    os.makedirs(folder, exist_ok=True)
    number = os.open(path, os.O_RDWR | os.O_CREAT | os.O_NOFOLLOW, 0o600)
    if os.geteuid() == 0 and os.fstat(number).st_nlink == 1:
        os.fchown(number, os.stat(folder).st_uid, os.stat(folder).st_gid)
    return descriptor_lock(number, fcntl.LOCK_EX, within, refusal)


@contextlib.contextmanager
def descriptor_lock(number: int, kind: int, within: float, refusal: str) -> Iterator[None]:
    """A lock on an open file or folder, which is closed at the end."""
    try:
        end, said = time.monotonic() + within, False
        while True:
            try:
                fcntl.flock(number, kind | fcntl.LOCK_NB)
                break
            except BlockingIOError as fault:
                if time.monotonic() >= end:
                    raise Refused(refusal) from fault
                if not said:
                    say(f"{refusal}: waiting until it is done")
                said = True
                time.sleep(0.1)
        yield
    finally:
        os.close(number)


def alone(archive: str, copies: str) -> contextlib.ExitStack:
    """Keeps other exchanges out, and waits for a copy that is being made."""
    stack = contextlib.ExitStack()
    folder = os.path.dirname(archive)
    stack.enter_context(folder_lock(folder, fcntl.LOCK_EX, 0, f"another command is exchanging the archive in {folder}"))
    if os.path.isdir(copies) and not os.path.samefile(folder, copies):
        stack.enter_context(folder_lock(copies, fcntl.LOCK_EX, COPY_WITHIN, f"a copy is being made in {copies}"))
    return stack


def remove_old_rooms(folder: str, prefix: str | tuple[str, ...] = ROOMS) -> None:
    """Removes the files that killed commands have left, once no command can still be using it."""
    for entry in os.scandir(folder):
        # Another command may remove one meanwhile.
        with contextlib.suppress(FileNotFoundError):
            if (
                entry.name.startswith(prefix)
                and entry.is_dir(follow_symlinks=False)
                and entry.stat(follow_symlinks=False).st_mtime < time.time() - OLD_ROOM
            ):
                shutil.rmtree(entry.path, ignore_errors=True)


@contextlib.contextmanager
def new_room(folder: str, prefix: str, signals: Signals) -> Iterator[str]:
    """A folder for a command's own files, removed at the end, whatever that end is."""
    room = ""
    try:
        with signals.held_back():
            room = tempfile.mkdtemp(prefix=prefix, dir=folder)
        signals.check()
        yield room
    finally:
        try:
            with signals.held_back():
                shutil.rmtree(room, ignore_errors=True)
        except BaseException:
            # A signal came just before it was held back. Later ones do nothing.
            shutil.rmtree(room, ignore_errors=True)
            raise


# ---- the steps to take


@dataclasses.dataclass
class Plan:
    """An exchange, as the journal has it. File names are relative to the archive's folder or to that of the copies."""

    command: str
    archive: str
    copies: str
    room: str
    aside: str
    # Copies that have more than the new file.
    newer: list[str]
    # Whether the service is stopped and restarted, and whether it ran before.
    serves: bool = True
    ran: bool = False
    # Identifies the new file, whatever its name is.
    inode: int = 0

    @property
    def folder(self) -> str:
        return os.path.dirname(self.archive)

    @property
    def new(self) -> str:
        return os.path.join(self.folder, self.room, "new.db")

    def moves(self) -> list[tuple[str, str]]:
        """The files that move away, and where to. The archive moves before its log, so that it is never in its place
        without its log."""
        away = [
            (path, os.path.join(self.folder, self.aside, os.path.basename(path)))
            for path in (self.archive, self.archive + "-wal")
        ]
        return away + [
            (os.path.join(self.copies, name), os.path.join(self.copies, self.aside, name)) for name in self.newer
        ]

    def is_named(self) -> bool:
        """Whether the new file has the archive's name."""
        return os.path.exists(self.archive) and os.stat(self.archive).st_ino == self.inode


def new_aside(word: str, folders: list[str]) -> str:
    """The name before-WORD-MOMENT, with a moment for which none of these folders has it yet."""
    while True:
        moment = datetime.datetime.now(datetime.timezone.utc).strftime("%Y-%m-%dT%H%M%S")
        name = f"before-{word}-{moment}"
        if not any(os.path.lexists(os.path.join(folder, name)) for folder in folders):
            return name
        time.sleep(0.2)


def write_journal(plan: Plan) -> None:
    path, plan.inode = plan.archive + JOURNAL, os.stat(plan.new).st_ino
    with contextlib.suppress(FileNotFoundError):
        os.remove(path + ".new")
    with open(path + ".new", "x", encoding="utf-8") as file:
        json.dump(dataclasses.asdict(plan), file)
    sync(path + ".new")
    os.replace(path + ".new", path)
    sync(plan.folder)


def read_journal(archive: str) -> Plan | None:
    path = archive + JOURNAL
    try:
        with open(path, encoding="utf-8") as file:
            return Plan(**json.load(file))
    except FileNotFoundError:
        return None
    except (ValueError, TypeError) as fault:
        raise Refused(f"{path} can't be read: put the files of before-restore-.. back, and remove {path}") from fault


# ---- the steps


class Exchange:
    """The steps of a plan, and how they are undone."""

    def __init__(self, plan: Plan, helper: Helper) -> None:
        self.plan, self.helper = plan, helper

    def stop(self) -> None:
        if self.plan.serves:
            self.helper.ask("systemctl", "stop")
            say(f"{UNIT} is stopped")

    def start(self) -> None:
        # After several failures systemd refuses every start until they are reset.
        self.helper.ask("systemctl", "reset-failed")
        self.helper.ask("systemctl", "start")

    def move_away(self) -> None:
        for there, away in self.plan.moves():
            if os.path.lexists(there):
                if not os.path.isdir(os.path.dirname(away)):
                    os.mkdir(os.path.dirname(away), 0o700)
                os.rename(there, away)
        self.sync(self.plan.folder)

    def sync(self, *places: str) -> None:
        """Waits until the names in these folders, and the files that moved away from them, are on the disk."""
        for folder in [folder for place in places for folder in (place, os.path.join(place, self.plan.aside))]:
            if os.path.isdir(folder):
                sync(folder)

    def give_name(self) -> None:
        """Gives the new file the archive's name, which must be free, like that of its log."""
        for path in (self.plan.archive, self.plan.archive + "-wal"):
            if os.path.lexists(path):
                raise Refused(f"{path} exists again")
        os.rename(self.plan.new, self.plan.archive)

    def undo(self) -> None:
        """Brings everything back, the log before its file. A file that somebody else has put there meanwhile stays."""
        for there, away in reversed(self.plan.moves()):
            if os.path.lexists(away) and os.path.lexists(there):
                say(f"{away} was left where it is: {there} is another file now")
            elif os.path.lexists(away):
                os.rename(away, there)
        for aside in {os.path.dirname(away) for _, away in self.plan.moves()}:
            with contextlib.suppress(OSError):
                os.rmdir(aside)
        self.sync(self.plan.folder, self.plan.copies)
        self.start_and_forget(self.plan.serves and self.plan.ran)

    def finish(self) -> None:
        """The steps that remain once the new file has its name."""
        sync(self.plan.folder)
        self.start_and_forget(self.plan.serves)
        # A disk may be slow, so what does not concern the service comes after its start.
        self.sync(self.plan.copies)

    def start_and_forget(self, starts: bool) -> None:
        """The last step. If the service itself fails, its unit reports that. If the helper is gone, nothing was
        started, and the journal stays so that the next command starts it."""
        try:
            if starts:
                self.start()
        except Gone:
            raise
        except Refused:
            self.forget()
            raise
        self.forget()

    def forget(self) -> None:
        os.remove(self.plan.archive + JOURNAL)
        sync(self.plan.folder)

    def run(self, signals: Signals, look_again: Callable[[], bool]) -> None:
        """Does all steps up to the rename, or none; `finish` does the rest. The caller holds signals back: one that
        came before the rename undoes everything, a later one has no effect. Once the service is stopped, `look_again`
        may refuse; it returns whether it made the new file again.
        """
        signals.check()
        self.plan.ran = self.plan.serves and self.helper.ask("systemctl", "is-active") == "yes"
        write_journal(self.plan)
        try:
            self.until_named(signals, look_again)
        except BaseException as fault:
            self.undo_and_report(fault)
            raise

    def until_named(self, signals: Signals, look_again: Callable[[], bool]) -> None:
        self.stop()
        signals.check()
        if look_again():
            write_journal(self.plan)
        signals.check()
        # Closing the file anywhere in this process would end the lock, so from here on nothing else opens it.
        held = locked(self.plan.archive) if os.path.exists(self.plan.archive) else None
        if os.path.exists(self.plan.archive) and not held:
            raise Refused(f"{self.plan.archive} was not replaced: a program other than {UNIT} has it open")
        try:
            self.move_away()
            signals.check()
            say(f"nginx's cache was emptied: {self.helper.ask('empty-cache')} folders")
            signals.check()
            self.give_name()
        finally:
            if held:
                held.close()

    def undo_and_report(self, fault: BaseException) -> None:
        """Undoes the steps so far, and says so."""
        try:
            self.undo()
        except (OSError, Refused) as second:
            raise Refused(
                f"{line_of(fault)}; then undoing it failed: {line_of(second)}; life-restore without a copy tries again"
            ) from fault
        ran = f"; {UNIT} runs again" if self.plan.serves and self.plan.ran else ""
        say(f"{self.plan.archive} is as it was{ran}")
        self.tidy()

    def tidy(self) -> None:
        """Removes the old content of the cache. That can take long; the next command removes the rest."""
        with contextlib.suppress(OSError, Refused):
            self.helper.ask("remove-old-cache")


def end_interrupted(archive: str, helper: Helper, signals: Signals) -> bool:
    """Finishes or undoes the exchange of a killed command, and returns whether there was anything. A signal waits until
    that is done."""
    plan = read_journal(archive)
    if plan:
        with signals.held_back():
            end_plan(plan, helper)
        signals.check()
    return plan is not None


def end_plan(plan: Plan, helper: Helper) -> None:
    exchange, is_named = Exchange(plan, helper), plan.is_named()
    say(f"'{plan.command}' was interrupted, and is {'finished' if is_named else 'undone'}")
    try:
        exchange.finish() if is_named else exchange.undo()
    except Gone:
        raise
    except Refused as fault:
        say(line_of(fault))
    exchange.tidy()
    shutil.rmtree(os.path.join(plan.folder, plan.room), ignore_errors=True)
