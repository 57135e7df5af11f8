"""Before a copy takes the place of a club's archive: the rows of the archive, its log and its copies, and those that
would be lost."""
import argparse
import contextlib
import dataclasses
import os
import shlex
import shutil

from life_operate.archive import (
    TABLES,
    Contents,
    Copies,
    Refused,
    begin_of,
    copied_in_time,
    fold,
    has_commit,
    missing_rows,
    replacement_fault,
    state_of,
    try_by_program,
)
from life_operate.exchange import say

RESTORE = "life-restore"


# ---- the present files


class CurrentArchive:
    """The archive that the copy is to replace, as it was when it was read."""

    def __init__(self, archive: str, room: str) -> None:
        self.archive, self.state = archive, self.state_now(archive)
        self.contents, self.words = None, "only its log" if has_commit(archive) else "there was no archive"
        if os.path.exists(archive):
            try:
                self.contents = read_archive(archive, os.path.join(room, "there.db"), archive)
                self.words = self.contents.text()
            except PermissionError as fault:
                raise Refused(
                    f"{archive} can't be read by the user of the archive: change its owner, "
                    "or move it away together with its log"
                ) from fault
            except Refused as fault:
                self.words = f"it can't be read: {fault}"

    @staticmethod
    def state_now(archive: str) -> object:
        return state_of(archive) if os.path.exists(archive) else None, begin_of(archive + "-wal")

    def has_changed(self) -> bool:
        return self.state != self.state_now(self.archive)


def read_archive(archive: str, new: str, name: str) -> Contents:
    """Reads an archive with its log. The copy that this needs is removed at once; the open file lives on."""
    remove_files(new)
    try:
        copied_in_time(archive, new)
        fold(new, name)
        return Contents(new, name)
    finally:
        remove_files(new)


def remove_files(path: str) -> None:
    for ending in ("", "-wal", "-shm"):
        with contextlib.suppress(FileNotFoundError):
            os.remove(path + ending)


@dataclasses.dataclass
class Findings:
    """Everything that a new archive is compared with."""

    there: CurrentArchive
    # The newest copy merged with the archive's log, and the path of that copy.
    joined: Contents | None = None
    newest: str = ""
    copies: dict[str, Contents] = dataclasses.field(default_factory=dict)

    def all(self) -> list[Contents]:
        return [contents for contents in (self.there.contents, self.joined, *self.copies.values()) if contents]


def join(copy: str, archive: str, new: str, name: str) -> Contents:
    """Merges a copy with the log next to the archive's place. A log holds complete pages, so it fits every copy
    that was made after the log began. An older copy lacks pages; since an archive only grows, the check then finds gaps
    in it."""
    remove_files(new)
    shutil.copyfile(copy, new)
    shutil.copyfile(archive + "-wal", new + "-wal")
    fold(new, name)
    found = Contents(new, name)
    if why := replacement_fault(found, Contents(copy, copy)):
        raise Refused(why)
    return found


def known_copies(archive: str, folder: str, new: Contents) -> dict[str, Contents]:
    """The readable copies of a club, from the newest to the first that has no more than the new archive: older
    copies have even less. That rule fails for copies with a time in the future, so all of those are read."""
    found: dict[str, Contents] = {}
    if not os.path.isdir(folder):
        return found
    copies = Copies(archive, folder)
    for stamps, ends in ((copies.past(), True), (copies.future(), False)):
        for stamp in stamps:
            with contextlib.suppress(Refused):
                contents = Contents(copies.path(stamp), copies.path(stamp))
                found[os.path.basename(contents.name)] = contents
                if ends and not missing_rows(new, contents):
                    break
    return found


def gather(archive: str, folder: str, room: str, program: str, new: Contents) -> Findings:
    """Reads the archive and its copies. If the archive can't be read, the newest copy may still fit its log."""
    found = Findings(CurrentArchive(archive, room), copies=known_copies(archive, folder, new))
    if not found.there.contents and has_commit(archive) and found.copies:
        newest, joined = next(iter(found.copies.values())), os.path.join(room, "joined.db")
        try:
            found.joined, found.newest = (
                join(newest.name, archive, joined, f"{newest.name} with the existing log"),
                newest.name,
            )
            try_copy(program, joined, found.joined)
        except Refused:
            found.joined = None
        remove_files(joined)
    return found


def try_copy(program: str, path: str, found: Contents) -> str:
    """Has the program try a copy of a file, since it may write to the file; returns its line about the first
    wrong row, or ''."""
    trial = path + ".trial"
    try:
        shutil.copyfile(path, trial)
        return try_by_program(program, trial, found)
    finally:
        remove_files(trial)


# ---- what would be lost


def lost_numbers(new: Contents, there: Contents) -> str:
    """The numbers that the current archive has and a new one lacks, in words."""
    found = []
    for table, (one, _) in TABLES.items():
        first, last = new.counts[table] + 1, there.counts[table]
        if first <= last:
            found.append(f"{one} {last}" if first == last else f"{table} {first} to {last}")
    return " and ".join(found)


def differences(new: Contents, there: Contents) -> list[str]:
    """The evidence that these are two archives, not one archive at two times."""
    return [part for part in missing_rows(new, there) if part.startswith("another")]


def decide(new: Contents, found: Findings, words: argparse.Namespace) -> None:
    """Names the rows that would be lost, and refuses to lose them unless the command line asked for that."""
    faults = [there for there in found.all() if missing_rows(new, there)]
    if not faults:
        return
    others = [there for there in faults if differences(new, there)]
    again = shlex.join([RESTORE, "--other" if others else "--older", words.copy])
    there, count = (others or faults)[0], len(faults) - 1
    more = f" and of {count} {'copy' if count == 1 else 'copies'}" if count else ""
    if others:
        text = (
            f"{words.copy} with {new.text_with_first()} is a different archive from "
            f"{there.name} with {there.text_with_first()}: "
            f"{', '.join(differences(new, there))}"
        )
        advice = f"if it is the right one: {again}"
    elif found.joined and missing_rows(new, found.joined):
        text = f"{words.copy} lacks {lost_numbers(new, found.joined)}, which {found.joined.name} has"
        advice = (
            f"to have them: {shlex.join([RESTORE, '--with-log', found.newest])}; to give these numbers again: {again}"
        )
    else:
        text, advice = (
            f"{words.copy} lacks {lost_numbers(new, there)} of {there.name}{more}",
            f"to put it back, and give these numbers again: {again}",
        )
    if not (words.other or words.older and not others):
        raise Refused(f"{text}; {advice}")
    say(text)


def decide_on_row(wrong: str, words: argparse.Namespace) -> None:
    """Refuses a copy with a wrong row, unless the command line asked for that: the other rows may be all that is left
    of them."""
    if not wrong:
        return
    text = f"{words.copy} is not sound: {wrong}"
    if not words.unsound:
        advice = shlex.join([RESTORE, "--unsound", words.copy])
        raise Refused(f"{text}; an older copy may be sound; to put this one back as it is: {advice}")
    say(text)


def copies_with_more(new: Contents, found: Findings) -> list[str]:
    """The names of copies that have more than the new archive. life-copy would refuse to work next to them."""
    return [name for name, contents in found.copies.items() if missing_rows(new, contents)]
