"""Creates a club's archive, once. Run it as root or as the user of the archive; everything with files is done as that
user.

    life-new-archive [--settings FILE] [--although-there-are-copies] [--if-missing]

If the file exists, it stays, and the command refuses; with --if-missing it stays silent. The service itself never
creates an archive: if the file is missing, a disk is not mounted or a path is wrong. If there are copies, or something
that a restore moved away, there was an archive before, and its numbers would be given again. That needs
--although-there-are-copies, which moves the copies away into a folder before-new-archive-.. next to them.
"""
import argparse
import os

from life_operate import commands, exchange
from life_operate.archive import Copies, Refused, made_by_program, sync
from life_operate.exchange import say
from life_operate.privileges import Helper
from life_operate.settings import USUAL
from life_operate.signals import Signals

NAME = "life-new-archive"


def copies_in(archive: str, folder: str) -> list[str]:
    """The copies of a club, if it has a folder for them."""
    found = Copies(archive, folder) if os.path.isdir(folder) else None
    return [found.path(stamp) for stamp in found.stamps] if found else []


def traces(archive: str, copies: str) -> list[str]:
    """The evidence that there was an archive: copies of it, and files that other commands have moved away or copied
    before a change."""
    folders = [folder for folder in sorted({os.path.dirname(archive), copies}) if os.path.isdir(folder)]
    kept = [
        os.path.join(folder, name)
        for folder in folders
        for name in sorted(os.listdir(folder))
        if name.startswith("before-")
    ]
    return copies_in(archive, copies) + kept


def look(archive: str, copies: str, words: argparse.Namespace) -> None:
    """Refuses a name that is taken, and a new archive next to the remains of another one."""
    for path in (archive, archive + "-wal"):
        if os.path.lexists(path):
            raise Refused(f"{path} exists and was not changed")
    there = traces(archive, copies)
    if there and not words.although_there_are_copies:
        more = f" and {len(there) - 1} more" if len(there) > 1 else ""
        raise Refused(
            f"{there[0]}{more}: there was an archive, and a new one would give its numbers again; "
            "life-restore puts a copy back; "
            f"to create a new archive anyway: {NAME} --although-there-are-copies"
        )


def make_archive(words: argparse.Namespace, settings: dict[str, str], helper: Helper, signals: Signals) -> None:
    archive, copies = os.path.realpath(settings["ARCHIVE"]), os.path.realpath(settings["BACKUP_FOLDER"])
    folder = os.path.dirname(archive)
    if words.if_missing and any(os.path.lexists(path) for path in (archive, archive + "-wal")):
        return
    with exchange.alone(archive, copies):
        exchange.end_interrupted(archive, helper, signals)
        exchange.remove_old_rooms(folder)
        look(archive, copies, words)
        helper.ask("look-cache")
        with exchange.new_room(folder, exchange.ROOM, signals) as room:
            made_by_program(settings["PROGRAM"], os.path.join(room, "new.db"))
            sync(os.path.join(room, "new.db"))
            sync(room)
            aside = exchange.new_aside("new-archive", [folder, copies])
            newer = [os.path.basename(path) for path in copies_in(archive, copies)]
            plan = exchange.Plan(NAME, archive, copies, os.path.basename(room), aside, newer, serves=False)
            with signals.held_back():
                steps = exchange.Exchange(plan, helper)
                steps.run(signals, lambda: False)
                steps.finish()
                steps.tidy()
    say(f"{archive} is a new archive, owned by {settings['LIFE_USER']}; its first deposit will be number 1")
    if plan.newer:
        say(f"copies of another archive are in {os.path.join(copies, plan.aside)}: {', '.join(plan.newer)}")


def main() -> None:
    parser = argparse.ArgumentParser(
        prog=NAME, description=__doc__, formatter_class=argparse.RawDescriptionHelpFormatter
    )
    parser.add_argument("--settings", default=USUAL, metavar="FILE")
    parser.add_argument("--although-there-are-copies", action="store_true")
    parser.add_argument("--if-missing", action="store_true")
    words = parser.parse_args()
    commands.run(
        NAME, words.settings, [], lambda settings, helper, signals: make_archive(words, settings, helper, signals)
    )
