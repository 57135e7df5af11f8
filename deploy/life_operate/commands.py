"""The common part of the commands that replace an archive: their worker, and the helper's actions for it."""
import functools
import subprocess
import sys
from collections.abc import Callable

from life_operate import cache, privileges
from life_operate.archive import Refused, line_of
from life_operate.exchange import UNIT
from life_operate.privileges import Action, Helper
from life_operate.settings import end_if_unusable
from life_operate.signals import Interrupted, Signals

# The settings that these commands read: they work even if others are invalid.
NEEDED = ("PROGRAM", "ARCHIVE", "BACKUP_FOLDER", "LIFE_USER", "LIFE_PORT", "WEB_FOLDER")
# What a command does, as the user of the archive.
Worker = Callable[[dict[str, str], Helper, Signals], None]


def systemctl(word: str) -> tuple[str, None]:
    """Runs systemctl in its own session, so that Ctrl-C does not interrupt a stop that has begun."""
    if word not in ("is-active", "stop", "start", "reset-failed"):
        raise Refused(f"systemctl {word} is not allowed here")
    output = subprocess.PIPE if word in ("is-active", "reset-failed") else None
    done = subprocess.run(
        ["systemctl", word, UNIT],
        stdin=subprocess.DEVNULL,
        stdout=output,
        stderr=output,
        text=True,
        start_new_session=True,
        check=False,
    )
    if word == "is-active":
        return ("yes" if done.stdout.strip() in ("active", "activating", "reloading") else "no"), None
    if done.returncode and word != "reset-failed":
        raise Refused(f"systemctl {word} {UNIT} failed")
    return "", None


def actions(folder: str, paths: list[str]) -> dict[str, Action]:
    """The actions of a helper: systemctl, the cache below a folder, and opening files with these paths."""

    def of_cache(function: Callable[[str], object]) -> tuple[str, None]:
        return str(cache.as_owner(function, folder)), None

    def file(path: str) -> tuple[str, int | None]:
        if path not in paths:
            raise Refused(f"{path} was not named")
        return "", privileges.open_plain(path)

    functions = {"look-cache": cache.look, "empty-cache": cache.move_away, "remove-old-cache": cache.remove_old}
    return {"systemctl": systemctl, "open": file} | {
        name: functools.partial(of_cache, function) for name, function in functions.items()
    }


def run_worker(name: str, settings: dict[str, str], worker: Worker, helper: Helper) -> None:
    """Runs a worker, and reports how it ended."""
    signals = Signals()
    try:
        worker(settings, helper, signals)
    except (OSError, Refused) as fault:
        sys.exit(f"{name}: {line_of(fault)}")
    except Interrupted as end:
        try:
            print(f"{name}: {end}; all is as it was", file=sys.stderr, flush=True)
        except OSError:
            pass
        sys.exit(128 + end.number)


def run(name: str, path: str, paths: list[str], worker: Worker) -> None:
    """Runs a command with the settings of a file, as the user of the archive, and ends with its status."""
    settings = end_if_unusable(name, path, NEEDED)
    try:
        user = privileges.user_of(settings["LIFE_USER"])
        status = privileges.split(
            user, functools.partial(run_worker, name, settings, worker), actions(settings["WEB_FOLDER"], paths)
        )
    except Refused as fault:
        sys.exit(f"{name}: {fault}")
    if status < 0:
        sys.exit(f"{name}: killed by signal {-status}; life-restore without a copy finishes or undoes its work")
    sys.exit(status)
