"""Withdraws a deposit from the gateway and the search index. The archive keeps it. Run it as root.

    life-withdraw [--settings FILE] NUMBER [REASON ..]
    life-withdraw [--settings FILE] --undo NUMBER
    life-withdraw [--settings FILE]

The number goes into the list /etc/life/withdrawn, with the reason, which only administrators can read; --undo takes it
out. Then life-configure has nginx load the list, so that the gateway answers 410 for the deposit. nginx's cache is
emptied, and the search index made again. A line names the result of each step, and the last line names the places that
no step can reach. Without a number it prints the list.

If a step fails, the others are done all the same, and the status is 1. After that, and after a signal, the same command
does the rest.
"""
import argparse
import os
import subprocess
import sys
import time
from collections.abc import Callable

from life_operate import cache
from life_operate.archive import NoAnswer, Refused, answered, line_of
from life_operate.exchange import own_lock, say
from life_operate.loading import answer_of_nginx, shown
from life_operate.privileges import user_of
from life_operate.settings import USUAL, BadSetting, end_if_unusable
from life_operate.signals import Interrupted, Signals, end_by
from life_operate.withdrawals import change, reasons_in

NAME = "life-withdraw"
# The settings that it reads: it works even if others are invalid.
NEEDED = (
    *("ARCHIVE", "BACKUP_FOLDER", "HOST", "INDEX_FOLDER", "LIFE_PORT", "LIFE_USER", "LISTEN", "SCRIPTS", "TLS"),
    *("WEB_FOLDER", "WITHDRAWN"),
)
INDEX = "life-index.service"
# How many seconds to wait for another life-withdraw; and for the program, which may be at a long request, or for nginx.
WITHIN, ANSWERS_WITHIN = 600, 5


def run(*words: str) -> bool:
    """Whether a command succeeds. A separate session keeps a Ctrl-C away, so the command ends by itself."""
    done = subprocess.run(
        words, stdin=subprocess.DEVNULL, stdout=subprocess.DEVNULL, start_new_session=True, check=False
    )
    return done.returncode == 0


def look_for(number: int, port: int) -> None:
    """Refuses a number that has no deposit, since it may have one later. If the program doesn't answer, any will do."""
    try:
        status, _ = answered(port, f"/deposits/{number}", ANSWERS_WITHIN)
    except NoAnswer:
        return
    if status == 404:
        raise Refused(f"there is no deposit {number}")


# ---- the steps


def gateway(settings: dict[str, str], number: int, is_withdrawn: bool) -> str:
    """Has nginx load the list."""
    loaded = run(os.path.join(settings["SCRIPTS"], "life-configure"))
    # For a moment after a reload nginx's old processes may still answer.
    end = time.monotonic() + (ANSWERS_WITHIN if loaded else 0)
    while (status := answer_of_nginx(settings, f"/deposits/{number}")[0]) != 0 and (status == 410) != is_withdrawn:
        if time.monotonic() > end:
            break
        time.sleep(0.1)
    if (status == 410) != is_withdrawn and status != 0:
        raise Refused(f"it still answers {status} at /deposits/{number}: run life-configure, which says why")
    if not loaded:
        raise Refused("run life-configure, which names the fault")
    if status == 0:
        return "nginx does not answer here; once it does, it reads the list"
    return f"answers {status} at /deposits/{number}" + (f", at /d/{number} and below both" * is_withdrawn)


def empty_cache(settings: dict[str, str], _number: int, _is_withdrawn: bool) -> str:
    """Empties the cache, since any spelling of a path may be in it."""
    for function in (cache.move_away, cache.remove_old):
        cache.as_owner(function, settings["WEB_FOLDER"])
    return "emptied"


def index(settings: dict[str, str], number: int, is_withdrawn: bool) -> str:
    """Makes the index again. A run that has begun may have read the earlier list, so then there are two."""
    if not settings["INDEX_FOLDER"]:
        return "there is none"
    for _ in range(2 if shown(INDEX, "ActiveState") == "activating" else 1):
        if not run("systemctl", "start", INDEX):
            raise Refused(f"{INDEX} failed: journalctl -u {INDEX}")
    return f"made {'without' if is_withdrawn else 'with'} deposit {number}, and so are titles and the feed"


STEPS: dict[str, Callable[[dict[str, str], int, bool], str]] = {
    "gateway": gateway,
    "nginx's cache": empty_cache,
    "search index": index,
}


def not_reached(settings: dict[str, str], number: int) -> str:
    return "; ".join(
        [
            f"not reached: {settings['ARCHIVE']} and its copies, in {settings['BACKUP_FOLDER']} and elsewhere",
            f"port {settings['LIFE_PORT']} of this machine",
            "who has read it, and caches in front of nginx",
            f"its number, member and rule in /deposits/after/{number - 1}",
            "its censuses",
        ]
    )


def steps(settings: dict[str, str], number: int, is_withdrawn: bool, signals: Signals) -> bool:
    """Does all steps, each with a line; returns whether all succeeded."""
    good = True
    for name, step in STEPS.items():
        with signals.held_back():
            try:
                say(f"{name}: {step(settings, number, is_withdrawn)}")
            except (OSError, Refused) as fault:
                print(f"{NAME}: {name}: {line_of(fault)}", file=sys.stderr, flush=True)
                good = False
        signals.check()
    return good


def withdraw(settings: dict[str, str], words: argparse.Namespace, signals: Signals) -> bool:
    path, known = settings["WITHDRAWN"], reasons_in(settings["WITHDRAWN"])
    reason = " ".join(" ".join(words.reason).split())
    if words.undo:
        change(path, words.number, None, user_of(settings["LIFE_USER"]).pw_gid)
    elif words.number not in known or reason:
        look_for(words.number, int(settings["LIFE_PORT"]))
        change(path, words.number, reason, user_of(settings["LIFE_USER"]).pw_gid)
    say(f"{path}: deposit {words.number} is {'no longer' * words.undo or 'now'} in it")
    good = steps(settings, words.number, not words.undo, signals)
    if not words.undo:
        say(not_reached(settings, words.number))
    return good


def numbered(text: str) -> int:
    number = int(text) if text.isascii() and text.isdigit() and len(text) <= 15 else 0
    if number == 0:
        raise argparse.ArgumentTypeError(f"{text} is not the number of a deposit")
    return number


def main() -> None:
    parser = argparse.ArgumentParser(
        prog=NAME, description=__doc__, formatter_class=argparse.RawDescriptionHelpFormatter
    )
    parser.add_argument("--settings", default=USUAL, metavar="FILE")
    parser.add_argument("--undo", action="store_true")
    parser.add_argument("number", metavar="NUMBER", nargs="?", type=numbered)
    parser.add_argument("reason", metavar="REASON", nargs="*")
    words = parser.parse_args()
    if words.undo and (words.number is None or words.reason):
        parser.error("--undo needs a number, and no reason")
    settings = end_if_unusable(NAME, words.settings, NEEDED)
    try:
        if words.number is None:
            for number, reason in sorted(reasons_in(settings["WITHDRAWN"]).items()):
                say(f"{number} {reason}".rstrip())
            return
        signals = Signals()
        with own_lock(settings["WITHDRAWN"] + ".lock", WITHIN, f"another {NAME} is at work"):
            sys.exit(0 if withdraw(settings, words, signals) else 1)
    except (OSError, Refused, BadSetting) as fault:
        sys.exit(f"{NAME}: {line_of(fault)}")
    except Interrupted as end:
        print(f"{NAME}: {end}; the same command does the rest", file=sys.stderr, flush=True)
        end_by(end.number)
