"""The mistakes of an administrator that need a real machine, and what must hold after each: nothing that was
acknowledged is lost, it is said what is wrong, and the archive is served again once that was done which the documents
say. tests/test_boot.py makes them. tests/test_exchanges.py, test_kills.py and test_restores.py have the cases that need
none.
"""
import re
from collections.abc import Callable
from typing import NamedTuple

import ledger
from debian import Debian, state, until
from clients import check
from admin_errors_files import (
    boots_without_its_disk,
    breaks_the_file,
    fills_the_disk,
    gives_the_file_away,
    removes_the_file,
    restores_an_older_copy,
)
from admin_errors_packages import (
    downgrades,
    purges_the_packages,
    removes_the_packages,
    upgrades,
    upgrades_an_old_archive,
    upgrades_without_a_copy,
)
from admin_errors_signals import (
    cuts_the_power,
    interrupts_a_configuration,
    interrupts_an_upgrade,
    kills_an_upgrade,
    kills_everything,
    kills_the_program,
    kills_under_deposits,
)


class Mistake(NamedTuple):
    """What is done and mended, and what is said then, as a regular expression."""

    name: str
    done: Callable[[Debian], None]
    said: str


# ---- the table

MISTAKES = (
    Mistake("the program is killed, or answers nothing", kills_the_program, "life-watch.service failed"),
    Mistake("an older copy is put back", restores_an_older_copy, "--older"),
    Mistake("the disk of the archive is full", fills_the_disk, "life-age: .*has only 0 MiB left"),
    Mistake("an archive of another user, a damaged one, none", breaks_the_file, "life.service failed"),
    Mistake("an archive of a number without a name", gives_the_file_away, "it is a regular file of another user"),
    Mistake("the archive's disk is away at boot", boots_without_its_disk, "life.service failed"),
    Mistake("the file is removed while it is served", removes_the_file, "Don't stop the service"),
    Mistake("HAProxy, nginx or everything is killed", kills_everything, "nginx.service failed\n"),
    Mistake("the program is killed under deposits", kills_under_deposits, ""),
    Mistake("the power is cut", cuts_the_power, ""),
    Mistake("a configuration is interrupted", interrupts_a_configuration, "the next life-configure does the rest"),
    Mistake("the packages are removed and installed again", removes_the_packages, "life-restore|Removing life"),
    Mistake("an upgrade can make no copy", upgrades_without_a_copy, "the upgrade stops"),
    Mistake("an upgrade is interrupted", interrupts_an_upgrade, ""),
    Mistake("an upgrade is killed while it makes the copy", kills_an_upgrade, ""),
    Mistake("an upgrade over what was changed by hand", upgrades, "was changed by hand and stays"),
    Mistake("an upgrade over an archive of an older layout", upgrades_an_old_archive, ""),
    Mistake("the older version is installed again", downgrades, "these numbers will be given again"),
    Mistake("the packages are purged and installed again", purges_the_packages, "these archives and copies were kept"),
)


# These need the copy that `restores_an_older_copy` leaves.
AFTER_AN_OLDER_COPY = (fills_the_disk, boots_without_its_disk, upgrades_without_a_copy)


def try_mistake(debian: Debian, mistake: Mistake) -> None:
    """One mistake on the machine: what has to be said, and whether all is there and served afterwards."""
    debian.begin_to_listen()
    mistake.done(debian)
    said = until(lambda: re.search(mistake.said, debian.heard()) is not None, 30)
    check(f"{mistake.name}: it is said: {mistake.said}", said)
    if not said:
        print(f"{mistake.name}: heard:\n{debian.heard()[-4000:]}")
    check(
        f"{mistake.name}: it is served again, and watched",
        until(lambda: debian.is_served() and state(debian, "life-watch.timer") == "active"),
    )
    check(
        f"{mistake.name}: nothing is lost",
        until(lambda: not ledger.faults(debian.ledger, debian.ask), 20) or debian.has_all(),
    )
