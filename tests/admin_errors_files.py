"""Mistakes with files: the disk of an archive, its file, the copies that are put back. Each is a function for the table
of tests/admin_errors.py.
"""
import os
import re

from debian import ARCHIVE, COPIES, NEWEST, Debian, Done
from debian import (
    alarms,
    copies,
    curl,
    deposited,
    main_process,
    pattern,
    state,
    status_of,
    until,
)
from clients import check, same
from ledger import beginning, rows_of

# A copy of the first deposits alone.
OLDER_COPY = f"{COPIES}/club-2020-01-01T0000.db"
# Puts the archive aside, and a copy whose pages are empty but for the first in its place.
DAMAGES = (
    f"life-copy {ARCHIVE} /srv/damaged.db; size=$(stat -c %s /srv/damaged.db); "
    "truncate -s 4096 /srv/damaged.db; truncate -s $size /srv/damaged.db; "
    f"mkdir -p /srv/aside; mv {ARCHIVE}* /srv/aside; install -o life -g life -m 600 /srv/damaged.db {ARCHIVE}"
)
# What a monitor asks for, as docs/OPERATING.md has it.
HEALTH = "/deposits/after/999999999"
AGAIN = "systemctl reset-failed life.service; systemctl start life.service"
COPY = "systemctl reset-failed life-backup.service; systemctl start life-backup.service"
# A small disk of the archive's user over a folder.
DISK = "mount -t tmpfs -o size={size},mode=700,uid=$(id -u life),gid=$(id -g life) disk {folder}"


# ---- disks


def puts_the_archive_on_a_disk(debian: Debian) -> None:
    """The archive is on a disk of its own by /etc/fstab, and an older one is below its folder. The disk is a folder of
    the machine here."""
    debian.shell(
        f"{COPY}; systemctl stop life.service; mkdir /srv/media; "
        "install -d -o life -m 700 /srv/media/disk; mv /var/lib/life/* /srv/media/disk; "
        f"install -o life -g life -m 600 {OLDER_COPY} {ARCHIVE}; "
        "echo '/srv/media/disk /var/lib/life none bind,nofail 0 0' >> /etc/fstab; "
        "systemctl daemon-reload; mount /var/lib/life; systemctl start life.service"
    )


TAKES_OFF_THE_DISK = (
    "systemctl stop life.service; sed -i '/srv.media/d' /etc/fstab; systemctl daemon-reload; "
    "umount -q /var/lib/life || true; rm -r /var/lib/life/*; mv /srv/media/disk/* /var/lib/life; "
    f"rm -r /srv/media; {AGAIN}"
)


def boots_without_its_disk(debian: Debian) -> None:
    """The disk is in /etc/fstab, with nofail, and is away: all else starts, and an older archive below the mount point
    is not served. Once the disk is back a start is enough."""
    puts_the_archive_on_a_disk(debian)
    told = alarms(debian, "life.service")
    check("switched off", debian.switch_off())
    os.rename(debian.path("/srv/media"), debian.path("/srv/away"))
    # systemd would make a folder that is missing.
    with open(debian.path("/srv/media"), "w", encoding="ascii"):
        pass
    debian.boot()
    check(
        "all else runs",
        until(lambda: state(debian, "nginx.service") == "active" == state(debian, "life-gateway.service")),
    )
    check(
        "no older archive is served",
        state(debian) != "active"
        and curl(debian, "/deposits/1?away")[0] == "503"
        and "Dependency failed for life.service" in debian.journal("-b"),
    )
    check("it is an alarm", until(lambda: alarms(debian, "life.service") > told))
    debian.shell("rm /srv/media; mv /srv/away /srv/media; systemctl start life.service")
    check("after a start all is served", debian.has_all())
    debian.shell(TAKES_OFF_THE_DISK)


def fills_the_disk(debian: Debian) -> None:
    """Deposits are refused, reads are answered, it is an alarm; a restart and a restore do no harm."""
    debian.shell(
        "systemctl stop life-age.timer life.service; mkdir /srv/kept; cp -p /var/lib/life/club.db* /srv/kept; "
        + DISK.format(size="1m", folder="/var/lib/life")
        + "; cp -p /srv/kept/club.db* /var/lib/life; systemctl start life.service; "
        "dd if=/dev/zero of=/var/lib/life/filler bs=4k 2> /dev/null || true"
    )
    answer = deposited(debian, len(debian.ledger) + 1)
    same(f"a deposit on a full disk: {answer}", answer, ("503", '{"error":"unavailable","refusal":11}'))
    check("reads are answered", debian.has_all(tokens=False))
    check("no room is a failure", debian.run("systemctl", "start", "life-age.service").returncode != 0)
    check(
        "a restart on a full disk",
        debian.run("systemctl", "restart", "life.service").returncode == 0 and debian.has_all(tokens=False),
    )
    before = main_process(debian)
    done = debian.run("bash", "-c", f"life-restore --older {OLDER_COPY}")
    check(
        f"no restore on a full disk: {done.stderr}",
        done.returncode == 1 and "has room for" in done.stderr and main_process(debian) == before,
    )
    debian.run("rm", "/var/lib/life/filler")
    check("the same deposit once there is room", until(debian.deposit) and debian.has_all())
    debian.shell(
        "systemctl stop life.service; cp -p /var/lib/life/club.db* /srv/kept; umount /var/lib/life; "
        "cp -p /srv/kept/club.db* /var/lib/life; rm -r /srv/kept; "
        "systemctl start life.service life-age.timer; systemctl reset-failed"
    )


# ---- the archive's file


def exchanges_the_file(debian: Debian, harm: str) -> None:
    """Harms the file while it is served, deposits on, and does what is said: the newest copy with the log that is there
    has all."""
    debian.shell(COPY)
    check("a deposit after the copy", debian.deposit())
    debian.shell(harm)
    for _ in range(3):
        # What is answered is kept, whatever the file is.
        debian.deposit()
    debian.run("systemctl", "start", "life-age.service")
    debian.run("systemctl", "restart", "life.service")
    until(lambda: state(debian) in ("active", "failed"))
    if state(debian) == "active" and debian.has_all():
        return
    said = debian.run("bash", "-c", f"life-restore {NEWEST}")
    check(
        f"the restore names the log: {said.stdout}{said.stderr}", said.returncode == 1 and "--with-log" in said.stderr
    )
    debian.shell(f"life-restore --with-log {NEWEST}")
    debian.run("systemctl", "reset-failed", "life-age.service")
    same("nothing more is said", debian.run("systemctl", "start", "life-age.service").returncode, 0)


def removes_the_file(debian: Debian) -> None:
    exchanges_the_file(debian, f"rm {ARCHIVE}")


def gives_the_file_away(debian: Debian) -> None:
    """The archive belongs to a number without a name, which the service, in a namespace of users, sees as nobody."""
    debian.run("bash", "-c", f"systemctl stop life.service; chown 1234 {ARCHIVE}; systemctl start life.service")
    check("the unit fails", until(lambda: state(debian) == "failed"))
    debian.shell(f"chown life {ARCHIVE}; {AGAIN}")


def breaks_the_file(debian: Debian) -> None:
    """Another owner, damage, a file that is missing: `systemctl status` says what is wrong, an alarm is sent, and
    nothing is made again. Meanwhile a monitor sees that the gateway is there, and the archive is not."""
    told = alarms(debian, "life.service")
    check("a monitor sees an archive that is served", until(lambda: curl(debian, HEALTH) == ("200", '{"deposits":[]}')))
    for name, breaks, mends, said in (
        (
            "a wrong owner",
            f"chown root: {ARCHIVE}",
            f"chown life: {ARCHIVE}",
            f"reason: life: {ARCHIVE} can't be used by life: it is a regular file of root",
        ),
        (
            "a damaged archive",
            DAMAGES,
            f"rm -f {ARCHIVE}*; mv /srv/aside/* /var/lib/life",
            f"reason: {ARCHIVE}: damaged, cut short, or changed by another program",
        ),
        (
            "a missing archive",
            f"mv {ARCHIVE} /srv/club.db",
            f"mv /srv/club.db {ARCHIVE}",
            f"reason: life: {ARCHIVE} is not there",
        ),
    ):
        debian.run("sh", "-c", f"systemctl stop life.service; {breaks}; systemctl start life.service")
        check(f"{name}: the unit fails", until(lambda: state(debian) == "failed"))
        told += 1
        check(f"{name}: an alarm is sent", until(lambda: alarms(debian, "life.service") == told))
        check(
            f"{name}: its status ends with the reason",
            until(lambda: said in (status_of(debian).strip().splitlines() or [""])[-1]),
        )
        check(f"{name}: nothing is made", name != "a missing archive" or not os.path.exists(debian.path(ARCHIVE)))
        if name == "a missing archive":
            check(
                "a monitor sees that nothing is served",
                curl(debian, HEALTH) == ("503", '{"error":"no-reply"}') and curl(debian, "/")[0] == "200",
            )
            done = debian.run("life-new-archive")
            check(
                f"no new archive beside copies: {done.stderr}",
                done.returncode == 1 and not os.path.exists(debian.path(ARCHIVE)),
            )
        debian.run("sh", "-c", f"{mends}; {AGAIN}")
        check(f"{name}: mended", state(debian) == "active" and debian.has_all())


# ---- restores


def way_back(done: Done) -> str:
    """The archive that a restore has moved away, as it names it."""
    found = re.search(r"to go back: life-restore (\S+)", done.stdout)
    assert found is not None, done.stdout
    return found[1]


def restores_an_older_copy(debian: Debian) -> None:
    """An older copy is put back on purpose, while the archive has more, and a cached page of what is gone: it has to be
    asked for. Numbers continue from the copy, copies are made, and what was there is kept."""
    # A copy of the next minute has a name of its own.
    older, aside = OLDER_COPY, "/srv/before.db"
    os.rename(debian.path(f"{COPIES}/{copies(debian)[-1]}"), debian.path(older))
    had, count = rows_of(debian.path(older)), len(debian.ledger)
    gone = count + 1
    check("one more deposit", debian.deposit() and curl(debian, f"/deposits/{gone}") == ("200", pattern(gone)))
    check(
        "it is in the cache",
        "HIT" in debian.run("curl", "-s", "-D", "-", "-o", "/dev/null", f"http://localhost/deposits/{gone}").stdout,
    )
    same("a copy of it", debian.run("systemctl", "start", "life-backup.service").returncode, 0)
    newest, before, told = copies(debian)[-1], main_process(debian), alarms(debian, "life-backup.service")
    done = debian.run("life-restore", older)
    check(
        f"an older copy is refused: {done.stderr}",
        done.returncode == 1
        and f"lacks deposit {gone} of" in done.stderr
        and "--older" in done.stderr
        and main_process(debian) == before,
    )
    done = debian.run("life-restore", "--older", older)
    check(
        f"an older copy, asked for: {done.stdout}{done.stderr}",
        done.returncode == 0 and f"{count} deposits" in done.stdout,
    )
    whole, debian.ledger = debian.ledger, beginning(debian.ledger, count)
    check("the archive is the copy's", had == debian.ledger and state(debian) == "active" and debian.has_all())
    same("nothing old is shown", curl(debian, f"/deposits/{gone}")[0], "404")
    check("the copy that knows more is said and kept apart", newest in done.stdout and newest not in copies(debian))
    back = way_back(done)
    check(
        "what was there is whole",
        rows_of(debian.path(back)) == whole
        and debian.run("life-copy", back, aside).returncode == 0
        and rows_of(debian.path(aside)) == whole,
    )
    check("numbers continue", debian.deposit("again") and debian.has_all())
    check(
        f"copies are made: {status_of(debian, 'life-backup.service')}",
        debian.run("systemctl", "start", "life-backup.service").returncode == 0
        and alarms(debian, "life-backup.service") == told,
    )
    owners = debian.run("stat", "-c", "%U %a", ARCHIVE, f"{COPIES}/{copies(debian)[-1]}").stdout
    same(f"all is its user's alone: {owners}", owners, "life 600\nlife 600\n")
