"""Mistakes with settings and packages: upgrades, older versions, packages that are removed or purged. Each is a
function for the table of tests/admin_errors.py.
"""
import json
import os
import sqlite3

import archives
import ledger
import old_archives
from debian import ARCHIVE, COPIES, LATER, LATEST, SETTINGS, SITE, VERSION, Debian
from debian import (
    change_settings,
    copies,
    curl,
    installed,
    main_process,
    pattern,
    state,
    sums,
    text_of,
    until,
)
from clients import check, same
from ledger import beginning, rows_of
from admin_errors_files import COPY, DISK, OLDER_COPY, way_back

# ---- settings, packages

BLOCK = b"x = 2, y = 2, rule = B3/S23\n2o$2o!\n"


def is_old(debian: Debian, version: str) -> bool:
    found = debian.run("dpkg-query", "-W", "-f", "${Version} ${Status},", "life", "life-gateway").stdout
    return found == f"{version} install ok installed," * 2 and debian.has_all()


def upgrades_without_a_copy(debian: Debian) -> None:
    """Without a copy nothing is upgraded: the archive is not there, the copies' disk is full, the settings are broken
    or gone. The program that runs is the old one."""
    for name, harm, mend in (
        ("the archive is not there", f"mv {ARCHIVE} /srv/moved.db", f"mv /srv/moved.db {ARCHIVE}"),
        ("the copies' disk is full", DISK.format(size="40k", folder=COPIES), f"umount {COPIES}"),
        (
            "a line of the settings is broken",
            f"cp {SETTINGS} /srv/settings; echo 'READS 60' >> {SETTINGS}",
            f"mv /srv/settings {SETTINGS}",
        ),
        ("the settings are gone", f"mv {SETTINGS} /srv/settings", f"mv /srv/settings {SETTINGS}"),
    ):
        debian.shell(harm)
        done = installed(debian, LATER)
        debian.shell(mend)
        check(
            f"no upgrade if {name}: {done.stderr[-300:]}",
            done.returncode != 0 and "the upgrade stops" in done.stdout + done.stderr and is_old(debian, VERSION),
        )
    done = debian.run(
        "bash",
        "-c",
        f"cp {SETTINGS} /srv/settings; echo 'READS 60' >> {SETTINGS}; "
        f"{COPY.replace('systemctl start', 'true')}; life-restore --older {OLDER_COPY}; mv /srv/settings {SETTINGS}",
    )
    check(
        f"a restore with a broken line: {done.stdout}{done.stderr}",
        "ignored: " in done.stderr and "READS 60" in done.stderr and "runs with" in done.stdout,
    )
    debian.shell(f"life-restore {way_back(done)}")


def upgrades(debian: Debian) -> None:
    """The next version over this one: a copy from before it is there, and the archive continues. What was stopped stays
    so, and what was changed by hand, too, also a unit of somebody else."""
    before = main_process(debian)
    change_settings(debian, KEEP_MONTHS=11)
    debian.shell(
        f"systemctl stop life-index.timer; sed -i 's/^server {{/&\\n    deny 203.0.113.7; # ours/' {SITE}; "
        f"printf ' \\r\\n# caf\\351\\n' >> {SETTINGS}; sed -i 's/^ARCHIVE=.*/& /; /^COPY_AGE=/d' {SETTINGS}; "
        # As if the version before had no such setting.
        "sed /^COPY_AGE=/d /usr/lib/life/settings > /run/life.settings; "
        "printf '[Service]\\nType=oneshot\\nExecStart=/bin/true\\n' > /etc/systemd/system/life-index.service"
    )
    done = installed(debian, LATER)
    check(f"an upgrade: {done.stderr[-300:]}", done.returncode == 0 and is_old(debian, LATER))
    check("the service runs again", state(debian) == "active" and main_process(debian) not in (before, "0"))
    same("a copy is from before", rows_of(debian.path(f"{COPIES}/before-{VERSION}.db")), debian.ledger)
    check(
        "what was stopped stays so",
        state(debian, "life-index.timer") == "inactive" and state(debian, "life-backup.timer") == "active",
    )
    check(
        "the club's line stays",
        "deny 203.0.113.7; # ours" in text_of(debian, SITE) and os.path.exists(debian.path(SITE + ".dpkg-dist")),
    )
    check(
        "so does a unit of somebody else",
        "ExecStart=/bin/true" in text_of(debian, "/etc/systemd/system/life-index.service"),
    )
    check(
        "it goes if that is asked for",
        debian.run("life-configure", "--replace").returncode == 0 and "203.0.113.7" not in text_of(debian, SITE),
    )
    check(
        "the unit is the package's again",
        "life-index" in debian.run("systemctl", "show", "--property=ExecStart", "life-index.service").stdout,
    )
    check("numbers continue", until(debian.deposit))
    check("the settings are the administrator's", "KEEP_MONTHS=11" in debian.run("cat", SETTINGS).stdout)
    new = "These settings are new, and /usr/lib/life/settings explains them: COPY_AGE\n"
    check(f"the new setting is said, without a question: {done.stdout}", new in done.stdout)
    debian.run("systemctl", "start", "life-index.timer")


def written_as_schema_1(path: str) -> int:
    """Writes an archive of schema version 1 in the place of an archive, with its deposits, a block, and censuses of the
    glider and of the block."""
    old = sqlite3.connect(path)
    rows = old.execute("SELECT id, member, token, rule, population, rle FROM deposits ORDER BY id").fetchall()
    old.close()
    for ending in ("", "-wal", "-shm"):
        if os.path.exists(path + ending):
            os.remove(path + ending)
    block = len(rows) + 1
    new = sqlite3.connect(path)
    new.execute("PRAGMA journal_mode=WAL")
    for statement in old_archives.FIRST_TABLES:
        new.execute(statement)
    new.executemany(old_archives.ADD_DEPOSIT, [*rows, (block, "bob", "block", "B3/S23", 4, BLOCK)])
    for number, deposit, code in ((1, 1, "xq4_153"), (2, block, "xs4_33")):
        new.execute("INSERT INTO censuses VALUES (?, 'ann', ?, ?, 0, 4, 1, 0)", (number, f"c{number}", deposit))
        new.execute("INSERT INTO census_rows VALUES (?, ?, 1)", (number, code))
    new.commit()
    new.close()
    return block


def version_in(path: str) -> tuple[list[int], list[tuple[int, int]] | None]:
    """The schema version of an archive of one file, and the flags of its censuses, if it has that table."""
    database = sqlite3.connect(f"file:{path}?mode=ro&immutable=1", uri=True)
    versions = [version for (version,) in database.execute("SELECT version FROM layout")]
    has_flags = database.execute("SELECT count(*) FROM sqlite_schema WHERE name = 'census_flags'").fetchone()[0]
    flags = (
        database.execute("SELECT census, steady FROM census_flags ORDER BY census").fetchall() if has_flags else None
    )
    database.close()
    return versions, flags


def upgrades_an_old_archive(debian: Debian) -> None:
    """An upgrade over an archive of schema version 1: the copy from before is still of that version, the archive is of
    this version and served."""
    debian.run("systemctl", "stop", "life.service")
    block, version = (
        written_as_schema_1(debian.path(ARCHIVE)),
        debian.run("dpkg-query", "-W", "-f", "${Version}", "life").stdout,
    )
    debian.ledger[block] = ledger.Deposit("bob", "block", BLOCK)
    # Without the copies of earlier upgrades from this version the new one has the plain name.
    debian.run("sh", "-c", f"chown life: {ARCHIVE}; chmod 600 {ARCHIVE}; rm -f /srv/read.db {COPIES}/before-*.db")
    same("an archive of schema version 1", version_in(debian.path(ARCHIVE)), ([1], None))
    done = installed(debian, LATEST)
    check(
        f"an upgrade over it leaves it stopped: {done.stderr[-300:]}",
        done.returncode == 0 and state(debian) == "inactive",
    )
    check(
        "the new program opens it",
        debian.run("systemctl", "start", "life.service").returncode == 0 and state(debian) == "active",
    )
    same(
        "the copy from before is of schema version 1",
        version_in(debian.path(f"{COPIES}/before-{version}.db")),
        ([1], None),
    )
    same("a copy of what is served", debian.run("life-copy", ARCHIVE, "/srv/read.db").returncode, 0)
    same(
        "it is of this schema version, with flags",
        version_in(debian.path("/srv/read.db")),
        ([archives.VERSION], [(1, 0), (2, 1)]),
    )
    shown = [curl(debian, f"/deposits/{number}") for number in (1, block)]
    same("deposits are served", shown, [("200", pattern(1)), ("200", BLOCK.decode())])
    flags = [json.loads(curl(debian, f"/censuses/{number}")[1]).get("steady") for number in (1, 2)]
    same(f"so are censuses: {flags}", flags, [False, True])
    check("numbers continue after the block", until(debian.deposit))


def downgrades(debian: Debian) -> None:
    """The older version is installed over the newer one, and the copy from before is put back: what came since is
    named, and kept."""
    before = beginning(debian.ledger, len(debian.ledger))
    copy = f"{COPIES}/before-{LATEST}-back.db"
    debian.shell(f"life-copy {ARCHIVE} {copy}")
    check("a deposit after that copy", debian.deposit())
    done = installed(debian, LATER, "--allow-downgrades")
    check(f"an older version: {done.stderr[-300:]}", done.returncode == 0 and is_old(debian, LATER))
    done = debian.run("life-restore", copy)
    check(
        f"what came since is named: {done.stderr}",
        done.returncode == 1 and f"lacks deposit {len(debian.ledger)} of" in done.stderr,
    )
    done = debian.run("life-restore", "--older", copy)
    whole, debian.ledger = debian.ledger, before
    check(f"the copy from before: {done.stdout}{done.stderr}", done.returncode == 0 and debian.has_all())
    same("what came since is kept", rows_of(debian.path(way_back(done))), whole)
    debian.shell(f"rm {copy}")


def removes_the_packages(debian: Debian) -> None:
    """The packages are removed and installed again: the site is there as it was, with the club's own lines."""
    debian.run("sh", "-c", "echo 'add_header X-Club ours always;' > /etc/life/site.d/club.conf; life-configure")
    for names in (("life-gateway",), ("life", "life-gateway")):
        check(
            f"removed: {names}",
            debian.run("apt-get", "remove", "--yes", *names, timeout=300).returncode == 0
            and curl(debian, "/deposits/1")[0] != "200",
        )
        done = installed(debian, VERSION)
        check(
            f"installed again: {done.stderr[-300:]}",
            done.returncode == 0 and until(lambda: curl(debian, "/deposits/1") == ("200", pattern(1))),
        )
        check("all is there", state(debian) == "active" and debian.has_all())
    debian.run("sh", "-c", "rm /etc/life/site.d/club.conf; life-configure")
    for name in ("life", "life-gateway"):
        # What dpkg runs if a removal fails.
        debian.shell(f"cd /var/lib/dpkg/info; ./{name}.prerm remove; ./{name}.postinst abort-remove")
        check(
            f"a removal of {name} that fails leaves all running",
            until(lambda: debian.is_served() and state(debian, "life-backup.timer") == "active"),
        )


def purges_the_packages(debian: Debian) -> None:
    """The packages are purged: the archive, its copies and its index stay, the other site too, and nothing else.
    Installed again, they are served."""
    debian.run("systemctl", "stop", "life.service")
    archive = sums(debian.path(ARCHIVE))
    same("removed", debian.run("apt-get", "remove", "--yes", "life", "life-gateway", timeout=300).returncode, 0)
    check(
        "nobody listens",
        debian.run("curl", "-s", "http://127.0.0.1:8081/").returncode == 7
        and debian.run("curl", "-s", "http://127.0.0.1:8082/").returncode == 7,
    )
    same("the other site stays", curl(debian, "/", "-H", "host: other.example"), ("200", "another site\n"))
    there = len(copies(debian))
    done = debian.run("apt-get", "purge", "--yes", "life", "life-gateway", timeout=300)
    check(
        f"purged: {done.stderr[-300:]}",
        done.returncode == 0 and "these archives and copies were kept: " in done.stdout and ARCHIVE in done.stdout,
    )
    check("the copies stay", len(copies(debian)) == there >= 1)
    days = debian.run("sh", "-c", "grep -l '\"seen\":' /var/lib/life-index/deposits-1-*.json")
    check("the index stays, with its days", days.returncode == 0)
    same("the archive is as it was", sums(debian.path(ARCHIVE)), archive)
    left = debian.run(
        "sh",
        "-c",
        "ls -d /etc/life /etc/nginx/sites-*/life* /etc/systemd/system/life* /etc/logrotate.d/life* "
        "/usr/lib/life /var/cache/life /var/lib/life-metrics "
        "/var/log/nginx/life* /var/log/life-gateway /run/life-alarm 2> /dev/null",
    ).stdout
    same(f"nothing else is left: {left}", left, "")
    done = installed(debian, LATER)
    check(f"installed after a purge: {done.stderr[-300:]}", done.returncode == 0 and until(lambda: debian.is_served()))
