"""What an administrator runs besides the gateway: deploy/life-copy with a file and a copy, the systemd units, and the
commands of docs/UPGRADING.md. It needs neither nginx nor HAProxy nor systemd. tests/test_restores.py tests the copies
of a club.
"""
import os
import re
import shlex
import shutil
import signal
import subprocess
import sys
import tempfile

import pytest

from clients import GLIDER, HERE, Server, check, deposit, exchanged, message, same
from fake_systemd import HASH, content, file_of, fill, write

pytestmark = pytest.mark.full

TOP = os.path.dirname(HERE)
LIFE_COPY = os.path.join(TOP, "deploy", "life-copy")
MEMBERS = ["ann", "bob", "cid"]
# The archive of a machine, below its root.
DATABASE = "var/lib/life/club.db"
COPIES = "/var/backups/life"


# ---- archives and copies


def archive(folder: str, name: str, members: list[str], censuses: int = 0) -> str:
    """A new archive with a deposit of each member in turn, and this many censuses of the first deposit."""
    database = os.path.join(folder, name)
    fill(database, members, censuses)
    return database


def life_copy(database: str, copy: str) -> tuple[int, str, str]:
    """The status of life-copy, and what it prints on its two streams."""
    done = subprocess.run([LIFE_COPY, database, copy], capture_output=True, text=True, timeout=60)
    return done.returncode, done.stdout, done.stderr


def is_error(answer: tuple[int, str, str], *parts: str) -> bool:
    """Whether life-copy ended with status 1 and one line on standard error that has these parts."""
    status, out, err = answer
    good = status == 1 and out == "" and err.startswith("life-copy: ") and err.count("\n") == 1 and err.endswith("\n")
    if not good or not all(part in err for part in parts):
        print(f"deploy: life-copy answered {answer}")
        return False
    return True


def shown(copy: str, number: int) -> bytes:
    """The replies for a deposit and for the list after it, of a server on the copy, which ends by itself."""
    with Server(copy, 1) as server:
        replies = exchanged(
            server.port, [message("GET", f"/deposits/{number}"), message("GET", f"/deposits/after/{number}")]
        )
        server.ended()
    return replies


def new_room(folder: str, name: str) -> str:
    room = os.path.join(folder, name)
    os.mkdir(room)
    return room


# ---- deploy/life-copy


def test_growing_copies(program: str, folder: str) -> None:
    """A copy is replaced by one of the same archive, with as much in it or more."""
    room = new_room(folder, "growing")
    copy = os.path.join(room, "copy.db")
    for members, censuses, counts in [
        (MEMBERS[:0], 0, "0 deposits, 0 censuses"),
        (MEMBERS[:1], 0, "1 deposit, 0 censuses"),
        (MEMBERS[:1], 1, "1 deposit, 1 census"),
        (MEMBERS, 2, "3 deposits, 2 censuses"),
        (MEMBERS, 2, "3 deposits, 2 censuses"),
    ]:
        database = archive(folder, "growing.db", members, censuses)
        same(f"a copy of {counts}", life_copy(database, copy), (0, f"{copy}: {counts}\n", ""))
        same(f"nothing beside a copy of {counts}", os.listdir(room), ["copy.db"])
    check("the last copy is an archive", file_of("cid").split(b"\n")[0] in shown(copy, 3))


def test_lesser_copies(program: str, folder: str) -> None:
    """A copy stays if it has more in it than what would replace it, or other deposits and censuses."""
    room = new_room(folder, "lesser")
    copy = os.path.join(room, "copy.db")
    there = archive(folder, "there.db", MEMBERS, 2)
    same("the copy that is there", life_copy(there, copy)[0], 0)
    before = content(copy)
    has = ["3 deposits, 2 censuses, the first deposit by 'ann'"]
    for name, members, censuses, parts in [
        ("a new archive", MEMBERS[:0], 0, ["0 deposits, 0 censuses", "fewer deposits", "fewer censuses"]),
        (
            "a new archive with a deposit",
            ["eve"],
            0,
            ["1 deposit, 0 censuses, the first deposit by 'eve'", "fewer deposits", "another deposit 1"],
        ),
        ("fewer deposits", ["ann", "bob"], 2, ["2 deposits, 2 censuses, the first deposit by 'ann'", "fewer deposits"]),
        ("fewer censuses", MEMBERS, 1, ["3 deposits, 1 census, ", "fewer censuses"]),
        (
            "another first deposit",
            ["eve", "bob", "cid", "dan"],
            3,
            ["4 deposits, 3 censuses, the first deposit by 'eve'", "another deposit 1"],
        ),
        ("another second deposit", ["ann", "eve", "cid", "dan"], 3, ["4 deposits, 3 censuses, ", "another deposit 2"]),
        ("another third deposit", ["ann", "bob", "eve", "dan"], 3, ["4 deposits, 3 censuses, ", "another deposit 3"]),
    ]:
        database = archive(folder, "lesser.db", members, censuses)
        check(f"{name} instead of a copy", is_error(life_copy(database, copy), copy, database, *has, *parts))
        check(f"the copy after {name}", content(copy) == before and os.listdir(room) == ["copy.db"])
    same("the archive of the copy itself", life_copy(there, copy)[0], 0)


def test_copies_with_a_log(program: str, folder: str) -> None:
    """A log beside a copy is passed over if there is no commit in it. A copy that was written to, or that a program has
    open, stays."""
    room = new_room(folder, "logs")
    copy, log = os.path.join(room, "copy.db"), os.path.join(room, "copy.db-wal")
    life_copy(archive(folder, "logs.db", MEMBERS[:1]), copy)
    shown(copy, 1)
    check("whoever looked at the copy left a log", os.path.getsize(log) > 0)
    database = archive(folder, "logs.db", MEMBERS[:2])
    same("a copy beside that log", life_copy(database, copy), (0, f"{copy}: 2 deposits, 0 censuses\n", ""))
    check("it is an archive beside that log", b'"deposits":[]' in shown(copy, 2) and b"By bob" in shown(copy, 2))
    database = archive(folder, "logs.db", MEMBERS)
    with Server(copy, 10) as server:
        opened = content(copy)
        check(
            "no copy while a program has it open",
            is_error(life_copy(database, copy), copy, "open") and content(copy) == opened,
        )
        exchanged(server.port, [message("GET", "/deposits/1")])
    same("a copy after a look that was killed", life_copy(database, copy)[0], 0)
    with Server(copy, 10) as server:
        exchanged(server.port, [deposit("eve", "t1", file_of("eve"))])
    before = content(copy), content(log)
    database = archive(folder, "logs.db", [*MEMBERS, "dan"])
    check(
        "no copy over one that was written to",
        is_error(life_copy(database, copy), log) and (content(copy), content(log)) == before,
    )


def test_faults_of_copies(program: str, folder: str) -> None:
    """What is missing, or no archive, is one line on standard error."""
    room = new_room(folder, "faults")
    database, copy = archive(folder, "faults.db", MEMBERS[:1]), os.path.join(room, "copy.db")
    no_database, empty, damaged = (os.path.join(folder, name) for name in ("no-database.db", "empty.db", "damaged.db"))
    whole = content(database)
    for path, data in [
        (no_database, b"no database" * 1000),
        (empty, b""),
        (damaged, whole[:4096] + bytes(len(whole) - 4096)),
    ]:
        with open(path, "wb") as file:
            file.write(data)
    check(
        "a missing archive", is_error(life_copy(os.path.join(folder, "missing.db"), copy), "missing.db", "No such file")
    )
    check(
        "a missing folder for the copy",
        is_error(life_copy(database, os.path.join(folder, "missing", "copy.db")), "missing", "No such file"),
    )
    check("a folder as the archive", is_error(life_copy(room, copy), room))
    check("no database as the archive", is_error(life_copy(no_database, copy), no_database, "as an archive"))
    check("an empty file as the archive", is_error(life_copy(empty, copy), empty, "as an archive"))
    check("a damaged archive", is_error(life_copy(damaged, copy), damaged, "as an archive"))
    same("none of these left a file", os.listdir(room), [])
    check(
        "a damaged copy",
        is_error(life_copy(database, damaged), damaged, "as an archive") and content(damaged)[:4096] == whole[:4096],
    )
    check(
        "no database as the copy",
        is_error(life_copy(database, no_database), no_database, "as an archive")
        and content(no_database) == b"no database" * 1000,
    )
    check(
        "an empty file as the copy",
        is_error(life_copy(database, empty), empty, "as an archive") and content(empty) == b"",
    )
    check("a folder as the copy", is_error(life_copy(database, room), room) and os.listdir(room) == [])
    before = content(database)
    check(
        "the archive as its own copy", is_error(life_copy(database, database), database) and content(database) == before
    )
    no_words = subprocess.run(
        [LIFE_COPY, "--settings", "/nowhere/settings"], capture_output=True, text=True, timeout=60
    )
    check("no settings", (no_words.returncode, no_words.stdout) == (1, "") and "/nowhere/settings" in no_words.stderr)
    one_word = subprocess.run([LIFE_COPY, database], capture_output=True, text=True, timeout=60)
    check(
        "an archive alone",
        (one_word.returncode, one_word.stdout) == (2, "") and "an archive and a copy, or neither" in one_word.stderr,
    )


def test_copies_through_links(program: str, folder: str) -> None:
    """The log of an archive is beside the file that a link leads to, and so is the copy."""
    room = new_room(folder, "links")
    database, copy = os.path.join(folder, "linked.db"), os.path.join(folder, "linked-copy.db")
    for name, to in (("link.db", database), ("copy-link.db", copy)):
        os.symlink(to, os.path.join(room, name))
    with Server(database, 10) as server:
        exchanged(server.port, [deposit(member, "t1", file_of(member)) for member in MEMBERS])
    answer = life_copy(os.path.join(room, "link.db"), os.path.join(room, "copy-link.db"))
    check("a copy through links", answer == (0, f"{copy}: 3 deposits, 0 censuses\n", "") and not os.path.islink(copy))
    check(
        "the links are still links",
        all(os.path.islink(os.path.join(room, name)) for name in ("link.db", "copy-link.db")),
    )


# Runs a script, and prints which file or folder was written to the disk and which was renamed to which, in that order.
WATCHED = """
import os, runpy, sys
fsync, replace = os.fsync, os.replace
def watched_fsync(number):
    fsync(number)
    print("fsync", os.readlink(f"/proc/self/fd/{number}"))
def watched_replace(old, new):
    replace(old, new)
    print("rename", old, new)
os.fsync, os.replace = watched_fsync, watched_replace
sys.argv = sys.argv[1:]
runpy.run_path(sys.argv[0], run_name="__main__")
"""


def test_copies_on_the_disk(program: str, folder: str) -> None:
    """The new copy is on the disk before it has its name, which it gets in its own folder; then the name is on the
    disk."""
    room = new_room(folder, "disk")
    database, copy = archive(folder, "disk.db", MEMBERS), os.path.join(room, "copy.db")
    for turn in ("first", "second"):
        done = subprocess.run(
            [sys.executable, "-c", WATCHED, LIFE_COPY, database, copy], capture_output=True, text=True, timeout=60
        )
        steps = [line.split() for line in done.stdout.splitlines() if line.startswith(("fsync ", "rename "))]
        new = steps[0][1] if steps else ""
        check(
            f"the {turn} copy on the disk",
            steps == [["fsync", new], ["rename", new, copy], ["fsync", room]] and new.startswith(room + "/."),
        )


# ---- the units of systemd


def configured(folder: str, **settings: str) -> str:
    """A folder with the units of systemd, filled in."""
    room = os.path.join(folder, "units")
    done = subprocess.run(
        [os.path.join(TOP, "deploy", "configure"), room, *(f"{name}={value}" for name, value in settings.items())],
        timeout=60,
    )
    same("the units are configured", done.returncode, 0)
    return room


def test_files_of_dpkg(folder: str) -> None:
    """Files that a killed dpkg has left among the templates are not templates."""
    shutil.copytree(os.path.join(TOP, "deploy"), copy := os.path.join(folder, "killed"))
    for name in ("life.service.dpkg-new", "gateway/life-site.conf.dpkg-tmp"):
        write(os.path.join(copy, "templates", name), "half a templ")
    room = os.path.join(folder, "of-killed")
    same("it is configured", subprocess.run([os.path.join(copy, "configure"), room], timeout=60).returncode, 0)
    same("files of dpkg", [name for name in os.listdir(room) if "dpkg" in name], [])


@pytest.mark.parametrize(
    "name, text, why",
    [
        ("earlier", "{% if TLS %}\n@TLS?@    listen 443;\n{% endif %}\n", "is a template of an earlier version"),
        ("unknown", "listen {{ LISTENS }};\n", "'LISTENS' is undefined"),
        ("broken", "{% if TLS %}\n", "Unexpected end of template"),
    ],
)
def test_wrong_templates(folder: str, name: str, text: str, why: str) -> None:
    """A template of another version, which a killed upgrade leaves, or one that can't be filled is refused, and no file
    is written."""
    shutil.copytree(os.path.join(TOP, "deploy"), copy := os.path.join(folder, f"with-{name}"))
    write(os.path.join(copy, "templates", "gateway", name), text)
    room = os.path.join(folder, f"of-{name}")
    words = [os.path.join(copy, "configure"), room, "TLS=yes"]
    done = subprocess.run(words, capture_output=True, text=True, timeout=60, check=False)
    check(f"{name}: {done.stderr}", done.returncode == 1 and done.stderr.startswith(f"configure: {name}"))
    check(f"{name}: it is said why", why in done.stderr)
    check(f"{name}: nothing is written", not os.path.exists(room))


def values(unit: str, key: str) -> list[str]:
    with open(unit, encoding="utf-8") as file:
        return [line.partition("=")[2].strip() for line in file if line.startswith(key + "=")]


def units_of(folder: str, program: str, database: str) -> str:
    """A folder with the units of an archive."""
    return configured(
        folder,
        PROGRAM=program,
        ARCHIVE=database,
        ARCHIVE_FOLDER=folder,
        BACKUP_FOLDER=COPIES,
        SCRIPTS=os.path.join(folder, "units"),
    )


def units(room: str, *endings: str) -> list[str]:
    return sorted(name for name in os.listdir(room) if name.endswith(endings))


def test_starts(program: str, folder: str) -> None:
    """Before the program starts the unit looks at the archive: if it is not there, an error says so, and it stays
    missing."""
    database = os.path.join(folder, "started.db")
    room = units_of(folder, program, database)
    unit, backup = (os.path.join(room, name) for name in ("life.service", "life-backup.service"))
    lines = [shlex.split(line) for line in values(unit, "ExecStartPre")]
    same("the unit looks at the archive before the start", len(lines), 1)

    def said() -> list[tuple[int, str, str]]:
        done = [subprocess.run(words, capture_output=True, text=True, timeout=30) for words in lines]
        return [(each.returncode, each.stdout, each.stderr) for each in done]

    status, out, err = said()[0]
    check(
        "a missing archive is an error",
        status == 1 and out == "" and f"{database} is not there" in err and not os.path.exists(database),
    )
    archive(folder, "started.db", [])
    same("nothing is said if the archive is there", said(), [(0, "", "")])
    same("the folder of the archive is mounted first", values(unit, "RequiresMountsFor"), [folder])
    same("both folders are mounted before a copy", values(backup, "RequiresMountsFor"), [f"{folder} {COPIES}"])


@pytest.mark.parametrize("place, mounts", [("/mnt/club", ["/mnt/club"]), ("club@host:/srv/club", [])])
def test_second_place(folder: str, place: str, mounts: list[str]) -> None:
    """A second place is mounted before a copy, if it is a folder of this machine."""
    room = configured(folder, SECOND_PLACE=place)
    second = values(os.path.join(room, "life-backup.service"), "RequiresMountsFor")
    same(f"a second place is mounted before a copy: {second}", second[1:], mounts)


def test_alarms(program: str, folder: str) -> None:
    """Each unit that fails sends an alarm, but for the alarm itself and the new start, about which the watch has sent
    one."""
    room = units_of(folder, program, os.path.join(folder, "started.db"))
    for name in units(room, ".service"):
        wanted = name not in ("life-alarm@.service", "life-restart.service")
        same(
            f"{name} tells that it fails",
            any("life-alarm@%n.service" in line for line in values(os.path.join(room, name), "OnFailure")),
            wanted,
        )


def test_slow_refusals(folder: str) -> None:
    """systemd gives up on an archive that is refused again and again, even if each time takes half a minute: within ten
    minutes that is an alarm."""
    unit = os.path.join(configured(folder), "life.service")
    burst, interval = values(unit, "StartLimitBurst")[0], values(unit, "StartLimitIntervalSec")[0]
    seconds = 60 * int(interval[:-3]) if interval.endswith("min") else int(interval)
    check(f"{burst} starts in {interval}", 30 * int(burst) <= 600 < seconds)


def test_stopped_watch(folder: str) -> None:
    """A watch that systemd stops, since the archive is stopped or restarted, has not failed."""
    unit = os.path.join(configured(folder), "life-watch.service")
    same("a signal that ends the watch", values(unit, "SuccessExitStatus"), ["SIGTERM"])


def test_endless_index(folder: str) -> None:
    """An index that takes too long, as if it waited for somebody, is a failure, and so an alarm."""
    unit = os.path.join(configured(folder), "life-index.service")
    same("its end", (values(unit, "TimeoutStartSec"), len(values(unit, "OnFailure"))), (["30min"], 1))


def test_certificate_checked(folder: str) -> None:
    """Every ten minutes the certificate is checked, if there is TLS, and the folders to which nginx writes, by root."""
    folders = "+/usr/lib/life/life-age --writer www-data /var/cache/life/cache /var/lib/nginx/body /var/lib/nginx/proxy"
    certificate = "+/usr/lib/life/life-age --certificate /srv/cert.pem"
    for tls, wanted in (("no", [folders]), ("yes", [certificate, folders])):
        room = configured(folder, TLS=tls, TLS_CERTIFICATE="/srv/cert.pem")
        starts = values(os.path.join(room, "life-age.service"), "ExecStart")
        same(f"checks with TLS={tls}", starts[1:], wanted)
        check("the port is looked at", " --port 8081 " in starts[0])


def test_verified(program: str, folder: str) -> None:
    """systemd itself finds no fault in the units, and those that run all the time or often are shut in."""
    if not shutil.which("systemd-analyze"):
        pytest.skip("systemd-analyze is not installed, so the units are not verified")
    room = units_of(folder, program, os.path.join(folder, "started.db"))
    for name in units(room, ".service", ".timer"):
        done = subprocess.run(
            ["systemd-analyze", "verify", "--man=no", os.path.join(room, name)],
            capture_output=True,
            text=True,
            timeout=60,
        )
        check(f"{name} by systemd-analyze: {done.stderr}", room not in done.stderr)
    for name in units(room, ".service"):
        done = subprocess.run(
            ["systemd-analyze", "security", "--offline=true", os.path.join(room, name)],
            capture_output=True,
            text=True,
            timeout=60,
        )
        exposure = re.search(r"exposure level for \S+: ([0-9.]+)", done.stdout)
        most = 5.0 if name.startswith("life-alarm") else 2.0
        check(f"the exposure of {name}: {exposure and exposure[1]}", exposure is not None and float(exposure[1]) < most)


# ---- values of settings


REFUSED = [
    "NO_SUCH=1",
    "LISTEN=1;x",
    "TLS=maybe",
    "TLS=",
    "LIFE_MEMORY=lots",
    "LIFE_MEMORY=400",
    "LIFE_PORT=0",
    "LIFE_PORT=65536",
    "LIFE_PORT=8082",
    "PROXY_PORT=http",
    "LISTEN=",
    "LISTEN=70000",
    "LISTEN=[::]",
    "LISTEN_ALSO=::80",
    "HOST=a;b",
    "ARCHIVE=club.db",
    "ARCHIVE=/srv/club.db",
    "ARCHIVE_FOLDER=/var/lib/my life",
    "READS=50",
    "DEPOSITS=0r/s",
    "CENSUSES=12r/h",
    "CONNECTIONS=many",
    "QUEUE_TIME=30",
    "WEB_TIME=90s",
    "WATCH_SECONDS=1m",
    "WATCH_SECONDS=60",
    "QUEUE_TIME=60s",
    "ANSWER_TIME=2m",
    "SLOW_READS=1",
    "SLOW_CONNECTIONS=0",
    "PAGES=",
    "READS_LOGGED=0%",
    "READS_LOGGED=101%",
    "READS_LOGGED=5",
    "CACHE_FREE=",
    "WEB_FOLDER=/srv/a:b",
    "FRONT_PROXIES=proxy",
    "FRONT_PROXIES=10.0.0.7,10.0.0.8",
    "FRONT_HEADER=",
    "MEMBERS_FILE=/etc/life/members",
    "CACHE_SIZE=4",
    "LIFE_USER=",
    "LIFE_USER=a b",
    "CACHE_NAME=a b",
    "KEEP_DAYS=0",
    "SECOND_PLACE=host:",
    "HSTS=long",
    "ALARM_TO=",
    "MEMBERS_FILE=members",
    "BACKUP_TIMES=",
    "METRICS_PORT=8081",
    "METRICS_PORT=8082",
    "METRICS_PORT=no",
    "COPY_AGE=",
    "COPY_AGE=2",
]
TAKEN = [
    "TLS=yes",
    "LIFE_MEMORY=2G",
    "LISTEN=127.0.0.1:80",
    "LISTEN=[::1]:80",
    "LISTEN_ALSO=",
    "HOST=a.example b.example",
    "HSTS=no",
    "HSTS=",
    "SECOND_PLACE=/mnt/club",
    "SECOND_PLACE=club@backup.example:/srv/club",
    "WEB_TIME=3m",
    "TLS=yes MEMBERS_FILE=/etc/life/members",
    "LISTEN=127.0.0.1:80 LISTEN_ALSO= MEMBERS_FILE=/etc/life/members",
    "LISTEN=127.0.0.1:80 LISTEN_ALSO=[::1]:80 MEMBERS_FILE=/etc/life/members",
    "METRICS_PORT=8404",
    "METRICS_PORT=",
    "COPY_AGE=90m",
    "READS_LOGGED=100%",
    "READS_LOGGED=0.5%",
    "FRONT_PROXIES=",
]


def configure(room: str, *words: str) -> tuple[int, str]:
    """The status of `configure`, and what it prints on standard error."""
    done = subprocess.run(
        [os.path.join(TOP, "deploy", "configure"), room, *words], capture_output=True, text=True, timeout=60
    )
    return done.returncode, done.stderr


@pytest.mark.parametrize("setting", REFUSED)
def test_refused_setting(folder: str, setting: str) -> None:
    """An invalid value is refused, with the setting's name, and nothing is written."""
    room = os.path.join(folder, "refused")
    status, err = configure(room, setting)
    good = status == 1 and err.startswith("configure: ") and err.count("\n") == 1 and setting.partition("=")[0] in err
    check(f"the setting {setting}: {err}", good and not os.path.exists(room))


@pytest.mark.parametrize("settings", TAKEN)
def test_setting(folder: str, settings: str) -> None:
    """A valid value is taken, without a word."""
    room = os.path.join(folder, "taken")
    same(
        f"the setting {settings}",
        (*configure(room, *re.split(" (?=[A-Z])", settings)), os.path.exists(os.path.join(room, "life.service"))),
        (0, "", True),
    )
    shutil.rmtree(room, ignore_errors=True)


def test_unread_members(folder: str) -> None:
    """A file of members that nginx can't read is refused before anything is written."""
    if os.geteuid() != 0 or subprocess.run(["id", "www-data"], capture_output=True, check=False).returncode:
        pytest.skip("this is not root, or there is no www-data, so the look at a file of members is left out")
    room = new_room(folder, "unread")
    members = os.path.join(room, "members")
    with open(members, "w", encoding="utf-8") as file:
        file.write(f"ann:{HASH}\n")
    os.chmod(members, 0o600)
    os.makedirs(os.path.join(room, "etc", "life"))
    with open(os.path.join(room, "etc", "life", "settings"), "w", encoding="utf-8") as file:
        file.write(f"TLS=yes\nMEMBERS_FILE={members}\n")
    done = subprocess.run(
        [os.path.join(TOP, "deploy", "life-configure"), "--root", room], capture_output=True, text=True, timeout=60
    )
    check(
        "a file of members for root alone",
        done.returncode == 1
        and f"{members}: www-data can't read it" in done.stderr
        and os.listdir(os.path.join(room, "etc")) == ["life"],
    )
    done = subprocess.run(
        [os.path.join(TOP, "deploy", "life-configure"), "--files-only", "--root", room],
        capture_output=True,
        text=True,
        timeout=60,
    )
    check(
        "an upgrade says so and continues",
        done.returncode == 0 and "www-data can't read it" in done.stderr and "life-site.conf" in done.stdout,
    )


def test_members_for_all() -> None:
    """A file of members that every user of the machine can read, as `htpasswd -c` makes it, is refused before anything
    is written. An upgrade says so and continues."""
    if os.geteuid() != 0 or any(
        subprocess.run(["id", user], capture_output=True, check=False).returncode for user in ("www-data", "nobody")
    ):
        pytest.skip("this is not root, or there is no www-data, so the look at a file of members is left out")
    with tempfile.TemporaryDirectory() as room:
        members, settings = os.path.join(room, "members"), os.path.join(room, "etc", "life", "settings")
        os.makedirs(os.path.dirname(settings))
        for path, text in ((members, f"ann:{HASH}\n"), (settings, f"TLS=yes\nMEMBERS_FILE={members}\n")):
            with open(path, "w", encoding="utf-8") as file:
                file.write(text)
        os.chmod(room, 0o755)
        os.chmod(members, 0o644)
        said = f"life-configure: MEMBERS_FILE={members}: every user of this machine can read it: "
        said += "chown root:www-data, chmod 640\n"

        def configured(*words: str, **environment: str) -> tuple[int, str]:
            done = subprocess.run(
                [os.path.join(TOP, "deploy", "life-configure"), *words, "--root", room],
                capture_output=True,
                text=True,
                timeout=60,
                env=os.environ | environment,
                check=False,
            )
            return done.returncode, done.stderr

        same("a file for everybody", (configured(), os.listdir(os.path.join(room, "etc"))), ((1, said), ["life"]))
        same("an upgrade writes", configured("--files-only", DPKG_MAINTSCRIPT_NAME="postinst"), (0, said))
        same("and loads", configured(DPKG_MAINTSCRIPT_NAME="postinst"), (0, said))
        os.chmod(members, 0o640)
        shutil.chown(members, "root", "www-data")
        same("a file for nginx", configured(), (0, ""))


@pytest.mark.parametrize("words", [["READS=x"], ["NOPE=1"], ["--first-port", "70000"]], ids=" ".join)
def test_refused_try(program: str, folder: str, monkeypatch: pytest.MonkeyPatch, words: list[str]) -> None:
    """A trial with a wrong setting, or without ports, ends with one line and leaves nothing."""
    rooms = os.path.join(folder, f"try-{words[-1]}")
    os.makedirs(rooms)
    monkeypatch.setenv("TMPDIR", rooms)
    done = subprocess.run(
        [os.path.join(TOP, "deploy", "try"), "--program", program, "--seconds", "1", *words],
        capture_output=True,
        text=True,
        timeout=60,
        check=False,
    )
    check(f"its line: {done.stderr}", done.returncode == 1 and done.stderr.count("\n") == 1)
    same("what it leaves", (done.stdout, os.listdir(rooms)), ("", []))


@pytest.mark.parametrize(
    "words, has_numbers, logs",
    [
        ({}, False, ["/var/log/life-gateway/errors.log /var/log/life-gateway/requests.log"]),
        ({"WEB_LOG": "/var/log/nginx/life.log", "WEB_ERRORS": "/var/log/nginx/life-error.log"}, False, []),
        (
            {"METRICS_PORT": "8404", "WEB_LOG": "/srv/web/life.log", "WEB_ERRORS": "/var/log/nginx/life-error.log"},
            True,
            ["/srv/web/life.log"],
        ),
        (
            {"WEB_LOG": "/var/log/nginx/club/a.log", "WEB_ERRORS": "/srv/b.err"},
            False,
            ["/srv/b.err /var/log/nginx/club/a.log"],
        ),
    ],
)
def test_optional_parts(folder: str, words: dict[str, str], has_numbers: bool, logs: list[str]) -> None:
    """HAProxy's numbers are there with a port alone. A log that nginx's own file does not rotate is in ours, once."""
    room = configured(folder, **words)
    proxy, rotated = (content(os.path.join(room, name)).decode() for name in ("haproxy.cfg", "life-logrotate"))
    same(
        f"numbers with {words}",
        ("prometheus-exporter" in proxy, "bind 127.0.0.1:8404" in proxy),
        (has_numbers, has_numbers),
    )
    same(f"logs with {words}", re.findall(r"(?m)^(/.*) \{$", rotated), logs)


def test_logs_from_the_start(folder: str) -> None:
    """Before nginx writes a line, the logs belong to it, and only its user and the group adm read them; so it is with
    logs of an earlier release."""
    if os.geteuid() != 0 or not shutil.which("systemd-tmpfiles"):
        pytest.skip("this is not root, or systemd-tmpfiles is not installed")
    room = os.path.join(folder, "logs-from-the-start")
    lines = content(os.path.join(TOP, "deploy", "debian", "life-gateway.tmpfiles")).decode()
    settings = content(os.path.join(TOP, "deploy", "settings")).decode()
    logs = [room + path for path in re.findall(r"(?m)^WEB_(?:LOG|ERRORS)=(.*)$", settings)]
    os.makedirs(os.path.dirname(logs[0]))
    with open(logs[0], "w", encoding="ascii") as file:
        file.write("a line\n")
    with open(f"{room}/made", "w", encoding="ascii") as file:
        file.write(re.sub(r"(?m)^([df] )(?=/var/log)", rf"\1{room}", "\n".join(re.findall("(?m)^.*/log/.*$", lines))))
    same("what makes them", subprocess.run(["systemd-tmpfiles", "--create", f"{room}/made"], timeout=60).returncode, 0)
    for log in logs:
        done = subprocess.run(["stat", "-c", "%a %U %G", log], capture_output=True, text=True, check=False)
        same(log, done.stdout, "640 www-data adm\n")
    same("what was in a log", content(logs[0]), b"a line\n")


def test_room_beside_the_cache(folder: str) -> None:
    """The cache leaves as much of the disk free as is set."""
    site = content(os.path.join(configured(folder, CACHE_FREE="3g"), "life-site.conf")).decode()
    check(
        "the cache leaves some of the disk free", re.search(r"(?m)^proxy_cache_path .* min_free=3g ", site) is not None
    )


# ---- commands that the documents name


def commands(document: str, heading: str) -> list[str]:
    """The first block of commands under a heading of a document."""
    with open(os.path.join(TOP, "docs", document), encoding="utf-8") as file:
        text = file.read().partition(f"\n{heading}\n")[2]
    block = re.search(r"(?:^    .*\n)+", text, re.M)
    return re.sub("^    ", "", block[0], flags=re.M).splitlines() if block else []


def moved(lines: list[str], room: str) -> str:
    """Commands with the room in place of the system's root. A path elsewhere than below /var and /usr/local is an
    error: it stays."""
    text = "\n".join(lines)
    if elsewhere := re.search(r"(?<![\w./:-])/(?!(?:var|usr/local)/)\S+", text):
        raise ValueError(f"a command has the path {elsewhere[0]}")
    return re.sub(r"(?<![\w./:-])/(?=(?:var|usr/local)/)", room + "/", text)


def executed(
    lines: list[str], room: str, cwd: str, functions: dict[str, str], **environment: str
) -> tuple[int, str, str]:
    """The status and the two streams of commands in one shell, which ends at the first failure. The room is in place of
    the system's root, and a command that needs a whole machine is one of these functions."""
    text = "\n".join([*(f"{name}() {{ {body}; }}" for name, body in functions.items()), moved(lines, room)])
    environment = {**os.environ, **environment, "PATH": os.path.join(room, "usr/local/bin") + ":" + os.environ["PATH"]}
    pipe = subprocess.PIPE
    with subprocess.Popen(
        ["sh", "-euc", text], cwd=cwd, env=environment, stdout=pipe, stderr=pipe, text=True, start_new_session=True
    ) as shell:
        try:
            out, err = shell.communicate(timeout=60)
        except subprocess.TimeoutExpired:
            # Whatever the shell started is in its session.
            os.killpg(shell.pid, signal.SIGKILL)
            out, err = shell.communicate()
    if shell.returncode:
        print(f"deploy: status {shell.returncode} of {lines}: {err}")
    return shell.returncode, out, err


# Nothing of the settings of this machine's git.
GIT_SETTINGS = "[user]\nname = trial\nemail = trial@localhost\n[safe]\ndirectory = *\n"


def machine(folder: str, name: str, monkeypatch: pytest.MonkeyPatch) -> str:
    """A folder with the folders of a machine, and a git that knows no settings but its own."""
    room = new_room(folder, name)
    for below in ("var/lib/life", "var/backups/life", "usr/local/bin"):
        os.makedirs(os.path.join(room, below))
    settings = os.path.join(room, "gitconfig")
    monkeypatch.setenv("GIT_CONFIG_GLOBAL", settings)
    monkeypatch.setenv("GIT_CONFIG_SYSTEM", os.devnull)
    with open(settings, "w", encoding="utf-8") as file:
        file.write(GIT_SETTINGS)
    return room


def git(*words: str) -> str:
    done = subprocess.run(["git", *words], capture_output=True, text=True, timeout=120)
    if done.returncode:
        raise OSError(f"git {words}: {done.stderr}")
    return done.stdout.strip()


# A `life` that proves nothing, of this version: the program that it builds is one of the test.
BUILDER = """#!/bin/sh
# version {}
set -eu
[ "$*" = --build ]
mkdir -p crates/life_cli/out
cp "$NEW_LIFE" crates/life_cli/out/life_cli
"""


def committed(clone: str, version: int) -> str:
    """Gives a clone's origin this version, and answers the commit."""
    with open(os.path.join(clone, "life"), "w", encoding="utf-8") as file:
        file.write(BUILDER.format(version))
    git("-C", clone, "commit", "--quiet", "--all", "--message", f"version {version}")
    git("-C", clone, "push", "--quiet", "origin", "HEAD")
    return git("-C", clone, "rev-parse", "HEAD")


def new_version(room: str) -> tuple[str, str]:
    """A clone of this repository, whose origin has a new version since, and that version's commit."""
    origin, old, work = (os.path.join(room, name) for name in ("origin.git", "life", "work"))
    git("clone", "--quiet", "--bare", TOP, origin)
    git("-C", origin, "branch", "--force", "trial", "HEAD")
    git("-C", origin, "symbolic-ref", "HEAD", "refs/heads/trial")
    git("clone", "--quiet", origin, work)
    committed(work, 1)
    git("clone", "--quiet", origin, old)
    return old, committed(work, 2)


def upgraded(program: str, room: str, old: str, newer: str) -> tuple[int, list[str]]:
    """Runs the commands of UPGRADING.md in the old clone while the old program serves; the status, and how systemctl
    was called."""
    called = os.path.join(room, "called")
    shutil.copy(program, os.path.join(room, "usr/local/bin/life"))
    with open(newer, "wb") as file:
        file.write(content(program) + b"\n# newer\n")
    with Server(os.path.join(room, DATABASE), 100) as server:
        exchanged(server.port, [deposit(member, "t1", file_of(member)) for member in MEMBERS])
        systemctl = f'echo "$*" >> {shlex.quote(called)}; [ "$1" != stop ] || kill -9 {server.process.pid}'
        status, _, _ = executed(
            commands("UPGRADING.md", "## Step by step"), room, old, {"systemctl": systemctl}, NEW_LIFE=newer
        )
    return status, content(called).decode().splitlines()


def test_upgrading(program: str, folder: str, monkeypatch: pytest.MonkeyPatch) -> None:
    """The commands of UPGRADING.md fetch the new version, keep a copy of both files and start the new program on the
    archive."""
    if not shutil.which("git") or not os.path.exists(os.path.join(TOP, ".git")):
        pytest.skip("this is not a clone, or git is not installed, so the commands of UPGRADING.md are left out")
    room = machine(folder, "upgrade", monkeypatch)
    database, installed, newer, new = (
        os.path.join(room, name) for name in (DATABASE, "usr/local/bin/life", "newer", "life-new")
    )
    old, version = new_version(room)
    status, called = upgraded(program, room, old, newer)
    same("the commands of an upgrade", status, 0)
    check("they fetch the new version", os.path.isdir(new) and git("-C", new, "rev-parse", "HEAD") == version)
    same("they stop and start the service", called, ["stop life.service", "start life.service"])
    check("they install the new program", content(installed) == content(newer) and os.access(installed, os.X_OK))
    folders = os.listdir(os.path.join(room, "var/backups/life"))
    kept = os.path.join(room, "var/backups/life", *folders, "club.db")
    good = len(folders) == 1 and all(content(kept + ending) == content(database + ending) for ending in ("", "-wal"))
    check("they keep a copy of both files in a new folder", good)
    check("the copy has all deposits", good and b"By cid" in shown(kept, 3))
    answer = subprocess.run(
        [installed, "deposit", "--db", database, "dan", "t1"], input=GLIDER, capture_output=True, timeout=60
    )
    same("the new program stores the next deposit", (answer.returncode, answer.stdout), (0, b"deposit 4\n"))
