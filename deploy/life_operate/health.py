"""Reports problems of a club's archive. Run by life-age.timer, as the user of the archive.

    life-age [--state FOLDER] [--port PORT] [--memory SIZE] [--root FOLDER] ARCHIVE COPIES AGE
    life-age --certificate FILE
    life-age --writer USER FOLDER..

The status is 1, with a line on standard error, as long as one of these holds: the folder COPIES has no copy younger
than AGE (such as 2h); the archive's file is not the one that the service has open; the service, its gateway or nginx is
enabled, but has not been active for ten minutes; for that long no program has listened at PORT, the service's port; the
disk of the archive is nearly full; the archive has nine tenths of the rows that it may have, or too many for a program
with SIZE of memory to open it. If there is no copy at all, the last change of COPIES counts. The folder --state records
since when a unit has not been active. --root replaces /. The other forms are for root. The second one checks a
certificate: two weeks before it expires the status is 1. The third one checks the folders to which nginx writes as
USER, if they exist: whether it can, and whether their disks have room.
"""
import argparse
import datetime
import errno
import os
import pathlib
import re
import shutil
import subprocess
import sys
import time
from collections.abc import Iterator

from life_operate import settings as life_settings
from life_operate.archive import STAMP, TABLES, Copies, Database, Refused, holder, line_of

UTC = datetime.timezone.utc
# The units that have to run if they are enabled, and where systemd keeps their processes.
SERVICES = ("life.service", "life-gateway.service", "nginx.service")
WANTED_BY = "etc/systemd/system/multi-user.target.wants"
GROUPS = "sys/fs/cgroup/system.slice"
# A unit may be stopped on purpose from one check to the next, ten minutes later. A timer is up to a minute late.
AWAY_SECONDS = 500
# A disk is nearly full if it has fewer bytes left than this, or than a tenth of the archive.
LEAST_ROOM = 64 << 20
# A disk may also have too few files left.
LEAST_FILES = 1000
# How many rows an archive may have of each table: CAPACITY in docs/limits.csv.
CAPACITY = 1_000_000
# How many bytes an open archive takes for a deposit: 28 MB for 100,000, as measured, and a tenth more.
BYTES_OF_DEPOSIT = 308
# How many seconds before the end of a certificate there is an alarm: two weeks.
EXPIRES_WITHIN = 14 * 86400
# How often, and how many seconds apart, to check a file that nobody has open: the service may just be starting.
LOOKS, PAUSE = 5, 1.0


# ---- copies


def newest(copies: Copies) -> tuple[float, str]:
    """When the newest copy was made, as a time and as a text. A name with a time in the future comes from a clock that
    was wrong."""
    now = datetime.datetime.now(UTC).strftime(STAMP)
    stamps = [stamp for stamp in copies.stamps if stamp <= now]
    if not stamps:
        return os.path.getmtime(copies.folder), f"there is no copy in {copies.folder}"
    return (
        datetime.datetime.strptime(stamps[0], STAMP).replace(tzinfo=UTC).timestamp(),
        f"the newest copy is {copies.path(stamps[0])}",
    )


def age_of(archive: str, folder: str, age: str) -> tuple[str, str]:
    """The problem with the age of the newest copy, if there is one; and the good ones."""
    try:
        moment, words = newest(Copies(archive, folder))
    except (OSError, ValueError) as fault:
        return line_of(fault), ""
    if time.time() - moment <= life_settings.seconds(age):
        return "", words
    return f"no good copy for {age}: {words}", ""


def too_many(archive: str, folder: str, memory: str) -> Iterator[str]:
    """The tables that are nearly full, and the memory that is missing, by the newest copy. If it can't be read,
    life-copy and life-sound say so."""
    try:
        copies = Copies(archive, folder)
        path = copies.path(copies.past()[0])
        copy = Database(path, pathlib.Path(path).as_uri() + "?mode=ro&immutable=1")
        rows = {table: copy.first_row(f"SELECT coalesce(max(id), 0) FROM {table}")[0] for table in TABLES}
    except (OSError, IndexError, Refused):
        return
    for table, count in rows.items():
        if count >= CAPACITY * 9 // 10:
            yield f"{archive} is nearly full: it has {count:,} of at most {CAPACITY:,} {table}"
    needed = -(-rows["deposits"] * BYTES_OF_DEPOSIT >> 20)
    if memory and life_settings.mebibytes(memory) < needed:
        yield f"LIFE_MEMORY={memory} is too little to open {archive}: {rows['deposits']:,} deposits take {needed}M"


# ---- the service


def is_active(root: str, unit: str) -> bool:
    """Whether a unit has processes, by its control group."""
    return os.path.exists(os.path.join(root, GROUPS, unit))


def listens(root: str, port: int) -> bool:
    """Whether a program listens at a port of 127.0.0.1. A test connection would hold up others for a second, so this
    reads the system's table of ports."""
    with open(os.path.join(root, "proc/self/net/tcp"), encoding="ascii") as file:
        return any(words[1:4:2] == [f"0100007F:{port:04X}", "0A"] for words in map(str.split, file))


def lack_of(root: str, unit: str, port: int | None) -> str:
    """Why an enabled unit does not do its work now, if so. While the archive can't be opened, its unit has a process
    most of the time, but never listens."""
    if not is_active(root, unit):
        return f"{unit} is enabled but not running"
    if unit == "life.service" and port and not listens(root, port):
        return f"{unit} runs, but does not serve: no program listens at port {port}"
    return ""


def served(root: str, archive: str) -> str:
    """The problem with the file that the service has open, if there is one."""
    for _ in range(LOOKS):
        if not is_active(root, "life.service"):
            return ""
        try:
            if holder(archive):
                return ""
            fault = f"{archive} is not the file that life.service has open"
        except OSError as missing:
            if missing.errno not in (errno.ENOENT, errno.EACCES):
                raise
            fault = line_of(missing)
        time.sleep(PAUSE)
    return (
        f"{fault}: new deposits go into a file that no longer has a name. "
        "Don't stop the service: see 'A file that was exchanged' in OPERATING"
    )


def away(root: str, state: str, port: int | None) -> Iterator[str]:
    """The services that are enabled but have not done their work for a while. A file for each records when that was
    first seen."""
    for unit in SERVICES:
        seen, lack = os.path.join(state, unit), lack_of(root, unit, port)
        if not lack or not os.path.lexists(os.path.join(root, WANTED_BY, unit)):
            if os.path.exists(seen):
                os.remove(seen)
            continue
        if not os.path.exists(seen):
            with open(seen, "w", encoding="ascii"):
                pass
        if time.time() - os.path.getmtime(seen) >= AWAY_SECONDS:
            yield lack


def room(archive: str) -> str:
    """The problem with the free space on the archive's disk, if there is one."""
    free = shutil.disk_usage(os.path.dirname(archive)).free
    size = os.path.getsize(archive) if os.path.exists(archive) else 0
    return f"{os.path.dirname(archive)} has only {free >> 20} MiB left" if free < max(LEAST_ROOM, size // 10) else ""


# ---- nginx


def unwritable(user: str, folder: str) -> str:
    """The problem with a folder to which a user writes, if there is one. Some disks don't count files."""
    if not os.path.isdir(folder):
        return ""
    if life_settings.can(user, "-w", folder) is False:
        return f"{user} can't write to {folder}"
    disk = os.statvfs(folder)
    if disk.f_bavail * disk.f_frsize < LEAST_ROOM:
        return f"{folder} has only {disk.f_bavail * disk.f_frsize >> 20} MiB left"
    return f"{folder} has room for only {disk.f_favail} files" if disk.f_files and disk.f_favail < LEAST_FILES else ""


# ---- the certificate


def expiring(certificate: str) -> str:
    """The problem with a certificate, if there is one. In a file with a chain the first one is the server's."""
    words = ["openssl", "x509", "-in", certificate, "-noout", "-enddate", "-checkend", str(EXPIRES_WITHIN)]
    done = subprocess.run(
        words, stdin=subprocess.DEVNULL, capture_output=True, text=True, errors="replace", check=False
    )
    if done.returncode == 0:
        return ""
    end = re.search(r"notAfter=(.+)", done.stdout)
    return f"{certificate} expires on {end[1]}" if end else f"{certificate} can't be read as a certificate"


# ---- all of it


def faults_of(words: argparse.Namespace) -> tuple[list[str], str]:
    """All problems, and the line to print if there are none."""
    if words.certificate and not shutil.which("openssl"):
        return [], f"{words.certificate} was not checked: openssl is not installed"
    if words.certificate:
        return [fault for fault in [expiring(words.certificate)] if fault], f"{words.certificate} is valid"
    if words.writer:
        user, *folders = words.writer
        return [fault for folder in folders if (fault := unwritable(user, folder))], f"{user} can write"
    archive, folder = os.path.realpath(words.archive), os.path.realpath(words.copies)
    fault, well = age_of(archive, folder, words.age)
    faults = [
        fault,
        served(words.root, archive),
        *(away(words.root, words.state, words.port) if words.state else []),
        room(archive),
        *too_many(archive, folder, words.memory),
    ]
    return [fault for fault in faults if fault], well


def main() -> None:
    parser = argparse.ArgumentParser(description=__doc__, formatter_class=argparse.RawDescriptionHelpFormatter)
    parser.add_argument("--certificate", metavar="FILE")
    parser.add_argument("--writer", metavar=("USER", "FOLDER"), nargs="+")
    parser.add_argument("--state", metavar="FOLDER")
    parser.add_argument("--port", metavar="PORT", type=int)
    parser.add_argument("--memory", metavar="SIZE", default="")
    parser.add_argument("--root", default="/", metavar="FOLDER")
    for name in ("archive", "copies", "age"):
        parser.add_argument(name, metavar=name.upper(), nargs="?")
    words = parser.parse_args()
    if [words.age, words.certificate, words.writer].count(None) != 2:
        parser.error("an archive, its copies and an age, or a certificate, or a user and folders")
    try:
        faults, well = faults_of(words)
    except OSError as fault:
        sys.exit(f"life-age: {line_of(fault)}")
    if faults:
        sys.exit(f"life-age: {'; '.join(faults)}")
    print(f"life-age: {well}")
