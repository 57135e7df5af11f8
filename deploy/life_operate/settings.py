"""The settings of a club's archive: lines NAME=VALUE, the values that each may have, and how they are read."""
import os
import pwd
import re
import shutil
import subprocess
import sys
from collections.abc import Container, Iterable

USUAL = "/etc/life/settings"
# The file beside the package has a value for every setting; a club's file overrides it.
OWN = os.path.join(os.path.dirname(os.path.dirname(os.path.realpath(__file__))), "settings")
LINE = re.compile(r"([A-Z_]+)=([A-Za-z0-9_./:@%+*,~\[\] -]*)")
PORT = (r"[1-9][0-9]{0,4}", "a port from 1 to 65535")
COUNT = (r"[1-9][0-9]{0,8}", "a number from 1 on")
PATH = (r"/[A-Za-z0-9_./@+:-]*", "an absolute path without spaces")
PATH_OR_NONE = (PATH[0] + "|", PATH[1] + ", or empty")
USER = (r"[a-z_][a-z0-9_-]*", "the name of a user")
RATE = (r"[1-9][0-9]{0,5}r/[sm]", "a rate such as 5r/s or 12r/m")
TIME = (r"[1-9][0-9]{0,5}(ms|s|m|h)", "a time such as 30s")
ADDRESS_OR_NONE = (
    r"|([A-Za-z0-9_.*-]+:|\[[0-9a-f:.]+\]:)?[1-9][0-9]{0,4}",
    "a port, an address and a port such as [::]:80, or empty",
)
CALENDAR = (r"[A-Za-z0-9*].*", "a systemd calendar such as *:0/15")
# For each setting, the regular expression of its values, and what to say about them.
FORMS = {
    "PROGRAM": PATH,
    "ARCHIVE": PATH,
    "ARCHIVE_FOLDER": PATH,
    "SCRIPTS": PATH,
    "SETTINGS": PATH,
    "BACKUP_FOLDER": PATH,
    "METRICS_FOLDER": PATH_OR_NONE,
    "LIFE_USER": USER,
    "LIFE_MEMORY": (r"[1-9][0-9]{0,8}[KMGT]", "an amount of memory such as 400M"),
    "LIFE_PORT": PORT,
    "PROXY_PORT": PORT,
    "METRICS_PORT": (PORT[0] + "|", PORT[1] + ", or empty"),
    "LISTEN": (ADDRESS_OR_NONE[0][1:], "a port, or an address and a port such as 127.0.0.1:80"),
    "LISTEN_ALSO": ADDRESS_OR_NONE,
    "REDIRECT": ADDRESS_OR_NONE,
    "REDIRECT_ALSO": ADDRESS_OR_NONE,
    "HOST": (r"([A-Za-z0-9_.*-]+( [A-Za-z0-9_.*-]+)*)?", "names of hosts, or empty"),
    "TLS": (r"yes|no", "yes or no"),
    "TLS_CERTIFICATE": PATH,
    "TLS_KEY": PATH,
    "ACME_FOLDER": PATH_OR_NONE,
    "HSTS": (r"[1-9][0-9]{0,8}|no|", "a number of seconds, or no"),
    "MEMBERS_FILE": PATH_OR_NONE,
    "PAGES_FOLDER": PATH_OR_NONE,
    # Captions have no other signs (web/shared/collection.js), so nginx reads none of them as its own.
    "CHOSEN": (r"(/l/[A-Za-z0-9_.,~%-]{1,6000})?", "the address of a collection such as /l/4,7at30, or empty"),
    "OWN_SITE": PATH_OR_NONE,
    "WITHDRAWN": PATH,
    "FRONT_PROXIES": (
        r"([0-9a-f:.]+(/[0-9]{1,3})?( [0-9a-f:.]+(/[0-9]{1,3})?)*)?",
        "addresses or networks such as 10.0.0.7 192.0.2.0/24, or empty",
    ),
    "FRONT_HEADER": (r"[A-Za-z][A-Za-z0-9-]*", "the name of a header such as X-Forwarded-For"),
    "PAGES": RATE,
    "READS": RATE,
    "SLOW_READS": RATE,
    "DEPOSITS": RATE,
    "CENSUSES": RATE,
    "PAGES_AT_ONCE": COUNT,
    "READS_AT_ONCE": COUNT,
    "SLOW_READS_AT_ONCE": COUNT,
    "DEPOSITS_AT_ONCE": COUNT,
    "CENSUSES_AT_ONCE": COUNT,
    "CONNECTIONS": COUNT,
    "SLOW_CONNECTIONS": COUNT,
    "READS_LOGGED": (r"100%|(?!0(\.0+)?%)[1-9]?[0-9](\.[0-9]{1,2})?%", "a percentage above 0% such as 5%"),
    "CACHE_FREE": (r"[1-9][0-9]{0,8}[kKmMgG]", "a size such as 1g"),
    "QUEUE_TIME": TIME,
    "ANSWER_TIME": TIME,
    "WEB_TIME": TIME,
    "WATCH_SECONDS": COUNT,
    "WEB_FOLDER": (r"/[A-Za-z0-9_./@+-]*", "an absolute path without spaces and colons"),
    "CACHE_SIZE": (r"[1-9][0-9]{0,8}[kKmMgG]", "a size such as 4g"),
    "CACHE_NAME": (r"[A-Za-z0-9_.-]+", "a word"),
    "WEB_LOG": PATH,
    "WEB_ERRORS": PATH,
    "PROXY_CONNECTIONS": COUNT,
    "PROXY_USER": USER,
    "BACKUP_TIMES": CALENDAR,
    "INDEX_TIMES": CALENDAR,
    "INDEX_FOLDER": PATH_OR_NONE,
    "COPY_AGE": TIME,
    "KEEP_QUARTERS": COUNT,
    "KEEP_DAYS": COUNT,
    "KEEP_MONTHS": COUNT,
    "SECOND_PLACE": (
        r"|([A-Za-z0-9_.@-]+:)?/[A-Za-z0-9_./@+-]*",
        "a folder such as /mnt/club or club@host:/srv/club, or empty",
    ),
    "ALARM_TO": (r"[A-Za-z0-9_.@+-]+", "a mail address"),
}
# Release 1.1.0 wrote DEAR_READS, DEAR_READS_AT_ONCE and DEAR_CONNECTIONS.
OLD, NEW = "DEAR_", "SLOW_"
# How many lines of a members file are named.
MOST_FAULTS = 3
SECONDS = {"ms": 0.001, "s": 1, "m": 60, "h": 3600}


class BadSetting(Exception):
    """A problem of the settings, as a sentence."""


def lines_of(path: str) -> list[tuple[str, str]]:
    """The lines of a file that are settings, each with its place. Comments may have another encoding."""
    with open(path, "rb") as file:
        lines = [line.rstrip(b"\r\n") for line in file]
    return [
        (f"{path}, line {number}: ", line.decode(errors="replace"))
        for number, line in enumerate(lines, 1)
        if line.strip() and not line.startswith(b"#")
    ]


def taken(lines: Iterable[tuple[str, str]], known: Container[str]) -> dict[str, str]:
    """The settings in these lines, under their new names. Each line comes with a text to put before its error. `known`
    has the names of all settings."""
    settings = {}
    for place, line in lines:
        found = LINE.fullmatch(line)
        if not found:
            raise BadSetting(f"{place}not a setting: {line}")
        name = found[1].replace(OLD, NEW)
        if name not in known:
            raise BadSetting(f"{place}no such setting: {found[1]}")
        settings[name] = found[2].strip()
    return settings


def old_names(path: str) -> str:
    """Which settings of a file have another name now, as a sentence; empty if none has."""
    names = [line.partition("=")[0] for _, line in lines_of(path) if line.startswith(OLD)]
    changed = ", ".join(f"{name} is {name.replace(OLD, NEW)} now" for name in names)
    return f"{path}: {changed}; the old name works, too" if changed else ""


def check_one(name: str, value: str) -> None:
    form, words = FORMS[name]
    port = re.search(r"[0-9]+$", value) if name.endswith("PORT") or name.startswith(("LISTEN", "REDIRECT")) else None
    if not re.fullmatch(form, value) or (port and int(port[0]) > 65535):
        raise BadSetting(f"{name}={value}: it has to be {words}")


def seconds(value: str) -> float:
    number, unit = re.split(r"(?<=[0-9])(?=[a-z])", value)
    return int(number) * SECONDS[unit]


def mebibytes(value: str) -> float:
    """An amount of memory, as systemd reads it."""
    return int(value[:-1]) * 1024.0 ** ("KMGT".index(value[-1]) - 1)


def is_calendar(value: str) -> bool:
    """Whether systemd accepts these times. Without its tool every text is accepted."""
    if not shutil.which("systemd-analyze"):
        return True
    return (
        subprocess.run(["systemd-analyze", "calendar", value], capture_output=True, timeout=60, check=False).returncode
        == 0
    )


def check_passwords(settings: dict[str, str]) -> None:
    """Refuses a gateway that sends passwords unencrypted. Copies and restores don't check this."""
    if settings["MEMBERS_FILE"] and settings["TLS"] == "no" and not is_here_alone(settings):
        raise BadSetting(
            "MEMBERS_FILE needs TLS=yes, or LISTEN and LISTEN_ALSO only on 127.0.0.1 and [::1]: "
            "otherwise passwords travel unencrypted"
        )


def check_times(settings: dict[str, str]) -> None:
    """Refuses times with which a waiting request would expire before the one ahead of it, or the program would be
    stopped while somebody still waits for its answer."""
    queue, answer = seconds(settings["QUEUE_TIME"]), seconds(settings["ANSWER_TIME"])
    if seconds(settings["WEB_TIME"]) <= queue + answer:
        raise BadSetting("WEB_TIME has to be longer than QUEUE_TIME and ANSWER_TIME together")
    for name, value in (("QUEUE_TIME", queue), ("WATCH_SECONDS", int(settings["WATCH_SECONDS"]))):
        if value <= answer:
            raise BadSetting(f"{name} has to be longer than ANSWER_TIME")


def is_here_alone(settings: dict[str, str]) -> bool:
    """Whether nginx only listens on this machine's own addresses."""
    return all(re.match(r"127\.|localhost:|\[::1\]:|$", settings[name]) for name in ("LISTEN", "LISTEN_ALSO"))


def check_reader(settings: dict[str, str], user: str = "www-data") -> None:
    """Refuses a members file that nginx, running as this user, can't read. Only root can check that, and only if the
    user exists."""
    path = settings["MEMBERS_FILE"]
    if path and can(user, "-r", path) is False:
        raise BadSetting(f"MEMBERS_FILE={path}: {user} can't read it: chown root:{user}, chmod 640")


def check_secrecy(settings: dict[str, str]) -> None:
    """Refuses a members file that every user of this machine can read: hashes can be guessed."""
    path = settings["MEMBERS_FILE"]
    if path and can("nobody", "-r", path):
        raise BadSetting(f"MEMBERS_FILE={path}: every user of this machine can read it: chown root:www-data, chmod 640")


# The names that the program accepts, and the forms of hashes that nginx and Debian's crypt(3) know.
MEMBER = re.compile(r"[a-z0-9-]{1,32}")
HASH = re.compile(r"\$(1|2[abxy]|5|6|7|apr1|gy|y)\$.+|\{(PLAIN|SHA|SSHA)\}.+|[./0-9A-Za-z]{13}")


def check_members(settings: dict[str, str]) -> None:
    """Refuses a members file with lines that let no one deposit, if this user can read it."""
    path = settings["MEMBERS_FILE"]
    try:
        lines = lines_of(path) if path else []
    except OSError:
        return
    faults = [f"{place}{why}" for place, line in lines if (why := fault_of_member(line))]
    if path and not lines:
        faults = [f"MEMBERS_FILE={path}: it has no members, so no one can deposit"]
    if faults:
        more = f"; and {len(faults) - MOST_FAULTS} more" if len(faults) > MOST_FAULTS else ""
        raise BadSetting("; ".join(faults[:MOST_FAULTS]) + more)


def fault_of_member(line: str) -> str:
    """The problem with a line of a members file, if there is one."""
    name, _, rest = line.partition(":")
    if not MEMBER.fullmatch(name):
        return f"the program refuses the name {name!a}: it has to be 1 to 32 of a to z, 0 to 9 and -"
    return "" if HASH.fullmatch(rest.partition(":")[0]) else f"nginx does not know the form of the hash of {name}"


def can(user: str, what: str, path: str) -> bool | None:
    """Whether a user can do with a file what test(1) calls -r or -w. None if this is not root, or there is no such
    user."""
    try:
        known = pwd.getpwnam(user)
    except KeyError:
        return None
    if os.geteuid() != 0:
        return None
    groups = os.getgrouplist(user, known.pw_gid)
    words = ["test", what, path]
    done = subprocess.run(words, user=known.pw_uid, group=known.pw_gid, extra_groups=groups, check=False)
    return done.returncode == 0


def check_all(settings: dict[str, str]) -> None:
    """Refuses invalid values, and values that don't fit together."""
    for name, value in settings.items():
        check_one(name, value)
    ports = [settings[name] for name in ("LIFE_PORT", "PROXY_PORT", "METRICS_PORT")]
    if len(set(ports)) < len(ports):
        raise BadSetting("two of LIFE_PORT, PROXY_PORT and METRICS_PORT are the same port")
    if os.path.dirname(settings["ARCHIVE"]) != settings["ARCHIVE_FOLDER"].rstrip("/"):
        raise BadSetting("ARCHIVE is not in ARCHIVE_FOLDER")
    for name in ("BACKUP_TIMES", "INDEX_TIMES"):
        if not is_calendar(settings[name]):
            raise BadSetting(f"{name}={settings[name]}: it has to be {CALENDAR[1]}")


def settings_of(path: str | None, words: Iterable[str] = ()) -> dict[str, str]:
    """All settings, checked. Arguments override those of a file, which may be None, and these override the file next to
    the package."""
    settings = taken(lines_of(OWN), FORMS)
    if path:
        settings.update(taken(lines_of(path), settings))
    settings.update(taken((("", word) for word in words), settings))
    check_all(settings)
    return settings


def needed_of(path: str, names: Iterable[str]) -> tuple[dict[str, str], list[str]]:
    """Only these settings, for commands that have to work in an emergency, and the errors in the lines that were
    ignored. Each needed setting is checked; a file that can't be read has no settings."""
    settings, faults = taken(lines_of(OWN), FORMS), []
    for place, line in lines_of(path):
        try:
            settings.update(taken([(place, line)], settings))
        except BadSetting as fault:
            faults.append(str(fault))
    for name in names:
        check_one(name, settings[name])
    return {name: settings[name] for name in names}, faults


def end_if_wrong(name: str, path: str) -> dict[str, str]:
    """The settings of a file. If there is an error, ends the script, which has this name, with a line about it."""
    try:
        return settings_of(path)
    except (OSError, BadSetting) as fault:
        sys.exit(f"{name}: {fault}")


def end_if_unusable(name: str, path: str, needed: Iterable[str]) -> dict[str, str]:
    """The settings that an emergency command needs. Errors in other lines are printed and ignored."""
    try:
        settings, faults = needed_of(path, needed)
    except (OSError, BadSetting) as fault:
        sys.exit(f"{name}: {fault}")
    for wrong in faults:
        print(f"{name}: ignored: {wrong}", file=sys.stderr)
    return settings
