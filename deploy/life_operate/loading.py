"""Has systemd, HAProxy and nginx load whatever differs from their running state: units, configurations, certificates,
programs. Checks that nginx accepted it."""
import glob
import hashlib
import http.client
import os
import re
import ssl
import subprocess
import sys
import time
from collections.abc import Iterator

from life_operate.settings import BadSetting

UNITS = (
    "life.service",
    "life-gateway.service",
    "life-backup.timer",
    "life-age.timer",
    "life-sound.timer",
    "life-index.timer",
    "life-watch.timer",
)
UNIT_FOLDERS = ("/etc/systemd/system", "/run/systemd/system", "/usr/lib/systemd/system")
GATEWAY, NGINX = "life-gateway.service", "nginx.service"
HAPROXY = "/etc/life/haproxy.cfg"
ENABLED_SITE = "/etc/nginx/sites-enabled/life"
# A digest of the files that HAProxy and nginx read when life-configure last had them load these, and the newest worker
# of that moment. If somebody else reloads or restarts one, it has newer workers, and loads its files once more.
READ = {GATEWAY: "/run/life-gateway.read", NGINX: "/run/life-nginx.read"}
# A program or a library of Debian's in /proc/PID/maps, if its file has been replaced since.
REPLACED = re.compile(r"(?m)^\S+ ..x. .* /usr/\S+ \(deleted\)$")
# The files that nginx reads and `nginx -T` does not print: certificates, keys and the like.
TLS_FILE = re.compile(rb"(?m)^\s*ssl_[a-z_]+\s+\"?([^;\"\s]+)\"?\s*;")
DIGEST_ROUTE = "/.life-configured"
# For how many connections each process of nginx should have room: one client can hold some thousands with half a head.
CONNECTIONS = 8192
# How long nginx may take until its new workers answer, in seconds.
TAKEN_WITHIN = 10


def systemctl(*words: str) -> None:
    print("systemctl " + " ".join(words), flush=True)
    # A session of its own keeps a Ctrl-C away: what has begun ends.
    if subprocess.run(["systemctl", *words], stdin=subprocess.DEVNULL, start_new_session=True, check=False).returncode:
        raise BadSetting(f"systemctl {' '.join(words)} failed")


def shown(unit: str, name: str) -> str:
    words = ["systemctl", "show", f"--property={name}", "--value", unit]
    return subprocess.run(words, capture_output=True, text=True, check=False).stdout.strip()


def text_of(path: str) -> str:
    """The text of a file, or an empty one."""
    try:
        with open(path, encoding="ascii", errors="replace") as file:
            return file.read()
    except (FileNotFoundError, ProcessLookupError):
        return ""


def workers(unit: str) -> set[str]:
    """The processes of nginx or HAProxy that accept connections. For each load the main process starts new ones, and
    then tells the old ones to finish their requests. nginx's helpers for its cache are no workers."""
    main = shown(unit, "MainPID")
    children = text_of(f"/proc/{main}/task/{main}/children").split()
    return {
        child for child in children if not re.search("is shutting down|: cache ", text_of(f"/proc/{child}/cmdline"))
    }


def newest_worker(unit: str) -> int:
    return max((int(worker) for worker in workers(unit)), default=0)


def running(unit: str) -> tuple[str, str]:
    """The main process of a service and the path of its program; empty if it does not run."""
    main, program = shown(unit, "MainPID"), re.search(r"\bpath=(\S+)", shown(unit, "ExecStart"))
    return (main, program[1]) if main not in ("", "0") and program else ("", "")


def runs_replaced(unit: str) -> bool:
    """Whether a service still runs a program or a library that has been replaced on the disk."""
    main, program = running(unit)
    if not main:
        return False
    try:
        is_on_disk = os.path.samefile(f"/proc/{main}/exe", program)
    except FileNotFoundError:
        # The process has just ended, or a restart would fail: see `check_programs`.
        return False
    return not is_on_disk or REPLACED.search(text_of(f"/proc/{main}/maps")) is not None


def is_stale(unit: dict[str, str]) -> bool:
    """Whether systemd has not read the files of a unit since they changed. systemd itself overlooks drop-ins in a new
    folder."""
    read = {os.path.basename(path) for path in unit.get("DropInPaths", "").split()}
    found = [path for folder in UNIT_FOLDERS for path in glob.glob(f"{folder}/{glob.escape(unit['Id'])}.d/*.conf")]
    return unit.get("NeedDaemonReload") == "yes" or any(
        os.path.isfile(path) and os.path.basename(path) not in read for path in found
    )


def not_reloaded() -> set[str]:
    """The archive's units, and nginx's, whose files systemd has not read since they changed."""
    names = {
        os.path.basename(path)
        for folder in UNIT_FOLDERS
        for path in glob.glob(f"{folder}/life*")
        if path.endswith((".service", ".timer")) and "@" not in path
    }
    words = ["systemctl", "show", "--property=Id,NeedDaemonReload,DropInPaths", *sorted(names), NGINX]
    done = subprocess.run(words, capture_output=True, text=True, check=False)
    units = [dict(line.split("=", 1) for line in unit.splitlines()) for unit in done.stdout.split("\n\n")]
    return {unit["Id"] for unit in units if "Id" in unit and is_stale(unit)}


def load_units(changed: list[str]) -> bool:
    """Has systemd read units that differ from those that it knows, and restarts services and timers that these or
    another program concern; returns whether there were any. A service that is stopped stays so."""
    stale = not_reloaded()
    if stale or any(name.endswith((".service", ".timer")) for name in changed):
        systemctl("daemon-reload")
    names = [name for name in UNITS if name in changed or name in stale or runs_replaced(name)]
    for name in names:
        systemctl("try-restart", name)
    # If it was stopped or had failed, it was not restarted, and has read nothing.
    if GATEWAY in names and shown(GATEWAY, "ActiveState") == "active" and os.path.exists(HAPROXY):
        note_read(GATEWAY, haproxy_digest())
    return bool(stale or names)


def check_programs() -> None:
    """A service whose program is gone from the disk runs until its next start. It is not restarted."""
    for unit in (*UNITS, NGINX):
        program = running(unit)[1]
        if program and not os.path.exists(program):
            raise BadSetting(f"{unit} runs {program}, which is missing now: install it again")


def has_read(unit: str, digest: str) -> bool:
    """Whether a service last read files with this digest, when life-configure had it load them."""
    return text_of(READ[unit]) == f"{digest} {newest_worker(unit)}"


def note_read(unit: str, digest: str) -> None:
    with open(READ[unit], "w", encoding="ascii") as file:
        file.write(f"{digest} {newest_worker(unit)}")


def haproxy_digest() -> str:
    with open(HAPROXY, "rb") as file:
        return hashlib.sha256(file.read()).hexdigest()


def load_haproxy() -> bool:
    """Has HAProxy load its configuration, if it may have read another one; returns whether it did. An HAProxy that
    failed is started."""
    state = shown(GATEWAY, "ActiveState")
    if not os.path.exists(HAPROXY) or state not in ("active", "failed"):
        return False
    digest = haproxy_digest()
    if has_read(GATEWAY, digest):
        return False
    if state == "failed":
        systemctl("reset-failed", GATEWAY)
    systemctl("reload-or-restart", GATEWAY)
    note_read(GATEWAY, digest)
    return True


# ---- nginx


def address_of(settings: dict[str, str]) -> tuple[str, int]:
    """The address at which this machine's nginx listens, from the setting LISTEN."""
    host, _, port = settings["LISTEN"].rpartition(":")
    wild = {"": "127.0.0.1", "*": "127.0.0.1", "0.0.0.0": "127.0.0.1", "[::]": "::1"}
    return wild.get(host, host.strip("[]")), int(port)


def name_of(settings: dict[str, str]) -> str:
    """A host name of the site. Without HOST, any name leads to the site that answers for all other names."""
    return settings["HOST"].split()[0].replace("*", "life").strip(".") if settings["HOST"] else "life.invalid"


def answer_of_nginx(settings: dict[str, str], path: str) -> tuple[int, str]:
    """The status and the beginning of the answer of this machine's nginx; 0 if there is none."""
    host, port = address_of(settings)
    if settings["TLS"] == "yes":
        asked: http.client.HTTPConnection = http.client.HTTPSConnection(
            host, port, timeout=5, context=ssl._create_unverified_context()
        )
    else:
        asked = http.client.HTTPConnection(host, port, timeout=5)
    try:
        asked.request("GET", path, headers={"host": name_of(settings), "connection": "close"})
        reply = asked.getresponse()
        return reply.status, reply.read(100).decode(errors="replace")
    except (OSError, http.client.HTTPException):
        return 0, ""
    finally:
        asked.close()


def digest_in(path: str) -> str:
    """The digest in a site's file, or an empty text."""
    if not os.path.exists(path):
        return ""
    with open(path, encoding="utf-8", errors="replace") as file:
        found = re.search(rf"location = {re.escape(DIGEST_ROUTE)} .*?return 200 '([0-9a-f]{{64}})'", file.read(), re.S)
    return found[1] if found else ""


def configuration() -> bytes:
    """All of the configuration that nginx would read now, the club's own lines and other sites too. What nginx refuses
    is refused, with its words."""
    # A session of its own keeps a Ctrl-C away, which would look like a refusal.
    done = subprocess.run(
        ["nginx", "-T", "-q"], stdin=subprocess.DEVNULL, capture_output=True, start_new_session=True, check=False
    )
    if done.returncode:
        said = done.stderr.decode(errors="replace").strip()
        why = re.search(r"\[emerg\] (?:[0-9#]+: )?(.+)", said)
        raise BadSetting(f"nginx was not reloaded, since it refuses its files: {why[1] if why else said}")
    return done.stdout


def digest_of(text: bytes) -> str:
    """The digest of a configuration, and of the files of TLS that it names."""
    digest = hashlib.sha256(text)
    for name in TLS_FILE.findall(text):
        path = os.path.join(b"/etc/nginx", name)
        if os.path.isfile(path):
            with open(path, "rb") as file:
                digest.update(hashlib.sha256(file.read()).digest())
    return digest.hexdigest()


def lack_of_room(text: bytes) -> Iterator[str]:
    """What to change if one client could take all connections of nginx. Debian's nginx.conf has room for 768."""
    connections = re.findall(rb"(?m)^[^#\n]*\bworker_connections\s+(\d+)", text)
    files = re.findall(rb"(?m)^\s*worker_rlimit_nofile\s+(\d+)", text) or re.findall(
        rb"(?m)^Max open files +(\d+)", text_of(f"/proc/{shown(NGINX, 'MainPID')}/limits").encode()
    )
    if int((connections or [b"512"])[-1]) < CONNECTIONS:
        yield f"one client can keep others out: set worker_connections {CONNECTIONS}; in /etc/nginx/nginx.conf"
    if files and int(files[-1]) < 2 * CONNECTIONS:
        yield "nginx may open too few files for its connections: systemctl restart nginx.service"


def load_nginx(settings: dict[str, str], site: str) -> bool:
    """Has nginx load its files, if it has read others; returns whether something differed. nginx refuses some changes
    only while it runs, such as another cache folder; its log says so. A restart would end the connections of all
    sites, so only a line asks for it."""
    if not os.path.exists(ENABLED_SITE):
        return False
    text = configuration()
    digest = digest_of(text)
    if shown(NGINX, "ActiveState") != "active":
        return False
    wanted, before, is_old = digest_in(site), workers(NGINX), runs_replaced(NGINX)
    for line in lack_of_room(text):
        print(line, file=sys.stderr, flush=True)
    if is_old:
        print(f"nginx or one of its libraries was replaced: systemctl restart {NGINX}", file=sys.stderr, flush=True)

    def is_served() -> bool:
        return not wanted or answer_of_nginx(settings, DIGEST_ROUTE)[1] == wanted

    if has_read(NGINX, digest) and is_served():
        return is_old
    print("nginx has to read its files again", flush=True)
    systemctl("reload", NGINX)
    until = time.monotonic() + TAKEN_WITHIN
    while workers(NGINX) & before or not is_served():
        if time.monotonic() > until:
            raise BadSetting(
                f"nginx keeps the old site; its error log says why. To load the new one: systemctl restart {NGINX}"
            )
        time.sleep(0.2)
    note_read(NGINX, digest)
    return True


def load(changed: list[str], settings: dict[str, str], site: str) -> bool:
    """Loads every difference from the running state; returns whether there was one. A stopped service stays stopped."""
    has_loaded = any([load_units(changed), load_haproxy(), load_nginx(settings, site)])
    check_programs()
    return has_loaded
