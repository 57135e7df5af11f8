"""The packages of deploy/package on a fresh Debian, with systemd for real: installed, used through nginx, switched off,
copied, configured; and the mistakes of an administrator, which are the table of tests/admin_errors.py. The machine has
namespaces and a network of its own; its sshd, its logrotate and a sendmail are Debian's. Root on Debian is needed, and
mmdebstrap.
"""
import glob
import gzip
import os
import re
import shutil
import signal
import subprocess
import tempfile
from collections.abc import Iterator
from pathlib import Path
from types import FrameType

import pytest

import clients
import machine
import scripts
from debian import (
    ARCHIVE,
    COPIES,
    LATER,
    LATEST,
    SENDMAIL,
    VERSION,
    WITHOUT_TLS,
    WITH_TLS,
    Debian,
    Packages,
    alarms,
    configured,
    copies,
    curl,
    installed,
    main_process,
    over,
    pattern,
    state,
    status_of,
    sums,
    text_of,
    until,
)
from clients import HERE, certify, check, same
from admin_errors import AFTER_AN_OLDER_COPY, MISTAKES, Mistake, try_mistake
from admin_errors_files import OLDER_COPY
from walks import drawn
from drifts import CERTIFICATE, DRIFTS, EXCHANGE, KEY, RUNS, Drift
from debian_walks import WEIGHT_OF, fault_of_walk

pytestmark = pytest.mark.full

TOP = os.path.dirname(HERE)
# Where a Debian of tests/machine.py is kept for the next run: to make it takes a minute.
TAR = os.environ.get("LIFE_DEBIAN", "")


# ---- the machine


def end_tests(number: int, _frame: FrameType | None) -> None:
    pytest.exit(f"ended by {signal.Signals(number).name}", 128 + number)


@pytest.fixture(scope="module")
def room() -> Iterator[str]:
    """A folder on a disk: a Debian is too large for memory. A signal that ends the tests removes the folder, and ends
    the machine."""
    before = {number: signal.signal(number, end_tests) for number in (signal.SIGTERM, signal.SIGHUP)}
    path = tempfile.mkdtemp(prefix="life-boot-")
    yield path
    shutil.rmtree(path, ignore_errors=True)
    for number, handler in before.items():
        signal.signal(number, handler)


@pytest.fixture(scope="module")
def built(room: str) -> Packages:
    """The packages. All that needs them is skipped if they can't be made or booted here."""
    if why := machine.missing():
        pytest.skip(f"{why}, so no machine is booted")
    built = Packages(room)
    if "x86-64-v" in (why := built.make(built.out, VERSION)):
        pytest.skip(f"{why.splitlines()[0]}: so there are no packages, and no machine is booted")
    built.make(built.again, VERSION)
    for version in (LATER, LATEST):
        built.make(built.out, version)
    built.change_settings(LATER)
    return built


@pytest.fixture(scope="module")
def fresh(room: str, built: Packages) -> Iterator[Debian]:
    """A fresh Debian that runs, with the packages in /srv, and another site."""
    tar = TAR or os.path.join(room, "debian.tar")
    if not os.path.exists(tar) and (why := machine.make(tar)):
        pytest.skip(f"mmdebstrap makes no Debian here ({why}), so no machine is booted")
    debian = Debian(os.path.join(room, "debian"), tar)
    try:
        for name in os.listdir(built.out):
            shutil.copy(os.path.join(built.out, name), debian.path("/srv"))
        os.rename(debian.path(SENDMAIL), debian.path(SENDMAIL + ".away"))
        os.makedirs(debian.path("/var/www/other"))
        with open(debian.path("/var/www/other/index.html"), "w", encoding="utf-8") as file:
            file.write("another site\n")
        with open(debian.path("/etc/nginx/sites-enabled/other"), "w", encoding="utf-8") as file:
            file.write("server { listen 80; server_name other.example; root /var/www/other; }\n")
        if debian.boot() == "not up":
            pytest.fail("the machine does not boot")
        yield debian
    finally:
        debian.end()


@pytest.fixture(scope="module")
def debian(fresh: Debian) -> Debian:
    """The machine with the packages, which serves deposits. If test_installation did not run, they are installed
    now."""
    if not fresh.ledger:
        installed(fresh, VERSION)
        until(lambda: curl(fresh, "/deposits/after/0") == ("200", '{"deposits":[]}'))
        while len(fresh.ledger) < 3 and fresh.deposit():
            pass
    if state(fresh) != "active":
        pytest.fail("the packages are not installed, or the archive is not served")
    return fresh


@pytest.fixture(scope="module")
def first_copy(debian: Debian) -> None:
    """Makes a copy of the archive, if test_timer did not run."""
    if not copies(debian):
        debian.shell("systemctl start life-backup.service")


# ---- the packages


def test_packages(built: Packages) -> None:
    """Packages of three versions. The same clone gives the same bytes."""
    for version, done in built.made:
        same(f"packages of version {version}: {done.stderr}", done.returncode, 0)
    names = sorted(os.listdir(built.again))
    same("there are three files and a checksum", len(names), 4)
    for name in names:
        with open(os.path.join(built.out, name), "rb") as one, open(os.path.join(built.again, name), "rb") as other:
            same(f"the same bytes of {name}", one.read(), other.read())
    summed = subprocess.run(
        ["sha256sum", "--check", "--quiet", *[name for name in names if name.endswith(".sha256")]],
        cwd=built.again,
        timeout=60,
    )
    same("the checksum is right", summed.returncode, 0)


def test_lintian(built: Packages) -> None:
    """lintian finds no error."""
    if not shutil.which("lintian"):
        pytest.skip("lintian is not installed, so the packages are not read by it")
    words = ["lintian", "--allow-root", *glob.glob(os.path.join(built.again, "*.deb"))]
    done = subprocess.run(words, capture_output=True, text=True, timeout=300)
    same(f"lintian is silent: {done.stdout}", (done.returncode, done.stdout), (0, ""))


@pytest.fixture(scope="module")
def tree(room: str, built: Packages) -> str:
    """The files of the package, in a folder."""
    path = os.path.join(room, "tree")
    subprocess.run(
        ["dpkg-deb", "--extract", os.path.join(built.out, f"life_{VERSION}_amd64.deb"), path], check=True, timeout=60
    )
    return path


def test_manual_pages(tree: str) -> None:
    """The manual pages of the package name only documents and manual pages that it has."""
    pages = {
        os.path.relpath(path, tree): os.path.realpath(path) for path in glob.glob(f"{tree}/usr/share/man/man*/*.gz")
    }
    check(
        f"commands with a manual page: {sorted(pages)}",
        {f"usr/share/man/man8/{name}.8.gz" for name in os.listdir(f"{tree}/usr/lib/life") if name.startswith("life-")}
        <= set(pages),
    )
    for name, path in pages.items():
        with gzip.open(path, "rt", encoding="utf-8") as file:
            text = file.read().replace("\\-", "-")
        gone = [one for one in re.findall(r"/usr/share/doc/life/[\w.]+\.gz", text) if not os.path.exists(tree + one)]
        gone += [
            one
            for one in re.findall(r"(life[a-z-]*)\((\d)\)", text)
            if "usr/share/man/man{1}/{0}.{1}.gz".format(*one) not in pages
        ]
        check(f"{name} names what is there: {gone}", gone == [] and not re.search("docs/[A-Z]", text))


def test_links(tree: str) -> None:
    """Each relative link or picture of a document in the package leads to a file that the package has."""
    folder, found = f"{tree}/usr/share/doc/life", {}
    for path in glob.glob(f"{folder}/*.*.gz"):
        with gzip.open(path, "rt", encoding="utf-8") as file:
            text = re.sub(r"`[^`\n]*`", "``", file.read())
        targets = re.findall(r"\]\(([^)]*)\)", text) + re.findall(r'(?:src|href)="([^"]*)"', text)
        relative = [one.split("#")[0] for one in targets if not re.match("[a-z]+:|#", one)]
        gone = [one for one in relative if not os.path.isfile(os.path.join(folder, one))]
        same(f"what {os.path.basename(path)} leads to and is missing", gone, [])
        found[os.path.basename(path)] = len(relative)
    check(f"README still leads to other documents: {found}", found["README.md.gz"] > 20)
    check("the rows of all clauses are beside PROOFS", found["CLAUSES.md.gz"] > 0)


# A haul of a few soups, and the two ranges that it is made of.
RANGE, RANGES = ("0", "20"), (("0", "10"), ("10", "10"))
# In place of Slurm's: runs all tasks of a job at once.
SBATCH = """#!/bin/sh
cat > "$0.job"
tasks=1
for word; do case $word in --array=1-*) tasks=${word#--array=1-} ;; esac; done
for task in $(seq "$tasks"); do SLURM_ARRAY_TASK_ID=$task sh "$0.job" || exit; done
echo 1
"""


class Scripts:
    """The scripts of the package. They run in a folder, with the package's programs first on their PATH."""

    def __init__(self, tree: str, folder: str) -> None:
        self.examples, self.folder = f"{tree}/usr/share/doc/life/examples", folder
        self.environment = {"PATH": f"{folder}/bin:{tree}/usr/bin:/usr/bin:/bin", "HOME": folder}
        self.tried: set[str] = set()

    def run(self, name: str, *words: str) -> str:
        """What a script prints, which has to succeed."""
        self.tried.add(name)
        return self.output(f"{self.examples}/{name}", *words)

    def output(self, *words: str) -> str:
        status, output, errors = scripts.said(*words, env=self.environment, cwd=self.folder)
        same(f"{os.path.basename(words[0])} succeeds: {errors}", status, 0)
        return output

    def haul(self, path: str, first: str, count: str) -> str:
        """A haul by the program, whose table is also written into a file."""
        table = self.output("life-haul", "ann-2026", first, count, "500", "60")
        with open(os.path.join(self.folder, path), "w", encoding="ascii") as file:
            file.write(table)
        return table


@pytest.fixture
def packaged(tree: str, tmp_path: Path) -> Scripts:
    """The scripts of the package, with a stand-in for Slurm."""
    scripts.needs("curl", "parallel", "sqlite3")
    (tmp_path / "bin").mkdir()
    (tmp_path / "bin" / "sbatch").write_text(SBATCH)
    (tmp_path / "bin" / "sbatch").chmod(0o755)
    return Scripts(tree, str(tmp_path))


def test_scripts(tree: str, packaged: Scripts, monkeypatch: pytest.MonkeyPatch) -> None:
    """Each script finds in the package what it runs and reads."""
    run, folder = packaged.run, packaged.folder
    whole = packaged.haul("ann.csv", *RANGE)
    for first, count in RANGES:
        packaged.haul(f"{first}.csv", first, count)
    words = ["ann-2026", *RANGE, "500", "60", "--size", "10", "--folder"]
    same("the sum of two tables", run("scripts/add-hauls", *[f"{first}.csv" for first, _ in RANGES]), whole)
    same("a haul by GNU Parallel", run("haul/parallel", *words, "by-parallel"), whole)
    check("a haul by Slurm", run("haul/slurm", *words, "by-slurm").startswith("pieces: 2 of 2, jobs 1\n"))
    with open(f"{folder}/by-slurm/sum.csv", encoding="ascii") as file:
        same("its sum", file.read(), whole)
    check("a picture names the block", ">block</text>" in run("scripts/plot-haul", "ann.csv"))
    monkeypatch.setattr(clients, "PROGRAM", f"{tree}/usr/bin/life")
    with clients.Server(f"{folder}/club.db", 1000) as server:
        url, many = scripts.url(server), len(glob.glob(f"{packaged.examples}/*.rle"))
        check("there are patterns", many > 2)
        for name, *more in (
            ("put-folder", "ann", packaged.examples),
            ("get-folder", "copies"),
            ("census-all", "ann", "0", "60"),
        ):
            same(f"lines of {name}", len(run(f"scripts/{name}", url, *more).splitlines()), many)
        finds = run("scripts/deposit-finds", url, "ann.csv", "ann", "2").splitlines()
        check(f"two finds: {finds}", len(finds) == 2 and all(f"\n{find.split()[0]}," in whole for find in finds))
    # Those that the others include.
    included = {"haul/pieces.py", "scripts/asking.sh", "scripts/record.sh"}
    there = {f"{place}/{name}" for place in ("haul", "scripts") for name in os.listdir(f"{packaged.examples}/{place}")}
    same("each script of the package is tried", packaged.tried | included, there)


def test_old_processor(fresh: Debian) -> None:
    """On a processor before x86-64-v2 nothing is unpacked, and one sentence says why."""
    fresh.shell(
        "grep -v '^flags' /proc/cpuinfo > /srv/cpuinfo; echo 'flags : fpu sse sse2 popcnt' >> /srv/cpuinfo; "
        "mount --bind /srv/cpuinfo /proc/cpuinfo"
    )
    done = installed(fresh, VERSION)
    fresh.shell("umount /proc/cpuinfo; rm /srv/cpuinfo")
    check(
        f"an old processor: {done.stderr[-300:]}",
        done.returncode != 0
        and "this processor lacks sse4_2" in done.stdout + done.stderr
        and not os.path.exists(fresh.path("/usr/bin/life"))
        and "life" not in fresh.run("dpkg-query", "-W", "-f", "${Package} ").stdout,
    )


def test_installation(fresh: Debian) -> None:
    """Two packages, and the archive answers: new, said so, with another site beside it."""
    same("the machine is up", fresh.run("systemctl", "is-system-running").stdout.strip(), "running")
    done = installed(fresh, VERSION)
    same(f"the packages are installed: {done.stderr[-300:]}", done.returncode, 0)
    check("a new archive is said", f"{ARCHIVE} is a new archive" in done.stdout)
    check(
        "units are up",
        until(
            lambda: [
                state(fresh, unit)
                for unit in (
                    "life.service",
                    "life-gateway.service",
                    "nginx.service",
                    "life-watch.timer",
                    "life-backup.timer",
                    "life-age.timer",
                    "life-sound.timer",
                    "life-index.timer",
                )
            ]
            == ["active"] * 8
        ),
    )
    check("the list through nginx", until(lambda: curl(fresh, "/deposits/after/0") == ("200", '{"deposits":[]}')))
    same("deposits through nginx", [fresh.deposit() for _ in range(3)], [True] * 3)
    check("the web pages", curl(fresh, "/")[0] == "200" and "<script" in curl(fresh, "/")[1])
    same("by IPv6", fresh.run("curl", "-s", "-g", "http://[::1]/deposits/1").stdout, pattern(1))
    same("the other site", curl(fresh, "/", "-H", "host: other.example"), ("200", "another site\n"))
    same(
        "the archive is its user's alone",
        fresh.run("stat", "-c", "%U %a", ARCHIVE, "/var/lib/life").stdout,
        "life 600\nlife 700\n",
    )
    failed = fresh.run("systemctl", "--failed", "--quiet").stdout
    same(f"nothing has failed: {failed}", failed, "")


def test_shut_in(debian: Debian) -> None:
    """What systemd itself says of how far each unit is shut in: an exposure below 2, but for the alarm, which may send
    mail."""
    names = [
        name
        for name in os.listdir(debian.path("/usr/lib/systemd/system"))
        if name.startswith("life") and name.endswith(".service")
    ]
    check(f"the units of the packages: {names}", len(names) >= 8)
    for name in names:
        done = debian.run("systemd-analyze", "security", "--no-pager", name.replace("@", "@trial"))
        exposure = re.search(r"exposure level for \S+: ([0-9.]+)", done.stdout)
        most = 5.0 if name.startswith("life-alarm@") else 2.0
        check(
            f"the exposure of {name}: {exposure and exposure[1]}: {done.stderr}",
            exposure is not None and float(exposure[1]) < most,
        )


def test_off_and_on(debian: Debian) -> None:
    """The machine is switched off and on again: all is there."""
    check("switched off", debian.switch_off())
    same("on again", debian.boot(), "running")
    check(
        "all is there",
        until(lambda: state(debian) == "active")
        and debian.has_all()
        and until(lambda: curl(debian, "/deposits/3") == ("200", pattern(3))),
    )


def test_timer(debian: Debian) -> None:
    """The timer makes a copy, which is an archive, and says so in the metrics."""
    same("another time is configured", configured(debian, BACKUP_TIMES="*:*:0/3").returncode, 0)
    check(
        f"the timer makes a copy: {status_of(debian, 'life-backup.service')}", until(lambda: len(copies(debian)) >= 1)
    )
    same("the time is as it was", configured(debian, BACKUP_TIMES="*:0/15").returncode, 0)
    until(lambda: state(debian, "life-backup.service") == "inactive")
    check(
        "the metrics have it",
        'life_copy_rows{table="deposits"} 3' in debian.run("cat", "/var/lib/life-metrics/life.prom").stdout,
    )
    same("no copy has failed", alarms(debian, "life-backup.service"), 0)


@pytest.mark.usefixtures("first_copy")
def test_ages(debian: Debian) -> None:
    """That no good copy was made for hours is one alarm, however often it is looked at, and another one after the next
    good copy."""
    begun = alarms(debian, "life-age.service")
    for turn in (1, 2):
        for place, name in enumerate(copies(debian)):
            os.rename(
                debian.path(f"{COPIES}/{name}"), debian.path(f"{COPIES}/club-202{turn}-01-0{place % 9 + 1}T0000.db")
            )
        # More than five starts in ten seconds are refused.
        debian.run("systemctl", "reset-failed", "life-age.service", "life-backup.service")
        statuses = [debian.run("systemctl", "start", "life-age.service").returncode for _ in range(3)]
        check(f"old copies are a failure: {statuses}", 0 not in statuses)
        # Alarms of failures that follow one another at once come one after the other.
        check(
            "the alarm has come",
            until(
                lambda: "life-alarm" not in debian.run("systemctl", "list-jobs", "--no-legend").stdout
                and state(debian, "life-alarm@life-age.service.service") == "inactive"
            ),
        )
        check(
            "an alarm about old copies is sent",
            until(lambda: alarms(debian, "life-age.service") == begun + turn),
        )
        # An alarm has the unit's last lines, among which that line may be, too.
        before = over(debian, "life-age.service")
        same("a new copy", debian.run("systemctl", "start", "life-backup.service").returncode, 0)
        check(
            "its age is good",
            debian.run("systemctl", "start", "life-age.service").returncode == 0
            and copies(debian)[-1] in status_of(debian, "life-age.service"),
        )
        check(
            "one alarm says that it has recovered",
            until(lambda: over(debian, "life-age.service") == before + 1),
        )


@pytest.mark.usefixtures("first_copy")
def test_sound(debian: Debian) -> None:
    """Every row of the newest copy is read. One that is damaged is an alarm, and another one once it is sound again."""
    unit = "life-sound.service"
    debian.run("systemctl", "stop", "life-backup.timer")
    same("the newest copy is read", debian.run("systemctl", "start", unit).returncode, 0)
    newest = copies(debian)[-1]
    check("the unit says that it is sound", f"{newest}: sound: 3 deposits, 0 censuses" in status_of(debian, unit))
    path, begun, over_before = debian.path(f"{COPIES}/{newest}"), alarms(debian, unit), over(debian, unit)
    with open(path, "r+b") as file:
        good = file.read()
        file.seek(0)
        file.write(b"x" * 4096)
    check("a damaged copy is a failure", debian.run("systemctl", "start", unit).returncode != 0)
    check("and an alarm", until(lambda: alarms(debian, unit) == begun + 1))
    with open(path, "r+b") as file:
        file.write(good)
    same("it is sound again", debian.run("systemctl", "start", unit).returncode, 0)
    check("one alarm says so", until(lambda: over(debian, unit) == over_before + 1))
    debian.run("systemctl", "start", "life-backup.timer")


def test_stopped(debian: Debian) -> None:
    """An archive that is enabled and does not run for ten minutes is an alarm; so is one that serves another file than
    the one that has its name. nginx that is killed is back."""
    debian.run("sh", "-c", "systemctl stop life-age.timer life.service; systemctl reset-failed life-age.service")
    before = alarms(debian, "life-age.service")
    same("a stop is no failure at first", debian.run("systemctl", "start", "life-age.service").returncode, 0)
    debian.run("touch", "-d", "-11 minutes", "/run/life-age/life.service")
    check(
        "it is one after ten minutes",
        debian.run("systemctl", "start", "life-age.service").returncode != 0
        and until(lambda: alarms(debian, "life-age.service") == before + 1),
    )
    check("its status says so", "life.service is enabled but not running" in status_of(debian, "life-age.service"))
    debian.run("sh", "-c", "systemctl start life.service; systemctl reset-failed life-age.service")
    check(
        "after a start it is over",
        state(debian) == "active" and debian.run("systemctl", "start", "life-age.service").returncode == 0,
    )
    debian.run(
        "sh",
        "-c",
        f"mv {ARCHIVE} /srv/served.db; install -o life -g life -m 600 /srv/served.db {ARCHIVE}; "
        "systemctl reset-failed life-age.service",
    )
    failed = debian.run("systemctl", "start", "life-age.service").returncode
    check(
        "another file in the place of the one that is served",
        failed != 0 and "is not the file that life.service has open" in status_of(debian, "life-age.service"),
    )
    debian.run(
        "sh",
        "-c",
        f"mv /srv/served.db {ARCHIVE}; systemctl reset-failed life-age.service; systemctl start life-age.timer",
    )
    check("the file is back", debian.run("systemctl", "start", "life-age.service").returncode == 0 and debian.has_all())
    master = debian.run("systemctl", "show", "--property=MainPID", "--value", "nginx.service").stdout.strip()
    debian.run("kill", "-9", master)
    check(
        "nginx is back",
        until(
            lambda: state(debian, "nginx.service") == "active" and curl(debian, "/deposits/2") == ("200", pattern(2))
        ),
    )


def test_loaded(debian: Debian) -> None:
    """What nginx refuses only when it runs is said, until it is restarted; what `nginx -t` refuses leaves what was
    there."""
    debian.run("install", "-d", "-o", "www-data", "-g", "www-data", "/var/cache/life-two")
    check(
        "another folder for the cache",
        configured(debian, WEB_FOLDER="/var/cache/life-two").returncode == 0
        and curl(debian, "/deposits/1") == ("200", pattern(1)),
    )
    same("the folder as it was", configured(debian, WEB_FOLDER="/var/cache/life").returncode, 0)
    done = configured(debian, LISTEN="22", LISTEN_ALSO="")
    check(
        f"nginx keeps the old site if another program has the port, and a line says so: {done.stderr}",
        done.returncode == 1 and "systemctl restart nginx.service" in done.stderr,
    )
    check(
        "so it is the second time",
        debian.run("life-configure").returncode == 1 and curl(debian, "/deposits/1") == ("200", pattern(1)),
    )
    check(
        "with a free port all is well",
        configured(debian, LISTEN="80", LISTEN_ALSO="[::]:80").returncode == 0
        and curl(debian, "/deposits/1") == ("200", pattern(1)),
    )
    done = configured(
        debian,
        TLS="yes",
        LISTEN="443",
        LISTEN_ALSO="[::]:443",
        TLS_CERTIFICATE="/srv/none.pem",
        TLS_KEY="/srv/none.key",
    )
    check(
        f"TLS without a certificate is refused: {done.stderr}",
        done.returncode == 1 and "was not changed" in done.stderr,
    )
    again = debian.run("life-configure", "--files-only")
    check(
        "an upgrade does not write it either", again.returncode == 1 and debian.run("nginx", "-t", "-q").returncode == 0
    )
    debian.run("systemctl", "restart", "nginx.service")
    check("nginx starts, and gives what it gave", until(lambda: curl(debian, "/deposits/1") == ("200", pattern(1))))
    same("without TLS all is well", configured(debian, TLS="no", LISTEN="80", LISTEN_ALSO="[::]:80").returncode, 0)


def test_rotation(debian: Debian) -> None:
    """logrotate rotates the logs of the site, once, where they are by default and elsewhere. nginx writes on into new
    files."""
    for folder, file in (("/var/log/nginx", "nginx"), ("/var/log/club", "life-gateway")):
        log = f"{folder}/life.log"
        debian.run("install", "-d", "-o", "www-data", "-g", "adm", "-m", "755", folder)
        same(
            f"logs in {folder}",
            configured(debian, WEB_LOG=log, WEB_ERRORS=f"{folder}/life-error.log", READS_LOGGED="100%").returncode,
            0,
        )
        check(
            f"{log} has a request",
            until(lambda: curl(debian, "/deposits/1?before") and "?before" in text_of(debian, log)),
        )
        trial = debian.run("logrotate", "--debug", "/etc/logrotate.conf")
        check(
            f"logrotate has {log} once, and no fault: {trial.stderr}",
            trial.returncode == 0
            and trial.stderr.count(f"considering log {log}\n") == 1
            and "error:" not in trial.stderr,
        )
        check(
            f"{log} is rotated",
            debian.run("logrotate", "--force", f"/etc/logrotate.d/{file}").returncode == 0
            and "?before" in text_of(debian, log + ".1"),
        )
        check(
            "nginx writes on",
            until(lambda: curl(debian, "/deposits/1?after") and "?after" in text_of(debian, log)),
        )
    check(
        "logrotate runs each hour",
        "*:00:00" in debian.run("systemctl", "show", "logrotate.timer", "--property=TimersCalendar").stdout,
    )
    same(
        "logs as they were",
        configured(
            debian, WEB_LOG="/var/log/life-gateway/requests.log", WEB_ERRORS="/var/log/life-gateway/errors.log"
        ).returncode,
        0,
    )


def test_withdrawn(debian: Debian, first_copy: None) -> None:
    """A deposit is withdrawn and taken back by nginx and by the index, whose user can read the list."""
    listed_block = "$(grep -o 'deposits-1-[0-9a-f]*[.]json' /var/lib/life-index/index.json)"
    names = f"grep -c '\"withdrawn\":\\[2\\]' /var/lib/life-index/{listed_block}"
    for words, status, listed in ((["2", "a reason"], "410", "0"), (["--undo", "2"], "200", "1")):
        done = debian.run("life-withdraw", *words)
        check(f"life-withdraw {words}: {done.stdout}{done.stderr}", done.returncode == 0)
        same(f"the deposit after {words}", curl(debian, "/deposits/2")[0], status)
        same(f"the index after {words}", str(debian.run("sh", "-c", names).returncode), listed)
    same("the others", curl(debian, "/deposits/1"), ("200", pattern(1)))


def test_numbers(debian: Debian) -> None:
    """HAProxy's numbers for Prometheus are at the port that is set, from the unit as it is shut in, and nowhere if none
    is."""

    def count() -> int | None:
        found = re.search(
            r'(?m)^haproxy_backend_http_requests_total\{proxy="archive"\} ([0-9]+)$',
            debian.run("curl", "-s", "http://127.0.0.1:8404/metrics").stdout,
        )
        return int(found[1]) if found else None

    check(
        "a port for numbers",
        configured(debian, METRICS_PORT="8404").returncode == 0 and until(lambda: count() is not None),
    )
    before = count() or 0
    curl(debian, "/deposits/3000000")
    check(f"a request more than {before}", until(lambda: count() == before + 1))
    check(
        "no port for numbers",
        configured(debian, METRICS_PORT="").returncode == 0
        and until(lambda: debian.run("curl", "-s", "http://127.0.0.1:8404/metrics").returncode == 7),
    )


def test_second_place(debian: Debian) -> None:
    """The newest copy goes to another user's folder over ssh, by the unit as it is shut in. A machine that is not known
    is a failure."""
    script = (
        "set -e; useradd --create-home --home-dir /srv/elsewhere --shell /bin/sh club; "
        "install -d -o club -m 700 /srv/elsewhere/.ssh /srv/elsewhere/copies; "
        "install -d -o life -g life -m 700 /var/lib/life/.ssh; "
        "runuser -u life -- ssh-keygen -q -t ed25519 -N '' -f /var/lib/life/.ssh/id_ed25519; "
        "install -o club -m 600 /var/lib/life/.ssh/id_ed25519.pub /srv/elsewhere/.ssh/authorized_keys"
    )
    done = debian.run("sh", "-c", script)
    check(
        f"a user elsewhere: {done.stderr}",
        done.returncode == 0
        and configured(debian, SECOND_PLACE="club@127.0.0.1:/srv/elsewhere/copies").returncode == 0,
    )
    before = alarms(debian, "life-backup.service")
    check(
        "no copy to a machine that is not known",
        debian.run("systemctl", "start", "life-backup.service").returncode != 0,
    )
    check(
        "its status says so",
        "could not be sent to " in status_of(debian, "life-backup.service")
        and "Host key verification failed" in status_of(debian, "life-backup.service")
        and until(lambda: alarms(debian, "life-backup.service") == before + 1),
    )
    debian.run(
        "sh", "-c", "ssh-keyscan 127.0.0.1 > /var/lib/life/.ssh/known_hosts; chown life: /var/lib/life/.ssh/known_hosts"
    )
    same(
        f"a copy over ssh: {status_of(debian, 'life-backup.service')}",
        debian.run("systemctl", "start", "life-backup.service").returncode,
        0,
    )
    there = debian.path("/srv/elsewhere/copies")
    names = os.listdir(there)
    good = len(names) == 1 and re.fullmatch(r"club-\d{4}-\d\d-\d\d\.db", names[0])
    check(
        f"it is there under its day, as it is here: {names}",
        good and sums(f"{there}/{names[0]}") == sums(debian.path(f"{COPIES}/{copies(debian)[-1]}")),
    )
    same("no second place", configured(debian, SECOND_PLACE="").returncode, 0)


def test_mail(debian: Debian) -> None:
    """With a sendmail, here Debian's dma, an alarm is mail to ALARM_TO: it has the machine, the unit and the reason."""
    os.rename(debian.path(SENDMAIL + ".away"), debian.path(SENDMAIL))
    before = alarms(debian, "life.service")
    # The starts of the parts before count towards the limit of tries, too.
    debian.run(
        "sh",
        "-c",
        "systemctl stop life.service; systemctl reset-failed life.service; "
        f"mv {ARCHIVE} /srv/club.db; systemctl start life.service",
    )
    subject = f"Subject: life on {debian.run('uname', '-n').stdout.strip()}: life.service failed\n"
    check("root has mail", until(lambda: subject in text_of(debian, "/var/mail/root")))
    body = text_of(debian, "/var/mail/root").partition(subject)[2]
    check(
        f"the mail has the reason first: {body[:300]}",
        re.search(rf"\n\nreason: life: {ARCHIVE} is not there", body) is not None
        and "To: root\n" in text_of(debian, "/var/mail/root"),
    )
    same("it is in the journal too, once", alarms(debian, "life.service"), before + 1)
    os.rename(debian.path(SENDMAIL), debian.path(SENDMAIL + ".away"))
    debian.run(
        "sh", "-c", f"mv /srv/club.db {ARCHIVE}; systemctl reset-failed life.service; systemctl start life.service"
    )
    check("mended after the mail", state(debian) == "active" and debian.has_all())


def test_renewal(debian: Debian) -> None:
    """A certificate that certbot has renewed is given out once its hook has run, as certbot runs it, and not before."""
    if not shutil.which("openssl"):
        pytest.skip("openssl is not installed, so no certificate is renewed")
    lineage = "/etc/letsencrypt/live/life.example"
    cert, key = f"{lineage}/fullchain.pem", f"{lineage}/privkey.pem"
    os.makedirs(debian.path(lineage), exist_ok=True)

    def given() -> list[str]:
        return re.findall(
            r"(?m)^Subject:CN = (.*)$",
            debian.run("curl", "-k", "-s", "-o", "/dev/null", "-w", "%{certs}", "https://localhost/").stdout,
        )

    certify(debian.path(cert), debian.path(key), "first.example")
    done = configured(debian, **WITH_TLS, TLS_CERTIFICATE=cert, TLS_KEY=key)
    check(f"TLS by settings: {done.stderr}", done.returncode == 0 and until(lambda: given() == ["first.example"]))
    check("plain HTTP is sent on", until(lambda: curl(debian, "/deposits/1")[0] == "301"))
    certify(debian.path(cert), debian.path(key), "second.example")
    same("the old certificate without the hook", given(), ["first.example"])
    hook = debian.run(
        "env",
        "RENEWED_DOMAINS=life.example",
        f"RENEWED_LINEAGE={lineage}",
        "sh",
        "-c",
        "/etc/letsencrypt/renewal-hooks/deploy/life-gateway",
    )
    check("the new certificate after the hook", hook.returncode == 0 and until(lambda: given() == ["second.example"]))
    check(
        "without TLS again",
        configured(debian, **WITHOUT_TLS).returncode == 0
        and until(lambda: curl(debian, "/deposits/1") == ("200", pattern(1))),
    )


def test_new_proxy(debian: Debian) -> None:
    """A new version of Debian's HAProxy, whose packages restart only their own service, restarts the gateway's; one
    that is stopped stays so."""
    unit, new = (
        "life-gateway.service",
        "dpkg-trigger --by-package=haproxy /usr/sbin/haproxy; dpkg --configure --pending",
    )
    before = main_process(debian, unit)
    debian.shell(new)
    check("the new one runs", until(lambda: main_process(debian, unit) not in (before, "0")))
    check("it is asked", until(lambda: curl(debian, "/deposits/1?proxy") == ("200", pattern(1))))
    debian.shell(f"systemctl stop {unit}; {new}")
    same("a stopped one", state(debian, unit), "inactive")
    debian.shell(f"systemctl start {unit}")


@pytest.fixture(scope="class")
def secured(debian: Debian) -> Iterator[None]:
    """The site with TLS, and another certificate for it. Later tests have the site without TLS."""
    if not shutil.which("openssl"):
        pytest.skip("openssl is not installed, so there is no certificate")
    for name in ("served", "second"):
        certify(debian.path(f"/srv/{name}.pem"), debian.path(f"/srv/{name}.key"), f"{name}.example")
    same("TLS by settings", configured(debian, **WITH_TLS, TLS_CERTIFICATE=CERTIFICATE, TLS_KEY=KEY).returncode, 0)
    yield
    same("without TLS again", configured(debian, **WITHOUT_TLS).returncode, 0)
    check("as before", until(lambda: curl(debian, "/deposits/1") == ("200", pattern(1))))


@pytest.mark.usefixtures("secured")
class TestDrifts:
    """Whatever differs from what runs is said and loaded, once."""

    @pytest.mark.parametrize("drift", [pytest.param(one, id=one.name) for one in DRIFTS])
    def test_drift(self, debian: Debian, drift: Drift) -> None:
        settled = until(lambda: debian.run("life-configure").stdout == "changed: nothing\n")
        check(f"{drift.name}: nothing differs before", settled)
        debian.shell(f"{EXCHANGE}\n{drift.change}")
        done = debian.run("life-configure")
        said = done.stdout + done.stderr
        check(f"{drift.name}: it is said: {said}", re.search(drift.said, said) and "changed: nothing" not in said)
        debian.shell(f"{RUNS}\n" + drift.runs.replace("; ", "\n"))
        same(f"{drift.name}: a second time", debian.run("life-configure").stdout, "changed: nothing\n")
        debian.shell(drift.undo)
        same(f"{drift.name}: afterwards", debian.run("life-configure").returncode, 0)
        check(f"{drift.name}: TLS is served", until(lambda: curl(debian, "/deposits/1")[0] == "301"))


@pytest.mark.usefixtures("first_copy")
def test_walk(debian: Debian) -> None:
    """A walk of an administrator, drawn by a seed. The environment's SEED and BOOTED_STEPS make it another one, or
    longer."""
    seed, count = int(os.environ.get("SEED", "1")), int(os.environ.get("BOOTED_STEPS", "30"))
    fault = fault_of_walk(debian, drawn(seed, count, WEIGHT_OF))
    check(f"a walk of {count} steps by seed {seed}{f': {fault}' if fault else ''}", not fault)


# ---- mistakes


@pytest.mark.usefixtures("first_copy")
@pytest.mark.parametrize("mistake", [pytest.param(one, id=one.name) for one in MISTAKES])
def test_mistake(debian: Debian, mistake: Mistake) -> None:
    """After a mistake nothing is lost, it is said what is wrong, and the archive is served once that was done which is
    said. The last ones remove the packages."""
    if mistake.done in AFTER_AN_OLDER_COPY and not os.path.exists(debian.path(OLDER_COPY)):
        pytest.skip("the mistake 'an older copy is put back' has to be made before this one")
    try_mistake(debian, mistake)


def test_switched_off(debian: Debian) -> None:
    """The machine can be switched off at the end."""
    check("switched off at the end", debian.switch_off())
