"""Kills, power cuts, and signals in an upgrade and in a configuration. Each is a function for the table of
tests/admin_errors.py.
"""
import os
import random
import time

import ledger
from debian import ARCHIVE, COPIES, GLIDER, KEPT_MONTHS, LATER, LATER_MONTHS, SETTINGS, SITE, VERSION, Debian
from debian import (
    WITHOUT_TLS,
    WITH_TLS,
    alarms,
    change_settings,
    configured,
    curl,
    main_process,
    packages_of,
    state,
    text_of,
    until,
)
from clients import check, same
from fake_systemd import STEPPED
from ledger import Ledger, rows_of

SEED = 20261130


# ---- kills and power cuts


def kills_the_program(debian: Debian) -> None:
    """The program is killed: it is back. One that answers nothing is started again; one that is stopped stays so."""
    before = main_process(debian)
    debian.run("systemctl", "kill", "--signal=KILL", "life.service")
    check("another process", until(lambda: state(debian) == "active" and main_process(debian) not in (before, "0")))
    check("nothing is lost", debian.has_all())
    done = configured(debian, WATCH_SECONDS=2, ANSWER_TIME="1s")
    check("a setting is brought to its unit", done.returncode == 0 and "life-watch.service" in done.stdout)
    before = main_process(debian)
    debian.run("kill", "-STOP", before)
    check(
        "one that answers nothing is started again",
        until(lambda: main_process(debian) not in (before, "0") and state(debian) == "active", 90),
    )
    check("an alarm about it is sent", until(lambda: alarms(debian, "life-watch.service") >= 1))
    # On a busy machine two seconds are not enough for an honest answer.
    same("the watch is as it was", configured(debian, WATCH_SECONDS=90, ANSWER_TIME="60s").returncode, 0)
    debian.run("systemctl", "stop", "life.service")
    time.sleep(20)
    check(
        "one that is stopped stays so", state(debian) == "inactive" and state(debian, "life-watch.timer") == "inactive"
    )
    debian.run("systemctl", "start", "life.service")
    check("it is started with its watch", state(debian) == "active" and state(debian, "life-watch.timer") == "active")


SERVICES = ("life.service", "life-gateway.service", "nginx.service")


def kills_everything(debian: Debian) -> None:
    """HAProxy alone is killed, nginx alone, and then everything but systemd: all are back by themselves."""
    for unit in ("life-gateway.service", "nginx.service"):
        before = main_process(debian, unit)
        debian.run("kill", "-9", before)
        check(
            f"{unit} is back",
            until(lambda: main_process(debian, unit) not in (before, "0") and state(debian, unit) == "active"),
        )
        check("it is asked again", until(lambda: curl(debian, "/deposits/1?killed")[0] == "200"))
    debian.run("bash", "-c", "kill -9 -1")
    check("all are back", until(lambda: [state(debian, unit) for unit in SERVICES] == ["active"] * 3))
    debian.run("systemctl", "reset-failed")


def kills_under_deposits(debian: Debian) -> None:
    """The program is killed while five clients deposit: each gets a number for each of its files, and no number is
    given twice."""
    running = debian.clients(5, "kills", most=40)
    for _ in range(5):
        time.sleep(0.7)
        debian.run("systemctl", "kill", "--signal=KILL", "life.service")
    count = debian.acknowledged(running)
    check(
        f"{count} of 200 deposits under kills are acknowledged",
        count == 200 and until(lambda: state(debian) == "active"),
    )


def cuts_the_power(debian: Debian) -> None:
    """The machine loses its current in the middle of deposits, twice: what was acknowledged is there after the next
    boot. What was not, and is there all the same, is what somebody sent."""
    chance = random.Random(SEED)
    for turn in range(2):
        running, before = debian.clients(5, f"cut-{turn}"), len(debian.ledger)
        wanted = before + chance.randint(20, 60)
        check("deposits come", until(lambda: debian.ask([("GET", f"/deposits/{wanted}", {}, b"")])[0][0] == 200))
        debian.end()
        count = debian.acknowledged(running)
        check("it boots", debian.boot() in ("running", "degraded") and until(lambda: state(debian) == "active"))
        sent = unacknowledged(debian)
        check(f"{count} acknowledged before a power cut, {sent} besides", count > 0 and sent <= 5)
        check("all are there", debian.has_all())


def unacknowledged(debian: Debian) -> int:
    """Puts numbers into the ledger that are there and were never acknowledged; how many. Each is a file that a client
    has sent."""
    count, rows = 0, rows_in_archive(debian)
    for number in sorted(set(rows) - set(debian.ledger)):
        one = rows[number]
        same(f"deposit {number} is what {one.member} sent", one.text.decode(), f"#N {one.member} {one.token}\n{GLIDER}")
        debian.ledger[number] = one
        count += 1
    return count


def rows_in_archive(debian: Debian) -> Ledger:
    debian.shell(f"rm -rf /srv/read; mkdir /srv/read; life-copy {ARCHIVE} /srv/read/read.db")
    rows = rows_of(debian.path("/srv/read/read.db"))
    assert rows is not None
    return rows


# ---- signals in an upgrade and in a configuration

UPGRADES, CONFIGURATIONS = 10, 16
NAMES = ("TERM", "KILL", "INT", "HUP")
# Upgrades in a job of its own, which gets a signal after a while: dpkg alone, or all that it runs, as a Ctrl-C comes to
# them.
UPGRADING = (
    "set -m; dpkg --install {files} > /tmp/said 2>&1 & run=$!; sleep {wait}; "
    "kill -{name} -- {who}; wait $run; echo $?; cat /tmp/said"
)


def interrupts_an_upgrade(debian: Debian) -> None:
    """Signals at moments by a seed in an upgrade. After each the archive is whole and served, and the same upgrade
    comes to its end, with a copy from before."""
    chance, versions, begun = random.Random(SEED), [VERSION, LATER], time.monotonic()
    debian.shell(f"dpkg --install {' '.join(packages_of(VERSION))}")
    usual = time.monotonic() - begun
    # Nobody has changed the settings.
    own = text_of(debian, SETTINGS)
    debian.shell(f"cp /usr/lib/life/settings {SETTINGS}")
    for case in range(UPGRADES):
        versions.reverse()
        debian.shell(f"rm -f {COPIES}/before-*.db")
        files, name, wait = " ".join(packages_of(versions[0])), NAMES[case % 4], chance.random() * usual
        done = debian.run(
            "bash",
            "-c",
            UPGRADING.format(files=files, wait=f"{wait:.2f}", name=name, who="$run" if case % 8 < 4 else "-$run"),
        )
        line = f"upgrade {case} with {name} after {wait:.1f} of {usual:.1f} s: {done.stdout[-300:]}"
        check(
            f"{line}: the archive is whole and served",
            until(lambda: debian.is_served() and not ledger.faults(debian.ledger, debian.ask)),
        )
        again = debian.run("bash", "-c", f"dpkg --configure -a; dpkg --install {files}", timeout=300)
        version = debian.run("dpkg-query", "-W", "-f", "${Version} ${Status},", "life", "life-gateway").stdout
        check(
            f"{line}: the same upgrade: {again.stdout[-300:]}{again.stderr[-300:]}",
            again.returncode == 0 and version == f"{versions[0]} install ok installed," * 2,
        )
        before = [
            rows_of(debian.path(f"{COPIES}/{name}"))
            for name in os.listdir(debian.path(COPIES))
            if name.startswith("before-") and name.endswith(".db")
        ]
        check(
            f"{line}: copies from before: {len(before)}", before != [] and all(rows == debian.ledger for rows in before)
        )
        check(f"{line}: it is served", until(lambda: debian.is_served()) and debian.has_all())
        wanted = LATER_MONTHS if versions[0] == LATER else KEPT_MONTHS
        check(f"{line}: the settings are those of the version", wanted in text_of(debian, SETTINGS))
        lies_about(debian, line)
    debian.shell(f"rm -f {COPIES}/before-*.db; dpkg --install {' '.join(packages_of(VERSION))}")
    with open(debian.path(SETTINGS), "w", encoding="utf-8") as file:
        file.write(own)
    debian.shell("life-configure")


# An upgrade that is killed, with all that it runs, while its first script makes the copy; what dpkg says of it then.
KILLED_AT_ONCE = (
    "set -m; dpkg --install {files} > /tmp/said 2>&1 & run=$!; "
    f"until ls -d {COPIES}/.life-copy-* > /dev/null 2>&1 || ! kill -0 $run 2> /dev/null; do :; done; "
    "kill -KILL -- -$run; wait $run; dpkg --audit"
)
KILLS = 10


def kills_an_upgrade(debian: Debian) -> None:
    """dpkg is killed together with the script that makes the copy, before it has unpacked anything. Then the commands
    of UPGRADING bring the upgrade to its end."""
    files = " ".join(packages_of(LATER))
    for _ in range(KILLS):
        said = debian.run("bash", "-c", KILLED_AT_ONCE.format(files=files)).stdout
        if "life" in said:
            break
        # It was killed before or after that.
        debian.shell(f"dpkg --configure -a; dpkg --install {' '.join(packages_of(VERSION))}")
    check(f"dpkg was killed in the middle: {said}", "life" in said)
    check("the archive is served", until(lambda: debian.is_served()))
    again = debian.run(
        "bash", "-c", f"dpkg --configure -a; apt-get install --yes {files} || dpkg --install {files}", timeout=300
    )
    version = debian.run("dpkg-query", "-W", "-f", "${Version} ${Status},", "life", "life-gateway").stdout
    check(
        f"the upgrade comes to its end: {again.stdout[-300:]}{again.stderr[-300:]}",
        again.returncode == 0 and version == f"{LATER} install ok installed," * 2,
    )
    check("all is there", until(lambda: debian.is_served()) and debian.has_all())
    # The folder of a copy that was killed goes a day later.
    debian.shell(f"rm -rf {COPIES}/.life-copy-*")
    lies_about(debian, "a killed upgrade")
    debian.shell(f"rm -f {COPIES}/before-*.db; dpkg --install {' '.join(packages_of(VERSION))}")


def lies_about(debian: Debian, line: str) -> None:
    """Checks that nothing is left of what was begun."""
    left = debian.run(
        "bash",
        "-c",
        "ls -d /etc/life/*.dpkg-* /etc/nginx/*/*.dpkg-* /etc/systemd/system/*.dpkg-* "
        f"/etc/logrotate.d/*.dpkg-* {COPIES}/.life-* /var/lib/life/.life-* 2> /dev/null",
    ).stdout
    same(f"{line}: nothing lies about: {left}", left, "")


def interrupts_a_configuration(debian: Debian) -> None:
    """Signals at steps by a seed while changed settings are brought to nginx, HAProxy, logrotate and systemd; a third
    of the settings are refused. After each the archive is served, and what is there is taken by its program; after a
    kill that is so after the next life-configure.
    """
    chance, words = random.Random(SEED), ["python3", "-c", STEPPED, "/tmp/steps"]
    debian.run(*words, "0", "0", "/etc", "/usr/lib/life/life-configure")
    for case in range(CONFIGURATIONS):
        change_settings(
            debian,
            **WITHOUT_TLS,
            READS=f"{40 + case}r/s",
            WATCH_SECONDS=100 + case,
            METRICS_PORT=("", "8404")[case % 2],
        )
        if case % 3 == 2:
            change_settings(debian, **WITH_TLS, TLS_CERTIFICATE="/srv/none.pem", TLS_KEY="/srv/none.key")
        name, step = NAMES[case % 4], chance.randint(1, 70)
        done = debian.run(
            *words,
            str(step),
            {"TERM": "15", "KILL": "9", "INT": "2", "HUP": "1"}[name],
            "/etc",
            "/usr/lib/life/life-configure",
        )
        line = f"configuration {case} with {name} at step {step}: {done.returncode} {done.stdout}{done.stderr[-300:]}"
        check(
            f"{line}: the archive is served",
            until(lambda: curl(debian, f"/deposits/1?{case}") == ("200", debian.ledger[1].text.decode()))
            and state(debian) == "active",
        )
        if name != "KILL":
            taken(debian, line)
        change_settings(debian, **WITHOUT_TLS)
        again = debian.run("life-configure")
        check(
            f"{line}: the next one: {again.stderr}",
            again.returncode == 0 and f"rate={40 + case}r/s" in text_of(debian, SITE),
        )
        taken(debian, line)
    same("the settings of before", configured(debian, READS="50r/s", WATCH_SECONDS=90, METRICS_PORT="").returncode, 0)


def taken(debian: Debian, line: str) -> None:
    """Checks that each program takes its file, and that nothing lies about."""
    done = debian.run(
        "bash",
        "-ec",
        "nginx -t -q; haproxy -c -q -f /etc/life/haproxy.cfg; "
        "logrotate --debug /etc/logrotate.d/life-gateway 2> /dev/null",
    )
    same(f"{line}: what is there is taken: {done.stderr}", done.returncode, 0)
    lies_about(debian, line)
