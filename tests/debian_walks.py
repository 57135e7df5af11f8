"""A walk of an administrator over a booted Debian: walks.py with systemd, nginx, HAProxy and dpkg for real. After each
step what is served, or what the files have, is the ledger; nginx gives out what the settings, the club's own lines and
the list of withdrawn deposits say.
"""
import random
from collections.abc import Callable

import ledger
from debian import ARCHIVE, COPIES, SETTINGS, SITE, VERSION, Debian, Done
from debian import change_settings, copies, curl, main_process, packages_of, state, text_of, until
from ledger import rows_of
from admin_errors_files import way_back
from walks import Broken, Step, require

OWN_LINES, BROKEN_LINES = "/etc/life/site.d/walk.conf", "/etc/life/site.d/broken.conf"
# The address that the club's own lines bar, and the file of HAProxy, which its user reads.
BARRED, PROXY = "127.0.0.9", "/etc/life/haproxy.cfg"
SERVICES = ("life-gateway.service", "nginx.service")


class BootedWalk:
    """A machine, and what an administrator who has read each line knows about it."""

    def __init__(self, debian: Debian) -> None:
        self.debian, self.chance = debian, random.Random(0)
        self.is_running, self.rate, self.is_barred = True, 50, False
        self.withdrawn: set[int] = set()

    # ---- what is so

    def look(self) -> None:
        debian = self.debian
        require((state(debian) == "active") == self.is_running, f"life.service is {state(debian)}")
        if self.is_running:
            require(until(lambda: not self.faults(), 20), f"served: {self.faults()[:3]}")
            require(until(self.is_given_out, 20), "nginx gives out something else")
        else:
            rows = rows_of(debian.path(ARCHIVE))
            require(rows == debian.ledger, f"the file has {sorted(rows or {})}, and not {sorted(debian.ledger)}")
        require(f"rate={self.rate}r/s" in text_of(debian, SITE), f"the site has not {self.rate}r/s")
        modes = debian.run("stat", "-c", "%U %a", SITE, PROXY).stdout
        require(modes == "root 644\n" * 2, f"owners and modes: {modes}")

    def faults(self) -> list[str]:
        return ledger.faults(self.debian.ledger, self.debian.ask, tokens=False)

    def is_given_out(self) -> bool:
        """Whether nginx answers for some deposits, and for a barred address, as it should."""
        numbers = {1, len(self.debian.ledger), *self.withdrawn} & set(self.debian.ledger)
        for number in numbers:
            status, body = curl(self.debian, f"/deposits/{number}")
            wanted = "410" if number in self.withdrawn else "200"
            if status != wanted or (status == "200" and body.encode() != self.debian.ledger[number].text):
                return False
        barred = curl(self.debian, "/deposits/after/999999", "-4", "--interface", BARRED)[0]
        return barred == ("403" if self.is_barred else "200")

    def did(self, *words: str, status: int = 0) -> Done:
        """A command that has to end with a status."""
        done = self.debian.run(*words)
        said = f"{done.returncode} {done.stdout[-500:]}{done.stderr[-500:]}"
        require(done.returncode == status, f"{' '.join(words)}: {said}")
        return done

    def by_shell(self, script: str) -> Done:
        return self.did("bash", "-c", script)

    # ---- steps

    def deposits(self) -> None:
        if self.is_running:
            require(until(self.debian.deposit, 20), "a deposit is not acknowledged")

    def stops(self) -> None:
        self.did("systemctl", "stop", "life.service")
        self.is_running = False

    def starts(self) -> None:
        self.by_shell("systemctl reset-failed life.service; systemctl start life.service")
        self.is_running = True

    def kills(self) -> None:
        """The program, HAProxy or nginx is killed, and comes back by itself."""
        unit = self.chance.choice(("life.service", *SERVICES))
        if unit == "life.service" and not self.is_running:
            return
        before = main_process(self.debian, unit)
        self.did("kill", "-9", before)
        again = until(
            lambda: main_process(self.debian, unit) not in (before, "0") and state(self.debian, unit) == "active"
        )
        require(again, f"{unit} does not come back")

    def restarts(self) -> None:
        unit = self.chance.choice(SERVICES)
        self.by_shell(f"systemctl reset-failed {unit}; systemctl restart {unit}")

    def copies(self) -> None:
        self.by_shell("systemctl reset-failed life-backup.service; systemctl start life-backup.service")
        newest = f"{COPIES}/{copies(self.debian)[-1]}"
        require(rows_of(self.debian.path(newest)) == self.debian.ledger, f"{newest} has not what the archive has")

    def restores(self) -> None:
        """The newest copy is put back. If the archive has more, that is refused first; what it had is kept."""
        if not (names := copies(self.debian)):
            return
        path, before = f"{COPIES}/{names[-1]}", self.debian.ledger
        held = rows_of(self.debian.path(path))
        require(held is not None and held.items() <= before.items(), f"{path} has other deposits")
        assert held is not None
        if len(held) < len(before):
            refused = self.did("life-restore", path, status=1)
            require("--older" in refused.stderr, f"life-restore said {refused.stderr}")
            done = self.did("life-restore", "--older", path)
            require("given again" in done.stdout, f"life-restore said {done.stdout}")
        else:
            done = self.did("life-restore", path)
        require(rows_of(self.debian.path(way_back(done))) == before, "what was there is not kept")
        self.debian.ledger, self.is_running = held, True

    def changes_the_rate(self) -> None:
        self.rate = self.chance.randrange(20, 90)
        change_settings(self.debian, READS=f"{self.rate}r/s")

    def configures(self) -> None:
        """With any umask, and while any user holds a lock on the folder."""
        self.changes_the_rate()
        mask = self.chance.choice(("022", "077", "000"))
        self.by_shell(
            "runuser -u nobody -- flock /etc/life sleep 30 & holder=$!; sleep 0.2; "
            f"umask {mask}; timeout 20 life-configure; status=$?; kill $holder; exit $status"
        )

    def configures_twice_at_once(self) -> None:
        self.changes_the_rate()
        self.by_shell("life-configure & first=$!; life-configure && wait $first")

    def interrupts_a_configuration(self) -> None:
        self.changes_the_rate()
        name, wait = self.chance.choice(("INT", "TERM", "HUP", "KILL")), self.chance.random()
        self.by_shell(f"set -m; life-configure & run=$!; sleep {wait:.2f}; kill -{name} $run; wait $run; true")
        self.did("life-configure")

    def bars_or_admits(self) -> None:
        self.is_barred = not self.is_barred
        self.by_shell(f"echo 'deny {BARRED};' > {OWN_LINES}" if self.is_barred else f"rm {OWN_LINES}")
        self.did("life-configure")

    def writes_a_broken_line(self) -> None:
        self.by_shell(f"echo 'no such line;' > {BROKEN_LINES}")
        done = self.did("life-configure", status=1)
        require("no such line" in done.stderr or '"no"' in done.stderr, f"life-configure said {done.stderr}")
        self.by_shell(f"rm {BROKEN_LINES}")
        self.did("life-configure")

    def writes_a_broken_setting(self) -> None:
        self.by_shell(f"cp {SETTINGS} /srv/settings; echo 'READS 60' >> {SETTINGS}")
        done = self.did("life-configure", status=1)
        require("READS 60" in done.stderr, f"life-configure said {done.stderr}")
        self.by_shell(f"mv /srv/settings {SETTINGS}")

    def withdraws_or_takes_back(self) -> None:
        number = self.chance.randrange(1, len(self.debian.ledger) + 1)
        words = ["--undo", str(number)] if number in self.withdrawn else [str(number), "a reason"]
        self.did("systemctl", "reset-failed")
        self.did("life-withdraw", *words)
        self.withdrawn ^= {number}

    def installs_again(self) -> None:
        """The same version again: what was stopped stays so."""
        self.did("dpkg", "--install", *packages_of(VERSION))

    def reboots(self) -> None:
        require(self.debian.switch_off(), "it does not switch off")
        require(self.debian.boot() in ("running", "degraded"), "it does not boot")
        self.is_running = True
        require(until(lambda: state(self.debian) == "active"), "life.service does not start")

    # ---- the walk

    def end(self) -> None:
        """All is as it was before the walk, and works."""
        for number in sorted(self.withdrawn):
            self.did("life-withdraw", "--undo", str(number))
        self.withdrawn.clear()
        if self.is_barred:
            self.bars_or_admits()
        self.rate = 50
        change_settings(self.debian, READS="50r/s")
        self.did("life-configure")
        self.starts()
        self.deposits()
        self.copies()
        self.look()
        require(self.debian.has_all(), "the tokens lead to other numbers")


# How often each step is drawn, among all.
WEIGHTS: dict[Callable[[BootedWalk], None], int] = {
    BootedWalk.deposits: 10,
    BootedWalk.starts: 6,
    BootedWalk.stops: 3,
    BootedWalk.kills: 3,
    BootedWalk.restarts: 2,
    BootedWalk.copies: 3,
    BootedWalk.restores: 2,
    BootedWalk.configures: 3,
    BootedWalk.configures_twice_at_once: 2,
    BootedWalk.interrupts_a_configuration: 4,
    BootedWalk.bars_or_admits: 3,
    BootedWalk.writes_a_broken_line: 2,
    BootedWalk.writes_a_broken_setting: 1,
    BootedWalk.withdraws_or_takes_back: 3,
    BootedWalk.installs_again: 2,
    BootedWalk.reboots: 1,
}
STEPS = {step.__name__: step for step in WEIGHTS}
WEIGHT_OF = {step.__name__: weight for step, weight in WEIGHTS.items()}


def fault_of_walk(debian: Debian, steps: list[Step]) -> str:
    """The promise that does not hold, with the steps that led there; nothing if all hold to the end."""
    walk, done = BootedWalk(debian), ""
    try:
        walk.look()
        for step in steps:
            done += f"\n  {step.name} ({step.seed})"
            walk.chance = random.Random(step.seed)
            STEPS[step.name](walk)
            walk.look()
        done += "\n  the end"
        walk.end()
    except Broken as broken:
        return f"{broken}{done}"
    return ""
