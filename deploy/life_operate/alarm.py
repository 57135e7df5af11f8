"""Sends one alarm when a unit has failed, and one message when it works again.

    life-alarm UNIT [ADDRESS]
    life-alarm --ended UNIT [ADDRESS]

The first form is for a unit that has failed: it writes a line into the journal, at priority crit, and sends mail if
there is a sendmail that accepts it. A file in /run/life-alarm lists the reasons: if the unit fails again for one of
them before it has worked, and within a day, no mail is sent, and the line has priority err. The second form is for a
unit that has done its work: if an alarm was sent, it says that it is over. The default of ADDRESS is in the settings.
The environment may name another sendmail (SENDMAIL) and another folder (LIFE_ALARMS).
"""
import argparse
import os
import platform
import re
import subprocess
import sys
import time

from life_operate.settings import USUAL, end_if_unusable

# How far back to look for a unit's last line.
SAID_WITHIN = "-2min"
SIGNALED = {"signal", "core-dump"}
# A reason that has not come for this many seconds is a new one. Some last for months, such as an archive that is nearly
# full, and others come and go meanwhile.
FORGOTTEN_AFTER = 86400


def output_of(*words: str) -> list[str]:
    done = subprocess.run(
        words, stdin=subprocess.DEVNULL, capture_output=True, text=True, errors="replace", check=False
    )
    return done.stdout.splitlines()


def shown(unit: str) -> dict[str, str]:
    """The properties by which systemd describes how a unit ended."""
    lines = output_of("systemctl", "show", "--property=Result,ExecMainStatus,ExecMainCode", unit)
    return dict(line.split("=", 1) for line in lines if "=" in line)


def reason_of(unit: str) -> str:
    """Why a unit failed: the signal or limit that stopped its program, or otherwise its own last line."""
    known = shown(unit)
    result, status = known.get("Result", ""), known.get("ExecMainStatus", "")
    if result in SIGNALED:
        return f"killed by signal {status}"
    if result in ("timeout", "watchdog", "oom-kill"):
        return result
    # The unit's last lines may not be in the journal yet.
    output_of("journalctl", "--sync")
    said = output_of(
        "journalctl",
        "--no-pager",
        "--quiet",
        "--output=cat",
        "--boot",
        f"--since={SAID_WITHIN}",
        f"_SYSTEMD_UNIT={unit}",
    )
    return said[-1] if said else "the unit had no output"


def journal(priority: str, *lines: str) -> None:
    subprocess.run(
        ["systemd-cat", "--identifier=life-alarm", f"--priority={priority}"],
        input="\n".join(lines) + "\n",
        text=True,
        check=False,
    )


def journal_of(unit: str, line: str) -> None:
    """Adds a line that `systemctl status` of the unit shows last. It shows lines about another unit only if root wrote
    them."""
    fields = f"SYSLOG_IDENTIFIER=life-alarm\nPRIORITY=3\nOBJECT_SYSTEMD_UNIT={unit}\nMESSAGE={line}\n"
    subprocess.run(["logger", "--journald"], input=fields, text=True, check=False)


def mail(address: str, subject: str, *parts: str) -> None:
    """Sends mail, if there is a sendmail. It may not arrive, so the journal has every alarm too."""
    sendmail = os.environ.get("SENDMAIL", "/usr/sbin/sendmail")
    if os.access(sendmail, os.X_OK):
        text = f"To: {address}\nSubject: {subject}\n\n" + "\n\n".join(parts) + "\n"
        if subprocess.run([sendmail, "-t", "-i"], input=text, text=True, check=False).returncode:
            journal("err", f"{sendmail} could not send mail to {address}: {subject}")


def told_of(unit: str) -> str:
    """The file that records that an alarm about a unit was sent."""
    return os.path.join(os.environ.get("LIFE_ALARMS", "/run/life-alarm"), unit.replace("/", "-"))


def is_new(unit: str, reason: str) -> bool:
    """Whether this reason, numbers aside, is new since the unit last worked, or has not come for a day. It is recorded
    as sent, with its time."""
    told = told_of(unit)
    os.makedirs(os.path.dirname(told), exist_ok=True)
    with open(told, "a+", encoding="utf-8") as file:
        file.seek(0)
        seen = {line[2]: int(line[1]) for line in re.finditer(r"(?m)^([0-9]+) (.*)$", file.read())}
        line, now = re.sub(r"[0-9][0-9,.:T-]*", "0", reason), int(time.time())
        new = seen.get(line, 0) < now - FORGOTTEN_AFTER
        seen[line] = now
        file.truncate(0)
        file.writelines(f"{moment} {reason}\n" for reason, moment in seen.items())
    return new


def begin(unit: str, address: str) -> None:
    subject, reason = f"life on {platform.node()}: {unit} failed", f"reason: {reason_of(unit)}"
    lines = output_of("journalctl", "--no-pager", "--quiet", "--output=cat", "--lines=20", f"--unit={unit}")
    journal_of(unit, reason)
    if not is_new(unit, reason):
        journal("err", f"{subject} again", reason)
        return
    journal("crit", subject, reason, *lines)
    mail(address, subject, reason, "\n".join(lines))


def end(unit: str, address: str) -> None:
    told = told_of(unit)
    if not os.path.exists(told):
        return
    os.remove(told)
    subject = f"life on {platform.node()}: {unit} has recovered"
    journal("crit", subject)
    mail(address, subject, "You need not do anything.")


def main() -> None:
    parser = argparse.ArgumentParser(description=__doc__, formatter_class=argparse.RawDescriptionHelpFormatter)
    parser.add_argument("--ended", action="store_true")
    parser.add_argument("unit", metavar="UNIT")
    parser.add_argument("address", metavar="ADDRESS", nargs="?")
    words = parser.parse_args()
    address = words.address or end_if_unusable("life-alarm", USUAL, ["ALARM_TO"])["ALARM_TO"]
    try:
        (end if words.ended else begin)(words.unit, address)
    except OSError as fault:
        sys.exit(f"life-alarm: {fault}")
