"""Puts a club's settings into effect. Run it as root after a change of /etc/life/settings.

    life-configure [--files-only] [--replace] [--root FOLDER]

Units that differ from those of the package are written into /etc/systemd/system. If the gateway is installed, nginx's
site, HAProxy's configuration and a file for logrotate go to their places. A file that nginx, HAProxy or logrotate
refuses is not kept. A file that was changed by hand stays, and the new one is written next to it as FILE.dpkg-dist;
with --replace it is moved to FILE.dpkg-old instead.

Unless --files-only is given, everything that differs from the running state is then loaded. For nginx that is whatever
it reads: the site, the club's own lines, other sites, certificates. nginx is asked whether it has accepted the site: it
refuses some changes only while it runs. A service whose program was replaced is restarted; for nginx, which may serve
other sites, a line asks for that. "changed: nothing" means that there is no difference. FOLDER replaces /.

Each file is for everybody to read and for root to change, whatever root's umask is.

A signal ends it after the current file, which is then wholly the old one or the new one; the next life-configure does
the rest. After a kill it first puts back the old version of files that nginx, HAProxy or logrotate had not yet
accepted.
"""
import argparse
import contextlib
import hashlib
import os
import re
import shutil
import stat
import subprocess
import sys
from collections.abc import Callable

from life_operate import settings as life_settings
from life_operate.archive import Refused
from life_operate.exchange import own_lock
from life_operate.loading import load
from life_operate.settings import BadSetting
from life_operate.signals import Interrupted, Signals, end_by
from life_operate.templates import GATEWAY, TEMPLATES, filled_templates

# The first line of a file that life-configure wrote, with the digest of the rest. Release 1.0.0 wrote no digest.
MARK = "# Made by life-configure from /etc/life/settings"
MARKED = re.compile(re.escape(MARK) + r"(?:, digest ([0-9a-f]{64}))?\.\n")
# A file that is being written, and the old one until its program has accepted the new one. logrotate skips both.
NEW, BEFORE = ".dpkg-new", ".dpkg-tmp"
# HAProxy's user reads its file, and users who may change a unit could become root.
MODE = 0o644
# Only one life-configure works at a time. How long it waits for another one, in seconds.
LOCK = "run/life-configure.lock"
WITHIN = 120
PLACES = {
    "life-site.conf": "etc/nginx/sites-available/life",
    "haproxy.cfg": "etc/life/haproxy.cfg",
    "life-logrotate": "etc/logrotate.d/life-gateway",
}
CHECKS = {
    "life-site.conf": ["nginx", "-t", "-q"],
    "haproxy.cfg": ["haproxy", "-c", "-q", "-f", "/etc/life/haproxy.cfg"],
    "life-logrotate": ["logrotate", "--debug", "/etc/logrotate.d/life-gateway"],
}


def content(path: str) -> str | None:
    if not os.path.exists(path):
        return None
    with open(path, encoding="utf-8", errors="surrogateescape") as file:
        return file.read()


def is_as_written(path: str, text: str | None) -> bool:
    """Whether a file has this text, and the mode and the owner that `write` gives it; without a text, whether there is
    no file."""
    if content(path) != text:
        return False
    state = os.stat(path) if text is not None else None
    return not state or (stat.S_IMODE(state.st_mode), state.st_uid, state.st_gid) == (MODE, os.geteuid(), os.getegid())


def write(path: str, text: str | None) -> bool:
    """Writes a file, or removes it if there is no text; returns whether that changed it."""
    if is_as_written(path, text):
        return False
    if text is None:
        os.remove(path)
        return True
    os.makedirs(os.path.dirname(path), exist_ok=True)
    try:
        with open(path + NEW, "w", encoding="utf-8", errors="surrogateescape") as file:
            os.fchown(file.fileno(), os.geteuid(), os.getegid())
            os.fchmod(file.fileno(), MODE)
            file.write(text)
        os.replace(path + NEW, path)
    finally:
        with contextlib.suppress(FileNotFoundError):
            os.remove(path + NEW)
    return True


def bring_back(path: str) -> None:
    """Puts back the old version of a file that its program has not accepted: it was refused, or life-configure was
    killed. An empty text was no file."""
    before = content(path + BEFORE)
    if before:
        os.replace(path + BEFORE, path)
    elif before is not None:
        for name in (path, path + BEFORE):
            with contextlib.suppress(FileNotFoundError):
                os.remove(name)


def digest_of(text: str) -> str:
    return hashlib.sha256(text.encode(errors="surrogateescape")).hexdigest()


def marked(text: str) -> str:
    return f"{MARK}, digest {digest_of(text)}.\n{text}"


def is_ours(text: str) -> bool:
    """Whether life-configure wrote this text and no one has changed it since. A text from release 1.0.0 can't be
    checked, and counts as such."""
    mark = MARKED.match(text)
    return mark is not None and mark[1] in (None, digest_of(text[mark.end() :]))


def stays(path: str, text: str | None, replace: bool) -> bool:
    """Whether a file stays because somebody has changed it. If so, the text is put next to it; if it is replaced, it is
    moved away."""
    with contextlib.suppress(FileNotFoundError):
        # Left by a life-configure that was killed.
        os.remove(path + NEW)
    there = content(path)
    if there is None or is_ours(there):
        return False
    if replace:
        # The file itself stays until the new one has its name.
        shutil.copy2(path, path + ".dpkg-old")
        print(f"{path} was changed by hand; it is now {path}.dpkg-old")
        return False
    write(path + ".dpkg-dist", text)
    print(
        f"{path} was changed by hand and stays" + (f"; the new version is in {path}.dpkg-dist" if text else ""),
        file=sys.stderr,
    )
    return True


def put_unit(root: str, name: str, text: str, replace: bool) -> bool:
    """Writes a unit that replaces the package's, if the settings make it differ; returns whether something changed."""
    path = os.path.join(root, "etc/systemd/system", name)
    own = None if text == content(os.path.join(root, "usr/lib/systemd/system", name)) else marked(text)
    return not stays(path, own, replace) and write(path, own)


def put_checked(root: str, name: str, text: str, replace: bool) -> bool:
    """Writes a file that its program, if installed, has to accept; otherwise the old file stays. Returns whether
    something changed."""
    path = os.path.join(root, PLACES[name])
    if stays(path, marked(text), replace) or is_as_written(path, marked(text)):
        return False
    # With --root, the files are not those that the programs of this machine read.
    if root != "/" or not shutil.which(CHECKS[name][0]):
        return write(path, marked(text))
    write(path + BEFORE, content(path) or "")
    write(path, marked(text))
    # A session of its own keeps a Ctrl-C away, which would look like a refusal.
    done = subprocess.run(CHECKS[name], capture_output=True, text=True, start_new_session=True, check=False)
    if done.returncode:
        bring_back(path)
        raise BadSetting(f"{path} was not changed: {(done.stderr or done.stdout).strip().splitlines()[0]}")
    os.remove(path + BEFORE)
    return True


def put_all(root: str, settings: dict[str, str], replace: bool, signals: Signals) -> list[str]:
    """The names of the files that have changed. A signal waits for the end of a file."""
    files = filled_templates(TEMPLATES, settings) | filled_templates(GATEWAY, settings)
    changed = []
    # HAProxy's configuration and the site come before the units, so that the units stay unchanged if one is refused.
    for name in [*(name for name in PLACES if name in files), *(name for name in files if name not in PLACES)]:
        put = put_checked if name in PLACES else put_unit
        with signals.held_back():
            changed += [name] if put(root, name, files[name], replace) else []
        signals.check()
    return changed


def check(settings: dict[str, str], files_only: bool) -> None:
    """Ends if passwords would travel unencrypted, or if nginx can't read them or everybody can. An upgrade, which only
    writes files, reports that and continues. If everybody can read the passwords, it loads the files too: that was so
    before. Times that don't fit together are only reported, since those of release 1.0.0 don't fit, and so are members
    who can't deposit."""
    checks: list[tuple[Callable[[dict[str, str]], None], bool]] = [
        (life_settings.check_passwords, True),
        (life_settings.check_reader, True),
        (life_settings.check_secrecy, "DPKG_MAINTSCRIPT_NAME" not in os.environ),
        (life_settings.check_members, False),
        (life_settings.check_times, False),
    ]
    for checked, is_firm in checks:
        try:
            checked(settings)
        except BadSetting as fault:
            if is_firm and not files_only:
                sys.exit(f"life-configure: {fault}")
            print(f"life-configure: {fault}", file=sys.stderr)


def configure(words: argparse.Namespace, settings: dict[str, str], signals: Signals) -> None:
    """Writes all files, and has the running services read them."""
    with signals.held_back():
        for place in PLACES.values():
            bring_back(os.path.join(words.root, place))
    changed = put_all(words.root, settings, words.replace, signals)
    if changed:
        print("changed: " + ", ".join(changed), flush=True)
    loads = not words.files_only and os.path.isdir("/run/systemd/system")
    has_loaded = loads and load(changed, settings, os.path.join(words.root, PLACES["life-site.conf"]))
    if not changed and not has_loaded:
        print("changed: nothing", flush=True)


def main() -> None:
    parser = argparse.ArgumentParser(description=__doc__, formatter_class=argparse.RawDescriptionHelpFormatter)
    parser.add_argument("--files-only", action="store_true")
    parser.add_argument("--replace", action="store_true")
    parser.add_argument("--root", default="/", metavar="FOLDER")
    words = parser.parse_args()
    # For folders.
    os.umask(0o022)
    path = os.path.join(words.root, life_settings.USUAL.lstrip("/"))
    settings = life_settings.end_if_wrong("life-configure", path)
    check(settings, words.files_only)
    if said := life_settings.old_names(path):
        print(f"life-configure: {said}", file=sys.stderr)
    try:
        signals = Signals()
        with own_lock(os.path.join(words.root, LOCK), WITHIN, "another life-configure is at work"):
            configure(words, settings, signals)
    except (OSError, Refused, BadSetting) as fault:
        sys.exit(f"life-configure: {fault}")
    except Interrupted as end:
        print(f"life-configure: {end}; the next life-configure does the rest", file=sys.stderr, flush=True)
        end_by(end.number)
