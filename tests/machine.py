"""A separate Debian for a test: made by mmdebstrap, with systemd as process 1 in namespaces, and its own network.

Root is needed, and mmdebstrap. No daemon of the host is asked, and only processes that this file started are ended.
"""
import ctypes
import os
import shutil
import signal
import subprocess
import time

# What systemd finds as its machine, whose folder is the first argument: what belongs to the host's kernel is read-only,
# its devices are not there.
BOOT = """set -eu
mount --bind "$1" "$1"
cd "$1"
mount -t proc proc proc
mount --bind proc/sys proc/sys
mount -o remount,bind,ro proc/sys
mount -t sysfs -o ro sys sys
mount -t cgroup2 cgroup sys/fs/cgroup
mount -t tmpfs run run
mount -t tmpfs tmp tmp
mount -t tmpfs -o mode=755 dev dev
for node in null zero full random urandom tty; do : > "dev/$node"; mount --bind "/dev/$node" "dev/$node"; done
mkdir dev/pts dev/shm
mount -t devpts -o newinstance,ptmxmode=0666 pts dev/pts
mount -t tmpfs shm dev/shm
ln -s pts/ptmx dev/ptmx
ln -s /proc/self/fd dev/fd
pivot_root . mnt
umount --lazy mnt
exec env --ignore-environment container=private PATH=/usr/sbin:/usr/bin:/sbin:/bin /lib/systemd/systemd --system
"""
# What the packages of life depend on; and, for what is tried, another machine's ssh and rsync, and a sendmail.
PACKAGES = (
    "systemd,systemd-sysv,dbus,nginx-light,haproxy,logrotate,python3-jinja2,curl,libsqlite3-0,procps,openssh-server,"
    "rsync,dma"
)
NAMESPACES = ["--mount", "--pid", "--uts", "--ipc", "--net", "--cgroup"]


def missing() -> str:
    """Why no machine can be booted here, or nothing."""
    if os.geteuid() != 0:
        return "this is not root"
    gone = [
        name
        for name in ("mmdebstrap", "unshare", "nsenter", "dpkg-deb", "zstd", "strip", "esbuild")
        if not shutil.which(name)
    ]
    if gone:
        return f"{', '.join(gone)} not installed"
    return "" if cgroups() else "the system has no cgroup2"


def cgroups() -> str:
    """The mount point of cgroup version 2, or nothing."""
    with open("/proc/self/mounts", encoding="utf-8") as mounts:
        return next((line.split()[1] for line in mounts if line.split()[2] == "cgroup2"), "")


def make(tar: str) -> str:
    """Makes a fresh Debian as a tar file, with the packages' dependencies: the machine has no network to fetch them.
    Why it can't, or nothing."""
    words = ["mmdebstrap", "--quiet", "--variant=minbase", f"--include={PACKAGES}", "bookworm", tar]
    done = subprocess.run(words, stdin=subprocess.DEVNULL, capture_output=True, text=True, timeout=900, check=False)
    return "" if done.returncode == 0 else (done.stderr.strip().splitlines() or ["no word"])[-1]


def die_with_parent() -> None:
    """Has the system end this process when its parent ends, however that ends (PR_SET_PDEATHSIG)."""
    ctypes.CDLL(None).prctl(1, signal.SIGKILL, 0, 0, 0)


class Machine:
    """A Debian in a folder, which can be booted and switched off repeatedly."""

    def __init__(self, folder: str, tar: str) -> None:
        self.folder, self.pid = os.path.realpath(folder), ""
        self.process: subprocess.Popen[bytes] | None = None
        self.group = os.path.join(cgroups(), f"life-boot-{os.getpid()}")
        os.makedirs(self.folder)
        subprocess.run(["tar", "--extract", "--file", tar, "--directory", self.folder], check=True, timeout=300)
        for unit in ("console-getty.service", "getty@tty1.service"):
            os.symlink("/dev/null", self.path(f"etc/systemd/system/{unit}"))

    def boot(self) -> str:
        """Boots, and returns systemd's state: running or degraded."""
        os.makedirs(self.group, exist_ok=True)
        join = 'echo $$ > "$1/cgroup.procs"; shift; exec "$@"'
        words = [
            "bash",
            "-c",
            join,
            "join",
            self.group,
            "unshare",
            *NAMESPACES,
            "--fork",
            "--kill-child",
            "bash",
            "-c",
            BOOT,
            "boot",
            self.folder,
        ]
        with open(self.folder + ".console", "ab") as console:
            # A test that is ended from outside takes its machine with it.
            self.process = subprocess.Popen(
                words, stdin=subprocess.DEVNULL, stdout=console, stderr=console, preexec_fn=die_with_parent
            )
        until = time.monotonic() + 60
        while time.monotonic() < until:
            if self.is_up() and self.run("systemctl", "is-system-running", timeout=20).stdout.strip() in (
                "running",
                "degraded",
            ):
                return self.run("systemctl", "is-system-running").stdout.strip()
            time.sleep(0.5)
        return "not up"

    def is_up(self) -> bool:
        """Whether the machine's systemd runs. Its process number is known then."""
        assert self.process is not None
        try:
            with open(f"/proc/{self.process.pid}/task/{self.process.pid}/children", encoding="utf-8") as file:
                self.pid = next(iter(file.read().split()), "")
            return self.pid != "" and os.readlink(f"/proc/{self.pid}/exe").endswith("systemd")
        except OSError:
            return False

    def entering(self) -> list[str]:
        """The words before a command that runs in the machine."""
        return [
            "nsenter",
            f"--target={self.pid}",
            *NAMESPACES,
            "--root",
            "--wd",
            "env",
            "--ignore-environment",
            "PATH=/usr/sbin:/usr/bin:/sbin:/bin",
            "LC_ALL=C.UTF-8",
            "DEBIAN_FRONTEND=noninteractive",
        ]

    def run(self, *words: str, data: str | None = None, timeout: int = 120) -> subprocess.CompletedProcess[str]:
        """A command in the machine."""
        return subprocess.run(
            [*self.entering(), *words],
            input=data,
            capture_output=True,
            text=True,
            errors="replace",
            timeout=timeout,
            check=False,
        )

    def path(self, name: str) -> str:
        return os.path.join(self.folder, name.lstrip("/"))

    def switch_off(self) -> bool:
        """Switches the machine off as its administrator would, and returns whether it stopped by itself."""
        assert self.process is not None
        self.run("systemctl", "--no-block", "poweroff")
        try:
            self.process.wait(60)
            return True
        except subprocess.TimeoutExpired:
            self.end()
            return False

    def end(self) -> None:
        """Stops the machine at once by killing its process 1."""
        if self.process and self.process.poll() is None:
            if self.pid:
                subprocess.run(["kill", "-9", self.pid], check=False)
            else:
                self.process.kill()
            self.process.wait(30)
        for folder, _, _ in os.walk(self.group, topdown=False):
            try:
                os.rmdir(folder)
            except OSError:
                pass
