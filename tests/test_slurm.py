"""deploy/haul/slurm on a Slurm with one node, whose key, controller and node daemon are in a separate folder.

20,000 soups are counted in pieces, a worker is killed, and the same command submits what is left: the sum is the table
of one run, and nothing is counted twice. Then: another haul's folder, arguments that a shell would parse, and a Slurm
that answers nothing.

It needs root, Slurm (Debian's slurm-wlm), munge and sqlite3.
"""
import contextlib
import os
import shutil
import signal
import subprocess
import tempfile
import time
from collections.abc import Iterator

import pytest

from clients import HERE, check, free_port, same

pytestmark = pytest.mark.long
TOP = os.path.dirname(HERE)
PROGRAM = os.path.join(TOP, "crates", "life_haul", "out", "life_haul")
SLURM = os.path.join(TOP, "deploy", "haul", "slurm")
HAUL = ["ann-2026", "1000", "20000", "60", "2"]
PIECES = 20


def run(*command: str) -> tuple[int, str, str]:
    ended = subprocess.run(command, capture_output=True, text=True, timeout=300, check=False)
    return ended.returncode, ended.stdout, ended.stderr


def configuration(room: str) -> str:
    controller, node = free_port(), free_port()
    return f"""\
ClusterName=club
SlurmctldHost=localhost(127.0.0.1)
SlurmUser=root
SlurmdUser=root
AuthType=auth/munge
AuthInfo=socket={room}/munge.socket
SlurmctldPort={controller}
SlurmdPort={node}
StateSaveLocation={room}/state
SlurmdSpoolDir={room}/spool
SlurmctldPidFile={room}/slurmctld.pid
SlurmdPidFile={room}/slurmd.pid
ProctrackType=proctrack/linuxproc
TaskPlugin=task/none
JobAcctGatherType=jobacct_gather/none
SelectType=select/cons_tres
SelectTypeParameters=CR_Core
MpiDefault=none
NodeName=localhost NodeAddr=127.0.0.1 CPUs=2 State=UNKNOWN
PartitionName=club Nodes=localhost Default=YES MaxTime=INFINITE State=UP
"""


@pytest.fixture(scope="module")
def room() -> Iterator[str]:
    """A folder, if everything is installed."""
    missing = [name for name in ("munged", "slurmctld", "slurmd", "sbatch", "sqlite3") if not shutil.which(name)]
    missing += [] if os.getuid() == 0 else ["root"]
    if missing:
        pytest.skip(f"{', '.join(missing)} is missing")
    if not os.access(PROGRAM, os.X_OK):
        pytest.skip(f"there is no program {PROGRAM}")
    with tempfile.TemporaryDirectory() as path:
        # The key's folder must be one that nobody else may write to.
        os.chmod(path, 0o755)
        yield path


def is_idle() -> bool:
    """Whether the node can take jobs."""
    return run("sinfo", "--noheader", "--format=%T")[1].strip() == "idle"


@pytest.fixture(scope="module")
def slurm(room: str) -> Iterator[None]:
    """A Slurm of one node, as long as it is used."""
    for folder in ("state", "spool"):
        os.mkdir(os.path.join(room, folder))
    path = os.path.join(room, "slurm.conf")
    with open(path, "w", encoding="utf-8") as file:
        file.write(configuration(room))
    key = os.path.join(room, "munge.key")
    with open(os.open(key, os.O_WRONLY | os.O_CREAT, 0o400), "wb") as secret:
        secret.write(os.urandom(1024))
    own = [
        f"--{name}={room}/munge.{name.removesuffix('-file')}"
        for name in ("socket", "pid-file", "log-file", "seed-file")
    ]
    commands = [
        ["munged", "--foreground", "--force", f"--key-file={key}", *own],
        ["slurmctld", "-D", "-c"],
        ["slurmd", "-D"],
    ]
    started: list[subprocess.Popen[bytes]] = []
    with pytest.MonkeyPatch.context() as environment:
        environment.setenv("SLURM_CONF", path)
        try:
            for command in commands:
                started.append(subprocess.Popen(command, stdout=subprocess.DEVNULL, stderr=subprocess.DEVNULL))
                time.sleep(1)
            until = time.monotonic() + 30
            while not is_idle() and time.monotonic() < until:
                time.sleep(0.5)
            yield
        finally:
            run("scancel", "--user=root")
            for process in reversed(started):
                process.terminate()
                with contextlib.suppress(subprocess.TimeoutExpired):
                    process.wait(10)
                process.kill()
                process.wait()


def workers() -> Iterator[int]:
    """The processes that run the program."""
    for name in filter(str.isdigit, os.listdir("/proc")):
        with contextlib.suppress(FileNotFoundError, ProcessLookupError), open(f"/proc/{name}/cmdline", "rb") as line:
            if os.fsencode(PROGRAM) in line.read().split(b"\0")[:2]:
                yield int(name)


def counted(folder: str) -> list[int]:
    """The pieces that have a table."""
    with contextlib.suppress(FileNotFoundError):
        return sorted(int(name[:-4]) for name in os.listdir(os.path.join(folder, "pieces")) if name.endswith(".csv"))
    return []


def kill_worker(running: "subprocess.Popen[str]", folder: str) -> bool:
    """Waits until some pieces are counted, and kills one worker of a run. Whether there was one."""
    while running.poll() is None and len(counted(folder)) < 3:
        time.sleep(0.01)
    while running.poll() is None:
        for pid in workers():
            with contextlib.suppress(ProcessLookupError):
                os.kill(pid, signal.SIGKILL)
                return True
    return False


def times_of(folder: str, pieces: list[int]) -> dict[int, int]:
    """When the table of each piece was written."""
    return {number: os.stat(os.path.join(folder, "pieces", f"{number}.csv")).st_mtime_ns for number in pieces}


def text_of(folder: str) -> str:
    """The sum of all pieces."""
    with open(os.path.join(folder, "sum.csv"), encoding="ascii") as file:
        return file.read()


def test_resumed(room: str, slurm: None) -> None:
    """A worker is killed. Then the sum is not made, and the same command counts the piece again, and no other."""
    folder = os.path.join(room, "haul")
    command = [SLURM, *HAUL, "--folder", folder, "--size", str(20000 // PIECES), "--program", PROGRAM, "--", "--wait"]
    with subprocess.Popen(command, stdout=subprocess.PIPE, stderr=subprocess.PIPE, text=True) as running:
        check("a worker is killed", kill_worker(running, folder))
        output, errors = running.communicate(timeout=300)
    check(
        f"a haul of which a worker was killed: {running.returncode}, {output}{errors}",
        running.returncode == 1
        and output.startswith("pieces: 20 of 20, jobs ")
        and errors.endswith("not all pieces are counted; run the same command again\n"),
    )
    before = times_of(folder, counted(folder))
    same("all pieces but its own are counted", len(before), PIECES - 1)
    check("no sum is made of them", not os.path.exists(os.path.join(folder, "sum.csv")))
    status, output, errors = run(*command)
    check(
        f"the same command again: {status}, {output}{errors}",
        status == 0 and output.startswith("pieces: 1 of 20, jobs "),
    )
    same("no piece is counted twice", times_of(folder, list(before)), before)
    same("the sum is the table of one run", text_of(folder), run(PROGRAM, *HAUL)[1])
    status, output, errors = run(*command)
    check(
        f"the same command once more: {status}, {output}{errors}",
        status == 0 and output.startswith("pieces: 0 of 20, jobs none\n"),
    )


def test_arguments(room: str, slurm: None) -> None:
    """Arguments that a shell would parse; the folder of another haul; what the program refuses; usage errors."""
    folder = os.path.join(room, "a folder's {1} $HOME")
    root = "~{1}$HOME'\"\\|&;`<>*?![#]%=,:@^+-_./()"
    options = ["--folder", folder, "--size", "7", "--program", PROGRAM]
    status, output, errors = run(SLURM, root, "3", "20", "5", "2", *options, "--", "--wait")
    check(f"arguments that a shell would parse: {status}, {output}{errors}", status == 0)
    same("their sum", text_of(folder), run(PROGRAM, root, "3", "20", "5", "2")[1])
    another = f"haul/slurm: {folder}: this folder belongs to another haul (its arguments are in haul.json)\n"
    same("another haul", run(SLURM, root, "3", "20", "6", "2", *options), (1, "", another))
    same("a refused haul", run(SLURM, "a b", "3", "20", "6", "2", *options), (1, "", "refused: out-of-limit\n"))
    for arguments in (
        ["a", "0"],
        ["a", "0", "20", "5", "2", "--size", "0"],
        ["a", "0", "1000001", "5", "2", "--size", "100"],
    ):
        status, output, errors = run(SLURM, *arguments, "--folder", folder)
        usage = "usage: slurm "
        same(f"usage {arguments}", (status, output, errors[: len(usage)]), (2, "", usage))


def test_without_slurm(room: str, monkeypatch: pytest.MonkeyPatch) -> None:
    """A Slurm that answers nothing is said, and the status is 1."""
    monkeypatch.setenv("SLURM_CONF", os.path.join(room, "nowhere"))
    status, output, errors = run(SLURM, *HAUL, "--folder", os.path.join(room, "none"), "--program", PROGRAM)
    check(
        f"no Slurm: {status}, {output}{errors}",
        (status, output) == (1, "") and errors.endswith("haul/slurm: Slurm took no job\n"),
    )
