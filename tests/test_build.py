"""The script `life`, with a stand-in for `rt` that takes a moment and leaves the same files: each crate is built after
its dependencies, two at a time, failures are reported, nothing is built twice, a trial is shown, a stop has its status,
and --clean leaves the programs.
"""
import contextlib
import json
import os
import re
import shutil
import signal
import subprocess
import tempfile
import time
from collections.abc import Iterable, Iterator

import pytest

from clients import HERE, check, same

# Its steps share one tree, so one process runs them.
pytestmark = [pytest.mark.quick, pytest.mark.xdist_group("build")]
TOP = os.path.dirname(HERE)
RT = r"""#!/usr/bin/env python3
import json, os, sys, time
name, room = os.path.basename(os.getcwd()), os.environ["ROOM"]
if sys.argv[1] == "version":
    print(os.environ.get("STAND_IN_KIT", "rattle-kit-999a") + " logic 0")
    sys.exit()
if sys.argv[1] == "try":
    with open(os.path.join(room, "tries"), "a") as lines:
        lines.write(sys.stdin.read())
    if os.environ.get("TRIAL") == "endless":
        time.sleep(600)
    print(f"{name}: {os.environ.get('TRIAL') or ' '.join(sys.argv[3:])}")
    print("checked: ended status=0\nrun=ended status=0 runners=1 proved=no", file=sys.stderr)
    open(os.path.join(room, "answered"), "w").close()
    sys.exit()
def log(what):
    with open(os.path.join(room, "log"), "a") as lines:
        lines.write(f"{what} {name} {os.getcwd()} {' '.join(sys.argv[1:])}\n")
def is_logged(start):
    if start == "a trial":
        return os.path.exists(os.path.join(room, "answered"))
    with open(os.path.join(room, "log")) as lines:
        return any(line.startswith(start + " ") for line in lines)
log("begin")
os.makedirs("out/incremental", exist_ok=True)
open("out/incremental/a.Tie.oantt", "w").close()
print("so far: 1 of 3 functions checked", flush=True)
time.sleep(0.3)
awaited, until = json.loads(os.environ["AWAITED"]).get(name), time.monotonic() + 60
while awaited and not is_logged(awaited) and time.monotonic() < until:
    time.sleep(0.02)
if awaited == "a trial":
    # The script takes the answer of a trial once that has ended.
    time.sleep(2)
if name == os.environ.get("FAILS"):
    print("error: this crate is wrong")
    sys.exit(1)
open("out/kept", "w").write(name)
if sys.argv[1] == "run":
    with open(f"out/{name}", "w") as program:
        program.write(f'#!/bin/sh\necho "{name}: $*"\n')
    os.chmod(f"out/{name}", 0o755)
    print("Usage: life", flush=True)
log("end")
sys.exit(2 if sys.argv[1] == "run" else 0)
"""
# What the stand-in did with a crate: begin or end, the crate, the folder, and its arguments.
Line = list[str]


def crates_below() -> dict[str, list[str]]:
    """The crates of this repository that each crate depends on, from its line in crates.txt."""
    with open(os.path.join(TOP, "crates.txt"), encoding="utf-8") as file:
        lines = [line.split(":") for line in file if line.strip() and not line.startswith("#")]
    names = {name for name, _ in lines}
    return {name: [below for below in rest.split() if below in names] for name, rest in lines}


class Tree:
    """A copy of the repository without what was built, and a folder in front of the path that has the stand-in."""

    def __init__(self, room: str) -> None:
        self.room = room
        self.top = os.path.join(room, "tree")
        self.below = crates_below()
        # The crates that the log had as built.
        self.built: set[str] = set()
        os.makedirs(self.top)
        for name in ("crates.txt", "HANDLES", "KIT", "life"):
            shutil.copy(os.path.join(TOP, name), self.top)
        shutil.copytree(
            os.path.join(TOP, "crates"),
            os.path.join(self.top, "crates"),
            ignore=shutil.ignore_patterns("out", "build.log"),
        )
        os.makedirs(os.path.join(room, "bin"))
        with open(os.path.join(room, "bin", "rt"), "w", encoding="utf-8") as script:
            script.write(RT)
        os.chmod(os.path.join(room, "bin", "rt"), 0o755)

    def life(
        self,
        *words: str,
        fails: str = "",
        awaited: dict[str, str] | None = None,
        trial: str = "",
        data: str = "",
        stdin: int | None = None,
    ) -> "subprocess.CompletedProcess[str]":
        """Runs the script on this text, or on what the descriptor `stdin` reads. A crate in `awaited` is not built
        before the log has the line that it names there, or before a trial has answered. A trial answers as the program
        does, or what `trial` says.
        """
        return subprocess.run(
            [os.path.join(self.top, "life"), *words],
            env=self.environment(fails, awaited, trial),
            stdin=stdin,
            input=None if stdin else data,
            capture_output=True,
            text=True,
            timeout=300,
            check=False,
        )

    def has(self, program: str) -> None:
        """Builds this program, if no test has built it yet."""
        if not os.path.exists(self.out(program, program)):
            self.life("--no-trial", "kind", "4", data="a file")
        if not os.path.exists(self.out(program, program)):
            self.life("--build")
        self.log()

    def tries(self) -> str | None:
        """What trials read since this was last asked; nothing if there was no trial."""
        path = os.path.join(self.room, "tries")
        if not os.path.exists(path):
            return None
        with open(path, encoding="utf-8") as file:
            read = file.read()
        os.remove(path)
        return read

    def environment(self, fails: str = "", awaited: dict[str, str] | None = None, trial: str = "") -> dict[str, str]:
        return {
            **os.environ,
            "PATH": os.path.join(self.room, "bin") + ":" + os.environ["PATH"],
            "ROOM": self.room,
            "FAILS": fails,
            "AWAITED": json.dumps(awaited or {}),
            "LIFE_CPU": "x86-64-v2",
            "TRIAL": trial,
        }

    def log(self) -> list[Line]:
        """What the stand-in did since this was last asked."""
        path = os.path.join(self.room, "log")
        if not os.path.exists(path):
            return []
        with open(path, encoding="utf-8") as file:
            lines = [line.rstrip("\n").split(" ", 3) for line in file]
        os.remove(path)
        self.built |= {name for what, name, _, _ in lines if what == "end"}
        return lines

    def out(self, crate: str, name: str) -> str:
        return os.path.join(self.top, "crates", crate, "out", name)

    def edit(self, crate: str, name: str) -> None:
        """Gives a source a later time than what was built of it."""
        time.sleep(1.1)
        os.utime(os.path.join(self.top, "crates", crate, "src", name))


@pytest.fixture(scope="module")
def tree() -> Iterator[Tree]:
    with tempfile.TemporaryDirectory(prefix="life-build-") as room:
        yield Tree(room)


def is_gone(words: bytes, room: str) -> bool:
    """Whether within half a minute no process with these words in its command line runs in the room."""
    until = time.monotonic() + 30
    while is_running(words, room) and time.monotonic() < until:
        time.sleep(0.1)
    return not is_running(words, room)


def is_running(words: bytes, room: str) -> bool:
    """Whether a process with these words in its command line runs in the room."""
    for number in filter(str.isdigit, os.listdir("/proc")):
        try:
            with open(f"/proc/{number}/cmdline", "rb") as file:
                line = file.read().replace(b"\0", b" ")
            if words in line and os.readlink(f"/proc/{number}/cwd").startswith(room):
                return True
        except OSError:
            pass
    return False


def check_order(log: list[Line], below: dict[str, list[str]], at_once: int, before: Iterable[str] = ()) -> None:
    """Each crate begins after its dependencies have ended, at most this many at a time. Some were built before."""
    ended, running, most = set(before), set[str](), 0
    for what, name, _, _ in log:
        if what == "begin":
            same(f"{name} is built after its dependencies", set(below[name]) - ended, set())
            running.add(name)
        else:
            running.discard(name)
            ended.add(name)
        most = max(most, len(running))
    same("crates that are built at a time", most, at_once)
    check(f"each crate is built once: {log}", len(log) == 2 * len(ended - set(before)))


def answer_of(done: "subprocess.CompletedProcess[str]") -> tuple[int, str]:
    """The status and standard output. Standard error says how far a build is."""
    return done.returncode, done.stdout


def test_kit(tree: Tree, monkeypatch: pytest.MonkeyPatch) -> None:
    """A kit that is older than the one in the file KIT is refused before anything is built; that one and a later one
    are not."""
    with open(os.path.join(TOP, "KIT"), encoding="ascii") as file:
        least = file.read().strip()
    for name, is_taken in (("rattle-kit-2z", False), (least[:-1], False), (least, True), ("rattle-kit-999a", True)):
        monkeypatch.setenv("STAND_IN_KIT", name)
        told = tree.life("--kit")
        taken = (0, f"{name}\n", "")
        refused = (1, "", f"life: this needs {least} or later; rt is of {name}\n")
        same(f"the kit {name}", (told.returncode, told.stdout, told.stderr), taken if is_taken else refused)
    monkeypatch.setenv("STAND_IN_KIT", "rattle-kit-2z")
    built = tree.life("kind", "4", data="a file")
    same("an older kit builds nothing", (built.returncode, tree.log(), tree.tries()), (1, [], None))


def test_smaller_program(tree: Tree) -> None:
    """A command over a file needs no crate of the archive. Of two crates on one, the second is built in a copy of the
    tree."""
    # However busy the machine is, life_words ends before life_core, and life_rle runs while life_code does.
    answer = tree.life(
        "generation",
        "1",
        awaited={"life_core": "end life_words", "life_rle": "begin life_code", "life_code": "end life_rle"},
    )
    log = tree.log()
    same("the smaller program answers", answer_of(answer), (0, "life_patterns: generation 1\n"))
    linked = [words for what, name, _, words in log if (what, name) == ("begin", "life_patterns")]
    same("it is linked for the processor that LIFE_CPU names", linked, ["run --cpu=x86-64-v2 -- --help"])
    check(
        f"standard error says how far it is, and nothing else: {answer.stderr}",
        all(line.startswith("life: ") for line in answer.stderr.splitlines()),
    )
    check_order(log, tree.below, 2)
    folders = {name: folder for what, name, folder, _ in log if what == "begin"}
    same("no crate of the archive is built", folders.keys() & {"life_store", "life_cli"}, set())
    copied = [name for name, folder in folders.items() if folder != os.path.join(tree.top, "crates", name)]
    check(f"one of two crates is built in a copy: {copied}", len(copied) == 1)
    for name in folders:
        path = tree.out(name, "kept")
        check(f"what {name} made is in the tree", os.path.exists(path) and open(path, encoding="utf-8").read() == name)
    same("no copy is left", os.listdir(os.path.join(tree.top, "out", "beside")), [])
    again = tree.life("generation", "2")
    same("what is built is not built again", (again.stdout, tree.log()), ("life_patterns: generation 2\n", []))


def test_trial(tree: Tree) -> None:
    """While the smaller program is built, a trial answers on standard error. Standard output has the program's answer
    alone."""
    mark = "life: trial, not proved yet: "
    tree.has("life_patterns")

    def built_again(
        *words: str, data: str = "a file", trial: str = "", stdin: int | None = None, awaited: str = ""
    ) -> "subprocess.CompletedProcess[str]":
        tree.edit("life_patterns", "main.rt")
        with contextlib.suppress(FileNotFoundError):
            os.remove(os.path.join(tree.room, "answered"))
        return tree.life(*words, data=data, trial=trial, stdin=stdin, awaited={"life_patterns": awaited})

    tree.tries()
    answer = built_again("kind", "4", awaited="a trial")
    check(f"a trial is shown, marked: {answer}", mark + "life_patterns: kind 4" in answer.stderr.splitlines())
    same("the answer is the program's", answer_of(answer), (0, "life_patterns: kind 4\n"))
    check(
        f"what rt says of a trial is not shown: {answer}",
        "run=" not in answer.stderr and "checked:" not in answer.stderr,
    )
    same("a trial reads what the program reads", tree.tries(), "a file")
    other = built_again("kind", "4", trial="another answer", awaited="a trial")
    check(
        f"a trial that differs is an error: {other}",
        answer_of(other) == (1, "life_patterns: kind 4\n") and "life: the trial had another answer" in other.stderr,
    )
    tree.tries()
    begun = time.monotonic()
    endless = built_again("kind", "4", trial="endless")
    check(
        f"nobody waits for a trial: {endless}",
        answer_of(endless) == (0, "life_patterns: kind 4\n")
        and mark not in endless.stderr
        and time.monotonic() - begun < 300,
    )
    check("such a trial is ended", tree.tries() == "a file" and is_gone(b"rt try -- kind 4", tree.room))
    plain = built_again("--no-trial", "kind", "4")
    same(
        "no trial is made if it is not wanted",
        (*answer_of(plain), tree.tries()),
        (0, "life_patterns: kind 4\n", None),
    )
    unread = built_again("kind", "4", stdin=os.open(os.devnull, os.O_WRONLY))
    same("input that can't be read has no trial", (unread.stdout, tree.tries()), ("life_patterns: kind 4\n", None))
    explained = built_again("explain", "too-large")
    same(
        "a command that reads nothing has no trial",
        (explained.stdout, tree.tries()),
        ("life_patterns: explain too-large\n", None),
    )
    built = tree.life("kind", "4")
    same(
        "a program that is built has no trial",
        (built.stdout, built.stderr, tree.tries()),
        ("life_patterns: kind 4\n", "", None),
    )
    tree.log()


def test_whole_program(tree: Tree) -> None:
    """The whole program is built after the smaller one, whose dependencies are not built again."""
    tree.has("life_patterns")
    before = set(tree.built)
    # Of the remaining crates, life_check and life_pages alone don't depend on each other. However busy the machine is,
    # they run at the same time.
    together = {"life_check": "begin life_pages", "life_pages": "begin life_check"}
    same("the whole program is built", answer_of(tree.life("--build", awaited=together)), (0, ""))
    log = tree.log()
    check_order(log, tree.below, 2, before)
    same("the smaller program's dependencies are not built again", before & {name for _, name, _, _ in log}, set())
    same("the whole program answers", tree.life("kind", "4").stdout, "life_cli: kind 4\n")


def archive_jobs() -> list[str]:
    """The subcommands that need the archive: the smaller program refuses each of them."""
    with open(os.path.join(TOP, "crates", "life_program", "src", "job.rt"), encoding="utf-8") as file:
        trait = file.read().split("pub trait ArchiveJobs")[1].split("\n}\n")[0]
    # A job consumes the archives; a function without them only prints.
    return re.findall(r"^    fn (\w+)(?:<[^(]*>)?\(\s*self,", trait, re.M)


@pytest.mark.parametrize("name", archive_jobs())
def test_archive_jobs(tree: Tree, name: str) -> None:
    """In a clone that has only the smaller program, a subcommand that needs the archive builds the whole one."""
    tree.has("life_patterns")
    with contextlib.suppress(FileNotFoundError):
        os.remove(tree.out("life_cli", "life_cli"))
    answer = tree.life(name, "--db", "club.db")
    same(f"{name} is answered by the whole program", answer_of(answer), (0, f"life_cli: {name} --db club.db\n"))
    check(f"{name} has built it", "life_cli" in {crate for _, crate, _, _ in tree.log()})


def test_failure(tree: Tree) -> None:
    """A crate that fails ends the build, and its log is shown."""
    tree.edit("life_code", "lib.rt")
    answer = tree.life("--build", fails="life_code")
    names = {name for _, name, _, _ in tree.log()}
    check(
        f"a crate that fails ends the build: {answer}",
        answer.returncode == 1
        and "life_code: the build failed" in answer.stderr
        and "error: this crate is wrong" in answer.stderr,
    )
    same("no crate that depends on it is built", names & {"life_census", "life_store", "life_cli"}, set())
    same("it is built once it is right", tree.life("--build").returncode, 0)
    tree.log()


def test_stopped(tree: Tree) -> None:
    """A build that is stopped ends with the status of its signal, and the next one builds what it was at."""
    for number in (signal.SIGTERM, signal.SIGINT):
        tree.edit("life_code", "lib.rt")
        # In a session of its own, as a shell would start it, a Ctrl-C is not ignored.
        build = subprocess.Popen(
            [os.path.join(tree.top, "life"), "--build"],
            env=tree.environment(awaited={"life_code": "begin nothing"}),
            stdin=subprocess.DEVNULL,
            stdout=subprocess.DEVNULL,
            stderr=subprocess.DEVNULL,
            start_new_session=True,
        )
        until, log = time.monotonic() + 60, os.path.join(tree.room, "log")
        while time.monotonic() < until and not (
            os.path.exists(log) and "begin life_code " in open(log, encoding="utf-8").read()
        ):
            time.sleep(0.05)
        build.send_signal(number)
        same(f"a build that is stopped by {number.name}", build.wait(60), 128 + number)
        tree.log()
    check(
        "the next build does the rest",
        tree.life("--build").returncode == 0 and "life_code" in {name for _, name, _, _ in tree.log()},
    )


def test_clean(tree: Tree) -> None:
    """Afterwards only the programs are there, and they answer. A copy that a stopped build left is gone too."""
    tree.has("life_patterns")
    tree.has("life_cli")
    os.makedirs(os.path.join(tree.top, "out", "beside", "life_code", "crates"))
    same("what was built can be removed", tree.life("--clean").returncode, 0)
    check("so is the copy of a build that was stopped", not os.path.exists(os.path.join(tree.top, "out", "beside")))
    left = [
        os.path.join(folder, name)
        for folder, _, names in os.walk(os.path.join(tree.top, "crates"))
        for name in names
        if "/out" in folder
    ]
    wanted = [
        tree.out("life_cli", "cpu"),
        tree.out("life_cli", "life_cli"),
        tree.out("life_patterns", "cpu"),
        tree.out("life_patterns", "life_patterns"),
    ]
    same("the programs are left", sorted(left), wanted)
    same("they answer", (tree.life("census", "0", "4").stdout, tree.log()), ("life_cli: census 0 4\n", []))
