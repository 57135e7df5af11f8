"""How commands that root types avoid doing anything as root in other users' folders.

A command splits into a worker, which becomes the archive's user and does everything with files, and a helper, which
keeps root's rights and does the few things that the worker asks for. A link that the archive's user has planted then
leads nowhere that this user could not go.
"""
import contextlib
import json
import os
import pwd
import signal
import socket
import stat
import sys
import traceback
from collections.abc import Callable
from types import FrameType

from life_operate.archive import Refused, line_of
from life_operate.signals import ENDING, die_with_parent

# The longest message in bytes; a request and a reply are one message each.
MOST_OF_MESSAGE = 65536
# An action of the helper: it gets the words of a request, and answers with a text and possibly an open file.
Action = Callable[..., tuple[str, int | None]]


def user_of(name: str) -> pwd.struct_passwd:
    try:
        return pwd.getpwnam(name)
    except KeyError as fault:
        raise Refused(f"there is no user {name}") from fault


def become(user: pwd.struct_passwd) -> None:
    """Becomes a user for good. Whoever is not root must be that user already."""
    if os.geteuid() == 0:
        os.setgroups(os.getgrouplist(user.pw_name, user.pw_gid))
        os.setgid(user.pw_gid)
        os.setuid(user.pw_uid)
        os.environ.update(HOME=user.pw_dir, USER=user.pw_name, LOGNAME=user.pw_name)
    elif os.geteuid() != user.pw_uid:
        raise Refused(f"only root and {user.pw_name} can do this")
    os.umask(0o077)


def call_as(user: pwd.struct_passwd, function: Callable[..., object], *words: object) -> object:
    """Calls a function in a separate process that has become a user, and returns its result, which must fit into JSON.
    It is short, so the process ignores signals."""
    reading, writing = os.pipe()
    child = os.fork()
    if child == 0:
        try:
            for number in ENDING:
                signal.signal(number, signal.SIG_IGN)
            try:
                become(user)
                reply = [True, function(*words)]
            except (OSError, Refused) as fault:
                reply = [False, line_of(fault)]
            with os.fdopen(writing, "w", encoding="utf-8") as pipe:
                json.dump(reply, pipe)
        except BaseException:  # pylint: disable=broad-except
            traceback.print_exc()
        finally:
            os._exit(0)
    os.close(writing)
    with os.fdopen(reading, encoding="utf-8") as pipe:
        text = pipe.read()
    os.waitpid(child, 0)
    good, found = json.loads(text) if text else (False, f"a process of {user.pw_name} ended early")
    if not good:
        raise Refused(str(found))
    return found


def open_plain(path: str) -> int | None:
    """Opens a file that may be handed to another user: no part of its path is a link, and it has one name. None if it
    is missing."""
    folder = os.open("/", os.O_PATH | os.O_DIRECTORY)
    *folders, name = os.path.normpath(path).strip("/").split("/")
    try:
        for part in folders:
            deeper = os.open(part, os.O_PATH | os.O_DIRECTORY | os.O_NOFOLLOW, dir_fd=folder)
            os.close(folder)
            folder = deeper
        file = os.open(name, os.O_RDONLY | os.O_NOFOLLOW | os.O_NONBLOCK, dir_fd=folder)
    except FileNotFoundError:
        return None
    except OSError as fault:
        raise Refused(f"{path} can't be read, or a part of it is a link: {fault.strerror}") from fault
    finally:
        os.close(folder)
    state = os.fstat(file)
    if not stat.S_ISREG(state.st_mode) or state.st_nlink != 1:
        os.close(file)
        raise Refused(f"{path} is not a regular file, or has a second name")
    return file


class Gone(Refused):
    """The helper ended."""


class Helper:
    """The worker's end of the line to the helper. Each request is answered before the next one is sent."""

    def __init__(self, line: socket.socket) -> None:
        self.line = line

    def ask(self, *words: str) -> str:
        """The text that answers a request; a refusal is raised."""
        return self.exchange(words)[0]

    def file(self, *words: str) -> int | None:
        """The open file that answers a request, if any."""
        return next(iter(self.exchange(words)[1]), None)

    def exchange(self, words: tuple[str, ...]) -> tuple[str, list[int]]:
        try:
            self.line.send(json.dumps(words).encode())
            message, files, _, _ = socket.recv_fds(self.line, MOST_OF_MESSAGE, 1)
        except OSError as fault:
            raise Gone(f"the root helper process died: {fault}") from fault
        if not message:
            raise Gone("the root helper process died")
        good, text = json.loads(message)
        if not good:
            raise Refused(text)
        return text, files


def answer(line: socket.socket, request: bytes, actions: dict[str, Action]) -> None:
    """Does the action that a worker requests, if it is one of these."""
    name, *words = json.loads(request)
    files = []
    try:
        text, file = actions[name](*words)
        reply, files = [True, text], [file] if file is not None else []
    except Exception as fault:  # pylint: disable=broad-except
        # Whatever the fault is, the worker has to know it, so that it undoes its steps.
        reply = [False, line_of(fault)]
    socket.send_fds(line, [json.dumps(reply).encode()], files)
    for file in files:
        os.close(file)


def work(user: pwd.struct_passwd, line: socket.socket, helper: int, worker: Callable[[Helper], None]) -> None:
    """The worker's process. In its own session, it gets a Ctrl-C only once: from the helper, which passes it on."""
    status = 1
    try:
        os.setsid()
        # The folder in which root typed the command may be closed to the user.
        os.chdir("/")
        become(user)
        die_with_parent()
        if os.getppid() != helper:
            return
        worker(Helper(line))
        status = 0
    except SystemExit as end:
        status = end.code if isinstance(end.code, int) else 1
        if isinstance(end.code, str):
            print(end.code, file=sys.stderr)
    except (OSError, Refused) as fault:
        print(line_of(fault), file=sys.stderr)
    except BaseException:  # pylint: disable=broad-except
        traceback.print_exc()
    finally:
        with contextlib.suppress(OSError):
            sys.stdout.flush()
            sys.stderr.flush()
        os._exit(status)


def split(user: pwd.struct_passwd, worker: Callable[[Helper], None], actions: dict[str, Action]) -> int:
    """Runs a worker as a user, performs these actions for it, and returns its status. Signals are passed on to the
    worker; an early one waits until the worker is ready for it."""
    ours, theirs = socket.socketpair(socket.AF_UNIX, socket.SOCK_SEQPACKET)
    helper = os.getpid()
    signal.pthread_sigmask(signal.SIG_BLOCK, ENDING)
    child = os.fork()
    if child == 0:
        ours.close()
        work(user, theirs, helper, worker)
    theirs.close()

    def pass_on(number: int, _: FrameType | None) -> None:
        with contextlib.suppress(ProcessLookupError):
            os.kill(child, number)

    for number in ENDING:
        signal.signal(number, pass_on)
    signal.pthread_sigmask(signal.SIG_UNBLOCK, ENDING)
    with contextlib.suppress(OSError):
        while request := ours.recv(MOST_OF_MESSAGE):
            answer(ours, request, actions)
    return os.waitstatus_to_exitcode(os.waitpid(child, 0)[1])
