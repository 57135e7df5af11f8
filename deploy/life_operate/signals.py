"""Turns signals that end a command into exceptions, so that its steps are undone."""
import contextlib
import ctypes
import os
import signal
import subprocess
from collections.abc import Iterator
from types import FrameType

ENDING = (signal.SIGINT, signal.SIGTERM, signal.SIGHUP)
# The prctl(2) option that has the system signal a process when its parent ends.
PR_SET_PDEATHSIG = 1


def die_with_parent() -> None:
    """Has the system kill this process when its parent ends, however that ends, so that half a command does not keep
    working."""
    ctypes.CDLL(None).prctl(PR_SET_PDEATHSIG, signal.SIGKILL, 0, 0, 0)


def begin_program() -> None:
    """Prepares the process of a program before the program begins: it ends with its parent, and signals end it."""
    die_with_parent()
    for number in ENDING:
        signal.signal(number, signal.SIG_DFL)
    signal.pthread_sigmask(signal.SIG_UNBLOCK, ENDING)


@contextlib.contextmanager
def blocked() -> Iterator[None]:
    """In this block signals wait for its end."""
    before = signal.pthread_sigmask(signal.SIG_BLOCK, ENDING)
    try:
        yield
    finally:
        signal.pthread_sigmask(signal.SIG_SETMASK, before)


@contextlib.contextmanager
def started(words: list[str], ends_within: float = 0) -> Iterator[subprocess.Popen[bytes]]:
    """Runs a program for the time of a block. It has no input; its output and its errors are pipes. If it still runs at
    the end of the block, it gets SIGTERM, and is killed `ends_within` seconds later. A signal waits until the program
    has started: otherwise no one would know that it runs.
    """
    process = None
    try:
        with blocked():
            process = subprocess.Popen(
                words,
                stdin=subprocess.DEVNULL,
                stdout=subprocess.PIPE,
                stderr=subprocess.PIPE,
                preexec_fn=begin_program,
            )
        yield process
    finally:
        if process:
            try:
                end(process, ends_within)
            except BaseException:
                # A signal came in between. Later ones do nothing.
                end(process, 0)
                raise


def end(process: subprocess.Popen[bytes], within: float) -> None:
    """Ends a process, closes its pipes and waits until it has ended."""
    with process:
        if within and process.poll() is None:
            process.terminate()
            with contextlib.suppress(subprocess.TimeoutExpired):
                process.wait(within)
        process.kill()


class Interrupted(BaseException):
    """A signal that ends the command."""

    def __init__(self, number: int) -> None:
        super().__init__(f"ended by {signal.Signals(number).name}")
        self.number = number


def end_by(number: int) -> None:
    """Ends this process with a signal, as if it had not been caught, so that its parent, such as systemd, knows why it
    ended."""
    signal.signal(number, signal.SIG_DFL)
    os.kill(os.getpid(), number)


class Signals:
    """The first signal raises Interrupted, either at once or, while signals are held back, at the next check. Later
    signals don't stop the cleanup."""

    def __init__(self) -> None:
        self.number: int | None = None
        self.held = False
        for number in ENDING:
            signal.signal(number, self.come)
        # The process that started this one may have blocked them.
        signal.pthread_sigmask(signal.SIG_UNBLOCK, ENDING)

    def come(self, number: int, _: FrameType | None) -> None:
        if self.number is None:
            self.number = number
            if not self.held:
                raise Interrupted(number)

    def check(self) -> None:
        """Raises a signal that came while signals were held back."""
        if self.number is not None:
            raise Interrupted(self.number)

    @contextlib.contextmanager
    def held_back(self) -> Iterator[None]:
        """In this block a signal waits for the next check."""
        before, self.held = self.held, True
        try:
            yield
        finally:
            self.held = before
