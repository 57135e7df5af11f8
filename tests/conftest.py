"""What pytest needs to run every part: the program that is tested, folders, and checks after which a test continues.

A test makes many checks, with `check` and `same` of clients.py. It runs to its end, and fails if one of them failed,
with what came and what was wanted for each. The last line of a run is 'N passed, M failed, K skipped': it counts
checks, and a test without checks as one.
"""
import os
import shutil
from collections.abc import Generator, Iterator

import pytest

import clients
import haul_runs
import scripts

# The checks of all tests that ran, of parallel processes too, and the tests that were skipped.
COUNTED = {"passed": 0, "failed": 0, "skipped": 0}
NOTES: list[str] = []


def pytest_addoption(parser: pytest.Parser) -> None:
    parser.addoption("--program", default=clients.PROGRAM, help="the program `life` that is tested")


def pytest_configure(config: pytest.Config) -> None:
    clients.PROGRAM = os.path.abspath(config.getoption("--program"))


@pytest.hookimpl(hookwrapper=True)  # type: ignore[misc]
def pytest_pyfunc_call(pyfuncitem: pytest.Function) -> Generator[None, "pytest.CallInfo[None]", None]:
    """Fails a test that came to its end if one of its checks failed."""
    passed, failed, notes, missing = (
        clients.PASSED[0],
        len(clients.FAILED),
        len(clients.NOTES),
        len(clients.LEFT_OUT),
    )
    outcome = yield
    messages = clients.FAILED[failed:]
    pyfuncitem.user_properties += [("checks passed", clients.PASSED[0] - passed), ("checks failed", len(messages))]
    pyfuncitem.user_properties += [("note", note) for note in clients.NOTES[notes:]]
    pyfuncitem.user_properties += [("left out", why) for why in clients.LEFT_OUT[missing:]]
    if messages and outcome.excinfo is None:
        pytest.fail("\n".join(messages), pytrace=False)
    pyfuncitem.add_report_section("call", "checks that failed", "\n".join(messages))


def pytest_runtest_logreport(report: pytest.TestReport) -> None:
    """Counts the checks of a test. A test that has none, or that did not come to its end, counts as one more."""
    if report.skipped:
        COUNTED["skipped"] += 1
        return
    if report.when == "call":
        checks = dict(report.user_properties)
        for name, text in report.user_properties:
            if name == "note":
                NOTES.append(str(text))
            elif name == "left out":
                NOTES.append(f"left out: {text}")
                COUNTED["skipped"] += 1
        passed, failed = (int(str(checks.get(name, 0))) for name in ("checks passed", "checks failed"))
        COUNTED["passed"] += passed or (1 if report.passed else 0)
        COUNTED["failed"] += failed or (1 if report.failed else 0)
    elif report.failed:
        COUNTED["failed"] += 1


def pytest_unconfigure(config: pytest.Config) -> None:
    """Prints what tests noted and the last line, in the process that counts."""
    if not hasattr(config, "workerinput"):
        print(*NOTES, sep="\n", end="\n" if NOTES else "")
        print("{passed} passed, {failed} failed, {skipped} skipped".format(**COUNTED))


@pytest.fixture(scope="module")
def folder() -> Iterator[str]:
    """A folder that the tests of one file share, in memory if the system has room."""
    path = os.path.realpath(clients.new_folder())
    yield path
    shutil.rmtree(path, ignore_errors=True)


@pytest.fixture(scope="module")
def room(folder: str) -> Iterator[str]:
    """The folder of the tests of the members' scripts. The record of what was stored is there, and not that of who runs
    this."""
    with scripts.own_record(folder):
        yield folder


@pytest.fixture(scope="session")
def program() -> str:
    """The program `life`. Tests that ask for it are skipped if it is not built."""
    if not os.access(clients.PROGRAM, os.X_OK):
        pytest.skip(f"there is no program {clients.PROGRAM}")
    return clients.PROGRAM


@pytest.fixture(scope="session")
def haul_programs() -> None:
    """`life-haul`, and the `life` without an archive. Tests that ask for them are skipped if they are not built."""
    for path in (haul_runs.PROGRAM, haul_runs.LIFE):
        if not os.access(path, os.X_OK):
            pytest.skip(f"there is no program {path}")
