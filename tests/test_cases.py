"""Runs the program on the cases of tests/cases and compares what it prints.

A case TOPIC/NAME has NAME.args, one word a line. It has NAME.stdin, NAME.stdout, NAME.stderr and NAME.status if they
are not empty or 0. If the status is not 1, only the first line of standard error is compared. NAME.streams names a
stream that is replaced: 'input closed', 'input folder', 'output full', 'errors full'.

The program without an archive has to print the same: --program crates/life_patterns/out/life_patterns.
"""
import functools
import os
import pathlib
import subprocess

import pytest

import clients
from clients import HERE, same

CASES = pathlib.Path(HERE, "cases")
NAMES = sorted(str(path.relative_to(CASES).with_suffix("")) for path in CASES.glob("*/*.args"))
STREAMS = ("", "input closed", "input folder", "output full", "errors full")

pytestmark = pytest.mark.quick


def part_of(name: str, ending: str) -> bytes:
    """What a case has in its file with this ending. Without such a file it is nothing."""
    path = CASES / (name + ending)
    return path.read_bytes() if path.exists() else b""


def ended(
    program: str, words: list[bytes], folder: str, input_path: str, streams: str = ""
) -> tuple[int, bytes, bytes]:
    """The program's status and what it prints on its two streams. It is called by its name, which its messages have."""
    with open("/dev/full", "wb") as full:
        source = os.open(input_path, os.O_RDONLY)
        try:
            done = subprocess.run(
                [b"life", *words],
                executable=program,
                cwd=folder,
                stdin=source,
                stdout=full if streams == "output full" else subprocess.PIPE,
                stderr=full if streams == "errors full" else subprocess.PIPE,
                preexec_fn=functools.partial(os.close, 0) if streams == "input closed" else None,
                timeout=60,
            )
        finally:
            os.close(source)
    return done.returncode, done.stdout or b"", done.stderr or b""


@pytest.mark.parametrize("name", NAMES)
def test_case(program: str, folder: str, name: str) -> None:
    streams, data = part_of(name, ".streams").decode().strip(), str(CASES / (name + ".stdin"))
    assert streams in STREAMS
    words = part_of(name, ".args").split(b"\n")
    # The last line may have an end.
    words = words if words[-1] else words[:-1]
    input_path = folder if streams == "input folder" else data if os.path.exists(data) else os.devnull
    status, printed, errors = ended(program, words, folder, input_path, streams)
    wanted, wanted_errors = int(part_of(name, ".status") or 0), part_of(name, ".stderr")
    if wanted_errors and wanted != 1:
        errors, wanted_errors = errors.partition(b"\n")[0], wanted_errors.partition(b"\n")[0]
    same(
        f"case {name}: status, output, errors, files",
        (status, printed, errors, os.listdir(folder)),
        (wanted, part_of(name, ".stdout"), wanted_errors, []),
    )


# These are tests of the program without an archive alone.
if os.path.basename(os.path.realpath(clients.PROGRAM)) == "life_patterns":

    @pytest.mark.parametrize("line", ["deposit --db none.db ann t1", "serve --db none.db --port 8080 --connections 1"])
    def test_without_the_archive(program: str, folder: str, line: str) -> None:
        """What asks for an archive is unavailable, and no file is made."""
        glider = os.path.join(HERE, "..", "examples", "glider.rle")
        status, printed, errors = ended(program, line.encode().split(), folder, glider)
        same(
            f"without the archive: {line}",
            (status, printed, errors, os.listdir(folder)),
            (1, b"", b"refused: unavailable\n", []),
        )
