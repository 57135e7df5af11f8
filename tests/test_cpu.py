"""The script `life` links a program for the processor that LIFE_CPU names, and the program for x86-64-v3 passes
tests/test_cases.py, if this machine can run it. What is linked for x86-64-v2 is what the gate runs everywhere else.

It is built and proved in a copy of the sources: `rt ci` leaves no library that another run takes.
"""
import os
import pathlib
import re
import shutil
import subprocess
import sys
import tempfile

import pytest

from clients import HERE, check, same

TOP = os.path.dirname(HERE)
CRATES = os.path.join(TOP, "crates")
CPU = "x86-64-v3"

pytestmark = pytest.mark.long


def copied_tree(to: str) -> None:
    """Copies this tree without what is built."""

    def left_out(folder: str, names: list[str]) -> set[str]:
        # Beside this test others run, which write to the folders of what Python compiles.
        built = {"out", ".git"} if folder == TOP or os.path.dirname(folder) == CRATES else set()
        return {"__pycache__", *built} & set(names)

    shutil.copytree(TOP, to, symlinks=True, ignore=left_out)


def test_program_for_another_processor() -> None:
    if not re.search(r"(?m)^flags.* avx2( |$)", pathlib.Path("/proc/cpuinfo").read_text(encoding="latin-1")):
        pytest.skip(f"this machine has no processor for {CPU}")
    with tempfile.TemporaryDirectory() as room:
        copy = os.path.join(room, "life")
        copied_tree(copy)
        with open(os.path.join(TOP, "examples", "glider.rle"), "rb") as glider:
            done = subprocess.run(
                [os.path.join(copy, "life"), "kind", "4"],
                stdin=glider,
                stdout=subprocess.PIPE,
                stderr=subprocess.STDOUT,
                text=True,
                env={**os.environ, "LIFE_CPU": CPU},
            )
        check(
            f"a program that is linked for {CPU} answers: {done.stdout[-1000:]}",
            done.returncode == 0 and "ship 4 1 1 xq4_153" in done.stdout.splitlines(),
        )
        built = pathlib.Path(copy, "crates", "life_patterns", "out")
        linked_for = built / "cpu"
        same("the script knows what it linked for", linked_for.exists() and linked_for.read_text(), f"{CPU}\n")
        words = ["-m", "pytest", os.path.join(HERE, "test_cases.py"), "--program", str(built / "life_patterns")]
        done = subprocess.run([sys.executable, *words], cwd=TOP, stdout=subprocess.PIPE, text=True)
        check(f"a program for {CPU} passes tests/test_cases.py: {done.stdout[-1000:]}", done.returncode == 0)
