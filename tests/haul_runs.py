"""Runs life-haul for tests: its tables, and what it and other programs print.
"""
import os
import subprocess
from collections.abc import Mapping

from clients import HERE, same

TOP = os.path.dirname(HERE)
PROGRAM = os.path.join(TOP, "crates", "life_haul", "out", "life_haul")
LIFE = os.path.join(TOP, "crates", "life_patterns", "out", "life_patterns")
GREATEST_FIRST = 2**53
ROOTS = ["ann-2026", "~{1}$HOME'\"\\|&;`<>*?![#]%=,:@^+-_./()", "r" * 64]
# The status of a command, and the texts of its standard output and standard error.
Said = tuple[int, str, str]


def run(*command: str | bytes, executable: str | None = None, env: Mapping[str, str] | None = None) -> Said:
    ended = subprocess.run(command, capture_output=True, timeout=300, check=False, executable=executable, env=env)
    return ended.returncode, ended.stdout.decode(), ended.stderr.decode()


def run_haul(*arguments: str | bytes) -> Said:
    """The status and the two texts of the program. It is called by its name, which its messages have."""
    return run("life-haul", *arguments, executable=PROGRAM)


def table(
    root: str, first: int, count: int, n: int, limit: int, rule: str = "B3/S23", symmetry: str | None = None
) -> str:
    """The table that the program prints."""
    named = ["--symmetry", symmetry] if symmetry else []
    status, output, errors = run_haul(root, str(first), str(count), str(n), str(limit), "--rule", rule, *named)
    same(f"haul {root} {first} {count} {n} {limit} {rule} {symmetry}", (status, errors), (0, ""))
    return output
