"""The formatters and linters of the repository, as Debian has them, with the files that each looks at: black, flake8,
mypy, shfmt, shellcheck and tsc. Their settings are in pyproject.toml, .flake8, .editorconfig and
tests/types/tsconfig.json. tests/test_lint.py runs them. A script without an ending is known by its first line.

    python3 tests/linters.py    formats Python and bash in place
"""
import os
import re
import subprocess
import sys

TOP = os.path.dirname(os.path.dirname(os.path.abspath(__file__)))
SHFMT = ["shfmt", "-i", "2", "-ci"]


def first_line(path: str) -> bytes:
    with open(os.path.join(TOP, path), "rb") as file:
        return file.readline()


def tracked() -> list[str]:
    """The files of the repository; outside of git, all but what is built."""
    listed = subprocess.run(
        ["git", "ls-files", "--cached", "--others", "--exclude-standard"],
        cwd=TOP,
        capture_output=True,
        text=True,
        check=False,
    )
    if listed.returncode == 0:
        return [
            path
            for path in listed.stdout.splitlines()
            if os.path.isfile(os.path.join(TOP, path)) and not os.path.islink(os.path.join(TOP, path))
        ]
    return [
        os.path.relpath(os.path.join(folder, name), TOP)
        for folder, _, names in os.walk(TOP)
        if "/out" not in folder
        for name in names
    ]


def tools() -> dict[str, list[str]]:
    """Each tool with its arguments."""
    files = tracked()
    python = [path for path in files if path.endswith(".py") or re.match(rb"#!.*\bpython", first_line(path))]
    shell = [
        path for path in files if first_line(path).startswith((b"#!/usr/bin/env bash", b"#!/bin/bash", b"#!/bin/sh"))
    ]
    return {
        "black": ["black", "--quiet", "--check", "--diff", *python],
        "flake8": ["flake8", *python],
        "mypy": ["mypy", *python],
        "shfmt": [*SHFMT, "-d", *shell],
        "shellcheck": ["shellcheck", *shell],
        "tsc": ["tsc", "-p", "tests/types"],
    }


def fix() -> int:
    """Formats what can be formatted."""
    found = tools()
    python, shell = found["flake8"][1:], found["shellcheck"][1:]
    return (
        subprocess.run(["black", "--quiet", *python], cwd=TOP, check=False).returncode
        or subprocess.run([*SHFMT, "-w", *shell], cwd=TOP, check=False).returncode
    )


if __name__ == "__main__":
    sys.exit(fix())
