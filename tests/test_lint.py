"""Python, bash and JavaScript pass their formatters and linters, and no line of JavaScript, CSS or antt is too wide."""
import os
import re
import shutil
import subprocess

import pytest

import linters
from tables import texts

pytestmark = pytest.mark.quick
MOST_COLUMNS = texts.most_columns()
# Where the tools for Python have the width of lines.
WIDTHS = {"pyproject.toml": "line-length", ".flake8": "max-line-length"}
# What no line of antt can break: a text in quotes, and the path of an import with one name.
UNBROKEN = re.compile(r' +"(?:[^"\\]|\\.)*"\)*|use \S+')


@pytest.mark.parametrize("name", linters.tools())
def test_lint(name: str) -> None:
    """A tool has no findings. `./check --fix` formats Python and bash."""
    words = linters.tools()[name]
    if not shutil.which(words[0]):
        pytest.skip(f"{words[0]} is not installed")
    # The tools leave nothing behind in the repository.
    environment = {**os.environ, "MYPY_CACHE_DIR": os.devnull, "BLACK_CACHE_DIR": os.devnull}
    done = subprocess.run(words, cwd=linters.TOP, env=environment, capture_output=True, text=True, check=False)
    assert done.returncode == 0, (done.stdout + done.stderr)[:6000]


def lines_of(path: str) -> list[str]:
    with open(os.path.join(linters.TOP, path), encoding="utf-8") as file:
        return file.read().split("\n")


@pytest.mark.parametrize("path", WIDTHS)
def test_width_of_tools(path: str) -> None:
    """The tools for Python break lines at the width that .editorconfig has."""
    assert f"{WIDTHS[path]} = {MOST_COLUMNS}" in lines_of(path)


def test_width() -> None:
    """No line of JavaScript, CSS or antt has more columns than .editorconfig allows, if it can be broken. No linter
    looks at these."""
    wide = [
        f"{path}:{number}: {len(line)} columns, and at most {MOST_COLUMNS} are allowed"
        for path in linters.tracked()
        if path.endswith((".js", ".css", ".antt"))
        for number, line in enumerate(lines_of(path), 1)
        if len(line) > MOST_COLUMNS and not (path.endswith(".antt") and UNBROKEN.fullmatch(line))
    ]
    assert not wide, "\n".join(wide)[:6000]
