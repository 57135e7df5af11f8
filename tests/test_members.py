"""What members type besides the scripts: shell completions, and the commands of the documents, which print what is
shown under them. Completions and manual pages are made by tools/make-words. The tests wait more than they work, so
they run side by side with `-n 8`.
"""
import filecmp
import os
import re
import shutil
import subprocess
import textwrap
import warnings

import pytest

import clients
from clients import check, same
from scripts import EXAMPLES, HAUL, TOP, needs, new_folder, said

pytestmark = pytest.mark.quick
WORDS = os.path.join(TOP, "tools", "make-words")
DRAW = os.path.abspath(os.path.join(TOP, "crates", "life_draw", "out", "life_draw"))


@pytest.fixture(scope="module")
def programs(program: str) -> dict[str, str]:
    """The three programs by the names that members call them."""
    found = dict(zip(CALLED, (program, DRAW, HAUL)))
    for path in found.values():
        if not os.access(path, os.X_OK):
            pytest.skip(f"there is no program {path}")
    return found


@pytest.fixture(scope="module")
def words(room: str, programs: dict[str, str]) -> str:
    """The folder of the manual pages and completions of the programs."""
    folder = os.path.join(room, "words")
    same("manual pages and completions are made", said(WORDS, folder, *programs.values()), (0, "", ""))
    return folder


# ---- the words of the programs

CALLED = ["life", "life-draw", "life-haul"]
with open(os.path.join(TOP, "docs", "COMMANDS.md"), encoding="utf-8") as commands:
    SUBCOMMANDS = sorted({*re.findall(r"(?m)^## `life ([a-z]+)", commands.read()), "help"})
# What is typed, the last word unfinished, and what a shell may put in its place.
OPTIONS = {
    "check": ["--db", "--help", "--quick"],
    "deposit": ["--db", "--help"],
    "serve": ["--connections", "--db", "--help", "--port"],
}
TYPED: list[tuple[str, list[str]]] = [
    ("life ", SUBCOMMANDS),
    ("life de", ["deposit"]),
    ("life z", []),
    ("life deposit --", OPTIONS["deposit"]),
    ("life serve --", OPTIONS["serve"]),
    ("life check --", OPTIONS["check"]),
    ("life serve --p", ["--port"]),
    ("life kind --", ["--help"]),
    ("life serve --db clu", ["club one.db", "club.db"]),
    ("life serve --port ", []),
    ("life help ob", ["object"]),
    ("life explain bad-c", ["bad-code", "bad-count"]),
    ("life explain --", ["--help"]),
    ("life-draw ", ["animation", "help", "svg", "text"]),
    ("life-draw s", ["svg"]),
    ("life-draw z", []),
    ("life-draw text --", ["--help"]),
    ("life-draw help te", ["text"]),
    ("life-haul --", ["--help", "--rule", "--symmetry", "--version"]),
    ("life-haul --r", ["--rule"]),
    ("life-haul ann 0 1000 --", ["--help", "--rule", "--symmetry", "--version"]),
    ("life-haul --rule ", []),
    ("life-haul an", []),
    ("life-haul so", ["soup"]),
    ("life-haul soup ann --", ["--help", "--rule", "--symmetry"]),
]


def test_bash(room: str, words: str) -> None:
    where = new_folder(room, "bash", {"club one.db": b"", "club.db": b"", "other.db": b""})
    source = "".join(f". {words}/{called}.bash; " for called in CALLED)
    same(
        "bash knows the completions",
        said("bash", "--norc", "-c", source + f"complete -p {' '.join(CALLED)}")[1],
        "complete -F _life life\ncomplete -F _life_draw life-draw\ncomplete -F _life_haul life-haul\n",
    )
    calls: list[tuple[list[str], list[str]]] = [
        *((line.split(" "), wanted) for line, wanted in TYPED),
        (["life", "deposit", "--db", "=", "ot"], ["other.db"]),
        (["life", "deposit", "--db", "="], ["club one.db", "club.db", "other.db"]),
        (["life", "kind", "4", "<", "oth"], ["other.db"]),
        (["life", ""], TYPED[0][1] + ["--help", "-h", "--version", "-V"]),
        (["life-draw", "svg", "<", "oth"], ["other.db"]),
        (["life-haul", "--rule", "=", "B"], []),
    ]
    for typed, wanted in calls:
        line = (
            source + 'COMP_WORDS=("$@"); COMP_CWORD=$(($# - 1)); _${1//-/_}; '
            "[ ${#COMPREPLY[@]} = 0 ] || printf '%s\\n' \"${COMPREPLY[@]}\""
        )
        status, printed, errors = said("bash", "--norc", "-c", line, "bash", *typed, cwd=where)
        # Each short form is where its long one is, and a program's own options are where its subcommands are.
        found = sorted(word for word in printed.splitlines() if word not in ("-h", "-V") or word in wanted)
        wanted = sorted(wanted + ["--help", "--version"] if typed[1:] == [""] and "-h" not in wanted else wanted)
        same(f"bash completes {typed}", (status, found, errors), (0, wanted, ""))


def test_fish(room: str, words: str) -> None:
    needs("fish")
    where = new_folder(room, "fish", {"club one.db": b"", "club.db": b"", "other.db": b""})
    source = "".join(f"source {words}/{called}.fish; " for called in CALLED)
    for line, wanted in TYPED:
        status, printed, errors = said("fish", "--no-config", "-c", f"{source}complete -C '{line}'", cwd=where)
        found = sorted(answer.split("\t")[0].replace("\\ ", " ") for answer in printed.splitlines())
        same(f"fish completes {line!r}", (status, found, errors), (0, wanted, ""))


ZSH_TRIAL = """
zmodload zsh/zpty
zpty shell "TERM=dumb ZDOTDIR=$PWD/start zsh -d -i"
heard() { zpty -r -m shell got "*$1*" }
heard READY
zpty -w -n shell "$1"$'\\t'
heard "$2"
zpty -d shell
"""


def test_zsh(room: str, words: str) -> None:
    """A word that is begun is ended by zsh as it is typed at a terminal."""
    needs("zsh")
    where = new_folder(room, "zsh", {"club.db": b"", "other.db": b""})
    new_folder(
        where,
        "start",
        {".zshrc": f"fpath=({words} $fpath); autoload -Uz compinit; compinit -u -D; print READY".encode()},
    )
    for line, ended in (
        ("life de", "life deposit "),
        ("life serve --p", "life serve --port "),
        ("life serve --db oth", "life serve --db other.db "),
        ("life help ob", "life help object "),
        ("life explain no-e", "life explain no-end "),
        ("life-draw s", "life-draw svg "),
        ("life-draw help te", "life-draw help text "),
        ("life-haul ann 0 1000 2048 60 --r", "life-haul ann 0 1000 2048 60 --rule "),
        ("life-haul so", "life-haul soup "),
        ("life-haul soup ann 17 --r", "life-haul soup ann 17 --rule "),
    ):
        try:
            heard = said("timeout", "50", "zsh", "-f", "-c", ZSH_TRIAL, "zsh", line, ended, cwd=where)[0] == 0
        except subprocess.TimeoutExpired:
            heard = False
        check(f"zsh completes {line!r}", heard)


# Edits of the help of a program, and which of its files each changes.
EDITS = [
    ("life", "s/from 1 to 65535/from 1 to 65534/", "_life life.1 life.fish"),
    ("life", "s/bad-count,/bad-counts,/", "_life life.1 life.bash life.fish"),
    ("life", "s/--port/--gate/", "_life life.1 life.bash life.fish"),
    ("life-draw", "s/as an SVG document/as SVG/", "_life-draw life-draw.1 life-draw.fish"),
    ("life-draw", "s/--help/--aid/", "_life-draw life-draw.1 life-draw.bash life-draw.fish"),
    ("life-haul", "s/from 1 to 1000000/from 1 to 999999/", "_life-haul life-haul.1"),
    ("life-haul", "s/--rule/--law/", "_life-haul life-haul.1 life-haul.bash life-haul.fish"),
]


def test_words_of_help(room: str, programs: dict[str, str], words: str) -> None:
    """Another help gives other manual pages and completions, and only of that program."""
    names = sorted(form.format(called) for called in CALLED for form in ("{}.1", "{}.bash", "_{}", "{}.fish"))
    same("the files of the programs", sorted(os.listdir(words)), names)
    for called, edit, differing in EDITS:
        other, changed = os.path.join(room, f"other-{called}"), os.path.join(room, f"words-of-other-{called}")
        with open(other, "w", encoding="utf-8") as text:
            text.write(
                f"#!/usr/bin/env bash\n(exec -a {called} '{programs[called]}' \"$@\") 2>&1 | sed '{edit}' >&2\nexit 2\n"
            )
        os.chmod(other, 0o755)
        same(f"{edit}: words are made", said(WORDS, changed, *(programs | {called: other}).values()), (0, "", ""))
        _, different, missing = filecmp.cmpfiles(words, changed, names, shallow=False)
        same(f"{edit}: files that differ", (" ".join(sorted(different)), missing), (differing, []))


def test_words_without_programs(room: str) -> None:
    """tools/make-words takes the programs of its clone, and says if none is built."""
    clone = os.path.join(room, "clone")
    os.makedirs(os.path.join(clone, "tools"))
    made = shutil.copy(WORDS, os.path.join(clone, "tools"))
    wanted = (1, "", "make-words: no program is built: ./life --build\n")
    same("no program is built", said(made, os.path.join(clone, "words")), wanted)


def test_manual(programs: dict[str, str], words: str) -> None:
    """The manual pages are read without a warning, and have the words and the versions of the programs."""
    needs("man")
    for called, lines in (
        ("life", ["life serve --db F --port P --connections N", "life kind 4 < glider.rle"]),
        ("life-draw", ["life-draw text < FILE", "life generation 30 < gun.rle | life-draw text"]),
        (
            "life-haul",
            [
                "life-haul [OPTIONS] ROOT FIRST COUNT N LIMIT",
                "life-haul soup [OPTIONS] ROOT NUMBER",
                "life-haul abc 1 1000 2048 60",
            ],
        ),
    ):
        page = os.path.join(words, f"{called}.1")
        status, printed, errors = said(
            "man", "--warnings", "-l", page, env=os.environ | {"MANWIDTH": "140", "LC_ALL": "C"}
        )
        same(f"the manual page of {called} is read without a warning", (status, errors), (0, ""))
        plain = re.sub(" +", " ", printed)
        check(f"the manual page of {called} has the words", all(line + "\n" in plain for line in lines))
        version = subprocess.run(
            [called, "--version"], executable=programs[called], capture_output=True, text=True, timeout=60
        ).stdout
        check(f"the manual page of {called} has the version", version.startswith(called) and version.strip() in plain)
    for page in ("life-restore.8", "life-index.8"):
        status, printed, errors = said(
            "man",
            "--warnings",
            "-l",
            os.path.join(TOP, "docs", page),
            env=os.environ | {"MANWIDTH": "140", "LC_ALL": "C"},
        )
        check(
            f"the manual page {page} is read without a warning",
            (status, errors) == (0, "") and "EXIT STATUS" in printed,
        )


def test_shellcheck(words: str) -> None:
    needs("shellcheck")
    scripts = os.path.join(EXAMPLES, "scripts")
    paths = [os.path.join(scripts, name) for name in sorted(os.listdir(scripts)) if name != "plot-haul"]
    same("shellcheck of the scripts", said("shellcheck", "-x", *paths), (0, "", ""))
    for called in CALLED:
        same(
            f"shellcheck of {called}.bash",
            said("shellcheck", "-s", "bash", os.path.join(words, f"{called}.bash")),
            (0, "", ""),
        )


# Sentences that said more than is proved or tested, in the pages that had them.
WITHDRAWN = [
    ("README.md", "files that this program made"),
    ("README.md", "where memory or the store refuses, and has then changed nothing"),
    ("docs/API.md", "are told by the request's words alone"),
    ("docs/FORMATS.md", "So two patterns of one rule have one code exactly"),
    ("docs/GUIDE.md", "two periodic patterns of one rule have one code exactly"),
    ("docs/OPERATING.md", "No peer holds the others for long"),
    ("docs/UPGRADING.md", "What never changes from one version to"),
]
# What a command of a page has in it that a test can't type: keys, and what belongs to a shell or a machine of one's
# own.
NEEDS_MORE = re.compile("<tab>|--port$|make-words|deploy/|man -l|--help|8081")
# The pages whose commands are typed, how many there are at least, and how many are not typed. Each is begun in a folder
# of its own.
TYPED_PAGES = [
    ("README.md", 9, 0),
    ("docs/COMMANDS.md", 19, 1),
    ("docs/DEFINITIONS.md", 25, 0),
    ("docs/API.md", 4, 0),
    ("docs/GUIDE.md", 33, 0),
]


def commands_of(page: str) -> tuple[list[tuple[str, str]], list[str]]:
    """The commands of a page, each with what is printed under it, and those that a test can't type."""
    with open(os.path.join(TOP, page), encoding="utf-8") as text:
        found = re.findall(r"(?m)^    \$ (.*)\n((?:    (?!\$ ).*\n)*)", text.read())
    return [(command, textwrap.dedent(printed)) for command, printed in found if can_be_typed(command)], [
        command for command, _ in found if not can_be_typed(command)
    ]


def can_be_typed(command: str) -> bool:
    # One with an odd number of quotes goes over several lines.
    return not NEEDS_MORE.search(command) and command.count("'") % 2 == 0


def have_ended(servers: "list[subprocess.Popen[bytes]]") -> None:
    """Waits until these servers have served their connections, or ends them."""
    for server in servers:
        try:
            server.wait(10)
        except subprocess.TimeoutExpired:
            server.kill()
            # Until it has ended it has its port, which the next one needs.
            server.wait()


def printed_by(command: str, here: str, servers: "list[subprocess.Popen[bytes]]") -> str:
    """What a command prints. A server is left running, and the next command that needs its file waits until it has
    ended."""
    if "--db" in command or "sqlite3" in command:
        have_ended(servers)
    if command.endswith("&") or command.startswith("./life serve"):
        servers.append(
            subprocess.Popen(
                ["bash", "-c", f"exec {command.rstrip(' &')}"],
                cwd=here,
                stdout=subprocess.PIPE,
                stderr=subprocess.STDOUT,
            )
        )
        out = servers[-1].stdout
        assert out
        return out.readline().decode()
    done = subprocess.run(
        ["bash", "-c", command], cwd=here, stdout=subprocess.PIPE, stderr=subprocess.STDOUT, timeout=60
    ).stdout.decode()
    # What comes by HTTP has no line end of its own.
    return done if done.endswith("\n") or not done or "localhost" not in command else done + "\n"


@pytest.mark.parametrize("page, least, most_left_out", TYPED_PAGES, ids=[page for page, *_ in TYPED_PAGES])
def test_page(page: str, least: int, most_left_out: int, room: str, programs: dict[str, str]) -> None:
    """The commands of a page print what is shown under them, in their order."""
    here = os.path.join(room, os.path.basename(page))
    os.mkdir(here)
    for name, path in (programs | {"examples": EXAMPLES}).items():
        os.symlink(os.path.realpath(path), os.path.join(here, name))
    (commands, left_out), port = commands_of(page), str(clients.free_port())
    check(f"{len(commands)} commands of {page}", len(commands) >= least)
    check(f"of {page} these are not typed: {left_out}", len(left_out) <= most_left_out)
    if left_out:
        warnings.warn(f"{len(left_out)} commands of {page} are not typed: {'; '.join(left_out)}", stacklevel=1)
    if not shutil.which("sqlite3"):
        commands = [(command, wanted) for command, wanted in commands if "sqlite3" not in command]
    servers: list[subprocess.Popen[bytes]] = []
    try:
        for command, wanted in commands:
            came = textwrap.dedent(printed_by(command.replace("8080", port), here, servers)).replace(port, "8080")
            same(f"{page}: {command}", came.replace("\r", ""), wanted)
    finally:
        for server in servers:
            server.kill()
            server.communicate()


def test_sqlite3() -> None:
    """Without sqlite3 the commands of pages that need it are not typed."""
    needs("sqlite3")


@pytest.mark.parametrize("page, sentence", WITHDRAWN)
def test_withdrawn(page: str, sentence: str) -> None:
    """No page says what was withdrawn."""
    with open(os.path.join(TOP, page), encoding="utf-8") as text:
        check(f"{page} no longer says '{sentence}'", sentence not in " ".join(text.read().split()))
