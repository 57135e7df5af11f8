"""The public functions of the libraries, with the names of their clauses, as the sources have them."""
from __future__ import annotations

import os
import re
import subprocess
from functools import lru_cache
from typing import Dict, List, NamedTuple, Optional, Sequence, Set, Tuple

from .texts import TOP, Read


class Function(NamedTuple):
    """A function of a source. Each clause on what it leaves is a pair: its name, and the definition that it cites
    first."""

    of: Optional[str]
    in_block: bool
    is_public: bool
    name: str
    clauses: Tuple[Tuple[str, str], ...]


class Clauses(NamedTuple):
    """The file of a public function, and the names of its clauses."""

    path: str
    names: List[str]


# The public functions of each library, by their names.
Libraries = Dict[str, Dict[str, Clauses]]


@lru_cache(maxsize=None)
def files_of_repository() -> Set[str]:
    """The paths of all files that git knows or would add; in a copy without git, all files that are not built."""
    words = ["git", "-C", TOP, "ls-files", "--cached", "--others", "--exclude-standard"]
    git = subprocess.run(words, stdout=subprocess.PIPE, stderr=subprocess.DEVNULL, check=False)
    listed = git.stdout.decode().splitlines()
    if not listed:
        listed = [
            os.path.relpath(os.path.join(folder, name), TOP)
            for folder, _, found in os.walk(TOP)
            for name in found
            if not re.search(r"/(out|\.git)(/|$)", folder)
        ]
    return {path for path in listed if os.path.exists(os.path.join(TOP, path))}


@lru_cache(maxsize=None)
def files_like(form: str) -> List[str]:
    """The paths of the repository that have this form, in their order."""
    return sorted(path for path in files_of_repository() if re.fullmatch(form, path))


def roots() -> Dict[str, str]:
    """The file of each crate that says what it exports, except those for tests."""
    found = {path.split("/")[1]: path for path in files_like(r"crates/\w+/src/(lib|main)\.rt")}
    return {crate: path for crate, path in found.items() if not crate.endswith("_tests")}


def libraries() -> List[str]:
    """The crates that are libraries, except those for tests."""
    return [crate for crate, path in roots().items() if path.endswith("/lib.rt")]


def exported(crate: str, read: Read) -> Set[str]:
    """The names that a crate exports: a library to other crates, a program the laws of its jobs."""
    uses = re.findall(r"pub use ([^;]*);", read(roots()[crate]))
    named = [use.split("{")[1] if "{" in use else use.split("::")[-1] for use in uses]
    return {name for names in named for name in re.findall(r"\w+", names)}


def signature(lines: Sequence[str], at: int) -> List[str]:
    """The lines of a function from its name up to its body."""
    taken: List[str] = []
    for line in lines[at:]:
        taken.append(line.strip())
        clauses = any(re.match(r"(ensures|requires)\b", one) for one in taken)
        if taken[-1] in ("{", "{}") or taken[-1].endswith((";", "{}")) or (taken[-1].endswith("{") and not clauses):
            break
    return taken


def owner(line: str) -> Tuple[Optional[str], bool]:
    """The type that a block belongs to, and whether the block is for a trait, whose functions are as public as the
    trait."""
    trait = re.match(r"(?:pub )?trait (\w+)", line)
    if trait:
        return trait[1], True
    of = re.match(r"impl(?:<(?:[^<>]|<[^<>]*>)*>)? (?:.* for )?(\w+)", line)
    return of[1] if of else None, " for " in line


@lru_cache(maxsize=None)
def functions(text: str) -> List[Function]:
    """Each function of a source."""
    lines = text.split("\n")
    found_all: List[Function] = []
    of: Optional[str] = None
    of_trait = in_block = False
    for at, line in enumerate(lines):
        if re.match(r"(pub |pub\(crate\) )?(impl|trait)\b", line):
            (of, of_trait), in_block = owner(line), True
        elif line.startswith("}"):
            of, of_trait, in_block = None, False, False
        found = re.match(r"\s*(pub )?(?:const )?fn (\w+)", line)
        if found:
            clauses = [re.match(r"ensures ?(\w*) ?(?:\{ (\w+))?", one) for one in signature(lines, at)]
            named = tuple((clause[1] or "ensures", clause[2] or "") for clause in clauses if clause)
            found_all.append(Function(of, in_block, bool(found[1]) or of_trait, found[2], named))
    return found_all


def records_of_clauses(read: Read) -> Dict[str, List[str]]:
    """The fields of each definition in `specs/` that is a record about the `result` of a call. They are clauses of a
    function that cites it."""
    sources = "\n".join(read(path) for path in files_like(r"crates/\w+/specs/\w+\.antt"))
    found = re.findall(r"(?m)^pub record (\w+) (.*(?:\n    .*)*) where\n((?:  .*\n)+)", sources)
    return {record: re.findall(r"(?m)^  pub (\w+) :", body) for record, head, body in found if "(result : " in head}


def public_clauses(read: Read) -> Libraries:
    """For each crate, each public function with a contract, with its file and its clauses. A clause without
    a name is `ensures`. One that cites a record about its call's result counts as a clause for each field."""
    records = records_of_clauses(read)
    found: Libraries = {}
    for crate in roots():
        out = exported(crate, read)
        for path in files_like(rf"crates/{crate}/src/.*\.rt"):
            for one in functions(read(path)):
                if one.clauses and one.is_public and (one.of if one.in_block else one.name) in out:
                    names = [name for clause, record in one.clauses for name in records.get(record, [clause])]
                    found.setdefault(crate, {})[f"{one.of}::{one.name}" if one.of else one.name] = Clauses(path, names)
    return found
