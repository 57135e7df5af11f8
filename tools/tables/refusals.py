"""Each refusal and fault: its number, status and sentence, as the program has them, and what documents and scripts say
about it, from docs/refusals.csv."""
from __future__ import annotations

import re
import textwrap
from typing import Dict, Iterator, List, NamedTuple, Optional, Set, Tuple

from .limits import Limits
from .program import PATH as PROGRAM
from .program import Program
from .texts import Fault, Read, markdown, most_columns, rows_of

PATH = "docs/refusals.csv"
# `when` is the cell of API or FORMATS, `command` that of COMMANDS, and `script` what the members' scripts say. `step`
# is the place in the order of checks, if that is not the order of the numbers.
COLUMNS = ["kind", "name", "when", "script", "step", "command"]
# The kinds in their order, and the lines of `life explain` for them.
LINES = {
    "refusal": r"refusal (?P<number>\d+), HTTP status (?P<status>\d+): (?P<sentence>.*)",
    "file": r"fault (?P<number>\d+) of a pattern file: (?P<sentence>.*)",
    "code": r"fault (?P<number>\d+) of a code: (?P<sentence>.*)",
    "program": r"program: (?P<sentence>.*)",
    "gateway": r"gateway(?:, HTTP status (?P<status>[\d, ]+))?: (?P<sentence>.*)",
}
# On the command line these are followed by the name of a fault.
WITH_FAULT = {"bad-pattern", "bad-code"}
# The help of `life explain`, and the most columns of its lines of names. Their first line has 101.
HELP, HELP_COLUMNS = "crates/life_words/src/life_arguments.rt", 104
# The definitions of the crates that give numbers and names to faults.
LABELS = {"file": "crates/life_rle/specs/RleFault.antt", "code": "crates/life_code/specs/CodeFault.antt"}
# A fault that is answered `unavailable`, so nothing explains it.
UNLISTED = "memory"


class Refusal(NamedTuple):
    kind: str
    number: str
    name: str
    status: str
    sentence: str
    when: str
    script: str
    step: str
    command: str

    def order(self) -> int:
        return int(self.step or self.number or 0)


def explained(program: Program) -> Dict[Tuple[str, str], Dict[str, str]]:
    """The number, the status and the sentence of each kind and name."""
    found = {}
    for name, lines in program.explanations.items():
        for line in lines:
            fitting = [(kind, match) for kind, form in LINES.items() if (match := re.fullmatch(form, line))]
            if len(fitting) != 1:
                raise Fault(f"{PROGRAM}: {name}: no kind of refusal has such a line: {line[:60]}")
            kind, match = fitting[0]
            parts = {part: text or "" for part, text in match.groupdict().items()}
            found[kind, name] = {**parts, "status": parts.get("status", "").replace(", ", " ")}
    return found


def read_refusals(read: Read, limits: Limits, program: Program) -> List[Refusal]:
    """The rows of the table, each with what the program says, and the numbers of limits in place of their names."""
    known = explained(program)
    rows = []
    for row in rows_of(read, PATH, COLUMNS):
        kind, name, *cells = (limits.put_into(row[column]) for column in COLUMNS)
        said = known.pop((kind, name), None)
        if said is None:
            raise Fault(f"{PATH}: {kind} {name}: the program does not explain it, or there are two such rows")
        rows.append(Refusal(kind, said.get("number", ""), name, said["status"], said["sentence"], *cells))
    for kind, name in known:
        raise Fault(f"{PATH}: {kind} {name}: the program explains it, and there is no such row")
    for one in rows:
        if not all(text.isdigit() for text in (one.number, one.step) if text):
            raise Fault(f"{PATH}: {one.kind} {one.name}: a step that is not a number")
        # These texts are in single quotes in scripts and on the pages.
        if any(mark in one.sentence + one.script for mark in "'\\\n"):
            raise Fault(f"{PATH}: {one.kind} {one.name}: sentence and script may not contain ' or \\")
    return rows


def compare(refusals: List[Refusal], program: Program, read: Read) -> Iterator[Optional[str]]:
    """For each refusal and fault, the problem if its explanation has another number, name or status than the program;
    and the problem if the help lists other names."""
    wanted: Dict[str, Set[Tuple[str, str, str]]] = {"refusal": set(program.refusals)}
    for kind, path in LABELS.items():
        labels = re.findall(r'(?m)^label_of \(?\w+.* = label (\d+) \(codes "([a-z-]+)"\)$', read(path))
        wanted[kind] = {(number, name, "") for number, name in labels if name != UNLISTED}
    for kind, those in wanted.items():
        listed = {(row.number, row.name, row.status) for row in of_kind(refusals, kind)}
        for one in sorted(those | listed):
            source = LABELS.get(kind, "crates/life_desk/src/refusal.rt")
            text = " ".join(one).rstrip()
            if one not in listed:
                yield f"crates/life_words/src/explain.rt: no {kind} {text}"
            else:
                yield None if one in those else f"{source}: no {kind} {text}"
    names = "\n".join(help_names(program))
    yield None if f"\n{names}\nRefuses:" in read(HELP) else f"{HELP}: the names of `life explain` have to be\n{names}"


def of_kind(refusals: List[Refusal], kind: str) -> List[Refusal]:
    return [row for row in refusals if row.kind == kind]


def help_names(program: Program) -> List[str]:
    """The lines of the names in the help of `life explain`."""
    names = ", ".join(program.explanations)
    front = "Names:   "
    return textwrap.wrap(front + names, HELP_COLUMNS, subsequent_indent=" " * len(front), break_on_hyphens=False)


# ---- the web pages and the members' scripts


def script_sentence(before: str, sentence: str, after: str) -> List[str]:
    """The lines of a sentence of refusals.js, between two texts. One that is too long for a line is in pieces."""
    *lines, last = textwrap.wrap(
        sentence,
        most_columns() - len(f"'{after}"),
        initial_indent=f"{before}'",
        subsequent_indent="    + '",
        break_on_hyphens=False,
    )
    return [*(f"{line} '" for line in lines), f"{last}'{after}"]


def script_sentences(refusals: List[Refusal]) -> List[str]:
    """The constants of refusals.js. A fault's number is its index in the list, so place 0 is empty."""
    keys = {row.name: f"'{row.name}'" if "-" in row.name else row.name for row in refusals}
    archive, gateway = (
        [
            line
            for row in of_kind(refusals, kind)
            for line in script_sentence(f"  {keys[row.name]}: ", row.sentence, ",")
        ]
        for kind in ("refusal", "gateway")
    )
    faults = [
        line for row in of_kind(refusals, "file") for line in script_sentence(f"  ['{row.name}', ", row.sentence, "],")
    ]
    return [
        "export const REFUSALS = {",
        *archive,
        "};",
        "",
        "/** The gateway's own refusals, and the one if no reply comes at all. */",
        "export const GATEWAY = {",
        *gateway,
        "};",
        "",
        "/** The faults of pattern files by number: their names, and what to do. */",
        "export const FAULTS = [",
        "  null,",
        *faults,
        "];",
    ]


def shell_faults(refusals: List[Refusal]) -> List[str]:
    """The function of asking.sh for the faults of pattern files."""
    branches = [f"    {row.number}) echo '{row.name}: {row.script}' ;;" for row in of_kind(refusals, "file")]
    return [
        "# Prints the fault of a pattern file that has this number.",
        "fault() {",
        "  case $1 in",
        *branches,
        '    *) echo "fault $1 of pattern files" ;;',
        "  esac",
        "}",
    ]


def shell_refusals(refusals: List[Refusal]) -> List[str]:
    """The function of asking.sh for the other refusals."""
    rows = of_kind(refusals, "refusal") + of_kind(refusals, "gateway")
    branches = [f"    {row.name}) echo '{row.name}: {row.script}' ;;" for row in rows if row.script]
    return [
        "# Prints the refusal that has this name.",
        "refusal() {",
        "  case $1 in",
        *branches,
        '    *) echo "$1" ;;',
        "  esac",
        "}",
    ]


# ---- documents


def table_of_refusals(refusals: List[Refusal]) -> List[str]:
    rows = of_kind(refusals, "refusal")
    return markdown(
        "Number | Name | Status | When", [f"{row.number} | `{row.name}` | {row.status} | {row.when}" for row in rows]
    )


def table_of_faults(refusals: List[Refusal], kind: str) -> List[str]:
    """The table of the faults of files or of codes, in the order in which they are checked."""
    rows = sorted(of_kind(refusals, kind), key=Refusal.order)
    return markdown("Number | Name | When", [f"{row.number} | `{row.name}` | {row.when}" for row in rows])


def table_of_lines(refusals: List[Refusal]) -> List[str]:
    """The table of the lines that commands print. Refusals with the same cell share a row."""
    shared: Dict[str, List[str]] = {}
    for row in sorted((row for row in refusals if row.command), key=Refusal.order):
        line = f"`refused: {row.name}{' NAME' if row.name in WITH_FAULT else ''}`"
        shared.setdefault(row.command, []).append(line)
    return markdown(
        "Line, in the order in which a command checks | When",
        [f"{', '.join(lines)} | {cell}" for cell, lines in shared.items()],
    )
