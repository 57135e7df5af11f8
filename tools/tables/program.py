"""crates/life_tables/stdout: the tables of the program, as JSON.

The crate life_tables prints its refusals with their explanations, and its routes, from the constants that the program
itself uses. `rt ci` compares what it prints with this file.
"""
from __future__ import annotations

import json
from typing import Dict, List, NamedTuple, Tuple

from .texts import Fault, Read

PATH = "crates/life_tables/stdout"


class Program(NamedTuple):
    """Each refusal's number, name and status; the lines of `life explain` by name; each route's method and path."""

    refusals: List[Tuple[str, str, str]]
    explanations: Dict[str, List[str]]
    routes: List[Tuple[str, str]]


def read_program(read: Read) -> Program:
    try:
        tables = json.loads(read(PATH))
        return Program(
            [(str(one["number"]), one["name"], str(one["status"])) for one in tables["refusals"]],
            {name: text.splitlines() for name, text in tables["explanations"].items()},
            [(one["method"], one["path"]) for one in tables["routes"]],
        )
    except (ValueError, KeyError, TypeError, AttributeError) as error:
        raise Fault(f"{PATH}: not the tables of the program: {error}") from error
